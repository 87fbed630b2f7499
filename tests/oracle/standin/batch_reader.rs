// fjall's batch_reader.rs, unchanged, and one accessor: its field last_valid_pos is private.
include!("origin_batch_reader.rs");

impl JournalBatchReader {
    pub(crate) fn valid(&self) -> u64 {
        self.last_valid_pos
    }
}
