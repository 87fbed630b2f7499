// fjall's file.rs, unchanged, but for the magic, which is the dialect's (below).
#[path = "origin_file.rs"]
mod origin;
pub use origin::fsync_directory;
