//! Reading and writing beside fjall's own JournalBatchReader and Writer on a file in memory; and how the time grows with the image.
use crate::clock::race;
use crate::hashing::shipped;
use crate::heap::asked;
use crate::line;
use fjall::{Fjall, Items};
use pierloft::{batches, encoded_len, Dialect, Entry, Item, Outcome, ValueType, Writer, WriterState};
use std::hint::black_box;
use std::os::unix::fs::FileExt;

const DIALECT: Dialect = Dialect::SHIPPED;
const KEYSPACE: u64 = 2;
const KEY: usize = 8;
/// Entries to a batch.
const COUNT: usize = 16;

const READER: &str = "fjall's JournalBatchReader";
const WRITER: &str = "fjall's Writer";

/// A batch of `COUNT` items, to be written again and again.
struct Load {
    keys: Vec<[u8; KEY]>,
    values: Vec<Vec<u8>>,
}

impl Load {
    fn new(value: usize) -> Load {
        Load {
            keys: (0..COUNT as u64).map(|i| (i * 0x9e37_79b9_7f4a_7c15).to_be_bytes()).collect(),
            values: (0..COUNT).map(|i| (0..value).map(|j| (i * 31 + j * 7) as u8).collect()).collect(),
        }
    }

    fn items(&self) -> impl Iterator<Item = (&[u8], &[u8])> {
        self.keys.iter().map(<[u8; KEY]>::as_slice).zip(self.values.iter().map(Vec::as_slice))
    }

    /// So many batches fill `size` bytes.
    fn times(&self, size: usize) -> u64 {
        let item = |(key, value)| Entry::Item(Item { keyspace: KEYSPACE, key, value, value_type: ValueType::Value });
        let batch: Vec<Entry> = self.items().map(item).collect();
        (size / encoded_len(&batch, DIALECT)) as u64
    }
}

/// Items, and the bytes of their keys and values.
fn read(image: &[u8]) -> (usize, usize) {
    let mut journal = batches(image, DIALECT);
    let (mut items, mut bytes) = (0, 0);
    for batch in &mut journal {
        for item in batch.expect("no damage").items() {
            items += 1;
            bytes += item.key.len() + item.value.len();
        }
    }
    assert_eq!(journal.outcome(), Ok(Outcome::Clean));
    (items, bytes)
}

/// The items of a load written `times` times, one batch each: the bytes written. Over the buffer as it is: that `Writer::new` sets it to zero
/// is a cost of the journal, once, and not of its batches.
fn write(buffer: &mut [u8], load: &Load, times: u64) -> usize {
    let mut state = WriterState::over_zeros(DIALECT);
    let mut writer = Writer::attach(buffer, &mut state);
    for seqno in 0..times {
        writer.open(COUNT as u64, seqno).expect("room");
        for (key, value) in load.items() {
            writer.put_item(KEYSPACE, key, value, ValueType::Value).expect("room");
        }
        writer.close().expect("room");
    }
    writer.position()
}

fn compare(fjall: &Fjall, size: usize, value: usize, rounds: usize) {
    let load = Load::new(value);
    let times = load.times(size);
    let theirs = Items::new(KEYSPACE, load.items());
    let input = format!("{} MiB, values of {value} B", size >> 20);
    let mut buffer = vec![0; size];
    let length = write(&mut buffer, &load, times);
    let mut image = vec![0; length];

    // the same bytes from both writers, the same items from both readers
    fjall.lay(&[]);
    assert_eq!(fjall.write(&theirs, times), length);
    fjall.file().read_exact_at(&mut image, 0).expect("read");
    assert!(image == buffer[..length], "the writers differ");
    assert_eq!(read(&image), fjall.read(), "the readers differ");

    // the heap
    let asked_by_reading = asked(&mut || {
        black_box(read(&image));
    });
    let asked_by_writing = asked(&mut || {
        black_box(write(&mut buffer, &load, times));
    });
    assert_eq!((asked_by_reading, asked_by_writing), (0, 0), "the heap was asked for memory");

    let [ours, ours_from_file, hash, their] = race(
        rounds,
        [
            &mut || {
                black_box(read(black_box(&buffer[..length])));
            },
            &mut || {
                fjall.file().read_exact_at(&mut image, 0).expect("read");
                black_box(read(black_box(&image)));
            },
            &mut || {
                black_box(shipped(black_box(&buffer[..length])));
            },
            &mut || {
                black_box(fjall.read());
            },
        ],
    );
    line("reading", &input, READER, ours, their, "10 times as fast");
    line("reading, the file read into memory first", &input, READER, ours_from_file, their, "");
    line("no reading, only libxxhash's hash of the image", &input, READER, hash, their, "");

    let [ours, ours_to_file, their] = race(
        rounds,
        [
            &mut || {
                black_box(write(black_box(&mut buffer), &load, times));
            },
            &mut || {
                fjall.lay(&[]);
                let wrote = write(&mut image, &load, times);
                fjall.file().write_all_at(&image[..wrote], 0).expect("write");
            },
            &mut || {
                fjall.lay(&[]);
                black_box(fjall.write(&theirs, times));
            },
        ],
    );
    line("writing", &input, WRITER, ours, their, "3 times as fast");
    line("writing, and then to the file", &input, WRITER, ours_to_file, their, "");
}

/// The time of a byte, beside that of 1 MiB.
fn growth(value: usize, quick: bool) {
    let load = Load::new(value);
    let mut buffer = vec![0; 1 << 30];
    let mut first = [0.0; 3];
    for (size, name, rounds) in [(1 << 20, "1 MiB", 60), (1 << 26, "64 MiB", 8), (1 << 30, "1 GiB", 3)] {
        let times = load.times(size);
        let length = write(&mut buffer, &load, times);
        let copy = buffer[..length].to_vec();
        let took = race(
            if quick { 1 } else { rounds },
            [
                &mut || {
                    black_box(read(&copy));
                },
                &mut || {
                    black_box(write(&mut buffer, &load, times));
                },
                // what the memory alone does to the time
                &mut || {
                    black_box(shipped(black_box(&copy)));
                },
            ],
        );
        let each = took.map(|time| time / length as f64);
        if first[0] == 0.0 {
            first = each;
            continue;
        }
        let input = format!("{name}, values of {value} B");
        line("reading, time of a byte", &input, "the same at 1 MiB", each[0], first[0], "1, linear");
        line("writing, time of a byte", &input, "the same at 1 MiB", each[1], first[1], "1, linear");
        line("libxxhash's hash, time of a byte", &input, "the same at 1 MiB", each[2], first[2], "");
    }
}

pub fn run(quick: bool) {
    let fjall = Fjall::new().expect("a file in memory");
    for size in [1 << 20, 1 << 26] {
        for value in [16, 4096] {
            let rounds = if size == 1 << 20 { 40 } else { 5 };
            compare(&fjall, size, value, if quick { 2 } else { rounds });
        }
    }
    for value in [16, 4096] {
        growth(value, quick);
    }
}
