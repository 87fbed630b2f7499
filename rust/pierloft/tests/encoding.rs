//! The encoders, and that the lengths which the crate tells are the library's.
use pierloft::{
    decode, encode_clear, encode_end, encode_item, encode_start, encoded_len, Decoded, Dialect,
    Entry, Item, Refusal, ValueType, Writer,
};

/// Magics of every length.
fn dialects() -> impl Iterator<Item = Dialect> {
    (1..=8).map(|length| Dialect::new(&b"pierloft"[..length], [7, 6, 5, 4], 3).unwrap())
}

type Encoder<'a> = &'a dyn Fn(&mut [u8]) -> Result<usize, Refusal>;

/// Exactly enough is taken and only that is written; of one byte less, none. Gives the entry.
fn encoded(length: usize, encoder: Encoder) -> Vec<u8> {
    let mut buffer = vec![0xee; length + 3];
    assert_eq!(encoder(&mut buffer), Ok(length));
    assert_eq!(buffer[length..], [0xee; 3]);
    let mut exact = vec![0; length];
    assert_eq!(encoder(&mut exact), Ok(length));
    assert!(exact == buffer[..length]);
    let mut short = vec![0xee; length - 1];
    let (left, needed) = (length - 1, length);
    assert_eq!(encoder(&mut short), Err(Refusal::NoRoom { left, needed }));
    assert!(short.iter().all(|&byte| byte == 0xee));
    exact
}

#[test]
fn entries_alone() {
    for dialect in dialects() {
        let image = encoded(13, &|buffer| encode_start(buffer, 2, 1 << 40, dialect));
        let (count, seqno, next) = (2, 1 << 40, 13);
        let start = Decoded::Start { count, seqno, next };
        assert_eq!(decode(&image, 0, dialect), Ok(start));

        let next = 9 + dialect.magic().len();
        let image = encoded(next, &|buffer| encode_end(buffer, 5, dialect));
        let end = Decoded::End { checksum: 5, next };
        assert_eq!(decode(&image, 0, dialect), Ok(end));

        let entry = Entry::Clear { keyspace: 9 };
        let next = entry.encoded_len();
        let image = encoded(next, &|buffer| encode_clear(buffer, 9, dialect));
        assert_eq!(
            decode(&image, 0, dialect),
            Ok(Decoded::Entry { entry, next })
        );
    }
}

#[test]
fn items_alone() {
    let long = [7; 65536];
    for (dialect, key, value) in dialects().flat_map(|dialect| {
        [(0, 0), (1, 0), (0, 1), (3, 5), (65535, 70)].map(|(key, value)| (dialect, key, value))
    }) {
        let value_type = ValueType::ALL[value % 4];
        let item = Item {
            keyspace: u64::MAX,
            key: &long[..key],
            value: &long[..value],
            value_type,
        };
        let next = item.encoded_len();
        let image = encoded(next, &|buffer| {
            encode_item(buffer, u64::MAX, item.key, item.value, value_type, dialect)
        });
        let entry = Entry::Item(item);
        assert_eq!(entry.encoded_len(), next);
        assert_eq!(
            decode(&image, 0, dialect),
            Ok(Decoded::Entry { entry, next })
        );
    }
    // the key comes before the room
    let (dialect, value_type) = (Dialect::TEST, ValueType::Value);
    for size in [0, 90000] {
        let mut buffer = vec![0xee; size];
        let refused = encode_item(&mut buffer, 1, &long, b"", value_type, dialect);
        assert_eq!(refused, Err(Refusal::Key));
        assert!(buffer.iter().all(|&byte| byte == 0xee));
    }
}

#[test]
fn a_buffer_that_is_too_long() {
    let mut buffer = vec![0; 1 << 32];
    let dialect = Dialect::TEST;
    let refused = Err(Refusal::TooLong);
    assert_eq!(encode_start(&mut buffer, 1, 1, dialect), refused);
    assert_eq!(encode_end(&mut buffer, 1, dialect), refused);
    assert_eq!(encode_clear(&mut buffer, 1, dialect), refused);
    let item = encode_item(&mut buffer, 1, b"a", b"", ValueType::Value, dialect);
    assert_eq!(item, refused);
    assert_eq!(encode_start(&mut buffer[1..], 1, 1, dialect), Ok(13));
}

/// What `encoded_len` tells of a batch is what every way of writing it takes.
#[test]
fn batches_of_every_magic() {
    for dialect in dialects() {
        let clear = Entry::Clear { keyspace: 1 };
        let item = Item {
            keyspace: 1,
            key: b"key",
            value: b"value",
            value_type: ValueType::Value,
        };
        assert_eq!(encoded_len(&[], dialect), 0);
        let mut buffer = [0; 400];
        let mut writer = Writer::new(&mut buffer, dialect);
        let one = encoded_len(&[clear], dialect);
        assert_eq!(writer.write_clear(1, 1), Ok(one));
        let one = encoded_len(&[Entry::Item(item)], dialect);
        let wrote = writer.write_raw(1, b"key", b"value", ValueType::Value, 2);
        assert_eq!(wrote, Ok(one));
        let all = [clear, Entry::Item(item), clear];
        assert_eq!(writer.batch(&all, 3), Ok(encoded_len(&all, dialect)));
    }
}
