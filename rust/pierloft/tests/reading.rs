//! Reading: document 01's batch and its table, errors, refusals, views, dialects.
use pierloft::{
    batches, batches_from, decode, Batch, Decoded, Dialect, Entry, Item, Outcome, ReadError,
    Refusal, ValueType, Writer,
};

mod damage;
use damage::{damages, start, CLEAR, END};

/// Under TEST, a batch of seqno 7 with one value in keyspace 2, key `a`, value `xy`: 50 bytes; and three zeros behind it.
const IMAGE: [u8; 53] = [
    1, 1, 0, 0, 0, 7, 0, 0, 0, 0, 0, 0, 0, // Start
    2, 0, 0, 2, 0, 0, 0, 0, 0, 0, 0, 1, 0, 2, 0, 0, 0, 2, 0, 0, 0, 0x61, 0x78, 0x79, // Item
    3, 0x58, 0xad, 0x25, 0xba, 0x4e, 0xb1, 0x51, 0xdd, 0x4a, 0x4c, 0x31, 1, // End
    0, 0, 0,
];

const ITEM: Item = Item {
    keyspace: 2,
    key: b"a",
    value: b"xy",
    value_type: ValueType::Value,
};

/// Outcome, last valid position and bytes to keep, of an image that shows no batch.
fn ends(image: &[u8]) -> (Outcome, usize, usize) {
    let mut journal = batches(image, Dialect::TEST);
    let first = journal.next().map(|batch| batch.unwrap_err());
    assert!(journal.next().is_none());
    let kept = journal.kept().unwrap();
    let outcome = journal.outcome().unwrap();
    let is_error = !matches!(outcome, Outcome::Clean | Outcome::Torn);
    assert_eq!(
        first.map(|e| (e.outcome(), e.number())),
        is_error.then_some((Some(outcome), outcome.number()))
    );
    (outcome, journal.valid(), kept)
}

#[test]
fn document_01s_batch() {
    let mut journal = batches(&IMAGE, Dialect::TEST);
    assert_eq!(journal.refusal(), None);
    assert_eq!(journal.valid(), 0);
    let batch = journal.next().unwrap().unwrap();
    assert_eq!((batch.at(), batch.end(), batch.encoded_len()), (0, 50, 50));
    assert_eq!((batch.seqno(), batch.count()), (7, 1));
    assert_eq!(batch.body(), &IMAGE[13..37]);
    assert_eq!(batch.entries().collect::<Vec<_>>(), [Entry::Item(ITEM)]);
    assert_eq!(journal.valid(), 50);
    assert!(journal.next().is_none());
    assert!(journal.next().is_none(), "an end is an end");
    assert_eq!(journal.outcome(), Ok(Outcome::Torn));
    assert_eq!(journal.kept(), Ok(50));
    assert_eq!(journal.valid(), 50);
}

#[test]
fn an_outcome_reads_on_to_the_end() {
    assert_eq!(batches(&IMAGE, Dialect::TEST).outcome(), Ok(Outcome::Torn));
    assert_eq!(batches(&IMAGE, Dialect::TEST).kept(), Ok(50));
    assert_eq!(
        batches(&IMAGE[..50], Dialect::TEST).outcome(),
        Ok(Outcome::Clean)
    );
}

#[test]
fn cut_anywhere() {
    for cut in 0..50 {
        let wanted = if cut == 0 {
            Outcome::Clean
        } else {
            Outcome::Torn
        };
        assert_eq!(ends(&IMAGE[..cut]), (wanted, 0, 0), "cut at {cut}");
    }
}

#[test]
fn the_table_of_document_01() {
    assert_eq!(ends(&[]), (Outcome::Clean, 0, 0));
    assert_eq!(ends(&[0]), (Outcome::Torn, 0, 0));
    assert_eq!(ends(&start(1)), (Outcome::Torn, 0, 0));
    let [(p7, _), (p10, _), (mismatch, _)] = damages(0);
    assert_eq!(ends(&p7), (Outcome::Insufficient, 0, 26));
    let p8 = [start(1), start(1)].concat();
    assert_eq!(ends(&p8), (Outcome::Torn, 0, 0));
    assert_eq!(ends(&END), (Outcome::Torn, 0, 0));
    assert_eq!(ends(&p10), (Outcome::TooMany, 0, 22));
    assert_eq!(ends(&CLEAR), (Outcome::Torn, 0, 0));
    assert_eq!(ends(&mismatch), (Outcome::Mismatch, 0, 26));
}

#[test]
fn outcomes_in_words() {
    let all = [
        (Outcome::Clean, "0 clean"),
        (Outcome::Torn, "1 torn"),
        (Outcome::Insufficient, "2 INSUFFICIENT"),
        (Outcome::TooMany, "3 TOO MANY"),
        (Outcome::Mismatch, "4 MISMATCH"),
    ];
    for (outcome, words) in all {
        assert_eq!(outcome.to_string(), words);
    }
}

#[test]
fn every_byte_counts() {
    for at in 0..50 {
        let mut image = IMAGE[..50].to_vec();
        image[at] ^= 0x80;
        let mut journal = batches(&image, Dialect::TEST);
        // the seqno is not covered by the checksum, nor is the value length, which is not used
        let free = (5..13).contains(&at) || (26..30).contains(&at);
        assert_eq!(matches!(journal.next(), Some(Ok(_))), free, "byte {at}");
    }
}

/// Keys and values live as long as the image: neither the iterators nor the batches hold them.
fn parts<'a>(image: &'a [u8]) -> Vec<&'a [u8]> {
    let batches: Result<Vec<Batch<'a>>, _> = batches(image, Dialect::TEST).collect();
    let mut parts = Vec::new();
    for batch in &batches.unwrap() {
        parts.push(batch.body());
        for entry in batch {
            if let Entry::Item(Item { key, value, .. }) = entry {
                parts.extend([key, value]);
            }
        }
    }
    parts
}

#[test]
fn views_are_the_images_own_bytes() {
    let image = IMAGE.to_vec();
    let parts = parts(&image);
    assert_eq!(parts, [&image[13..37], b"a", b"xy"]);
    for (part, at) in parts.iter().zip([13, 34, 35]) {
        assert_eq!(part.as_ptr(), image[at..].as_ptr());
    }
}

#[test]
fn entries_by_themselves() {
    let test = Dialect::TEST;
    let start = Decoded::Start {
        count: 1,
        seqno: 7,
        next: 13,
    };
    let item = Decoded::Entry {
        entry: Entry::Item(ITEM),
        next: 37,
    };
    let end = Decoded::End {
        checksum: 0xdd51b14eba25ad58,
        next: 50,
    };
    assert_eq!(decode(&IMAGE, 0, test), Ok(start));
    assert_eq!(decode(&IMAGE, 13, test), Ok(item));
    assert_eq!(decode(&IMAGE, 37, test), Ok(end));
    assert_eq!(decode(&IMAGE, 50, test), Err(Refusal::Tag));
    assert_eq!(decode(&IMAGE, 53, test), Err(Refusal::Incomplete));
    assert_eq!(decode(&IMAGE, 54, test), Err(Refusal::State));
    assert_eq!(decode(&IMAGE[..36], 13, test), Err(Refusal::Incomplete));
    let other = |types, none| Dialect::new(test.magic(), types, none).unwrap();
    assert_eq!(
        decode(&IMAGE, 13, other([9, 1, 2, 3], 0)),
        Err(Refusal::ValueType)
    );
    assert_eq!(
        decode(&IMAGE, 13, other([0, 1, 2, 3], 1)),
        Err(Refusal::Compression)
    );
    assert_eq!(decode(&IMAGE, 37, Dialect::SHIPPED), Err(Refusal::Trailer));
    let clear = [4, 2, 0, 0, 0, 0, 0, 0, 1];
    let entry = Entry::Clear {
        keyspace: 1 << 56 | 2,
    };
    assert_eq!(
        decode(&clear, 0, test),
        Ok(Decoded::Entry { entry, next: 9 })
    );
}

#[test]
fn each_type_by_its_code() {
    for (place, wanted) in ValueType::ALL.into_iter().enumerate() {
        let mut codes = [5, 6, 7, 8];
        codes[place] = 0;
        let dialect = Dialect::new(Dialect::TEST.magic(), codes, 0).unwrap();
        let batch = batches(&IMAGE, dialect).next().unwrap().unwrap();
        assert_eq!(batch.items().next().unwrap().value_type, wanted);
    }
}

#[test]
fn dialects() {
    assert_eq!(Dialect::SHIPPED.magic(), [0x46, 0x4a, 0x4c, 3]);
    assert_eq!(Dialect::SHIPPED.types(), [0, 1, 2, 4]);
    assert_eq!(Dialect::SHIPPED.none(), 0);
    for known in [Dialect::SHIPPED, Dialect::TEST] {
        assert_eq!(
            Dialect::new(known.magic(), known.types(), known.none()),
            Ok(known)
        );
    }
    let refused = Err(Refusal::Dialect);
    assert_eq!(Dialect::new(&[], [0, 1, 2, 3], 0), refused);
    assert_eq!(Dialect::new(&[1; 9], [0, 1, 2, 3], 0), refused);
    assert_eq!(Dialect::new(&[1, 0], [0, 1, 2, 3], 0), refused);
    for (a, b) in [(0, 1), (0, 2), (0, 3), (1, 2), (1, 3), (2, 3)] {
        let mut types = [0, 1, 2, 3];
        types[a] = types[b];
        assert_eq!(Dialect::new(b"JL1", types, 0), refused);
    }
    assert!(Dialect::new(&[0, 0, 0, 0, 0, 0, 0, 1], [3, 2, 1, 0], 255).is_ok());
}

/// Asked for and never touched: it takes no memory.
fn too_long() -> Vec<u8> {
    vec![0; 1 << 32]
}

#[test]
fn an_image_that_is_too_long() {
    let image = too_long();
    let mut journal = batches(&image, Dialect::TEST);
    assert_eq!(journal.refusal(), Some(Refusal::TooLong));
    let refused = ReadError::Refused(Refusal::TooLong);
    assert_eq!(journal.next().unwrap().unwrap_err(), refused);
    assert!(journal.next().is_none(), "one error, once");
    assert_eq!(journal.outcome(), Err(Refusal::TooLong));
    assert_eq!(journal.kept(), Err(Refusal::TooLong));
    assert_eq!(journal.valid(), 0);
    assert_eq!(decode(&image, 0, Dialect::TEST), Err(Refusal::TooLong));
    // one byte less is read, and torn at its first
    let mut journal = batches(&image[1..], Dialect::TEST);
    assert_eq!(journal.refusal(), None);
    assert_eq!(journal.outcome(), Ok(Outcome::Torn));
}

/// A loop with `?`, as one writes it.
fn seqnos(image: &[u8]) -> Result<Vec<u64>, ReadError> {
    let mut seqnos = vec![];
    for batch in batches(image, Dialect::TEST) {
        seqnos.push(batch?.seqno());
    }
    Ok(seqnos)
}

/// Behind a good batch: the batch, one error, and nothing more.
#[test]
fn damage_is_an_error() {
    assert_eq!(seqnos(&IMAGE), Ok(vec![7]), "torn is no error");
    assert_eq!(seqnos(&IMAGE[..50]), Ok(vec![7]), "nor is clean");
    for (damage, error) in damages(50) {
        let image = [&IMAGE[..50], &damage].concat();
        assert_eq!(seqnos(&image), Err(error));

        let mut journal = batches(&image, Dialect::TEST);
        assert_eq!(journal.next().unwrap().unwrap().seqno(), 7);
        assert_eq!(journal.next().unwrap().unwrap_err(), error);
        assert!(journal.next().is_none(), "one error, once");
        assert_eq!(journal.outcome().ok(), error.outcome());
        assert_eq!(journal.valid(), 50);
        assert_eq!(journal.kept(), Ok(image.len()), "all is to be kept");

        // who asks for the outcome has been told, and the iteration is over
        let mut journal = batches(&image, Dialect::TEST);
        assert_eq!(journal.outcome().ok(), error.outcome());
        assert!(journal.next().is_none());
    }
    for (damage, error) in damages(0) {
        assert_eq!(seqnos(&damage), Err(error));
    }
}

#[test]
fn errors_in_words() {
    let all = [
        (
            ReadError::Insufficient { at: 5 },
            "2 INSUFFICIENT: the batch at byte 5 ends with entries still to come",
        ),
        (
            ReadError::TooMany { at: 5 },
            "3 TOO MANY: the batch at byte 5 has more entries than it counts",
        ),
        (
            ReadError::Mismatch { at: 5 },
            "4 MISMATCH: the checksum of the batch at byte 5 is not that of its entries",
        ),
        (
            Refusal::TooLong.into(),
            "21 TOO LONG: more than 4,294,967,295 bytes",
        ),
    ];
    for (error, words) in all {
        assert_eq!(error.to_string(), words);
        assert!(words.starts_with(&error.number().to_string()));
    }
}

#[cfg(feature = "std")]
#[test]
fn errors_of_std() {
    use std::io::{Error, ErrorKind};
    let kinds = [
        (
            Error::from(ReadError::Mismatch { at: 5 }),
            ErrorKind::InvalidData,
        ),
        (
            ReadError::Refused(Refusal::TooLong).into(),
            ErrorKind::InvalidInput,
        ),
        (Refusal::Tag.into(), ErrorKind::InvalidData),
        (Refusal::State.into(), ErrorKind::InvalidInput),
        (
            Refusal::NoRoom { left: 1, needed: 2 }.into(),
            ErrorKind::WriteZero,
        ),
    ];
    for (error, kind) in kinds {
        assert_eq!(error.kind(), kind, "{error}");
    }
    let error = Error::from(ReadError::Mismatch { at: 5 });
    let inner = error.get_ref().unwrap().downcast_ref::<ReadError>();
    assert_eq!(inner, Some(&ReadError::Mismatch { at: 5 }));
}

/// From every position, as the rest of the image would be read by itself.
#[test]
fn from_a_position() {
    let image = [&IMAGE[..50], &IMAGE].concat();
    for position in 0..=image.len() {
        let mut journal = batches_from(&image, position, Dialect::TEST);
        assert_eq!((journal.refusal(), journal.valid()), (None, position));
        let places = |batch: Result<Batch, ReadError>, by: usize| {
            let place = batch.map(|batch| (batch.at() + by, batch.end() + by));
            place.map_err(ReadError::number)
        };
        let mut alone = batches(&image[position..], Dialect::TEST);
        let seen: Vec<_> = journal.by_ref().map(|b| places(b, 0)).collect();
        let wanted: Vec<_> = alone.by_ref().map(|b| places(b, position)).collect();
        assert_eq!(seen, wanted);
        assert_eq!(journal.outcome(), alone.outcome());
        assert_eq!(journal.valid(), position + alone.valid());
        assert_eq!(journal.kept(), alone.kept().map(|kept| kept + position));
    }
    for position in [image.len() + 1, usize::MAX] {
        let mut journal = batches_from(&image, position, Dialect::TEST);
        assert_eq!(journal.refusal(), Some(Refusal::State));
        let refused = ReadError::Refused(Refusal::State);
        assert_eq!(journal.next().unwrap().unwrap_err(), refused);
        assert!(journal.next().is_none());
        assert_eq!(journal.valid(), position);
        assert_eq!(journal.outcome(), Err(Refusal::State));
        assert_eq!(journal.kept(), Err(Refusal::State));
    }
}

/// The two lists of fjall's reader, and how many entries are still to come.
#[test]
fn items_and_clears() {
    let clear = |keyspace| Entry::Clear { keyspace };
    let item = |keyspace| Entry::Item(Item { keyspace, ..ITEM });
    let put = [clear(5), item(1), item(2), clear(4), item(3), clear(5)];
    let mut buffer = [0; 200];
    let mut writer = Writer::new(&mut buffer, Dialect::TEST);
    writer.batch(&put, 7).unwrap();
    let batch = batches(writer.written(), Dialect::TEST)
        .next()
        .unwrap()
        .unwrap();
    assert_eq!(batch.entries().collect::<Vec<_>>(), put);
    assert_eq!((&batch).into_iter().collect::<Vec<_>>(), put);
    let keyspaces: Vec<_> = batch.items().map(|item| item.keyspace).collect();
    assert_eq!(keyspaces, [1, 2, 3]);
    assert_eq!(batch.clears().collect::<Vec<_>>(), [5, 4, 5]);

    let mut entries = batch.entries();
    for left in (0..6).rev() {
        assert!(entries.next().is_some());
        assert_eq!(
            (entries.len(), entries.size_hint()),
            (left, (left, Some(left)))
        );
    }
    assert!(entries.next().is_none());
    assert_eq!(entries.len(), 0);
}

/// `Debug` ends in logs: lengths, and nothing of what keys and values say.
#[test]
fn debug_shows_lengths() {
    let mut journal = batches(&IMAGE, Dialect::TEST);
    let dialect = "Dialect { magic: [74, 76, 49, 1], types: [0, 1, 2, 3], none: 0 }";
    let batch = journal.next().unwrap().unwrap();
    let item = "Item { keyspace: 2, key: 1 bytes, value: 2 bytes, value_type: Value }";
    for (shown, wanted) in [
        (
            format!("{journal:?}"),
            format!("Batches {{ image: 53 bytes, dialect: {dialect}, valid: 50, over: false }}"),
        ),
        (
            format!("{batch:?}"),
            "Batch { at: 0, end: 50, seqno: 7, count: 1, body: 24 bytes }".into(),
        ),
        (
            format!("{:?}", batch.entries()),
            "Entries { body: 24 bytes, at: 0, left: 1 }".into(),
        ),
        (
            format!("{:?}", batch.entries().next()),
            format!("Some(Item({item}))"),
        ),
        (
            format!("{:?}", decode(&IMAGE, 13, Dialect::TEST)),
            format!("Ok(Entry {{ entry: Item({item}), next: 37 }})"),
        ),
    ] {
        assert_eq!(shown, wanted);
    }
}
