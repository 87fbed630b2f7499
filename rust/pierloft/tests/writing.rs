//! Writing: document 01's bytes, what is read back, every refusal, and that a refused call changes nothing.
use pierloft::{
    batches, decode, encoded_len, Decoded, Dialect, Entry, Item, Outcome, ReadError, Refusal,
    ValueType, Writer, WriterState,
};

mod damage;

const V: ValueType = ValueType::Value;

const fn item<'a>(keyspace: u64, key: &'a [u8], value: &'a [u8]) -> Entry<'a> {
    Entry::Item(Item {
        keyspace,
        key,
        value,
        value_type: V,
    })
}

/// The sequence numbers of a journal that is clean or torn.
fn seqnos(image: &[u8]) -> Vec<u64> {
    let batches = batches(image, Dialect::TEST);
    batches.map(|batch| batch.unwrap().seqno()).collect()
}

#[test]
fn document_01s_batch() {
    let wanted = [
        1, 1, 0, 0, 0, 7, 0, 0, 0, 0, 0, 0, 0, 2, 0, 0, 2, 0, 0, 0, 0, 0, 0, 0, 1, 0, 2, 0, 0, 0,
        2, 0, 0, 0, 0x61, 0x78, 0x79, 3, 0x58, 0xad, 0x25, 0xba, 0x4e, 0xb1, 0x51, 0xdd, 0x4a,
        0x4c, 0x31, 1,
    ];
    let item = item(2, b"a", b"xy");

    // by calls, by one call, and as a batch; the buffer has exactly the room
    let mut buffer = [0xee; 50];
    let mut writer = Writer::new(&mut buffer, Dialect::TEST);
    assert_eq!(writer.open(1, 7), Ok(13));
    assert!(writer.is_open());
    assert_eq!((writer.position(), writer.left()), (13, 1));
    assert_eq!(writer.put_item(2, b"a", b"xy", V), Ok(24));
    assert_eq!((writer.position(), writer.left()), (37, 0));
    assert_eq!(writer.close(), Ok(13));
    assert!(!writer.is_open());
    assert_eq!(writer.written(), wanted);

    let mut buffer = [0xee; 50];
    let mut writer = Writer::new(&mut buffer, Dialect::TEST);
    assert_eq!(writer.write_raw(2, b"a", b"xy", V, 7), Ok(50));
    assert_eq!(writer.written(), wanted);

    let mut buffer = [0xee; 50];
    let mut writer = Writer::new(&mut buffer, Dialect::TEST);
    assert_eq!(writer.batch(&[item], 7), Ok(50));
    assert_eq!(writer.written(), wanted);
}

/// Made anew by a simple rule from a seed, so that every run has the same.
struct Numbers(u64);

impl Numbers {
    fn below(&mut self, bound: u64) -> u64 {
        self.0 = self
            .0
            .wrapping_mul(6364136223846793005)
            .wrapping_add(1442695040888963407);
        (self.0 >> 33) % bound
    }

    fn bytes(&mut self, length: u64) -> Vec<u8> {
        (0..length).map(|_| self.below(256) as u8).collect()
    }
}

/// Batches of entries of every kind, read back as they were put, by each way of writing them.
#[test]
fn round_trips() {
    let mut numbers = Numbers(2081);
    for round in 0..200u64 {
        let dialect = [Dialect::SHIPPED, Dialect::TEST][round as usize % 2];
        let parts: Vec<Vec<(Vec<u8>, Vec<u8>)>> = (0..numbers.below(6))
            .map(|_| {
                let entries = 1 + numbers.below(5);
                (0..entries)
                    .map(|_| {
                        let key = 1 + numbers.below(40);
                        let value = numbers.below(3) * numbers.below(300);
                        (numbers.bytes(key), numbers.bytes(value))
                    })
                    .collect()
            })
            .collect();
        let put: Vec<Vec<Entry>> = parts
            .iter()
            .map(|batch| {
                let entry = |(key, value): &'_ (Vec<u8>, Vec<u8>)| (key.len(), value.len());
                batch
                    .iter()
                    .map(|part| match entry(part) {
                        (key, 0) if key % 3 == 0 => Entry::Clear {
                            keyspace: key as u64,
                        },
                        (key, _) => Entry::Item(Item {
                            keyspace: u64::MAX / key as u64,
                            key: &part.0,
                            value: &part.1,
                            value_type: ValueType::ALL[key % 4],
                        }),
                    })
                    .collect()
            })
            .collect();
        let mut buffer = vec![0xee; 1 << 16];
        let mut writer = Writer::new(&mut buffer, dialect);
        for (entries, seqno) in put.iter().zip(round..) {
            let at = writer.position();
            let wrote = match entries[..] {
                [Entry::Clear { keyspace }] => writer.write_clear(keyspace, seqno),
                [Entry::Item(i)] => {
                    writer.write_raw(i.keyspace, i.key, i.value, i.value_type, seqno)
                }
                _ => writer.batch(entries, seqno),
            };
            assert_eq!(wrote, Ok(writer.position() - at));
            assert_eq!(wrote, Ok(encoded_len(entries, dialect)));
        }
        let mut journal = batches(writer.written(), dialect);
        let read: Vec<_> = journal
            .by_ref()
            .map(Result::unwrap)
            .map(|b| (b.seqno(), b.count(), b.entries().collect::<Vec<_>>()))
            .collect();
        let wanted: Vec<_> = put
            .into_iter()
            .zip(round..)
            .map(|(e, seqno)| (seqno, e.len() as u64, e))
            .collect();
        assert_eq!(read, wanted);
        assert_eq!(journal.outcome(), Ok(Outcome::Clean));
        assert_eq!(journal.kept(), Ok(writer.position()));
    }
}

type Before<'f> = dyn Fn(&mut Writer<'_>) + 'f;
type Call<'f> = dyn Fn(&mut Writer<'_>) -> Result<usize, Refusal> + 'f;

/// The refusal of a call behind others, on a buffer of `size` bytes that are not zero. With and without the call, the writer's state and every
/// byte of the buffer are the same.
fn refused(size: usize, before: &Before<'_>, call: &Call<'_>) -> Refusal {
    let run = |also: bool| {
        let mut buffer = vec![0xee; size];
        let mut state = WriterState::over_zeros(Dialect::TEST);
        let mut writer = Writer::attach(&mut buffer, &mut state);
        before(&mut writer);
        let answer = also.then(|| call(&mut writer));
        (buffer, state, answer)
    };
    let (bytes, stands, answer) = run(true);
    let (bytes_before, stood, _) = run(false);
    assert_eq!(stands, stood);
    assert!(bytes == bytes_before, "a refused call wrote");
    answer.unwrap().unwrap_err()
}

fn outside(_: &mut Writer<'_>) {}

fn inside(writer: &mut Writer<'_>) {
    writer.open(2, 7).unwrap();
}

fn full(writer: &mut Writer<'_>) {
    writer.open(1, 7).unwrap();
    writer.put_clear(3).unwrap();
}

#[test]
fn order() {
    let order = Refusal::Order;
    assert_eq!(refused(500, &inside, &|w| w.open(1, 8)), order);
    assert_eq!(refused(500, &inside, &|w| w.open(0, 8)), order);
    assert_eq!(
        refused(500, &inside, &|w| w.write_raw(1, b"a", b"", V, 8)),
        order
    );
    assert_eq!(refused(500, &inside, &|w| w.write_clear(1, 8)), order);
    assert_eq!(
        refused(500, &outside, &|w| w.put_item(1, b"a", b"", V)),
        order
    );
    assert_eq!(refused(500, &outside, &|w| w.put_clear(1)), order);
    assert_eq!(refused(500, &outside, &|w| w.close()), order);
}

#[test]
fn counts() {
    let counted = Refusal::Counted;
    assert_eq!(
        refused(500, &full, &|w| w.put_item(1, b"a", b"", V)),
        counted
    );
    assert_eq!(refused(500, &full, &|w| w.put_clear(1)), counted);
    assert_eq!(refused(500, &inside, &|w| w.close()), counted);
    assert_eq!(
        refused(500, &outside, &|w| w.open(1 << 32, 1)),
        Refusal::Count
    );
    let mut buffer = [0; 26];
    assert_eq!(
        Writer::new(&mut buffer, Dialect::TEST).open((1 << 32) - 1, 1),
        Ok(13)
    );
}

#[test]
fn keys() {
    assert_eq!(
        refused(90000, &inside, &|w| w.put_item(1, b"", b"x", V)),
        Refusal::Key
    );
    assert_eq!(
        refused(90000, &inside, &|w| w.put_item(1, &LONG, b"x", V)),
        Refusal::Key
    );
    assert_eq!(
        refused(90000, &outside, &|w| w.write_raw(1, &LONG, b"x", V, 1)),
        Refusal::Key
    );
    let mut buffer = vec![0; 90000];
    let mut writer = Writer::new(&mut buffer, Dialect::TEST);
    assert_eq!(writer.write_raw(1, b"", b"x", V, 1), Ok(48));
    assert_eq!(writer.write_raw(1, &LONG[1..], b"x", V, 2), Ok(65583));
    assert_eq!(batches(writer.written(), Dialect::TEST).count(), 2);
}

/// Exactly enough is taken, one byte less is not.
#[test]
fn room() {
    let calls: [(usize, usize, &Before, &Call); 7] = [
        (0, 26, &outside, &|w| w.open(1, 8)),
        (13, 24 + 13, &inside, &|w| w.put_item(1, b"a", b"xy", V)),
        (13, 9 + 13, &inside, &|w| w.put_clear(1)),
        (22, 13, &full, &|w| w.close()),
        (0, 50, &outside, &|w| w.write_raw(1, b"a", b"xy", V, 8)),
        (0, 35, &outside, &|w| w.write_clear(1, 8)),
        (0, 50, &outside, &|w| w.batch(&[item(1, b"a", b"xy")], 8)),
    ];
    for (number, (stood, needed, before, call)) in calls.into_iter().enumerate() {
        let mut buffer = vec![0; stood + needed];
        let mut writer = Writer::new(&mut buffer, Dialect::TEST);
        before(&mut writer);
        assert!(call(&mut writer).is_ok(), "call {number} with room");
        // no put leaves less than an End needs, so that close has no such refusal
        if number != 3 {
            let left = needed - 1;
            let no_room = Refusal::NoRoom { left, needed };
            assert_eq!(refused(stood + left, before, call), no_room);
        }
    }
}

/// A value that no journal can hold, by every call that takes one. It is asked for and never touched: it takes no memory.
#[test]
fn a_value_that_is_too_long() {
    let value = vec![0; 1 << 32];
    let whole = 26 + 22 + value.len();
    let calls: [(usize, &Before, &Call); 3] = [
        (whole, &outside, &|w| w.write_raw(1, b"k", &value, V, 1)),
        (whole, &outside, &|w| w.batch(&[item(1, b"k", &value)], 1)),
        (whole - 13, &inside, &|w| w.put_item(1, b"k", &value, V)),
    ];
    for (needed, before, call) in calls {
        let left = if needed == whole { 100 } else { 87 };
        let no_room = Refusal::NoRoom { left, needed };
        assert_eq!(refused(100, before, call), no_room);
    }
}

#[test]
fn nothing_to_write() {
    let mut buffer = [];
    let mut writer = Writer::new(&mut buffer, Dialect::TEST);
    assert_eq!(writer.open(0, 7), Ok(0));
    assert!(!writer.is_open());
    assert_eq!(writer.batch(&[], 7), Ok(0));
    assert_eq!(writer.written(), []);
}

static LONG: [u8; 65536] = [7; 65536];

const GOOD: [Entry; 4] = [
    Entry::Clear { keyspace: 1 },
    item(1, b"a", b"xy"),
    item(2, b"b", b""),
    Entry::Clear { keyspace: 2 },
];

/// Batches of one to four entries where any number of bytes is missing: every byte stays as it was.
#[test]
fn a_batch_with_room_or_none_of_it() {
    for entries in (1..=GOOD.len()).map(|count| &GOOD[..count]) {
        let needed = encoded_len(entries, Dialect::TEST);
        let behind = |w: &mut Writer| {
            w.write_clear(1, 1).unwrap();
        };
        for left in 0..needed {
            let no_room = Refusal::NoRoom { left, needed };
            let call: &Call = &|w| w.batch(entries, 8);
            assert_eq!(refused(left, &outside, call), no_room);
            assert_eq!(refused(35 + left, &behind, call), no_room);
        }
    }
}

/// Batches of one to four entries of which one is at fault, at each place: every byte stays as it was. 23 would need a slice of 4,294,967,296
/// entries, which is more memory than there is.
#[test]
fn a_good_batch_or_none_of_it() {
    let wrong = [item(1, b"", b"x"), item(1, &LONG, b"")];
    let places = (1..=GOOD.len()).flat_map(|count| (0..count).map(move |place| (count, place)));
    for ((count, place), fault) in places.flat_map(|at| wrong.map(|fault| (at, fault))) {
        let mut entries = GOOD[..count].to_vec();
        entries[place] = fault;
        let call: &Call = &|w| w.batch(&entries, 8);
        // with room and without: the key comes first, wherever it is
        for size in [90000, 100, 30, 0] {
            assert_eq!(refused(size, &outside, call), Refusal::Key);
        }
        // and the order before it
        for before in [&inside as &Before, &full] {
            assert_eq!(refused(90000, before, call), Refusal::Order);
        }
    }
    assert_eq!(
        refused(500, &inside, &|w| w.batch(&GOOD, 8)),
        Refusal::Order
    );
}

/// The state and the buffer's length come before all else.
#[test]
fn a_batch_where_nothing_can_be_written() {
    let entries = [item(1, b"", b"")];
    let mut state = WriterState::over_zeros(Dialect::TEST);
    let mut buffer = vec![0; 1 << 32];
    let mut writer = Writer::attach(&mut buffer, &mut state);
    assert_eq!(writer.batch(&entries, 1), Err(Refusal::TooLong));
    let mut buffer = [0; 100];
    Writer::attach(&mut buffer, &mut state)
        .write_clear(1, 1)
        .unwrap();
    let mut short = [5; 34];
    let mut writer = Writer::attach(&mut short, &mut state);
    assert_eq!(writer.batch(&entries, 2), Err(Refusal::State));
    assert_eq!(writer.batch(&[], 2), Err(Refusal::State));
    assert_eq!((writer.position(), short), (35, [5; 34]));
}

/// fjall's order: the keyspace first, the sequence number last.
#[test]
fn arguments_as_in_fjall() {
    let mut buffer = [0; 200];
    let mut writer = Writer::new(&mut buffer, Dialect::TEST);
    writer.write_clear(9, 41).unwrap();
    let second = writer.position();
    let item = Item {
        keyspace: 9,
        key: b"key",
        value: b"value",
        value_type: ValueType::WeakTombstone,
    };
    writer
        .write_raw(9, b"key", b"value", ValueType::WeakTombstone, 41)
        .unwrap();
    let seen = |at| match decode(writer.written(), at, Dialect::TEST) {
        Ok(Decoded::Start { seqno, next, .. }) => {
            (seqno, decode(writer.written(), next, Dialect::TEST))
        }
        other => panic!("{other:?}"),
    };
    let entry = Entry::Clear { keyspace: 9 };
    assert_eq!(seen(0), (41, Ok(Decoded::Entry { entry, next: 22 })));
    let (entry, next) = (Entry::Item(item), second + 13 + item.encoded_len());
    assert_eq!(seen(second), (41, Ok(Decoded::Entry { entry, next })));
}

#[test]
fn taken_back() {
    let mut buffer = [0; 200];
    let mut writer = Writer::new(&mut buffer, Dialect::TEST);
    writer.write_clear(1, 1).unwrap();
    let before = writer.written().to_vec();
    assert_eq!(writer.abort(), Err(Refusal::Order));
    for puts in 0..=3 {
        writer.open(3, 2).unwrap();
        for _ in 0..puts {
            writer.put_item(1, b"a", b"xy", V).unwrap();
        }
        assert_eq!(writer.abort(), Ok(()));
        assert_eq!(
            (writer.position(), writer.is_open(), writer.left()),
            (35, false, 0)
        );
        assert_eq!(writer.abort(), Err(Refusal::Order));
    }
    writer.write_clear(1, 3).unwrap();
    writer.open(1, 4).unwrap();
    writer.abort().unwrap();
    assert_eq!(writer.written()[..35], before);
    assert_eq!(seqnos(&buffer), [1, 3]);
    assert!(buffer[70..].iter().all(|&byte| byte == 0));
}

#[test]
fn taken_back_where_nothing_can_be_written() {
    let mut state = WriterState::over_zeros(Dialect::TEST);
    let mut buffer = [0; 100];
    Writer::attach(&mut buffer, &mut state).open(1, 1).unwrap();
    let mut short = [5; 12];
    let mut writer = Writer::attach(&mut short, &mut state);
    assert_eq!(writer.abort(), Err(Refusal::State));
    assert!(writer.is_open());
    assert_eq!(writer.written(), [5; 12]);
    assert_eq!(short, [5; 12]);
    let mut long = vec![0; 1 << 32];
    assert_eq!(
        Writer::attach(&mut long, &mut state).abort(),
        Err(Refusal::TooLong)
    );
    assert_eq!(Writer::attach(&mut buffer, &mut state).abort(), Ok(()));
    assert_eq!(buffer, [0; 100]);
}

#[test]
fn going_on() {
    let mut buffer = [0; 105];
    let mut writer = Writer::new(&mut buffer, Dialect::TEST);
    writer.write_clear(1, 1).unwrap();
    writer.write_clear(2, 2).unwrap();
    let before = writer.written().to_vec();
    let mut writer = Writer::resume(&mut buffer, Dialect::TEST).unwrap();
    assert_eq!(writer.position(), 70);
    assert_eq!(writer.write_clear(3, 3), Ok(35));
    assert_eq!(writer.written()[..70], before);
    assert_eq!(seqnos(&buffer), [1, 2, 3]);
    let before = buffer;
    // clean: at the end, with no room and nothing to set to zero
    let writer = Writer::resume(&mut buffer, Dialect::TEST).unwrap();
    assert_eq!(writer.position(), 105);
    assert_eq!(buffer, before);
}

/// Outcomes 2 to 4 are for a person to look at, and a buffer that is too long is not read: no writer, and no byte changed.
#[test]
fn not_going_on() {
    let at = 35;
    for (damage, error) in damage::damages(at) {
        let mut buffer = [0xee; 100];
        let mut state = WriterState::over_zeros(Dialect::TEST);
        Writer::attach(&mut buffer, &mut state)
            .write_clear(1, 1)
            .unwrap();
        buffer[at..][..damage.len()].copy_from_slice(&damage);
        let before = buffer;
        assert_eq!(
            Writer::resume(&mut buffer, Dialect::TEST).unwrap_err(),
            error
        );
        assert_eq!(WriterState::resume(&mut buffer, Dialect::TEST), Err(error));
        assert_eq!(buffer, before);
    }
    let mut buffer = vec![0; 1 << 32];
    let refused = ReadError::Refused(Refusal::TooLong);
    assert_eq!(
        Writer::resume(&mut buffer, Dialect::TEST).unwrap_err(),
        refused
    );
}

/// A torn batch whose value holds a whole one, under sequence number 99: the buffer, where the torn one begins, and where the planted one does.
fn planted() -> (Vec<u8>, usize, usize) {
    let mut inner = [0; 35];
    Writer::new(&mut inner, Dialect::TEST)
        .write_clear(9, 99)
        .unwrap();
    let value = [&[7; 30][..], &inner].concat();
    let mut buffer = vec![0; 300];
    let mut writer = Writer::new(&mut buffer, Dialect::TEST);
    let torn = writer.write_clear(1, 1).unwrap();
    writer.open(1, 2).unwrap();
    writer.put_item(1, b"k", &value, V).unwrap();
    let planted = writer.position() - inner.len();
    assert_eq!(seqnos(&buffer), [1]);
    assert_eq!(seqnos(&buffer[planted..]), [99]);
    (buffer, torn, planted)
}

/// A batch that ends where the planted one began must not bring it back.
fn fills_up_to(mut writer: Writer<'_>, planted: usize) {
    let value = vec![0; planted - writer.position() - 48];
    writer.write_raw(1, b"k", &value, V, 3).unwrap();
    assert_eq!(writer.position(), planted);
}

#[test]
fn old_bytes_behind_a_resumed_writer() {
    let (mut buffer, torn, planted) = planted();
    let writer = Writer::resume(&mut buffer, Dialect::TEST).unwrap();
    assert_eq!(writer.position(), torn);
    fills_up_to(writer, planted);
    assert_eq!(seqnos(&buffer), [1, 3]);
    assert!(buffer[planted..].iter().all(|&byte| byte == 0));
}

#[test]
fn old_bytes_behind_a_new_writer() {
    let (mut buffer, _, planted) = planted();
    fills_up_to(Writer::new(&mut buffer, Dialect::TEST), planted);
    assert_eq!(seqnos(&buffer), [3]);
    assert!(buffer[planted..].iter().all(|&byte| byte == 0));
    // and a new journal of which nothing is written is an empty one
    Writer::new(&mut buffer, Dialect::TEST);
    assert!(buffer.iter().all(|&byte| byte == 0));
}

/// A batch that was taken back must not come back either.
#[test]
fn old_bytes_behind_a_batch_taken_back() {
    let (mut buffer, _, planted) = planted();
    let inner = buffer[planted..][..35].to_vec();
    let mut writer = Writer::new(&mut buffer, Dialect::TEST);
    writer.open(1, 2).unwrap();
    let value = [&vec![7; planted - 35][..], &inner].concat();
    writer.put_item(1, b"k", &value, V).unwrap();
    writer.abort().unwrap();
    fills_up_to(writer, planted);
    assert_eq!(seqnos(&buffer), [3]);
}

/// Kept beside a buffer that grows, by calls that each borrow both.
#[test]
fn a_state_beside_its_buffer() {
    let mut buffer = vec![0xee; 30];
    let mut state = WriterState::new(&mut buffer, Dialect::TEST);
    assert_eq!(buffer, [0; 30]);
    for seqno in 1..=20 {
        loop {
            match Writer::attach(&mut buffer, &mut state).write_clear(1, seqno) {
                Ok(wrote) => break assert_eq!(wrote, 35),
                Err(Refusal::NoRoom { left, needed }) => {
                    buffer.resize(buffer.len() - left + needed, 0);
                }
                Err(why) => panic!("{why}"),
            }
        }
    }
    assert_eq!(state.position(), buffer.len());
    assert_eq!(seqnos(&buffer), (1..=20).collect::<Vec<_>>());
    // in the middle of a batch
    buffer.resize(900, 0);
    Writer::attach(&mut buffer, &mut state).open(2, 21).unwrap();
    Writer::attach(&mut buffer, &mut state)
        .put_clear(1)
        .unwrap();
    assert_eq!((state.is_open(), state.left()), (true, 1));
    Writer::attach(&mut buffer, &mut state)
        .put_clear(2)
        .unwrap();
    Writer::attach(&mut buffer, &mut state).close().unwrap();
    assert_eq!(seqnos(&buffer).len(), 21);
    assert_eq!(WriterState::resume(&mut buffer, Dialect::TEST), Ok(state));
}

#[test]
fn a_position_past_the_buffer() {
    let mut state = WriterState::over_zeros(Dialect::TEST);
    let mut buffer = [0; 200];
    Writer::attach(&mut buffer, &mut state)
        .write_clear(1, 1)
        .unwrap();
    let mut short = [5; 34];
    let mut writer = Writer::attach(&mut short, &mut state);
    assert_eq!(writer.open(1, 1), Err(Refusal::State));
    assert_eq!(writer.open(0, 1), Err(Refusal::State));
    assert_eq!(writer.write_clear(1, 1), Err(Refusal::State));
    assert_eq!(writer.close(), Err(Refusal::State));
    assert_eq!(writer.position(), 35);
    assert_eq!(writer.written(), [5; 34]);
}

#[test]
fn a_buffer_that_is_too_long() {
    // asked for and never touched: it takes no memory
    let mut buffer = vec![0; 1 << 32];
    buffer[7] = 5;
    let mut writer = Writer::new(&mut buffer, Dialect::TEST);
    assert_eq!(writer.open(1, 1), Err(Refusal::TooLong));
    assert_eq!(writer.write_clear(1, 1), Err(Refusal::TooLong));
    assert_eq!(
        buffer[..9],
        [0, 0, 0, 0, 0, 0, 0, 5, 0],
        "it is not touched"
    );
    // one byte less is long enough; `new` would touch all of it
    let mut state = WriterState::over_zeros(Dialect::TEST);
    let mut writer = Writer::attach(&mut buffer[1..], &mut state);
    assert_eq!(writer.write_clear(1, 1), Ok(35));
}

#[test]
fn debug_shows_lengths() {
    let mut buffer = [0; 100];
    let mut writer = Writer::new(&mut buffer, Dialect::TEST);
    writer.open(2, 7).unwrap();
    writer.put_item(1, b"secret", b"claim", V).unwrap();
    let dialect = format!("{:?}", Dialect::TEST);
    assert_eq!(
        format!("{writer:?}"),
        format!("Writer {{ buffer: 100 bytes, state: WriterState {{ dialect: {dialect}, position: 45, is_open: true, left: 1 }} }}")
    );
}
