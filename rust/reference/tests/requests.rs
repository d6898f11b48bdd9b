//! Document 01's table of requests, row by row: each field and each known entry of every kind, absent, Null, and out of
//! its range; and two that are wrong in one request. The messages are built and their places counted here.

use reference::handshake::Version;
use reference::request::read;

/// One value of each kind, Null first.
const KINDS: [(&str, &[u8]); 9] = [
    ("Null", b"\xC0"),
    ("Boolean", b"\xC3"),
    ("Integer", b"\x05"),
    ("Float", b"\xC1\x3F\xF0\0\0\0\0\0\0"),
    ("Bytes", b"\xCC\x01\x72"),
    ("String", b"\x81r"),
    ("List", b"\x90"),
    ("Dictionary", b"\xA0"),
    ("Structure", b"\xB0\x4E"),
];

type Row = (u8, &'static [&'static str], &'static [Entry]);

struct Entry {
    name: &'static str,
    kind: &'static str,
    required: bool,
}

const fn required(name: &'static str, kind: &'static str) -> Entry {
    Entry { name, kind, required: true }
}

const fn optional(name: &'static str, kind: &'static str) -> Entry {
    Entry { name, kind, required: false }
}

const HELLO: [Entry; 5] = [
    required("user_agent", "String"),
    optional("scheme", "String"),
    optional("principal", "String"),
    optional("credentials", "String"),
    optional("routing", "Dictionary"),
];

const TRANSACTION: [Entry; 5] = [
    optional("bookmarks", "List"),
    optional("tx_timeout", "Integer"),
    optional("tx_metadata", "Dictionary"),
    optional("mode", "String"),
    optional("db", "String"),
];

const BATCH: [Entry; 2] = [required("n", "Integer"), optional("qid", "Integer")];

/// Tag, kinds of the fields, of which the last is the extra, and known entries in checking order.
const REQUESTS: [Row; 5] = [
    (0x01, &["Dictionary"], &HELLO),
    (0x10, &["String", "Dictionary", "Dictionary"], &TRANSACTION),
    (0x11, &["Dictionary"], &TRANSACTION),
    (0x2F, &["Dictionary"], &BATCH),
    (0x3F, &["Dictionary"], &BATCH),
];

fn value(kind: &str) -> &'static [u8] {
    KINDS.iter().find(|(name, _)| *name == kind).expect("a kind").1
}

/// Number and place of the refusal, or none, in Bolt 4.1.
fn refused(message: &[u8]) -> Option<(u8, usize)> {
    read(Version::V4_1, message).err().map(|refusal| (refusal.number, refusal.place))
}

/// A request whose extra has these entries, with the places of the extra and of each entry's value.
fn with_entries(tag: u8, entries: &[(&str, &[u8])]) -> (Vec<u8>, usize, Vec<usize>) {
    let mut message = if tag == 0x10 { b"\xB3\x10\x81R\xA0".to_vec() } else { vec![0xB1, tag] };
    let extra = message.len();
    message.push(0xA0 + entries.len() as u8);
    let places = entries.iter().map(|(name, value)| {
        message.push(0x80 + name.len() as u8);
        message.extend(name.as_bytes());
        let place = message.len();
        message.extend(*value);
        place
    });
    let places = places.collect();
    (message, extra, places)
}

/// The entries that are required beside this one, as they should be.
fn beside(entries: &'static [Entry], name: &str) -> Vec<(&'static str, &'static [u8])> {
    let others = entries.iter().filter(|entry| entry.required && entry.name != name);
    others.map(|entry| (entry.name, value(entry.kind))).collect()
}

/// Refusals of a request with this value under this name, everything else as it should be.
fn entry_refused(
    tag: u8,
    entries: &'static [Entry],
    name: &'static str,
    value: &[u8],
) -> (Option<(u8, usize)>, usize, usize) {
    let mut all: Vec<(&str, &[u8])> = beside(entries, name);
    all.push((name, value));
    let (message, extra, places) = with_entries(tag, &all);
    (refused(&message), extra, places[all.len() - 1])
}

#[test]
fn each_field_of_each_kind() {
    for (tag, fields, entries) in REQUESTS {
        let extra = with_entries(tag, &beside(entries, "")).0.split_off(if tag == 0x10 { 5 } else { 2 });
        for at in 0..fields.len() {
            for (kind, wrong) in KINDS.into_iter().filter(|(kind, _)| *kind != fields[at]) {
                let mut message = vec![0xB0 + fields.len() as u8, tag];
                let mut place = 0;
                for (index, field) in fields.iter().enumerate() {
                    if index == at {
                        place = message.len();
                    }
                    let right = if index + 1 == fields.len() { &extra } else { value(field) };
                    message.extend(if index == at { wrong } else { right });
                }
                assert_eq!(refused(&message), Some((26, place)), "{tag:02X}, {kind} as field {at}");
            }
        }
    }
}

#[test]
fn each_entry_of_each_kind() {
    for (tag, _, entries) in REQUESTS {
        for entry in entries {
            for (kind, value) in KINDS {
                let (refused, extra, place) = entry_refused(tag, entries, entry.name, value);
                let expected = match kind {
                    _ if kind == entry.kind => None,
                    "Null" if entry.required => Some((25, extra)),
                    "Null" => None,
                    _ => Some((26, place)),
                };
                assert_eq!(refused, expected, "{tag:02X}, {kind} as {}", entry.name);
            }
        }
    }
}

#[test]
fn absent_entries() {
    for (tag, _, entries) in REQUESTS {
        for entry in entries {
            let (message, extra, _) = with_entries(tag, &beside(entries, entry.name));
            let expected = entry.required.then_some((25, extra));
            assert_eq!(refused(&message), expected, "{tag:02X} without {}", entry.name);
        }
    }
}

#[test]
fn numbers_at_their_ranges() {
    let wide = |number: i64| [&[0xCB][..], &number.to_be_bytes()].concat();
    let numbers = [i64::MIN, -129, -17, -2, -1, 0, 1, 2, 1000, i64::MAX];
    type Range = fn(i64) -> bool;
    let ranges: [(&str, Range); 3] = [
        ("n", |n| n == -1 || n >= 1),
        ("qid", |qid| qid == -1 || qid >= 0),
        ("tx_timeout", |milliseconds| milliseconds >= 0),
    ];
    for (tag, _, entries) in REQUESTS {
        for (name, in_range) in ranges.into_iter().filter(|(name, _)| entries.iter().any(|entry| entry.name == *name)) {
            for number in numbers {
                let (refused, _, place) = entry_refused(tag, entries, name, &wide(number));
                let expected = (!in_range(number)).then_some((27, place));
                assert_eq!(refused, expected, "{tag:02X} with {name} {number}");
            }
        }
    }
}

#[test]
fn modes() {
    for tag in [0x10, 0x11] {
        for (mode, allowed) in [
            (&b"\x81r"[..], true),
            (b"\x81w", true),
            (b"\xD0\x01r", true),
            (b"\x80", false),
            (b"\x81R", false),
            (b"\x81x", false),
            (b"\x82rw", false),
            (b"\x82r\0", false),
        ] {
            let (refused, _, place) = entry_refused(tag, &TRANSACTION, "mode", mode);
            assert_eq!(refused, (!allowed).then_some((27, place)), "{mode:02X?}");
        }
    }
}

#[test]
fn items_among_bookmarks() {
    for tag in [0x10, 0x11] {
        for (kind, item) in KINDS.into_iter().filter(|(kind, _)| *kind != "String") {
            let bookmarks = [b"\x94\x81a\x80", item, b"\x01"].concat();
            let (refused, _, place) = entry_refused(tag, &TRANSACTION, "bookmarks", &bookmarks);
            assert_eq!(refused, Some((26, place + 4)), "{kind}");
        }
        let (refused, ..) = entry_refused(tag, &TRANSACTION, "bookmarks", b"\x93\x81a\x80\xD0\x01b");
        assert_eq!(refused, None);
    }
}

/// What can be wrong with an entry that is there, and the number that it gets.
fn wrongs(entry: &Entry) -> &'static [(&'static [u8], u8)] {
    match entry.name {
        "n" | "qid" | "tx_timeout" => &[(b"\xC3", 26), (b"\xFE", 27)],
        "mode" => &[(b"\xC3", 26), (b"\x81x", 27)],
        _ => &[(b"\xC3", 26)],
    }
}

/// Two entries that are wrong: the first in checking order decides, wherever the two stand and whatever is wrong.
#[test]
fn two_wrong_entries() {
    for (tag, _, entries) in REQUESTS {
        let all_wrong =
            entries.iter().enumerate().flat_map(|(i, entry)| wrongs(entry).iter().map(move |wrong| (i, *wrong)));
        let all_wrong: Vec<(usize, (&[u8], u8))> = all_wrong.collect();
        for &(i, (one, one_number)) in &all_wrong {
            for &(j, (other, other_number)) in all_wrong.iter().filter(|(j, _)| *j != i) {
                let mut message: Vec<(&str, &[u8])> = vec![(entries[i].name, one), (entries[j].name, other)];
                message
                    .extend(beside(entries, entries[i].name).into_iter().filter(|(name, _)| *name != entries[j].name));
                let (message, _, places) = with_entries(tag, &message);
                let expected = if i < j { (one_number, places[0]) } else { (other_number, places[1]) };
                assert_eq!(refused(&message), Some(expected), "{message:02X?}");
            }
        }
    }
}

/// A required entry that is absent or Null, and one that is wrong: what is required is the first in checking order.
#[test]
fn an_absent_entry_and_a_wrong_one() {
    for (tag, _, entries) in REQUESTS {
        for required in entries.iter().filter(|entry| entry.required) {
            for wrong in entries.iter().filter(|entry| !entry.required) {
                let (message, extra, _) = with_entries(tag, &[(wrong.name, b"\xC3")]);
                assert_eq!(refused(&message), Some((25, extra)));
                let (message, extra, _) = with_entries(tag, &[(wrong.name, b"\xC3"), (required.name, b"\xC0")]);
                assert_eq!(refused(&message), Some((25, extra)));
            }
        }
    }
}

/// A field's kind comes before the entries of the extra, and the left field before the right one.
#[test]
fn two_wrong_fields() {
    assert_eq!(refused(b"\xB3\x10\xC0\xC0\xC0"), Some((26, 2)));
    assert_eq!(refused(b"\xB3\x10\x81R\xC0\xC0"), Some((26, 4)));
    assert_eq!(refused(b"\xB3\x10\x81R\xA0\xC0"), Some((26, 5)));
    assert_eq!(refused(b"\xB3\x10\x81R\x90\xA1\x84mode\x81x"), Some((26, 4)));
    assert_eq!(refused(b"\xB3\x10\xC0\xA0\xA1\x84mode\x01"), Some((26, 2)));
}

/// 14, 15 and the faults of a value come before all of these, wherever they stand.
#[test]
fn what_comes_before() {
    assert_eq!(refused(b"\xB1\x3E\xA1\x81n\x00"), Some((14, 0)));
    assert_eq!(refused(b"\xB2\x3F\xA1\x81n\x00\xC0"), Some((15, 0)));
    assert_eq!(refused(b"\xB1\x3F\xA2\x81n\x00\x81n\x01"), Some((12, 6)));
    assert_eq!(refused(b"\xB1\x3F\xA1\x81n\x00\x00"), Some((13, 6)));
    assert_eq!(refused(b"\xB1\x3F\xA2\x81n\x00\x81m\xEF"), Some((8, 8)));
}

/// The starred cases, and an n out of its range before a qid of the wrong kind.
#[test]
fn cases_of_the_papers() {
    assert_eq!(refused(b"\xB1\x3F\xA1\x81\x6E\x00"), Some((27, 5)));
    assert_eq!(refused(b"\xB1\x3F\xA0"), Some((25, 2)));
    assert_eq!(refused(b"\xB1\x3F\xA2\x81\x6E\x00\x83\x71\x69\x64\xC3"), Some((27, 5)));
}

/// Names that are not the request's own, and routing in 4.0, are skipped whatever stands under them.
#[test]
fn unknown_names() {
    for (_, value) in KINDS {
        let (pull, ..) = with_entries(0x3F, &[("mode", value), ("n", b"\x01"), ("N", value), ("", value)]);
        assert_eq!(refused(&pull), None);
        let (begin, ..) = with_entries(0x11, &[("n", value), ("user_agent", value)]);
        assert_eq!(refused(&begin), None);
        let (hello, ..) = with_entries(0x01, &[("user_agent", b"\x80"), ("routing", value)]);
        assert!(read(Version::V4_0, &hello).is_ok());
    }
}
