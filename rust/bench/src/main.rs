//! Prints how long the library takes against the reference and against the standard library, and the UTF-8 check against
//! the one before it, each ratio of one run.

mod check;
mod inputs;
mod measure;

use measure::{Comparison, compare};
use meulhaton as library;
use reference::connection as record;
use reference::request::Batch;
use std::hint::black_box;

fn main() {
    println!("{}\n", machine());
    println!("{:70} {:>11} {:>11} {:>7}", "", "library", "other", "ratio");
    values();
    requests();
    strings();
    texts();
    frames();
    rounds();
}

/// The machine's processor.
fn machine() -> String {
    let info = std::fs::read_to_string("/proc/cpuinfo").unwrap_or_default();
    let model = info.lines().find_map(|line| line.strip_prefix("model name")).unwrap_or(": unknown processor");
    let cores = std::thread::available_parallelism().map_or(1, usize::from);
    format!("{}, {cores} cores", model.trim_start_matches([' ', '\t', ':']))
}

fn row(what: &str, other: &str, Comparison { first, second, ratio }: Comparison) {
    println!("{:70} {:>11} {:>11} {ratio:>7.2}", format!("{what} / {other}"), duration(first), duration(second));
}

fn duration(nanoseconds: f64) -> String {
    if nanoseconds < 10_000.0 { format!("{nanoseconds:.1} ns") } else { format!("{:.1} us", nanoseconds / 1_000.0) }
}

fn values() {
    let read = |message: &[u8]| {
        let _ = black_box(library::read_message(black_box(message)));
    };
    let by_reference = |message: &[u8]| {
        let _ = black_box(reference::value::read(black_box(message)));
    };
    let run = inputs::typical_run();
    let large = inputs::large_run();
    let keys = inputs::most_keys();
    for message in [&run, &large, &keys] {
        assert!(library::read_message(message).is_ok() && reference::value::read(message).is_ok());
    }
    let by_comparing = |message: &[u8]| {
        let _ = black_box(reference::value::read_comparing_keys(black_box(message)));
    };
    for (what, message) in [
        (format!("value: RUN of {} bytes", run.len()), &run),
        (format!("value: RUN of {} bytes, 200 parameters", large.len()), &large),
        ("value: 4,095 keys of two bytes".to_owned(), &keys),
    ] {
        row(&what, "reference", compare(|| read(message), || by_reference(message)));
        if message != &run {
            row(&what, "reference without hashing", compare(|| read(message), || by_comparing(message)));
        }
    }
}

fn requests() {
    let request = |message: &[u8]| {
        compare(
            || {
                let _ = black_box(library::read_request(library::Version::V4_1, black_box(message)));
            },
            || {
                let _ = black_box(reference::request::read(reference::handshake::Version::V4_1, black_box(message)));
            },
        )
    };
    let (pull, run, large) = (inputs::pull(), inputs::typical_run(), inputs::large_run());
    row(&format!("request: PULL of {} bytes", pull.len()), "reference", request(&pull));
    row(&format!("request: RUN of {} bytes", run.len()), "reference", request(&run));
    row(&format!("request: RUN of {} bytes, 200 parameters", large.len()), "reference", request(&large));
}

/// A message that is one String, against the check of its content alone.
fn strings() {
    for (name, text) in inputs::TEXTS {
        let message = inputs::one_string(text);
        let reading = compare(
            || {
                let _ = black_box(library::read_message(black_box(&message)));
            },
            || {
                let _ = black_box(std::str::from_utf8(black_box(&message[3..])));
            },
        );
        row(&format!("String of 16 KB {name}"), "std::str::from_utf8", reading);
    }
}

/// The check alone, against the one before it and that of the standard library.
fn texts() {
    let query = inputs::QUERY.as_bytes();
    let short = (1..=15).chain([60]).map(|length| (format!("ASCII of length {length}"), query[..length].to_vec()));
    let long = inputs::TEXTS.map(|(name, text)| (format!("16 KB {name}"), inputs::one_string(text).split_off(3)));
    let other = inputs::SHORT_TEXTS.map(|text| (format!("{text:?}, {} bytes", text.len()), text.as_bytes().to_vec()));
    for (name, text) in long.into_iter().chain(short).chain(other) {
        let cut = &text[..text.len() - 1];
        for text in [&text[..], cut, &[cut, &[0x80]].concat()] {
            let valid = std::str::from_utf8(text).is_ok();
            assert!(check::proved(text) == valid && check::old::is_utf8(text) == valid);
        }
        let proved = || {
            black_box(check::proved(black_box(&text)));
        };
        let old = || {
            black_box(check::old::is_utf8(black_box(&text)));
        };
        let std = || {
            let _ = black_box(std::str::from_utf8(black_box(&text)));
        };
        row(&format!("check of {name}"), "old check", compare(proved, old));
        row(&format!("check of {name}"), "std::str::from_utf8", compare(proved, std));
    }
}

fn frames() {
    let message = vec![0x5A; 16_384];
    let mut copy = vec![0; 16_384];
    let mut buffer = vec![0; 16_384];
    for chunk in [16, 1_024, 65_535] {
        let mut chunks = vec![0; 65_536];
        let length = reference::frame::write(&message, chunk, &mut chunks).expect("room");
        chunks.truncate(length);
        let mut copying = || black_box(&mut copy[..]).copy_from_slice(black_box(&message));
        let mut reading = || {
            let _ = black_box(library::read_frame(library::Version::V4_1, black_box(&chunks), black_box(&mut buffer)));
        };
        row(&format!("16 KB read from chunks of {chunk}"), "copy_from_slice", compare(&mut reading, &mut copying));
        let mut other = vec![0; 16_384];
        let by_reference = || {
            let version = reference::handshake::Version::V4_1;
            let _ = black_box(reference::frame::read(version, black_box(&chunks), black_box(&mut other)));
        };
        row(&format!("16 KB read from chunks of {chunk}"), "reference", compare(&mut reading, by_reference));
        let mut written = vec![0; 65_536];
        let mut writing = || {
            let _ = black_box(library::write_chunks(black_box(&message), chunk, black_box(&mut written)));
        };
        row(&format!("16 KB written in chunks of {chunk}"), "copy_from_slice", compare(&mut writing, &mut copying));
        let mut other = vec![0; 65_536];
        let by_reference = || {
            let _ = black_box(reference::frame::write(black_box(&message), chunk, black_box(&mut other)));
        };
        row(&format!("16 KB written in chunks of {chunk}"), "reference", compare(&mut writing, by_reference));
    }
}

/// An arrive, a take and a report on a record of which a PULL is always the next: through the wrapper, and by the functions
/// that C calls.
fn rounds() {
    let pull = library::Request::Pull { n: 1_000, qid: -1 };
    let same_pull = record::Kind::Pull(Batch { n: 1_000, qid: -1 });
    let pull_in_c = library::raw::RequestImage { kind: 0x3F, n: 1_000, qid: -1 };
    let more_in_c = library::raw::OutcomeImage { number: 1 };
    for waiting in [1, 8, 31] {
        let mut connection = library::Connection::fresh();
        let mut other = record::Connection::default();
        for (request, kind) in
            [(library::Request::Hello, record::Kind::Hello), (library::Request::Run, record::Kind::Run)]
        {
            connection.arrive(request).expect("queued");
            connection.take().expect("handed");
            connection.report(library::Outcome::Success).expect("answered");
            other.arrive(kind).expect("queued");
            other.take().expect("handed");
            other.report(record::Report::Success).expect("answered");
        }
        for _ in 1..waiting {
            connection.arrive(pull).expect("queued");
            other.arrive(same_pull).expect("queued");
        }
        let mut lent = *connection.record();
        let round = || {
            black_box(connection.arrive(black_box(pull)).expect("queued"));
            black_box(connection.take().expect("handed"));
            black_box(connection.report(library::Outcome::More).expect("answered"));
        };
        let round_in_c = || {
            // SAFETY: the pointer is that of one whole record, lent to one call at a time.
            let replies = unsafe {
                [
                    library::raw::meulhaton_arrive(&mut lent, black_box(pull_in_c)).said,
                    library::raw::meulhaton_take(&mut lent).said,
                    library::raw::meulhaton_report(&mut lent, more_in_c).said,
                ]
            };
            assert_eq!(replies, [1, 4, 5]);
        };
        let mut same_round = || {
            black_box(other.arrive(black_box(same_pull)).expect("queued"));
            black_box(other.take().expect("handed"));
            black_box(other.report(record::Report::SuccessWithMore).expect("answered"));
        };
        let what = format!("arrive, take, report with {waiting} waiting");
        row(&what, "reference", compare(round, &mut same_round));
        row(&format!("{what}, as C calls"), "reference", compare(round_in_c, &mut same_round));
    }
}
