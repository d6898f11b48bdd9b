//! Records beside those of a conversation: with another first place, with anything in the places that are not in use, broken,
//! and of random numbers.

use crate::conversation::{CONNECTED, DEFUNCT, INTERRUPTED, READY, STREAMING, TX_READY, TX_STREAMING};
use crate::random::Random;
use crate::ring;
use crate::ring::{Control, PLACES, Record};
use crate::sides::{RequestImage, STATES, tag};
use std::array;

/// Tags that name no request.
const NAMELESS: [u8; 8] = [0x00, 0x03, 0x0E, 0x14, 0x3E, 0x40, 0x66, 0xFF];

/// A request's numbers, of which some name nothing.
fn any_request(random: &mut Random) -> RequestImage {
    let kind = match random.below(4) {
        0 => random.byte(),
        1 => random.pick(&NAMELESS),
        2 => tag::RESET,
        _ => random.pick(&tag::ALL),
    };
    RequestImage { kind, n: random.integer(), qid: random.integer() }
}

/// Anything in the places in which no request waits and no stream is open: what the record says stays.
pub fn fill_unused(random: &mut Random, record: &mut Record) {
    let blank = random.once_in(4).then_some(RequestImage { kind: random.byte(), n: 0, qid: 0 });
    for place in ring::unused(record) {
        let request = blank.unwrap_or_else(|| any_request(random));
        ring::put(record, place, request);
    }
    let open = ring::streams(record).len();
    let next = record.control.next;
    for stream in &mut record.streams[open..] {
        *stream = random.pick(&[0, next.wrapping_sub(1), next, u64::MAX]);
    }
}

/// The same waiting requests from another place on.
fn turn_ring(random: &mut Random, record: &mut Record) {
    let old = *record;
    record.control.first = random.below(PLACES);
    for (behind, request) in ring::waiting(&old).enumerate() {
        let place = ring::place(record, behind);
        ring::put(record, place, request);
    }
    fill_unused(random, record);
}

/// A record that says the same in other places, or one that is broken, or both.
pub fn beside(random: &mut Random, mut record: Record) -> Record {
    let how = random.below(4);
    if how < 2 {
        turn_ring(random, &mut record);
    }
    if how > 0 {
        damage(random, &mut record);
    }
    record
}

/// Changes something: most of these break a rule.
fn damage(random: &mut Random, record: &mut Record) {
    for _ in 0..random.between(1, 2) {
        let small = random.below(10) as u64;
        let large = random.pick(&[u64::MAX, 1 << 32, (1 << 32) - 1, 65_536, 65_537, 33, 32, 9]);
        let number = random.pick(&[small, small, large]);
        let changed = |value: u64| if small < 5 { value.wrapping_add(small).wrapping_sub(2) } else { number };
        let change = |value: &mut u64| *value = changed(*value);
        let change_size = |value: &mut usize| *value = changed(*value as u64) as usize;
        let Record { control, streams, .. } = record;
        match random.below(12) {
            0 if random.once_in(3) => control.state = random.pick(&[8, 9, 255]),
            0 => control.state = random_state(random),
            1 => control.in_flight = random.pick(&[0, 1, 1, 2, 255]),
            2 => control.first = random.pick(&[32, 33, 63, 64, usize::MAX - 31, usize::MAX, 31, 0]),
            3 => change_size(&mut control.waiting),
            4 => change_size(&mut control.opened),
            5 => change(&mut control.next),
            6 => change(&mut control.accepted),
            7 => change(&mut control.sent),
            8..=9 => change(&mut streams[random.below(8)]),
            _ => damage_place(random, record),
        }
    }
}

fn random_state(random: &mut Random) -> u8 {
    random.below(STATES.len()) as u8
}

/// In one of the places in which requests wait.
fn damage_place(random: &mut Random, record: &mut Record) {
    let place = ring::place(record, random.below(record.control.waiting.clamp(1, PLACES)));
    let mut request = ring::request_at(record, place);
    match random.below(4) {
        0 => request.kind = random.pick(&NAMELESS),
        1 => request.kind = random.pick(&tag::ALL),
        2 => request.n = random.pick(&[0, -1, -2, 1, i64::MIN]),
        _ => request.qid = random.pick(&[0, -1, -2, 1, i64::MIN]),
    }
    ring::put(record, place, request);
}

/// A record of random numbers.
pub fn any(random: &mut Random) -> Record {
    let mut record = wholly_random(random);
    if random.once_in(8) {
        return record;
    }
    make_good(random, &mut record);
    if random.once_in(3) {
        damage(random, &mut record);
    }
    record
}

fn wholly_random(random: &mut Random) -> Record {
    Record {
        control: Control {
            state: random.byte(),
            in_flight: random.byte(),
            first: random.number() as usize,
            waiting: random.number() as usize,
            opened: random.number() as usize,
            next: random.number(),
            accepted: random.number(),
            sent: random.number(),
        },
        streams: array::from_fn(|_| random.number()),
        kinds: array::from_fn(|_| random.byte()),
        counts: array::from_fn(|_| random.number() as i64),
        qids: array::from_fn(|_| random.number() as i64),
    }
}

/// Most of these keep the rules. What is not in use stays random.
fn make_good(random: &mut Random, record: &mut Record) {
    let Record { control, streams, .. } = record;
    let first = random.below(PLACES + 1);
    control.state = random_state(random);
    control.first = if first < PLACES { first } else { random.pick(&[PLACES, PLACES + 1, usize::MAX]) };
    let many = random.below(PLACES + 1);
    control.waiting = if control.state == DEFUNCT { 0 } else { random.pick(&[0, 1, 2, PLACES, many, many]) };
    control.in_flight = if control.waiting > 0 { random.below(2) as u8 } else { 0 };
    control.opened = if control.state == TX_STREAMING { random.between(1, 8) } else { 0 };
    control.next = control.opened as u64 + random.pick(&[0, 1, 7, 65_528, 65_536 - control.opened as u64]);
    for (index, stream) in streams[..control.opened].iter_mut().enumerate() {
        *stream = control.next - 1 - index as u64;
    }
    control.sent = random.pick(&[0, 1, 1_000, u64::from(u32::MAX) - control.waiting as u64]);
    control.accepted = control.sent + control.waiting as u64;
    let resets = control.state == INTERRUPTED;
    let last = control.waiting.saturating_sub(1);
    for (behind, place) in ring::used(record).enumerate() {
        let kind = match random.pick(&tag::ALL) {
            _ if resets && behind == last => tag::RESET,
            _ if record.control.in_flight == 1 && behind == 0 => random.pick(in_flight_in(record.control.state)),
            tag::RESET if !resets => tag::RUN,
            kind => kind,
        };
        let qid = random.pick(&[-1, -1, 0, 1, record.streams[0].min(65_536) as i64]);
        let (n, qid) = if random.once_in(60) { (0, -2) } else { (random.pick(&[-1, 1, i64::MAX]), qid) };
        ring::put(record, place, RequestImage { kind, n, qid });
    }
}

/// Requests that can be in flight in a state; there is none in FAILED and DEFUNCT.
fn in_flight_in(state: u8) -> &'static [u8] {
    match state {
        CONNECTED => &[tag::HELLO],
        READY => &[tag::RUN, tag::BEGIN],
        STREAMING => &[tag::DISCARD, tag::PULL],
        TX_READY => &[tag::RUN, tag::COMMIT, tag::ROLLBACK],
        TX_STREAMING => &[tag::RUN, tag::DISCARD, tag::PULL],
        _ => &[tag::RUN, tag::BEGIN, tag::COMMIT, tag::ROLLBACK, tag::DISCARD, tag::PULL],
    }
}
