//! What a request was refused for with 25, 26 or 27, told from the message and the place: so that it is known whether
//! every such complaint was met, and not the number alone.

use crate::sides::tag::{BEGIN, DISCARD, HELLO, PULL, RUN};
use reference::Refusal;
use reference::value::{self, Value};

#[derive(Clone, Copy, PartialEq, Eq, PartialOrd, Ord, Debug)]
pub enum Complaint {
    /// A required entry that is not there.
    Absent,
    /// A required entry that is Null.
    NullEntry,
    Field,
    NullField,
    Entry,
    /// An item among bookmarks.
    Item,
    NullItem,
    Number,
    Word,
}

/// Every complaint that there can be about each request, by its tag.
pub fn all() -> impl Iterator<Item = (u8, Complaint)> {
    use Complaint::*;
    const HELLOS: &[Complaint] = &[Absent, NullEntry, Field, NullField, Entry];
    const TRANSACTIONS: &[Complaint] = &[Field, NullField, Entry, Item, NullItem, Number, Word];
    const BATCHES: &[Complaint] = &[Absent, NullEntry, Field, NullField, Entry, Number];
    let requests = [(HELLO, HELLOS), (RUN, TRANSACTIONS), (BEGIN, TRANSACTIONS), (DISCARD, BATCHES), (PULL, BATCHES)];
    requests.into_iter().flat_map(|(tag, complaints)| complaints.iter().map(move |&complaint| (tag, complaint)))
}

/// The complaint, with the request's tag; none where the request was refused for something else.
pub fn complaint(message: &[u8], refusal: Refusal) -> Option<(u8, Complaint)> {
    if !(Refusal::MISSING_ENTRY..=Refusal::OUT_OF_RANGE).contains(&refusal.number) {
        return None;
    }
    let (root, _) = value::read_at(message, 0, 16).ok()?;
    let Value::Structure { tag, fields } = root else { return None };
    let fields = values(message, fields.start, fields.size)?;
    let extra = fields.last()?.1;
    let is_field = fields.iter().any(|(place, _)| *place == refusal.place);
    let is_null = message.get(refusal.place) == Some(&0xC0);
    let complaint = match refusal.number {
        Refusal::MISSING_ENTRY if required_is_null(message, tag, extra) => Complaint::NullEntry,
        Refusal::MISSING_ENTRY => Complaint::Absent,
        Refusal::OUT_OF_RANGE => match value::read_at(message, refusal.place, 16).ok()?.0 {
            Value::String(_) => Complaint::Word,
            _ => Complaint::Number,
        },
        _ if is_field && is_null => Complaint::NullField,
        _ if is_field => Complaint::Field,
        _ if entries(message, extra)?.iter().any(|(_, place, _)| *place == refusal.place) => Complaint::Entry,
        _ if is_null => Complaint::NullItem,
        _ => Complaint::Item,
    };
    Some((tag, complaint))
}

/// So many values from an offset on, each with its place.
fn values(message: &[u8], mut at: usize, count: usize) -> Option<Vec<(usize, Value<'_>)>> {
    let mut values = Vec::new();
    for _ in 0..count {
        let (value, end) = value::read_at(message, at, 16).ok()?;
        values.push((at, value));
        at = end;
    }
    Some(values)
}

/// Key, place and value of each entry of a Dictionary.
fn entries<'m>(message: &'m [u8], dictionary: Value<'m>) -> Option<Vec<(&'m str, usize, Value<'m>)>> {
    let Value::Dictionary(items) = dictionary else { return None };
    let values = values(message, items.start, 2 * items.size)?;
    let entries = values.chunks_exact(2).map(|entry| match entry[0].1 {
        Value::String(key) => Some((key, entry[1].0, entry[1].1)),
        _ => None,
    });
    entries.collect()
}

fn required_is_null(message: &[u8], tag: u8, extra: Value) -> bool {
    let required = if tag == HELLO { "user_agent" } else { "n" };
    let found = entries(message, extra).unwrap_or_default();
    found.iter().any(|(key, _, value)| *key == required && *value == Value::Null)
}
