//! Why a call was refused.
use std::fmt;

/// The refusals with their texts, the same table that the C header is made from: a line is `MEULHATON_REFUSAL(number, NAME, "text")`.
const TABLE: &str = include_str!("../../c/meulhaton_refusals.def");

/// A refusal: its number in document 01's table, and an offset into the message where a reader refuses with 7 to 13 or 25 to 27, else 0.
/// A refused call consumed nothing and changed nothing.
#[derive(Clone, Copy, Debug, PartialEq, Eq, Hash)]
pub struct Refusal {
    /// 1 to 15, 17 to 22, or 24 to 27.
    pub number: u8,
    /// Where in the message; 0 where there is no place.
    pub place: usize,
}

impl Refusal {
    /// Whether the caller has to close the connection: after 5 to 15 and 25 to 27. Not after 4 (wait for more bytes), 17 (take first) or
    /// 21 (lend a larger buffer).
    pub fn closes(self) -> bool {
        matches!(self.number, 5..=15 | 25..=27)
    }

    /// What is wrong, for people; another text for a number that is no refusal's.
    pub fn text(self) -> &'static str {
        TABLE.lines().find_map(|line| text_for(self.number, line)).unwrap_or("no refusal has this number")
    }
}

/// The text of a line of the table, if the line is that number's.
fn text_for(number: u8, line: &'static str) -> Option<&'static str> {
    let (found, name_and_text) = line.strip_prefix("MEULHATON_REFUSAL(")?.split_once(", ")?;
    let (_, text) = name_and_text.split_once(", ")?;
    let text = text.strip_prefix('"')?.strip_suffix("\")")?;
    (found.parse() == Ok(number)).then_some(text)
}

impl fmt::Display for Refusal {
    fn fmt(&self, f: &mut fmt::Formatter<'_>) -> fmt::Result {
        write!(f, "{} at {}: {}", self.number, self.place, self.text())
    }
}

impl std::error::Error for Refusal {}

/// The result, unless the number says that there is none.
pub(crate) fn unless_refused<T>(number: u8, place: u64, result: impl FnOnce() -> T) -> Result<T, Refusal> {
    if number == 0 {
        Ok(result())
    } else {
        Err(Refusal { number, place: place as usize })
    }
}
