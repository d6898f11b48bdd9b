//! Requests: a message's structure read as what a client asks for, with its fields and the entries of its extra.

use crate::handshake::Version;
use crate::value::{Container, Reader, Value};
use crate::{Refusal, Result};

#[derive(Clone, Copy, PartialEq, Eq, Debug)]
pub enum Request<'a> {
    Hello(Hello<'a>),
    Goodbye,
    Reset,
    Run { query: &'a str, parameters: Container<'a>, extra: Transaction<'a> },
    Begin(Transaction<'a>),
    Commit,
    Rollback,
    Discard(Batch),
    Pull(Batch),
}

#[derive(Clone, Copy, PartialEq, Eq, Debug)]
pub struct Hello<'a> {
    pub user_agent: &'a str,
    pub scheme: Option<&'a str>,
    pub principal: Option<&'a str>,
    pub credentials: Option<&'a str>,
    pub routing: Option<Container<'a>>,
}

#[derive(Clone, Copy, PartialEq, Eq, Debug)]
pub enum Mode {
    Read,
    Write,
}

/// The extra of RUN and BEGIN.
#[derive(Clone, Copy, PartialEq, Eq, Debug)]
pub struct Transaction<'a> {
    pub bookmarks: Option<Container<'a>>,
    pub tx_timeout: Option<i64>,
    pub tx_metadata: Option<Container<'a>>,
    pub mode: Option<Mode>,
    pub db: Option<&'a str>,
}

/// The extra of DISCARD and PULL: how many records of which stream, -1 for all and for the latest.
#[derive(Clone, Copy, PartialEq, Eq, Debug)]
pub struct Batch {
    pub n: i64,
    pub qid: i64,
}

impl Batch {
    pub fn n_in_range(n: i64) -> bool {
        n == -1 || n >= 1
    }

    pub fn qid_in_range(qid: i64) -> bool {
        qid >= -1
    }
}

/// A value with the offset of its marker, where it is refused if it is not what it has to be.
#[derive(Clone, Copy)]
struct Placed<'a> {
    place: usize,
    value: Value<'a>,
}

impl<'a> Placed<'a> {
    fn wrong_kind<T>(self) -> Result<T> {
        Err(Refusal::at(Refusal::WRONG_KIND, self.place))
    }

    fn out_of_range<T>(self) -> Result<T> {
        Err(Refusal::at(Refusal::OUT_OF_RANGE, self.place))
    }

    fn string(self) -> Result<&'a str> {
        match self.value {
            Value::String(text) => Ok(text),
            _ => self.wrong_kind(),
        }
    }

    fn dictionary(self) -> Result<Container<'a>> {
        match self.value {
            Value::Dictionary(entries) => Ok(entries),
            _ => self.wrong_kind(),
        }
    }

    fn integer(self, in_range: impl Fn(i64) -> bool) -> Result<i64> {
        match self.value {
            Value::Integer(number) if in_range(number) => Ok(number),
            Value::Integer(_) => self.out_of_range(),
            _ => self.wrong_kind(),
        }
    }

    fn mode(self) -> Result<Mode> {
        match self.string()? {
            "r" => Ok(Mode::Read),
            "w" => Ok(Mode::Write),
            _ => self.out_of_range(),
        }
    }

    fn list_of_strings(self) -> Result<Container<'a>> {
        let Value::List(items) = self.value else { return self.wrong_kind() };
        let mut reader = items.reader();
        for _ in 0..items.size {
            let place = reader.place();
            Placed { place, value: reader.head(1)? }.string()?;
        }
        Ok(items)
    }
}

/// The known entries of an extra, in the order of their names; an entry that is Null counts as absent.
fn known<'a, const N: usize>(extra: Container<'a>, names: [&str; N]) -> Result<[Option<Placed<'a>>; N]> {
    let mut found = [None; N];
    let mut reader = extra.reader();
    for _ in 0..extra.size {
        let key = reader.key()?;
        let place = reader.place();
        let value = reader.head(1)?;
        reader.skip(value)?;
        if let Some(index) = names.iter().position(|&name| name == key) {
            found[index] = (value != Value::Null).then_some(Placed { place, value });
        }
    }
    Ok(found)
}

/// A required entry that is absent is refused at the Dictionary's marker.
fn required<'a>(entry: Option<Placed<'a>>, extra: Container<'a>) -> Result<Placed<'a>> {
    entry.ok_or(Refusal::at(Refusal::MISSING_ENTRY, extra.place))
}

fn hello(version: Version, extra: Container<'_>) -> Result<Request<'_>> {
    let [user_agent, scheme, principal, credentials, routing] =
        known(extra, ["user_agent", "scheme", "principal", "credentials", "routing"])?;
    Ok(Request::Hello(Hello {
        user_agent: required(user_agent, extra)?.string()?,
        scheme: scheme.map(Placed::string).transpose()?,
        principal: principal.map(Placed::string).transpose()?,
        credentials: credentials.map(Placed::string).transpose()?,
        routing: routing.filter(|_| version.knows_routing()).map(Placed::dictionary).transpose()?,
    }))
}

fn transaction(extra: Container<'_>) -> Result<Transaction<'_>> {
    let [bookmarks, tx_timeout, tx_metadata, mode, db] =
        known(extra, ["bookmarks", "tx_timeout", "tx_metadata", "mode", "db"])?;
    Ok(Transaction {
        bookmarks: bookmarks.map(Placed::list_of_strings).transpose()?,
        tx_timeout: tx_timeout.map(|entry| entry.integer(|number| number >= 0)).transpose()?,
        tx_metadata: tx_metadata.map(Placed::dictionary).transpose()?,
        mode: mode.map(Placed::mode).transpose()?,
        db: db.map(Placed::string).transpose()?,
    })
}

fn batch(extra: Container<'_>) -> Result<Batch> {
    let [n, qid] = known(extra, ["n", "qid"])?;
    Ok(Batch {
        n: required(n, extra)?.integer(Batch::n_in_range)?,
        qid: qid.map(|entry| entry.integer(Batch::qid_in_range)).transpose()?.unwrap_or(-1),
    })
}

/// Reads `message` as a request. Refusals: those of a value (6, 7 to 13), then 14, 15, then 26 at the first field of
/// another kind, then 25, 26 or 27 for the first entry that is wrong, in checking order. A field is never absent: Null
/// is of the wrong kind there.
pub fn read(version: Version, message: &[u8]) -> Result<Request<'_>> {
    let mut reader = Reader::new(message)?;
    let root = reader.head(16)?;
    let mut fields = [Placed { place: 0, value: Value::Null }; 15];
    let Value::Structure { tag, fields: Container { size, .. } } = root else {
        return Err(not_a_structure(message));
    };
    for field in &mut fields[..size] {
        *field = Placed { place: reader.place(), value: reader.value(15)? };
    }
    reader.end()?;
    let expected = match tag {
        0x01 | 0x11 | 0x2F | 0x3F => 1,
        0x02 | 0x0F | 0x12 | 0x13 => 0,
        0x10 => 3,
        _ => return Err(Refusal::new(Refusal::UNKNOWN_REQUEST)),
    };
    if size != expected {
        return Err(Refusal::new(Refusal::FIELD_COUNT));
    }
    match tag {
        0x01 => hello(version, fields[0].dictionary()?),
        0x02 => Ok(Request::Goodbye),
        0x0F => Ok(Request::Reset),
        0x10 => {
            let (query, parameters) = (fields[0].string()?, fields[1].dictionary()?);
            Ok(Request::Run { query, parameters, extra: transaction(fields[2].dictionary()?)? })
        }
        0x11 => Ok(Request::Begin(transaction(fields[0].dictionary()?)?)),
        0x12 => Ok(Request::Commit),
        0x13 => Ok(Request::Rollback),
        0x2F => Ok(Request::Discard(batch(fields[0].dictionary()?)?)),
        _ => Ok(Request::Pull(batch(fields[0].dictionary()?)?)),
    }
}

/// Whatever is wrong with the value comes before its being no request.
fn not_a_structure(message: &[u8]) -> Refusal {
    crate::value::read(message).err().unwrap_or(Refusal::new(Refusal::UNKNOWN_REQUEST))
}

#[cfg(test)]
mod tests {
    use super::*;
    use Version::{V4_0, V4_1, V4_2};

    fn refused(message: &[u8]) -> (u8, usize) {
        let refusal = read(V4_1, message).unwrap_err();
        (refusal.number, refusal.place)
    }

    #[test]
    fn edges_of_the_paper() {
        assert_eq!(refused(b"\xB1\x3F\xA1\x81n\x00"), (27, 5));
        assert_eq!(refused(b"\xB1\x3F\xA0"), (25, 2));
    }

    #[test]
    fn requests_without_fields() {
        assert_eq!(read(V4_0, &[0xB0, 0x02]), Ok(Request::Goodbye));
        assert_eq!(read(V4_0, &[0xB0, 0x0F]), Ok(Request::Reset));
        assert_eq!(read(V4_0, &[0xB0, 0x12]), Ok(Request::Commit));
        assert_eq!(read(V4_0, &[0xB0, 0x13]), Ok(Request::Rollback));
    }

    #[test]
    fn hello() {
        let message = b"\xB1\x01\xA5\x8Auser_agent\x8DExample/4.1.0\x86scheme\x85basic\x89principal\x84user\
            \x8Bcredentials\x88password\x87routing\xA1\x87address\xD0\x12x.example.com:9001";
        for (version, routing) in [(V4_0, None), (V4_1, Some(85)), (V4_2, Some(85))] {
            let Ok(Request::Hello(hello)) = read(version, message) else { panic!() };
            assert_eq!(hello.user_agent, "Example/4.1.0");
            assert_eq!(hello.scheme, Some("basic"));
            assert_eq!(hello.principal, Some("user"));
            assert_eq!(hello.credentials, Some("password"));
            assert_eq!(hello.routing.map(|entries| entries.place), routing);
        }
        // The trial run's HELLO, and one with a Null that counts as absent.
        assert!(read(V4_0, b"\xB1\x01\xA1\x8Auser_agent\x83P/1").is_ok());
        assert!(read(V4_1, b"\xB1\x01\xA2\x87routing\xC0\x8Auser_agent\x83P/1").is_ok());
        // Required and absent comes before what is wrong in later names.
        assert_eq!(refused(b"\xB1\x01\xA1\x86scheme\x01"), (25, 2));
        assert_eq!(refused(b"\xB1\x01\xA1\x8Auser_agent\xC0"), (25, 2));
        assert_eq!(refused(b"\xB1\x01\xA2\x86scheme\x01\x8Auser_agent\x01"), (26, 22));
        assert_eq!(refused(b"\xB1\x01\xA2\x87routing\x01\x8Auser_agent\x80"), (26, 11));
        assert!(read(V4_0, b"\xB1\x01\xA2\x87routing\x01\x8Auser_agent\x80").is_ok());
    }

    #[test]
    fn run() {
        let message = b"\xB3\x10\x8ERETURN $x AS x\xA1\x81x\x01\xA4\x89bookmarks\x90\x8Atx_timeout\x7B\
            \x8Btx_metadata\xA1\x83log\x8Fexample_message\x84mode\x81r";
        let Ok(Request::Run { query, parameters, extra }) = read(V4_0, message) else { panic!() };
        assert_eq!((query, parameters.place, parameters.size), ("RETURN $x AS x", 17, 1));
        assert_eq!(extra.bookmarks.map(|items| items.size), Some(0));
        assert_eq!(extra.tx_timeout, Some(123));
        assert_eq!(extra.tx_metadata.map(|entries| entries.size), Some(1));
        assert_eq!((extra.mode, extra.db), (Some(Mode::Read), None));
        assert!(read(V4_0, b"\xB3\x10\xD0\x16CALL dbms.procedures()\xA0\xA0").is_ok());
        assert_eq!(refused(b"\xB3\x10\xC0\xA0\xA0"), (26, 2));
        assert_eq!(refused(b"\xB3\x10\x80\x90\xA1\x84mode\x01"), (26, 3));
        assert_eq!(refused(b"\xB3\x10\x80\xA0\xC0"), (26, 4));
        assert_eq!(refused(b"\xB3\x10\x01\xA0\xC0"), (26, 2));
    }

    #[test]
    fn begin_in_checking_order() {
        let message = b"\xB1\x11\xA3\x82db\xD0\x10example_database\x8Btx_metadata\xA1\x83log\xD0\x10example_log_data\
            \x89bookmarks\x92\xD0\x12example-bookmark:1\xD0\x11example-bookmark2";
        let Ok(Request::Begin(extra)) = read(V4_0, message) else { panic!() };
        assert_eq!((extra.db, extra.bookmarks.map(|items| items.size)), (Some("example_database"), Some(2)));
        assert_eq!(refused(b"\xB1\x11\xA2\x82db\x01\x84mode\x81x"), (27, 12));
        assert_eq!(refused(b"\xB1\x11\xA2\x84mode\x80\x8Atx_timeout\xFF"), (27, 20));
        assert_eq!(refused(b"\xB1\x11\xA1\x89bookmarks\x93\x81a\xC0\x01"), (26, 16));
        assert_eq!(refused(b"\xB1\x11\xA1\x89bookmarks\xA0"), (26, 13));
        assert_eq!(refused(b"\xB1\x11\xA1\x8Btx_metadata\x90"), (26, 15));
        assert!(read(V4_0, b"\xB1\x11\xA1\x84mode\xD0\x01w").is_ok());
        assert!(read(V4_0, b"\xB1\x11\xA2\x85other\x91\xA1\x84mode\x01\x84mode\xC0").is_ok());
    }

    #[test]
    fn pull_and_discard() {
        assert_eq!(read(V4_0, b"\xB1\x3F\xA1\x81n\xFF"), Ok(Request::Pull(Batch { n: -1, qid: -1 })));
        assert_eq!(read(V4_0, b"\xB1\x2F\xA1\x81n\xC9\x03\xE8"), Ok(Request::Discard(Batch { n: 1000, qid: -1 })));
        assert_eq!(read(V4_0, b"\xB1\x2F\xA2\x83qid\x00\xD0\x01n\x01"), Ok(Request::Discard(Batch { n: 1, qid: 0 })));
        assert_eq!(read(V4_0, b"\xB1\x3F\xA2\x81n\x01\x83qid\xC0"), Ok(Request::Pull(Batch { n: 1, qid: -1 })));
        assert_eq!(refused(b"\xB1\x3F\xA2\x83qid\x80\x81n\x81x"), (26, 10));
        assert_eq!(refused(b"\xB1\x3F\xA2\x83qid\xFE\x81n\x01"), (27, 7));
        assert_eq!(refused(b"\xB1\x3F\xA1\x81n\xFE"), (27, 5));
        assert_eq!(refused(b"\xB1\x3F\xA1\x81n\xC0"), (25, 2));
        // What n is comes before what qid is, whatever is wrong with each.
        assert_eq!(refused(b"\xB1\x3F\xA2\x81n\x00\x83qid\xC3"), (27, 5));
        assert_eq!(refused(b"\xB1\x3F\xA1\x83qid\xC3"), (25, 2));
    }

    #[test]
    fn value_then_structure_then_count() {
        assert_eq!(refused(&[]), (7, 0));
        assert_eq!(refused(&[0x91]), (7, 1));
        assert_eq!(refused(&[0x90]), (14, 0));
        assert_eq!(refused(&[0x90, 0x90]), (13, 1));
        assert_eq!(refused(&[0xB0, 0x3F]), (15, 0));
        assert_eq!(refused(&[0xB1, 0x0E, 0x01]), (14, 0));
        assert_eq!(refused(&[0xB1, 0x66]), (7, 2));
        assert_eq!(refused(&[0xB1, 0x02, 0x01]), (15, 0));
        assert_eq!(refused(&[0xB2, 0x10, 0x01, 0xA0]), (15, 0));
        assert_eq!(refused(&[0xB1, 0x3F, 0x01]), (26, 2));
        assert_eq!(refused(&[0xB1, 0x3F, 0x01, 0x01]), (13, 3));
        assert_eq!(refused(&[0xB0; 16_385]), (6, 0));
    }
}
