//! The messages that are measured.

use reference::pack;

/// Puts values one after the other.
struct Message(Vec<u8>);

impl Message {
    fn add(mut self, pack: impl FnOnce(&mut [u8]) -> reference::Result<usize>) -> Self {
        let mut bytes = [0; 16_400];
        let length = pack(&mut bytes).expect("room");
        self.0.extend(&bytes[..length]);
        self
    }

    fn string(self, text: &str) -> Self {
        self.add(|buffer| pack::string(text.as_bytes(), buffer))
    }

    fn integer(self, number: i64) -> Self {
        self.add(|buffer| pack::integer(number, buffer))
    }

    fn dictionary(self, entries: usize) -> Self {
        self.add(|buffer| pack::dictionary_header(entries, buffer))
    }
}

/// RUN with a query and `parameters` parameters, half of them text of `width` bytes.
fn run(query: &str, parameters: usize, width: usize) -> Message {
    let start = Message(vec![0xB3, 0x10]).string(query).dictionary(parameters);
    (0..parameters).fold(start, |message, i| {
        let message = message.string(&format!("parameter_{i}"));
        if i % 2 == 0 { message.integer(1 << (i % 40)) } else { message.string(&"part 4711 rev C ".repeat(9)[..width]) }
    })
}

/// PULL of a thousand records.
pub fn pull() -> Vec<u8> {
    Message(vec![0xB1, 0x3F]).dictionary(1).string("n").integer(1_000).0
}

/// A query as drivers send it.
pub const QUERY: &str = "MATCH (p:Part {identifier: $parameter_0})-[:STRAP]->(s) RETURN s.name, s.file";

/// A RUN as drivers send it, of about 200 bytes.
pub fn typical_run() -> Vec<u8> {
    run(QUERY, 4, 20).dictionary(2).string("mode").string("r").string("db").string("parts").0
}

/// The longest RUN with 200 parameters: its query fills what they leave.
pub fn large_run() -> Vec<u8> {
    let without_query = run("", 200, 128).dictionary(0).0.len();
    let query = "RETURN $parameter_0, ".repeat(13)[..16_384 - without_query - 1].to_owned();
    let message = run(&query, 200, 128).dictionary(0).0;
    assert_eq!(message.len(), 16_384);
    message
}

/// The message with most keys to compare: 4,095 keys of two bytes in one Dictionary.
pub fn most_keys() -> Vec<u8> {
    let mut message = vec![0xD9, 0x0F, 0xFF];
    for i in 0..4_095u16 {
        message.extend([0x82, b'0' + (i >> 6) as u8, b'0' + (i & 63) as u8, 0x01]);
    }
    message
}

/// Texts by how much of them is ASCII: all, with short runs between other characters, with long runs, nothing.
pub const TEXTS: [(&str, &str); 4] = [
    ("ASCII", "Part 4711, rev. C; "),
    ("mixed text", "Düse 4 für 部品 12,50 € 🜁 "),
    (
        "German prose",
        "Die Düse wird über einen Stift geführt; größere Öffnungen sind nur nach Rücksprache möglich. Prüfschärfe: 0,05 µm, \
         Oberfläche geätzt. Maße in Zoll gelten nicht für Märkte außerhalb der EU. Übrige Werte: ±3 %, Stückzahl ≥ 40. ",
    ),
    ("CJK", "部品番号"),
];

/// Texts of up to 15 bytes that are not all ASCII.
pub const SHORT_TEXTS: [&str; 10] =
    ["µ", "部", "🜁", "µm", "部品", "Größe", "12,50 €", "für 5 €", "部品番号", "Düse 4 für"];

/// The longest message that is one String, of `text` repeated.
pub fn one_string(text: &str) -> Vec<u8> {
    let mut content = text.repeat(16_381 / text.len());
    content.extend(std::iter::repeat_n('x', 16_381 - content.len()));
    Message(Vec::new()).string(&content).0
}
