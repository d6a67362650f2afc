//! What a card answers: fields, and after them the status word.

use crate::names;
use crate::view::number;

const NEED_PAUSE: u16 = 0x9789;
const UNITS_A_SECOND: u32 = 100; // Pause counts in 10 ms

#[derive(Clone, Debug, PartialEq, Eq)]
pub struct Field {
    pub tag: u8,
    pub name: &'static str,
    pub value: Vec<u8>,
}

#[derive(Clone, Debug, PartialEq, Eq)]
pub struct Response {
    /// As it came.
    pub bytes: Vec<u8>,
    pub word: u16,
    /// The word's.
    pub name: &'static str,
    /// The number of the check that refused, 0 where none did. It is in no byte of the response: a real card keeps it to itself.
    pub reason: u8,
    pub fields: Vec<Field>,
}

impl Response {
    pub(crate) fn new(bytes: Vec<u8>, ins: u8, reason: u8) -> Response {
        let (fields, word) = bytes.split_at(bytes.len() - 2);
        let (fields, word) = (fields_of(fields), number(word) as u16);
        Response { bytes, word, name: names::word(word, ins), reason, fields }
    }

    pub fn ok(&self) -> bool {
        (0x9000..=0x9003).contains(&self.word)
    }

    /// Not yet: the card holds the request, and its holder has to wait. The same bytes are to be sent again;
    /// [`Card::tap_waiting`](crate::Card::tap_waiting) does that.
    pub fn paused(&self) -> bool {
        self.word == NEED_PAUSE
    }

    /// How long, where the response is paused.
    pub fn seconds_left(&self) -> Option<u32> {
        self.number("Pause").filter(|_| self.paused()).map(|units| units / UNITS_A_SECOND)
    }

    /// Nothing was done. The card holds no request now, and may have counted a wrong code; all else is as it was before.
    pub fn refused(&self) -> bool {
        !self.ok() && !self.paused()
    }

    /// The reason in words; none where it is 0.
    pub fn why(&self) -> Option<&'static str> {
        (self.reason != 0).then(|| names::reason(self.reason))
    }

    /// The value of the field with this name.
    pub fn field(&self, name: &str) -> Option<&[u8]> {
        self.fields.iter().find(|field| field.name == name).map(|field| field.value.as_slice())
    }

    pub fn number(&self, name: &str) -> Option<u32> {
        self.field(name).map(number)
    }
}

/// Tag, length, value, one after the other. A length above 254 takes FF and two bytes.
fn fields_of(mut rest: &[u8]) -> Vec<Field> {
    let mut fields = Vec::new();
    while let [tag, length, ..] = *rest {
        let (start, length) = if length == 0xFF { (4, number(&rest[2..4]) as usize) } else { (2, length as usize) };
        let (field, after) = rest.split_at(start + length);
        fields.push(Field { tag, name: names::tag(tag), value: field[start..].to_vec() });
        rest = after;
    }
    fields
}
