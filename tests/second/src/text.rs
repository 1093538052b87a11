//! The alphabet, and the hexadecimal text of listings, sheets and answers.

use crate::Answer;
use std::fmt::Write;

pub const END_MARK: usize = 1;
pub const GREATEST_CODE: usize = 38;
pub const GREATEST_IDENTIFIER: usize = 32;
pub const ANSWER_LENGTH: usize = 11;

/// The characters in the order of their codes. The first has code 2, after the end mark.
pub const CHARACTERS: &[u8; 37] = b"abcdefghijklmnopqrstuvwxyz0123456789-";

/// The codes of an identifier and of the end mark after it; none if it is no identifier.
pub fn labels(key: &[u8]) -> Option<Vec<usize>> {
    if key.is_empty() || key.len() > GREATEST_IDENTIFIER {
        return None;
    }
    let mut labels = key.iter().map(code).collect::<Option<Vec<_>>>()?;
    labels.push(END_MARK);
    Some(labels)
}

fn code(character: &u8) -> Option<usize> {
    let place = CHARACTERS.iter().position(|other| other == character)?;
    Some(place + END_MARK + 1)
}

/// The identifier whose labels these are; the end mark is not one of its characters.
pub(crate) fn identifier(labels: &[usize]) -> Vec<u8> {
    let characters = labels.iter().filter(|&&label| label > END_MARK);
    characters.map(|label| CHARACTERS[label - END_MARK - 1]).collect()
}

/// The listing of entries that are already in order of label codes.
pub fn listing(entries: &[(Vec<usize>, u32)]) -> Vec<u8> {
    let lines = entries.iter().flat_map(|(labels, row)| {
        let mut line = counted(&identifier(labels), *row);
        line.push(b'\n');
        line
    });
    lines.collect()
}

/// Length, characters and number, as a listing's line and a sheet's line both have them.
pub fn counted(key: &[u8], number: u32) -> Vec<u8> {
    let mut text = format!("{:02x}", key.len());
    for character in key {
        let _ = write!(text, "{character:02x}");
    }
    let _ = write!(text, "{number:08x}");
    text.into_bytes()
}

/// The 11 bytes of an answer.
pub fn answer(answer: Answer) -> [u8; ANSWER_LENGTH] {
    let text = format!("{:02x}{:08x}\n", answer.number, answer.value);
    let mut bytes = [b'0'; ANSWER_LENGTH];
    bytes.copy_from_slice(text.as_bytes());
    bytes
}

/// A sheet's lines without their line feeds. What is empty after the last line feed is no line.
pub fn lines(sheet: &[u8]) -> Vec<&[u8]> {
    let mut lines: Vec<&[u8]> = sheet.split(|&byte| byte == b'\n').collect();
    if lines.last().is_some_and(|last| last.is_empty()) {
        lines.pop();
    }
    lines
}

/// What a well-formed line says.
pub struct Line {
    pub operation: u32,
    pub key: Vec<u8>,
    pub number: u32,
}

/// Reads a line; none for every reason of LINE.
pub fn read_line(line: &[u8]) -> Option<Line> {
    let digits = line.iter().map(digit).collect::<Option<Vec<_>>>()?;
    if digits.len() < 12 || digits.len() != 12 + 2 * number(&digits[2..4]) as usize {
        return None;
    }
    let (front, back) = digits.split_at(digits.len() - 8);
    let read = Line {
        operation: number(&front[..2]),
        key: front[4..].chunks(2).map(|two| number(two) as u8).collect(),
        number: number(back),
    };
    let allowed = match read.operation {
        1 => true,
        2 | 3 => read.number == 0,
        4 => read.key.is_empty(),
        _ => false,
    };
    allowed.then_some(read)
}

fn digit(byte: &u8) -> Option<u32> {
    match byte {
        b'0'..=b'9' => Some(u32::from(byte - b'0')),
        b'a'..=b'f' => Some(u32::from(byte - b'a') + 10),
        _ => None,
    }
}

/// The number of at most 8 digits, which 32 bits without a sign can hold.
fn number(digits: &[u32]) -> u32 {
    digits.iter().fold(0, |number, digit| number * 16 + digit)
}
