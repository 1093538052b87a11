//! How arrays, bytes and answers are written in the texts of a set.

use crate::*;
use std::fmt::Write;

pub fn hexadecimal(bytes: &[u8]) -> String {
    let digits: String = bytes.iter().map(|byte| format!("{byte:02x}")).collect();
    if digits.is_empty() {
        "-".into()
    } else {
        digits
    }
}

pub fn put_elements(text: &mut String, array: &[i32]) {
    for element in array {
        let _ = write!(text, " {element}");
    }
}

pub fn put_arrays(text: &mut String, base: &[i32], check: &[i32]) {
    for (name, array) in [("base", base), ("check", check)] {
        *text += name;
        put_elements(text, array);
        text.push('\n');
    }
}

/// A byte that can be seen as it is, any other as a backslash and two digits.
pub fn put_bytes(text: &mut String, bytes: &[u8]) {
    for &byte in bytes {
        if byte.is_ascii_graphic() && byte != b'\\' {
            text.push(char::from(byte));
        } else {
            let _ = write!(text, "\\{byte:02x}");
        }
    }
}

/// A call of the battery, with a buffer that only list writes to.
type Call = fn(&mut [i32], &mut [i32], &mut [u8]) -> Answer;

const BATTERY: [Call; 9] = [
    |base, check, _| audit(base, check),
    |base, check, _| find(base, check, b"a"),
    |base, check, _| find(base, check, b"aa"),
    |base, check, _| insert(base, check, b"a", 2),
    |base, check, _| insert(base, check, b"b", 3),
    |base, check, _| delete(base, check, b"a"),
    |base, check, _| compact(base, check, 1),
    |base, check, out| list(base, check, out),
    |base, check, _| fresh(base, check),
];

/// What each call of the battery answers, with the elements or bytes that it has changed.
pub fn put_battery(text: &mut String, base: &[i32], check: &[i32]) {
    for call in BATTERY {
        let (mut new_base, mut new_check, mut out) = (base.to_vec(), check.to_vec(), [b'.'; 14]);
        let answer = call(&mut new_base, &mut new_check, &mut out);
        let _ = write!(text, "{} {}", answer.number, answer.value);
        if new_base != base || new_check != check {
            put_elements(text, &new_base);
            put_elements(text, &new_check);
        }
        if out != [b'.'; 14] {
            text.push(' ');
            put_bytes(text, &out);
        }
        text.push(';');
    }
    text.push('\n');
}
