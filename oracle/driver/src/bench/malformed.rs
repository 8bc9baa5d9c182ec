//! Forms written otherwise: with zeros that lead, and in ways that are wrong. None has a newline.

use super::form::{Form, MOST_BYTES};
use crate::random::Random;

/// 2^64 - 1, which is a number, and others that are none.
const HIGH: [&str; 8] = [
    "18446744073709551615",
    "18446744073709551616",
    "18446744073709551620",
    "36893488147419103232",
    "99999999999999999999",
    "100000000000000000000",
    "340282366920938463463374607431768211456",
    "00000000000000000000018446744073709551616",
];

/// Names that are none, and names of what the program prints.
const UNKNOWN: [&str; 8] =
    ["", "lists", "fre", "freed", "kind", "done", "general-free", "reservedreserved"];

const BRACKETS: [(&str, &str); 8] = [
    ("", ""),
    ("(", ""),
    ("", ")"),
    ("((", "))"),
    ("(", "))"),
    ("[", "]"),
    (")", "("),
    ("( ", " )"),
];

/// Bytes that stand in a form or nearly do.
const BYTES: &[u8] = b"()  019-+aAeg\t\r\0/:_.\x80\xa0\xff";

/// The same form with zeros before a number: a few, or up to about 128 bytes. Some come out too long.
pub fn with_zeros(form: Form, random: &mut Random) -> Vec<u8> {
    let length = form.to_string().len();
    let bytes = match random.below(3) {
        0 => length + 1 + random.below(20) as usize,
        1 => MOST_BYTES,
        _ => MOST_BYTES - 2 + random.below(5) as usize,
    };
    up_to(bytes, form, random)
}

/// The form with zeros before a number, so many bytes long; without a number, as it is.
fn up_to(bytes: usize, form: Form, random: &mut Random) -> Vec<u8> {
    let mut words = words(form);
    if words.len() > 1 {
        let zeros = "0".repeat(bytes - form.to_string().len());
        some_number(&mut words, random).insert_str(0, &zeros);
    }
    in_brackets(&words)
}

/// A line that is mostly no form.
pub fn malformed(form: Form, random: &mut Random) -> Vec<u8> {
    match random.below(16) {
        0..=3 => one_byte_off(form, random),
        4 => upper_case(form, random),
        5..=7 => other_spaces(form, random),
        8 | 9 => other_count(form, random),
        10 | 11 => other_number(form, random),
        12 => other_name(form, random),
        13 => other_brackets(form, random),
        14 => long(form, random),
        _ => any_bytes(random),
    }
}

/// A byte less, one twice, one more, or another in its place; or only the first ones.
fn one_byte_off(form: Form, random: &mut Random) -> Vec<u8> {
    let mut line = form.to_string().into_bytes();
    let at = random.below(line.len() as u64) as usize;
    match random.below(5) {
        0 => drop(line.remove(at)),
        1 => line.insert(at, line[at]),
        2 => line.insert(at, some_byte(random)),
        3 => line[at] = some_byte(random),
        _ => line.truncate(at),
    }
    line
}

fn upper_case(form: Form, random: &mut Random) -> Vec<u8> {
    let mut line = form.to_string().into_bytes();
    if random.once_in(2) {
        line.make_ascii_uppercase();
    } else {
        line[1].make_ascii_uppercase();
    }
    line
}

fn other_spaces(form: Form, random: &mut Random) -> Vec<u8> {
    let text = form.to_string();
    let line = match random.below(8) {
        0 => text.replace(' ', "  "),
        1 => text.replacen(' ', "  ", 1),
        2 => text.replace(' ', "\t"),
        3 => text.replace(')', " )"),
        4 => format!(" {text}"),
        5 => format!("{text} "),
        6 => format!("{text} {text}"),
        _ => format!("{text}\r"),
    };
    line.into_bytes()
}

/// A number too many, one too few, or none.
fn other_count(form: Form, random: &mut Random) -> Vec<u8> {
    let mut words = words(form);
    match random.below(4) {
        0 => drop(words.pop()),
        1 => words.truncate(1),
        _ => words.push(random.below(100).to_string()),
    }
    in_brackets(&words)
}

/// A sign, a letter, or a number about 2^64 or above it.
fn other_number(form: Form, random: &mut Random) -> Vec<u8> {
    let mut words = words(form);
    if words.len() == 1 {
        words.push("1".to_string());
    }
    let number = some_number(&mut words, random);
    match random.below(8) {
        0 => number.insert(0, '-'),
        1 => number.insert(0, '+'),
        2 => number.push('a'),
        3 => number.insert_str(0, "0x"),
        _ => *number = HIGH[random.below(HIGH.len() as u64) as usize].to_string(),
    }
    in_brackets(&words)
}

fn other_name(form: Form, random: &mut Random) -> Vec<u8> {
    let mut words = words(form);
    words[0] = UNKNOWN[random.below(UNKNOWN.len() as u64) as usize].to_string();
    in_brackets(&words)
}

fn other_brackets(form: Form, random: &mut Random) -> Vec<u8> {
    let (left, right) = BRACKETS[random.below(BRACKETS.len() as u64) as usize];
    format!("{left}{}{right}", words(form).join(" ")).into_bytes()
}

/// Bytes up to a limit of 128 or of some buffer, or past it, with the form before or after them; or a
/// form of 128 bytes with more before or after it.
fn long(form: Form, random: &mut Random) -> Vec<u8> {
    let limit = random.pick(&[128, 128, 128, 256, 1024, 4096, 8192, 65_536, 100_000]);
    let length = random.near(limit) as usize;
    let text = form.to_string().into_bytes();
    let filler = vec![random.pick(&[b' ', b'0', b'(', b'x', 0xff].map(u64::from)) as u8; length];
    let (of_128, few) = (up_to(MOST_BYTES, form, random), &filler[..length % 5 + 1]);
    match random.below(6) {
        0 => [text, filler].concat(),
        1 => [filler, text].concat(),
        2 => [&filler[text.len()..], &text].concat(),
        3 => [&of_128, few].concat(),
        4 => [few, &of_128].concat(),
        _ => filler,
    }
}

/// None, a few, or about as many as a line may have.
fn any_bytes(random: &mut Random) -> Vec<u8> {
    let length = match random.below(4) {
        0 => 0,
        1 => 126 + random.below(5),
        _ => random.below(12),
    };
    (0..length).map(|_| some_byte(random)).collect()
}

fn some_byte(random: &mut Random) -> u8 {
    match random.below(256) as u8 {
        byte if byte < 192 => BYTES[byte as usize % BYTES.len()],
        _ => match random.below(256) as u8 {
            b'\n' => b'\r',
            byte => byte,
        },
    }
}

fn words(form: Form) -> Vec<String> {
    let text = form.to_string();
    text[1..text.len() - 1].split(' ').map(str::to_string).collect()
}

fn some_number<'a>(words: &'a mut [String], random: &mut Random) -> &'a mut String {
    let numbers = words.len() as u64 - 1;
    &mut words[1 + random.below(numbers) as usize]
}

fn in_brackets(words: &[String]) -> Vec<u8> {
    format!("({})", words.join(" ")).into_bytes()
}
