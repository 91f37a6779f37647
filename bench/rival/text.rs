//! The characters of texts, both ways.
use std::io::{self, Write};

const STRETCHES: [(u8, &str); 5] = [
    (0x80, "áàéèíìóòúùÑÇ"),
    (0x90, "âäêëîïôöûüñç"),
    (0xA9, "€£$"),
    (0xC0, "ÁÀÉÈÍÌÓÒÚÙ"),
    (0xD0, "ÂÄÊËÎÏÔÖÛÜ"),
];

fn is_ascii_character(byte: u8) -> bool {
    matches!(byte, 0x20..=0x23 | 0x25..=0x5B | 0x5D | 0x5F | 0x61..=0x7D)
}

fn character(byte: u8) -> Option<char> {
    if is_ascii_character(byte) {
        return (byte != b'"').then_some(char::from(byte));
    }
    let (first, characters) = STRETCHES.iter().rev().find(|(first, _)| *first <= byte)?;
    characters.chars().nth(usize::from(byte - first))
}

fn byte_of(character: char) -> Option<u8> {
    if let Some(byte) = u8::try_from(character).ok().filter(|byte| is_ascii_character(*byte)) {
        return Some(byte);
    }
    STRETCHES.iter().find_map(|(first, characters)| {
        let place = characters.chars().position(|it| it == character)?;
        Some(first + place as u8)
    })
}

pub fn print(out: &mut impl Write, bytes: &[u8]) -> io::Result<()> {
    for &byte in bytes {
        match character(byte) {
            Some(character) => write!(out, "{character}")?,
            None => write!(out, "\\x{byte:02X}")?,
        }
    }
    Ok(())
}

/// The bytes that a printed text has, of at most so many.
pub fn read(text: &str, most: usize) -> Option<Vec<u8>> {
    let mut bytes = Vec::with_capacity(most);
    let mut rest = text.chars();
    while let Some(next) = rest.next() {
        let byte = if next == '\\' {
            let (x, high, low) = (rest.next()?, rest.next()?, rest.next()?);
            if x != 'x' {
                return None;
            }
            (high.to_digit(16)? * 16 + low.to_digit(16)?) as u8
        } else {
            byte_of(next)?
        };
        bytes.push(byte);
    }
    (bytes.len() <= most).then_some(bytes)
}
