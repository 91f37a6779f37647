//! Lines of a log, and `decode`.
use crate::receiver::Receiver;
use crate::view::Shown;
use crate::{End, Pipe};
use std::io::{self, Read, Write};

fn word(block: &[u8]) -> Option<u16> {
    block.iter().try_fold(0, |word, &digit| Some(word << 4 | char::from(digit).to_digit(16)? as u16))
}

/// What a line says: `None` for a bad one, `Some(None)` for one that is no slot.
pub fn said(line: &[u8]) -> Option<Option<Option<[u16; 4]>>> {
    let line = line.strip_suffix(b"\n").unwrap_or(line);
    let line = line.strip_suffix(b"\r").unwrap_or(line);
    if matches!(line.first(), None | Some(b'<' | b'#' | b'%')) {
        return Some(None);
    }
    if line.len() < 19 || line[4] != b' ' || line[9] != b' ' || line[14] != b' ' || line.get(19).is_some_and(|it| *it != b' ') {
        return None;
    }
    let mut words = Some([0; 4]);
    for at in 0..4 {
        let block = &line[5 * at..5 * at + 4];
        match (word(block), &mut words) {
            (Some(word), Some(words)) => words[at] = word,
            (Some(_), None) => {}
            (None, _) if block == b"----" => words = None,
            (None, _) => return None,
        }
    }
    Some(Some(words))
}

pub fn decode<R: Read, W: Write>(pipe: &mut Pipe<R, W>, pi: u16, dwell: u16) -> io::Result<End> {
    let (mut receiver, mut shown, mut line) = (Receiver::new(pi, dwell), Shown::default(), Vec::new());
    let (mut slot, mut number) = (0u64, 0u64);
    while pipe.line(&mut line)? {
        number += 1;
        match said(&line) {
            None => return Ok(End::Fault(format!("fault line {number}"))),
            Some(None) => {}
            Some(Some(words)) => {
                if receiver.slot(words) {
                    shown.change(&mut pipe.out, &slot.to_string(), receiver.view())?;
                }
                slot += 1;
            }
        }
        line.clear();
    }
    Ok(End::Status(0))
}
