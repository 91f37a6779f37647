//! The audit of a log.
use crate::log::said;
use crate::receiver::{Pair, segment};
use crate::{End, Pipe};
use std::io::{self, Read, Write};

type Fault = &'static str;

/// The segments and tags of one text or name that can be told from a log.
#[derive(Clone)]
struct Reign {
    flag: bool,
    start: u64,
    last: u64,
    bytes: [u8; 64],
    mask: u16,
    tags_end: usize,
}

/// What is known of a service: the newest reign, and the last slot of the one before.
struct Service {
    are_names: bool,
    newest: Option<Reign>,
    before: Option<u64>,
}

impl Service {
    fn new(are_names: bool) -> Service {
        Service { are_names, newest: None, before: None }
    }

    /// The first slot in which a text of this flag can have started.
    fn start(&self, dwell: u64, flag: bool) -> u64 {
        match &self.newest {
            None => 0,
            Some(newest) if newest.flag == flag => newest.last + dwell,
            Some(newest) => self.before.map_or(0, |last| last + dwell).max(newest.last + 1),
        }
    }

    fn segment(&mut self, dwell: u64, slot: u64, flag: bool, address: usize, bytes: [u8; 4]) -> Result<(), Fault> {
        let joins = self.newest.as_ref().is_some_and(|newest| newest.flag == flag && slot < newest.last + dwell);
        if !joins {
            let start = self.start(dwell, flag);
            if slot < start {
                return Err("EarlyFlag");
            }
            self.before = self.newest.as_ref().map(|newest| newest.last);
            self.newest = Some(Reign { flag, start, last: slot, bytes: [0; 64], mask: 0, tags_end: 0 });
        }
        let are_names = self.are_names;
        let Some(reign) = &mut self.newest else {
            return Ok(());
        };
        reign.last = slot;
        let held = &mut reign.bytes[4 * address..][..4];
        if reign.mask >> address & 1 == 1 {
            return if held == bytes { Ok(()) } else { Err("Changed") };
        }
        held.copy_from_slice(&bytes);
        reign.mask |= 1 << address;
        let fits = if are_names { bytes.iter().all(|byte| *byte >= 0x20) } else { reign.is_one_text() };
        if !fits {
            return Err("NotOneText");
        }
        reign.tags_fit()
    }

    fn tags(&mut self, dwell: u64, slot: u64, pair: Pair) -> Result<(), Fault> {
        let reign = self.newest.as_mut().ok_or("EarlyTag")?;
        if slot < reign.start + dwell {
            return Err("EarlyTag");
        }
        reign.last = slot;
        for tag in [pair.one, pair.two] {
            if tag.class > 0 {
                reign.tags_end = reign.tags_end.max(usize::from(tag.start) + usize::from(tag.extra) + 1);
            }
        }
        reign.tags_fit()
    }
}

impl Reign {
    fn held(&self) -> impl Iterator<Item = (usize, u8)> {
        let held = |place: &usize| self.mask >> (place / 4) & 1 == 1;
        (0..64).filter(held).map(|place| (place, self.bytes[place]))
    }

    fn end(&self) -> usize {
        self.held().find(|(_, byte)| *byte == b'\r').map_or(64, |(place, _)| place)
    }

    fn is_one_text(&self) -> bool {
        let end = self.end();
        self.held().all(|(place, byte)| match place {
            _ if place < end => matches!(byte, 0x0A | 0x0B | 0x1F | 0x20..),
            _ if place == end => byte == b'\r',
            _ => byte == b' ' && place / 4 == end / 4,
        })
    }

    fn tags_fit(&self) -> Result<(), Fault> {
        if self.tags_end > self.end() { Err("TagOutside") } else { Ok(()) }
    }
}

pub fn audit<R: Read, W: Write>(pipe: &mut Pipe<R, W>, pi: u16, dwell: u64) -> io::Result<End> {
    let (mut texts, mut names, mut line) = (Service::new(false), Service::new(true), Vec::new());
    let (mut slot, mut number) = (0, 0u64);
    while pipe.line(&mut line)? {
        number += 1;
        let words = match said(&line) {
            None => return Ok(End::Fault(format!("fault line {number}"))),
            Some(words) => words,
        };
        line.clear();
        let judged = match words {
            None => continue,
            Some(Some([group_pi, second, c, d])) if group_pi == pi => {
                let (low, flag) = ((second & 31) as u8, second & 16 != 0);
                match second >> 11 {
                    4 => texts.segment(dwell, slot, flag, usize::from(low & 15), segment(c, d)),
                    20 => names.segment(dwell, slot, flag, usize::from(low & 1), segment(c, d)),
                    22 => texts.tags(dwell, slot, Pair::received(low, c, d)),
                    _ => Ok(()),
                }
            }
            Some(_) => Ok(()),
        };
        if let Err(fault) = judged {
            writeln!(pipe.out, "no {slot} {fault}")?;
            return Ok(End::Status(1));
        }
        slot += 1;
    }
    writeln!(pipe.out, "yes {slot}")?;
    Ok(End::Status(0))
}
