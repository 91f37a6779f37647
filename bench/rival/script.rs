//! Rows of a script, and `encode` and `sim`.
use crate::encoder::{Encoder, Refusal};
use crate::receiver::{Pair, Receiver, Tag};
use crate::text::read;
use crate::view::Shown;
use crate::{End, Pipe};
use std::io::{self, Read, Write};

#[derive(Clone, Copy, PartialEq)]
pub enum Form {
    Log,
    Simulation,
}

enum Command {
    Quiet,
    Restart,
    Text(Vec<u8>),
    Name([u8; 8]),
    Tags(Pair),
}

impl Command {
    fn of(word: &[u8], argument: &[u8]) -> Option<Command> {
        let argument = std::str::from_utf8(argument).ok()?;
        match word {
            b"-" => argument.is_empty().then_some(Command::Quiet),
            b"restart" => argument.is_empty().then_some(Command::Restart),
            b"text" => {
                let text = read(argument, 64)?;
                text.iter().all(|byte| matches!(byte, 0x0A | 0x0B | 0x1F | 0x20..)).then_some(Command::Text(text))
            }
            b"name" => {
                let given = read(argument, 8)?;
                let mut name = [b' '; 8];
                name[..given.len()].copy_from_slice(&given);
                name.iter().all(|byte| *byte >= 0x20).then_some(Command::Name(name))
            }
            b"tags" => pair_of(argument).map(Command::Tags),
            _ => None,
        }
    }
}

fn pair_of(argument: &str) -> Option<Pair> {
    let mut numbers = [0u8; 8];
    let mut count = 0;
    for word in argument.split(' ') {
        if word.len() > 3 || !word.bytes().all(|byte| byte.is_ascii_digit()) {
            return None;
        }
        *numbers.get_mut(count)? = word.parse().ok()?;
        count += 1;
    }
    let [toggle, running, rest @ ..] = numbers;
    let [one @ .., class, start, extra] = rest;
    let tag = |class: u8, start: u8, extra: u8, most: u8| {
        let fits = class < 64 && start < 64 && extra <= most && (class > 0 || start == 0 && extra == 0);
        fits.then_some(Tag { class, start, extra })
    };
    let (one, two) = (tag(one[0], one[1], one[2], 63)?, tag(class, start, extra, 31)?);
    (count == 8 && toggle < 2 && running < 2).then_some(Pair { toggle: toggle == 1, running: running == 1, one, two })
}

/// The fields of a record, as places in one buffer.
#[derive(Default)]
struct Record {
    line: Vec<u8>,
    bytes: Vec<u8>,
    ends: Vec<usize>,
}

impl Record {
    /// Reads the next record; false at the end.
    fn next<R: Read, W: Write>(&mut self, pipe: &mut Pipe<R, W>) -> io::Result<bool> {
        self.line.clear();
        loop {
            let more = pipe.line(&mut self.line)?;
            let quoted = self.line.iter().filter(|byte| **byte == b'"').count() % 2 == 1;
            if !more && self.line.is_empty() {
                return Ok(false);
            }
            if more && quoted {
                continue;
            }
            while let Some(b'\n' | b'\r') = self.line.last() {
                self.line.pop();
            }
            if !self.line.is_empty() {
                break;
            }
        }
        self.split();
        Ok(true)
    }

    fn split(&mut self) {
        self.bytes.clear();
        self.ends.clear();
        let (mut quoted, mut closed) = (false, false);
        for &byte in &self.line {
            match byte {
                b'"' if closed => {
                    self.bytes.push(b'"');
                    (quoted, closed) = (true, false);
                }
                b'"' if quoted => (quoted, closed) = (false, true),
                b'"' if self.ends.last().copied().unwrap_or(0) == self.bytes.len() => quoted = true,
                b',' if !quoted => {
                    closed = false;
                    self.ends.push(self.bytes.len());
                }
                _ => self.bytes.push(byte),
            }
        }
        self.ends.push(self.bytes.len());
    }

    fn fields(&self) -> Option<[&[u8]; 4]> {
        let &[a, b, c, d] = self.ends.as_slice() else {
            return None;
        };
        Some([&self.bytes[..a], &self.bytes[a..b], &self.bytes[b..c], &self.bytes[c..d]])
    }
}

#[derive(Clone, Copy)]
enum Reception {
    Got(usize),
    Lost,
    Restart,
}

/// What each receiver gets, of at most eight.
fn receptions_of(field: &[u8], into: &mut Vec<Reception>) -> Option<()> {
    into.clear();
    let mut rest = field;
    while let [letter, more @ ..] = rest {
        rest = more;
        into.push(match letter {
            b'L' => Reception::Lost,
            b'R' => Reception::Restart,
            b'G' => {
                let digits = rest.iter().take_while(|byte| byte.is_ascii_digit()).count();
                let late = rest[..digits].iter().fold(0, |late, digit| 10 * late + usize::from(digit - b'0'));
                rest = &rest[digits..];
                (digits <= 4).then_some(Reception::Got(late))?
            }
            _ => return None,
        });
    }
    (into.len() <= 8).then_some(())
}

/// A receiver, what was shown of it, and the slot of the group that it got last.
struct Listener {
    receiver: Receiver,
    shown: Shown,
    last: Option<u64>,
}

struct Station {
    form: Form,
    pi: u16,
    dwell: u16,
    late: usize,
    encoder: Encoder,
    listeners: Option<Vec<Listener>>,
    recent: Vec<Option<[u16; 4]>>,
    slot: u64,
}

impl Station {
    fn new(form: Form, pi: u16, dwell: u16, late: u16) -> Station {
        Station {
            form,
            pi,
            dwell,
            late: late.into(),
            encoder: Encoder::new(pi, u32::from(dwell) + u32::from(late)),
            listeners: None,
            recent: vec![None; usize::from(late) + 1],
            slot: 0,
        }
    }

    /// Whether there are so many receivers, and each reception is due.
    fn takes(&mut self, receptions: &[Reception]) -> bool {
        if self.form == Form::Log && !receptions.is_empty() {
            return false;
        }
        let (pi, dwell) = (self.pi, self.dwell);
        let new = || Listener { receiver: Receiver::new(pi, dwell), shown: Shown::default(), last: None };
        let listeners = self.listeners.get_or_insert_with(|| receptions.iter().map(|_| new()).collect());
        listeners.len() == receptions.len()
            && listeners.iter().zip(receptions).all(|(listener, reception)| match *reception {
                Reception::Got(back) => {
                    let named = self.slot.checked_sub(back as u64);
                    back <= self.late && named.is_some() && (listener.last.is_none() || listener.last < named)
                }
                Reception::Lost | Reception::Restart => true,
            })
    }

    fn obey<W: Write>(&mut self, out: &mut W, command: Command) -> io::Result<()> {
        let (thing, done) = match command {
            Command::Quiet => return Ok(()),
            Command::Restart => {
                self.encoder = Encoder::new(self.pi, u32::from(self.dwell) + self.late as u32);
                return writeln!(out, "{}{} restart", self.mark(), self.slot);
            }
            Command::Text(text) => ("text", self.encoder.set_text(&text)),
            Command::Name(name) => ("name", self.encoder.set_name(name)),
            Command::Tags(pair) => ("tags", self.encoder.set_tags(pair)),
        };
        write!(out, "{}{} {thing} ", self.mark(), self.slot)?;
        match done {
            Ok(()) => writeln!(out, "ok"),
            Err(Refusal::Silent(slots)) => writeln!(out, "silent {slots}"),
            Err(Refusal::Held(slots)) => writeln!(out, "held {slots}"),
            Err(Refusal::NoText) => writeln!(out, "notext"),
            Err(Refusal::OutOfText(tag)) => writeln!(out, "outoftext {tag}"),
        }
    }

    fn mark(&self) -> &'static str {
        if self.form == Form::Log { "# " } else { "" }
    }

    fn step<W: Write>(&mut self, out: &mut W, command: Command, free: bool, receptions: &[Reception]) -> io::Result<()> {
        self.obey(out, command)?;
        let sent = self.encoder.tick(free);
        match (self.form, sent) {
            (Form::Log, Some([a, b, c, d])) => writeln!(out, "{a:04X} {b:04X} {c:04X} {d:04X}")?,
            (Form::Log, None) => writeln!(out, "---- ---- ---- ----")?,
            (Form::Simulation, Some([a, b, c, d])) => writeln!(out, "{} sent {a:04X} {b:04X} {c:04X} {d:04X}", self.slot)?,
            (Form::Simulation, None) => {}
        }
        let places = self.recent.len() as u64;
        self.recent[(self.slot % places) as usize] = sent;
        for (i, (listener, reception)) in self.listeners.iter_mut().flatten().zip(receptions).enumerate() {
            let changed = match *reception {
                Reception::Got(back) => {
                    let named = self.slot - back as u64;
                    listener.last = Some(named);
                    listener.receiver.slot(self.recent[(named % places) as usize])
                }
                Reception::Lost => listener.receiver.slot(None),
                Reception::Restart => {
                    listener.receiver = Receiver::new(self.pi, self.dwell);
                    true
                }
            };
            if changed {
                listener.shown.change(out, &format!("{} r{i}", self.slot), listener.receiver.view())?;
            }
        }
        self.slot += 1;
        Ok(())
    }
}

pub fn play<R: Read, W: Write>(pipe: &mut Pipe<R, W>, form: Form, pi: u16, dwell: u16, late: u16) -> io::Result<End> {
    let (mut station, mut record, mut receptions) = (Station::new(form, pi, dwell, late), Record::default(), Vec::new());
    while record.next(pipe)? {
        let row = record.fields().and_then(|[word, argument, free, each]| {
            let free = matches!((free, free == b"1"), (b"0" | b"1", _)).then_some(free == b"1")?;
            receptions_of(each, &mut receptions)?;
            Some((Command::of(word, argument)?, free))
        });
        match row {
            Some((command, free)) if station.takes(&receptions) => station.step(&mut pipe.out, command, free, &receptions)?,
            _ => return Ok(End::Fault(format!("{}fault row {}", station.mark(), station.slot + 1))),
        }
    }
    Ok(End::Status(0))
}
