//! An encoder with a dwell.
use crate::receiver::{Pair, RTPLUS_AID, RTPLUS_CODE, Tag, segment};

pub enum Refusal {
    Silent(u32),
    Held(u32),
    NoText,
    OutOfText(u8),
}

/// What of a service is on air, and for how long it holds the next one back.
struct Track<T> {
    on_air: Option<T>,
    hold: u32,
    next_flag: bool,
}

impl<T> Track<T> {
    fn new() -> Self {
        Track { on_air: None, hold: 0, next_flag: false }
    }

    fn set(&mut self, value: T, dwell: u32) -> Result<(), Refusal> {
        if self.hold > 0 {
            return Err(Refusal::Held(self.hold));
        }
        self.on_air = Some(value);
        self.hold = 2 * dwell;
        self.next_flag = !self.next_flag;
        Ok(())
    }

    fn flag(&self) -> u16 {
        u16::from(!self.next_flag) << 4
    }
}

struct TextOnAir {
    length: usize,
    body: Vec<u8>,
    next: usize,
    pair: Option<Pair>,
}

pub struct Encoder {
    pi: u16,
    dwell: u32,
    silent: u32,
    turn: u8,
    text: Track<TextOnAir>,
    name: Track<[u8; 8]>,
}

impl Encoder {
    pub fn new(pi: u16, dwell: u32) -> Encoder {
        Encoder { pi, dwell, silent: dwell, turn: 0, text: Track::new(), name: Track::new() }
    }

    fn speaks(&self) -> Result<(), Refusal> {
        if self.silent > 0 { Err(Refusal::Silent(self.silent)) } else { Ok(()) }
    }

    pub fn set_text(&mut self, text: &[u8]) -> Result<(), Refusal> {
        self.speaks()?;
        let mut body = text.to_vec();
        if body.len() < 64 {
            body.push(b'\r');
            body.resize(body.len().next_multiple_of(4), b' ');
        }
        self.text.set(TextOnAir { length: text.len(), body, next: 0, pair: None }, self.dwell)
    }

    pub fn set_name(&mut self, name: [u8; 8]) -> Result<(), Refusal> {
        self.speaks()?;
        self.name.set(name, self.dwell)
    }

    pub fn set_tags(&mut self, pair: Pair) -> Result<(), Refusal> {
        self.speaks()?;
        let text = self.text.on_air.as_mut().ok_or(Refusal::NoText)?;
        let ends = |tag: Tag| tag.class == 0 || usize::from(tag.start) + usize::from(tag.extra) < text.length;
        if !ends(pair.one) {
            return Err(Refusal::OutOfText(1));
        }
        if !ends(pair.two) {
            return Err(Refusal::OutOfText(2));
        }
        text.pair = Some(pair);
        Ok(())
    }

    /// The group of the slot, which ends.
    pub fn tick(&mut self, free: bool) -> Option<[u16; 4]> {
        let group = if free && self.silent == 0 { self.due() } else { None };
        self.silent = self.silent.saturating_sub(1);
        self.text.hold = self.text.hold.saturating_sub(1);
        self.name.hold = self.name.hold.saturating_sub(1);
        group
    }

    fn due(&mut self) -> Option<[u16; 4]> {
        let turn = self.turn;
        self.turn = (turn + 1) % 8;
        let flag = self.text.flag();
        match turn {
            1 | 3 => {
                let name = self.name.on_air.as_ref()?;
                let address = usize::from(turn / 2);
                Some(self.group(10, self.name.flag() | address as u16, &name[4 * address..]))
            }
            5 => Some([self.pi, self.second(3, u16::from(RTPLUS_CODE)), 0, RTPLUS_AID]),
            7 => {
                let pair = self.text.on_air.as_ref()?.pair?;
                (self.text.hold <= self.dwell).then(|| self.tags(pair))
            }
            _ => {
                let text = self.text.on_air.as_mut()?;
                let address = text.next;
                text.next = (address + 1) % (text.body.len() / 4);
                let text = self.text.on_air.as_ref()?;
                Some(self.group(2, flag | address as u16, &text.body[4 * address..]))
            }
        }
    }

    fn second(&self, number: u16, low: u16) -> u16 {
        number << 12 | 10 << 5 | low
    }

    fn group(&self, number: u16, low: u16, bytes: &[u8]) -> [u16; 4] {
        let word = |at: usize| u16::from_be_bytes([bytes[at], bytes[at + 1]]);
        debug_assert_eq!(segment(word(0), word(2)), bytes[..4]);
        [self.pi, self.second(number, low), word(0), word(2)]
    }

    fn tags(&self, pair: Pair) -> [u16; 4] {
        let field = |value: u8, at: u32| u64::from(value) << at;
        let bits = field(pair.toggle.into(), 36)
            | field(pair.running.into(), 35)
            | field(pair.one.class, 29)
            | field(pair.one.start, 23)
            | field(pair.one.extra, 17)
            | field(pair.two.class, 11)
            | field(pair.two.start, 5)
            | field(pair.two.extra, 0);
        [self.pi, self.second(11, (bits >> 32) as u16), (bits >> 16) as u16, bits as u16]
    }
}
