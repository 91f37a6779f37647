//! A receiver with a dwell.

pub const RTPLUS_CODE: u8 = 22;
pub const RTPLUS_AID: u16 = 0x4BD7;

/// The segments of a service side by side, with a bit for each that is held, their flag and their age.
struct Held<const BYTES: usize> {
    bytes: [u8; BYTES],
    mask: u16,
    flag: bool,
    age: u16,
}

impl<const BYTES: usize> Held<BYTES> {
    fn new(dwell: u16) -> Self {
        Held { bytes: [0; BYTES], mask: 0, flag: false, age: dwell }
    }

    /// One slot older; whether segments were given up.
    fn grow_older(&mut self, dwell: u16) -> bool {
        if self.age >= dwell {
            return false;
        }
        self.age += 1;
        if self.age == dwell {
            self.mask = 0;
            return true;
        }
        false
    }

    /// Takes a segment; whether it is a new one.
    fn take(&mut self, flag: bool, address: u8, bytes: [u8; 4]) -> bool {
        let mut is_new = false;
        if flag != self.flag {
            self.mask = 0;
            is_new = true;
        }
        let held = &mut self.bytes[4 * usize::from(address)..][..4];
        if self.mask >> address & 1 == 0 || held != bytes {
            held.copy_from_slice(&bytes);
            self.mask |= 1 << address;
            is_new = true;
        }
        self.flag = flag;
        self.age = 0;
        is_new
    }

    /// The bytes held from the first one on.
    fn first(&self) -> &[u8] {
        &self.bytes[..4 * self.mask.trailing_ones() as usize]
    }
}

#[derive(Clone, Copy, PartialEq)]
pub struct Tag {
    pub class: u8,
    pub start: u8,
    pub extra: u8,
}

impl Tag {
    fn received(class: u8, start: u8, extra: u8) -> Tag {
        if class == 0 { Tag { class, start: 0, extra: 0 } } else { Tag { class, start, extra } }
    }

    fn piece(self, text: &[u8]) -> Option<(u8, &[u8])> {
        let start = usize::from(self.start);
        let piece = text.get(start..=start + usize::from(self.extra))?;
        (self.class > 0).then_some((self.class, piece))
    }
}

#[derive(Clone, Copy, PartialEq)]
pub struct Pair {
    pub toggle: bool,
    pub running: bool,
    pub one: Tag,
    pub two: Tag,
}

impl Pair {
    pub fn received(low: u8, c: u16, d: u16) -> Pair {
        let bits = u64::from(low) << 32 | u64::from(c) << 16 | u64::from(d);
        let field = |at: u32, width: u32| (bits >> at & ((1 << width) - 1)) as u8;
        Pair {
            toggle: field(36, 1) == 1,
            running: field(35, 1) == 1,
            one: Tag::received(field(29, 6), field(23, 6), field(17, 6)),
            two: Tag::received(field(11, 6), field(5, 6), field(0, 5)),
        }
    }
}

/// What is shown, lent.
#[derive(Clone, Copy, Default)]
pub struct View<'a> {
    pub text: Option<&'a [u8]>,
    pub name: Option<&'a [u8]>,
    pub item: Option<(bool, bool)>,
    pub one: Option<(u8, &'a [u8])>,
    pub two: Option<(u8, &'a [u8])>,
}

pub struct Receiver {
    pi: u16,
    dwell: u16,
    text: Held<64>,
    name: Held<8>,
    pair: Option<Pair>,
    knows_rtplus: bool,
}

impl Receiver {
    pub fn new(pi: u16, dwell: u16) -> Receiver {
        Receiver { pi, dwell, text: Held::new(dwell), name: Held::new(dwell), pair: None, knows_rtplus: false }
    }

    /// Handles a slot; whether anything may have changed.
    pub fn slot(&mut self, words: Option<[u16; 4]>) -> bool {
        let gone = self.text.grow_older(self.dwell) | self.name.grow_older(self.dwell);
        if self.text.mask == 0 {
            self.pair = None;
        }
        match words {
            Some([pi, second, c, d]) if pi == self.pi => self.hear(second, c, d) || gone,
            _ => gone,
        }
    }

    fn hear(&mut self, second: u16, c: u16, d: u16) -> bool {
        let (low, flag) = ((second & 31) as u8, second & 16 != 0);
        match second >> 11 {
            4 => {
                if flag != self.text.flag {
                    self.pair = None;
                }
                self.text.take(flag, low & 15, segment(c, d))
            }
            20 => self.name.take(flag, low & 1, segment(c, d)),
            6 => {
                let (code, aid) = (low == RTPLUS_CODE, d == RTPLUS_AID);
                if code == aid {
                    self.knows_rtplus |= code;
                    return false;
                }
                self.knows_rtplus = false;
                self.pair.take().is_some()
            }
            22 if self.knows_rtplus && self.text.mask != 0 => {
                let pair = Pair::received(low, c, d);
                self.pair.replace(pair) != Some(pair)
            }
            _ => false,
        }
    }

    fn text(&self) -> Option<&[u8]> {
        let first = self.text.first();
        match first.iter().position(|byte| *byte == b'\r') {
            Some(end) => Some(&first[..end]),
            None => (first.len() == 64).then_some(first),
        }
    }

    pub fn view(&self) -> View<'_> {
        let name = (self.name.mask == 3).then_some(&self.name.bytes[..]);
        let (Some(text), Some(pair)) = (self.text(), self.pair) else {
            return View { text: self.text(), name, ..View::default() };
        };
        let item = Some((pair.toggle, pair.running));
        View { text: Some(text), name, item, one: pair.one.piece(text), two: pair.two.piece(text) }
    }
}

pub fn segment(c: u16, d: u16) -> [u8; 4] {
    let ([a, b], [c, d]) = (c.to_be_bytes(), d.to_be_bytes());
    [a, b, c, d]
}
