//! The lines of what changed.
use crate::receiver::View;
use crate::text::print;
use std::io::{self, Write};

const CLASSES: [&str; 12] = [
    "", "ITEM.TITLE", "ITEM.ALBUM", "ITEM.TRACKNUMBER", "ITEM.ARTIST", "ITEM.COMPOSITION", "ITEM.MOVEMENT",
    "ITEM.CONDUCTOR", "ITEM.COMPOSER", "ITEM.BAND", "ITEM.COMMENT", "ITEM.GENRE",
];

/// A copy of what was shown, which keeps its room.
#[derive(Default)]
pub struct Shown {
    text: Option<Vec<u8>>,
    name: Option<Vec<u8>>,
    item: Option<(bool, bool)>,
    one: Option<(u8, Vec<u8>)>,
    two: Option<(u8, Vec<u8>)>,
}

fn tag_line(out: &mut impl Write, stamp: &str, part: &str, tag: Option<(u8, &[u8])>) -> io::Result<()> {
    let Some((class, piece)) = tag else {
        return writeln!(out, "{stamp} {part} none");
    };
    match CLASSES.get(usize::from(class)) {
        Some(name) => write!(out, "{stamp} {part} {name} \"")?,
        None => write!(out, "{stamp} {part} {class} \"")?,
    }
    print(out, piece)?;
    writeln!(out, "\"")
}

fn text_line(out: &mut impl Write, stamp: &str, part: &str, text: Option<&[u8]>) -> io::Result<()> {
    let Some(text) = text else {
        return writeln!(out, "{stamp} {part} none");
    };
    write!(out, "{stamp} {part} \"")?;
    print(out, text)?;
    writeln!(out, "\"")
}

fn tag_of(tag: &Option<(u8, Vec<u8>)>) -> Option<(u8, &[u8])> {
    tag.as_ref().map(|(class, piece)| (*class, piece.as_slice()))
}

impl Shown {
    /// Writes what differs from what was shown, and keeps what is.
    pub fn change(&mut self, out: &mut impl Write, stamp: &str, now: View<'_>) -> io::Result<()> {
        if self.text.as_deref() != now.text {
            text_line(out, stamp, "text", now.text)?;
            self.text = now.text.map(<[u8]>::to_vec);
        }
        if self.name.as_deref() != now.name {
            text_line(out, stamp, "name", now.name)?;
            self.name = now.name.map(<[u8]>::to_vec);
        }
        if self.item != now.item {
            match now.item {
                Some((toggle, running)) => writeln!(out, "{stamp} item {} {}", u8::from(toggle), u8::from(running))?,
                None => writeln!(out, "{stamp} item none")?,
            }
            self.item = now.item;
        }
        if tag_of(&self.one) != now.one {
            tag_line(out, stamp, "tag1", now.one)?;
            self.one = now.one.map(|(class, piece)| (class, piece.to_vec()));
        }
        if tag_of(&self.two) != now.two {
            tag_line(out, stamp, "tag2", now.two)?;
            self.two = now.two.map(|(class, piece)| (class, piece.to_vec()));
        }
        Ok(())
    }
}
