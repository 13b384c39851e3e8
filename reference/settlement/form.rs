//! The form of a line of the hour file, and the place at which an ill-formed line breaks.

use super::hour::Block;
use super::split::Rule;

/// The keys in the order of the key table.
#[derive(Clone, Copy, Debug, PartialEq, Eq)]
pub enum Key {
    Hour,
    Asset,
    Offer,
    Order,
    Shed,
    Meter,
    Instruct,
    Rule,
}

const KEYS: [(Key, &[u8]); 8] = [
    (Key::Hour, b"hour="),
    (Key::Asset, b"asset="),
    (Key::Offer, b"offer="),
    (Key::Order, b"order="),
    (Key::Shed, b"shed="),
    (Key::Meter, b"meter="),
    (Key::Instruct, b"instruct="),
    (Key::Rule, b"rule="),
];

/// A well-formed line, taken apart.
pub enum FileLine {
    Hour { label: u32 },
    Asset { asset: u32, letter: u8, owner: u32 },
    Offer { asset: u32, blocks: Vec<Block> },
    Order { asset: u32, minute: u32, level: u32 },
    Shed { first: u32, end: u32 },
    Meter { asset: u32, kwh: u32 },
    Instruct { number: u32, source: u32, sink: u32, kwh: u32 },
    Rule { rule: Rule },
}

pub struct Form {
    pub key: Key,
    pub line: FileLine,
    /// Bytes of the line, its LF included.
    pub length: usize,
}

/// The place at which a line breaks, counted from 1.
type Place = usize;

/// Reads the line at the start of `text`, which is the rest of the file. A missing line breaks at 1.
pub fn read_line(text: &[u8], last_key: Option<Key>) -> Result<Form, Place> {
    let (key, written) = *allowed_keys(last_key).iter().find(|(_, written)| text.starts_with(written)).ok_or(1usize)?;
    let mut fields = Fields { text, read: written.len() };
    let line = match key {
        Key::Hour => FileLine::Hour { label: fields.number()? },
        Key::Asset => {
            FileLine::Asset { asset: fields.number()?, letter: fields.next_letter()?, owner: fields.next_number()? }
        }
        Key::Offer => FileLine::Offer { asset: fields.number()?, blocks: fields.next_blocks()? },
        Key::Order => {
            FileLine::Order { asset: fields.number()?, minute: fields.next_number()?, level: fields.next_number()? }
        }
        Key::Shed => FileLine::Shed { first: fields.number()?, end: fields.next_number()? },
        Key::Meter => FileLine::Meter { asset: fields.number()?, kwh: fields.next_number()? },
        Key::Instruct => FileLine::Instruct {
            number: fields.number()?,
            source: fields.next_number()?,
            sink: fields.next_number()?,
            kwh: fields.next_number()?,
        },
        Key::Rule => FileLine::Rule { rule: fields.rule_name()? },
    };
    fields.needed(b'\n')?;
    Ok(Form { key, line, length: fields.read })
}

fn allowed_keys(last_key: Option<Key>) -> &'static [(Key, &'static [u8])] {
    match last_key {
        None => &KEYS[..1],
        Some(Key::Hour) => &KEYS[1..],
        Some(Key::Rule) => &[],
        Some(key) => &KEYS[key as usize..],
    }
}

/// Reads the fields of one line. No byte is taken unless some well-formed line of the key begins with all
/// bytes taken, so a line breaks at the first byte not taken. The end of the file is no byte that fits.
struct Fields<'file> {
    text: &'file [u8],
    read: usize,
}

impl Fields<'_> {
    fn upcoming(&self) -> Option<u8> {
        self.text.get(self.read).copied()
    }

    fn breaks_here(&self) -> Place {
        self.read + 1
    }

    /// Takes the next byte if it is this one.
    fn taken(&mut self, byte: u8) -> bool {
        let fits = self.upcoming() == Some(byte);
        self.read += usize::from(fits);
        fits
    }

    fn needed(&mut self, byte: u8) -> Result<(), Place> {
        if self.taken(byte) { Ok(()) } else { Err(self.breaks_here()) }
    }

    fn number(&mut self) -> Result<u32, Place> {
        let mut number = self.digit_after(None).ok_or(self.breaks_here())?;
        while let Some(longer) = self.digit_after(Some(number)) {
            number = longer;
        }
        Ok(number)
    }

    /// Takes one digit more, unless it is no digit, follows a leading zero or makes the number too large.
    fn digit_after(&mut self, before: Option<u32>) -> Option<u32> {
        let digit = self.upcoming().filter(u8::is_ascii_digit)? - b'0';
        let longer = match before {
            None => u32::from(digit),
            Some(0) => return None,
            Some(number) => number.checked_mul(10)?.checked_add(u32::from(digit))?,
        };
        self.read += 1;
        Some(longer)
    }

    fn next_number(&mut self) -> Result<u32, Place> {
        self.needed(b',')?;
        self.number()
    }

    fn next_letter(&mut self) -> Result<u8, Place> {
        self.needed(b',')?;
        let letter = self.upcoming().filter(u8::is_ascii_uppercase).ok_or(self.breaks_here())?;
        self.read += 1;
        Ok(letter)
    }

    /// One to seven blocks, each after its comma.
    fn next_blocks(&mut self) -> Result<Vec<Block>, Place> {
        self.needed(b',')?;
        let mut blocks = vec![self.block()?];
        while blocks.len() < 7 && self.taken(b',') {
            blocks.push(self.block()?);
        }
        Ok(blocks)
    }

    fn block(&mut self) -> Result<Block, Place> {
        let size = self.number()?;
        self.needed(b':')?;
        let price = self.number()?;
        Ok(Block { size, price })
    }

    /// The two names differ in their first byte, so that byte decides which one is being written.
    fn rule_name(&mut self) -> Result<Rule, Place> {
        let (rule, name) = match self.upcoming() {
            Some(b'l') => (Rule::Largest, b"largest"),
            Some(b'r') => (Rule::Running, b"running"),
            _ => return Err(self.breaks_here()),
        };
        for &byte in name {
            self.needed(byte)?;
        }
        Ok(rule)
    }
}
