//! One hour: its assets, levels, marked minutes, readings and instructions, and the calls that change them.
//!
//! An hour file makes one draw and posts it, so runs, slips, `withdraw` and rows 1, 2, 13 and 14 have no place here.

use super::margin::Side;
use super::refusal::{Refusal, refuse_if};
use std::collections::BTreeMap;

pub const MINUTES: usize = 60;
const HIGHEST_ASSET: u32 = 64;
const HIGHEST_PARTICIPANT: u32 = 32;
const HIGHEST_INSTRUCTION: u32 = 64;
const MOST_BLOCKS: usize = 7;
const MOST_MW: u32 = 1_000;
const HIGHEST_PRICE: u32 = 99_999;
const MOST_KWH: u32 = 1_000_000;

#[derive(Clone, Copy, Debug, PartialEq, Eq)]
pub enum Kind {
    Generator,
    Import,
    Load,
    Export,
}

impl Kind {
    fn of_letter(letter: u8) -> Option<Kind> {
        match letter {
            b'G' => Some(Kind::Generator),
            b'I' => Some(Kind::Import),
            b'L' => Some(Kind::Load),
            b'X' => Some(Kind::Export),
            _ => None,
        }
    }

    pub fn side(self) -> Side {
        match self {
            Kind::Generator | Kind::Import => Side::Source,
            Kind::Load | Kind::Export => Side::Sink,
        }
    }
}

/// A block of an offer or a bid: MW, and cents per MWh.
#[derive(Clone, Copy, Debug)]
pub struct Block {
    pub size: u32,
    pub price: u32,
}

pub struct Asset {
    pub kind: Kind,
    pub owner: u32,
    pub blocks: Vec<Block>,
    /// MW in each minute.
    pub levels: [u32; MINUTES],
    /// Minute of the last accepted order.
    pub last_order: Option<u32>,
    /// kWh; none before the first `meter`.
    pub reading: Option<u32>,
}

impl Asset {
    /// The sum of the block sizes, in MW.
    pub fn capacity(&self) -> u32 {
        self.blocks.iter().map(|block| block.size).sum()
    }
}

/// A matched instruction.
pub struct Instruction {
    pub source: u32,
    pub sink: u32,
    pub kwh: u32,
}

pub struct Hour {
    pub label: u32,
    pub assets: BTreeMap<u32, Asset>,
    /// The minutes in which firm load is shed.
    pub marked: [bool; MINUTES],
    /// The matched instructions; every other number is free.
    pub instructions: BTreeMap<u32, Instruction>,
}

impl Hour {
    pub fn new(label: u32) -> Hour {
        Hour { label, assets: BTreeMap::new(), marked: [false; MINUTES], instructions: BTreeMap::new() }
    }

    pub fn enrol(&mut self, asset: u32, letter: u8, owner: u32) -> Result<(), Refusal> {
        in_range(asset, HIGHEST_ASSET)?;
        let kind = Kind::of_letter(letter).ok_or(Refusal::by_hour(3, u32::from(letter)))?;
        in_range(owner, HIGHEST_PARTICIPANT)?;
        refuse_if(self.assets.contains_key(&asset), Refusal::by_hour(4, asset))?;
        let enrolled = Asset { kind, owner, blocks: Vec::new(), levels: [0; MINUTES], last_order: None, reading: None };
        self.assets.insert(asset, enrolled);
        Ok(())
    }

    pub fn offer(&mut self, number: u32, blocks: Vec<Block>) -> Result<(), Refusal> {
        let asset = self.enrolled(number)?;
        // A file cannot bring row 6 about, as its offers come before its orders.
        refuse_if(asset.last_order.is_some(), Refusal::by_hour(6, number))?;
        refuse_if(!is_sound_list(&blocks, asset.kind.side()), Refusal::by_hour(7, number))?;
        asset.blocks = blocks;
        Ok(())
    }

    pub fn order(&mut self, number: u32, minute: u32, level: u32) -> Result<(), Refusal> {
        let asset = self.enrolled(number)?;
        let goes_back = asset.last_order.is_some_and(|last| minute < last);
        refuse_if(minute as usize >= MINUTES || goes_back, Refusal::by_hour(8, minute))?;
        refuse_if(asset.blocks.is_empty() || level > asset.capacity(), Refusal::by_hour(9, number))?;
        asset.levels[minute as usize..].fill(level);
        asset.last_order = Some(minute);
        Ok(())
    }

    pub fn shed(&mut self, first: u32, end: u32) -> Result<(), Refusal> {
        refuse_if(first >= end || end as usize > MINUTES, Refusal::by_hour(8, end))?;
        self.marked[first as usize..end as usize].fill(true);
        Ok(())
    }

    pub fn meter(&mut self, number: u32, kwh: u32) -> Result<(), Refusal> {
        let asset = self.enrolled(number)?;
        refuse_if(kwh > MOST_KWH, Refusal::by_hour(10, number))?;
        asset.reading = Some(kwh);
        Ok(())
    }

    /// `propose`, and then `confirm` as the sink's owner, which is never refused.
    pub fn instruct(&mut self, number: u32, source: u32, sink: u32, kwh: u32) -> Result<(), Refusal> {
        in_range(number, HIGHEST_INSTRUCTION)?;
        in_range(source, HIGHEST_ASSET)?;
        in_range(sink, HIGHEST_ASSET)?;
        let source_side = self.enrolled(source)?.kind.side();
        let sink_side = self.enrolled(sink)?.kind.side();
        refuse_if(kwh == 0 || kwh > MOST_KWH, Refusal::by_hour(10, number))?;
        refuse_if(source_side != Side::Source || sink_side != Side::Sink, Refusal::by_hour(11, number))?;
        refuse_if(self.instructions.contains_key(&number), Refusal::by_hour(12, number))?;
        self.instructions.insert(number, Instruction { source, sink, kwh });
        Ok(())
    }

    fn enrolled(&mut self, asset: u32) -> Result<&mut Asset, Refusal> {
        in_range(asset, HIGHEST_ASSET)?;
        self.assets.get_mut(&asset).ok_or(Refusal::by_hour(5, asset))
    }
}

fn in_range(number: u32, highest: u32) -> Result<(), Refusal> {
    refuse_if(number < 1 || number > highest, Refusal::by_hour(3, number))
}

fn is_sound_list(blocks: &[Block], side: Side) -> bool {
    let sound_block = |block: &Block| block.size >= 1 && block.size <= MOST_MW && block.price <= HIGHEST_PRICE;
    (1..=MOST_BLOCKS).contains(&blocks.len())
        && blocks.iter().all(sound_block)
        && blocks.iter().map(|block| block.size).sum::<u32>() <= MOST_MW
        && blocks.windows(2).all(|pair| side.comes_first(pair[0].price, pair[1].price))
}
