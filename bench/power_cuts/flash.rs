//! A small device: what its pages hold, and what the layer remembers of them.

use std::fmt;

pub const BLOCKS: usize = 5;
pub const PAGES: usize = 3;
pub const SECTORS: usize = 6;

/// A version of one sector's bytes, or a tombstone of a range of sectors (`value` 0).
#[derive(Clone, Copy, PartialEq, Eq, PartialOrd, Ord, Debug)]
pub struct Version {
    pub first: u8,
    pub count: u8,
    pub number: u8,
    pub value: u8,
}

impl Version {
    pub fn sectors(self) -> std::ops::Range<u8> {
        self.first..self.first + self.count
    }

    pub fn covers(self, sector: u8) -> bool {
        self.sectors().contains(&sector)
    }

    pub fn meets(self, other: Version) -> bool {
        self.first < other.first + other.count && other.first < self.first + self.count
    }

    pub fn has_bytes(self) -> bool {
        self.value > 0
    }

    /// One bit for each of its sectors.
    pub fn mask(self) -> u8 {
        self.sectors().map(|sector| 1 << sector).sum()
    }
}

/// What a read of a page gives.
#[derive(Clone, Copy, PartialEq, Eq, PartialOrd, Ord, Debug)]
pub enum Page {
    /// Erased since the last mount.
    Erased,
    /// Reads as erased, but nothing says that a program would succeed.
    LooksErased,
    Unreadable,
    Holds(Version),
}

impl Page {
    pub fn version(self) -> Option<Version> {
        match self {
            Page::Holds(version) => Some(version),
            _ => None,
        }
    }

    pub fn is_blank(self) -> bool {
        matches!(self, Page::Erased | Page::LooksErased)
    }

    /// The page as a mount finds it, which has erased nothing yet.
    pub fn untrusted(self) -> Page {
        if self == Page::Erased {
            Page::LooksErased
        } else {
            self
        }
    }
}

/// A page as it reads now, as a power cut is sure to leave it, and the sectors that the layer keeps there, a bit for each.
#[derive(Clone, Copy, PartialEq, Eq, PartialOrd, Ord, Debug)]
pub struct Cell {
    pub now: Page,
    pub sure: Page,
    pub kept: u8,
}

impl Cell {
    pub const BLANK: Cell = Cell { now: Page::LooksErased, sure: Page::LooksErased, kept: 0 };
}

#[derive(Clone, Copy, PartialEq, Eq, PartialOrd, Ord, Debug)]
pub struct Block {
    pub cells: [Cell; PAGES],
    /// The page to be programmed next, if the block is open.
    pub open: Option<u8>,
    /// Open for copies; what a host writes goes there only while no block is open for hosts.
    pub for_copies: bool,
    pub bad: bool,
    /// Not in use: it takes the place of a block that fails.
    pub is_reserve: bool,
}

impl Block {
    pub const BLANK: Block = Block { cells: [Cell::BLANK; PAGES], open: None, for_copies: false, bad: false, is_reserve: false };

    /// How many sectors are kept here. A tombstone counts once for each.
    pub fn kept_sectors(&self) -> usize {
        self.cells.iter().map(|cell| cell.kept.count_ones() as usize).sum()
    }

    pub fn kept_pages(&self) -> usize {
        self.cells.iter().filter(|cell| cell.kept != 0).count()
    }

    /// Whether a command of this block is under way.
    pub fn is_busy(&self) -> bool {
        self.cells.iter().any(|cell| cell.now != cell.sure)
    }
}

/// The flash, the layer's memory, the call under way, and the arrays that a mount may show now.
#[derive(Clone, Copy, PartialEq, Eq, PartialOrd, Ord, Debug)]
pub struct Device {
    pub blocks: [Block; BLOCKS],
    pub call: Option<Version>,
    pub next_number: u8,
    pub failures_left: u8,
    /// How many copies the call may still make that it doesn't need, and blocks it may give up.
    pub choices: u8,
    /// A bit for each array, or for each value of each sector: see `Promise`.
    pub allowed: u32,
}

/// A page by its block and its number there.
pub type Place = (usize, usize);

impl Device {
    pub fn cell(&self, (block, page): Place) -> &Cell {
        &self.blocks[block].cells[page]
    }

    pub fn cell_mut(&mut self, (block, page): Place) -> &mut Cell {
        &mut self.blocks[block].cells[page]
    }

    pub fn open_blocks(&self, for_copies: bool) -> Vec<usize> {
        (0..BLOCKS).filter(|block| self.blocks[*block].open.is_some() && self.blocks[*block].for_copies == for_copies).collect()
    }
}

/// The numbers of a device: how many blocks, pages of a block, and sectors.
#[derive(Clone, Copy, PartialEq, Eq, Debug)]
pub struct Size {
    pub blocks: usize,
    pub pages: usize,
    pub sectors: usize,
}

impl Size {
    pub fn places(self) -> impl Iterator<Item = Place> {
        (0..self.blocks).flat_map(move |block| (0..self.pages).map(move |page| (block, page)))
    }

    pub fn sectors(self) -> std::ops::Range<u8> {
        0..self.sectors as u8
    }
}

impl fmt::Display for Size {
    fn fmt(&self, f: &mut fmt::Formatter) -> fmt::Result {
        write!(f, "{}x{}x{}", self.blocks, self.pages, self.sectors)
    }
}

impl fmt::Display for Version {
    fn fmt(&self, f: &mut fmt::Formatter) -> fmt::Result {
        if self.has_bytes() {
            write!(f, "sector {} #{} = {}", self.first, self.number, self.value)
        } else {
            write!(f, "trim {}+{} #{}", self.first, self.count, self.number)
        }
    }
}

impl fmt::Display for Page {
    fn fmt(&self, f: &mut fmt::Formatter) -> fmt::Result {
        match self {
            Page::Erased => write!(f, "erased"),
            Page::LooksErased => write!(f, "looks erased"),
            Page::Unreadable => write!(f, "unreadable"),
            Page::Holds(version) => write!(f, "{version}"),
        }
    }
}

impl fmt::Display for Device {
    fn fmt(&self, f: &mut fmt::Formatter) -> fmt::Result {
        for (number, block) in self.blocks.iter().enumerate() {
            let bad = if block.bad { " bad" } else if block.is_reserve { " in reserve" } else { "" };
            let stream = if block.for_copies { "copies" } else { "hosts" };
            let open = block.open.map_or(String::new(), |page| format!(" open for {stream} at {page}"));
            write!(f, "    block {number}{bad}{open}:")?;
            for cell in &block.cells {
                let sure = if cell.sure == cell.now { String::new() } else { format!(" / after a cut {}", cell.sure) };
                let kept = if cell.kept == 0 { String::new() } else { format!(" kept {:b}", cell.kept) };
                write!(f, " [{}{sure}{kept}]", cell.now)?;
            }
            writeln!(f)?;
        }
        let call = self.call.map_or("none".to_string(), |call| call.to_string());
        write!(f, "    next number {}, call under way: {call}", self.next_number)
    }
}
