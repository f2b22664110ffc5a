//! A page-mapped flash translation layer that threads share, in one table of atomic words, as the proved one: a map word for each
//! sector, a pin word for each block, and the words of all pages, each page's with a stamp behind them.
//!
//! Built with `--cfg tuned` the words of pages need no order of their own, and a block is looked at before it is taken.
//! Built with `--cfg counted` a broom prints, on standard error and at the end of each round, how many of its surveys gave a drain, how many
//! blocks it drained, and how many pages it programmed. Built with `--cfg without_restock` a broom that has lost its spare takes no new one.

use crate::layer::Geometry;
use std::collections::VecDeque;
use std::sync::Mutex;
use std::sync::atomic::Ordering::{Relaxed, SeqCst};
use std::sync::atomic::{AtomicBool, AtomicU64, Ordering};
use std::time::Duration;

/// Whoever reads a page's words has found its map word first, which was stored behind them, and whoever stores them owns the block.
pub const PAGE_WORD: Ordering = if cfg!(tuned) { Relaxed } else { SeqCst };

const MAPPED: u64 = 1 << 63;

/// The fields of a pin word, from the lowest bit up: readers, whether the block is taken, its phase, pages written, generation.
const READERS: u64 = 0xfff;
const TAKEN: u64 = 1 << 12;
const NEXT_PHASE: u64 = 1 << 13;
const PHASES: u64 = 15 * TAKEN;
const PAGE_WRITTEN: u64 = 1 << 16;
const GENERATION: u64 = 1 << 32;

const OPEN: u64 = TAKEN;
const CLOSED: u64 = OPEN + NEXT_PHASE;
const DRAINED: u64 = CLOSED + 2 * NEXT_PHASE;
const ERASING: u64 = DRAINED + NEXT_PHASE;

fn written(pin: u64) -> u64 {
    pin % GENERATION / PAGE_WRITTEN
}

/// A block that its owner programs.
#[derive(Clone, Copy)]
pub struct Open {
    block: u64,
    generation: u64,
    written: u64,
}

impl Open {
    fn map_word(&self) -> u64 {
        MAPPED | self.generation << 32 | self.block << 16 | self.written
    }
}

pub struct Table {
    words: Vec<AtomicU64>,
    sectors: usize,
    blocks: usize,
    pages: usize,
    page_words: usize,
    endurance: u64,
    drained: Mutex<VecDeque<usize>>,
}

impl Table {
    /// A table with every sector empty; the last blocks are the brooms' spares.
    pub fn new(geometry: &Geometry, brooms: usize) -> Table {
        let [sectors, blocks, pages, page_words] =
            [geometry.sectors, geometry.blocks, geometry.pages, geometry.words].map(|number| number as usize);
        let pins = sectors + blocks;
        let mut words = Vec::with_capacity(pins + blocks * pages * (page_words + 1));
        words.resize_with(pins - brooms, || AtomicU64::new(0));
        words.resize_with(pins, || AtomicU64::new(OPEN));
        words.resize_with(words.capacity(), || AtomicU64::new(u64::MAX));
        let drained = Mutex::new(VecDeque::with_capacity(blocks));
        Table { words, sectors, blocks, pages, page_words, endurance: u64::from(geometry.endurance), drained }
    }

    fn pin(&self, block: usize) -> &AtomicU64 {
        &self.words[self.sectors + block]
    }

    /// The words of a page, and its stamp.
    fn page(&self, block: u64, page: u64) -> (&[AtomicU64], &AtomicU64) {
        let size = self.page_words + 1;
        let start = self.sectors + self.blocks + (block as usize * self.pages + page as usize) * size;
        let (stamp, words) = self.words[start..start + size].split_last().expect("a stamp");
        (words, stamp)
    }

    /// Has the page of a sector taken in, pinned meanwhile; false for an empty sector.
    pub fn read(&self, sector: u32, mut take_in: impl FnMut(&[AtomicU64])) -> bool {
        loop {
            let word = self.words[sector as usize].load(SeqCst);
            if word == 0 {
                return false;
            }
            let block = word >> 16 & 0xffff;
            let pin = self.pin(block as usize);
            let found = pin.fetch_add(1, SeqCst);
            let intact = found / GENERATION == (word ^ MAPPED) >> 32 && (OPEN..=DRAINED).contains(&(found & PHASES));
            if intact {
                take_in(self.page(block, word & 0xffff).0);
            }
            pin.fetch_sub(1, SeqCst);
            if intact {
                return true;
            }
        }
    }

    /// Fills the next page of the open block, or of the lowest free one; its map word, or none where no block is free.
    fn fill(&self, open: &mut Option<Open>, sector: u32, words: impl Iterator<Item = u64>) -> Option<u64> {
        let mut owned = open.take().or_else(|| self.take())?;
        let word = owned.map_word();
        let (page, stamp) = self.page(owned.block, owned.written);
        for (place, word) in page.iter().zip(words) {
            place.store(word, PAGE_WORD);
        }
        stamp.store(u64::from(sector), PAGE_WORD);
        self.pin(owned.block as usize).fetch_add(PAGE_WRITTEN, SeqCst);
        owned.written += 1;
        *open = Some(owned);
        Some(word)
    }

    fn take(&self) -> Option<Open> {
        let is_free = |pin: u64| pin & PHASES == 0;
        for block in 0..self.blocks {
            let pin = self.pin(block);
            if cfg!(tuned) && !is_free(pin.load(Relaxed)) {
                continue;
            }
            let found = pin.fetch_or(TAKEN, SeqCst);
            if is_free(found) {
                return Some(Open { block: block as u64, generation: found / GENERATION, written: 0 });
            }
        }
        None
    }

    fn close_if_full(&self, open: &mut Option<Open>) {
        if let Some(full) = open.take_if(|open| open.written == self.pages as u64) {
            self.pin(full.block as usize).fetch_add(NEXT_PHASE, SeqCst);
        }
    }

    /// Writes a page: whether the sector was written, or none where no block is free.
    pub fn write(&self, open: &mut Option<Open>, sector: u32, words: impl Iterator<Item = u64>) -> Option<bool> {
        let word = self.fill(open, sector, words)?;
        let found = self.words[sector as usize].swap(word, SeqCst);
        self.close_if_full(open);
        Some(found != 0)
    }

    /// Writes a page if the sector is empty.
    pub fn write_new(&self, open: &mut Option<Open>, sector: u32, words: impl Iterator<Item = u64>) -> Option<bool> {
        let word = self.fill(open, sector, words)?;
        let placed = self.words[sector as usize].compare_exchange(0, word, SeqCst, SeqCst);
        self.close_if_full(open);
        Some(placed.is_err())
    }

    /// Empties a sector: whether it was written.
    pub fn trim(&self, sector: u32) -> bool {
        self.words[sector as usize].swap(0, SeqCst) != 0
    }
}

/// What a broom keeps: the block that it copies to, the next one, and the room for its survey.
pub struct Broom {
    destination: Option<Open>,
    spare: Option<Open>,
    pins: Vec<u64>,
    counts: Vec<u64>,
    marked: Vec<bool>,
    ranking: Vec<u64>,
    next: usize,
    is_ranked: bool,
    done: Done,
}

/// What a broom has done; it is kept only with `--cfg counted`.
#[derive(Clone, Copy, Default)]
struct Done {
    surveys: u64,
    drains: u64,
    programs: u64,
}

/// What a drain did.
#[derive(Clone, Copy, PartialEq)]
enum Drain {
    Drained,
    Lost,
    NothingToGain,
    NoSpare,
}

impl Broom {
    pub fn new(table: &Table, spare: usize) -> Broom {
        let spare = Open { block: spare as u64, generation: 0, written: 0 };
        let [pins, counts] = [vec![0; table.blocks], vec![0; table.blocks]];
        let (marked, ranking) = (vec![false; table.blocks], Vec::with_capacity(table.blocks));
        Broom { destination: None, spare: Some(spare), pins, counts, marked, ranking, next: 0, is_ranked: false, done: Done::default() }
    }

    /// Drains and erases in turns until the flag is set, and rests where a turn has gained nothing.
    pub fn sweep(&mut self, table: &Table, stop: &AtomicBool, drains: u32) {
        let longest = LONGEST_SLEEP.max(table.sectors as u64 / SECTORS_A_MICROSECOND);
        let mut micros = 0;
        while !stop.load(SeqCst) {
            if self.turn(table, stop, drains) {
                micros = 0;
            } else if !stop.load(SeqCst) {
                micros = rest(micros, longest);
            }
        }
        if cfg!(counted) {
            let Done { surveys, drains, programs } = self.done;
            eprintln!("broom {surveys} {drains} {programs}");
        }
    }

    /// A drain by a new survey, and more by that one while it gives some, each with an erase; whether anything was gained.
    fn turn(&mut self, table: &Table, stop: &AtomicBool, drains: u32) -> bool {
        let mut gained = false;
        let before = self.done.drains;
        for i in 0..drains {
            let drain = self.drain(table, i == 0);
            gained |= drain == Drain::Drained;
            if cfg!(counted) {
                self.done.drains += u64::from(drain == Drain::Drained);
                self.done.surveys += u64::from(self.done.drains == before + 1 && drain == Drain::Drained);
            }
            gained |= self.erase(table);
            if drain == Drain::NoSpare && !cfg!(without_restock) {
                gained |= self.restock(table);
            }
            if matches!(drain, Drain::NothingToGain | Drain::NoSpare) || stop.load(SeqCst) {
                break;
            }
        }
        gained
    }

    /// Moves the live pages out of the closed block that has the fewest by a new survey or by the last one.
    fn drain(&mut self, table: &Table, anew: bool) -> Drain {
        if self.spare.is_none() {
            return Drain::NoSpare;
        }
        if anew {
            self.survey(table);
        }
        let victim = if anew { self.least() } else { self.first() };
        let Some(block) = victim.filter(|&block| self.counts[block] < table.pages as u64) else {
            return Drain::NothingToGain;
        };
        self.marked[block] = false;
        let (pin, found) = (table.pin(block), self.pins[block]);
        if pin.compare_exchange(found, found + NEXT_PHASE, SeqCst, SeqCst).is_err() {
            return Drain::Lost;
        }
        for page in 0..written(found) {
            self.clear(table, Open { block: block as u64, generation: found / GENERATION, written: page });
        }
        pin.fetch_add(NEXT_PHASE, SeqCst);
        table.drained.lock().expect("no panic").push_back(block);
        Drain::Drained
    }

    /// Counts the live pages of each block, and marks the closed ones.
    fn survey(&mut self, table: &Table) {
        let (map, rest) = table.words.split_at(table.sectors);
        for ((kept, marked), pin) in self.pins.iter_mut().zip(&mut self.marked).zip(rest) {
            *kept = pin.load(SeqCst);
            *marked = *kept & PHASES == CLOSED;
        }
        self.is_ranked = false;
        self.counts.fill(0);
        for word in map {
            let word = word.load(SeqCst);
            let block = (word >> 16 & 0xffff) as usize;
            if word != 0 && self.pins[block] / GENERATION == (word ^ MAPPED) >> 32 {
                self.counts[block] += 1;
            }
        }
    }

    /// The marked block with the fewest live pages.
    fn least(&self) -> Option<usize> {
        let marked = (0..self.marked.len()).filter(|&block| self.marked[block]);
        marked.min_by_key(|&block| self.counts[block])
    }

    /// The same, by the order of the last survey, which is made once.
    fn first(&mut self) -> Option<usize> {
        if !self.is_ranked {
            let Broom { counts, marked, ranking, .. } = self;
            ranking.clear();
            ranking.extend((0..marked.len()).filter(|&block| marked[block]).map(|block| counts[block] << 32 | block as u64));
            ranking.sort_unstable();
            (self.next, self.is_ranked) = (0, true);
        }
        while let Some(key) = self.ranking.get(self.next) {
            let block = (key & 0xffff_ffff) as usize;
            if self.marked[block] {
                return Some(block);
            }
            self.next += 1;
        }
        None
    }

    /// Takes the lowest free block as the spare of a broom that has none; whether it has one now.
    fn restock(&mut self, table: &Table) -> bool {
        self.spare = self.spare.or_else(|| table.take());
        self.spare.is_some()
    }

    /// Copies a page of the victim if it is live.
    fn clear(&mut self, table: &Table, source: Open) {
        let word = source.map_word();
        let (page, stamp) = table.page(source.block, source.written);
        let sector = stamp.load(PAGE_WORD);
        if sector >= table.sectors as u64 || table.words[sector as usize].load(SeqCst) != word {
            return;
        }
        self.destination = self.destination.or_else(|| self.spare.take());
        let words = page.iter().map(|word| word.load(PAGE_WORD));
        let copy = table.fill(&mut self.destination, sector as u32, words).expect("a destination");
        if cfg!(counted) {
            self.done.programs += 1;
        }
        let _ = table.words[sector as usize].compare_exchange(word, copy, SeqCst, SeqCst);
        table.close_if_full(&mut self.destination);
    }

    /// Erases the block that was drained first, if nobody reads it.
    fn erase(&mut self, table: &Table) -> bool {
        let Some(block) = table.drained.lock().expect("no panic").pop_front() else {
            return false;
        };
        self.marked[block] = false;
        let pin = table.pin(block);
        let found = pin.load(SeqCst);
        if found & READERS != 0 || pin.compare_exchange(found, found + NEXT_PHASE, SeqCst, SeqCst).is_err() {
            table.drained.lock().expect("no panic").push_back(block);
            return false;
        }
        let size = table.pages * (table.page_words + 1);
        for word in &table.words[table.sectors + table.blocks + block * size..][..size] {
            word.store(u64::MAX, PAGE_WORD);
        }
        let generation = found / GENERATION + 1;
        let renewed = GENERATION - written(found) * PAGE_WRITTEN - ERASING;
        if generation == table.endurance {
            pin.fetch_add(NEXT_PHASE, SeqCst);
        } else if self.spare.is_none() {
            self.spare = Some(Open { block: block as u64, generation, written: 0 });
            pin.fetch_add(renewed + OPEN, SeqCst);
        } else {
            pin.fetch_add(renewed, SeqCst);
        }
        true
    }
}

/// The longest sleep of a broom, in microseconds, and by how many sectors it grows on a large device.
const LONGEST_SLEEP: u64 = 1_000;
const SECTORS_A_MICROSECOND: u64 = 10;

/// A yield, and then a sleep of so many microseconds; how long the next rest is.
fn rest(micros: u64, longest: u64) -> u64 {
    if micros == 0 {
        std::thread::yield_now();
        return 10;
    }
    std::thread::sleep(Duration::from_micros(micros));
    (2 * micros).min(longest)
}
