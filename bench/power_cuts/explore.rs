//! Every state that a device can reach, by calls, commands, failures and power cuts.

use crate::canon;
use crate::flash::{Block, Cell, Device, Page, Place, Version, BLOCKS};
use crate::layer::{Array, Command, Rule, Wrong};
use std::collections::{HashMap, VecDeque};
use std::fmt;
use std::hash::{BuildHasherDefault, Hasher};

/// When what a command did is sure to survive a power cut.
#[derive(Clone, Copy, PartialEq, Eq, Debug)]
pub enum Sync {
    /// At its success.
    Always,
    /// At the host's flush, and before each erase.
    Flush,
    /// The same, and between an erase and the block's first program.
    FlushAndAfterErase,
    /// When it lands: commands of different blocks are under way side by side. One waits for that before it of its block, a copy for its page, and
    /// an erase for all.
    SideBySide,
}

/// What a mount may show.
#[derive(Clone, Copy, PartialEq, Eq, Debug)]
pub enum Promise {
    /// The array after a beginning of the history that has all that is sure.
    Whole,
    /// Each sector as it surely is, or as a later call left it.
    EachSector,
}

/// What the flash holds at the start.
#[derive(Clone, Copy, PartialEq, Eq, Debug)]
pub enum Start {
    Blank,
    /// Each sector has bytes: so many in a block, as long as the blocks but one last, and then in the pages left there.
    Filled(usize),
    /// A tombstone of three sectors, two other sectors, the rest torn, one block free.
    Tombstone,
}

#[derive(Clone, Copy, Debug)]
pub struct Model {
    pub rule: Rule,
    pub sync: Sync,
    pub promise: Promise,
    /// Whether the process may end while the flash keeps what was not synced.
    pub kills: bool,
    /// The longest range that is trimmed.
    pub range: u8,
    pub values: u8,
    /// Whether numbers are told apart only where their versions share a sector.
    pub by_overlap: bool,
    /// Whether each page in turn becomes unreadable at each mount.
    pub decays: bool,
}

/// A step of a run, for its report.
#[derive(Clone, Copy, Debug)]
pub enum Event {
    Begins(Version),
    Flushed,
    Did(Command),
    /// What was under way of the block is sure.
    Landed(usize),
    CutBetween,
    Cut(Command),
    KilledBetween,
    Killed(Command),
    Failed(Command),
}

impl fmt::Display for Event {
    fn fmt(&self, f: &mut fmt::Formatter) -> fmt::Result {
        match self {
            Event::Begins(call) if call.has_bytes() => {
                write!(f, "write of {} to sector {}", call.value, call.first)
            }
            Event::Begins(call) => write!(f, "trim of {} sectors from {}", call.count, call.first),
            Event::Flushed => write!(f, "flush"),
            Event::Did(command) => write!(f, "{command}"),
            Event::Landed(block) => write!(f, "the command of block {block} lands"),
            Event::CutBetween => write!(f, "power cut between two commands, and mount"),
            Event::Cut(command) => write!(f, "power cut in: {command}; and mount"),
            Event::KilledBetween => write!(f, "kill between two commands, and mount"),
            Event::Killed(command) => write!(f, "kill in: {command}; and mount"),
            Event::Failed(command) => write!(f, "failure of: {command}; and mount"),
        }
    }
}

pub struct Violation {
    pub what: String,
    pub steps: Vec<Event>,
}

pub enum Outcome {
    /// Every reachable state was visited.
    Holds {
        states: usize,
        depth: usize,
    },
    /// The limit was met first.
    Limit {
        states: usize,
    },
    Refused {
        states: usize,
        violation: Violation,
    },
}

type Next = Vec<(Event, Device)>;

/// What is known of states, by their fingerprints.
type Seen<Known> = HashMap<u128, Known, BuildHasherDefault<ByFingerprint>>;

impl Model {
    fn is(&self, wrong: Wrong) -> bool {
        self.rule.is(wrong)
    }

    /// The bits of an array in `Device::allowed`.
    fn bits(&self, array: &Array) -> u32 {
        let sectors = self.rule.size.sectors;
        match self.promise {
            Promise::Whole => 1 << array[..sectors].iter().rev().fold(0, |number, value| number * 3 + *value as u32),
            Promise::EachSector => array[..sectors].iter().enumerate().map(|(sector, value)| 1 << (3 * sector + *value as usize)).sum(),
        }
    }

    fn now(&self, device: &Device) -> u32 {
        self.bits(&self.rule.array(device))
    }

    fn sync(&self, device: &mut Device) {
        for place in self.rule.size.places() {
            let cell = device.cell_mut(place);
            cell.sure = cell.now;
        }
        device.allowed = self.now(device);
    }

    fn start(&self, start: Start) -> Device {
        let failures_left = self.rule.failures;
        let mut device = Device { blocks: [Block::BLANK; BLOCKS], call: None, next_number: 1, failures_left, choices: 0, allowed: 0 };
        if self.rule.has_reserve {
            let used = self.rule.size.blocks - self.rule.failures as usize;
            device.blocks[used..self.rule.size.blocks].iter_mut().for_each(|block| block.is_reserve = true);
        }
        let mut put = |place: Place, page: Page| {
            device.cell_mut(place).now = page;
            device.cell_mut(place).sure = page;
        };
        let bytes = |sector: u8| Page::Holds(Version { first: sector, count: 1, number: sector + 1, value: 1 });
        let size = self.rule.size;
        match start {
            Start::Blank => {}
            Start::Filled(pages) => {
                let first = size.places().filter(|(block, page)| *page < pages && block + 1 < size.blocks);
                let then = size.places().filter(|(block, page)| *page >= pages && block + 1 < size.blocks);
                size.sectors().zip(first.chain(then)).for_each(|(sector, place)| put(place, bytes(sector)));
            }
            Start::Tombstone => {
                (0..3).for_each(|block| put((block, 1), Page::Unreadable));
                put((0, 0), Page::Holds(Version { first: 0, count: 3, number: 6, value: 0 }));
                put((1, 0), bytes(3));
                put((2, 0), bytes(4));
            }
        }
        let mut device = self.rule.mount(&device)[0];
        device.allowed = self.now(&device);
        device
    }

    /// What a power cut may leave: of each page that isn't sure the old content, the new one, or none.
    fn cuts(&self, device: &Device) -> Vec<Device> {
        let mut left = vec![*device];
        for place in self.rule.size.places() {
            let cell = *device.cell(place);
            let mut pages = vec![cell.now.untrusted()];
            if cell.now != cell.sure {
                pages.extend([cell.sure.untrusted(), Page::LooksErased, Page::Unreadable]);
                pages.sort_unstable();
                pages.dedup();
            }
            left = left.iter().flat_map(|device| pages.iter().map(move |page| with(device, place, *page, *page))).collect();
        }
        left
    }

    /// Mounts, and checks what the mount shows.
    fn mounts(&self, device: &Device, allowed: u32, event: Event, sure: bool, out: &mut Next) -> Result<(), String> {
        if self.tells_losses() && self.rule.losses(device) > 0 {
            return Err(format!("{event}: a loss is told, and nothing was lost\n{device}"));
        }
        if self.decays {
            self.decay(device, allowed, event)?;
        }
        for mut mounted in self.rule.mount(device) {
            let array = self.rule.array(&mounted);
            let bits = self.bits(&array);
            if allowed & bits != bits {
                return Err(format!("{event}: it shows {:?}, which is not allowed\n{device}", &array[..self.rule.size.sectors]));
            }
            if array != self.rule.newest_array(&mounted) {
                return Err(format!("{event}: the map differs from the newest pages\n{mounted}"));
            }
            mounted.allowed = if sure { bits } else { mounted.allowed | bits };
            out.push((event, mounted));
        }
        Ok(())
    }

    /// Without a reserve a failed erase may leave a block with a gap as the only one with a version.
    fn tells_losses(&self) -> bool {
        matches!(self.sync, Sync::Always | Sync::SideBySide) && (self.rule.failures == 0 || self.rule.has_reserve)
    }

    /// Each page in turn becomes unreadable: an older version is shown only with a loss told, or where the flash doesn't show that a page is missing.
    fn decay(&self, device: &Device, allowed: u32, event: Event) -> Result<(), String> {
        for place in self.rule.size.places().filter(|place| device.cell(*place).now.version().is_some()) {
            let decayed = with(device, place, Page::Unreadable, Page::Unreadable);
            let is_told = self.rule.losses(&decayed) > 0;
            for mounted in self.rule.mount(&decayed) {
                let bits = self.bits(&self.rule.array(&mounted));
                if allowed & bits != bits && !is_told && self.rule.is_missed(&decayed, place) {
                    return Err(format!("{event}: an older version is shown without a word\n{decayed}"));
                }
            }
        }
        Ok(())
    }

    fn cut(&self, device: &Device, event: Event, out: &mut Next) -> Result<(), String> {
        self.cuts(device).iter().try_for_each(|left| self.mounts(left, device.allowed, event, true, out))
    }

    fn calls(&self) -> Vec<Version> {
        let mut calls = vec![];
        for first in self.rule.size.sectors() {
            calls.extend((1..=self.values).map(|value| Version { first, count: 1, number: 0, value }));
            let longest = self.range.min(self.rule.size.sectors as u8 - first);
            calls.extend((1..=longest).map(|count| Version { first, count, number: 0, value: 0 }));
        }
        calls
    }

    /// The device with what the command puts, not yet sure, and with the calls that a mount may show then.
    fn put(&self, device: &Device, call: Version, command: Command) -> Device {
        let mut put = *device;
        if let Command::Program { .. } = command {
            put.allowed |= self.bits(&self.rule.after(self.rule.array(device), call));
        }
        for (place, page) in self.rule.puts(device, call, command) {
            put.cell_mut(place).now = page;
        }
        put
    }

    /// The device once the command may begin: what it waits for has landed.
    fn before(&self, device: &Device, command: Command) -> Device {
        let mut device = *device;
        let waits_for = |block: usize| match (self.sync, command) {
            (Sync::SideBySide, Command::Erase { block: erased, .. }) => self.erase_waits_for(&device, erased, block),
            (Sync::SideBySide, Command::Program { block: of }) => block == of,
            (Sync::SideBySide, Command::Copy { from, block: of, .. }) => block == of || block == from.0,
            (Sync::FlushAndAfterErase, Command::Program { block: of }) => self.shares_after_hosts(&device, of),
            (_, Command::Erase { .. }) => !self.is(Wrong::NoSyncBeforeErase),
            _ => false,
        };
        let awaited: Vec<usize> = (0..self.rule.size.blocks).filter(|block| waits_for(*block)).collect();
        if awaited.len() == self.rule.size.blocks {
            self.sync(&mut device);
        }
        awaited.into_iter().for_each(|block| self.land(&mut device, block));
        device
    }

    /// A host writes in the block of copies after others, which have to be sure, or a cut would not leave a beginning of the history.
    fn shares_after_hosts(&self, device: &Device, block: usize) -> bool {
        let is_other_busy = || (0..self.rule.size.blocks).any(|other| other != block && device.blocks[other].is_busy());
        self.rule.hosts > 0 && device.blocks[block].for_copies && is_other_busy() && !self.is(Wrong::SharesUnsynced)
    }

    /// An erase waits for all that is programmed or copied, and for nothing else of other blocks.
    fn erase_waits_for(&self, device: &Device, erased: usize, block: usize) -> bool {
        let is_replaced = |new: Version| device.blocks[erased].cells.iter().filter_map(|old| old.sure.version()).any(|old| old.meets(new));
        let under_way = device.blocks[block].cells.iter().filter(|cell| cell.now != cell.sure);
        let mut programmed = under_way.filter_map(|cell| cell.now.version());
        block == erased
            || match self.rule.wrong {
                Some(Wrong::ErasesBesideCopies) => !device.blocks[block].for_copies,
                Some(Wrong::ErasesBesidePrograms) => device.blocks[block].for_copies,
                Some(Wrong::ErasesBesideOthers) => programmed.any(is_replaced),
                _ => programmed.next().is_some(),
            }
    }

    /// What is under way of the block is sure then, and its call acknowledged: no older value of the sectors that are kept there may be shown.
    fn land(&self, device: &mut Device, block: usize) {
        for page in 0..self.rule.size.pages {
            let Cell { now, sure, kept } = *device.cell((block, page));
            device.cell_mut((block, page)).sure = now;
            if let Some(version) = now.version().filter(|_| now != sure) {
                for sector in version.sectors().filter(|sector| kept >> sector & 1 == 1) {
                    device.allowed &= !(7 << (3 * sector)) | 1 << (3 * sector + version.value);
                }
            }
        }
        if self.is(Wrong::AcknowledgesOthers) {
            device.allowed = self.now(device);
        }
    }

    fn done(&self, put: &Device, call: Version, command: Command) -> Device {
        let mut done = *put;
        self.rule.done(&mut done, call, command);
        let erased = matches!(command, Command::Erase { .. });
        if self.sync == Sync::Always || (erased && self.sync == Sync::FlushAndAfterErase) {
            self.sync(&mut done);
        }
        done
    }

    /// Without a fault each run of commands ends the call, and none is refused where there is space. `seen` has the states behind and, with false,
    /// those on the way.
    fn ends(&self, device: &Device, seen: &mut Seen<bool>) -> Result<(), String> {
        let Some(call) = device.call else { return Ok(()) };
        let print = canon::fingerprint(device);
        match seen.get(&print) {
            Some(true) => return Ok(()),
            Some(false) => return Err(format!("the call never ends\n{device}")),
            None => seen.insert(print, false),
        };
        let mut opened = vec![];
        for command in self.rule.commands(device, call) {
            // Free blocks are alike.
            if let Command::Erase { for_copies, .. } = command {
                if opened.contains(&for_copies) {
                    continue;
                }
                opened.push(for_copies);
            }
            if command != Command::Refused {
                let put = self.put(&self.before(device, command), call, command);
                let done = self.done(&put, call, command);
                self.goes_on(&done, command)?;
                self.ends(&done, seen)?;
            } else if self.rule.has_space() {
                return Err(format!("refused though there is space\n{device}"));
            }
        }
        seen.insert(print, true);
        Ok(())
    }

    /// After an erase or a copy the call needs no erase.
    fn goes_on(&self, device: &Device, command: Command) -> Result<(), String> {
        let Some(call) = device.call else { return Ok(()) };
        let may_erase = matches!(command, Command::GiveUp { .. }) || !self.rule.has_space();
        if may_erase || self.rule.commands(device, call).iter().any(|next| !matches!(next, Command::Erase { .. })) {
            return Ok(());
        }
        Err(format!("{command}: the call needs an erase behind it\n{device}"))
    }

    fn check(&self, device: &Device) -> Result<(), String> {
        let kept = |sector: u8| self.rule.size.places().filter(|place| device.cell(*place).kept >> sector & 1 == 1).count();
        if self.rule.size.sectors().any(|sector| kept(sector) > 1) {
            return Err(format!("a sector is kept twice\n{device}"));
        }
        if self.rule.array(device) != self.rule.newest_array(device) && self.rule.wrong.is_none() {
            return Err(format!("the map differs from the newest pages\n{device}"));
        }
        let keeps_spare = self.rule.wrong.is_none() && self.rule.has_space() && (self.rule.failures == 0 || self.rule.has_reserve);
        if keeps_spare && !self.rule.leaves_spare(device) {
            return Err(format!("no block is free, nor has the open one copies alone\n{device}"));
        }
        Ok(())
    }

    fn next(&self, device: &Device) -> Result<Next, String> {
        let mut out = vec![];
        self.check(device)?;
        self.cut(device, Event::CutBetween, &mut out)?;
        if self.kills {
            self.mounts(device, self.now(device), Event::KilledBetween, false, &mut out)?;
        }
        for block in (0..self.rule.size.blocks).filter(|block| self.sync == Sync::SideBySide && device.blocks[*block].is_busy()) {
            let mut landed = *device;
            self.land(&mut landed, block);
            out.push((Event::Landed(block), landed));
        }
        match device.call {
            None => self.begin(device, &mut out)?,
            Some(call) => {
                for command in self.rule.commands(device, call) {
                    self.perform(device, call, command, &mut out)?;
                }
            }
        }
        Ok(out)
    }

    fn begin(&self, device: &Device, out: &mut Next) -> Result<(), String> {
        let mut seen = Seen::default();
        for call in self.calls() {
            let mut begun = *device;
            let is_before = |cell: &Cell| cell.now != cell.sure && cell.now.version().map_or(false, |version| version.meets(call));
            let awaited = |block: &usize| self.sync == Sync::SideBySide && device.blocks[*block].cells.iter().any(is_before);
            (0..self.rule.size.blocks).filter(awaited).for_each(|block| self.land(&mut begun, block));
            (begun.call, begun.choices) = (Some(call), self.rule.choices);
            self.ends(&begun, &mut seen)?;
            if self.is(Wrong::AcknowledgesEarly) {
                begun.allowed = self.bits(&self.rule.after(self.rule.array(device), call));
            }
            out.push((Event::Begins(call), begun));
        }
        if matches!(self.sync, Sync::Flush | Sync::FlushAndAfterErase) {
            let mut flushed = *device;
            if self.is(Wrong::FlushesNothing) {
                flushed.allowed = self.now(device);
            } else {
                self.sync(&mut flushed);
            }
            out.push((Event::Flushed, flushed));
        }
        Ok(())
    }

    fn perform(&self, device: &Device, call: Version, command: Command, out: &mut Next) -> Result<(), String> {
        let before = self.before(device, command);
        for (place, _) in self.rule.puts(&before, call, command) {
            if before.blocks[place.0].bad {
                return Err(format!("{command}: the block is bad\n{device}"));
            }
            if !matches!(command, Command::Erase { .. }) && before.cell(place).now != Page::Erased {
                return Err(format!("{command}: the page isn't erased\n{device}"));
            }
        }
        let put = self.put(&before, call, command);
        self.cut(&put, Event::Cut(command), out)?;
        let after = self.bits(&self.rule.after(self.rule.array(device), call));
        let shown = self.now(device) | if matches!(command, Command::Program { .. }) { after } else { 0 };
        if self.kills {
            for part in self.parts(&before, &put) {
                self.mounts(&part, shown, Event::Killed(command), false, out)?;
            }
        }
        if device.failures_left > 0 {
            self.fail(&before, &put, call, command, shown, out)?;
        }
        out.push((Event::Did(command), self.done(&put, call, command)));
        Ok(())
    }

    /// What reads may show of a command that ended halfway: each of its pages as before, as after, or torn.
    fn parts(&self, before: &Device, put: &Device) -> Vec<Device> {
        let mut parts = vec![*put];
        for place in self.rule.size.places().filter(|place| before.cell(*place).now != put.cell(*place).now) {
            let pages = [before.cell(place).now.untrusted(), put.cell(place).now.untrusted(), Page::LooksErased, Page::Unreadable];
            parts = parts.iter().flat_map(|part| pages.iter().map(move |page| with(part, place, *page, part.cell(place).sure))).collect();
            parts.dedup();
        }
        parts
    }

    /// A failure marks the block as bad, one in reserve takes its place, and the layer mounts again.
    fn fail(&self, before: &Device, put: &Device, call: Version, command: Command, shown: u32, out: &mut Next) -> Result<(), String> {
        let block = match command {
            Command::Program { block } | Command::Copy { block, .. } | Command::Erase { block, .. } => block,
            Command::GiveUp { .. } | Command::Nothing | Command::Refused => return Ok(()),
        };
        for mut part in self.parts(before, put) {
            part.failures_left -= 1;
            if self.is(Wrong::FailureIgnored) {
                out.push((Event::Failed(command), self.done(&part, call, command)));
                continue;
            }
            part.blocks[block].bad = true;
            if !self.is(Wrong::ReserveForgotten) {
                part.blocks.iter_mut().filter(|block| block.is_reserve).take(1).for_each(|block| block.is_reserve = false);
            }
            let is_sure = matches!(self.sync, Sync::Always | Sync::SideBySide);
            for place in self.rule.size.places().filter(|_| is_sure) {
                part.cell_mut(place).sure = part.cell(place).now;
            }
            self.mounts(&part, shown, Event::Failed(command), is_sure, out)?;
        }
        Ok(())
    }

    /// Makes so many random steps, few of them cuts and failures, and begins anew after each thousand. What a cut or a failure may leave is checked at
    /// each step.
    pub fn walk(&self, start: Start, steps: usize) -> Outcome {
        let mut random = 88_172_645_463_325_252u64;
        let mut below = |bound: usize| {
            random ^= random << 13;
            random ^= random >> 7;
            random ^= random << 17;
            (random >> 20) as usize % bound
        };
        let (mut device, mut events) = (self.start(start), vec![]);
        for step in 1..=steps {
            let next = match self.next(&device) {
                Err(what) => return Outcome::Refused { states: step, violation: Violation { what, steps: events } },
                Ok(next) => next,
            };
            let is_quiet = |event: &Event| matches!(event, Event::Begins(_) | Event::Flushed | Event::Did(_) | Event::Landed(_));
            let quiet: Vec<usize> = (0..next.len()).filter(|chosen| is_quiet(&next[*chosen].0)).collect();
            let chosen = if quiet.is_empty() || below(16) == 0 { below(next.len()) } else { quiet[below(quiet.len())] };
            events.push(next[chosen].0);
            device = canon::of(self, &next[chosen].1);
            if step % 1000 == 0 {
                (device, events) = (self.start(start), vec![]);
            }
        }
        Outcome::Limit { states: steps }
    }

    /// Visits states in the order of their distance from the start.
    pub fn explore(&self, start: Start, limit: usize) -> Outcome {
        let start = canon::of(self, &self.start(start));
        let mut parents: Seen<(u128, Option<Event>)> = Seen::default();
        parents.insert(canon::fingerprint(&start), (0, None));
        let mut queue = VecDeque::from([(start, 0)]);
        let mut depth = 0;
        while let Some((device, steps)) = queue.pop_front() {
            depth = steps;
            let from = canon::fingerprint(&device);
            match self.next(&device) {
                Err(what) => {
                    let states = parents.len();
                    let mut events = vec![];
                    let mut at = from;
                    while let Some((parent, Some(event))) = parents.get(&at) {
                        events.push(*event);
                        at = *parent;
                    }
                    events.reverse();
                    return Outcome::Refused { states, violation: Violation { what, steps: events } };
                }
                Ok(next) => {
                    for (event, device) in next {
                        let device = canon::of(self, &device);
                        if let std::collections::hash_map::Entry::Vacant(new) = parents.entry(canon::fingerprint(&device)) {
                            new.insert((from, Some(event)));
                            queue.push_back((device, steps + 1));
                        }
                    }
                }
            }
            if parents.len() > limit {
                return Outcome::Limit { states: parents.len() };
            }
        }
        Outcome::Holds { states: parents.len(), depth }
    }
}

fn with(device: &Device, place: Place, now: Page, sure: Page) -> Device {
    let mut device = *device;
    let cell = device.cell_mut(place);
    cell.now = now;
    cell.sure = sure;
    device
}

/// A fingerprint is its own hash.
#[derive(Default, Clone, Copy)]
pub struct ByFingerprint(u64);

impl Hasher for ByFingerprint {
    fn finish(&self) -> u64 {
        self.0
    }

    fn write(&mut self, _: &[u8]) {
        unreachable!("keys are numbers")
    }

    fn write_u128(&mut self, key: u128) {
        self.0 = key as u64 ^ (key >> 64) as u64;
    }
}
