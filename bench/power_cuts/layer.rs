//! The layer's rule: what a mount keeps, which command comes next, and what its success changes. And rules that are wrong in one point.

use crate::flash::{Block, Cell, Device, Page, Place, Size, Version, BLOCKS, PAGES, SECTORS};
use std::fmt;

macro_rules! wrong_rules {
    ($($(#[$doc:meta])* $name:ident),* $(,)?) => {
        #[derive(Clone, Copy, PartialEq, Eq, Debug)]
        pub enum Wrong { $($(#[$doc])* $name),* }
        pub const WRONG: &[(&str, Wrong)] = &[$((stringify!($name), Wrong::$name)),*];
    };
}

wrong_rules! {
    /// A mount takes the first version of a sector that it finds.
    FirstFound,
    /// A mount takes the last one.
    LastFound,
    /// Numbers start again at a mount.
    NumbersStartAgain,
    /// The next number is above those of kept pages alone.
    NumberAboveKept,
    /// A mount goes on with a block that was open.
    ContinuesOpenBlock,
    /// A mount opens a block that reads as erased.
    TrustsErased,
    /// A mount looks for no block that twins can free.
    FreesNoBlock,
    /// A mount chooses between twins sector by sector.
    TwinBySector,
    /// A mount reads no bad block.
    BadBlocksUnread,
    /// A mount keeps no page of a bad block.
    BadBlocksDropped,
    /// A bad block is erased and programmed again.
    BadBlocksUsed,
    /// A mount reads a block up to its first page that reads as erased.
    StopsAtErased,
    /// A mount reads a block up to its first unreadable page.
    StopsAtUnreadable,
    /// A tombstone is dropped at each mount.
    DropsTombstones,
    /// A tombstone is dropped if the older bytes stand in its own block alone.
    OwnBlockUncounted,
    /// A tombstone is dropped if the older bytes stand in bad blocks alone.
    BadBlocksUncounted,
    /// A tombstone is dropped if the older bytes stand in half-erased blocks alone.
    TornBlocksUncounted,
    /// A tombstone is dropped once its first sector has no bytes.
    DropsByFirstSector,
    /// A trim programs nothing.
    TrimInMemory,
    /// A tombstone is not copied.
    TombstoneNotCopied,
    /// A block is erased that keeps one page.
    ErasesEarly,
    /// A host's write needs no spare block.
    NoReserve,
    /// A host's write needs one free block, however many failures may come.
    OneSpare,
    /// A block in reserve is used before a block fails.
    ReserveUsed,
    /// No block in reserve takes the place of one that fails.
    ReserveForgotten,
    /// A copy gets a number of its own.
    CopyRenumbered,
    /// A copy gets the number 0.
    CopyNumberedZero,
    /// A copy of a tombstone has only the sectors that are kept there.
    CopyNarrowed,
    /// A copy of a tombstone has the first sector that is kept there.
    CopySplit,
    /// A block's kept pages are counted, and not the sectors that are kept there.
    PagesCounted,
    /// A tombstone has the first sector of its range alone.
    RangeFirstSector,
    /// A tombstone has a sector more.
    RangeOneMore,
    /// A write in a tombstone's range ends it for the others.
    WriteEndsTombstone,
    /// A call is acknowledged before its program.
    AcknowledgesEarly,
    /// A failed program is taken for a success.
    FailureIgnored,
    /// Nothing is synced before an erase.
    NoSyncBeforeErase,
    /// The host's flush does nothing.
    FlushesNothing,
    /// A page that has become unreadable is taken for a torn one.
    LossTakenForTorn,
    /// A torn page is taken for one that has become unreadable.
    TornTakenForLoss,
    /// A mount keeps the first page of a version, also in a block with a gap.
    KeepsBehindGap,
    /// A mount frees a block by twins in blocks with a gap.
    FreesByTwinsBehindGap,
    /// A block is opened for hosts beside the last free one but none.
    HostsTakeLast,
    /// The same while the block of copies is open.
    HostsTakeLastBesideCopies,
    /// The second block for hosts takes the last free one.
    SecondTakesLast,
    /// What a host writes goes to the block of copies though no block is free.
    HostInCopiesAtNone,
    /// Where no block is free any victim is taken.
    AnyVictimAtNone,
    /// A copy that a call doesn't need takes the last page that is open.
    CopiesTakeLastPage,
    /// What a host writes goes to the block of copies, too, while one is open for hosts.
    HostInCopiesBesideHosts,
    /// The block of copies is given up though no block is free.
    GivesUpAtNone,
    /// An open block without kept pages is taken for free.
    OpenTakenForFree,
    /// A mount goes on with the block of copies.
    ContinuesCopies,
    /// An erase doesn't wait for the copy before it.
    ErasesBesideCopies,
    /// An erase doesn't wait for what hosts write in other blocks.
    ErasesBesidePrograms,
    /// An erase waits only for what takes the place of the block's own pages.
    ErasesBesideOthers,
    /// What a host writes in the block of copies needn't wait for what hosts have written in theirs.
    SharesUnsynced,
    /// A program that has come to its end acknowledges what is under way in other blocks.
    AcknowledgesOthers,
    /// Each block for hosts has numbers of its own.
    NumbersApart,
}

/// Which blocks a mount leaves empty, where the pages that it would keep there have twins elsewhere.
#[derive(Clone, Copy, PartialEq, Eq, Debug)]
pub enum Freed {
    /// A set with the most blocks.
    Most,
    /// One block after the other, those with the fewest newest pages first.
    FewestFirst,
    /// One block.
    One,
    /// A set that no other contains.
    Maximal,
}

#[derive(Clone, Copy, PartialEq, Eq, Debug)]
pub enum Command {
    Program {
        block: usize,
    },
    /// Moves one sector. Others that are kept at its page stay there.
    Copy {
        from: Place,
        sector: u8,
        block: usize,
    },
    /// Opens the block, for copies or for hosts.
    Erase {
        block: usize,
        for_copies: bool,
    },
    /// No more is programmed in an open block.
    GiveUp {
        block: usize,
    },
    /// A trim of sectors that are empty.
    Nothing,
    Refused,
}

impl fmt::Display for Command {
    fn fmt(&self, f: &mut fmt::Formatter) -> fmt::Result {
        match self {
            Command::Program { block } => write!(f, "program in block {block}"),
            Command::Copy { from, sector, block } => write!(f, "copy of sector {sector} from page {} of block {} to block {block}", from.1, from.0),
            Command::Erase { block, for_copies } => write!(f, "erase of block {block} for {}", if *for_copies { "copies" } else { "hosts" }),
            Command::GiveUp { block } => write!(f, "block {block} is given up"),
            Command::Nothing => write!(f, "nothing to trim"),
            Command::Refused => write!(f, "refused: no block is free, and none can be emptied"),
        }
    }
}

#[derive(Clone, Copy, Debug)]
pub struct Rule {
    pub size: Size,
    pub failures: u8,
    /// As many blocks are in reserve, in place of free blocks that a host's write leaves.
    pub has_reserve: bool,
    pub freed: Freed,
    pub drops_tombstones: bool,
    /// A mount reads each block up to its first page that is no version.
    pub reads_to_gap: bool,
    /// How many blocks may be open for hosts at once, and how many for copies: one of each on each LUN. None for hosts and one for copies: hosts
    /// write in that one, which is today's rule.
    pub hosts: usize,
    pub copies: usize,
    /// How many copies a call may make that it doesn't need.
    pub choices: u8,
    /// Whether it may give up an open block instead.
    pub gives_up: bool,
    pub wrong: Option<Wrong>,
}

/// The blocks that the next command depends on, and how many free ones a host's write has to leave.
struct Room {
    hosts: Vec<usize>,
    copies: Vec<usize>,
    free: Vec<usize>,
    needed: usize,
}

impl Room {
    fn is_spared(&self) -> bool {
        self.free.len() >= self.needed
    }
}

/// The value of each sector, 0 for an empty one.
pub type Array = [u8; SECTORS];

impl Rule {
    /// Today's rule without failures.
    pub fn of(size: Size) -> Rule {
        Rule {
            size,
            failures: 0,
            has_reserve: false,
            freed: Freed::Most,
            drops_tombstones: true,
            reads_to_gap: false,
            hosts: 0,
            copies: 1,
            choices: 0,
            gives_up: false,
            wrong: None,
        }
    }

    pub fn is(&self, wrong: Wrong) -> bool {
        self.wrong == Some(wrong)
    }

    /// Whether the sectors fit beside all failures that may come: then no call may be refused.
    pub fn has_space(&self) -> bool {
        self.size.sectors < (self.size.blocks - 1 - self.failures as usize) * self.size.pages
    }

    fn covers(&self, version: Version, sector: u8) -> bool {
        if self.is(Wrong::RangeFirstSector) {
            return version.first == sector;
        }
        version.covers(sector) || (self.is(Wrong::RangeOneMore) && !version.has_bytes() && sector == version.first + version.count)
    }

    /// How many pages without a version are before the last one with a version.
    fn gaps(&self, block: &Block) -> usize {
        let seen = self.read(block);
        if self.is(Wrong::TornTakenForLoss) {
            return block.cells[..self.size.pages].iter().filter(|cell| cell.now == Page::Unreadable).count();
        }
        let last = seen.iter().rposition(Option::is_some).unwrap_or(0);
        seen[..last].iter().filter(|version| version.is_none()).count()
    }

    /// The gaps of blocks that have a newest version which no block without a gap has.
    pub fn losses(&self, device: &Device) -> usize {
        let versions = self.versions(device);
        let mut lost = [0; BLOCKS];
        for sector in self.size.sectors() {
            let found = self.found(device, &versions, sector);
            if let Some(first) = found.first().filter(|_| found.iter().all(|place| self.gaps(&device.blocks[place.0]) > 0)) {
                lost[first.0] = self.gaps(&device.blocks[first.0]);
            }
        }
        if self.is(Wrong::LossTakenForTorn) {
            return 0;
        }
        lost.iter().sum()
    }

    /// Whether a page is missing of a block that keeps something which no block without a gap has.
    pub fn is_missed(&self, device: &Device, (block, page): Place) -> bool {
        let seen = self.read(&device.blocks[block]);
        let versions = self.versions(device);
        let is_alone = |sector: u8| {
            let found = self.found(device, &versions, sector);
            found.iter().any(|place| place.0 == block) && found.iter().all(|place| self.gaps(&device.blocks[place.0]) > 0)
        };
        seen[page + 1..].iter().any(Option::is_some) && self.size.sectors().any(is_alone)
    }

    /// The versions that a mount reads in a block.
    fn read(&self, block: &Block) -> [Option<Version>; PAGES] {
        let mut seen = [None; PAGES];
        if self.is(Wrong::BadBlocksUnread) && block.bad {
            return seen;
        }
        for (page, cell) in block.cells[..self.size.pages].iter().enumerate() {
            let stops = match cell.now {
                Page::Holds(_) => false,
                Page::Unreadable => self.reads_to_gap || self.is(Wrong::StopsAtUnreadable),
                Page::Erased | Page::LooksErased => self.reads_to_gap || self.is(Wrong::StopsAtErased),
            };
            if stops {
                break;
            }
            seen[page] = cell.now.version();
        }
        seen
    }

    fn versions(&self, device: &Device) -> Vec<(Place, Version)> {
        let mut all = vec![];
        for block in 0..self.size.blocks {
            for (page, version) in self.read(&device.blocks[block]).into_iter().enumerate() {
                all.extend(version.map(|version| ((block, page), version)));
            }
        }
        all
    }

    /// The array by the pages that the layer keeps.
    pub fn array(&self, device: &Device) -> Array {
        let mut array = [0; SECTORS];
        for place in self.size.places() {
            let cell = device.cell(place);
            for sector in self.size.sectors().filter(|sector| cell.kept >> sector & 1 == 1) {
                array[sector as usize] = cell.now.version().map_or(0, |version| version.value);
            }
        }
        array
    }

    /// The array by the definition: of each sector, the version with the greatest number.
    pub fn newest_array(&self, device: &Device) -> Array {
        let versions = self.versions(device);
        let mut array = [0; SECTORS];
        for sector in self.size.sectors() {
            let newest = versions.iter().filter(|(_, version)| self.covers(*version, sector)).max_by_key(|(_, version)| version.number);
            array[sector as usize] = newest.map_or(0, |(_, version)| version.value);
        }
        array
    }

    pub fn after(&self, mut array: Array, call: Version) -> Array {
        for sector in call.sectors() {
            array[sector as usize] = call.value;
        }
        array
    }

    /// The states that a mount may lead to: several where it may choose.
    pub fn mount(&self, device: &Device) -> Vec<Device> {
        let mut base = *device;
        base.call = None;
        base.choices = 0;
        for block in base.blocks.iter_mut() {
            block.open = None;
            block.for_copies &= self.is(Wrong::ContinuesCopies);
            for cell in block.cells.iter_mut() {
                *cell = Cell { now: cell.now.untrusted(), sure: cell.sure.untrusted(), kept: 0 };
            }
        }
        let versions = self.versions(&base);
        let numbers = versions.iter().map(|(_, version)| version.number);
        base.next_number = if self.is(Wrong::NumbersStartAgain) { 1 } else { numbers.max().unwrap_or(0) + 1 };
        let found: Vec<Vec<Place>> = self.size.sectors().map(|sector| self.found(&base, &versions, sector)).collect();
        let mut mounted = vec![];
        for freed in self.sets_to_free(&base, &found) {
            let device = self.keep(&base, &found, freed);
            if !mounted.contains(&device) {
                mounted.push(device);
            }
        }
        mounted
    }

    /// The pages with the newest version of a sector; none where it needs no page.
    fn found(&self, device: &Device, versions: &[(Place, Version)], sector: u8) -> Vec<Place> {
        let mut of_sector = versions.iter().filter(|(_, version)| self.covers(*version, sector));
        let newest = match self.wrong {
            Some(Wrong::FirstFound) => of_sector.next(),
            Some(Wrong::LastFound) => of_sector.last(),
            _ => of_sector.max_by_key(|(_, version)| version.number),
        };
        let (place, newest) = match newest {
            Some(found) => *found,
            None => return vec![],
        };
        let mut twins: Vec<Place> = versions.iter().filter(|(_, version)| *version == newest).map(|(place, _)| *place).collect();
        if matches!(self.wrong, Some(Wrong::FirstFound | Wrong::LastFound | Wrong::FreesNoBlock)) {
            twins = vec![place];
        }
        if twins.iter().all(|place| self.may_drop(device, versions, sector, *place, newest)) {
            twins.clear();
        }
        if !self.is(Wrong::KeepsBehindGap) {
            twins.sort_by_key(|place| self.gaps(&device.blocks[place.0]) > 0);
        }
        twins
    }

    /// Whether a tombstone isn't needed for a sector: no readable page has bytes of it.
    fn may_drop(&self, device: &Device, versions: &[(Place, Version)], sector: u8, place: Place, tombstone: Version) -> bool {
        if tombstone.has_bytes() || !self.drops_tombstones {
            return false;
        }
        let sector = if self.is(Wrong::DropsByFirstSector) { tombstone.first } else { sector };
        let counts = |block: usize| match self.wrong {
            Some(Wrong::DropsTombstones) => false,
            Some(Wrong::OwnBlockUncounted) => block != place.0,
            Some(Wrong::BadBlocksUncounted) => !device.blocks[block].bad,
            Some(Wrong::TornBlocksUncounted) => {
                let pages = &device.blocks[block].cells[..self.size.pages];
                let readable = pages.iter().rposition(|cell| cell.now.version().is_some());
                readable.map_or(true, |last| pages[..last].iter().all(|cell| cell.now.version().is_some()))
            }
            _ => true,
        };
        !versions.iter().any(|((block, _), version)| version.has_bytes() && version.covers(sector) && counts(*block))
    }

    /// The sets of blocks, a bit for each, one of which a mount leaves without kept pages.
    fn sets_to_free(&self, device: &Device, found: &[Vec<Place>]) -> Vec<u32> {
        let frees = |set: u32| {
            let outside = |twins: &Vec<Place>| twins.is_empty() || twins.iter().any(|twin| set >> twin.0 & 1 == 0);
            found.iter().all(outside) && (0..self.size.blocks).all(|block| set >> block & 1 == 0 || self.is_used(&device.blocks[block]))
        };
        let is_wanted = |set: &u32| self.freed != Freed::One || set.is_power_of_two();
        let all: Vec<u32> = (0..1 << self.size.blocks).filter(is_wanted).filter(|set| frees(*set)).collect();
        let most = all.iter().map(|set| set.count_ones()).max().unwrap_or(0);
        let chosen: Vec<u32> = match self.freed {
            Freed::Most => all.iter().copied().filter(|set| set.count_ones() == most).collect(),
            Freed::One => all.clone(),
            Freed::Maximal => all.iter().copied().filter(|set| !all.iter().any(|other| other != set && other & set == *set)).collect(),
            Freed::FewestFirst => self.fewest_first(found, frees),
        };
        let is_kept = |place: &Place, set: u32| set >> place.0 & 1 == 0 && self.gaps(&device.blocks[place.0]) == 0;
        let stays = |twins: &Vec<Place>, set: u32| {
            twins.first().map_or(true, |first| set >> first.0 & 1 == 0 || twins.iter().any(|twin| is_kept(twin, set)))
        };
        let is_safe = |set: &u32| found.iter().all(|twins| stays(twins, *set));
        let safe: Vec<u32> = chosen.iter().copied().filter(is_safe).collect();
        match (chosen.is_empty(), safe.is_empty() || self.is(Wrong::FreesByTwinsBehindGap)) {
            (true, _) => vec![0],
            (false, true) => chosen,
            (false, false) => safe,
        }
    }

    fn fewest_first(&self, found: &[Vec<Place>], frees: impl Fn(u32) -> bool) -> Vec<u32> {
        let newest_pages = |block: usize| {
            let mut pages: Vec<Place> = found.iter().flatten().copied().filter(|place| place.0 == block).collect();
            pages.sort_unstable();
            pages.dedup();
            pages.len()
        };
        let counts: Vec<usize> = (0..self.size.blocks).map(newest_pages).collect();
        let mut sets = vec![];
        let mut partial = vec![(0u32, 0u32)];
        while let Some((set, tried)) = partial.pop() {
            let rest: Vec<usize> = (0..self.size.blocks).filter(|block| tried >> block & 1 == 0).collect();
            let fewest = match rest.iter().map(|block| counts[*block]).min() {
                Some(fewest) => fewest,
                None => {
                    sets.push(set);
                    continue;
                }
            };
            for block in rest.into_iter().filter(|block| counts[*block] == fewest) {
                let more = set | 1 << block;
                partial.push((if frees(more) { more } else { set }, tried | 1 << block));
            }
        }
        sets.sort_unstable();
        sets.dedup();
        sets
    }

    fn keep(&self, base: &Device, found: &[Vec<Place>], freed: u32) -> Device {
        let mut device = *base;
        for (sector, twins) in found.iter().enumerate() {
            let chosen = if self.is(Wrong::TwinBySector) && sector % 2 == 1 {
                twins.last()
            } else {
                twins.iter().find(|twin| freed >> twin.0 & 1 == 0).or(twins.first())
            };
            let chosen = chosen.filter(|place| !self.is(Wrong::BadBlocksDropped) || !base.blocks[place.0].bad);
            if let Some(place) = chosen {
                device.cell_mut(*place).kept |= 1 << sector;
            }
        }
        if self.is(Wrong::NumberAboveKept) {
            let kept = self.size.places().filter(|place| device.cell(*place).kept != 0);
            device.next_number = kept.filter_map(|place| device.cell(place).now.version()).map(|v| v.number).max().unwrap_or(0) + 1;
        }
        for block in device.blocks[..self.size.blocks].iter_mut().filter(|block| !block.bad && !block.is_reserve) {
            let used = block.cells[..self.size.pages].iter().rposition(|cell| !cell.now.is_blank()).map_or(0, |last| last + 1);
            let continues = (self.is(Wrong::ContinuesOpenBlock) || block.for_copies) && used > 0 && used < self.size.pages;
            block.for_copies &= continues;
            if continues || (self.is(Wrong::TrustsErased) && used == 0) {
                block.open = Some(used as u8);
                block.for_copies |= self.hosts == 0;
                break;
            }
        }
        device
    }

    /// Whether the block may be erased and programmed.
    fn is_used(&self, block: &Block) -> bool {
        (!block.bad || self.is(Wrong::BadBlocksUsed)) && (!block.is_reserve || self.is(Wrong::ReserveUsed))
    }

    fn is_free(&self, block: &Block) -> bool {
        let is_closed = block.open.is_none() || self.is(Wrong::OpenTakenForFree);
        is_closed && self.is_used(block) && block.kept_pages() <= self.is(Wrong::ErasesEarly) as usize
    }

    /// The commands that may come next for the call under way: several where the rule leaves a choice.
    pub fn commands(&self, device: &Device, call: Version) -> Vec<Command> {
        let array = self.array(device);
        let in_memory = self.is(Wrong::TrimInMemory) && !call.has_bytes();
        if in_memory || !call.has_bytes() && call.sectors().all(|sector| array[sector as usize] == 0) {
            return vec![Command::Nothing];
        }
        let room = self.room(device);
        let mut all = self.programs(&room);
        all.extend(self.erases(&room));
        all.extend(self.collecting(device, &room));
        if self.gives_up && device.choices > 0 && (room.is_spared() || self.is(Wrong::GivesUpAtNone)) {
            all.extend(room.hosts.iter().chain(&room.copies).map(|block| Command::GiveUp { block: *block }));
        }
        if all.is_empty() {
            all.push(Command::Refused);
        }
        all
    }

    fn room(&self, device: &Device) -> Room {
        let free = (0..self.size.blocks).filter(|block| self.is_free(&device.blocks[*block])).collect();
        let needed = match self.wrong {
            Some(Wrong::NoReserve) => 0,
            Some(Wrong::OneSpare) => 1,
            _ if self.has_reserve => 1,
            _ => device.failures_left as usize + 1,
        };
        Room { hosts: device.open_blocks(false), copies: device.open_blocks(true), free, needed }
    }

    /// Whether the proved core opens a block for hosts next, and not for copies: beside that of copies, or beside two free ones.
    pub fn opens_for_hosts(&self, device: &Device) -> bool {
        let room = self.room(device);
        self.hosts > 0 && room.hosts.is_empty() && (!room.copies.is_empty() || room.free.len() > room.needed + 1)
    }

    /// What a mount after a cut rests on: a block is free, or the only open one has nothing but copies of pages that still stand.
    pub fn leaves_spare(&self, device: &Device) -> bool {
        let room = self.room(device);
        let only = match (&room.copies[..], room.hosts.is_empty()) {
            ([only], true) => *only,
            _ => return !room.free.is_empty(),
        };
        let stands = |cell: &Cell| (0..self.size.blocks).any(|other| other != only && device.blocks[other].cells.iter().any(|twin| twin.now == cell.now));
        !room.free.is_empty() || device.blocks[only].cells.iter().filter(|cell| cell.kept != 0).all(stands)
    }

    /// What a host writes goes to a block of hosts; while none is open, to that of copies. A block stays free then.
    fn programs(&self, room: &Room) -> Vec<Command> {
        let is_spared = room.is_spared() || room.hosts.is_empty() && self.is(Wrong::HostInCopiesAtNone);
        let blocks = match room.hosts.is_empty() || self.is(Wrong::HostInCopiesBesideHosts) {
            true => [&room.hosts[..], &room.copies].concat(),
            false => room.hosts.clone(),
        };
        blocks.iter().filter(|_| is_spared).map(|block| Command::Program { block: *block }).collect()
    }

    /// A block is opened if enough free ones are left beside it. One for copies may take the last ones, if no block is open.
    fn erases(&self, room: &Room) -> Vec<Command> {
        let each = |for_copies: bool| room.free.iter().map(move |block| Command::Erase { block: *block, for_copies });
        let takes_last = match self.wrong {
            Some(Wrong::HostsTakeLast) => true,
            Some(Wrong::HostsTakeLastBesideCopies) => !room.copies.is_empty(),
            Some(Wrong::SecondTakesLast) => !room.hosts.is_empty(),
            _ => false,
        };
        let is_left = room.free.len() > room.needed;
        let mut all = vec![];
        if room.hosts.len() < self.hosts && (is_left || takes_last) {
            all.extend(each(false));
        }
        if room.copies.len() < self.copies && (is_left || room.hosts.is_empty() && room.copies.is_empty()) {
            all.extend(each(true));
        }
        all
    }

    /// Copies to the blocks for them, from closed ones: beside a free block from any, if a page stays open for what the host writes, and otherwise from
    /// one with the fewest sectors.
    fn collecting(&self, device: &Device, room: &Room) -> Vec<Command> {
        let blocks = (0..self.size.blocks).map(|number| (number, &device.blocks[number]));
        let is_victim = |block: &Block| block.open.is_none() && self.is_used(block) && block.kept_pages() > 0;
        let victims: Vec<(usize, usize)> = blocks.filter(|(_, block)| is_victim(block)).map(|(number, block)| (self.count(block), number)).collect();
        let fewest = victims.iter().map(|(count, _)| *count).min();
        if fewest.is_none() && !room.is_spared() && !room.free.is_empty() {
            return room.copies.iter().map(|block| Command::Program { block: *block }).collect();
        }
        let open_pages = |block: &usize| self.size.pages - device.blocks[*block].open.unwrap_or(0) as usize;
        let leaves_page =
            !room.hosts.is_empty() || room.copies.iter().map(open_pages).sum::<usize>() > 1 || self.is(Wrong::CopiesTakeLastPage);
        let may_go = |count: usize| match room.is_spared() {
            true => device.choices > 0 && leaves_page,
            false => count < self.size.pages && Some(count) == fewest || self.is(Wrong::AnyVictimAtNone),
        };
        let pairs = victims.iter().filter(|(count, _)| may_go(*count)).flat_map(|(_, victim)| room.copies.iter().map(move |to| (*victim, *to)));
        pairs.flat_map(|(victim, to)| self.copies(device, victim, to)).collect()
    }

    /// How much of a block is kept: what makes it a victim or not.
    fn count(&self, block: &Block) -> usize {
        if self.is(Wrong::PagesCounted) {
            block.kept_pages()
        } else {
            block.kept_sectors()
        }
    }

    /// The copies of the victim's first page: any of the sectors that are kept there may go first.
    fn copies(&self, device: &Device, victim: usize, block: usize) -> Vec<Command> {
        let page = device.blocks[victim].cells.iter().position(|cell| cell.kept != 0).expect("a victim keeps a page");
        let from = (victim, page);
        let kept = device.cell(from).kept;
        self.size.sectors().filter(|sector| kept >> sector & 1 == 1).map(|sector| Command::Copy { from, sector, block }).collect()
    }

    /// The version that a copy programs: the same one, with its number.
    fn copied(&self, device: &Device, from: Place, sector: u8) -> Page {
        let cell = device.cell(from);
        let mut version = match cell.now {
            Page::Holds(version) => version,
            other => return other,
        };
        let range = !version.has_bytes();
        match self.wrong {
            Some(Wrong::CopyRenumbered) => version.number = device.next_number,
            Some(Wrong::CopyNumberedZero) => version.number = 0,
            Some(Wrong::CopyNarrowed) if range => {
                version.first = cell.kept.trailing_zeros() as u8;
                version.count = 8 - cell.kept.leading_zeros() as u8 - version.first;
            }
            Some(Wrong::CopySplit) if range => {
                version.first = sector;
                version.count = 1;
            }
            _ => {}
        }
        Page::Holds(version)
    }

    fn forgets(&self, device: &Device, from: Place) -> bool {
        self.is(Wrong::TombstoneNotCopied) && device.cell(from).now.version().map_or(false, |version| !version.has_bytes())
    }

    fn number(&self, device: &Device, block: usize) -> u8 {
        if !self.is(Wrong::NumbersApart) {
            return device.next_number;
        }
        device.blocks[block].cells.iter().filter_map(|cell| cell.now.version()).map(|version| version.number).max().unwrap_or(0) + 1
    }

    /// The pages that a command changes, and what it puts there.
    pub fn puts(&self, device: &Device, call: Version, command: Command) -> Vec<(Place, Page)> {
        let open = |block: usize| (block, device.blocks[block].open.unwrap_or(0) as usize);
        match command {
            Command::Program { block } => vec![(open(block), Page::Holds(Version { number: self.number(device, block), ..call }))],
            Command::Copy { from, .. } if self.forgets(device, from) => vec![],
            Command::Copy { from, sector, block } => vec![(open(block), self.copied(device, from, sector))],
            Command::Erase { block, .. } => (0..self.size.pages).map(|page| ((block, page), Page::Erased)).collect(),
            Command::GiveUp { .. } | Command::Nothing | Command::Refused => vec![],
        }
    }

    /// The layer's memory after a command that succeeded; `device` already has what it put.
    pub fn done(&self, device: &mut Device, call: Version, command: Command) {
        match command {
            Command::Program { block } => {
                let place = self.use_page(device, block);
                for other in self.size.places() {
                    let cell = device.cell_mut(other);
                    let ends = self.is(Wrong::WriteEndsTombstone) && cell.now.version().map_or(false, |v| !v.has_bytes());
                    if ends && cell.kept & call.mask() != 0 {
                        cell.kept = 0;
                    }
                    cell.kept &= !call.mask();
                }
                device.cell_mut(place).kept = call.mask();
                device.next_number += 1;
                (device.call, device.choices) = (None, 0);
            }
            Command::Copy { from, sector, .. } if self.forgets(device, from) => device.cell_mut(from).kept &= !(1 << sector),
            Command::Copy { from, sector, block } => {
                let place = self.use_page(device, block);
                device.choices = device.choices.saturating_sub(1);
                device.cell_mut(from).kept &= !(1 << sector);
                device.cell_mut(place).kept = 1 << sector;
                if device.cell(place).now.version().map(|version| version.number) == Some(device.next_number) {
                    device.next_number += 1;
                }
            }
            Command::GiveUp { block } => {
                (device.blocks[block].open, device.blocks[block].for_copies) = (None, false);
                device.choices -= 1;
            }
            Command::Erase { block, for_copies } => {
                (device.blocks[block].open, device.blocks[block].for_copies) = (Some(0), for_copies);
                for cell in device.blocks[block].cells.iter_mut() {
                    cell.kept = 0;
                }
            }
            Command::Nothing | Command::Refused => {
                if self.is(Wrong::TrimInMemory) {
                    for place in self.size.places() {
                        device.cell_mut(place).kept &= !call.mask();
                    }
                }
                (device.call, device.choices) = (None, 0);
            }
        }
    }

    fn use_page(&self, device: &mut Device, block: usize) -> Place {
        let page = device.blocks[block].open.unwrap_or(0);
        device.blocks[block].open = if page as usize + 1 == self.size.pages { None } else { Some(page + 1) };
        device.blocks[block].for_copies &= device.blocks[block].open.is_some();
        (block, page as usize)
    }
}
