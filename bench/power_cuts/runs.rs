//! The runs: a device, what may happen to it, and how its run has to end.

use crate::explore::{Model, Promise, Start, Sync};
use crate::flash::Size;
use crate::layer::{Freed, Rule, Wrong, WRONG};

#[derive(Clone, Copy, PartialEq, Eq, Debug)]
pub enum Expected {
    Holds,
    /// The device has too many states to visit them all.
    NothingFound,
    Refused,
}

pub struct Run {
    pub name: String,
    pub model: Model,
    pub start: Start,
    /// The most states, or how many steps of one that walks.
    pub limit: usize,
    pub walks: bool,
    pub long: bool,
    pub expected: Expected,
}

const MANY: usize = 30_000_000;

fn run(blocks: usize, pages: usize, sectors: usize) -> Run {
    let size = Size { blocks, pages, sectors };
    let rule = Rule::of(size);
    let promise = if sectors > 3 { Promise::EachSector } else { Promise::Whole };
    let model = Model { rule, sync: Sync::Always, promise, kills: false, range: 1, values: 2, by_overlap: true, decays: false };
    Run { name: size.to_string(), model, start: Start::Blank, limit: MANY, walks: false, long: false, expected: Expected::Holds }
}

impl Run {
    fn named(mut self, words: &str) -> Run {
        self.name = format!("{} {words}", self.name);
        self
    }

    fn ranges(mut self, longest: u8) -> Run {
        self.model.range = longest;
        self.named(&format!("ranges of {longest}"))
    }

    fn failures(mut self, failures: u8) -> Run {
        self.model.rule.failures = failures;
        self.named(&format!("failures {failures}"))
    }

    /// The rule of the proved core, and blocks for as many failures that aren't in use before. Tombstones are dropped, as of an image.
    fn reserve(mut self, failures: u8) -> Run {
        self.model.rule.failures = failures;
        self.model.rule.has_reserve = true;
        self.model.rule.freed = Freed::One;
        self.named(&format!("reserve {failures}"))
    }

    fn freed(mut self, freed: Freed) -> Run {
        self.model.rule.freed = freed;
        self.named(&format!("freed {freed:?}"))
    }

    /// As over a chip whose half-erased pages may not read the same each time.
    fn keeps_tombstones(mut self) -> Run {
        self.model.rule.drops_tombstones = false;
        self.named("tombstones kept")
    }

    fn starts(mut self, start: Start) -> Run {
        self.start = start;
        self.named(&format!("{start:?}"))
    }

    fn one_value(mut self) -> Run {
        self.model.values = 1;
        self
    }

    fn synced(mut self, sync: Sync, promise: Promise, words: &str) -> Run {
        self.model.sync = sync;
        self.model.promise = promise;
        self.model.rule.reads_to_gap = promise == Promise::Whole && sync == Sync::FlushAndAfterErase;
        self.named(words)
    }

    fn kills(mut self) -> Run {
        self.model.kills = true;
        self.named("kills")
    }

    fn decays(mut self) -> Run {
        self.model.decays = true;
        self.named("decays")
    }

    /// The rule of the proved core.
    fn core(mut self) -> Run {
        self.model.rule.freed = Freed::One;
        self.named("core")
    }

    /// The rule with so many blocks for hosts, and as many for copies. A call may make one copy that it doesn't need.
    fn hosts(mut self, hosts: usize) -> Run {
        self.model.rule.hosts = hosts;
        self.model.rule.copies = hosts;
        self.model.rule.choices = 1;
        self.named(&format!("hosts {hosts}"))
    }

    /// So many copies, or open blocks that it gives up.
    fn gives_up(mut self, choices: u8) -> Run {
        self.model.rule.choices = choices;
        self.model.rule.gives_up = true;
        self.named("gives up")
    }

    fn side_by_side(mut self) -> Run {
        self.model.sync = Sync::SideBySide;
        self.model.promise = Promise::EachSector;
        self.named("side by side")
    }

    fn walk(mut self, steps: usize) -> Run {
        (self.walks, self.limit, self.expected) = (true, steps, Expected::NothingFound);
        self.named("walk")
    }

    fn wrong(mut self, wrong: Wrong) -> Run {
        self.model.rule.wrong = Some(wrong);
        let renumbers = matches!(wrong, Wrong::CopyRenumbered | Wrong::CopyNarrowed | Wrong::CopySplit | Wrong::NumberAboveKept);
        self.model.by_overlap = !renumbers;
        self.expected = Expected::Refused;
        let name = WRONG.iter().find(|(_, other)| *other == wrong).map_or("", |(name, _)| name);
        self.named(&format!("wrong {name}"))
    }

    fn refused(mut self) -> Run {
        self.expected = Expected::Refused;
        self
    }

    fn long(mut self) -> Run {
        self.long = true;
        self
    }

    fn up_to(mut self, states: usize) -> Run {
        self.limit = states;
        self.expected = Expected::NothingFound;
        self
    }
}

impl Model {
    /// Whether the order of blocks means something: to rules that go by the first or the last page found.
    pub fn keeps_block_order(&self) -> bool {
        matches!(self.rule.wrong, Some(Wrong::FirstFound | Wrong::LastFound | Wrong::TwinBySector))
    }
}

/// Each wrong rule on a small device that shows it.
fn wrong_runs() -> Vec<Run> {
    WRONG.iter().map(|(_, wrong)| on_its_device(*wrong)).collect()
}

fn on_its_device(wrong: Wrong) -> Run {
    let flushed = || run(3, 2, 1).synced(Sync::FlushAndAfterErase, Promise::EachSector, "flush and after erase, each sector");
    match wrong {
        Wrong::FailureIgnored | Wrong::BadBlocksUnread | Wrong::BadBlocksUncounted => run(4, 2, 1).failures(1).wrong(wrong),
        Wrong::BadBlocksDropped | Wrong::BadBlocksUsed | Wrong::ReserveUsed | Wrong::ReserveForgotten => run(4, 2, 3).reserve(1).one_value().wrong(wrong),
        Wrong::OneSpare => run(4, 2, 3).failures(1).one_value().wrong(wrong),
        Wrong::NoSyncBeforeErase | Wrong::FlushesNothing => flushed().wrong(wrong),
        Wrong::RangeFirstSector
        | Wrong::RangeOneMore
        | Wrong::WriteEndsTombstone
        | Wrong::CopySplit
        | Wrong::CopyNarrowed
        | Wrong::CopyRenumbered
        | Wrong::DropsByFirstSector => run(3, 2, 3).ranges(3).wrong(wrong),
        Wrong::PagesCounted => run(4, 2, 5).ranges(3).one_value().starts(Start::Tombstone).wrong(wrong),
        Wrong::LossTakenForTorn => run(3, 2, 2).one_value().core().decays().wrong(wrong),
        Wrong::TornTakenForLoss | Wrong::KeepsBehindGap => run(3, 2, 2).one_value().core().wrong(wrong),
        Wrong::FreesByTwinsBehindGap => run(4, 2, 3).reserve(1).one_value().wrong(wrong),
        Wrong::HostsTakeLast | Wrong::ContinuesCopies | Wrong::OpenTakenForFree => run(4, 2, 3).one_value().core().hosts(1).wrong(wrong),
        Wrong::HostsTakeLastBesideCopies | Wrong::HostInCopiesAtNone | Wrong::AnyVictimAtNone | Wrong::CopiesTakeLastPage => {
            run(3, 2, 3).one_value().core().hosts(1).wrong(wrong)
        }
        Wrong::GivesUpAtNone => run(3, 3, 4).starts(Start::Filled(2)).one_value().core().hosts(1).gives_up(2).wrong(wrong),
        Wrong::SecondTakesLast => run(4, 2, 2).one_value().core().hosts(2).wrong(wrong),
        Wrong::NumbersApart => run(4, 1, 2).core().hosts(2).wrong(wrong),
        Wrong::ErasesBesideCopies => run(4, 2, 3).one_value().core().hosts(1).side_by_side().wrong(wrong),
        Wrong::ErasesBesidePrograms | Wrong::ErasesBesideOthers => run(3, 2, 3).one_value().core().hosts(2).side_by_side().wrong(wrong),
        Wrong::SharesUnsynced | Wrong::HostInCopiesBesideHosts => {
            run(3, 2, 2).one_value().core().hosts(1).synced(Sync::FlushAndAfterErase, Promise::Whole, "flush, whole").wrong(wrong)
        }
        Wrong::AcknowledgesOthers => run(4, 1, 2).core().hosts(2).side_by_side().wrong(wrong),
        Wrong::TwinBySector | Wrong::FreesNoBlock | Wrong::NoReserve => run(3, 2, 3).one_value().wrong(wrong),
        _ => run(3, 2, 2).wrong(wrong),
    }
}

pub fn all() -> Vec<Run> {
    let strong = |run: Run| run.synced(Sync::FlushAndAfterErase, Promise::Whole, "flush and after erase, whole");
    let weak = |run: Run| run.synced(Sync::Flush, Promise::EachSector, "flush, each sector");
    let weaker = |run: Run| run.synced(Sync::FlushAndAfterErase, Promise::EachSector, "flush and after erase, each sector");
    let mut runs = vec![
        run(3, 1, 1),
        run(3, 2, 1),
        run(3, 2, 1).failures(1),
        run(4, 1, 1).reserve(1),
        run(5, 1, 2).reserve(1).one_value(),
        run(5, 1, 1).reserve(2).one_value(),
        run(4, 1, 1).reserve(1).keeps_tombstones(),
        run(5, 1, 2).reserve(1).keeps_tombstones().one_value(),
        run(4, 1, 2),
        run(3, 2, 1).core().decays(),
        run(3, 2, 1).core().keeps_tombstones().decays(),
        run(3, 2, 2).one_value().core().decays(),
        run(4, 1, 1).reserve(1).decays(),
        run(3, 2, 3).one_value().core().decays().long(),
        run(3, 3, 1).one_value().core().decays().long(),
        run(3, 2, 2).ranges(2).long(),
        run(3, 2, 2).ranges(2).keeps_tombstones().long(),
        run(3, 2, 2).ranges(2).one_value().core(),
        run(3, 2, 2).ranges(2).one_value().core().keeps_tombstones().long(),
        run(3, 2, 3).ranges(3).one_value().core().long(),
        run(4, 2, 5).ranges(3).one_value().starts(Start::Tombstone).core().up_to(2_000_000).long(),
        run(4, 2, 1).failures(1).long(),
        weaker(run(3, 2, 1)),
        strong(run(3, 2, 1)),
        run(3, 2, 3).ranges(3).long(),
        run(3, 3, 1).long(),
        run(4, 2, 3).failures(1).one_value().long(),
        run(4, 2, 1).reserve(1).one_value().long(),
        run(4, 2, 1).reserve(1).one_value().keeps_tombstones().long(),
        run(4, 2, 1).reserve(1).long(),
        run(4, 2, 3).reserve(1).one_value().long(),
        run(4, 2, 3).reserve(1).one_value().keeps_tombstones().long(),
        run(5, 2, 3).reserve(2).one_value().up_to(2_000_000).long(),
        run(4, 2, 3).failures(1).freed(Freed::FewestFirst).one_value().long(),
        weak(run(3, 2, 1)).up_to(2_000_000).long(),
        weaker(run(3, 2, 1)).kills().long(),
        weaker(run(3, 2, 2)).long(),
        strong(run(3, 2, 2)).long(),
        strong(run(3, 2, 2).ranges(2)).long(),
        run(4, 3, 5).failures(1).starts(Start::Filled(3)).one_value().up_to(1_000_000).long(),
        run(4, 3, 5).failures(1).freed(Freed::FewestFirst).starts(Start::Filled(3)).one_value().up_to(1_000_000).long(),
        run(4, 2, 3).failures(1).freed(Freed::One).one_value().refused(),
        run(4, 3, 5).failures(1).freed(Freed::Maximal).starts(Start::Filled(3)).one_value().up_to(1_000_000).long(),
    ];
    runs.extend(runs_with_hosts());
    runs.extend(wrong_runs());
    runs
}

/// The rule with blocks for hosts.
fn runs_with_hosts() -> Vec<Run> {
    let one = |blocks: usize, pages: usize, sectors: usize| run(blocks, pages, sectors).core().hosts(1);
    let two = |blocks: usize, pages: usize, sectors: usize| run(blocks, pages, sectors).core().hosts(2);
    let flushed = |run: Run, promise: Promise| run.synced(Sync::FlushAndAfterErase, promise, &format!("flush and after erase, {promise:?}"));
    vec![
        one(3, 2, 1).one_value(),
        one(4, 1, 1).gives_up(1),
        one(4, 1, 2),
        one(5, 1, 2).one_value(),
        one(4, 1, 1).reserve(1).decays(),
        one(4, 1, 1).failures(1),
        two(4, 1, 2),
        two(5, 1, 2).one_value(),
        two(4, 1, 1).reserve(1),
        two(4, 1, 2).side_by_side(),
        two(3, 2, 1).one_value().side_by_side(),
        two(4, 1, 1).reserve(1).side_by_side(),
        two(5, 3, 6).ranges(3).gives_up(2).walk(1_000),
        two(5, 3, 6).ranges(3).side_by_side().walk(2_000),
        flushed(two(4, 1, 2), Promise::Whole).refused(),
        one(3, 2, 1).decays().long(),
        one(3, 2, 2).one_value().decays().long(),
        one(3, 2, 3).one_value().long(),
        one(3, 2, 2).one_value().gives_up(1).long(),
        one(3, 2, 2).ranges(2).one_value().long(),
        one(4, 2, 1).one_value().long(),
        one(4, 2, 1).one_value().reserve(1).long(),
        one(5, 1, 1).reserve(2).long(),
        one(5, 1, 2).one_value().reserve(1).keeps_tombstones().long(),
        flushed(one(3, 2, 1), Promise::EachSector).long(),
        flushed(one(3, 2, 2).one_value(), Promise::Whole).long(),
        flushed(two(4, 1, 2), Promise::EachSector).long(),
        two(3, 2, 2).one_value().long(),
        two(4, 2, 1).one_value().long(),
        two(5, 1, 2).one_value().side_by_side().long(),
        two(5, 1, 2).one_value().reserve(1).side_by_side().long(),
        two(4, 2, 2).one_value().side_by_side().up_to(2_000_000).long(),
        two(5, 2, 3).one_value().side_by_side().up_to(2_000_000).long(),
        two(5, 2, 5).ranges(3).reserve(1).side_by_side().walk(1_000_000).long(),
        two(5, 3, 6).decays().gives_up(2).walk(1_000_000).long(),
    ]
}
