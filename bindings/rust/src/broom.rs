//! A broom of a shared device.
use crate::fault::Given;
use crate::raw::{self, code};
use crate::shared::Seat;
use crate::{Fault, Geometry, Numbers};

/// What a drain did.
///
/// ```
/// # use mintlintel::{Drain, Geometry, SharedDevice};
/// # fn main() -> Result<(), Box<dyn std::error::Error>> {
/// # let geometry = Geometry { blocks: 24, pages: 8, words: 1, sectors: 100, endurance: 1000, ..Geometry::ONE_LUN };
/// let mut device = SharedDevice::open(geometry, 1, 1)?;
/// assert_eq!(device.brooms[0].drain()?, Drain::NothingToGain);
/// while device.hosts[0].write(3, &[1; 8]).is_ok() {}
/// match device.brooms[0].drain()? {
///     Drain::Drained { moved, .. } => assert_eq!(moved, 0),
///     other => panic!("{other:?}"),
/// }
/// # Ok(())
/// # }
/// ```
#[derive(Clone, Copy, Debug, PartialEq, Eq)]
pub enum Drain {
    /// The block has no live page any more: erase it.
    Drained { block: u32, moved: u32 },
    /// No block is closed, or the best one is all live: let hosts write first.
    NothingToGain,
    /// The broom has no block to copy to: erase something, or restock. Of `drain_dead`: the block has a live page, or isn't
    /// closed any more.
    NoSpare,
    /// The state of the block changed in between: try again.
    Lost,
}

impl Drain {
    fn of(code: u32, block: u32, moved: u32, geometry: &Geometry) -> Result<Drain, Fault> {
        match code {
            code::DONE => Ok(Drain::Drained { block, moved }),
            code::NOTHING_TO_GAIN => Ok(Drain::NothingToGain),
            code::NO_SPARE => Ok(Drain::NoSpare),
            code::LOST => Ok(Drain::Lost),
            other => Err(Fault::of(other, Given::Nothing, geometry)),
        }
    }
}

/// What a collection did.
#[derive(Clone, Copy, Debug, PartialEq, Eq)]
pub struct Collected {
    /// Blocks that came free.
    pub freed: u32,
    /// Blocks that were erased and are the broom's spare now.
    pub kept: u32,
    /// Free blocks that became the broom's spare.
    pub restocked: u32,
    /// Blocks whose last erase it was.
    pub retired: u32,
    /// Live pages that were moved.
    pub moved: u32,
    /// Erases that a reader of the block put off.
    pub pinned: u32,
    pub ended: Collect,
}

/// Why a collection ended. Unless it has reached its goal, pause before the next one.
#[derive(Clone, Copy, Debug, PartialEq, Eq)]
pub enum Collect {
    Done,
    /// There is nothing more to gain until hosts write or trim.
    NothingToGain,
    /// The broom has no spare, no block is free, and each closed one has a live page.
    NoSpare,
    /// What is left to erase is being read.
    Pinned,
    /// No block is free, and none can become free while each closed one has a live page: the broom is done, unless hosts go on to trim.
    Exhausted,
}

/// What a block is, from one erase to the next. After its last one it is retired for ever.
#[derive(Clone, Copy, Debug, PartialEq, Eq)]
pub enum Phase {
    Free,
    /// A host or a broom programs it, or a broom keeps it as its spare.
    Open,
    Closed,
    /// A broom moves its live pages away.
    Victim,
    Drained,
    Erasing,
    Retired,
}

impl Phase {
    fn of(number: u32) -> Phase {
        match number {
            0 => Phase::Free,
            1 => Phase::Open,
            2 => Phase::Closed,
            3 => Phase::Victim,
            4 => Phase::Drained,
            5 => Phase::Erasing,
            _ => Phase::Retired,
        }
    }
}

/// A block, as it was loaded.
#[derive(Clone, Copy, Debug, PartialEq, Eq)]
pub struct State {
    pub phase: Phase,
    /// Hosts that read it.
    pub readers: u32,
    /// Pages that are written since its last erase; of a retired block, before it.
    pub written: u32,
    pub erases: u32,
}

/// How many blocks are in each phase.
#[derive(Clone, Copy, Debug, PartialEq, Eq)]
pub struct BlockCounts {
    /// Of all blocks together.
    pub erases: u64,
    pub free: u32,
    pub open: u32,
    pub closed: u32,
    pub victims: u32,
    pub drained: u32,
    pub erasing: u32,
    pub retired: u32,
    /// Whether the broom that has counted has a spare.
    pub has_spare: bool,
    /// No block is free, and none can become free while each closed one has a live page. It is known only of a device with one broom.
    pub is_exhausted: bool,
}

/// What a broom has done since its open.
#[derive(Clone, Copy, Debug, PartialEq, Eq)]
pub struct Tally {
    /// Pages that it programmed for copies.
    pub programs: u64,
    /// Those of them that became their sectors' pages. The others' sectors were written or trimmed meanwhile.
    pub moved: u64,
    /// Blocks that it erased.
    pub erases: u64,
}

/// What an erase did.
///
/// ```
/// # use mintlintel::{Drain, Erase, Geometry, SharedDevice};
/// # fn main() -> Result<(), Box<dyn std::error::Error>> {
/// # let geometry = Geometry { blocks: 24, pages: 8, words: 1, sectors: 100, endurance: 1000, ..Geometry::ONE_LUN };
/// let mut device = SharedDevice::open(geometry, 1, 1)?;
/// assert_eq!(device.brooms[0].erase(0)?, Erase::Stale);
/// while device.hosts[0].write(3, &[1; 8]).is_ok() {}
/// if let Drain::Drained { block, .. } = device.brooms[0].drain()? {
///     assert_eq!(device.brooms[0].erase(block)?, Erase::Erased { kept: false });
/// }
/// # Ok(())
/// # }
/// ```
#[derive(Clone, Copy, Debug, PartialEq, Eq)]
pub enum Erase {
    /// The block is free, or the broom's spare.
    Erased { kept: bool },
    /// It was the block's last erase.
    Retired,
    /// Somebody reads the block: try again later.
    Pinned,
    /// The block isn't drained: forget it.
    Stale,
}

/// A broom, which drains and erases blocks while hosts read and write.
///
/// ```
/// # use mintlintel::{Fault, Geometry, SharedDevice};
/// # fn main() -> Result<(), Box<dyn std::error::Error>> {
/// # let geometry = Geometry { blocks: 24, pages: 8, words: 1, sectors: 100, endurance: 1000, ..Geometry::ONE_LUN };
/// let mut device = SharedDevice::open(geometry, 1, 1)?;
/// let (host, broom) = (&mut device.hosts[0], &mut device.brooms[0]);
/// for number in 0..1000u64 {
///     while host.write((number % 100) as u32, &number.to_le_bytes()) == Err(Fault::NoBlock) {
///         assert!(broom.collect(4)?.freed > 0, "the device is full, or worn out");
///     }
/// }
/// let mut page = [0; 8];
/// host.read(99, &mut page)?;
/// assert_eq!(page, 999u64.to_le_bytes());
/// # Ok(())
/// # }
/// ```
///
/// It may go to another thread, and two threads can't share one:
///
/// ```compile_fail,E0277
/// fn is_shared<T: Sync>() {}
/// is_shared::<mintlintel::Broom>();
/// ```
#[derive(Debug)]
pub struct Broom {
    seat: Seat,
    geometry: Geometry,
}

impl Broom {
    pub(crate) fn of(seat: Seat, geometry: Geometry) -> Broom {
        Broom { seat, geometry }
    }

    /// Collects until `goal` blocks have come free, or there is nothing more to gain now. It erases what is drained, also by other brooms, drains the
    /// blocks with the fewest live pages, and takes a free block as its spare if it has lost its own, or else one
    /// without live pages. It makes one survey of the device at most, and one more each time that it looks for such a block.
    ///
    /// ```
    /// # use mintlintel::{Collect, Collected, Geometry, SharedDevice};
    /// # fn main() -> Result<(), Box<dyn std::error::Error>> {
    /// # let geometry = Geometry { blocks: 24, pages: 8, words: 1, sectors: 100, endurance: 1000, ..Geometry::ONE_LUN };
    /// # let mut device = SharedDevice::open(geometry, 1, 1)?;
    /// # let (host, broom) = (&mut device.hosts[0], &mut device.brooms[0]);
    /// while host.write(3, &[1; 8]).is_ok() {}
    /// let Collected { freed, ended, .. } = broom.collect(4)?;
    /// assert_eq!((freed, ended), (4, Collect::Done));
    /// assert_eq!(broom.collect(100)?.ended, Collect::NothingToGain);
    /// # Ok(())
    /// # }
    /// ```
    pub fn collect(&mut self, goal: u32) -> Result<Collected, Fault> {
        let mut did = raw::Collected::default();
        let ended = match unsafe { raw::mintlintel_collect(self.seat.handle(), goal, &mut did) } {
            code::DONE => Collect::Done,
            code::NOTHING_TO_GAIN => Collect::NothingToGain,
            code::NO_SPARE => Collect::NoSpare,
            code::PINNED => Collect::Pinned,
            code::EXHAUSTED => Collect::Exhausted,
            other => return Err(Fault::of(other, Given::Nothing, &self.geometry)),
        };
        let raw::Collected { freed, kept, restocked, retired, moved, pinned } = did;
        Ok(Collected { freed, kept, restocked, retired, moved, pinned, ended })
    }

    /// Moves the live pages out of the closed block with the fewest. The block is to be erased.
    ///
    /// ```
    /// # use mintlintel::{Drain, Geometry, SharedDevice};
    /// # fn main() -> Result<(), Box<dyn std::error::Error>> {
    /// # let geometry = Geometry { blocks: 24, pages: 8, words: 1, sectors: 100, endurance: 1000, ..Geometry::ONE_LUN };
    /// # let mut device = SharedDevice::open(geometry, 1, 1)?;
    /// # let (host, broom) = (&mut device.hosts[0], &mut device.brooms[0]);
    /// for sector in [3, 3, 3, 3, 3, 3, 3, 4, 5] {
    ///     host.write(sector, &[1; 8])?;
    /// }
    /// assert!(matches!(broom.drain()?, Drain::Drained { moved: 2, .. }));
    /// # Ok(())
    /// # }
    /// ```
    pub fn drain(&mut self) -> Result<Drain, Fault> {
        let (mut block, mut moved) = (0, 0);
        let code = unsafe { raw::mintlintel_broom_drain(self.seat.handle(), &mut block, &mut moved) };
        Drain::of(code, block, moved, &self.geometry)
    }

    /// Drains the next block by the survey of this broom's last `drain`, without a new survey: of the blocks that were closed then, and that
    /// the broom has neither drained nor found changed nor been asked to erase since, the one with the fewest live pages then.
    ///
    /// ```
    /// # use mintlintel::{Drain, Geometry, SharedDevice};
    /// # fn main() -> Result<(), Box<dyn std::error::Error>> {
    /// # let geometry = Geometry { blocks: 24, pages: 8, words: 1, sectors: 100, endurance: 1000, ..Geometry::ONE_LUN };
    /// # let mut device = SharedDevice::open(geometry, 1, 1)?;
    /// # let (host, broom) = (&mut device.hosts[0], &mut device.brooms[0]);
    /// assert_eq!(broom.drain_next()?, Drain::NothingToGain);
    /// while host.write(3, &[1; 8]).is_ok() {}
    /// assert!(matches!(broom.drain()?, Drain::Drained { .. }));
    /// let mut drained = 1;
    /// while let Drain::Drained { .. } = broom.drain_next()? {
    ///     drained += 1;
    /// }
    /// assert_eq!(drained, 23);
    /// # Ok(())
    /// # }
    /// ```
    pub fn drain_next(&mut self) -> Result<Drain, Fault> {
        let (mut block, mut moved) = (0, 0);
        let code = unsafe { raw::mintlintel_broom_drain_next(self.seat.handle(), &mut block, &mut moved) };
        Drain::of(code, block, moved, &self.geometry)
    }

    /// Drains the closed block with the fewest live pages, by a new survey, if it has none. No page moves, so no spare is needed: after a trim
    /// a broom without one can go on. `NoSpare` says that the block has a live page, or isn't closed any more.
    ///
    /// ```
    /// # use mintlintel::{Drain, Geometry, SharedDevice};
    /// # fn main() -> Result<(), Box<dyn std::error::Error>> {
    /// # let geometry = Geometry { blocks: 24, pages: 8, words: 1, sectors: 100, endurance: 1000, ..Geometry::ONE_LUN };
    /// # let mut device = SharedDevice::open(geometry, 1, 1)?;
    /// # let (host, broom) = (&mut device.hosts[0], &mut device.brooms[0]);
    /// for sector in [3, 3, 3, 3, 3, 3, 3, 4] {
    ///     host.write(sector, &[1; 8])?;
    /// }
    /// assert_eq!(broom.drain_dead()?, Drain::NoSpare);
    /// host.trim(3)?;
    /// host.trim(4)?;
    /// assert_eq!(broom.drain_dead()?, Drain::Drained { block: 0, moved: 0 });
    /// # Ok(())
    /// # }
    /// ```
    pub fn drain_dead(&mut self) -> Result<Drain, Fault> {
        let (mut block, mut moved) = (0, 0);
        let code = unsafe { raw::mintlintel_broom_drain_dead(self.seat.handle(), &mut block, &mut moved) };
        Drain::of(code, block, moved, &self.geometry)
    }

    /// The state of a block, by one load. The broom keeps the survey of its last `drain`.
    ///
    /// ```
    /// # use mintlintel::{Fault, Geometry, Phase, SharedDevice, State};
    /// # fn main() -> Result<(), Box<dyn std::error::Error>> {
    /// # let geometry = Geometry { blocks: 24, pages: 8, words: 1, sectors: 100, endurance: 1000, ..Geometry::ONE_LUN };
    /// # let mut device = SharedDevice::open(geometry, 1, 1)?;
    /// # let (host, broom) = (&mut device.hosts[0], &mut device.brooms[0]);
    /// host.write(3, &[1; 8])?;
    /// assert_eq!(broom.block(0)?, State { phase: Phase::Open, readers: 0, written: 1, erases: 0 });
    /// assert_eq!(broom.block(1)?.phase, Phase::Free);
    /// assert_eq!(broom.block(24), Err(Fault::NoSuchBlock { block: 24, blocks: 24 }));
    /// # Ok(())
    /// # }
    /// ```
    pub fn block(&self, block: u32) -> Result<State, Fault> {
        let mut state = raw::State::default();
        match unsafe { raw::mintlintel_broom_block(self.seat.handle(), block, &mut state) } {
            code::DONE => Ok(State { phase: Phase::of(state.phase), readers: state.readers, written: state.written, erases: state.erases }),
            other => Err(Fault::of(other, Given::Block(block), &self.geometry)),
        }
    }

    /// How many blocks are in each phase: each block is loaded once, while other threads go on. The broom keeps its survey.
    ///
    /// ```
    /// # use mintlintel::{Geometry, SharedDevice};
    /// # fn main() -> Result<(), Box<dyn std::error::Error>> {
    /// # let geometry = Geometry { blocks: 24, pages: 8, words: 1, sectors: 100, endurance: 1000, ..Geometry::ONE_LUN };
    /// # let mut device = SharedDevice::open(geometry, 1, 1)?;
    /// # let (host, broom) = (&mut device.hosts[0], &mut device.brooms[0]);
    /// while host.write(3, &[1; 8]).is_ok() {}
    /// let counts = broom.counts()?;
    /// assert_eq!((counts.free, counts.closed, counts.has_spare, counts.is_exhausted), (0, 23, true, false));
    /// # Ok(())
    /// # }
    /// ```
    pub fn counts(&self) -> Result<BlockCounts, Fault> {
        let mut counts = raw::BlockCounts::default();
        let is_exhausted = match unsafe { raw::mintlintel_broom_counts(self.seat.handle(), &mut counts) } {
            code::DONE => false,
            code::EXHAUSTED => true,
            other => return Err(Fault::of(other, Given::Nothing, &self.geometry)),
        };
        let raw::BlockCounts { erases, free, open, closed, victims, drained, erasing, retired, spares } = counts;
        Ok(BlockCounts { erases, free, open, closed, victims, drained, erasing, retired, has_spare: spares > 0, is_exhausted })
    }

    /// What the broom has done since its open.
    ///
    /// ```
    /// # use mintlintel::{Geometry, SharedDevice, Tally};
    /// # fn main() -> Result<(), Box<dyn std::error::Error>> {
    /// # let geometry = Geometry { blocks: 24, pages: 8, words: 1, sectors: 100, endurance: 1000, ..Geometry::ONE_LUN };
    /// # let mut device = SharedDevice::open(geometry, 1, 1)?;
    /// # let (host, broom) = (&mut device.hosts[0], &mut device.brooms[0]);
    /// for sector in [3, 3, 3, 3, 3, 3, 3, 4, 5] {
    ///     host.write(sector, &[1; 8])?;
    /// }
    /// assert_eq!(broom.collect(1)?.kept, 1);
    /// assert_eq!(broom.tally()?, Tally { programs: 2, moved: 2, erases: 1 });
    /// # Ok(())
    /// # }
    /// ```
    pub fn tally(&self) -> Result<Tally, Fault> {
        let mut tally = raw::Tally::default();
        Fault::check(unsafe { raw::mintlintel_broom_tally(self.seat.handle(), &mut tally) }, Given::Nothing, &self.geometry)?;
        let raw::Tally { programs, moved, erases } = tally;
        Ok(Tally { programs, moved, erases })
    }

    /// Erases a drained block that nobody reads.
    ///
    /// ```
    /// # use mintlintel::{Drain, Erase, Fault, Geometry, SharedDevice};
    /// # fn main() -> Result<(), Box<dyn std::error::Error>> {
    /// # let geometry = Geometry { blocks: 24, pages: 8, words: 1, sectors: 100, endurance: 1000, ..Geometry::ONE_LUN };
    /// # let mut broom = SharedDevice::open(geometry, 1, 1)?.brooms.remove(0);
    /// assert_eq!(broom.erase(0), Ok(Erase::Stale));
    /// assert_eq!(broom.erase(24), Err(Fault::NoSuchBlock { block: 24, blocks: 24 }));
    /// # Ok(())
    /// # }
    /// ```
    pub fn erase(&mut self, block: u32) -> Result<Erase, Fault> {
        match unsafe { raw::mintlintel_broom_erase(self.seat.handle(), block) } {
            code::DONE => Ok(Erase::Erased { kept: false }),
            code::KEPT => Ok(Erase::Erased { kept: true }),
            code::RETIRED => Ok(Erase::Retired),
            code::PINNED => Ok(Erase::Pinned),
            code::STALE => Ok(Erase::Stale),
            other => Err(Fault::of(other, Given::Block(block), &self.geometry)),
        }
    }

    /// Makes a free block the spare of a broom that has none. Returns whether the broom has a spare now.
    ///
    /// ```
    /// # use mintlintel::{Drain, Geometry, SharedDevice};
    /// # fn main() -> Result<(), Box<dyn std::error::Error>> {
    /// # let geometry = Geometry { blocks: 24, pages: 8, words: 1, sectors: 100, endurance: 1000, ..Geometry::ONE_LUN };
    /// # let mut device = SharedDevice::open(geometry, 1, 1)?;
    /// # let (host, broom) = (&mut device.hosts[0], &mut device.brooms[0]);
    /// for sector in [3, 3, 3, 3, 3, 3, 3, 4] {
    ///     host.write(sector, &[1; 8])?;
    /// }
    /// assert!(matches!(broom.drain()?, Drain::Drained { moved: 2, .. }));
    /// assert_eq!(broom.drain()?, Drain::NoSpare);
    /// assert!(broom.restock()?);
    /// assert_eq!(broom.drain()?, Drain::NothingToGain);
    /// # Ok(())
    /// # }
    /// ```
    pub fn restock(&mut self) -> Result<bool, Fault> {
        match unsafe { raw::mintlintel_broom_restock(self.seat.handle()) } {
            code::DONE => Ok(true),
            code::NO_SPARE => Ok(false),
            other => Err(Fault::of(other, Given::Nothing, &self.geometry)),
        }
    }

    /// The device's geometry.
    pub fn geometry(&self) -> Result<Geometry, Fault> {
        Ok(self.numbers()?.geometry)
    }

    /// The device's numbers.
    pub fn numbers(&self) -> Result<Numbers, Fault> {
        self.seat.numbers(&self.geometry)
    }
}
