//! A host of a shared device, and the page that it holds.
use crate::fault::Given;
use crate::raw::{self, code, Handle, Page};
use crate::shared::Seat;
use crate::{Fault, Geometry, Numbers, Was};
use std::time::Duration;

const WRONG_KIND: u32 = 9;

/// A host, which reads and writes. No call of it waits for another thread.
///
/// ```
/// # use mintlintel::{Fault, Geometry, SharedDevice, Was};
/// # fn main() -> Result<(), Box<dyn std::error::Error>> {
/// let geometry = Geometry { blocks: 24, pages: 8, words: 1, sectors: 100, endurance: 1000, ..Geometry::ONE_LUN };
/// let mut device = SharedDevice::open(geometry, 2, 0)?;
/// let mut writer = device.hosts.remove(0);
/// let mut reader = device.hosts.remove(0);
/// writer.write(3, &[1; 8])?;
/// let mut page = [0; 8];
/// assert_eq!(reader.read(3, &mut page), Ok(Was::Written));
/// assert_eq!(page, [1; 8]);
/// # Ok(())
/// # }
/// ```
///
/// It may go to another thread, and two threads can't share one:
///
/// ```compile_fail,E0277
/// fn is_shared<T: Sync>() {}
/// is_shared::<mintlintel::Host>();
/// ```
#[derive(Debug)]
pub struct Host {
    seat: Seat,
    geometry: Geometry,
}

impl Host {
    pub(crate) fn of(seat: Seat, geometry: Geometry) -> Host {
        Host { seat, geometry }
    }

    /// A call. A `Held` borrows its host alone, so if the host holds a page, the page's `Held` was forgotten (`std::mem::forget`): it is released first.
    fn called(&self, given: Given, call: impl Fn(*mut Handle) -> u32) -> Result<Was, Fault> {
        let handle = self.seat.handle();
        let code = match call(handle) {
            WRONG_KIND => {
                unsafe { raw::mintlintel_host_release(handle) };
                call(handle)
            }
            code => code,
        };
        Was::of(code, given, &self.geometry)
    }

    /// Reads a sector into a buffer of one page. An empty sector, and a fault, leave the buffer unchanged.
    ///
    /// ```
    /// # use mintlintel::{Fault, Geometry, SharedDevice, Was};
    /// # fn main() -> Result<(), Box<dyn std::error::Error>> {
    /// # let geometry = Geometry { blocks: 24, pages: 8, words: 1, sectors: 100, endurance: 1000, ..Geometry::ONE_LUN };
    /// # let mut host = SharedDevice::open(geometry, 1, 0)?.hosts.remove(0);
    /// let mut page = [9; 8];
    /// assert_eq!(host.read(3, &mut page), Ok(Was::Empty));
    /// assert_eq!(page, [9; 8]);
    /// assert_eq!(host.read(100, &mut page), Err(Fault::NoSector { sector: 100, sectors: 100 }));
    /// assert_eq!(host.read(3, &mut page[..7]), Err(Fault::NotAPage { bytes: 7, page_bytes: 8 }));
    /// # Ok(())
    /// # }
    /// ```
    pub fn read(&mut self, sector: u32, out: &mut [u8]) -> Result<Was, Fault> {
        let (start, length) = (out.as_mut_ptr(), out.len());
        self.called(Given::Page(sector, length), |handle| unsafe { raw::mintlintel_host_read(handle, sector, start, length) })
    }

    /// Writes a page to a sector. Returns what the sector was. `Fault::NoBlock` says that no block is free: let a broom erase one.
    ///
    /// ```
    /// # use mintlintel::{Fault, Geometry, SharedDevice, Was};
    /// # fn main() -> Result<(), Box<dyn std::error::Error>> {
    /// # let geometry = Geometry { blocks: 24, pages: 8, words: 1, sectors: 100, endurance: 1000, ..Geometry::ONE_LUN };
    /// # let mut host = SharedDevice::open(geometry, 1, 0)?.hosts.remove(0);
    /// assert_eq!(host.write(3, &[1; 8]), Ok(Was::Empty));
    /// while host.write(3, &[2; 8]) == Ok(Was::Written) {}
    /// assert_eq!(host.write(3, &[2; 8]), Err(Fault::NoBlock));
    /// # Ok(())
    /// # }
    /// ```
    pub fn write(&mut self, sector: u32, page: &[u8]) -> Result<Was, Fault> {
        let given = Given::Page(sector, page.len());
        self.called(given, |handle| unsafe { raw::mintlintel_host_write(handle, sector, page.as_ptr(), page.len()) })
    }

    /// Writes a page to a sector as `write` does. While no block is free it pauses and tries again, up to this long; `Fault::NoBlock` then says that
    /// none came free. Hosts that try again without a pause keep each other and the brooms from going on.
    ///
    /// ```
    /// # use mintlintel::{Fault, Geometry, SharedDevice, Was};
    /// # use std::time::Duration;
    /// # fn main() -> Result<(), Box<dyn std::error::Error>> {
    /// # let geometry = Geometry { blocks: 24, pages: 8, words: 1, sectors: 100, endurance: 1000, ..Geometry::ONE_LUN };
    /// # let mut device = SharedDevice::open(geometry, 1, 1)?;
    /// # let (host, broom) = (&mut device.hosts[0], &mut device.brooms[0]);
    /// while host.write(3, &[2; 8]).is_ok() {}
    /// assert_eq!(host.write_within(3, &[2; 8], Duration::from_millis(5)), Err(Fault::NoBlock));
    /// broom.collect(4)?;
    /// assert_eq!(host.write_within(3, &[2; 8], Duration::from_secs(5)), Ok(Was::Written));
    /// # Ok(())
    /// # }
    /// ```
    pub fn write_within(&mut self, sector: u32, page: &[u8], within: Duration) -> Result<Was, Fault> {
        let (start, length) = (page.as_ptr(), page.len());
        let milliseconds = u32::try_from(within.as_millis()).unwrap_or(u32::MAX);
        self.called(Given::Page(sector, length), |handle| unsafe { raw::mintlintel_write_within(handle, sector, start, length, milliseconds) })
    }

    /// Writes a page to a sector if it is empty. `Written` says that it was not, and has stayed as it was; a page is used up.
    ///
    /// ```
    /// # use mintlintel::{Geometry, SharedDevice, Was};
    /// # fn main() -> Result<(), Box<dyn std::error::Error>> {
    /// # let geometry = Geometry { blocks: 24, pages: 8, words: 1, sectors: 100, endurance: 1000, ..Geometry::ONE_LUN };
    /// # let mut host = SharedDevice::open(geometry, 1, 0)?.hosts.remove(0);
    /// assert_eq!(host.write_new(3, &[1; 8]), Ok(Was::Empty));
    /// assert_eq!(host.write_new(3, &[2; 8]), Ok(Was::Written));
    /// let mut page = [0; 8];
    /// host.read(3, &mut page)?;
    /// assert_eq!(page, [1; 8]);
    /// # Ok(())
    /// # }
    /// ```
    pub fn write_new(&mut self, sector: u32, page: &[u8]) -> Result<Was, Fault> {
        let given = Given::Page(sector, page.len());
        self.called(given, |handle| unsafe { raw::mintlintel_host_write_new(handle, sector, page.as_ptr(), page.len()) })
    }

    /// Empties a sector. Returns what it was.
    ///
    /// ```
    /// # use mintlintel::{Geometry, SharedDevice, Was};
    /// # fn main() -> Result<(), Box<dyn std::error::Error>> {
    /// # let geometry = Geometry { blocks: 24, pages: 8, words: 1, sectors: 100, endurance: 1000, ..Geometry::ONE_LUN };
    /// # let mut host = SharedDevice::open(geometry, 1, 0)?.hosts.remove(0);
    /// host.write(3, &[1; 8])?;
    /// assert_eq!(host.trim(3), Ok(Was::Written));
    /// assert_eq!(host.trim(3), Ok(Was::Empty));
    /// # Ok(())
    /// # }
    /// ```
    pub fn trim(&mut self, sector: u32) -> Result<Was, Fault> {
        self.called(Given::Sector(sector), |handle| unsafe { raw::mintlintel_host_trim(handle, sector) })
    }

    /// Whether a sector is written, by one look at its entry in the map. No page is read.
    ///
    /// ```
    /// # use mintlintel::{Fault, Geometry, SharedDevice, Was};
    /// # fn main() -> Result<(), Box<dyn std::error::Error>> {
    /// # let geometry = Geometry { blocks: 24, pages: 8, words: 1, sectors: 100, endurance: 1000, ..Geometry::ONE_LUN };
    /// # let mut host = SharedDevice::open(geometry, 1, 0)?.hosts.remove(0);
    /// assert_eq!(host.look(3), Ok(Was::Empty));
    /// host.write(3, &[1; 8])?;
    /// assert_eq!(host.look(3), Ok(Was::Written));
    /// assert_eq!(host.look(100), Err(Fault::NoSector { sector: 100, sectors: 100 }));
    /// # Ok(())
    /// # }
    /// ```
    pub fn look(&self, sector: u32) -> Result<Was, Fault> {
        self.called(Given::Sector(sector), |handle| unsafe { raw::mintlintel_host_look(handle, sector) })
    }

    /// Holds the page that has the sector's value, or `None` for an empty sector. Its block is not erased while it is held.
    ///
    /// ```
    /// # use mintlintel::{Geometry, SharedDevice};
    /// # fn main() -> Result<(), Box<dyn std::error::Error>> {
    /// # let geometry = Geometry { blocks: 24, pages: 8, words: 1, sectors: 100, endurance: 1000, ..Geometry::ONE_LUN };
    /// # let mut host = SharedDevice::open(geometry, 1, 0)?.hosts.remove(0);
    /// assert!(host.hold(3)?.is_none());
    /// host.write(3, &[1; 8])?;
    /// assert!(host.hold(3)?.is_some());
    /// # Ok(())
    /// # }
    /// ```
    pub fn hold(&mut self, sector: u32) -> Result<Option<Held<'_>>, Fault> {
        match self.called(Given::Sector(sector), |handle| unsafe { raw::mintlintel_host_hold(handle, sector) })? {
            Was::Empty => Ok(None),
            Was::Written => Ok(Some(Held { host: self })),
        }
    }

    /// The device's geometry.
    pub fn geometry(&self) -> Result<Geometry, Fault> {
        Ok(self.numbers()?.geometry)
    }

    /// The device's numbers.
    pub fn numbers(&self) -> Result<Numbers, Fault> {
        self.seat.numbers(&self.geometry)
    }
}

/// The place of a held page: its block, in this generation of the block.
///
/// ```
/// # use mintlintel::{Geometry, PagePlace, SharedDevice};
/// # fn main() -> Result<(), Box<dyn std::error::Error>> {
/// # let geometry = Geometry { blocks: 24, pages: 8, words: 1, sectors: 100, endurance: 1000, ..Geometry::ONE_LUN };
/// # let mut host = SharedDevice::open(geometry, 1, 0)?.hosts.remove(0);
/// host.write(3, &[1; 8])?;
/// let PagePlace { block, generation } = host.hold(3)?.ok_or("sector 3 is written")?.place()?;
/// assert!(block < 24 && generation == 0);
/// # Ok(())
/// # }
/// ```
#[derive(Clone, Copy, Debug, PartialEq, Eq)]
pub struct PagePlace {
    pub block: u32,
    pub generation: u32,
}

/// A page that a host holds, released when it is dropped.
///
/// ```
/// # use mintlintel::{Geometry, SharedDevice};
/// # fn main() -> Result<(), Box<dyn std::error::Error>> {
/// # let geometry = Geometry { blocks: 24, pages: 8, words: 1, sectors: 100, endurance: 1000, ..Geometry::ONE_LUN };
/// let mut device = SharedDevice::open(geometry, 2, 0)?;
/// let mut reader = device.hosts.remove(0);
/// let mut writer = device.hosts.remove(0);
/// writer.write(3, &[1; 8])?;
/// let held = reader.hold(3)?.ok_or("sector 3 is written")?;
/// writer.write(3, &[2; 8])?;
/// let mut page = [0; 8];
/// held.copy(&mut page)?;
/// assert_eq!(page, [1; 8]);
/// # Ok(())
/// # }
/// ```
///
/// While it is there, its host makes no other call:
///
/// ```compile_fail,E0499
/// # use mintlintel::{Fault, Host};
/// fn two_calls(host: &mut Host) -> Result<(), Fault> {
///     let held = host.hold(3)?;
///     host.trim(3)?;
///     drop(held);
///     Ok(())
/// }
/// ```
///
/// Two threads can't share one:
///
/// ```compile_fail,E0277
/// fn is_shared<T: Sync>() {}
/// is_shared::<mintlintel::Held<'static>>();
/// ```
#[derive(Debug)]
pub struct Held<'a> {
    host: &'a mut Host,
}

impl Held<'_> {
    /// The page, the same each time.
    ///
    /// ```
    /// # use mintlintel::{Fault, Geometry, SharedDevice};
    /// # fn main() -> Result<(), Box<dyn std::error::Error>> {
    /// # let geometry = Geometry { blocks: 24, pages: 8, words: 1, sectors: 100, endurance: 1000, ..Geometry::ONE_LUN };
    /// # let mut host = SharedDevice::open(geometry, 1, 0)?.hosts.remove(0);
    /// host.write(3, &[1; 8])?;
    /// let held = host.hold(3)?.ok_or("sector 3 is written")?;
    /// let mut page = [0; 8];
    /// held.copy(&mut page)?;
    /// assert_eq!(page, [1; 8]);
    /// assert_eq!(held.copy(&mut page[..7]), Err(Fault::NotAPage { bytes: 7, page_bytes: 8 }));
    /// # Ok(())
    /// # }
    /// ```
    pub fn copy(&self, out: &mut [u8]) -> Result<(), Fault> {
        match unsafe { raw::mintlintel_host_copy(self.host.seat.handle(), out.as_mut_ptr(), out.len()) } {
            code::WRITTEN => Ok(()),
            other => Err(Fault::of(other, Given::Page(0, out.len()), &self.host.geometry)),
        }
    }

    /// Word i of the page: its eight bytes as a little-endian number.
    ///
    /// ```
    /// # use mintlintel::{Fault, Geometry, SharedDevice};
    /// # fn main() -> Result<(), Box<dyn std::error::Error>> {
    /// # let geometry = Geometry { blocks: 24, pages: 8, words: 1, sectors: 100, endurance: 1000, ..Geometry::ONE_LUN };
    /// # let mut host = SharedDevice::open(geometry, 1, 0)?.hosts.remove(0);
    /// host.write(3, &77u64.to_le_bytes())?;
    /// let held = host.hold(3)?.ok_or("sector 3 is written")?;
    /// assert_eq!(held.word(0), Ok(77));
    /// assert_eq!(held.word(1), Err(Fault::NoSuchWord { word: 1, words: 1 }));
    /// # Ok(())
    /// # }
    /// ```
    pub fn word(&self, i: u32) -> Result<u64, Fault> {
        let mut word = 0;
        Fault::check(unsafe { raw::mintlintel_host_word(self.host.seat.handle(), i, &mut word) }, Given::Word(i), &self.host.geometry)?;
        Ok(word)
    }

    /// The place of the page.
    pub fn place(&self) -> Result<PagePlace, Fault> {
        let mut page = Page::default();
        Fault::check(unsafe { raw::mintlintel_host_held(self.host.seat.handle(), &mut page) }, Given::Nothing, &self.host.geometry)?;
        Ok(PagePlace {
            block: page.block,
            generation: page.generation,
        })
    }
}

impl Drop for Held<'_> {
    fn drop(&mut self) {
        unsafe { raw::mintlintel_host_release(self.host.seat.handle()) };
    }
}
