//! A device for one thread.
use crate::fault::Given;
use crate::raw::{self, Handle, Totals};
use crate::{Fault, Geometry, OpenError, Was};
use std::cell::UnsafeCell;

/// Pages programmed for writes, pages relocated, and erase commands.
///
/// ```
/// # use mintlintel::{Counts, Device, Geometry};
/// # fn main() -> Result<(), Box<dyn std::error::Error>> {
/// # let geometry = Geometry { blocks: 8, pages: 4, words: 1, sectors: 20, endurance: 1000, ..Geometry::ONE_LUN };
/// let mut device = Device::open(geometry)?;
/// device.write(3, &[1; 8])?;
/// assert_eq!(device.counts()?, Counts { programs: 1, copies: 0, erases: 0 });
/// # Ok(())
/// # }
/// ```
#[derive(Clone, Copy, Debug, PartialEq, Eq)]
pub struct Counts {
    pub programs: u64,
    pub copies: u64,
    pub erases: u64,
}

/// A block's erase commands, its live pages, and whether it is retired.
///
/// ```
/// # use mintlintel::{Block, Device, Geometry};
/// # fn main() -> Result<(), Box<dyn std::error::Error>> {
/// # let geometry = Geometry { blocks: 8, pages: 4, words: 1, sectors: 20, endurance: 1000, ..Geometry::ONE_LUN };
/// let mut device = Device::open(geometry)?;
/// device.write(3, &[1; 8])?;
/// let live: u32 = (0..8).map(|number| device.block(number).map(|block| block.live)).sum::<Result<u32, _>>()?;
/// assert_eq!(live, 1);
/// # Ok(())
/// # }
/// ```
#[derive(Clone, Copy, Debug, PartialEq, Eq)]
pub struct Block {
    pub erases: u32,
    pub live: u32,
    pub retired: bool,
}

/// A device for one thread. It collects garbage inside the write that finds no page. It may go to another thread, and is closed
/// when it is dropped.
///
/// ```
/// # use mintlintel::{Device, Geometry};
/// # fn main() -> Result<(), Box<dyn std::error::Error>> {
/// let geometry = Geometry { blocks: 8, pages: 4, words: 1, sectors: 20, endurance: 1000, ..Geometry::ONE_LUN };
/// let mut device = Device::open(geometry)?;
/// for number in 0..1000u64 {
///     device.write((number % 20) as u32, &number.to_le_bytes())?;
/// }
/// assert_eq!(device.counts()?.programs, 1000);
/// # Ok(())
/// # }
/// ```
///
/// Two threads can't share one:
///
/// ```compile_fail,E0277
/// fn is_shared<T: Sync>() {}
/// is_shared::<mintlintel::Device>();
/// ```
#[derive(Debug)]
pub struct Device {
    // C takes the device out of its handle during a call, and puts it back. Calls by `&self` don't meet, since only one thread has that.
    handle: UnsafeCell<Handle>,
    geometry: Geometry,
}

// A handle may go to another thread, as a whole: it is not `Sync`, so only one thread makes calls on it.
unsafe impl Send for Device {}

impl Device {
    /// A device with every sector empty.
    ///
    /// ```
    /// # use mintlintel::{Device, Geometry, OpenFault};
    /// assert_eq!(Device::open(Geometry::ONE_LUN).map_err(|error| error.fault).err(), Some(OpenFault::Blocks));
    /// ```
    pub fn open(geometry: Geometry) -> Result<Device, OpenError> {
        let mut handle = Handle::CLOSED;
        let Geometry { luns, blocks, pages, words, sectors, endurance } = geometry;
        let code = unsafe { raw::mintlintel_one_open(&mut handle, luns, blocks, pages, words, sectors, endurance) };
        OpenError::check(code, geometry, 0, 0)?;
        Ok(Device { handle: UnsafeCell::new(handle), geometry })
    }

    /// Reads a sector into a buffer of one page. An empty sector, and a fault, leave the buffer unchanged.
    ///
    /// ```
    /// # use mintlintel::{Device, Fault, Geometry, Was};
    /// # fn main() -> Result<(), Box<dyn std::error::Error>> {
    /// # let geometry = Geometry { blocks: 8, pages: 4, words: 1, sectors: 20, endurance: 1000, ..Geometry::ONE_LUN };
    /// # let mut device = Device::open(geometry)?;
    /// let mut page = [9; 8];
    /// assert_eq!(device.read(3, &mut page), Ok(Was::Empty));
    /// assert_eq!(page, [9; 8]);
    /// device.write(3, &[1; 8])?;
    /// assert_eq!(device.read(3, &mut page), Ok(Was::Written));
    /// assert_eq!(page, [1; 8]);
    /// assert_eq!(device.read(20, &mut page), Err(Fault::NoSector { sector: 20, sectors: 20 }));
    /// assert_eq!(device.read(3, &mut page[..7]), Err(Fault::NotAPage { bytes: 7, page_bytes: 8 }));
    /// # Ok(())
    /// # }
    /// ```
    pub fn read(&mut self, sector: u32, out: &mut [u8]) -> Result<Was, Fault> {
        let code = unsafe { raw::mintlintel_one_read(self.handle.get(), sector, out.as_mut_ptr(), out.len()) };
        Was::of(code, Given::Page(sector, out.len()), &self.geometry)
    }

    /// Writes a page to a sector. Returns what the sector was.
    ///
    /// ```
    /// # use mintlintel::{Device, Fault, Geometry, Was};
    /// # fn main() -> Result<(), Box<dyn std::error::Error>> {
    /// # let geometry = Geometry { blocks: 8, pages: 4, words: 1, sectors: 20, endurance: 1000, ..Geometry::ONE_LUN };
    /// # let mut device = Device::open(geometry)?;
    /// assert_eq!(device.write(3, &[1; 8]), Ok(Was::Empty));
    /// assert_eq!(device.write(3, &[2; 8]), Ok(Was::Written));
    /// # Ok(())
    /// # }
    /// ```
    pub fn write(&mut self, sector: u32, page: &[u8]) -> Result<Was, Fault> {
        let code = unsafe { raw::mintlintel_one_write(self.handle.get(), sector, page.as_ptr(), page.len()) };
        Was::of(code, Given::Page(sector, page.len()), &self.geometry)
    }

    /// Writes a page to a sector if it is empty. `Written` says that it was not empty and is unchanged.
    ///
    /// ```
    /// # use mintlintel::{Device, Fault, Geometry, Was};
    /// # fn main() -> Result<(), Box<dyn std::error::Error>> {
    /// # let geometry = Geometry { blocks: 8, pages: 4, words: 1, sectors: 20, endurance: 1000, ..Geometry::ONE_LUN };
    /// # let mut device = Device::open(geometry)?;
    /// assert_eq!(device.write_new(3, &[1; 8]), Ok(Was::Empty));
    /// assert_eq!(device.write_new(3, &[2; 8]), Ok(Was::Written));
    /// let mut page = [0; 8];
    /// device.read(3, &mut page)?;
    /// assert_eq!(page, [1; 8]);
    /// # Ok(())
    /// # }
    /// ```
    pub fn write_new(&mut self, sector: u32, page: &[u8]) -> Result<Was, Fault> {
        let code = unsafe { raw::mintlintel_one_write_new(self.handle.get(), sector, page.as_ptr(), page.len()) };
        Was::of(code, Given::Page(sector, page.len()), &self.geometry)
    }

    /// Empties a sector. Returns what it was.
    ///
    /// ```
    /// # use mintlintel::{Device, Fault, Geometry, Was};
    /// # fn main() -> Result<(), Box<dyn std::error::Error>> {
    /// # let geometry = Geometry { blocks: 8, pages: 4, words: 1, sectors: 20, endurance: 1000, ..Geometry::ONE_LUN };
    /// # let mut device = Device::open(geometry)?;
    /// device.write(3, &[1; 8])?;
    /// assert_eq!(device.trim(3), Ok(Was::Written));
    /// assert_eq!(device.trim(3), Ok(Was::Empty));
    /// # Ok(())
    /// # }
    /// ```
    pub fn trim(&mut self, sector: u32) -> Result<Was, Fault> {
        let code = unsafe { raw::mintlintel_one_trim(self.handle.get(), sector) };
        Was::of(code, Given::Sector(sector), &self.geometry)
    }

    /// The totals so far.
    pub fn counts(&self) -> Result<Counts, Fault> {
        let mut totals = Totals::default();
        Fault::check(unsafe { raw::mintlintel_one_counts(self.handle.get(), &mut totals) }, Given::Nothing, &self.geometry)?;
        let Totals { programs, copies, erases } = totals;
        Ok(Counts { programs, copies, erases })
    }

    /// The counts of a block so far.
    ///
    /// ```
    /// # use mintlintel::{Device, Fault, Geometry, Was};
    /// # fn main() -> Result<(), Box<dyn std::error::Error>> {
    /// # let geometry = Geometry { blocks: 8, pages: 4, words: 1, sectors: 20, endurance: 1000, ..Geometry::ONE_LUN };
    /// # let mut device = Device::open(geometry)?;
    /// assert_eq!(device.block(8), Err(Fault::NoSuchBlock { block: 8, blocks: 8 }));
    /// # Ok(())
    /// # }
    /// ```
    pub fn block(&self, block: u32) -> Result<Block, Fault> {
        let mut report = raw::Block::default();
        Fault::check(unsafe { raw::mintlintel_one_block(self.handle.get(), block, &mut report) }, Given::Block(block), &self.geometry)?;
        Ok(Block {
            erases: report.erases,
            live: report.live,
            retired: report.retired != 0,
        })
    }

    /// The numbers that the device was made with.
    ///
    /// ```
    /// # use mintlintel::{Device, Fault, Geometry, Was};
    /// # fn main() -> Result<(), Box<dyn std::error::Error>> {
    /// # let geometry = Geometry { blocks: 8, pages: 4, words: 1, sectors: 20, endurance: 1000, ..Geometry::ONE_LUN };
    /// # let mut device = Device::open(geometry)?;
    /// assert_eq!(device.geometry()?, geometry);
    /// # Ok(())
    /// # }
    /// ```
    pub fn geometry(&self) -> Result<Geometry, Fault> {
        let mut numbers = raw::Numbers::default();
        Fault::check(unsafe { raw::mintlintel_one_numbers(self.handle.get(), &mut numbers) }, Given::Nothing, &self.geometry)?;
        Ok(Geometry::of(&numbers))
    }
}

impl Drop for Device {
    fn drop(&mut self) {
        unsafe { raw::mintlintel_one_close(self.handle.get()) }
    }
}
