//! A flash translation layer with proofs: [`Device`] for one thread, [`SharedDevice`] for many, and [`Image`], a device in a file that survives power cuts,
//! or [`Durable`] over the caller's flash.
//!
//! ```
//! use mintlintel::{Device, Geometry, Was};
//!
//! # fn main() -> Result<(), Box<dyn std::error::Error>> {
//! let geometry = Geometry { blocks: 24, pages: 64, words: 64, sectors: 1000, endurance: 1000, ..Geometry::ONE_LUN };
//! let mut device = Device::open(geometry)?;
//! assert_eq!(device.write(7, &[1; 512])?, Was::Empty);
//! let mut page = [0; 512];
//! assert_eq!(device.read(7, &mut page)?, Was::Written);
//! assert_eq!(page, [1; 512]);
//! # Ok(())
//! # }
//! ```
mod broom;
mod device;
mod durable;
mod fault;
mod host;
mod raw;
mod shared;

pub use broom::{BlockCounts, Broom, Collect, Collected, Drain, Erase, Phase, State, Tally};
pub use device::{Block, Counts, Device};
pub use durable::{ChipFault, Durable, DurableFault, DurableReader, Image, Mode, Nand, Reader, Reading, Shape, SharedDurable, STAMP_BYTES};
pub use fault::{Fault, OpenError, OpenFault};
pub use host::{Held, Host, PagePlace};
pub use shared::SharedDevice;

use fault::Given;
use raw::code;
use std::ffi::CStr;

/// The version of the library that is linked, with ", not proved" behind it if it was built without proof.
///
/// ```
/// assert!(mintlintel::version().starts_with(env!("CARGO_PKG_VERSION")));
/// ```
pub fn version() -> &'static str {
    let text = unsafe { CStr::from_ptr(raw::mintlintel_version()) };
    text.to_str().unwrap_or_default()
}

/// The examples of the page on linking, as they stand there.
#[cfg(doctest)]
#[doc = include_str!("../../../docs/LINKING.md")]
struct Page;

/// The numbers of a device. A page has eight bytes for each word.
///
/// ```
/// # use mintlintel::Geometry;
/// let geometry = Geometry { blocks: 24, pages: 64, words: 64, sectors: 1000, endurance: 1000, ..Geometry::ONE_LUN };
/// assert_eq!((geometry.luns, geometry.page_bytes()), (1, 512));
/// ```
#[derive(Clone, Copy, Debug, PartialEq, Eq)]
pub struct Geometry {
    pub luns: u32,
    pub blocks: u32,
    pub pages: u32,
    pub words: u32,
    pub sectors: u32,
    pub endurance: u32,
}

impl Geometry {
    /// One LUN, and everything else still to be set.
    pub const ONE_LUN: Geometry = Geometry {
        luns: 1,
        blocks: 0,
        pages: 0,
        words: 0,
        sectors: 0,
        endurance: 0,
    };

    /// How many bytes a page has.
    ///
    /// ```
    /// # use mintlintel::Geometry;
    /// assert_eq!(Geometry { words: 64, ..Geometry::ONE_LUN }.page_bytes(), 512);
    /// ```
    pub fn page_bytes(&self) -> usize {
        8 * self.words as usize
    }

    fn of(numbers: &raw::Numbers) -> Geometry {
        Geometry {
            luns: numbers.luns,
            blocks: numbers.blocks,
            pages: numbers.pages,
            words: numbers.words,
            sectors: numbers.sectors,
            endurance: numbers.endurance,
        }
    }
}

/// The numbers of a shared device: its geometry, and how many hosts and brooms it was opened for.
///
/// ```
/// # use mintlintel::{Geometry, Numbers, SharedDevice};
/// # fn main() -> Result<(), Box<dyn std::error::Error>> {
/// let geometry = Geometry { blocks: 24, pages: 8, words: 1, sectors: 100, endurance: 1000, ..Geometry::ONE_LUN };
/// let device = SharedDevice::open(geometry, 2, 1)?;
/// assert_eq!(device.brooms[0].numbers()?, Numbers { geometry, hosts: 2, brooms: 1 });
/// # Ok(())
/// # }
/// ```
#[derive(Clone, Copy, Debug, PartialEq, Eq)]
pub struct Numbers {
    pub geometry: Geometry,
    pub hosts: u32,
    pub brooms: u32,
}

impl Numbers {
    pub(crate) fn of(numbers: &raw::Numbers) -> Numbers {
        Numbers {
            geometry: Geometry::of(numbers),
            hosts: numbers.hosts,
            brooms: numbers.brooms,
        }
    }
}

impl From<Numbers> for raw::Numbers {
    fn from(Numbers { geometry, hosts, brooms }: Numbers) -> raw::Numbers {
        let Geometry { luns, blocks, pages, words, sectors, endurance } = geometry;
        raw::Numbers { luns, blocks, pages, words, sectors, endurance, hosts, brooms }
    }
}

/// What a sector was before a call, or what a read found.
///
/// ```
/// # use mintlintel::{Device, Geometry, Was};
/// # fn main() -> Result<(), Box<dyn std::error::Error>> {
/// # let geometry = Geometry { blocks: 8, pages: 4, words: 1, sectors: 20, endurance: 1000, ..Geometry::ONE_LUN };
/// let mut device = Device::open(geometry)?;
/// match device.read(3, &mut [0; 8])? {
///     Was::Empty => println!("nothing was written to sector 3, or it was trimmed"),
///     Was::Written => println!("the buffer has the page"),
/// }
/// # Ok(())
/// # }
/// ```
#[derive(Clone, Copy, Debug, PartialEq, Eq)]
pub enum Was {
    Empty,
    Written,
}

impl Was {
    fn of(code: u32, given: Given, geometry: &Geometry) -> Result<Was, Fault> {
        match code {
            code::DONE => Ok(Was::Empty),
            code::WRITTEN => Ok(Was::Written),
            other => Err(Fault::of(other, given, geometry)),
        }
    }
}
