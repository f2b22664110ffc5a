//! Why a call did nothing.
use crate::raw::{self, code};
use crate::{Geometry, Numbers};
use std::error::Error;
use std::ffi::CStr;
use std::fmt::{self, Display, Formatter};

/// Why a device was not opened, and the numbers that were asked for.
///
/// ```
/// # use mintlintel::{Device, Geometry, OpenError, OpenFault};
/// # fn main() -> Result<(), OpenError> {
/// let numbers = Geometry { blocks: 8, pages: 4, words: 1, sectors: 28, endurance: 1000, ..Geometry::ONE_LUN };
/// let error = Device::open(numbers).unwrap_err();
/// assert_eq!(error.fault, OpenFault::TooFewBlocks);
/// assert_eq!(
///     error.to_string(),
///     "too few blocks: 8 blocks of 4 pages have room for (blocks - 1) * pages - 1 = 27 sectors, and 28 were given; it would do with blocks=9"
/// );
/// Device::open(error.nearest().geometry)?;
/// # Ok(())
/// # }
/// ```
#[derive(Clone, Copy, Debug, PartialEq, Eq)]
pub struct OpenError {
    pub fault: OpenFault,
    /// What was asked for. A device for one thread has no hosts and no brooms.
    pub asked: Numbers,
}

impl OpenError {
    pub(crate) fn check(code: u32, geometry: Geometry, hosts: usize, brooms: usize) -> Result<(), OpenError> {
        let [hosts, brooms] = [hosts, brooms].map(|count| u32::try_from(count).unwrap_or(u32::MAX));
        OpenFault::check(code).map_err(|fault| OpenError { fault, asked: Numbers { geometry, hosts, brooms } })
    }

    /// Numbers near those that were asked for, of which a device would open: each is within its limits, then there are more or fewer blocks, and
    /// only if that doesn't do, fewer pages of a block or fewer sectors.
    pub fn nearest(&self) -> Numbers {
        let mut numbers = raw::Numbers::from(self.asked);
        if self.fault == OpenFault::Seats && numbers.hosts == 0 {
            numbers.hosts = 1;
        }
        unsafe { raw::mintlintel_nearest(&mut numbers) };
        Numbers::of(&numbers)
    }
}

impl Display for OpenError {
    fn fmt(&self, f: &mut Formatter) -> fmt::Result {
        let mut text = [0; 512];
        let numbers = raw::Numbers::from(self.asked);
        unsafe { raw::mintlintel_explain(self.fault.code(), &numbers, text.as_mut_ptr(), text.len()) };
        f.write_str(&unsafe { CStr::from_ptr(text.as_ptr()) }.to_string_lossy())
    }
}

impl Error for OpenError {}

/// Which limit the numbers of a device break, or that there is no memory.
#[derive(Clone, Copy, Debug, PartialEq, Eq)]
#[non_exhaustive]
pub enum OpenFault {
    NoMemory,
    Luns,
    Blocks,
    Pages,
    Words,
    Sectors,
    Endurance,
    Seats,
    TooManyWords,
    TooFewBlocks,
    /// A code that an open does not have: the library is of another version.
    Unknown(u32),
}

impl OpenFault {
    /// The code of C, as in `mintlintel.h`.
    pub fn code(&self) -> u32 {
        match *self {
            OpenFault::NoMemory => code::NO_MEMORY,
            OpenFault::Luns => code::BAD_LUNS,
            OpenFault::Blocks => code::BAD_BLOCKS,
            OpenFault::Pages => code::BAD_PAGES,
            OpenFault::Words => code::BAD_WORDS,
            OpenFault::Sectors => code::BAD_SECTORS,
            OpenFault::Endurance => code::BAD_ENDURANCE,
            OpenFault::Seats => code::BAD_SEATS,
            OpenFault::TooManyWords => code::TOO_MANY_WORDS,
            OpenFault::TooFewBlocks => code::TOO_FEW_BLOCKS,
            OpenFault::Unknown(code) => code,
        }
    }

    fn check(code: u32) -> Result<(), OpenFault> {
        Err(match code {
            code::DONE => return Ok(()),
            code::NO_MEMORY => OpenFault::NoMemory,
            code::BAD_LUNS => OpenFault::Luns,
            code::BAD_BLOCKS => OpenFault::Blocks,
            code::BAD_PAGES => OpenFault::Pages,
            code::BAD_WORDS => OpenFault::Words,
            code::BAD_SECTORS => OpenFault::Sectors,
            code::BAD_ENDURANCE => OpenFault::Endurance,
            code::BAD_SEATS => OpenFault::Seats,
            code::TOO_MANY_WORDS => OpenFault::TooManyWords,
            code::TOO_FEW_BLOCKS => OpenFault::TooFewBlocks,
            other => OpenFault::Unknown(other),
        })
    }
}

/// Why a call on an open device did nothing.
///
/// ```
/// # use mintlintel::{Device, Fault, Geometry};
/// # fn main() -> Result<(), Box<dyn std::error::Error>> {
/// let numbers = Geometry { blocks: 3, pages: 1, words: 1, sectors: 1, endurance: 1, ..Geometry::ONE_LUN };
/// let mut device = Device::open(numbers)?;
/// while device.write(0, &[1; 8]).is_ok() {}
/// assert_eq!(device.write(0, &[1; 8]), Err(Fault::WornOut));
/// assert_eq!(Fault::WornOut.to_string(), "worn out");
/// # Ok(())
/// # }
/// ```
#[derive(Clone, Copy, Debug, PartialEq, Eq)]
#[non_exhaustive]
pub enum Fault {
    /// The device has no such sector: it is below `sectors`.
    NoSector { sector: u32, sectors: u32 },
    /// The buffer is not as long as a page.
    NotAPage { bytes: usize, page_bytes: usize },
    /// One thread: no page is left for a write, and none can be reclaimed.
    WornOut,
    /// Shared: every block was found taken. Let a broom collect, pause, and try again a bounded number of times: see `Host::write_within`.
    NoBlock,
    /// The device has no such block: it is below `blocks`.
    NoSuchBlock { block: u32, blocks: u32 },
    /// A page has no such word: it is below `words`.
    NoSuchWord { word: u32, words: u32 },
    /// A code that the call does not have: the library is of another version.
    Unknown(u32),
}

/// What a call was given. With the geometry it tells why it was refused.
#[derive(Clone, Copy)]
pub(crate) enum Given {
    Nothing,
    Sector(u32),
    Page(u32, usize),
    Block(u32),
    Word(u32),
}

impl Fault {
    /// The code of C, as in `mintlintel.h`.
    pub fn code(&self) -> u32 {
        match *self {
            Fault::NoSector { .. } => code::NO_SECTOR,
            Fault::NotAPage { .. } => code::NOT_A_PAGE,
            Fault::WornOut => code::WORN_OUT,
            Fault::NoBlock => code::NO_BLOCK,
            Fault::NoSuchBlock { .. } | Fault::NoSuchWord { .. } => code::NO_SUCH_BLOCK,
            Fault::Unknown(code) => code,
        }
    }

    pub(crate) fn of(code: u32, given: Given, geometry: &Geometry) -> Fault {
        let Geometry { sectors, blocks, words, .. } = *geometry;
        match (code, given) {
            (code::NO_SECTOR, Given::Sector(sector) | Given::Page(sector, _)) => Fault::NoSector { sector, sectors },
            (code::NOT_A_PAGE, Given::Page(_, bytes)) => Fault::NotAPage { bytes, page_bytes: geometry.page_bytes() },
            (code::WORN_OUT, _) => Fault::WornOut,
            (code::NO_BLOCK, _) => Fault::NoBlock,
            (code::NO_SUCH_BLOCK, Given::Block(block)) => Fault::NoSuchBlock { block, blocks },
            (code::NO_SUCH_BLOCK, Given::Word(word)) => Fault::NoSuchWord { word, words },
            _ => Fault::Unknown(code),
        }
    }

    pub(crate) fn check(code: u32, given: Given, geometry: &Geometry) -> Result<(), Fault> {
        match code {
            code::DONE => Ok(()),
            other => Err(Fault::of(other, given, geometry)),
        }
    }
}

impl Display for Fault {
    fn fmt(&self, f: &mut Formatter) -> fmt::Result {
        match *self {
            Fault::NoSector { sector, sectors } => write!(f, "no such sector: {sector} given, and the device has {sectors}"),
            Fault::NotAPage { bytes, page_bytes } => write!(f, "not a page: {bytes} bytes given, and a page has {page_bytes}"),
            Fault::WornOut => f.write_str("worn out"),
            Fault::NoBlock => f.write_str("no block is free"),
            Fault::NoSuchBlock { block, blocks } => write!(f, "no such block: {block} given, and the device has {blocks}"),
            Fault::NoSuchWord { word, words } => write!(f, "no such word: {word} given, and a page has {words}"),
            Fault::Unknown(code) => write!(f, "unknown code {code}"),
        }
    }
}

impl Error for Fault {}
