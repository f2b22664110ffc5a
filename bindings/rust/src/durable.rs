//! Devices that survive power cuts: over flash that the caller brings, and in an image file.
use crate::raw::{self, Totals};
use crate::{Block, Counts, Was};
use std::any::Any;
use std::cell::UnsafeCell;
use std::error::Error;
use std::ffi::{c_void, CString};
use std::fmt::{self, Display, Formatter};
use std::io;
use std::marker::PhantomData;
use std::os::raw::c_int;
use std::os::unix::ffi::OsStrExt;
use std::panic::{catch_unwind, resume_unwind, AssertUnwindSafe};
use std::path::Path;
use std::ptr;
use std::slice;
use std::sync::{Arc, PoisonError, RwLock};

/// The bytes of a stamp, which are programmed with their page into its spare bytes.
pub const STAMP_BYTES: usize = 24;

/// What a page holds, as a chip reads it.
#[derive(Clone, Copy, Debug, PartialEq, Eq)]
pub enum Reading {
    /// The buffers have the page and its stamp.
    Version,
    Erased,
    Unreadable,
}

/// Why a chip did not do a command.
#[derive(Clone, Copy, Debug, PartialEq, Eq)]
pub enum ChipFault {
    /// A program or an erase failed.
    Failed,
    /// The power is gone, or the chip is.
    PowerGone,
}

/// Flash that the caller brings. It tells a page whose program or erase was cut from one that has a version.
///
/// A panic in one of these functions doesn't pass through C: there the power counts as gone, and the call on the device panics once C has returned. Drop
/// the device then, and open it again.
pub trait Nand {
    /// Reads a page and its stamp, or with no `main` the stamp alone. Both are zeros before.
    fn read(&mut self, block: u32, page: u32, main: Option<&mut [u8]>, stamp: &mut [u8; STAMP_BYTES]) -> Result<Reading, ChipFault>;
    /// Programs an erased page; the pages of a block come in order.
    fn program(&mut self, block: u32, page: u32, main: &[u8], stamp: &[u8; STAMP_BYTES]) -> Result<(), ChipFault>;
    fn erase(&mut self, block: u32) -> Result<(), ChipFault>;
    fn is_bad(&mut self, _block: u32) -> bool {
        false
    }
    /// The block must not be used any more.
    fn mark_bad(&mut self, _block: u32) -> Result<(), ChipFault> {
        Ok(())
    }
    /// Returns once each command that has succeeded is durable.
    fn sync(&mut self) -> Result<(), ChipFault> {
        Ok(())
    }
}

/// The numbers of a device that survives power cuts. There are fewer sectors than `(blocks - 1) * pages`.
#[derive(Clone, Copy, Debug, PartialEq, Eq)]
pub struct Shape {
    pub luns: u32,
    pub blocks: u32,
    pub pages: u32,
    pub page_bytes: u32,
    pub sectors: u32,
}

/// Why a call on a device that survives power cuts did not do what it was asked for.
#[derive(Debug)]
#[non_exhaustive]
pub enum DurableFault {
    /// Of a reader: its image is closed.
    Closed,
    NoSector,
    NotAPage,
    NoMemory,
    NoSuchBlock,
    /// The number of `Shape` that breaks its limit.
    Numbers(&'static str),
    /// The sectors leave no room to collect.
    TooFewBlocks,
    /// No block can be freed. This library leaves no flash so.
    NoBlock,
    /// Bad blocks have left too few blocks for the sectors. An open device can be read still, and the sector of the call has what it had, or what the
    /// call gave it.
    NoRoom,
    /// Drop the device, and open it again. The sector has what it had, or what the call gave it.
    PowerGone,
    /// The same, after a sync of the flash that failed.
    Failed,
    OtherDevice,
    /// The numbers of versions have run out, or those of readers: then read the image itself, or by a reader that is opened now.
    NoNumber,
    /// The sector's page can't be read, and no older one is given for it.
    Unreadable,
    /// Of a reader: its page was moved whenever it looked. Read again.
    Unsettled,
    /// Pages have become unreadable, and older versions may stand for them. `open_despite_losses` opens the device all the same.
    PagesLost,
    InUse,
    NotAnImage,
    OtherVersion,
    OtherNumbers,
    CutShort,
    /// Another process has opened the image: this one is its child.
    OtherProcess,
    /// A block device has listed bad blocks beside the image, and only a block device opens it.
    BadBlocksListed,
    /// The file can't be opened or made, or it failed. After a call on an open image drop it, and open it again; nothing that was acknowledged is lost,
    /// unless a sync failed.
    File(io::Error),
    /// A code that the call does not have: the library is of another version.
    Unknown(u32),
}

impl DurableFault {
    fn of(code: u32, file: impl FnOnce() -> io::Error) -> DurableFault {
        match code {
            2 => DurableFault::Closed,
            3 => DurableFault::NoSector,
            4 => DurableFault::NotAPage,
            6 => DurableFault::NoMemory,
            7 => DurableFault::NoBlock,
            10 => DurableFault::NoSuchBlock,
            27 | 34 => DurableFault::NoRoom,
            28 => DurableFault::PowerGone,
            29 => DurableFault::Failed,
            30 => DurableFault::OtherDevice,
            31 => DurableFault::NoNumber,
            33 => DurableFault::Unreadable,
            35 => DurableFault::PagesLost,
            36 => DurableFault::Unsettled,
            40 | 46 => DurableFault::File(file()),
            41 => DurableFault::InUse,
            42 => DurableFault::NotAnImage,
            43 => DurableFault::OtherVersion,
            44 => DurableFault::OtherNumbers,
            45 => DurableFault::CutShort,
            47 => DurableFault::OtherProcess,
            49 => DurableFault::BadBlocksListed,
            101 => DurableFault::Numbers("luns"),
            102 => DurableFault::Numbers("blocks"),
            103 => DurableFault::Numbers("pages"),
            104 => DurableFault::Numbers("page_bytes"),
            105 => DurableFault::Numbers("sectors"),
            109 => DurableFault::TooFewBlocks,
            other => DurableFault::Unknown(other),
        }
    }
}

impl Display for DurableFault {
    fn fmt(&self, f: &mut Formatter) -> fmt::Result {
        f.write_str(match self {
            DurableFault::Closed => "the image is closed",
            DurableFault::NoSector => "no such sector",
            DurableFault::NotAPage => "not a page",
            DurableFault::NoMemory => "out of memory",
            DurableFault::NoSuchBlock => "no such block",
            DurableFault::Numbers(name) => return write!(f, "{name} out of range"),
            DurableFault::TooFewBlocks => "too few blocks",
            DurableFault::NoBlock => "no block can be freed",
            DurableFault::NoRoom => "bad blocks have left no room",
            DurableFault::PowerGone => "the power is gone",
            DurableFault::Failed => "the flash failed",
            DurableFault::OtherDevice => "the flash holds another device",
            DurableFault::NoNumber => "the numbers have run out",
            DurableFault::Unreadable => "the page can't be read",
            DurableFault::PagesLost => "pages have become unreadable, and older versions may stand for them",
            DurableFault::Unsettled => "the sector's page was moved at each look",
            DurableFault::InUse => "the image is in use",
            DurableFault::NotAnImage => "not an image, or its head is damaged",
            DurableFault::OtherVersion => "an image of another version",
            DurableFault::OtherNumbers => "an image with other numbers",
            DurableFault::CutShort => "the image is cut short",
            DurableFault::OtherProcess => "another process has opened the image",
            DurableFault::BadBlocksListed => "bad blocks are listed beside the image, which only a block device opens",
            DurableFault::File(error) => return error.fmt(f),
            DurableFault::Unknown(code) => return write!(f, "unknown code {code}"),
        })
    }
}

impl Error for DurableFault {
    fn source(&self) -> Option<&(dyn Error + 'static)> {
        match self {
            DurableFault::File(error) => Some(error),
            _ => None,
        }
    }
}

/// The calls that an image and a device over the caller's flash share.
macro_rules! calls {
    ($handle:ident) => {
        /// Reads a sector into a buffer of one page. An empty sector leaves the buffer unchanged.
        pub fn read(&mut self, sector: u32, out: &mut [u8]) -> Result<Was, DurableFault> {
            let code = unsafe { raw::mintlintel_durable_read(self.$handle(), sector, out.as_mut_ptr().cast(), out.len()) };
            self.was(code)
        }

        /// Writes a page to a sector. Returns what the sector was.
        pub fn write(&mut self, sector: u32, page: &[u8]) -> Result<Was, DurableFault> {
            let code = unsafe { raw::mintlintel_durable_write(self.$handle(), sector, page.as_ptr().cast(), page.len()) };
            self.was(code)
        }

        /// Writes a page to a sector if it is empty. `Written` says that it was not empty and is unchanged.
        pub fn write_new(&mut self, sector: u32, page: &[u8]) -> Result<Was, DurableFault> {
            let code = unsafe { raw::mintlintel_durable_write_new(self.$handle(), sector, page.as_ptr().cast(), page.len()) };
            self.was(code)
        }

        /// Empties sectors. `Written` says that any of them was written.
        pub fn trim(&mut self, first: u32, count: u32) -> Result<Was, DurableFault> {
            let code = unsafe { raw::mintlintel_durable_trim(self.$handle(), first, count) };
            self.was(code)
        }

        /// Returns once what was acknowledged is durable.
        pub fn flush(&mut self) -> Result<(), DurableFault> {
            let code = unsafe { raw::mintlintel_durable_flush(self.$handle()) };
            self.was(code).map(drop)
        }

        /// What was programmed, copied and erased since the open.
        pub fn counts(&self) -> Result<Counts, DurableFault> {
            let mut totals = Totals::default();
            self.was(unsafe { raw::mintlintel_durable_counts(self.$handle(), &mut totals) })?;
            let Totals { programs, copies, erases } = totals;
            Ok(Counts { programs, copies, erases })
        }

        /// How many pages had become unreadable at the last mount, as far as the flash shows it: 0 unless it was opened despite losses.
        pub fn losses(&self) -> Result<u64, DurableFault> {
            let mut losses = 0;
            self.was(unsafe { raw::mintlintel_durable_losses(self.$handle(), &mut losses) })?;
            Ok(losses)
        }

        /// A block's erases as far as its stamps told them, its live pages, and whether it is bad.
        pub fn block(&self, block: u32) -> Result<Block, DurableFault> {
            let mut report = raw::Block::default();
            self.was(unsafe { raw::mintlintel_durable_block(self.$handle(), block, &mut report) })?;
            Ok(Block { erases: report.erases, live: report.live, retired: report.retired != 0 })
        }

        /// The numbers that the device was opened with.
        pub fn shape(&self) -> Result<Shape, DurableFault> {
            let mut numbers = raw::DurableNumbers::default();
            self.was(unsafe { raw::mintlintel_durable_numbers(self.$handle(), &mut numbers) })?;
            let raw::DurableNumbers { luns, blocks, pages, page_bytes, sectors } = numbers;
            Ok(Shape { luns, blocks, pages, page_bytes, sectors })
        }

        fn was(&self, code: u32) -> Result<Was, DurableFault> {
            self.go_on();
            match code {
                0 => Ok(Was::Empty),
                1 => Ok(Was::Written),
                other => Err(DurableFault::of(other, || self.file_error())),
            }
        }
    };
}

struct Chip<N> {
    nand: N,
    page_bytes: usize,
    // The panic of a function of the chip, while C returns.
    panic: Option<Box<dyn Any + Send>>,
}

/// A device that survives power cuts, over the caller's flash. It is closed when it is dropped.
pub struct Durable<N: Nand> {
    handle: UnsafeCell<raw::Durable>,
    // A pointer, so that C's copy of it stays good when the device moves.
    chip: *mut Chip<N>,
}

// A handle and its chip may go to another thread, as a whole.
unsafe impl<N: Nand + Send> Send for Durable<N> {}

impl<N: Nand> Durable<N> {
    /// Mounts the device that the flash holds. Flash that was never written is an empty device.
    pub fn open(nand: N, shape: Shape) -> Result<Durable<N>, DurableFault> {
        Durable::open_with(nand, shape, false)
    }

    /// The same, also where pages have become unreadable: `losses` tells how many.
    pub fn open_despite_losses(nand: N, shape: Shape) -> Result<Durable<N>, DurableFault> {
        Durable::open_with(nand, shape, true)
    }

    fn open_with(nand: N, shape: Shape, despite_losses: bool) -> Result<Durable<N>, DurableFault> {
        let chip = Box::into_raw(Box::new(Chip { nand, page_bytes: shape.page_bytes as usize, panic: None }));
        let device = Durable { handle: UnsafeCell::new(raw::Durable::CLOSED), chip };
        let functions = raw::Nand {
            chip: chip.cast(),
            read: Some(read::<N>),
            program: Some(program::<N>),
            copyback: None,
            erase: Some(erase::<N>),
            is_bad: Some(is_bad::<N>),
            mark_bad: Some(mark_bad::<N>),
            sync: Some(sync::<N>),
        };
        let Shape { luns, blocks, pages, page_bytes, sectors } = shape;
        let mut losses = 0;
        let code = if despite_losses {
            unsafe {
                raw::mintlintel_durable_open_despite_losses(device.at(), &functions, luns, blocks, pages, page_bytes, sectors, &mut losses)
            }
        } else {
            unsafe { raw::mintlintel_durable_open(device.at(), &functions, luns, blocks, pages, page_bytes, sectors) }
        };
        device.was(code)?;
        Ok(device)
    }

    calls!(at);

    fn at(&self) -> *mut raw::Durable {
        self.handle.get()
    }

    fn file_error(&self) -> io::Error {
        io::Error::from_raw_os_error(0)
    }

    fn go_on(&self) {
        unsafe { go_on(self.chip) }
    }

    /// The device for one thread, and for readers in others as long as it is borrowed so.
    pub fn share(&mut self) -> SharedDurable<'_, N> {
        SharedDurable { device: self }
    }

    /// The flash.
    pub fn into_nand(self) -> N {
        unsafe { raw::mintlintel_durable_close(self.at()) };
        let chip = self.chip;
        std::mem::forget(self);
        unsafe { Box::from_raw(chip) }.nand
    }
}

impl<N: Nand> Drop for Durable<N> {
    fn drop(&mut self) {
        unsafe {
            raw::mintlintel_durable_close(self.at());
            drop(Box::from_raw(self.chip));
        }
    }
}

/// A device beside whose calls other threads read.
///
/// ```
/// # use mintlintel::{ChipFault, Durable, Nand, Reading, Shape, Was, STAMP_BYTES};
/// # use std::sync::{Arc, Mutex};
/// #[derive(Clone)]
/// struct Flash(Arc<Mutex<Vec<Option<(Vec<u8>, [u8; STAMP_BYTES])>>>>);
///
/// impl Nand for Flash {
///     // ..
/// #   fn read(&mut self, block: u32, page: u32, main: Option<&mut [u8]>, stamp: &mut [u8; STAMP_BYTES]) -> Result<Reading, ChipFault> {
/// #       let pages = self.0.lock().unwrap();
/// #       let (bytes, with) = match &pages[(8 * block + page) as usize] {
/// #           Some(found) => found,
/// #           None => return Ok(Reading::Erased),
/// #       };
/// #       if let Some(main) = main { main.copy_from_slice(bytes) }
/// #       *stamp = *with;
/// #       Ok(Reading::Version)
/// #   }
/// #   fn program(&mut self, block: u32, page: u32, main: &[u8], stamp: &[u8; STAMP_BYTES]) -> Result<(), ChipFault> {
/// #       self.0.lock().unwrap()[(8 * block + page) as usize] = Some((main.to_vec(), *stamp));
/// #       Ok(())
/// #   }
/// #   fn erase(&mut self, block: u32) -> Result<(), ChipFault> {
/// #       self.0.lock().unwrap()[8 * block as usize..][..8].fill(None);
/// #       Ok(())
/// #   }
/// }
///
/// # fn main() -> Result<(), mintlintel::DurableFault> {
/// # let flash = Flash(Arc::new(Mutex::new(vec![None; 64])));
/// let mut device = Durable::open(flash, Shape { luns: 1, blocks: 8, pages: 8, page_bytes: 512, sectors: 30 })?;
/// let mut shared = device.share();
/// let mut reader = shared.reader()?;
/// std::thread::scope(|threads| {
///     threads.spawn(move || reader.read(7, &mut [0; 512]));
///     shared.write(7, &[1; 512])
/// })?;
/// # let mut reader = shared.reader()?;
/// # assert_eq!(reader.read(7, &mut [0; 512])?, Was::Written);
/// # Ok(())
/// # }
/// ```
///
/// No reader outlives the device:
///
/// ```compile_fail,E0505
/// fn outlives<N: mintlintel::Nand + Clone>(mut device: mintlintel::Durable<N>) {
///     let mut reader = device.share().reader().unwrap();
///     drop(device);
///     reader.read(0, &mut [0; 512]).unwrap();
/// }
/// ```
///
/// Beside readers the device makes its calls by this alone:
///
/// ```compile_fail,E0499
/// fn is_written<N: mintlintel::Nand + Clone>(mut device: mintlintel::Durable<N>) {
///     let mut reader = device.share().reader().unwrap();
///     device.write(0, &[0; 512]).unwrap();
///     reader.read(0, &mut [0; 512]).unwrap();
/// }
/// ```
pub struct SharedDurable<'a, N: Nand> {
    device: &'a mut Durable<N>,
}

impl<'a, N: Nand> SharedDurable<'a, N> {
    calls!(at);

    fn at(&self) -> *mut raw::Durable {
        self.device.at()
    }

    fn file_error(&self) -> io::Error {
        self.device.file_error()
    }

    fn go_on(&self) {
        self.device.go_on()
    }

    /// A reader, for another thread. It reads by a clone of the chip, which has to be of the same flash. The first one of a device takes 8 bytes for each
    /// sector, and reads the stamp of each sector's page.
    pub fn reader(&mut self) -> Result<DurableReader<'a, N>, DurableFault>
    where
        N: Clone,
    {
        let mut handle = raw::Reader::CLOSED;
        let code = unsafe { raw::mintlintel_reader_open(&mut handle, self.at()) };
        // From here on it is closed when it is dropped, also if the clone panics.
        let mut reader = DurableReader { handle, chip: ptr::null_mut(), of: PhantomData };
        self.was(code)?;
        let Chip { nand, page_bytes, .. } = unsafe { &*self.device.chip };
        reader.chip = Box::into_raw(Box::new(Chip { nand: nand.clone(), page_bytes: *page_bytes, panic: None }));
        reader.handle.chip = reader.chip.cast();
        Ok(reader)
    }
}

/// Reads a device beside the thread that writes to it, as a [`Reader`] does an image. A panic of its chip is this read's.
pub struct DurableReader<'a, N: Nand> {
    handle: raw::Reader,
    // A clone of the device's.
    chip: *mut Chip<N>,
    of: PhantomData<&'a Durable<N>>,
}

// A handle and its chip may go to another thread, as a whole.
unsafe impl<N: Nand + Send> Send for DurableReader<'_, N> {}

impl<N: Nand> DurableReader<'_, N> {
    /// Reads a sector into a buffer of one page. Of an empty sector, and after a fault, the buffer has any bytes.
    pub fn read(&mut self, sector: u32, out: &mut [u8]) -> Result<Was, DurableFault> {
        let code = unsafe { raw::mintlintel_reader_read(&mut self.handle, sector, out.as_mut_ptr().cast(), out.len()) };
        unsafe { go_on(self.chip) };
        was_read(code)
    }
}

impl<N: Nand> Drop for DurableReader<'_, N> {
    fn drop(&mut self) {
        unsafe { raw::mintlintel_reader_close(&mut self.handle) };
        if !self.chip.is_null() {
            drop(unsafe { Box::from_raw(self.chip) });
        }
    }
}

/// Goes on with a panic of a chip.
unsafe fn go_on<N>(chip: *mut Chip<N>) {
    if let Some(panic) = (*chip).panic.take() {
        resume_unwind(panic);
    }
}

/// What a reader's call has returned.
fn was_read(code: u32) -> Result<Was, DurableFault> {
    match code {
        0 => Ok(Was::Empty),
        1 => Ok(Was::Written),
        code => Err(DurableFault::of(code, io::Error::last_os_error)),
    }
}

const POWER_GONE: c_int = 3;

/// Calls the chip for C, through which no panic may pass. After a panic the chip gets no other command.
unsafe fn answer<N: Nand>(chip: *mut c_void, call: impl FnOnce(&mut Chip<N>) -> c_int) -> c_int {
    let chip = &mut *chip.cast::<Chip<N>>();
    if chip.panic.is_some() {
        return POWER_GONE;
    }
    catch_unwind(AssertUnwindSafe(|| call(chip))).unwrap_or_else(|panic| {
        chip.panic = Some(panic);
        POWER_GONE
    })
}

fn code(done: Result<(), ChipFault>) -> c_int {
    match done {
        Ok(()) => 0,
        Err(ChipFault::Failed) => 1,
        Err(ChipFault::PowerGone) => POWER_GONE,
    }
}

/// Memory of C as bytes. They may have been nothing before, or of another part of the program.
unsafe fn zeros<'a>(at: *mut c_void, bytes: usize) -> &'a mut [u8] {
    at.cast::<u8>().write_bytes(0, bytes);
    slice::from_raw_parts_mut(at.cast(), bytes)
}

unsafe extern "C" fn read<N: Nand>(chip: *mut c_void, block: u32, page: u32, main: *mut c_void, stamp: *mut c_void) -> c_int {
    answer::<N>(chip, |chip| {
        zeros(stamp, STAMP_BYTES);
        let main = (!main.is_null()).then(|| zeros(main, chip.page_bytes));
        match chip.nand.read(block, page, main, &mut *stamp.cast()) {
            Ok(Reading::Version) => 0,
            Ok(Reading::Erased) => 1,
            Ok(Reading::Unreadable) => 2,
            Err(_) => POWER_GONE,
        }
    })
}

unsafe extern "C" fn program<N: Nand>(chip: *mut c_void, block: u32, page: u32, main: *const c_void, stamp: *const c_void) -> c_int {
    answer::<N>(chip, |chip| code(chip.nand.program(block, page, slice::from_raw_parts(main.cast(), chip.page_bytes), &*stamp.cast())))
}

unsafe extern "C" fn erase<N: Nand>(chip: *mut c_void, block: u32) -> c_int {
    answer::<N>(chip, |chip| code(chip.nand.erase(block)))
}

unsafe extern "C" fn is_bad<N: Nand>(chip: *mut c_void, block: u32) -> c_int {
    answer::<N>(chip, |chip| chip.nand.is_bad(block).into())
}

unsafe extern "C" fn mark_bad<N: Nand>(chip: *mut c_void, block: u32) -> c_int {
    answer::<N>(chip, |chip| code(chip.nand.mark_bad(block)))
}

unsafe extern "C" fn sync<N: Nand>(chip: *mut c_void) -> c_int {
    answer::<N>(chip, |chip| code(chip.nand.sync()))
}

/// What survives a power cut of the machine. All of them survive the end of the process, kill -9 too.
#[derive(Clone, Copy, Debug, PartialEq, Eq)]
pub enum Mode {
    /// Each acknowledged call.
    Always = 1,
    /// A beginning of the history that has all that was flushed.
    Flush = 2,
    /// Nothing is promised.
    Never = 3,
}

/// A device in a sparse file. It is closed when it is dropped; `close` tells whether that failed.
///
/// ```
/// use mintlintel::{Image, Mode, Shape, Was};
///
/// # fn main() -> Result<(), Box<dyn std::error::Error>> {
/// let path = std::env::temp_dir().join(format!("mintlintel-{}.img", std::process::id()));
/// let shape = Shape { luns: 1, blocks: 8, pages: 16, page_bytes: 512, sectors: 100 };
/// Image::open(&path, Mode::Flush, shape)?.write(7, &[1; 512])?;
/// let mut image = Image::open_existing(&path, Mode::Flush)?;
/// let mut page = [0; 512];
/// assert_eq!(image.read(7, &mut page)?, Was::Written);
/// assert_eq!(page, [1; 512]);
/// # std::fs::remove_file(&path)?;
/// # Ok(())
/// # }
/// ```
pub struct Image {
    handle: UnsafeCell<raw::Image>,
    // Readers hold it to read while they read, and the close to write.
    is_open: Arc<RwLock<bool>>,
}

// A handle may go to another thread, as a whole.
unsafe impl Send for Image {}

fn c_path(path: &Path) -> Result<CString, DurableFault> {
    CString::new(path.as_os_str().as_bytes()).map_err(|error| DurableFault::File(error.into()))
}

const NO_NUMBERS: Shape = Shape { luns: 0, blocks: 0, pages: 0, page_bytes: 0, sectors: 0 };

impl Image {
    /// Opens the image, and makes it if there is no such file.
    pub fn open(path: impl AsRef<Path>, mode: Mode, shape: Shape) -> Result<Image, DurableFault> {
        Image::open_with(path.as_ref(), mode, shape, false)
    }

    fn open_with(path: &Path, mode: Mode, shape: Shape, despite_losses: bool) -> Result<Image, DurableFault> {
        let name = c_path(path)?;
        let mut handle = raw::Image::CLOSED;
        let mut losses = 0;
        let (path, mode) = (name.as_ptr(), mode as c_int);
        let Shape { luns, blocks, pages, page_bytes, sectors } = shape;
        let code = if despite_losses {
            unsafe { raw::mintlintel_image_open_despite_losses(&mut handle, path, mode, luns, blocks, pages, page_bytes, sectors, &mut losses) }
        } else {
            unsafe { raw::mintlintel_image_open(&mut handle, path, mode, luns, blocks, pages, page_bytes, sectors) }
        };
        match code {
            0 => Ok(Image { handle: UnsafeCell::new(handle), is_open: Arc::new(RwLock::new(true)) }),
            code => Err(DurableFault::of(code, io::Error::last_os_error)),
        }
    }

    /// Opens an image that is there, with its own numbers.
    pub fn open_existing(path: impl AsRef<Path>, mode: Mode) -> Result<Image, DurableFault> {
        Image::open(path, mode, NO_NUMBERS)
    }

    /// The same, also of an image of which pages have become unreadable: `losses` tells how many.
    pub fn open_despite_losses(path: impl AsRef<Path>, mode: Mode) -> Result<Image, DurableFault> {
        Image::open_with(path.as_ref(), mode, NO_NUMBERS, true)
    }

    calls!(at);

    fn at(&self) -> *mut raw::Durable {
        self.handle.get().cast()
    }

    fn file_error(&self) -> io::Error {
        io::Error::from_raw_os_error(unsafe { raw::mintlintel_image_errno(self.handle.get()) })
    }

    fn go_on(&self) {}

    /// Copies the image as it stands into a new file, an image of its own.
    pub fn copy(&mut self, path: impl AsRef<Path>) -> Result<(), DurableFault> {
        let name = c_path(path.as_ref())?;
        match unsafe { raw::mintlintel_image_copy(self.handle.get(), name.as_ptr()) } {
            0 => Ok(()),
            code => Err(DurableFault::of(code, io::Error::last_os_error)),
        }
    }

    /// A reader, for another thread. The first one of an image takes 8 bytes for each sector.
    pub fn reader(&mut self) -> Result<Reader, DurableFault> {
        let mut handle = raw::Reader::CLOSED;
        match unsafe { raw::mintlintel_reader_open(&mut handle, self.at()) } {
            0 => Ok(Reader { handle, is_open: Arc::clone(&self.is_open) }),
            code => Err(DurableFault::of(code, || self.file_error())),
        }
    }

    /// Closes the image, and tells whether its last sync failed. It waits for reads that are under way.
    pub fn close(self) -> Result<(), DurableFault> {
        match self.end() {
            0 => Ok(()),
            code => Err(DurableFault::of(code, io::Error::last_os_error)),
        }
    }

    fn end(&self) -> u32 {
        let mut is_open = self.is_open.write().unwrap_or_else(PoisonError::into_inner);
        *is_open = false;
        unsafe { raw::mintlintel_image_close(self.handle.get()) }
    }
}

impl Drop for Image {
    fn drop(&mut self) {
        self.end();
    }
}

/// Reads an image beside the thread that writes to it. A read waits for no write, collection, erase or sync. It answers what its sector had after a
/// beginning of all writes and trims that were done, in their order, which has all that this reader has seen.
///
/// ```
/// # use mintlintel::{Image, Mode, Shape, Was};
/// # fn main() -> Result<(), Box<dyn std::error::Error>> {
/// # let path = std::env::temp_dir().join(format!("mintlintel-readers-{}.img", std::process::id()));
/// let mut image = Image::open(&path, Mode::Never, Shape { luns: 1, blocks: 8, pages: 16, page_bytes: 512, sectors: 100 })?;
/// let mut reader = image.reader()?;
/// image.write(7, &[1; 512])?;
/// let thread = std::thread::spawn(move || {
///     let mut page = [0; 512];
///     reader.read(7, &mut page).map(|was| (was, page))
/// });
/// let (was, page) = thread.join().unwrap()?;
/// assert_eq!((was, page), (Was::Written, [1; 512]));
/// # std::fs::remove_file(&path)?;
/// # Ok(())
/// # }
/// ```
///
/// It may go to another thread, and two threads can't share one:
///
/// ```compile_fail,E0277
/// fn is_shared<T: Sync>() {}
/// is_shared::<mintlintel::Reader>();
/// ```
pub struct Reader {
    handle: raw::Reader,
    is_open: Arc<RwLock<bool>>,
}

// A handle may go to another thread, as a whole.
unsafe impl Send for Reader {}

impl Reader {
    /// Reads a sector into a buffer of one page. Of an empty sector, and after a fault, the buffer has any bytes.
    pub fn read(&mut self, sector: u32, out: &mut [u8]) -> Result<Was, DurableFault> {
        // Only a close holds the lock otherwise, and a closed image isn't waited for.
        let _open = match self.is_open.try_read() {
            Ok(is_open) if *is_open => is_open,
            _ => return Err(DurableFault::Closed),
        };
        was_read(unsafe { raw::mintlintel_reader_read(&mut self.handle, sector, out.as_mut_ptr().cast(), out.len()) })
    }
}

impl Drop for Reader {
    fn drop(&mut self) {
        unsafe { raw::mintlintel_reader_close(&mut self.handle) };
    }
}
