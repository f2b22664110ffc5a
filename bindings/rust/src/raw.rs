//! The calls of C, by `mintlintel.h`.
use std::ffi::c_void;
use std::os::raw::{c_char, c_int};
use std::ptr;

/// A handle: closed as all zero bytes.
#[derive(Debug)]
#[repr(C)]
pub struct Handle {
    at: *mut c_void,
    is_open: u64,
}

impl Handle {
    pub const CLOSED: Handle = Handle {
        at: ptr::null_mut(),
        is_open: 0,
    };
}

/// The codes that the calls return, by the names of `mintlintel.h`.
pub mod code {
    pub const DONE: u32 = 0;
    pub const WRITTEN: u32 = 1;
    pub const NO_SECTOR: u32 = 3;
    pub const NOT_A_PAGE: u32 = 4;
    pub const WORN_OUT: u32 = 5;
    pub const NO_MEMORY: u32 = 6;
    pub const NO_BLOCK: u32 = 7;
    pub const NO_SUCH_BLOCK: u32 = 10;
    pub const NOTHING_TO_GAIN: u32 = 20;
    pub const NO_SPARE: u32 = 21;
    pub const LOST: u32 = 22;
    pub const RETIRED: u32 = 23;
    pub const PINNED: u32 = 24;
    pub const STALE: u32 = 25;
    pub const KEPT: u32 = 26;
    pub const EXHAUSTED: u32 = 27;
    pub const BAD_LUNS: u32 = 101;
    pub const BAD_BLOCKS: u32 = 102;
    pub const BAD_PAGES: u32 = 103;
    pub const BAD_WORDS: u32 = 104;
    pub const BAD_SECTORS: u32 = 105;
    pub const BAD_ENDURANCE: u32 = 106;
    pub const BAD_SEATS: u32 = 107;
    pub const TOO_MANY_WORDS: u32 = 108;
    pub const TOO_FEW_BLOCKS: u32 = 109;
}

#[repr(C)]
#[derive(Default)]
pub struct Numbers {
    pub luns: u32,
    pub blocks: u32,
    pub pages: u32,
    pub words: u32,
    pub sectors: u32,
    pub endurance: u32,
    pub hosts: u32,
    pub brooms: u32,
}

#[repr(C)]
#[derive(Default)]
pub struct Totals {
    pub programs: u64,
    pub copies: u64,
    pub erases: u64,
}

#[repr(C)]
#[derive(Default)]
pub struct Block {
    pub erases: u32,
    pub live: u32,
    pub retired: u32,
}

#[repr(C)]
#[derive(Default)]
pub struct Page {
    pub block: u32,
    pub generation: u32,
}

#[repr(C)]
#[derive(Default)]
pub struct State {
    pub phase: u32,
    pub readers: u32,
    pub written: u32,
    pub erases: u32,
}

#[repr(C)]
#[derive(Default)]
pub struct BlockCounts {
    pub erases: u64,
    pub free: u32,
    pub open: u32,
    pub closed: u32,
    pub victims: u32,
    pub drained: u32,
    pub erasing: u32,
    pub retired: u32,
    pub spares: u32,
}

#[repr(C)]
#[derive(Default)]
pub struct Tally {
    pub programs: u64,
    pub moved: u64,
    pub erases: u64,
}

#[repr(C)]
#[derive(Default)]
pub struct Collected {
    pub freed: u32,
    pub kept: u32,
    pub restocked: u32,
    pub retired: u32,
    pub moved: u32,
    pub pinned: u32,
}

/// The handle of a device that survives power cuts.
#[repr(C)]
pub struct Durable {
    core: Handle,
    flash: *mut c_void,
}

impl Durable {
    pub const CLOSED: Durable = Durable { core: Handle::CLOSED, flash: ptr::null_mut() };
}

/// The handle of an image.
#[repr(C)]
pub struct Image {
    device: Durable,
    file: *mut c_void,
}

impl Image {
    pub const CLOSED: Image = Image { device: Durable::CLOSED, file: ptr::null_mut() };
}

/// The handle of a reader.
#[repr(C)]
pub struct Reader {
    search: Handle,
    of: *mut c_void,
    pub chip: *mut c_void,
}

impl Reader {
    pub const CLOSED: Reader = Reader { search: Handle::CLOSED, of: ptr::null_mut(), chip: ptr::null_mut() };
}

#[repr(C)]
#[derive(Default)]
pub struct DurableNumbers {
    pub luns: u32,
    pub blocks: u32,
    pub pages: u32,
    pub page_bytes: u32,
    pub sectors: u32,
}

pub type OnBlock = Option<unsafe extern "C" fn(*mut c_void, u32) -> c_int>;

/// The caller's flash.
#[repr(C)]
pub struct Nand {
    pub chip: *mut c_void,
    pub read: Option<unsafe extern "C" fn(*mut c_void, u32, u32, *mut c_void, *mut c_void) -> c_int>,
    pub program: Option<unsafe extern "C" fn(*mut c_void, u32, u32, *const c_void, *const c_void) -> c_int>,
    pub copyback: Option<unsafe extern "C" fn(*mut c_void, u32, u32, u32, u32, *const c_void) -> c_int>,
    pub erase: OnBlock,
    pub is_bad: OnBlock,
    pub mark_bad: OnBlock,
    pub sync: Option<unsafe extern "C" fn(*mut c_void) -> c_int>,
}

extern "C" {
    pub fn mintlintel_durable_open(
        h: *mut Durable, nand: *const Nand, luns: u32, blocks: u32, pages: u32, page_bytes: u32, sectors: u32,
    ) -> u32;
    pub fn mintlintel_durable_open_despite_losses(
        h: *mut Durable, nand: *const Nand, luns: u32, blocks: u32, pages: u32, page_bytes: u32, sectors: u32, losses: *mut u64,
    ) -> u32;
    pub fn mintlintel_durable_close(h: *mut Durable);
    pub fn mintlintel_durable_read(h: *mut Durable, sector: u32, out: *mut c_void, bytes: usize) -> u32;
    pub fn mintlintel_durable_write(h: *mut Durable, sector: u32, bytes: *const c_void, count: usize) -> u32;
    pub fn mintlintel_durable_write_new(h: *mut Durable, sector: u32, bytes: *const c_void, count: usize) -> u32;
    pub fn mintlintel_durable_trim(h: *mut Durable, first: u32, count: u32) -> u32;
    pub fn mintlintel_durable_flush(h: *mut Durable) -> u32;
    pub fn mintlintel_durable_counts(h: *mut Durable, totals: *mut Totals) -> u32;
    pub fn mintlintel_durable_losses(h: *mut Durable, losses: *mut u64) -> u32;
    pub fn mintlintel_durable_block(h: *mut Durable, block: u32, report: *mut Block) -> u32;
    pub fn mintlintel_durable_numbers(h: *mut Durable, numbers: *mut DurableNumbers) -> u32;
    pub fn mintlintel_reader_open(r: *mut Reader, h: *mut Durable) -> u32;
    pub fn mintlintel_reader_read(r: *mut Reader, sector: u32, out: *mut c_void, bytes: usize) -> u32;
    pub fn mintlintel_reader_close(r: *mut Reader);
    pub fn mintlintel_image_open(
        h: *mut Image, path: *const c_char, mode: c_int, luns: u32, blocks: u32, pages: u32, page_bytes: u32, sectors: u32,
    ) -> u32;
    pub fn mintlintel_image_open_despite_losses(
        h: *mut Image, path: *const c_char, mode: c_int, luns: u32, blocks: u32, pages: u32, page_bytes: u32, sectors: u32, losses: *mut u64,
    ) -> u32;
    pub fn mintlintel_image_close(h: *mut Image) -> u32;
    pub fn mintlintel_image_copy(h: *mut Image, path: *const c_char) -> u32;
    pub fn mintlintel_image_errno(h: *const Image) -> c_int;
    pub fn mintlintel_one_open(h: *mut Handle, luns: u32, blocks: u32, pages: u32, words: u32, sectors: u32, endurance: u32) -> u32;
    pub fn mintlintel_one_close(h: *mut Handle);
    pub fn mintlintel_one_read(h: *mut Handle, sector: u32, out: *mut u8, bytes: usize) -> u32;
    pub fn mintlintel_one_write(h: *mut Handle, sector: u32, bytes: *const u8, count: usize) -> u32;
    pub fn mintlintel_one_write_new(h: *mut Handle, sector: u32, bytes: *const u8, count: usize) -> u32;
    pub fn mintlintel_one_trim(h: *mut Handle, sector: u32) -> u32;
    pub fn mintlintel_one_counts(h: *mut Handle, totals: *mut Totals) -> u32;
    pub fn mintlintel_one_block(h: *mut Handle, block: u32, report: *mut Block) -> u32;
    pub fn mintlintel_one_numbers(h: *mut Handle, numbers: *mut Numbers) -> u32;
    pub fn mintlintel_shared_open(
        hosts: *mut Handle, host_count: usize, brooms: *mut Handle, broom_count: usize,
        luns: u32, blocks: u32, pages: u32, words: u32, sectors: u32, endurance: u32,
    ) -> u32;
    pub fn mintlintel_seat_close(h: *mut Handle);
    pub fn mintlintel_seat_numbers(h: *mut Handle, numbers: *mut Numbers) -> u32;
    pub fn mintlintel_host_read(h: *mut Handle, sector: u32, out: *mut u8, bytes: usize) -> u32;
    pub fn mintlintel_host_write(h: *mut Handle, sector: u32, bytes: *const u8, count: usize) -> u32;
    pub fn mintlintel_host_write_new(h: *mut Handle, sector: u32, bytes: *const u8, count: usize) -> u32;
    pub fn mintlintel_host_trim(h: *mut Handle, sector: u32) -> u32;
    pub fn mintlintel_host_look(h: *mut Handle, sector: u32) -> u32;
    pub fn mintlintel_host_hold(h: *mut Handle, sector: u32) -> u32;
    pub fn mintlintel_host_copy(h: *mut Handle, out: *mut u8, bytes: usize) -> u32;
    pub fn mintlintel_host_word(h: *mut Handle, i: u32, word: *mut u64) -> u32;
    pub fn mintlintel_host_held(h: *mut Handle, page: *mut Page) -> u32;
    pub fn mintlintel_host_release(h: *mut Handle) -> u32;
    pub fn mintlintel_broom_drain(h: *mut Handle, block: *mut u32, moved: *mut u32) -> u32;
    pub fn mintlintel_broom_drain_next(h: *mut Handle, block: *mut u32, moved: *mut u32) -> u32;
    pub fn mintlintel_broom_drain_dead(h: *mut Handle, block: *mut u32, moved: *mut u32) -> u32;
    pub fn mintlintel_broom_erase(h: *mut Handle, block: u32) -> u32;
    pub fn mintlintel_broom_restock(h: *mut Handle) -> u32;
    pub fn mintlintel_broom_block(h: *mut Handle, block: u32, state: *mut State) -> u32;
    pub fn mintlintel_broom_counts(h: *mut Handle, counts: *mut BlockCounts) -> u32;
    pub fn mintlintel_broom_tally(h: *mut Handle, tally: *mut Tally) -> u32;
    pub fn mintlintel_version() -> *const c_char;
    pub fn mintlintel_explain(code: u32, numbers: *const Numbers, text: *mut c_char, bytes: usize);
    pub fn mintlintel_nearest(numbers: *mut Numbers);
    pub fn mintlintel_collect(h: *mut Handle, goal: u32, did: *mut Collected) -> u32;
    pub fn mintlintel_write_within(h: *mut Handle, sector: u32, bytes: *const u8, count: usize, milliseconds: u32) -> u32;
}
