//! A device over a chip whose power goes, or that panics, and an image, against plain arrays.
use mintlintel::{ChipFault, Durable, DurableFault, Image, Mode, Nand, Reading, Shape, Was, STAMP_BYTES};
use std::panic::{catch_unwind, AssertUnwindSafe};
use std::sync::atomic::{AtomicBool, AtomicU64, Ordering::SeqCst};
use std::sync::{Arc, Mutex};

const SHAPE: Shape = Shape { luns: 1, blocks: 12, pages: 8, page_bytes: 16, sectors: 60 };

#[derive(Clone)]
enum Page {
    Erased,
    Torn,
    Version([u8; 16], [u8; STAMP_BYTES]),
}

/// A chip in memory. After so many commands its power goes, inside the last of them. From a block on all are bad.
struct Chip {
    pages: Vec<Page>,
    left: u32,
    good: u32,
}

impl Chip {
    fn command(&mut self) -> Result<(), ChipFault> {
        self.left = self.left.saturating_sub(1);
        if self.left == 0 { Err(ChipFault::PowerGone) } else { Ok(()) }
    }
}

impl Nand for Chip {
    fn read(&mut self, block: u32, page: u32, main: Option<&mut [u8]>, stamp: &mut [u8; STAMP_BYTES]) -> Result<Reading, ChipFault> {
        // It is shown no memory of another part of the program.
        assert!(stamp.iter().chain(main.iter().flat_map(|bytes| bytes.iter())).all(|byte| *byte == 0));
        match &self.pages[(8 * block + page) as usize] {
            Page::Erased => Ok(Reading::Erased),
            Page::Torn => Ok(Reading::Unreadable),
            Page::Version(bytes, with) => {
                if let Some(main) = main {
                    main.copy_from_slice(bytes);
                }
                *stamp = *with;
                Ok(Reading::Version)
            }
        }
    }

    fn program(&mut self, block: u32, page: u32, main: &[u8], stamp: &[u8; STAMP_BYTES]) -> Result<(), ChipFault> {
        let at = (8 * block + page) as usize;
        assert!(matches!(self.pages[at], Page::Erased));
        self.pages[at] = Page::Torn;
        self.command()?;
        self.pages[at] = Page::Version(main.try_into().expect("a page has 16 bytes"), *stamp);
        Ok(())
    }

    fn is_bad(&mut self, block: u32) -> bool {
        block >= self.good
    }

    fn erase(&mut self, block: u32) -> Result<(), ChipFault> {
        for page in 0..8 {
            self.pages[(8 * block + page) as usize] = Page::Erased;
        }
        self.command()
    }
}

/// The same numbers in each run.
fn drawn(state: &mut u64) -> u32 {
    *state ^= *state << 13;
    *state ^= *state >> 7;
    *state ^= *state << 17;
    (*state >> 32) as u32
}

#[test]
fn no_acknowledged_write_is_lost() -> Result<(), DurableFault> {
    let mut chip = Chip { pages: vec![Page::Erased; 96], left: 0, good: 12 };
    let mut sectors = [0u64; 60];
    let mut state = 88_172_645_463_325_252;
    for round in 0..300u64 {
        chip.left = 1 + drawn(&mut state) % 80;
        let mut device = Durable::open(chip, SHAPE)?;
        let mut number = round << 32;
        let cut = loop {
            number += 1;
            let sector = drawn(&mut state) % 60;
            let mut page = [0; 16];
            page[..8].copy_from_slice(&number.to_le_bytes());
            match device.write(sector, &page) {
                Ok(was) => assert_eq!(was == Was::Written, sectors[sector as usize] != 0),
                Err(DurableFault::PowerGone) => break sector,
                Err(fault) => return Err(fault),
            }
            sectors[sector as usize] = number;
        };
        chip = device.into_nand();
        chip.left = u32::MAX;
        let mut device = Durable::open(chip, SHAPE)?;
        for sector in 0..60 {
            let mut page = [0; 16];
            let was = device.read(sector, &mut page)?;
            let value = u64::from_le_bytes(page[..8].try_into().expect("eight bytes"));
            let held = sectors[sector as usize];
            assert_eq!(was == Was::Written, value != 0);
            assert!(value == held || (sector == cut && value == number));
            sectors[sector as usize] = value;
        }
        chip = device.into_nand();
    }
    Ok(())
}

#[test]
fn bad_blocks_leave_no_room() {
    let chip = Chip { pages: vec![Page::Erased; 96], left: u32::MAX, good: 8 };
    assert!(matches!(Durable::open(chip, SHAPE), Err(DurableFault::NoRoom)));
}

#[test]
fn a_lost_page_is_told() -> Result<(), DurableFault> {
    let chip = Chip { pages: vec![Page::Erased; 96], left: u32::MAX, good: 12 };
    let mut device = Durable::open(chip, SHAPE)?;
    for sector in 0..4 {
        device.write(sector, &[1; 16])?;
    }
    assert_eq!(device.losses()?, 0);
    let mut chip = device.into_nand();
    let first = chip.pages.iter().position(|page| matches!(page, Page::Version(..))).expect("a page was programmed");
    chip.pages[first + 1] = Page::Torn;
    let pages = chip.pages.clone();
    assert!(matches!(Durable::open(chip, SHAPE), Err(DurableFault::PagesLost)));
    let mut device = Durable::open_despite_losses(Chip { pages, left: u32::MAX, good: 12 }, SHAPE)?;
    assert_eq!(device.losses()?, 1);
    let mut page = [0; 16];
    let found: Vec<Was> = (0..4).map(|sector| device.read(sector, &mut page)).collect::<Result<_, _>>()?;
    assert_eq!(found, [Was::Written, Was::Empty, Was::Written, Was::Written]);
    Ok(())
}

/// A chip that panics in the last of so many calls of its functions. Its block 2 fails.
struct Panics {
    chip: Chip,
    left: u32,
    marked: Vec<u32>,
}

impl Panics {
    fn count(&mut self, function: &'static str) {
        self.left = self.left.wrapping_sub(1);
        if self.left == 0 {
            std::panic::panic_any(function);
        }
    }
}

impl Nand for Panics {
    fn read(&mut self, block: u32, page: u32, main: Option<&mut [u8]>, stamp: &mut [u8; STAMP_BYTES]) -> Result<Reading, ChipFault> {
        self.count("read");
        self.chip.read(block, page, main, stamp)
    }

    fn program(&mut self, block: u32, page: u32, main: &[u8], stamp: &[u8; STAMP_BYTES]) -> Result<(), ChipFault> {
        self.count("program");
        if block == 2 {
            return Err(ChipFault::Failed);
        }
        self.chip.program(block, page, main, stamp)
    }

    fn erase(&mut self, block: u32) -> Result<(), ChipFault> {
        self.count("erase");
        self.chip.erase(block)
    }

    fn is_bad(&mut self, block: u32) -> bool {
        self.count("is_bad");
        self.marked.contains(&block)
    }

    fn mark_bad(&mut self, block: u32) -> Result<(), ChipFault> {
        self.count("mark_bad");
        self.marked.push(block);
        Ok(())
    }

    fn sync(&mut self) -> Result<(), ChipFault> {
        self.count("sync");
        Ok(())
    }
}

/// Writes sectors until the chip panics in the given call, or to the end. What the writes were of, and the function that panicked.
fn written_until_panic(device: &mut Durable<Panics>, values: &mut [u8; 60]) -> Option<(u32, u8, String)> {
    for number in 0..200u32 {
        let (sector, value) = (number * 7 % 60, number as u8 + 1);
        let written = catch_unwind(AssertUnwindSafe(|| {
            device.write(sector, &[value; 16])?;
            device.flush()
        }));
        match written {
            Ok(done) => done.expect("the chip has done what it was told"),
            Err(panic) => return Some((sector, value, panic.downcast_ref::<&str>().expect("its name").to_string())),
        }
        values[sector as usize] = value;
    }
    None
}

#[test]
fn a_panic_of_the_chip_goes_on_and_loses_nothing() -> Result<(), DurableFault> {
    let mut seen = std::collections::BTreeSet::new();
    for left in 1.. {
        let chip = Panics { chip: Chip { pages: vec![Page::Erased; 96], left: u32::MAX, good: 12 }, left, marked: Vec::new() };
        let opened = catch_unwind(AssertUnwindSafe(|| Durable::open(chip, SHAPE)));
        let mut device = match opened {
            Ok(device) => device?,
            Err(panic) => {
                seen.insert(panic.downcast_ref::<&str>().expect("its name").to_string());
                continue;
            }
        };
        let mut values = [0; 60];
        let (sector, value, function) = match written_until_panic(&mut device, &mut values) {
            None => break,
            Some(panicked) => panicked,
        };
        seen.insert(function);
        assert!(matches!(device.write(sector, &[9; 16]), Err(DurableFault::PowerGone)));
        assert!(matches!(device.read(sector, &mut [9; 16]), Err(DurableFault::PowerGone)));
        let mut device = Durable::open(device.into_nand(), SHAPE)?;
        for at in 0..60 {
            let (mut page, held) = ([0; 16], values[at as usize]);
            device.read(at, &mut page)?;
            assert!(page == [held; 16] || (at == sector && page == [value; 16]));
        }
    }
    assert_eq!(seen.into_iter().collect::<Vec<_>>(), ["erase", "is_bad", "mark_bad", "program", "read", "sync"]);
    Ok(())
}

#[test]
fn a_path_with_a_null_byte_is_refused() -> Result<(), Box<dyn std::error::Error>> {
    let path = std::env::temp_dir().join(format!("mintlintel-null-{}", std::process::id()));
    let with_null = path.join("a\0b");
    let is_refused = |fault| matches!(fault, DurableFault::File(error) if error.kind() == std::io::ErrorKind::InvalidInput);
    assert!(Image::open(&with_null, Mode::Never, SHAPE).map_or_else(is_refused, |_| false));
    let mut image = Image::open(&path, Mode::Never, SHAPE)?;
    assert!(image.copy(&with_null).map_or_else(is_refused, |_| false));
    std::fs::remove_file(&path)?;
    Ok(())
}

#[test]
fn image_keeps_what_was_written() -> Result<(), Box<dyn std::error::Error>> {
    let path = std::env::temp_dir().join(format!("mintlintel-test-{}.img", std::process::id()));
    let copied = path.with_extension("copy");
    let _ = std::fs::remove_file(&path);
    let _ = std::fs::remove_file(&copied);
    for mode in [Mode::Always, Mode::Flush, Mode::Never] {
        let mut image = Image::open(&path, mode, SHAPE)?;
        assert!(matches!(Image::open_existing(&path, mode), Err(DurableFault::InUse)));
        image.write(3, &[mode as u8; 16])?;
        image.flush()?;
        image.close()?;
    }
    let mut image = Image::open_existing(&path, Mode::Flush)?;
    assert_eq!(image.shape()?, SHAPE);
    let mut page = [0; 16];
    assert_eq!(image.read(3, &mut page)?, Was::Written);
    assert_eq!(page, [3; 16]);
    image.copy(&copied)?;
    assert_eq!(image.trim(0, 60)?, Was::Written);
    assert_eq!(image.trim(0, 60)?, Was::Empty);
    assert!(matches!(image.read(60, &mut page), Err(DurableFault::NoSector)));
    assert!(matches!(image.write(0, &[0; 15]), Err(DurableFault::NotAPage)));
    assert!(matches!(image.block(12), Err(DurableFault::NoSuchBlock)));
    assert_eq!(image.counts()?.programs, 1);
    drop(image);
    assert!(matches!(Image::open(&path, Mode::Flush, Shape { sectors: 59, ..SHAPE }), Err(DurableFault::OtherNumbers)));
    let mut copy = Image::open_existing(&copied, Mode::Never)?;
    assert_eq!(copy.read(3, &mut page)?, Was::Written);
    std::fs::remove_file(&path)?;
    std::fs::remove_file(&copied)?;
    Ok(())
}

#[test]
fn readers_see_what_is_written_beside_them() -> Result<(), Box<dyn std::error::Error>> {
    let path = std::env::temp_dir().join(format!("mintlintel-readers-test-{}.img", std::process::id()));
    let mut image = Image::open(&path, Mode::Never, SHAPE)?;
    let page_bytes = SHAPE.page_bytes as usize;
    let readers = (0..3).map(|_| image.reader()).collect::<Result<Vec<_>, _>>()?;
    let threads: Vec<_> = readers
        .into_iter()
        .map(|mut reader| {
            std::thread::spawn(move || {
                let (mut page, mut seen) = (vec![0; page_bytes], 0);
                loop {
                    match reader.read(3, &mut page) {
                        Ok(Was::Empty) => assert_eq!(seen, 0),
                        Ok(Was::Written) => {
                            assert!(page.iter().all(|byte| *byte == page[0]) && page[0] >= seen);
                            seen = page[0];
                        }
                        Err(DurableFault::Unsettled) => {}
                        Err(DurableFault::Closed) => return seen,
                        Err(other) => panic!("{other}"),
                    }
                }
            })
        })
        .collect();
    for value in 1..=200 {
        image.write(3, &vec![value; page_bytes])?;
        image.write(u32::from(value) % 60, &vec![value; page_bytes])?;
    }
    assert!(matches!(image.reader()?.read(SHAPE.sectors, &mut [0; 1]), Err(DurableFault::NoSector)));
    image.close()?;
    for thread in threads {
        assert!(thread.join().map_err(|_| "a reader failed")? <= 200);
    }
    std::fs::remove_file(&path)?;
    Ok(())
}

/// Flash that several threads may have. A page is torn while it is programmed, and a clone is of the same flash. In a thread of this name it panics.
#[derive(Clone)]
struct Flash(Arc<Vec<Mutex<Page>>>);

impl Flash {
    fn page(&self, block: u32, page: u32) -> std::sync::MutexGuard<'_, Page> {
        self.0[(8 * block + page) as usize].lock().expect("no thread panics with a page")
    }
}

impl Nand for Flash {
    fn read(&mut self, block: u32, page: u32, main: Option<&mut [u8]>, stamp: &mut [u8; STAMP_BYTES]) -> Result<Reading, ChipFault> {
        assert!(std::thread::current().name() != Some("panics"), "a panic of a reader's chip");
        match &*self.page(block, page) {
            Page::Erased => Ok(Reading::Erased),
            Page::Torn => Ok(Reading::Unreadable),
            Page::Version(bytes, with) => {
                if let Some(main) = main {
                    main.copy_from_slice(bytes);
                }
                *stamp = *with;
                Ok(Reading::Version)
            }
        }
    }

    fn program(&mut self, block: u32, page: u32, main: &[u8], stamp: &[u8; STAMP_BYTES]) -> Result<(), ChipFault> {
        *self.page(block, page) = Page::Torn;
        std::thread::yield_now();
        *self.page(block, page) = Page::Version(main.try_into().expect("a page has 16 bytes"), *stamp);
        Ok(())
    }

    fn erase(&mut self, block: u32) -> Result<(), ChipFault> {
        (0..8).for_each(|page| *self.page(block, page) = Page::Erased);
        Ok(())
    }
}

fn flash() -> Flash {
    Flash(Arc::new((0..96).map(|_| Mutex::new(Page::Erased)).collect()))
}

/// A page of a sector's write, whose numbers rise.
fn numbered(sector: u32, number: u64) -> [u8; 16] {
    let mut page = [0; 16];
    page[..8].copy_from_slice(&number.to_le_bytes());
    page[8..].copy_from_slice(&(number * u64::from(sector + 1)).to_le_bytes());
    page
}

#[test]
fn readers_of_a_chip_see_what_is_written_beside_them() -> Result<(), DurableFault> {
    let mut device = Durable::open(flash(), SHAPE)?;
    let acknowledged: Vec<AtomicU64> = (0..60).map(|_| AtomicU64::new(0)).collect();
    let is_over = AtomicBool::new(false);
    let (acknowledged, is_over) = (&acknowledged, &is_over);
    let mut shared = device.share();
    let readers = (0..3).map(|_| shared.reader()).collect::<Result<Vec<_>, _>>()?;
    std::thread::scope(|threads| {
        for (turn, mut reader) in readers.into_iter().enumerate() {
            threads.spawn(move || {
                let (mut state, mut seen) = (362_436_069 + turn as u64, [0; 60]);
                while !is_over.load(SeqCst) {
                    let (sector, mut page) = (drawn(&mut state) % 60, [0; 16]);
                    let least = acknowledged[sector as usize].load(SeqCst).max(seen[sector as usize]);
                    match reader.read(sector, &mut page) {
                        Ok(Was::Written) => {
                            let number = u64::from_le_bytes(page[..8].try_into().expect("eight bytes"));
                            assert!(page == numbered(sector, number) && number >= least);
                            seen[sector as usize] = number;
                        }
                        // Trims empty sectors from 40 on.
                        Ok(Was::Empty) => assert!(sector >= 40 || least == 0),
                        Err(DurableFault::Unsettled) => {}
                        Err(other) => panic!("{other}"),
                    }
                }
            });
        }
        let mut state = 88_172_645_463_325_252;
        for number in 1..=4000 {
            let sector = drawn(&mut state) % 60;
            if number % 8 == 0 {
                shared.trim(40 + sector % 16, 4)?;
            } else {
                shared.write(sector, &numbered(sector, number))?;
                acknowledged[sector as usize].store(number, SeqCst);
            }
        }
        is_over.store(true, SeqCst);
        Ok::<(), DurableFault>(())
    })?;
    let mut reader = shared.reader()?;
    for sector in 0..60 {
        let (mut told, mut held) = ([0; 16], [0; 16]);
        assert_eq!(reader.read(sector, &mut told)?, shared.read(sector, &mut held)?);
        assert!(told == held || held == [0; 16]);
    }
    assert!(matches!(reader.read(60, &mut [0; 16]), Err(DurableFault::NoSector)));
    assert!(matches!(reader.read(0, &mut [0; 15]), Err(DurableFault::NotAPage)));
    Ok(())
}

#[test]
fn a_panic_of_a_reader_is_its_own() -> Result<(), DurableFault> {
    let mut device = Durable::open(flash(), SHAPE)?;
    device.write(3, &numbered(3, 1))?;
    let mut shared = device.share();
    let mut reader = shared.reader()?;
    std::thread::scope(|threads| {
        let thread = std::thread::Builder::new().name("panics".into());
        let reader = &mut reader;
        let failed = thread.spawn_scoped(threads, move || reader.read(3, &mut [0; 16]).map(drop)).expect("a thread begins").join();
        assert!(failed.is_err());
    });
    shared.write(3, &numbered(3, 2))?;
    let mut page = [0; 16];
    assert_eq!(shared.reader()?.read(3, &mut page)?, Was::Written);
    assert_eq!(page, numbered(3, 2));
    Ok(())
}
