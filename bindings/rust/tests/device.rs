//! A device for one thread, against a plain array.
use mintlintel::{Device, Fault, Geometry, OpenFault, Was};
use std::thread;

const GEOMETRY: Geometry = Geometry { luns: 1, blocks: 12, pages: 8, words: 2, sectors: 60, endurance: 100_000 };

/// The same numbers in each run.
fn drawn(state: &mut u64) -> usize {
    *state ^= *state << 13;
    *state ^= *state >> 7;
    *state ^= *state << 17;
    (*state >> 32) as usize
}

#[test]
fn device_agrees_with_array() -> Result<(), Fault> {
    let mut device = Device::open(GEOMETRY).expect("a small device opens");
    let mut array = [None; 60];
    let mut state = 88_172_645_463_325_252;
    for number in 0..50_000u64 {
        let sector = drawn(&mut state) % 60;
        let was = if array[sector].is_some() { Was::Written } else { Was::Empty };
        let mut page = [0; 16];
        page[..8].copy_from_slice(&number.to_le_bytes());
        match drawn(&mut state) % 4 {
            0 => {
                assert_eq!(device.write(sector as u32, &page)?, was);
                array[sector] = Some(page);
            }
            1 => {
                assert_eq!(device.write_new(sector as u32, &page)?, was);
                array[sector] = array[sector].or(Some(page));
            }
            2 => {
                assert_eq!(device.trim(sector as u32)?, was);
                array[sector] = None;
            }
            _ => {
                let mut out = [9; 16];
                assert_eq!(device.read(sector as u32, &mut out)?, was);
                assert_eq!(out, array[sector].unwrap_or([9; 16]));
            }
        }
    }
    let counts = device.counts()?;
    let erases: u64 = (0..12).map(|b| device.block(b).map(|block| u64::from(block.erases))).sum::<Result<u64, Fault>>()?;
    assert!(counts.copies > 0 && counts.erases == erases);
    assert_eq!(device.geometry()?, GEOMETRY);
    Ok(())
}

#[test]
fn refusals_of_device() {
    let mut device = Device::open(GEOMETRY).expect("a small device opens");
    let mut out = [9; 16];
    assert_eq!(device.read(60, &mut out), Err(Fault::NoSector { sector: 60, sectors: 60 }));
    assert_eq!(device.read(0, &mut out[..15]), Err(Fault::NotAPage { bytes: 15, page_bytes: 16 }));
    assert_eq!(device.read(0, &mut []), Err(Fault::NotAPage { bytes: 0, page_bytes: 16 }));
    assert_eq!(device.write(0, &[]), Err(Fault::NotAPage { bytes: 0, page_bytes: 16 }));
    assert_eq!(device.block(12), Err(Fault::NoSuchBlock { block: 12, blocks: 12 }));
    assert_eq!(out, [9; 16]);
    let told = [
        (device.read(60, &mut out).err(), 3, "no such sector: 60 given, and the device has 60"),
        (device.write(0, &[0; 17]).err(), 4, "not a page: 17 bytes given, and a page has 16"),
        (device.block(12).err(), 10, "no such block: 12 given, and the device has 12"),
    ];
    for (fault, code, text) in told {
        assert_eq!(fault.map(|fault| (fault.code(), fault.to_string())), Some((code, text.to_string())));
    }
    let too_small = Geometry { sectors: 88, ..GEOMETRY };
    let error = Device::open(too_small).expect_err("it leaves no room");
    assert_eq!((error.fault, error.fault.code(), error.asked.geometry), (OpenFault::TooFewBlocks, 109, too_small));
    assert!(error.to_string().ends_with("= 87 sectors, and 88 were given; it would do with blocks=13"), "{error}");
    assert_eq!(error.nearest().geometry, Geometry { blocks: 13, ..too_small });
    Device::open(error.nearest().geometry).expect("the nearest one opens");
}

#[test]
fn worn_out_device_can_be_read() {
    let mut device = Device::open(Geometry { blocks: 3, pages: 1, sectors: 1, endurance: 1, ..GEOMETRY }).expect("it opens");
    let mut last = None;
    for number in 0..100u8 {
        match device.write(0, &[number; 16]) {
            Ok(_) => last = Some([number; 16]),
            Err(fault) => assert_eq!(fault, Fault::WornOut),
        }
    }
    let mut out = [0; 16];
    assert_eq!(device.read(0, &mut out), Ok(Was::Written));
    assert!(last == Some(out) && out != [99; 16]);
}

#[test]
fn device_moves_to_another_thread() {
    let mut device = Device::open(GEOMETRY).expect("a small device opens");
    let moved = thread::spawn(move || device.write(7, &[1; 16]).map(|was| (device, was)));
    let (mut device, was) = moved.join().expect("the thread ends").expect("it writes");
    let mut out = [0; 16];
    assert_eq!((was, device.read(7, &mut out), out), (Was::Empty, Ok(Was::Written), [1; 16]));
}

/// The counts and the numbers are had of a device that is borrowed.
#[test]
fn getters_borrow_the_device() -> Result<(), Fault> {
    let mut device = Device::open(GEOMETRY).expect("a small device opens");
    device.write(7, &[1; 16])?;
    let (device, same) = (&device, &device);
    assert_eq!((device.counts()?.programs, same.geometry()?, device.block(0)?.live), (1, GEOMETRY, 1));
    Ok(())
}
