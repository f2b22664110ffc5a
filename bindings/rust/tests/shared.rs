//! A shared device, its hosts and a broom in threads of their own.
use mintlintel::{Broom, Collect, Collected, Drain, Erase, Fault, Geometry, Held, Host, Numbers, OpenFault, SharedDevice, Tally, Was};
use std::mem;
use std::sync::atomic::{AtomicUsize, Ordering};
use std::thread;
use std::time::Duration;

const GEOMETRY: Geometry = Geometry { luns: 1, blocks: 40, pages: 8, words: 2, sectors: 200, endurance: 1_000_000 };
const WRITERS: usize = 3;

fn page(writer: usize, sector: u32, number: u32) -> [u8; 16] {
    let mut page = [writer as u8; 16];
    page[4..8].copy_from_slice(&sector.to_le_bytes());
    page[8..12].copy_from_slice(&number.to_le_bytes());
    page
}

/// A host writes the sectors of its own class, and reads them back at once; a sector of another one is whole.
fn play(host: &mut Host, writer: usize) -> Result<(), Fault> {
    let mut out = [0; 16];
    for number in 0..20_000u32 {
        let sector = number * 7 % 66 * 3 + writer as u32;
        let written = page(writer, sector, number);
        host.write_within(sector, &written, Duration::from_secs(60))?;
        assert_eq!(host.read(sector, &mut out)?, Was::Written);
        assert_eq!(out, written);
        let other = (sector + 1) % 198;
        if host.read(other, &mut out)? == Was::Written {
            let number = u32::from_le_bytes([out[8], out[9], out[10], out[11]]);
            assert_eq!(out, page(other as usize % 3, other, number));
        }
    }
    Ok(())
}

fn sweep(broom: &mut Broom, left: &AtomicUsize) -> Result<u32, Fault> {
    let mut moved_all = 0;
    while left.load(Ordering::SeqCst) > 0 {
        let Collected { moved, ended, .. } = broom.collect(4)?;
        moved_all += moved;
        if ended != Collect::Done {
            thread::sleep(Duration::from_micros(100));
        }
    }
    Ok(moved_all)
}

#[test]
fn hosts_read_their_writes_while_broom_collects() {
    let SharedDevice { hosts, mut brooms } = SharedDevice::open(GEOMETRY, WRITERS, 1).expect("it opens");
    let left = AtomicUsize::new(WRITERS);
    thread::scope(|scope| {
        for (writer, mut host) in hosts.into_iter().enumerate() {
            let left = &left;
            scope.spawn(move || {
                let played = play(&mut host, writer);
                left.fetch_sub(1, Ordering::SeqCst);
                played.expect("each call is answered");
            });
        }
        let swept = sweep(&mut brooms[0], &left).expect("each call is answered");
        assert!(swept > 0);
    });
}

#[test]
fn held_page_does_not_change() -> Result<(), Fault> {
    let mut device = SharedDevice::open(GEOMETRY, 2, 1).expect("it opens");
    let (mut reader, mut writer) = (device.hosts.remove(0), device.hosts.remove(0));
    assert!(reader.hold(5)?.is_none());
    writer.write(5, &page(1, 5, 1))?;
    let held = reader.hold(5)?.expect("sector 5 is written");
    let place = held.place()?;
    let mut number = 2;
    let mut pinned = false;
    for _ in 0..2000 {
        number += 1;
        if writer.write(number % 200, &page(1, number % 200, number)) == Err(Fault::NoBlock) {
            if let Drain::Drained { block, .. } = device.brooms[0].drain()? {
                let erased = device.brooms[0].erase(block)?;
                assert_eq!(erased == Erase::Pinned, block == place.block);
                pinned |= erased == Erase::Pinned;
            }
        }
        let mut out = [0; 16];
        held.copy(&mut out)?;
        assert_eq!(out, page(1, 5, 1));
        assert_eq!(held.word(1)?, u64::from_le_bytes([1, 0, 0, 0, 1, 1, 1, 1]));
    }
    assert!(pinned);
    assert_eq!(held.word(2), Err(Fault::NoSuchWord { word: 2, words: 2 }));
    drop(held);
    let mut out = [0; 16];
    assert_eq!(reader.read(5, &mut out)?, Was::Written);
    assert_ne!(out, page(1, 5, 1));
    Ok(())
}

#[test]
fn refusals_of_shared_device() -> Result<(), Fault> {
    assert_eq!(SharedDevice::open(GEOMETRY, 0, 0).map_err(|error| error.fault).err(), Some(OpenFault::Seats));
    assert_eq!(SharedDevice::open(GEOMETRY, 501, 0).map_err(|error| error.fault).err(), Some(OpenFault::Seats));
    assert_eq!(SharedDevice::open(GEOMETRY, 39, 1).map_err(|error| error.fault).err(), Some(OpenFault::TooFewBlocks));
    let mut device = SharedDevice::open(GEOMETRY, 1, 1).expect("it opens");
    assert_eq!(device.hosts[0].read(200, &mut [0; 16]), Err(Fault::NoSector { sector: 200, sectors: 200 }));
    assert_eq!(device.hosts[0].write(0, &[0; 17]), Err(Fault::NotAPage { bytes: 17, page_bytes: 16 }));
    assert_eq!(device.hosts[0].write_new(0, &[0; 16])?, Was::Empty);
    assert_eq!(device.hosts[0].write_new(0, &[1; 16])?, Was::Written);
    assert_eq!(device.hosts[0].trim(0)?, Was::Written);
    assert_eq!(device.brooms[0].drain()?, Drain::NothingToGain);
    assert_eq!(device.brooms[0].erase(0)?, Erase::Stale);
    assert_eq!(device.brooms[0].erase(40), Err(Fault::NoSuchBlock { block: 40, blocks: 40 }));
    let numbers = Numbers { geometry: GEOMETRY, hosts: 1, brooms: 1 };
    assert_eq!((device.hosts[0].numbers()?, device.brooms[0].numbers()?), (numbers, numbers));
    assert_eq!((device.hosts[0].geometry()?, device.brooms[0].geometry()?), (GEOMETRY, GEOMETRY));
    Ok(())
}

/// A report through a shared reference beside others of the same seat.
#[test]
fn reports_through_shared_references() -> Result<(), Fault> {
    let mut device = SharedDevice::open(GEOMETRY, 1, 1).expect("it opens");
    device.hosts[0].write(5, &page(0, 5, 1))?;
    let (host, broom) = (&device.hosts[0], &device.brooms[0]);
    let (looks, brooms) = ([host, host], [broom, broom]);
    assert_eq!(looks.map(|host| host.look(5)), [Ok(Was::Written); 2]);
    assert_eq!(host.numbers()?, broom.numbers()?);
    assert_eq!(brooms.map(|broom| broom.counts().map(|counts| (counts.free, counts.open))), [Ok((38, 2)); 2]);
    assert_eq!(brooms.map(|broom| broom.block(0).map(|state| state.written)), [Ok(1); 2]);
    assert_eq!(brooms.map(|broom| broom.tally()), [Ok(Tally { programs: 0, moved: 0, erases: 0 }); 2]);
    Ok(())
}

#[test]
fn geometry_faults_come_before_too_many_seats() {
    let no_pages = Geometry { pages: 0, ..GEOMETRY };
    assert_eq!(SharedDevice::open(no_pages, usize::MAX, usize::MAX).map_err(|error| error.fault).err(), Some(OpenFault::Pages));
    assert_eq!(SharedDevice::open(GEOMETRY, usize::MAX, 0).map_err(|error| error.fault).err(), Some(OpenFault::Seats));
    assert_eq!(SharedDevice::open(GEOMETRY, 1, usize::MAX).map_err(|error| error.fault).err(), Some(OpenFault::Seats));
}

#[test]
fn drain_next_and_restock() -> Result<(), Fault> {
    let mut device = SharedDevice::open(GEOMETRY, 2, 1).expect("it opens");
    let (mut reader, mut writer) = (device.hosts.remove(0), device.hosts.remove(0));
    let broom = &mut device.brooms[0];
    assert_eq!((broom.drain_next()?, broom.restock()?), (Drain::NothingToGain, true));
    // Block 0 gets eight pages of one sector, and each of the next two blocks has live pages of others.
    for sector in [0, 0, 0, 0, 0, 0, 0, 0, 1, 1, 1, 1, 1, 1, 1, 2, 3, 3, 3, 3, 3, 4, 5, 6] {
        writer.write(sector, &page(0, sector, 0))?;
    }
    assert_eq!((reader.look(6)?, reader.look(7)?, reader.look(200)), (Was::Written, Was::Empty, Err(Fault::NoSector { sector: 200, sectors: 200 })));
    writer.trim(0)?;
    assert_eq!(broom.drain()?, Drain::Drained { block: 0, moved: 0 });
    assert_eq!(broom.drain_next()?, Drain::Drained { block: 1, moved: 2 });
    assert_eq!(broom.drain_next()?, Drain::NoSpare);
    assert!(broom.restock()?);
    let held = reader.hold(6)?.expect("sector 6 is written");
    assert_eq!(broom.drain_next()?, Drain::Lost);
    assert_eq!(broom.drain_next()?, Drain::NothingToGain);
    drop(held);
    assert_eq!(broom.drain()?, Drain::Drained { block: 2, moved: 4 });
    Ok(())
}

#[test]
fn drain_of_a_dead_block() -> Result<(), Fault> {
    let mut device = SharedDevice::open(GEOMETRY, 1, 1).expect("it opens");
    let (host, broom) = (&mut device.hosts[0], &mut device.brooms[0]);
    assert_eq!(broom.drain_dead()?, Drain::NothingToGain);
    for sector in [0, 0, 0, 0, 0, 0, 0, 1] {
        host.write(sector, &page(0, sector, 0))?;
    }
    assert_eq!(broom.drain_dead()?, Drain::NoSpare);
    assert_eq!(broom.drain()?, Drain::Drained { block: 0, moved: 2 });
    while host.write(9, &page(0, 9, 0)).is_ok() {}
    assert_eq!((broom.drain()?, broom.restock()?), (Drain::NoSpare, false));
    host.trim(9)?;
    assert_eq!(broom.drain_dead()?, Drain::Drained { block: 1, moved: 0 });
    assert_eq!(broom.erase(1)?, Erase::Erased { kept: true });
    assert_eq!(broom.collect(1)?.ended, Collect::Done);
    Ok(())
}

#[test]
fn restock_on_full_device() -> Result<(), Fault> {
    let mut device = SharedDevice::open(GEOMETRY, 1, 1).expect("it opens");
    let (host, broom) = (&mut device.hosts[0], &mut device.brooms[0]);
    for sector in [0, 0, 0, 0, 0, 0, 0, 1] {
        host.write(sector, &page(0, sector, 0))?;
    }
    assert_eq!(broom.drain()?, Drain::Drained { block: 0, moved: 2 });
    while host.write(9, &page(0, 9, 0)).is_ok() {}
    assert_eq!(host.write(9, &page(0, 9, 0)), Err(Fault::NoBlock));
    assert_eq!((broom.drain()?, broom.restock()?), (Drain::NoSpare, false));
    assert_eq!(broom.erase(0)?, Erase::Erased { kept: true });
    assert!(broom.restock()?);
    Ok(())
}

type Call = fn(&mut Host, &mut [u8]) -> Result<Was, Fault>;

/// A `Held` that is forgotten is released by the host's next call, whichever that is.
#[test]
fn next_call_releases_forgotten_page() -> Result<(), Fault> {
    let mut device = SharedDevice::open(GEOMETRY, 1, 0).expect("it opens");
    let host = &mut device.hosts[0];
    let mut out = [0; 16];
    host.write(5, &page(0, 5, 1))?;
    let calls: [Call; 6] = [
        |host, out| host.read(5, out),
        |host, _| host.look(5),
        |host, _| host.write(5, &page(0, 5, 2)),
        |host, _| host.write_new(5, &page(0, 5, 3)),
        |host, _| host.hold(5).map(|held| if held.is_some() { Was::Written } else { Was::Empty }),
        |host, _| host.trim(5),
    ];
    for call in calls {
        mem::forget(host.hold(5)?);
        assert_eq!(call(host, &mut out)?, Was::Written);
        assert_eq!(host.numbers()?.hosts, 1);
    }
    assert!(host.hold(5)?.is_none());
    Ok(())
}

#[test]
fn types_are_send() {
    fn is_send<T: Send>() {}
    is_send::<mintlintel::Device>();
    is_send::<SharedDevice>();
    is_send::<Host>();
    is_send::<Broom>();
    is_send::<Held>();
}
