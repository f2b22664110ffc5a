//! A device that threads share: its seats.
use crate::fault::Given;
use crate::raw::{self, Handle};
use crate::{Broom, Fault, Geometry, Host, Numbers, OpenError};
use std::cell::UnsafeCell;

/// One more than a device may have: with more, an open refuses their number all the same.
const TOO_MANY_HOSTS: usize = 501;
const TOO_MANY_BROOMS: usize = 33;

/// One place at a shared device, given up when it is dropped.
#[repr(transparent)]
#[derive(Debug)]
pub(crate) struct Seat {
    handle: UnsafeCell<Handle>,
}

// As for a `Device`: a handle may go to another thread, and is not `Sync`. The device behind it is shared by its own words.
unsafe impl Send for Seat {}

impl Seat {
    fn closed(count: usize) -> Vec<Seat> {
        (0..count).map(|_| Seat { handle: UnsafeCell::new(Handle::CLOSED) }).collect()
    }

    pub(crate) fn handle(&self) -> *mut Handle {
        self.handle.get()
    }

    pub(crate) fn numbers(&self, geometry: &Geometry) -> Result<Numbers, Fault> {
        let mut numbers = raw::Numbers::default();
        Fault::check(unsafe { raw::mintlintel_seat_numbers(self.handle(), &mut numbers) }, Given::Nothing, geometry)?;
        Ok(Numbers::of(&numbers))
    }
}

impl Drop for Seat {
    fn drop(&mut self) {
        unsafe { raw::mintlintel_seat_close(self.handle()) }
    }
}

/// The hosts and the brooms of a new device. The last of them frees the device.
///
/// ```
/// # use mintlintel::{Geometry, SharedDevice, Was};
/// use std::thread;
///
/// # fn main() -> Result<(), Box<dyn std::error::Error>> {
/// let geometry = Geometry { blocks: 24, pages: 8, words: 1, sectors: 100, endurance: 1000, ..Geometry::ONE_LUN };
/// let SharedDevice { hosts, .. } = SharedDevice::open(geometry, 2, 1)?;
/// let threads: Vec<_> = hosts
///     .into_iter()
///     .enumerate()
///     .map(|(number, mut host)| thread::spawn(move || host.write(number as u32, &[7; 8])))
///     .collect();
/// for thread in threads {
///     assert_eq!(thread.join().map_err(|_| "a host's thread ends")?, Ok(Was::Empty));
/// }
/// # Ok(())
/// # }
/// ```
#[derive(Debug)]
pub struct SharedDevice {
    pub hosts: Vec<Host>,
    pub brooms: Vec<Broom>,
}

impl SharedDevice {
    /// A device with every sector empty, for this many hosts and brooms.
    ///
    /// ```
    /// # use mintlintel::{Geometry, OpenFault, SharedDevice};
    /// # let geometry = Geometry { blocks: 24, pages: 8, words: 1, sectors: 100, endurance: 1000, ..Geometry::ONE_LUN };
    /// assert_eq!(SharedDevice::open(geometry, 0, 1).map_err(|error| error.fault).err(), Some(OpenFault::Seats));
    /// assert!(SharedDevice::open(geometry, 2, 1).is_ok());
    /// ```
    pub fn open(geometry: Geometry, hosts: usize, brooms: usize) -> Result<SharedDevice, OpenError> {
        // A seat is its handle alone, so a row of seats is a row of handles.
        let (host_count, broom_count) = (hosts.min(TOO_MANY_HOSTS), brooms.min(TOO_MANY_BROOMS));
        let (mut host_seats, mut broom_seats) = (Seat::closed(host_count), Seat::closed(broom_count));
        let Geometry { luns, blocks, pages, words, sectors, endurance } = geometry;
        let code = unsafe {
            raw::mintlintel_shared_open(
                host_seats.as_mut_ptr().cast(), host_count, broom_seats.as_mut_ptr().cast(), broom_count,
                luns, blocks, pages, words, sectors, endurance,
            )
        };
        OpenError::check(code, geometry, hosts, brooms)?;
        Ok(SharedDevice {
            hosts: host_seats.into_iter().map(|seat| Host::of(seat, geometry)).collect(),
            brooms: broom_seats.into_iter().map(|seat| Broom::of(seat, geometry)).collect(),
        })
    }
}
