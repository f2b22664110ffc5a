//! Shared devices in plain Rust, without a trace: the same algorithm as the proved one over Rust's atomics, and plain arrays
//! behind a `Mutex` and behind an `RwLock`. Its words are the kind (`atomics`, `mutex`, `rwlock`), the work (`fill`, `write`, `read`, `same`),
//! how many threads, and how many calls each of them makes; it prints the sum of the sectors' first words.

use std::sync::atomic::{AtomicU64, Ordering::SeqCst};
use std::sync::{Mutex, RwLock};

const BLOCKS: usize = 2048;
const PAGES: usize = 120;
const WORDS: usize = 64;
const SECTORS: usize = 4096;
const PAGE_BYTES: usize = 8 * WORDS;

const MAPPED: u64 = 1 << 63;
const TAKEN: u64 = 1 << 16;
const NEXT_PHASE: u64 = 1 << 17;
const PAGE_WRITTEN: u64 = 1 << 20;

/// A device that threads share. `state` is what a thread keeps between its calls.
trait Device: Sync {
    type State: Default + Send;
    fn write(&self, state: &mut Self::State, sector: usize, bytes: &[u8]) -> bool;
    fn read(&self, sector: usize, out: &mut [u8]) -> bool;
}

struct Atomics {
    words: Vec<AtomicU64>,
}

/// The block that a thread has open, and its pages written.
#[derive(Default)]
struct Opened(Option<(usize, usize)>);

impl Atomics {
    fn new() -> Atomics {
        let mut words = Vec::with_capacity(SECTORS + BLOCKS + BLOCKS * PAGES * (WORDS + 1));
        words.resize_with(SECTORS + BLOCKS, || AtomicU64::new(0));
        words.resize_with(words.capacity(), || AtomicU64::new(u64::MAX));
        Atomics { words }
    }

    fn pin(&self, block: usize) -> &AtomicU64 {
        &self.words[SECTORS + block]
    }

    fn page(&self, block: usize, page: usize) -> &[AtomicU64] {
        &self.words[SECTORS + BLOCKS + (block * PAGES + page) * (WORDS + 1)..][..WORDS + 1]
    }

    fn take(&self) -> Option<(usize, usize)> {
        (0..BLOCKS).find(|&block| self.pin(block).fetch_or(TAKEN, SeqCst) & TAKEN == 0).map(|block| (block, 0))
    }
}

impl Device for Atomics {
    type State = Opened;

    fn write(&self, state: &mut Opened, sector: usize, bytes: &[u8]) -> bool {
        let (block, written) = state.0.or_else(|| self.take()).expect("a free block");
        let page = self.page(block, written);
        for (word, chunk) in page.iter().zip(bytes.chunks_exact(8)) {
            word.store(u64::from_le_bytes(chunk.try_into().expect("eight bytes")), SeqCst);
        }
        page[WORDS].store(sector as u64, SeqCst);
        let generation = self.pin(block).fetch_add(PAGE_WRITTEN, SeqCst) >> 32;
        let found = self.words[sector].swap(MAPPED | generation << 32 | (block as u64) << 16 | written as u64, SeqCst);
        state.0 = Some((block, written + 1));
        if written + 1 == PAGES {
            self.pin(block).fetch_add(NEXT_PHASE, SeqCst);
            state.0 = None;
        }
        found != 0
    }

    fn read(&self, sector: usize, out: &mut [u8]) -> bool {
        loop {
            let word = self.words[sector].load(SeqCst);
            if word == 0 {
                return false;
            }
            let (generation, block) = (word >> 32 & 0x7fff_ffff, (word >> 16 & 0xffff) as usize);
            let pin = self.pin(block).fetch_add(1, SeqCst);
            let intact = pin >> 32 == generation && pin & TAKEN != 0 && pin >> 17 & 7 <= 3;
            if intact {
                let page = self.page(block, (word & 0xffff) as usize);
                for (word, chunk) in page.iter().zip(out.chunks_exact_mut(8)) {
                    chunk.copy_from_slice(&word.load(SeqCst).to_le_bytes());
                }
            }
            self.pin(block).fetch_sub(1, SeqCst);
            if intact {
                return true;
            }
        }
    }
}

/// The array itself, as it is written in place.
struct Plain {
    bytes: Vec<u8>,
    written: Vec<bool>,
}

impl Plain {
    fn new() -> Plain {
        Plain { bytes: vec![0; SECTORS * PAGE_BYTES], written: vec![false; SECTORS] }
    }

    fn write(&mut self, sector: usize, bytes: &[u8]) -> bool {
        self.bytes[sector * PAGE_BYTES..][..PAGE_BYTES].copy_from_slice(bytes);
        std::mem::replace(&mut self.written[sector], true)
    }

    fn read(&self, sector: usize, out: &mut [u8]) -> bool {
        if self.written[sector] {
            out.copy_from_slice(&self.bytes[sector * PAGE_BYTES..][..PAGE_BYTES]);
        }
        self.written[sector]
    }
}

impl Device for Mutex<Plain> {
    type State = ();

    fn write(&self, _: &mut (), sector: usize, bytes: &[u8]) -> bool {
        self.lock().expect("no panic").write(sector, bytes)
    }

    fn read(&self, sector: usize, out: &mut [u8]) -> bool {
        self.lock().expect("no panic").read(sector, out)
    }
}

impl Device for RwLock<Plain> {
    type State = ();

    fn write(&self, _: &mut (), sector: usize, bytes: &[u8]) -> bool {
        Plain::write(&mut RwLock::write(self).expect("no panic"), sector, bytes)
    }

    fn read(&self, sector: usize, out: &mut [u8]) -> bool {
        Plain::read(&RwLock::read(self).expect("no panic"), sector, out)
    }
}

/// Fills the sectors from `from` on, and then reads or overwrites them in order, over and over, or reads the first sector of all.
fn work<D: Device>(device: &D, kind: &str, from: usize, sectors: usize, count: usize) -> u64 {
    let mut state = D::State::default();
    let mut page = [0u8; PAGE_BYTES];
    let mut sum = 0u64;
    for i in 0..sectors + if kind == "write" { count } else { 0 } {
        page[..8].copy_from_slice(&(i as u64).to_le_bytes());
        device.write(&mut state, from + i % sectors, &page);
    }
    if kind == "same" {
        page[..8].fill(0);
        device.write(&mut state, 0, &page);
        for _ in 0..count {
            device.read(0, &mut page);
            std::hint::black_box(&page);
        }
    }
    for i in 0..if kind == "read" { count } else { 0 } {
        device.read(from + i % sectors, &mut page);
        sum = sum.wrapping_add(u64::from_le_bytes(page[..8].try_into().expect("eight bytes")));
    }
    for i in 0..sectors {
        device.read(from + i, &mut page);
        sum = sum.wrapping_add(u64::from_le_bytes(page[..8].try_into().expect("eight bytes")));
    }
    sum
}

fn run<D: Device>(device: &D, kind: &str, threads: usize, count: usize) -> u64 {
    let sectors = SECTORS / threads;
    std::thread::scope(|scope| {
        let workers: Vec<_> = (0..threads).map(|t| scope.spawn(move || work(device, kind, t * sectors, sectors, count))).collect();
        workers.into_iter().fold(0u64, |sum, worker| sum.wrapping_add(worker.join().expect("no panic")))
    })
}

fn main() {
    let words: Vec<String> = std::env::args().collect();
    let number = |i: usize| words[i].parse::<usize>().expect("a number");
    let (kind, threads, count) = (words[2].as_str(), number(3), number(4));
    let sum = match words[1].as_str() {
        "atomics" => run(&Atomics::new(), kind, threads, count),
        "mutex" => run(&Mutex::new(Plain::new()), kind, threads, count),
        "rwlock" => run(&RwLock::new(Plain::new()), kind, threads, count),
        _ => panic!("no such kind"),
    };
    println!("{sum}");
}
