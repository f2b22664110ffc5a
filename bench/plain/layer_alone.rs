//! The plain layer without a trace, as the proved one in `layer/main.rt.txt`. With the word `record` it notes
//! from where and to where each page was copied, and with `memcpy` it then copies those pages again,
//! four times.

#[allow(dead_code)]
mod layer;
mod random;

use layer::{Ftl, Geometry};
use random::Random;

const TIMES: usize = 4;

fn main() {
    let words: Vec<String> = std::env::args().collect();
    let number = |i: usize| words[i].parse::<u32>().expect("a number");
    let (blocks, pages, size, sectors) = (number(3), number(4), number(5), number(6));
    let geometry = Geometry { luns: 1, blocks, pages, words: size, sectors, endurance: 1_000_000 };
    assert!(geometry.fault().is_none(), "no such device");
    let uniform = words[1] != "in_order";
    if matches!(words[1].as_str(), "record" | "memcpy") {
        let copies = overwrite(&geometry, uniform, number(2), true);
        if words[1] == "memcpy" {
            copy_again(&geometry, &copies);
        }
    } else {
        overwrite(&geometry, uniform, number(2), false);
    }
}

/// Fills the device and overwrites it; the copies made, where they are to be recorded.
fn overwrite(geometry: &Geometry, uniform: bool, count: u32, record: bool) -> Vec<Copied> {
    let mut ftl = Ftl::new(geometry);
    let mut random = Random(1);
    let mut page = vec![0; geometry.page_bytes()];
    let sectors = u64::from(geometry.sectors);
    let mut recorder = Recorder::new(geometry);
    for i in 0..sectors + u64::from(count) {
        let place = if uniform && i >= sectors { random.next() >> 32 } else { i };
        page[..8].copy_from_slice(&i.to_le_bytes());
        if let Some((_, to)) = ftl.write((place % sectors) as u32) {
            to.copy_from_slice(&page);
        }
        if record {
            recorder.note(&ftl, (place % sectors) as u32);
        }
    }
    let mut sum = 0u64;
    for sector in 0..geometry.sectors {
        let page = ftl.read(sector).expect("a written sector");
        sum = sum.wrapping_add(u64::from_le_bytes(page[..8].try_into().unwrap()));
    }
    println!("{} {} {} {sum}", ftl.counts.programs, ftl.counts.copies, ftl.counts.erases);
    recorder.copies
}

/// A page copied, and its copy.
struct Copied {
    from: u32,
    to: u32,
}

/// Learns from the stamps of the open block which pages a write has made the layer copy.
struct Recorder {
    pages: u32,
    map: Vec<u32>,
    copies: Vec<Copied>,
}

impl Recorder {
    fn new(geometry: &Geometry) -> Recorder {
        let map = vec![0; geometry.sectors as usize];
        Recorder { pages: geometry.pages, map, copies: Vec::new() }
    }

    fn note(&mut self, ftl: &Ftl, sector: u32) {
        let last = ftl.next - 1;
        let first = last - last % self.pages;
        let new = (ftl.counts.copies - self.copies.len() as u64) as u32;
        for to in first..first + new {
            let from = std::mem::replace(&mut self.map[ftl.stamps[to as usize] as usize], to);
            self.copies.push(Copied { from, to });
        }
        self.map[sector as usize] = last;
    }
}

fn copy_again(geometry: &Geometry, copies: &[Copied]) {
    let size = geometry.page_bytes();
    let mut bytes = vec![1u8; geometry.blocks as usize * geometry.pages as usize * size];
    for _ in 0..TIMES {
        for copied in copies {
            let from = copied.from as usize * size;
            bytes.copy_within(from..from + size, copied.to as usize * size);
        }
    }
    assert!(bytes.iter().all(|&byte| byte == 1));
}
