//! One state for all that differ in the order of blocks, the names of sectors and values, and the sizes of numbers.

use crate::explore::{Model, Promise};
use crate::flash::{Device, Page, Version, SECTORS};

/// The least of the states that mean the same.
pub fn of(model: &Model, device: &Device) -> Device {
    let versions = versions(model, device);
    let plain = renamed(model, device, &versions);
    let sectors = model.rule.size.sectors;
    let orders = orders(sectors, model.range > 1);
    orders.iter().map(|order| reordered(model, &plain, order)).min().expect("there is an order")
}

fn versions(model: &Model, device: &Device) -> Vec<Version> {
    let cells = model.rule.size.places().map(|place| *device.cell(place));
    let mut all: Vec<Version> = cells.flat_map(|cell| cell.now.version().into_iter().chain(cell.sure.version())).collect();
    all.sort_unstable_by_key(|version| (version.number, version.value, version.first, version.count));
    all.dedup();
    all
}

/// Smaller numbers, and the value 1 for the newest one of each sector.
fn renamed(model: &Model, device: &Device, versions: &[Version]) -> Device {
    let mut renamed = *device;
    let mut ranks: Vec<u8> = vec![0; versions.len()];
    if model.by_overlap && versions.iter().all(|version| version.number < device.next_number) {
        for i in 0..versions.len() {
            let older = (0..i).filter(|j| versions[*j].number < versions[i].number && versions[*j].meets(versions[i]));
            ranks[i] = older.map(|j| ranks[j]).max().unwrap_or(0) + 1;
        }
        renamed.next_number = ranks.iter().copied().max().unwrap_or(0) + 1;
    } else {
        let mut numbers: Vec<u8> = versions.iter().map(|version| version.number).chain([device.next_number]).collect();
        numbers.sort_unstable();
        numbers.dedup();
        let rank = |number: u8| numbers.iter().position(|other| *other == number).expect("it is one of them") as u8 + 1;
        ranks = versions.iter().map(|version| rank(version.number)).collect();
        renamed.next_number = rank(device.next_number);
    }
    let flips = flips(model, device, versions);
    let rename = |page: Page| match page {
        Page::Holds(version) => {
            let number = ranks[versions.iter().position(|other| *other == version).expect("it is one of them")];
            Page::Holds(Version { number, value: flipped(&flips, version), ..version })
        }
        other => other,
    };
    for place in model.rule.size.places() {
        let cell = renamed.cell_mut(place);
        cell.now = rename(cell.now);
        cell.sure = rename(cell.sure);
    }
    renamed.call = device.call.map(|call| Version { value: flipped(&flips, call), ..call });
    renamed.allowed =
        map_allowed(model, device.allowed, |sector, value| (sector, if flips[sector] && value > 0 { 3 - value } else { value }));
    renamed
}

fn flips(model: &Model, device: &Device, versions: &[Version]) -> [bool; SECTORS] {
    let mut flips = [false; SECTORS];
    if model.values == 2 {
        for sector in model.rule.size.sectors() {
            let bytes = versions.iter().filter(|version| version.has_bytes() && version.first == sector);
            let newest = bytes.max_by_key(|version| (version.number, version.value)).copied();
            let value = newest.or(device.call.filter(|call| call.first == sector)).map_or(0, |version| version.value);
            flips[sector as usize] = value == 2;
        }
    }
    flips
}

fn flipped(flips: &[bool; SECTORS], version: Version) -> u8 {
    if version.has_bytes() && flips[version.first as usize] {
        3 - version.value
    } else {
        version.value
    }
}

fn map_allowed(model: &Model, allowed: u32, map: impl Fn(usize, usize) -> (usize, usize)) -> u32 {
    let sectors = model.rule.size.sectors;
    match model.promise {
        Promise::EachSector => (0..3 * sectors)
            .filter(|bit| allowed >> bit & 1 == 1)
            .map(|bit| map(bit / 3, bit % 3))
            .fold(0, |all, (sector, value)| all | 1 << (3 * sector + value)),
        Promise::Whole => (0..3usize.pow(sectors as u32)).filter(|array| allowed >> array & 1 == 1).fold(0, |all, array| {
            let digit = |sector: usize| array / 3usize.pow(sector as u32) % 3;
            let mapped: usize =
                (0..sectors).map(|sector| map(sector, digit(sector))).map(|(to, value)| value * 3usize.pow(to as u32)).sum();
            all | 1 << mapped
        }),
    }
}

fn reordered(model: &Model, device: &Device, order: &[usize]) -> Device {
    let mut reordered = *device;
    let first = |version: Version| version.sectors().map(|sector| order[sector as usize] as u8).min().expect("a version has a sector");
    let moved = |page: Page| match page {
        Page::Holds(version) => Page::Holds(Version { first: first(version), ..version }),
        other => other,
    };
    for place in model.rule.size.places() {
        let cell = reordered.cell_mut(place);
        cell.now = moved(cell.now);
        cell.sure = moved(cell.sure);
        cell.kept = (0..order.len()).filter(|sector| device.cell(place).kept >> sector & 1 == 1).map(|sector| 1 << order[sector]).sum();
    }
    reordered.call = device.call.map(|call| Version { first: first(call), ..call });
    reordered.allowed = map_allowed(model, device.allowed, |sector, value| (order[sector], value));
    if !model.keeps_block_order() {
        reordered.blocks[..model.rule.size.blocks].sort_unstable();
    }
    reordered
}

/// All orders of few sectors; of a device with ranges only those that keep ranges whole.
fn orders(sectors: usize, ranges: bool) -> Vec<Vec<usize>> {
    if sectors > 3 || (ranges && sectors > 2) {
        return vec![(0..sectors).collect(), (0..sectors).rev().collect()];
    }
    (0..sectors).fold(vec![vec![]], |orders, next| {
        let insert = |order: &Vec<usize>, at: usize| [&order[..at], &[next], &order[at..]].concat();
        orders.iter().flat_map(|order| (0..=order.len()).map(move |at| insert(order, at))).collect()
    })
}

/// 128 bits of a state: two states that share them would be taken for one.
pub fn fingerprint(device: &Device) -> u128 {
    let (mut low, mut high) = (0x9E37_79B9_7F4A_7C15u64, 0xC2B2_AE3D_27D4_EB4Fu64);
    let mut add = |word: u64| {
        low = (low ^ word).wrapping_mul(0xff51_afd7_ed55_8ccd);
        low ^= low >> 32;
        high = (high.rotate_left(23) ^ word.wrapping_mul(0x87c3_7b91_1142_53d5)).wrapping_mul(0x4cf5_ad43_2745_937f);
        high ^= high >> 29;
    };
    let code = |page: Page| match page {
        Page::Erased => 1,
        Page::LooksErased => 2,
        Page::Unreadable => 3,
        Page::Holds(v) => 4 | (v.value as u64) << 3 | (v.first as u64) << 5 | (v.count as u64) << 8 | (v.number as u64) << 12,
    };
    for block in &device.blocks {
        let marks = (block.bad as u64) << 8 | (block.is_reserve as u64) << 9 | (block.for_copies as u64) << 10;
        add(block.open.map_or(255, |page| page as u64) | marks);
        for cell in &block.cells {
            add(code(cell.now) | code(cell.sure) << 20 | (cell.kept as u64) << 40);
        }
    }
    let call = device.call.map_or(0, |call| code(Page::Holds(call)));
    add(call | (device.failures_left as u64) << 24 | (device.choices as u64) << 28 | (device.next_number as u64) << 32);
    add(device.allowed as u64);
    (low as u128) << 64 | high as u128
}
