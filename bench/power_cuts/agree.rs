//! Compares the commands and mounts of the proved core with the model's rule, over the runs of `bindings/tests/core_runs.c`.

use crate::flash::{Block, Cell, Device, Page, Place, Size, Version, BLOCKS};
use crate::layer::{Array, Command, Freed, Rule, Wrong};

/// Wrong rules that the runs tell apart.
pub const TOLD_APART: [Wrong; 35] = [
    Wrong::FirstFound,
    Wrong::LastFound,
    Wrong::NumbersStartAgain,
    Wrong::ContinuesOpenBlock,
    Wrong::TrustsErased,
    Wrong::FreesNoBlock,
    Wrong::TrimInMemory,
    Wrong::TombstoneNotCopied,
    Wrong::DropsTombstones,
    Wrong::OwnBlockUncounted,
    Wrong::DropsByFirstSector,
    Wrong::ErasesEarly,
    Wrong::NoReserve,
    Wrong::CopyRenumbered,
    Wrong::PagesCounted,
    Wrong::RangeFirstSector,
    Wrong::RangeOneMore,
    Wrong::WriteEndsTombstone,
    Wrong::NumberAboveKept,
    Wrong::TwinBySector,
    Wrong::CopyNumberedZero,
    Wrong::CopyNarrowed,
    Wrong::CopySplit,
    Wrong::BadBlocksUnread,
    Wrong::BadBlocksDropped,
    Wrong::BadBlocksUsed,
    Wrong::BadBlocksUncounted,
    Wrong::TornBlocksUncounted,
    Wrong::StopsAtErased,
    Wrong::StopsAtUnreadable,
    Wrong::ReserveUsed,
    Wrong::ReserveForgotten,
    Wrong::FailureIgnored,
    Wrong::LossTakenForTorn,
    Wrong::TornTakenForLoss,
];

/// How much was compared.
#[derive(Default)]
pub struct Compared {
    pub devices: u64,
    pub calls: u64,
    pub commands: u64,
    pub cuts: u64,
    pub failures: u64,
    pub lost: u64,
}

/// A device of the model that follows the lines.
struct Follower {
    rule: Rule,
    device: Device,
    /// The page that has become unreadable since the last mount, and the array before that.
    lost: Option<(Place, Array)>,
    compared: Compared,
}

/// Follows all lines; at the first that differs from the rule it says why.
pub fn compare(text: &str, wrong: Option<Wrong>) -> Result<Compared, String> {
    let mut follower = Follower::new(Size { blocks: 1, pages: 1, sectors: 1 }, wrong);
    for (number, line) in text.lines().enumerate() {
        let words: Vec<&str> = line.split_ascii_whitespace().collect();
        follower.line(&words).map_err(|why| format!("line {}: {line}: {why}\n{}", number + 1, follower.device))?;
    }
    Ok(follower.compared)
}

fn numbers(words: &[&str]) -> Result<Vec<usize>, String> {
    words.iter().map(|word| word.parse().map_err(|_| format!("{word} is no number"))).collect()
}

impl Follower {
    fn new(size: Size, wrong: Option<Wrong>) -> Follower {
        let rule = Rule { freed: Freed::One, wrong, ..Rule::of(size) };
        let device = Device { blocks: [Block::BLANK; BLOCKS], call: None, next_number: 1, failures_left: 0, choices: 0, allowed: 0 };
        Follower { rule, device, lost: None, compared: Compared::default() }
    }

    fn line(&mut self, words: &[&str]) -> Result<(), String> {
        match words {
            ["device", sizes @ ..] => self.start(&numbers(sizes)?),
            ["apart"] => {
                (self.rule.hosts, self.rule.choices) = (1, u8::MAX);
                Ok(())
            }
            ["call", call @ ..] => self.begin(&numbers(call)?),
            ["nothing"] => self.done(Command::Nothing),
            ["mount", entries @ .., "losses", losses] => self.mount(entries, losses),
            ["order", order @ ..] => self.fail(&numbers(order)?),
            ["lose", place @ ..] => self.lose(&numbers(place)?),
            [name, numbers_of @ .., "done"] => {
                let command = self.command(name, &numbers(numbers_of)?)?;
                self.done(command)
            }
            [name, numbers_of @ .., how @ ("cut" | "failed"), part] => {
                let command = self.command(name, &numbers(numbers_of)?)?;
                let has_failed = *how == "failed";
                self.compared.cuts += u64::from(!has_failed);
                if has_failed && self.rule.is(Wrong::FailureIgnored) {
                    return self.done(command);
                }
                self.stop(command, numbers(&[part])?[0])
            }
            _ => Err("it is no line of a run".to_string()),
        }
    }

    /// A device's blocks, pages and sectors, how many of its blocks are in reserve, and whether it drops trims.
    fn start(&mut self, sizes: &[usize]) -> Result<(), String> {
        let [blocks, pages, sectors, reserve, drops_trims] = *sizes else {
            return Err("a device has five numbers".to_string());
        };
        let size = Size { blocks, pages, sectors };
        let devices = self.compared.devices + 1;
        let compared = std::mem::take(&mut self.compared);
        *self = Follower::new(size, self.rule.wrong);
        self.compared = Compared { devices, ..compared };
        self.rule.has_reserve = reserve > 0;
        self.rule.drops_tombstones = drops_trims == 1;
        self.device.blocks[size.blocks - reserve..size.blocks].iter_mut().for_each(|block| block.is_reserve = true);
        Ok(())
    }

    fn begin(&mut self, call: &[usize]) -> Result<(), String> {
        let [first, count, value] = call else {
            return Err("a call has a first sector, a count and a value".to_string());
        };
        if self.device.call.is_some() {
            return Err("the call before has not come to its end".to_string());
        }
        self.device.call = Some(Version { first: *first as u8, count: *count as u8, number: 0, value: *value as u8 });
        self.device.choices = self.rule.choices;
        self.compared.calls += 1;
        Ok(())
    }

    /// The command, if the rule allows it now.
    fn command(&self, name: &str, numbers: &[usize]) -> Result<Command, String> {
        let call = self.device.call.ok_or("there is no call")?;
        let (command, number, to) = match (name, numbers) {
            ("program", [block, page, number]) => (Command::Program { block: *block }, Some(*number), Some((*block, *page))),
            ("copy", [sector, block, page, to, to_page]) => {
                let copy = Command::Copy { from: (*block, *page), sector: *sector as u8, block: *to };
                (copy, None, Some((*to, *to_page)))
            }
            ("erase", [block]) => (Command::Erase { block: *block, for_copies: !self.rule.opens_for_hosts(&self.device) }, None, None),
            _ => return Err("it is no command".to_string()),
        };
        if number.is_some_and(|number| number + 1 != self.device.next_number as usize) {
            return Err(format!("the model's next number is {}, counted from 1", self.device.next_number));
        }
        if to.is_some_and(|(block, page)| self.device.blocks[block].open != Some(page as u8)) {
            return Err("it is not the next page of the open block".to_string());
        }
        let allowed = self.rule.commands(&self.device, call);
        if allowed.iter().any(|other| self.is_same(command, *other)) {
            return Ok(command);
        }
        let names: Vec<String> = allowed.iter().map(Command::to_string).collect();
        Err(format!("the rule has: {}", names.join(", or ")))
    }

    /// The rule names one kept page of a victim, and any other will do.
    fn is_same(&self, command: Command, rules: Command) -> bool {
        match (command, rules) {
            (Command::Copy { from, sector, block }, Command::Copy { from: first, block: other, .. }) => {
                block == other && from.0 == first.0 && self.device.cell(from).kept >> sector & 1 == 1
            }
            _ => command == rules,
        }
    }

    fn done(&mut self, command: Command) -> Result<(), String> {
        let call = self.device.call.ok_or("there is no call")?;
        if command == Command::Nothing && !self.rule.commands(&self.device, call).contains(&Command::Nothing) {
            return Err("the rule gives a command".to_string());
        }
        let before = self.rule.array(&self.device);
        for (place, page) in self.rule.puts(&self.device, call, command) {
            self.put(place, page);
        }
        self.rule.done(&mut self.device, call, command);
        let ended = self.device.call.is_none();
        let expected = if ended { self.rule.after(before, call) } else { before };
        if self.rule.array(&self.device) != expected {
            return Err("the model's own array is wrong".to_string());
        }
        self.compared.commands += u64::from(command != Command::Nothing);
        Ok(())
    }

    fn put(&mut self, place: Place, page: Page) {
        let kept = self.device.cell(place).kept;
        *self.device.cell_mut(place) = Cell { now: page, sure: page, kept };
    }

    /// A cut or a failure leaves a part of the command: see `Flash::cut` of the program.
    fn stop(&mut self, command: Command, part: usize) -> Result<(), String> {
        let call = self.device.call.ok_or("there is no call")?;
        let mut digits = part;
        for (place, page) in self.rule.puts(&self.device, call, command) {
            match digits % 3 {
                0 => {}
                1 => self.put(place, Page::Unreadable),
                _ => self.put(place, page),
            }
            digits /= 3;
        }
        self.compared.commands += 1;
        Ok(())
    }

    /// The block of the command has failed. It is bad and gets the last number, and the first one in reserve comes in use: so the core's driver numbers
    /// them.
    fn fail(&mut self, order: &[usize]) -> Result<(), String> {
        let blocks = &mut self.device.blocks[..self.rule.size.blocks];
        let failed = *order.last().ok_or("there is no block")?;
        let expected = (0..blocks.len()).filter(|block| *block != failed).chain([failed]);
        if !expected.eq(order.iter().copied()) {
            return Err("it is no order with one block at its end".to_string());
        }
        if !self.rule.is(Wrong::FailureIgnored) {
            blocks[failed].bad = true;
            if !self.rule.is(Wrong::ReserveForgotten) {
                blocks.iter_mut().filter(|block| block.is_reserve).take(1).for_each(|block| block.is_reserve = false);
            }
        }
        blocks[failed..].rotate_left(1);
        self.compared.failures += 1;
        Ok(())
    }

    /// A page becomes unreadable.
    fn lose(&mut self, place: &[usize]) -> Result<(), String> {
        let [block, page] = *place else {
            return Err("a page has a block and a number".to_string());
        };
        self.lost = Some(((block, page), self.rule.array(&self.device)));
        self.put((block, page), Page::Unreadable);
        self.compared.lost += 1;
        Ok(())
    }

    /// The map has to be one that a mount may make, with the array from before the call or from after it, unless a page was lost and the flash shows
    /// no trace of it or a loss is told. The losses have to be the rule's.
    fn mount(&mut self, entries: &[&str], losses: &str) -> Result<(), String> {
        let told = self.rule.losses(&self.device);
        if losses != told.to_string() {
            return Err(format!("the rule has {told} losses"));
        }
        let (before, may_differ) = match self.lost.take() {
            Some((place, before)) => (before, told > 0 || !self.rule.is_missed(&self.device, place)),
            None => (self.rule.array(&self.device), false),
        };
        let call = self.device.call;
        let map: Vec<Option<(Place, u8)>> = entries.iter().map(|entry| place(entry)).collect::<Result<_, _>>()?;
        let mounted = self.rule.mount(&self.device);
        let found = mounted.iter().find(|device| self.has_map(device, &map));
        let Some(device) = found else {
            return Err(format!("no mount of the model has this map; one is\n{}", mounted[0]));
        };
        let array = self.rule.array(device);
        let values = map.iter().map(|entry| entry.map_or(0, |(_, value)| value));
        if !values.eq(array[..self.rule.size.sectors].iter().copied()) {
            return Err("the values are not the model's".to_string());
        }
        if array != before && call.map(|call| self.rule.after(before, call)) != Some(array) && !may_differ {
            return Err("the array is neither the one before the call nor the one after it".to_string());
        }
        self.device = *device;
        Ok(())
    }

    fn has_map(&self, device: &Device, map: &[Option<(Place, u8)>]) -> bool {
        let keeps = |sector: usize, place: Place| device.cell(place).kept >> sector & 1 == 1;
        map.len() == self.rule.size.sectors
            && map.iter().enumerate().all(|(sector, entry)| match entry {
                Some((place, _)) => keeps(sector, *place),
                None => !self.rule.size.places().any(|place| keeps(sector, place)),
            })
    }
}

/// An entry of a map: `block.page=value`, or `-`.
fn place(entry: &str) -> Result<Option<(Place, u8)>, String> {
    if entry == "-" {
        return Ok(None);
    }
    let parts: Vec<&str> = entry.split(['.', '=']).collect();
    match numbers(&parts)?[..] {
        [block, page, value] => Ok(Some(((block, page), value as u8))),
        _ => Err(format!("{entry} is no entry")),
    }
}
