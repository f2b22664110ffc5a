//! Plays a trace on a shared device, by workers in threads of their own and brooms beside them: the comparator of the proved program with
//! `--workers`, with the same formats, options and exit statuses, but for the texts of the command line's help and refusals.

#[allow(dead_code)]
mod answers;
mod hex;
#[allow(dead_code)]
mod layer;
mod session;
mod table;
mod trace;

use answers::{Answers, EMPTY, MET, NAMES, Short, was};
use layer::Geometry;
use std::io::{self, Write};
use std::process::ExitCode;
use std::sync::atomic::AtomicBool;
use std::sync::atomic::Ordering::SeqCst;
use table::{Broom, Open, Table};
use trace::{Command, Op};

/// Stands for the worker of a line at which all meet.
const ALL: u16 = u16::MAX;

struct Options {
    geometry: Geometry,
    workers: u32,
    brooms: u32,
    patience: u32,
    drains: u32,
}

fn main() -> ExitCode {
    let Some(options) = options() else {
        eprintln!("options: --luns --blocks --pages --words --sectors --endurance --workers --brooms --patience --drains");
        return ExitCode::from(2);
    };
    let mut text = match session::read_trace(options.fault()) {
        Ok(text) => text,
        Err(status) => return status,
    };
    let mut plan = Plan::new(options.workers as usize);
    let parsed = trace::parse(&mut text, &options.geometry, options.workers, |worker, command| plan.add(worker, command));
    if let Err((line, kind)) = parsed {
        eprintln!("line {line}: {kind}");
        return ExitCode::from(3);
    }
    plan.end_round();
    play(&text, &mut plan, &options);
    if deliver(&plan, options.geometry.page_bytes(), io::stdout().lock()).is_err() {
        eprintln!("output: failed");
        return ExitCode::from(1);
    }
    ExitCode::SUCCESS
}

fn options() -> Option<Options> {
    let mut options = Options { geometry: session::DEFAULT, workers: 0, brooms: 0, patience: 1_000_000, drains: 1 };
    let mut words = std::env::args().skip(1);
    while let Some(name) = words.next() {
        let number = words.next()?.parse().ok()?;
        match name.as_str() {
            "--workers" => options.workers = number,
            "--brooms" => options.brooms = number,
            "--patience" => options.patience = number,
            "--drains" => options.drains = number,
            _ => session::set(&mut options.geometry, &name, number).then_some(())?,
        }
    }
    Some(options)
}

impl Options {
    fn fault(&self) -> Option<&'static str> {
        let Options { geometry, workers, brooms, .. } = self;
        let kept = workers + 2 * brooms;
        let has_room = || kept < geometry.blocks && geometry.sectors <= (geometry.blocks - kept) * geometry.pages;
        geometry.broken_limit().or_else(|| (!has_room()).then_some("TooFewBlocks"))
    }
}

#[derive(Clone, Copy)]
enum Answer {
    Empty,
    Written,
    Page,
    Full,
}

/// A worker: its lines in order, its answers so far, the pages that it has read, and the block that it has open. No two of them share a
/// line of a cache.
#[repr(align(128))]
#[derive(Default)]
struct Worker {
    lines: Vec<Command>,
    reads: usize,
    answers: Vec<Answer>,
    pages: Vec<u64>,
    open: Option<Open>,
}

/// The workers, the worker of each line of the trace, and how many lines each worker has done at the end of each round.
struct Plan {
    workers: Vec<Worker>,
    order: Vec<u16>,
    ends: Vec<usize>,
}

impl Plan {
    fn new(workers: usize) -> Plan {
        Plan { workers: (0..workers).map(|_| Worker::default()).collect(), order: Vec::new(), ends: Vec::new() }
    }

    fn add(&mut self, worker: u32, command: Command) {
        if command.op == Op::Meet {
            self.order.push(ALL);
            self.end_round();
            return;
        }
        self.order.push(worker as u16);
        let worker = &mut self.workers[worker as usize];
        worker.reads += usize::from(command.op == Op::Read);
        worker.lines.push(command);
    }

    fn end_round(&mut self) {
        self.ends.extend(self.workers.iter().map(|worker| worker.lines.len()));
    }
}

/// Plays all rounds, each with threads of its own.
fn play(text: &[u8], plan: &mut Plan, options: &Options) {
    let count = options.brooms as usize;
    let table = Table::new(&options.geometry, count);
    let first_spare = options.geometry.blocks as usize - count;
    let mut brooms: Vec<_> = (0..count).map(|i| Broom::new(&table, first_spare + i)).collect();
    for worker in &mut plan.workers {
        worker.answers.reserve_exact(worker.lines.len());
        worker.pages.reserve_exact(worker.reads * options.geometry.words as usize);
    }
    for ends in plan.ends.chunks_exact(plan.workers.len()) {
        if plan.workers.iter().zip(ends).all(|(worker, &end)| worker.answers.len() == end) {
            continue;
        }
        let stop = AtomicBool::new(false);
        let (table, stop) = (&table, &stop);
        std::thread::scope(|scope| {
            for broom in &mut brooms {
                scope.spawn(move || broom.sweep(table, stop, options.drains));
            }
            let busy = plan.workers.iter_mut().zip(ends).filter(|(worker, end)| worker.answers.len() < **end);
            let threads: Vec<_> = busy.map(|(worker, &end)| scope.spawn(move || worker.play(table, text, end, options))).collect();
            for thread in threads {
                thread.join().expect("no panic");
            }
            stop.store(true, SeqCst);
        });
    }
}

impl Worker {
    /// Plays the lines up to the end of a round.
    fn play(&mut self, table: &Table, text: &[u8], end: usize, options: &Options) {
        let mut buffer = vec![0; options.geometry.page_bytes()];
        let Worker { lines, answers, pages, open, .. } = self;
        for line in &lines[answers.len()..end] {
            if matches!(line.op, Op::Write | Op::New) {
                hex::decode(&text[line.data()], &mut buffer);
            }
            let mut tries = 0..options.patience;
            answers.push(match line.op {
                Op::Read if table.read(line.sector, |page| pages.extend(page.iter().map(|word| word.load(table::PAGE_WORD)))) => Answer::Page,
                Op::Read | Op::Meet => Answer::Empty,
                Op::Write => done(tries.find_map(|tried| table.write(open, line.sector, words_of(&buffer)).or_else(|| rest_after(tried)))),
                Op::New => done(tries.find_map(|tried| table.write_new(open, line.sector, words_of(&buffer)).or_else(|| rest_after(tried)))),
                Op::Trim => done(Some(table.trim(line.sector))),
            });
        }
    }
}

/// How many tries of a write that are turned away stand between two yields.
const TRIES_A_YIELD: u32 = 16;

/// A write was turned away, after so many tries that were: nothing. Now and then the processor is given to another thread.
fn rest_after(turned_away: u32) -> Option<bool> {
    if turned_away % TRIES_A_YIELD == 0 {
        std::thread::yield_now();
    }
    None
}

/// The words that a page's bytes make, the lowest byte first.
fn words_of(page: &[u8]) -> impl Iterator<Item = u64> {
    page.as_chunks().0.iter().map(|&bytes| u64::from_le_bytes(bytes))
}

/// The answer of a line that has found its sector written or not, or was turned away.
fn done(written: Option<bool>) -> Answer {
    match written {
        Some(true) => Answer::Written,
        Some(false) => Answer::Empty,
        None => Answer::Full,
    }
}

/// Writes the answers in the order of the trace.
fn deliver(plan: &Plan, page_bytes: usize, writer: impl Write) -> io::Result<()> {
    let mut lines = Answers::new(writer, page_bytes);
    let mut rest: Vec<_> = plan.workers.iter().map(|worker| (worker.lines.iter().zip(&worker.answers), bytes(&worker.pages))).collect();
    for &worker in &plan.order {
        if worker == ALL {
            lines.begin(&NAMES[Op::Meet as usize], 0);
            lines.text(&MET);
            lines.end_line()?;
            continue;
        }
        let (answered, pages) = &mut rest[worker as usize];
        let (line, answer) = answered.next().expect("an answer for each line");
        lines.begin(&NAMES[line.op as usize], line.sector);
        match answer {
            Answer::Page => lines.page(pages.split_off(..page_bytes).expect("a page")),
            Answer::Written => lines.text(was(true)),
            Answer::Empty => lines.text(&EMPTY),
            Answer::Full => lines.text(&const { Short::new("full\n") }),
        }
        lines.end_line()?;
    }
    lines.text(&const { Short::new("end\n") });
    lines.flush()
}

/// The bytes of words, the lowest first.
fn bytes(words: &[u64]) -> &[u8] {
    // Each word of this processor is eight bytes, the lowest first, and any byte is a `u8`.
    unsafe { words.align_to::<u8>().1 }
}
