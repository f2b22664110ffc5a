//! Plays a trace of sector reads, writes and trims: the comparator of the proved program, with the
//! same formats, options and exit statuses, but for the texts of the command line's help and refusals.

mod answers;
mod hex;
mod layer;
mod session;
mod trace;

use answers::{Answers, EMPTY, MET, NAMES, WORN, WRITTEN, was};
use layer::{Ftl, Geometry};
use std::io::{self, Write};
use std::process::ExitCode;
use trace::{Command, Op};

/// A trace may name this many workers, whose numbers are ignored.
const MAX_WORKERS: u32 = 500;

fn main() -> ExitCode {
    let Some(geometry) = options() else {
        eprintln!("options: --luns --blocks --pages --words --sectors --endurance");
        return ExitCode::from(2);
    };
    let mut text = match session::read_trace(geometry.fault()) {
        Ok(text) => text,
        Err(status) => return status,
    };
    let mut commands = Vec::new();
    if let Err((line, kind)) = trace::parse(&mut text, &geometry, MAX_WORKERS, |_, command| commands.push(command)) {
        eprintln!("line {line}: {kind}");
        return ExitCode::from(3);
    }
    if play(&text, &commands, &geometry, io::stdout().lock()).is_err() {
        eprintln!("output: failed");
        return ExitCode::from(1);
    }
    ExitCode::SUCCESS
}

fn options() -> Option<Geometry> {
    let mut geometry = session::DEFAULT;
    let mut words = std::env::args().skip(1);
    while let Some(name) = words.next() {
        let number = words.next()?.parse().ok()?;
        session::set(&mut geometry, &name, number).then_some(())?;
    }
    Some(geometry)
}

fn play(text: &[u8], commands: &[Command], geometry: &Geometry, writer: impl Write) -> io::Result<()> {
    let mut ftl = Ftl::new(geometry);
    let mut answers = Answers::new(writer, geometry.page_bytes());
    for command in commands {
        answers.begin(&NAMES[command.op as usize], command.sector);
        match command.op {
            Op::Read => match ftl.read(command.sector) {
                Some(page) => answers.page(page),
                None => answers.text(&EMPTY),
            },
            Op::New if ftl.read(command.sector).is_some() => answers.text(&WRITTEN),
            Op::Write | Op::New => match ftl.write(command.sector) {
                Some((written, page)) => {
                    hex::decode(&text[command.data()], page);
                    answers.text(was(written));
                }
                None => answers.text(&WORN),
            },
            Op::Trim => answers.text(was(ftl.trim(command.sector))),
            Op::Meet => answers.text(&MET),
        }
        answers.end_line()?;
    }
    answers.totals(&ftl.counts);
    answers.flush()
}
