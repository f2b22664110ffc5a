//! Explores every state of small devices with the durable layer's rule: each command in turn, power cuts inside and between commands,
//! failing programs and erases, and mounts. After each cut the mount has to show what the promise allows, every call has to end, and
//! none may be refused while there is space. Rules that are wrong in one point have to be refused.

mod agree;
mod canon;
mod explore;
mod flash;
mod layer;
mod runs;

use explore::Outcome;
use runs::{Expected, Run};
use std::time::Instant;

const USAGE: &str = "usage: power_cuts [--long] [WORD..]   makes the runs whose names have each WORD; --long: those that take minutes, too
       power_cuts --list             names the runs
       power_cuts --agree FILE       compares the runs that bindings/tests/core_runs.c has told with the model's rule";

fn main() {
    let mut words: Vec<String> = std::env::args().skip(1).collect();
    if let [flag, file] = &words[..] {
        if flag == "--agree" {
            std::process::exit(agrees(file));
        }
    }
    let mut flag = |name: &str| {
        let before = words.len();
        words.retain(|word| word != name);
        words.len() < before
    };
    let (long, list) = (flag("--long"), flag("--list"));
    if words.iter().any(|word| word.starts_with('-')) {
        eprintln!("{USAGE}");
        std::process::exit(2);
    }
    let chosen =
        runs::all().into_iter().filter(|run| (long || list || !run.long) && words.iter().all(|word| run.name.contains(word.as_str())));
    let (mut passed, mut failed) = (0, 0);
    for run in chosen {
        if list {
            println!("{}", run.name);
        } else if made(&run) {
            passed += 1;
        } else {
            failed += 1;
        }
    }
    if !list {
        println!("{passed} passed, {failed} failed");
        std::process::exit(if failed > 0 || passed == 0 { 1 } else { 0 });
    }
}

/// Compares the runs in a file with the model's rule, and with wrong ones, which have to differ. Returns the status to exit with.
fn agrees(file: &str) -> i32 {
    let told = std::fs::read_to_string(file).map_err(|error| error.to_string()).and_then(|text| {
        let agree::Compared { devices, calls, commands, cuts, failures, lost } = agree::compare(&text, None)?;
        let alike: Vec<_> = agree::TOLD_APART.iter().filter(|wrong| agree::compare(&text, Some(**wrong)).is_ok()).collect();
        if !alike.is_empty() {
            return Err(format!("the wrong rules {alike:?} agree, too"));
        }
        let done = format!("{commands} commands, {cuts} power cuts, {failures} failures and {lost} lost pages");
        Ok(format!("the rule agrees on {devices} devices, {calls} calls, {done}; {} wrong rules differ", agree::TOLD_APART.len()))
    });
    match told {
        Ok(told) => {
            println!("{file}: {told}");
            0
        }
        Err(why) => {
            println!("FAILED: {file}: {why}");
            1
        }
    }
}

/// Makes one run, and tells whether it ended as it should.
fn made(run: &Run) -> bool {
    let start = Instant::now();
    let outcome = if run.walks { run.model.walk(run.start, run.limit) } else { run.model.explore(run.start, run.limit) };
    let seconds = start.elapsed().as_secs_f32();
    let (right, told) = match &outcome {
        Outcome::Holds { states, depth } => (run.expected == Expected::Holds, format!("holds in all {states} states, {depth} steps deep")),
        Outcome::Limit { states } => (run.expected == Expected::NothingFound, format!("nothing found in {states} states")),
        Outcome::Refused { states, .. } => (run.expected == Expected::Refused, format!("refused after {states} states")),
    };
    println!("{}{}: {told}, {seconds:.1} s", if right { "" } else { "FAILED: " }, run.name);
    if let Outcome::Refused { violation, .. } = outcome {
        if !right || std::env::var_os("STEPS").is_some() {
            violation.steps.iter().for_each(|step| println!("    {step}"));
            println!("  {}", violation.what);
        }
    }
    right
}
