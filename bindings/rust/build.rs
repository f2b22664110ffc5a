//! Links the static library: that of the folder that `MINTLINTEL_LIB` names, or one made by `make`, which needs the toolchain. One that is not proved is
//! made where `MINTLINTEL_UNPROVED` is 1, and a warning says so.
use std::fs::{self, OpenOptions};
use std::io::{BufRead, BufReader, Write};
use std::path::{Path, PathBuf};
use std::process::{exit, Command, Stdio};
use std::time::{Duration, Instant};

/// Tells who waits at the terminal, since cargo keeps what a build script prints.
fn tell(text: &str) {
    let terminal = OpenOptions::new().write(true).open("/dev/tty");
    if terminal.and_then(|mut it| writeln!(it, "\rmintlintel: {}", text)).is_err() {
        eprintln!("mintlintel: {}", text);
    }
}

fn fail(text: &str) -> ! {
    eprintln!("mintlintel: {}", text);
    exit(1)
}

/// Makes the library, tells what comes and how far it is, and prints all that make prints.
fn make(goal: &str, minutes: &str) {
    let bindings = Path::new(env!("CARGO_MANIFEST_DIR")).join("..");
    tell(&format!("make -C bindings {}: {}", goal, minutes));
    let started = Command::new("make").arg("-C").arg(&bindings).arg(goal).stdout(Stdio::piped()).spawn();
    let mut run = started.unwrap_or_else(|error| fail(&format!("make can't be started: {}", error)));
    let (begun, mut told) = (Instant::now(), Instant::now());
    for line in BufReader::new(run.stdout.take().expect("a pipe")).lines().map_while(Result::ok) {
        eprintln!("{}", line);
        if line.starts_with("checked ") && told.elapsed() >= Duration::from_secs(10) {
            tell(&format!("{}, after {} s", line, begun.elapsed().as_secs()));
            told = Instant::now();
        }
    }
    if !run.wait().map_or(false, |status| status.success()) {
        fail("the library wasn't made, for what stands above: without the toolchain MINTLINTEL_LIB names a folder with libmintlintel.a, \
              and MINTLINTEL_UNPROVED=1 makes it without proof");
    }
}

fn built(takes_unproved: bool) -> PathBuf {
    let out = Path::new(env!("CARGO_MANIFEST_DIR")).join("../out");
    if takes_unproved {
        make("quick", "the library without proof, in two to four minutes");
        return out.join("quick");
    }
    make("all", "a whole proof takes half an hour or more where nothing was proved yet; MINTLINTEL_UNPROVED=1 makes it without proof, in two to four minutes");
    out
}

fn main() {
    println!("cargo:rerun-if-env-changed=MINTLINTEL_LIB");
    println!("cargo:rerun-if-env-changed=MINTLINTEL_UNPROVED");
    let takes_unproved = std::env::var("MINTLINTEL_UNPROVED").map_or(false, |it| it == "1");
    let folder = std::env::var_os("MINTLINTEL_LIB").map_or_else(|| built(takes_unproved), PathBuf::from);
    let library = folder.join("libmintlintel.a");
    let missing = |error| fail(&format!("{}: {}: make -C bindings makes it in bindings/out", library.display(), error));
    let library = fs::canonicalize(&library).unwrap_or_else(missing);
    let bytes = fs::read(&library).unwrap_or_else(|error| fail(&format!("{}: {}", library.display(), error)));
    if bytes.windows(12).any(|it| it == b", not proved") {
        println!("cargo:warning=this library is not proved: {}", library.display());
    }
    println!("cargo:rerun-if-changed={}", library.display());
    println!("cargo:rustc-link-search=native={}", library.parent().expect("a folder").display());
    println!("cargo:rustc-link-lib=static=mintlintel");
}
