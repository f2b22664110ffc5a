//! What both players begin with: the numbers of a device from the command line, and the trace on standard input.

use crate::layer::Geometry;
use std::io::{self, Read};
use std::process::ExitCode;

const MAX_TRACE_BYTES: usize = 268_435_456;

pub const DEFAULT: Geometry = Geometry { luns: 1, blocks: 64, pages: 64, words: 64, sectors: 3072, endurance: 1000 };

/// Sets the number of a device that an option names. Returns whether there is one.
pub fn set(geometry: &mut Geometry, option: &str, number: u32) -> bool {
    let named = match option {
        "--luns" => &mut geometry.luns,
        "--blocks" => &mut geometry.blocks,
        "--pages" => &mut geometry.pages,
        "--words" => &mut geometry.words,
        "--sectors" => &mut geometry.sectors,
        "--endurance" => &mut geometry.endurance,
        _ => return false,
    };
    *named = number;
    true
}

/// The bytes of the trace for a device with this fault, if it has one; or the status with which the player ends.
pub fn read_trace(fault: Option<&str>) -> Result<Vec<u8>, ExitCode> {
    if let Some(fault) = fault {
        eprintln!("geometry: {fault}");
        return Err(ExitCode::from(2));
    }
    let mut text = Vec::new();
    if io::stdin().take(MAX_TRACE_BYTES as u64 + 1).read_to_end(&mut text).is_err() {
        eprintln!("line 0: Read");
        return Err(ExitCode::from(1));
    }
    if text.len() > MAX_TRACE_BYTES {
        eprintln!("line 0: Big");
        return Err(ExitCode::from(3));
    }
    Ok(text)
}
