//! The schedule, pack, unpack or choose program, as the word says, as fast as we could make it.

use plain::fast::{archive, choice, schedule};
use std::fs::File;
use std::io;
use std::os::fd::AsFd;
use std::process::ExitCode;

fn main() -> io::Result<ExitCode> {
    // Files, so that no buffer of the standard library stands between.
    let input = File::from(io::stdin().as_fd().try_clone_to_owned()?);
    let output = File::from(io::stdout().as_fd().try_clone_to_owned()?);
    let mut told = plain::Told::default();
    match std::env::args().nth(1).as_deref() {
        Some("schedule") => schedule(input, output)?,
        Some("pack") => archive::pack(input, output, |number| told.line(number))?,
        Some("unpack") => archive::unpack(input, output, |number| told.block(number))?,
        Some("choose") => choice::program(input, output)?,
        _ => return Err(io::Error::other("usage: fast schedule|pack|unpack|choose")),
    }
    Ok(told.status())
}
