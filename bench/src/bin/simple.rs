//! The schedule, pack, unpack or choose program, as the word says, as one would first write it.

use plain::simple::{archive, choice, schedule};
use std::io::{self, BufWriter};
use std::process::ExitCode;

fn main() -> io::Result<ExitCode> {
    let input = io::stdin().lock();
    let output = BufWriter::new(io::stdout().lock());
    let mut told = plain::Told::default();
    match std::env::args().nth(1).as_deref() {
        Some("schedule") => schedule(input, output)?,
        Some("pack") => archive::pack(input, output, |number| told.line(number))?,
        Some("unpack") => archive::unpack(input, output, |number| told.block(number))?,
        Some("choose") => choice::program(input, output)?,
        _ => {
            return Err(io::Error::other(
                "usage: simple schedule|pack|unpack|choose",
            ))
        }
    }
    Ok(told.status())
}
