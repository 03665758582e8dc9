//! Whole programs: standard input from a file, standard output to a file, with time and peak memory of the process.

use std::fs::File;
use std::io;
use std::path::{Path, PathBuf};
use std::process::{Command, Output};
use std::time::{Duration, Instant};

pub struct Program {
    pub name: &'static str,
    pub path: PathBuf,
    /// The job, for a plain program, which has several.
    pub word: Option<&'static str>,
}

#[derive(Clone, Copy)]
pub struct Run {
    pub wall: Duration,
    /// Processor time, user and system.
    pub cpu: Duration,
    pub peak_kib: i64,
}

#[repr(C)]
#[derive(Clone, Copy, Default)]
struct TimeValue {
    seconds: i64,
    microseconds: i64,
}

impl TimeValue {
    fn duration(self) -> Duration {
        Duration::from_secs(self.seconds as u64) + Duration::from_micros(self.microseconds as u64)
    }
}

/// struct rusage of Linux on 64 bits.
#[repr(C)]
#[derive(Default)]
struct Usage {
    user: TimeValue,
    system: TimeValue,
    peak_kib: i64,
    others: [i64; 13],
}

extern "C" {
    fn wait4(pid: i32, status: *mut i32, options: i32, usage: *mut Usage) -> i32;
}

impl Program {
    pub fn new(name: &'static str, path: &Path) -> Program {
        Program {
            name,
            path: path.into(),
            word: None,
        }
    }

    fn command(&self, input: &Path) -> io::Result<Command> {
        let mut command = Command::new(&self.path);
        command.args(self.word).stdin(File::open(input)?);
        Ok(command)
    }

    /// What the program writes and tells, whatever its status.
    pub fn told(&self, input: &Path) -> io::Result<Output> {
        self.command(input)?.output()
    }

    /// Runs the program once. Its peak memory is not below this process's own at the start, which Linux counts in.
    pub fn run(&self, input: &Path, output: &Path) -> io::Result<Run> {
        let mut command = self.command(input)?;
        command.stdout(File::create(output)?);
        let start = Instant::now();
        let child = command.spawn()?;
        let (mut status, mut usage) = (0, Usage::default());
        // Sound: both pointers are to live values of the types that wait4 fills.
        let ended = unsafe { wait4(child.id() as i32, &mut status, 0, &mut usage) };
        let wall = start.elapsed();
        if ended != child.id() as i32 || status != 0 {
            return Err(io::Error::other(format!(
                "{} ended with status {status}",
                self.path.display()
            )));
        }
        Ok(Run {
            wall,
            cpu: usage.user.duration() + usage.system.duration(),
            peak_kib: usage.peak_kib,
        })
    }
}
