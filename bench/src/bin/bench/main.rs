//! Speed of the library and of the programs beside the same jobs in plain Rust, as ratios in one run.
//!
//!     WALLCHECK_LIB_DIR=.. cargo build --release --features library
//!     bench SCHEDULE PACK UNPACK [LINES RUNS]
//!
//! The three are the paths of those programs; `simple` and `fast` stand beside this program. Without numbers a million
//! lines are used and each program runs 15 times. Ends with status 1 if an output differs, or if a line or a megabyte
//! costs more in a long input than in a short one.
//!
//! It runs in the folder of the repository. Where WALLCHECK_BEFORE names an earlier checkout in which `make bench` has
//! run, its library and schedule program are compared with those of this folder, also as ratios in one run; the archive,
//! which it may lack, is not. Results that differ from the earlier ones are told and are no failure.

mod archive;
mod before;
mod calls;
mod choices;
mod input;
mod jobs;
mod programs;
mod ranges;

use jobs::{Expected, Input, Job, LINE, MEGABYTE};
use plain::BLOCK;
use programs::Program;
use std::fs::{self, File};
use std::io;
use std::path::{Path, PathBuf};
use std::process::exit;

/// The stored schedule, from the folder of the repository.
const STORED: &str = "crates/schedule/stdin";

/// The schedule program, from the folder of a checkout.
const PROGRAM: &str = "crates/schedule/out/schedule";

/// Single calls go over this many lines.
const CALL_LINES: usize = 100_000;

/// The text of the archive's functions has this many lines, which are more than a megabyte.
const ARCHIVE_LINES: usize = 20_000;

struct Files {
    folder: PathBuf,
    long: PathBuf,
    short: PathBuf,
    long_archive: PathBuf,
    short_archive: PathBuf,
}

/// Writes the archive of a text from file to file, as this process is to stay small: see Program::run.
fn write_archive(text: &Path, archive: &Path) -> io::Result<()> {
    let output = File::create(archive)?;
    plain::fast::archive::pack(File::open(text)?, output, |line| {
        unreachable!("line {line} of the schedule is no line of an archive")
    })
}

impl Files {
    fn create(lines: usize) -> io::Result<Files> {
        let folder = std::env::temp_dir().join(format!("wallcheck-bench-{}", std::process::id()));
        fs::create_dir(&folder)?;
        let files = Files {
            long: folder.join("long"),
            short: folder.join("short"),
            long_archive: folder.join("long-archive"),
            short_archive: folder.join("short-archive"),
            folder,
        };
        input::write(&files.long, lines)?;
        input::write(&files.short, lines / 10)?;
        write_archive(&files.long, &files.long_archive)?;
        write_archive(&files.short, &files.short_archive)?;
        Ok(files)
    }

    fn schedule(&self, programs: Vec<Program>, lines: usize) -> Job {
        let input = |path: &Path, lines| Input {
            path: path.into(),
            amount: lines as f64,
        };
        Job {
            programs,
            short: input(&self.short, lines / 10),
            long: input(&self.long, lines),
            unit: &LINE,
            expected: Expected::Lines(lines),
            folder: self.folder.clone(),
        }
    }

    /// The job of pack or unpack.
    fn archive(
        &self,
        programs: Vec<Program>,
        [short, long, expected]: [&Path; 3],
    ) -> io::Result<Job> {
        let input = |path: &Path| {
            Ok::<_, io::Error>(Input {
                path: path.into(),
                amount: fs::metadata(path)?.len() as f64 / 1e6,
            })
        };
        Ok(Job {
            programs,
            short: input(short)?,
            long: input(long)?,
            unit: &MEGABYTE,
            expected: Expected::File(expected.into()),
            folder: self.folder.clone(),
        })
    }

    fn pack(&self, programs: Vec<Program>) -> io::Result<Job> {
        self.archive(programs, [&self.short, &self.long, &self.long_archive])
    }

    fn unpack(&self, programs: Vec<Program>) -> io::Result<Job> {
        self.archive(
            programs,
            [&self.short_archive, &self.long_archive, &self.long],
        )
    }
}

impl Drop for Files {
    fn drop(&mut self) {
        let _ = fs::remove_dir_all(&self.folder);
    }
}

/// Says whether a condition holds that this program is to check.
fn checked(what: &str, holds: bool) -> bool {
    println!("{what}: {}", if holds { "yes" } else { "NO" });
    holds
}

fn print_calls(calls: &[calls::Times], unit: &str) {
    for times in calls {
        println!(
            "  {:<32} library {:6.1} {unit}, fast {:6.1} {unit}, simple {:6.1} {unit}, \
             library/fast {:.2}, library/simple {:.2}",
            times.name,
            times.library,
            times.fast,
            times.simple,
            times.library / times.fast,
            times.library / times.simple
        );
    }
}

/// Whether pack agrees with the plain programs where a line is too long or has no end, and unpack where blocks are
/// damaged and the last one is cut off.
fn agree_on_refused(pack: &Job, unpack: &Job) -> io::Result<bool> {
    let text = fs::read(&pack.short.path)?;
    let (first, rest) = text.split_at(text.len() / 2);
    let too_long = [first, &b"7".repeat(2 * BLOCK), rest].concat();
    let mut archive = fs::read(&unpack.short.path)?;
    let cut_off = archive.len() - BLOCK / 2;
    archive.truncate(cut_off);
    for place in (0..cut_off).step_by(5 * BLOCK + 1) {
        archive[place] ^= 1;
    }
    Ok(pack.agree_on_refused(&too_long)?
        && pack.agree_on_refused(&text[..text.len() - 1])?
        && unpack.agree_on_refused(&archive)?)
}

fn bench_programs(schedule: &Job, pack: &Job, unpack: &Job, runs: usize) -> io::Result<bool> {
    let jobs = [schedule, pack, unpack];
    for job in jobs {
        job.print_peak()?;
    }
    let mut good = true;
    for job in jobs {
        good &= job.bench(runs)?;
    }
    Ok(checked(
        "pack and unpack write the same where something is refused",
        agree_on_refused(pack, unpack)?,
    ) && good)
}

/// The lines of single calls.
fn call_lines(text: &[u8], lines: usize) -> Vec<&[u8]> {
    text.split(|&byte| byte == b'\n')
        .take(CALL_LINES.min(lines))
        .collect()
}

/// The program and the library of an earlier checkout beside `schedule` and the library of this folder.
fn bench_before(
    earlier: &Path,
    schedule: &Path,
    files: &Files,
    lines: usize,
    runs: usize,
) -> io::Result<()> {
    let programs = vec![
        Program::new("schedule", schedule),
        Program::new("before", &earlier.join(PROGRAM)),
    ];
    println!(
        "before and after, {} against this folder",
        earlier.display()
    );
    files.schedule(programs, lines).compare(runs)?;
    let text = fs::read(&files.long)?;
    before::calls(earlier, &call_lines(&text, lines), runs)
}

fn bench_calls(files: &Files, lines: usize, passes: usize) -> io::Result<bool> {
    let text = fs::read(&files.long)?;
    let lines = call_lines(&text, lines);
    println!(
        "single calls, {} lines, median of {passes} passes",
        lines.len()
    );
    print_calls(&calls::measure(passes, &lines), "ns");
    print_calls(&ranges::measure(passes, &lines), "ns");
    print_calls(&choices::measure(passes, &lines), "ns");
    // Of the benchmark's lines a wrong one ends in a space; the stored ones are wrong in many ways.
    let stored = fs::read(STORED)?;
    let stored = call_lines(&stored, CALL_LINES);
    Ok(checked(
        "the calls agree on every line, row and list, also on the stored lines",
        [lines, stored]
            .iter()
            .all(|lines| calls::agree(lines) && ranges::agree(lines) && choices::agree(lines)),
    ))
}

fn bench_archive(files: &Files, passes: usize) -> io::Result<bool> {
    let mut text = Vec::new();
    for line in fs::read(&files.long)?
        .split_inclusive(|&byte| byte == b'\n')
        .take(ARCHIVE_LINES)
    {
        text.extend_from_slice(line);
    }
    println!(
        "archive of a text of {:.2} megabytes, a megabyte, median of {passes} passes",
        text.len() as f64 / 1e6
    );
    print_calls(&archive::measure(passes, &text), "µs");
    Ok(checked(
        "the functions of the archive agree, also on bad texts and damaged blocks",
        archive::agree(&text),
    ))
}

/// The earlier checkout, where one is named.
fn earlier_checkout() -> io::Result<Option<PathBuf>> {
    let named = std::env::var_os("WALLCHECK_BEFORE").filter(|path| !path.is_empty());
    let Some(earlier) = named.map(PathBuf::from) else {
        return Ok(None);
    };
    for needed in ["dist/libwallcheck.so", PROGRAM] {
        if !earlier.join(needed).exists() {
            return Err(io::Error::other(format!(
                "{} has no {needed}: run `make bench` there first",
                earlier.display()
            )));
        }
    }
    Ok(Some(earlier))
}

fn bench(paths: [&str; 3], lines: usize, runs: usize) -> io::Result<bool> {
    let earlier = earlier_checkout()?;
    let here = std::env::current_exe()?;
    let [schedule, pack, unpack] = paths;
    // A program of this repository and those beside this one that do its job.
    let programs = |job, path: &str| {
        let beside = |name| Program {
            word: Some(job),
            ..Program::new(name, &here.with_file_name(name))
        };
        vec![
            Program::new(job, Path::new(path)),
            beside("fast"),
            beside("simple"),
        ]
    };
    let files = Files::create(lines)?;
    let programs_good = bench_programs(
        &files.schedule(programs("schedule", schedule), lines),
        &files.pack(programs("pack", pack))?,
        &files.unpack(programs("unpack", unpack))?,
        runs,
    )?;
    let calls_good = bench_calls(&files, lines, runs)?;
    let archive_good = bench_archive(&files, runs)?;
    if let Some(earlier) = earlier {
        bench_before(&earlier, Path::new(schedule), &files, lines, runs)?;
    }
    Ok(programs_good && calls_good && archive_good)
}

fn main() -> io::Result<()> {
    let arguments: Vec<String> = std::env::args().skip(1).collect();
    let number =
        |text: &String, least| text.parse::<usize>().ok().filter(|&number| number >= least);
    let (paths, lines, runs) = match &arguments[..] {
        [schedule, pack, unpack] => ([schedule, pack, unpack], Some(1_000_000), Some(15)),
        [schedule, pack, unpack, lines, runs] => {
            ([schedule, pack, unpack], number(lines, 10), number(runs, 1))
        }
        _ => {
            return Err(io::Error::other(
                "usage: bench SCHEDULE PACK UNPACK [LINES RUNS]",
            ))
        }
    };
    let (Some(lines), Some(runs)) = (lines, runs) else {
        return Err(io::Error::other("LINES is at least 10 and RUNS at least 1"));
    };
    let good = bench(paths.map(String::as_str), lines, runs)?;
    exit(if good { 0 } else { 1 })
}
