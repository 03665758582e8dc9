//! A program of this repository beside the two plain ones that do the same job, on the same input.

use crate::checked;
use crate::programs::{Program, Run};
use std::fs;
use std::io;
use std::path::{Path, PathBuf};
use std::time::Duration;

/// One unit of a long input may cost this many times one of a tenth of it; the rest is noise.
const GROWTH_LIMIT: f64 = 1.25;

/// A unit of input, and in what the time for one of it is told.
pub struct Unit {
    pub one: &'static str,
    /// So many decimals of an amount are told.
    pub decimals: usize,
    pub time: &'static str,
    pub times_a_second: f64,
}

pub const LINE: Unit = Unit {
    one: "line",
    decimals: 0,
    time: "ns",
    times_a_second: 1e9,
};

pub const MEGABYTE: Unit = Unit {
    one: "megabyte",
    decimals: 1,
    time: "µs",
    times_a_second: 1e6,
};

/// An input, and how many units it has.
pub struct Input {
    pub path: PathBuf,
    pub amount: f64,
}

/// What the outputs on the long input are to be, beside equal.
pub enum Expected {
    Lines(usize),
    File(PathBuf),
}

impl Expected {
    fn is(&self, output: &[u8]) -> io::Result<bool> {
        Ok(match self {
            Expected::Lines(lines) => {
                output.iter().filter(|&&byte| byte == b'\n').count() == *lines
            }
            Expected::File(path) => fs::read(path)? == output,
        })
    }
}

pub struct Job {
    /// That of this repository first.
    pub programs: Vec<Program>,
    pub short: Input,
    pub long: Input,
    pub unit: &'static Unit,
    pub expected: Expected,
    /// For the outputs.
    pub folder: PathBuf,
}

fn median(runs: &[Run], of: impl Fn(&Run) -> Duration) -> f64 {
    let mut times: Vec<Duration> = runs.iter().map(of).collect();
    times.sort();
    times[times.len() / 2].as_secs_f64()
}

impl Job {
    fn name(&self) -> &'static str {
        self.programs[0].name
    }

    fn output_of(&self, program: &Program) -> PathBuf {
        self.folder.join(format!("{}-output", program.name))
    }

    /// An amount without its unit.
    fn told(&self, input: &Input) -> String {
        format!("{:.*}", self.unit.decimals, input.amount)
    }

    /// Prints the peak memory of the first program. To be called while this process is small itself: see Program::run.
    pub fn print_peak(&self) -> io::Result<()> {
        let program = &self.programs[0];
        let peak = |input: &Input| {
            let run = program.run(&input.path, &self.output_of(program))?;
            Ok::<_, io::Error>(run.peak_kib)
        };
        println!(
            "peak memory of {}: {} KiB on {} {}s, {} KiB on {}",
            self.name(),
            peak(&self.short)?,
            self.told(&self.short),
            self.unit.one,
            peak(&self.long)?,
            self.told(&self.long),
        );
        Ok(())
    }

    /// The runs of each program on one input, in turn, so that a busy machine slows all alike. Each round begins with
    /// another program, since what ran before leaves its mark on caches and on the files that the system has still to
    /// write.
    fn run_all(
        &self,
        programs: &[Program],
        input: &Path,
        runs: usize,
    ) -> io::Result<Vec<Vec<Run>>> {
        let mut all = vec![Vec::new(); programs.len()];
        for round in 0..runs {
            for turn in 0..programs.len() {
                let which = (round + turn) % programs.len();
                let program = &programs[which];
                all[which].push(program.run(input, &self.output_of(program))?);
            }
        }
        Ok(all)
    }

    fn print_times(&self, runs: &[Vec<Run>]) {
        println!(
            "whole program {}, {} {}s, median of {} runs",
            self.name(),
            self.told(&self.long),
            self.unit.one,
            runs[0].len()
        );
        let times: Vec<(f64, f64)> = runs
            .iter()
            .map(|runs| (median(runs, |run| run.wall), median(runs, |run| run.cpu)))
            .collect();
        for (program, (wall, cpu)) in self.programs.iter().zip(&times) {
            println!(
                "  {:<9} {:7.1} ms, {}/{} {:.2}; processor {:7.1} ms, {:6.1} {} a {}, ratio {:.2}",
                program.name,
                wall * 1e3,
                self.name(),
                program.name,
                times[0].0 / wall,
                cpu * 1e3,
                cpu * self.unit.times_a_second / self.long.amount,
                self.unit.time,
                self.unit.one,
                times[0].1 / cpu,
            );
        }
    }

    fn same_outputs(&self) -> io::Result<bool> {
        let read = |program| fs::read(self.output_of(program));
        let outputs = self
            .programs
            .iter()
            .map(read)
            .collect::<io::Result<Vec<_>>>()?;
        let equal = outputs.iter().all(|output| *output == outputs[0]);
        Ok(equal && self.expected.is(&outputs[0])?)
    }

    /// Prints the times of all programs on the long input, and whether their outputs are equal. The runs of the first.
    pub fn compare(&self, runs: usize) -> io::Result<(Vec<Run>, bool)> {
        let mut long = self.run_all(&self.programs, &self.long.path, runs)?;
        self.print_times(&long);
        let same = checked("the outputs are equal byte for byte", self.same_outputs()?);
        Ok((long.swap_remove(0), same))
    }

    /// The same, and whether the first program's time grows with the length of its input and no more.
    pub fn bench(&self, runs: usize) -> io::Result<bool> {
        let short = self.run_all(&self.programs[..1], &self.short.path, runs)?;
        let (long, same) = self.compare(runs)?;
        let cost = |runs: &[Run], input: &Input| {
            median(runs, |run| run.cpu) * self.unit.times_a_second / input.amount
        };
        let (cost_short, cost_long) = (cost(&short[0], &self.short), cost(&long, &self.long));
        println!(
            "processor time of {}: {cost_short:.1} {} for one of {} {}s, {cost_long:.1} {} for one of {}",
            self.name(),
            self.unit.time,
            self.told(&self.short),
            self.unit.one,
            self.unit.time,
            self.told(&self.long),
        );
        let what = format!("a {} costs no more in a long input", self.unit.one);
        Ok(checked(&what, cost_long <= GROWTH_LIMIT * cost_short) && same)
    }

    /// Whether all programs write the same on an input of which something is refused, tell that and end with status 1.
    pub fn agree_on_refused(&self, input: &[u8]) -> io::Result<bool> {
        let path = self.folder.join("refused");
        fs::write(&path, input)?;
        let outputs = self
            .programs
            .iter()
            .map(|program| program.told(&path))
            .collect::<io::Result<Vec<_>>>()?;
        let told = outputs
            .iter()
            .all(|output| !output.stderr.is_empty() && output.status.code() == Some(1));
        Ok(told
            && outputs
                .iter()
                .all(|output| output.stdout == outputs[0].stdout))
    }
}
