//! Speed before and after a change, as ratios in one run: lines through the shared library of an earlier checkout and
//! through that of this one. Both are loaded alike.

use crate::calls::{medians, pass};
use std::ffi::{c_char, c_int, c_void, CStr, CString};
use std::io;
use std::mem::transmute;
use std::path::Path;
use wallcheck::CheckResult;

extern "C" {
    fn dlopen(path: *const c_char, flags: c_int) -> *mut c_void;
    fn dlsym(library: *mut c_void, name: *const c_char) -> *mut c_void;
}

/// RTLD_NOW on Linux.
const AT_ONCE: c_int = 2;

type Line = unsafe extern "C" fn(*const u8, usize) -> CheckResult;
type LineInto = unsafe extern "C" fn(*const u8, usize, *mut u8, usize) -> CheckResult;

/// The functions for lines, which have had the same arguments in all versions.
struct Library {
    line: Line,
    line_into: LineInto,
}

impl Library {
    fn open(checkout: &Path) -> io::Result<Library> {
        let path = checkout.join("dist/libwallcheck.so").canonicalize()?;
        let name = CString::new(path.as_os_str().as_encoded_bytes())?;
        let cannot = |what| io::Error::other(format!("{}: {what}", path.display()));
        // Sound: the strings end in a zero byte, and the functions found have the types of include/wallcheck.h.
        let library = unsafe { dlopen(name.as_ptr(), AT_ONCE) };
        if library.is_null() {
            return Err(cannot("cannot be loaded"));
        }
        let found = |name: &CStr| match unsafe { dlsym(library, name.as_ptr()) } {
            function if !function.is_null() => Ok(function),
            _ => Err(cannot(
                "has no such function as wallcheck_line or wallcheck_line_into",
            )),
        };
        unsafe {
            Ok(Library {
                line: transmute::<*mut c_void, Line>(found(c"wallcheck_line")?),
                line_into: transmute::<*mut c_void, LineInto>(found(c"wallcheck_line_into")?),
            })
        }
    }

    // Sound: pointers and lengths are those of slices that live throughout the call and do not overlap.

    fn check_line(&self, line: &[u8]) -> CheckResult {
        unsafe { (self.line)(line.as_ptr(), line.len()) }
    }

    fn check_line_into(&self, line: &[u8], out: &mut [u8]) -> CheckResult {
        unsafe { (self.line_into)(line.as_ptr(), line.len(), out.as_mut_ptr(), out.len()) }
    }
}

/// The medians of `before` and `after`, which take turns in each pass.
fn compare(
    passes: usize,
    mut before: impl FnMut() -> f64,
    mut after: impl FnMut() -> f64,
) -> [f64; 2] {
    let mut times = [Vec::new(), Vec::new()];
    for _ in 0..passes {
        times[0].push(before());
        times[1].push(after());
    }
    medians(times)
}

/// Prints the times of single calls, and on how many lines the results of both differ.
pub fn calls(earlier: &Path, lines: &[&[u8]], passes: usize) -> io::Result<()> {
    let (before, after) = (Library::open(earlier)?, Library::open(Path::new("."))?);
    let (mut out, mut other) = ([0; 64], [0; 64]);
    let line = compare(
        passes,
        || pass(lines, |line| before.check_line(line)),
        || pass(lines, |line| after.check_line(line)),
    );
    let into = compare(
        passes,
        || pass(lines, |line| before.check_line_into(line, &mut out)),
        || pass(lines, |line| after.check_line_into(line, &mut other)),
    );
    for (name, [before, after]) in [("line", line), ("line into a buffer", into)] {
        println!(
            "  {name:<18} before {before:6.1} ns, after {after:6.1} ns, after/before {:.3}",
            after / before
        );
    }
    let mut differs = |line: &&&[u8]| {
        (out, other) = ([0; 64], [0; 64]);
        before.check_line(line) != after.check_line(line)
            || before.check_line_into(line, &mut out) != after.check_line_into(line, &mut other)
            || out != other
    };
    println!(
        "  lines whose results differ: {}",
        lines.iter().filter(|line| differs(line)).count()
    );
    Ok(())
}
