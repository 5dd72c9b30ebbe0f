//! Merges report files under a sheet file: merge SHEET REPORT ..
//!
//! The merged report is written to standard output, and a line for each refused report to standard error. The status is
//! 0, 1 if a report is refused, or 3 if there is no merged report.
//!
//! To build it after ./build --library, with rustc 1.63 or later:
//!
//!     rustc --edition 2021 -O -L lib -C link-arg=-Wl,-rpath,lib examples/embed/rust/merge.rs
use std::io::Write;
use std::{env, fmt, fs, io, process};

/// A report that was refused: its number from 1, the number of its fact or 0, and the number of the refusal.
#[repr(C)]
#[derive(Clone, Copy, Default)]
pub struct Refusal {
    pub report: u64,
    pub fact: u64,
    pub number: u32,
}

#[link(name = "xbrlmerge")]
extern "C" {
    fn xbrlmerge_merge(
        sheet: *const u8,
        sheet_length: usize,
        reports: *const u8,
        reports_length: usize,
        ends: *const usize,
        ends_length: usize,
        allow: u32,
        out: *mut u8,
        out_length: usize,
        needed: *mut usize,
        refusals: *mut Refusal,
        refusals_length: usize,
        refused: *mut usize,
    ) -> u32;
}

/// The level of duplicates that a merged report may have.
#[repr(u32)]
#[derive(Clone, Copy)]
pub enum Allow {
    None = 0,
    Complete = 1,
    Consistent = 2,
    All = 3,
}

/// Why there is no merged report.
#[derive(Debug)]
pub enum Failure {
    /// The duplicates of a row, counted from 1, exceed the allowed level.
    TooLoose(usize),
    /// The sheet is refused, for the reason with this number.
    SheetRefused(usize),
    /// The call returned another status: memory has run out, or this file does not belong to the library.
    Status(u32),
}

impl fmt::Display for Failure {
    fn fmt(&self, to: &mut fmt::Formatter) -> fmt::Result {
        match self {
            Failure::TooLoose(row) => write!(to, "too loose: row {row}"),
            Failure::SheetRefused(number) => write!(to, "sheet: refusal {number}"),
            Failure::Status(status) => write!(to, "status {status} of the library"),
        }
    }
}

impl std::error::Error for Failure {}

/// A merged report, and the reports that it was not made from.
pub struct Merged {
    pub text: Vec<u8>,
    pub refusals: Vec<Refusal>,
}

/// Merges reports under a sheet. If the buffers were too short, the call is made again with longer ones.
pub fn merge(sheet: &[u8], reports: &[Vec<u8>], allow: Allow) -> Result<Merged, Failure> {
    let together = reports.concat();
    let lengths = reports.iter().map(Vec::len);
    let ends: Vec<usize> = lengths
        .scan(0, |end, length| {
            *end += length;
            Some(*end)
        })
        .collect();
    let mut text = vec![0; together.len() + 4096];
    let mut refusals = vec![Refusal::default(); reports.len()];
    loop {
        let (mut needed, mut refused) = (0, 0);
        // SAFETY: each pointer comes from a slice or a variable, so it is aligned and not null. The lengths are theirs, and
        // the borrow checker keeps output and input apart.
        let status = unsafe {
            xbrlmerge_merge(
                sheet.as_ptr(),
                sheet.len(),
                together.as_ptr(),
                together.len(),
                ends.as_ptr(),
                ends.len(),
                allow as u32,
                text.as_mut_ptr(),
                text.len(),
                &mut needed,
                refusals.as_mut_ptr(),
                refusals.len(),
                &mut refused,
            )
        };
        match status {
            0 | 1 => {
                text.truncate(needed);
                refusals.truncate(refused);
                return Ok(Merged { text, refusals });
            }
            2 => return Err(Failure::TooLoose(needed)),
            3 => {
                text.resize(needed.max(text.len()), 0);
                refusals.resize(refused.max(refusals.len()), Refusal::default());
            }
            4 => return Err(Failure::SheetRefused(needed)),
            _ => return Err(Failure::Status(status)),
        }
    }
}

fn run() -> Result<i32, Box<dyn std::error::Error>> {
    let names: Vec<_> = env::args_os().skip(1).collect();
    let (sheet, reports) = names.split_first().ok_or("merge SHEET REPORT ..")?;
    let reports = reports
        .iter()
        .map(fs::read)
        .collect::<io::Result<Vec<_>>>()?;
    let merged = merge(&fs::read(sheet)?, &reports, Allow::All)?;
    for it in &merged.refusals {
        eprintln!(
            "report {}: refusal {} at fact {}",
            it.report, it.number, it.fact
        );
    }
    io::stdout().write_all(&merged.text)?;
    Ok(if merged.refusals.is_empty() { 0 } else { 1 })
}

fn main() {
    process::exit(run().unwrap_or_else(|fault| {
        eprintln!("merge: {fault}");
        3
    }));
}
