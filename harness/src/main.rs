//! Holds the library against an independent reader and editor and a history of files: on generated files, on random sequences
//! of edits, on images of the greatest length, on the marked cases of the written rules and on real files.
//!
//!     harness [--seed N] [--files N] [--elements N] [--records N] [--sequences N]
//!                                                       everything; stops at the first difference
//!     harness [--seed N] --index N                      one generated file again, with its bytes
//!     harness [--seed N] --element N                    one file with linked elements again, with its bytes
//!     harness [--seed N] --record N                     one file with records again, with its bytes
//!     harness [--seed N] --sequence N                   one sequence again, with its calls
//!     harness --file PATH                               one file

mod arguments;
mod cases;
mod compare;
mod contents;
mod editor;
mod elements;
mod files;
mod history;
mod images;
mod lengths;
mod lent;
mod packing;
mod random;
mod reader;
mod record_files;
mod records;
mod sequences;
mod storage;
mod tally;
mod vset;

use compare::{compare, Pairs};
use images::Image;
use random::Random;
use std::path::PathBuf;
use std::process::ExitCode;
use std::thread;
use std::time::Instant;
use tally::Tally;

const DEFAULT_SEED: u64 = 19_930_401;
const DEFAULT_FILES: u64 = 250_000;
const DEFAULT_ELEMENTS: u64 = 40_000;
const DEFAULT_RECORDS: u64 = 40_000;
const DEFAULT_SEQUENCES: u64 = 30_000;

// The limits that callers are told are those of the reader.
const _: () = assert!(hdf4_sys::MOST_BYTES as u64 == reader::MOST_BYTES);
const _: () = assert!(hdf4_sys::MOST_ELEMENTS as u64 == reader::MOST_SLOTS);
const _: () = assert!(hdf4_sys::MOST_FIELDS == vset::MOST_FIELDS && hdf4_sys::MOST_PAIRS == vset::MOST_PAIRS);
const _: () = assert!(hdf4_sys::LITTLE_ENDIAN == vset::LOW_FIRST as usize);
const _: () = assert!(hdf4_sys::EDIT_ROOM == editor::BLOCK_SIZE + editor::Form::Long.size());

/// Compares what a seed and an index make.
type Generated = fn(u64, u64, &mut Tally) -> Result<(), String>;

/// What the arguments ask for.
struct Options {
    seed: u64,
    files: u64,
    elements: u64,
    records: u64,
    sequences: u64,
    index: Option<u64>,
    element: Option<u64>,
    record: Option<u64>,
    sequence: Option<u64>,
    file: Option<PathBuf>,
}

fn main() -> ExitCode {
    let outcome = options().and_then(|options| run(&options));
    match outcome {
        Ok(()) => ExitCode::SUCCESS,
        Err(fault) => {
            eprintln!("{fault}");
            ExitCode::FAILURE
        }
    }
}

fn options() -> Result<Options, String> {
    let mut options = Options {
        seed: DEFAULT_SEED,
        files: DEFAULT_FILES,
        elements: DEFAULT_ELEMENTS,
        records: DEFAULT_RECORDS,
        sequences: DEFAULT_SEQUENCES,
        index: None,
        element: None,
        record: None,
        sequence: None,
        file: None,
    };
    let mut arguments = std::env::args().skip(1);
    while let Some(name) = arguments.next() {
        let value = arguments.next().ok_or(format!("{name}: a value is missing"))?;
        match name.as_str() {
            "--seed" => options.seed = number(&value)?,
            "--files" => options.files = number(&value)?,
            "--elements" => options.elements = number(&value)?,
            "--records" => options.records = number(&value)?,
            "--sequences" => options.sequences = number(&value)?,
            "--index" => options.index = Some(number(&value)?),
            "--element" => options.element = Some(number(&value)?),
            "--record" => options.record = Some(number(&value)?),
            "--sequence" => options.sequence = Some(number(&value)?),
            "--file" => options.file = Some(value.into()),
            _ => return Err(format!("{name}: no such option")),
        }
    }
    Ok(options)
}

fn number(value: &str) -> Result<u64, String> {
    value.parse().map_err(|_| format!("{value}: not a number"))
}

fn run(options: &Options) -> Result<(), String> {
    let mut tally = Tally::default();
    let mut random = Random::new(options.seed, u64::MAX);
    if let Some(path) = &options.file {
        return files::show(path, &mut random, &mut tally);
    }
    if let Some(index) = options.index {
        return show_generated(options.seed, index, &mut tally);
    }
    if let Some(index) = options.element {
        return elements::show(options.seed, index, &mut tally);
    }
    if let Some(index) = options.record {
        return record_files::show(options.seed, index, &mut tally);
    }
    if let Some(index) = options.sequence {
        return sequences::show(options.seed, index, &mut tally);
    }
    run_all(options, &mut random, &mut tally)
}

fn run_all(options: &Options, random: &mut Random, tally: &mut Tally) -> Result<(), String> {
    run_generated(options, tally)?;

    let touched = lengths::compare_lengths(random, tally)?;
    let touched = touched.map_or("unknown".into(), |pages| pages.to_string());
    println!("images of the greatest length and above, pages touched: {touched}");

    let cases = cases::cases();
    for case in &cases {
        cases::check(case)?;
        compare(&case.image, Pairs::All, random, tally).map_err(|difference| difference.to_string())?;
    }
    println!("{} marked cases", cases.len() + cases::edits::check(tally)?);
    println!("{} cases of replacing, removing and empty data", cases::changes::check(tally)?);
    println!("{} cases of desks and of old trailers", cases::desks::check(tally)?);
    println!("{} files of blocks in every order", cases::chains::check_all(random)?);
    println!("{} records with known numbers", cases::records::check(random, tally)?);
    println!("{} values with known bits, in both byte orders", cases::numbers::check(random)?);
    let [refusals, listed] = cases::refusals::check()?;
    println!("{refusals} named cases of refusals, for {listed} rules alone or two at once");

    println!("{} real files", files::compare_all(random, tally)?);
    println!("{}", contents::compare_all()?);
    report(tally)
}

/// The generated files and sequences.
fn run_generated(options: &Options, tally: &mut Tally) -> Result<(), String> {
    let Options { seed, files, elements, records, sequences, .. } = *options;
    run_each(files, "generated files", seed, compare_generated, tally)?;
    run_each(elements, "files with linked elements", seed, elements::compare, tally)?;
    run_each(records, "files with records", seed, record_files::compare, tally)?;
    run_each(sequences, "sequences of edits", seed, sequences::compare, tally)
}

/// So many of one kind, shared out to the processors, and how long they took.
fn run_each(count: u64, title: &str, seed: u64, compare: Generated, tally: &mut Tally) -> Result<(), String> {
    let start = Instant::now();
    let workers = thread::available_parallelism().map_or(1, usize::from);
    let tallies: Vec<Result<Tally, String>> = thread::scope(|scope| {
        let shares = (0..workers).map(|first| (first as u64..count).step_by(workers));
        let running: Vec<_> = shares.map(|share| scope.spawn(move || run_share(share, seed, compare))).collect();
        running.into_iter().map(|worker| worker.join().expect("a worker ends")).collect()
    });
    for share in tallies {
        tally.add(&share?);
    }
    println!("{count} {title}, seed {seed}, {:.1} s", start.elapsed().as_secs_f64());
    Ok(())
}

/// Those of some indices, up to the first difference.
fn run_share(indices: impl Iterator<Item = u64>, seed: u64, compare: Generated) -> Result<Tally, String> {
    let mut tally = Tally::default();
    for index in indices {
        compare(seed, index, &mut tally)?;
    }
    Ok(tally)
}

/// Prints the table of answers, and complains of a number that was never reached.
fn report(tally: &Tally) -> Result<(), String> {
    let Tally { files, sequences, .. } = tally;
    println!("{files} files, {sequences} sequences and {} calls compared, no difference", tally.calls());
    print!("{tally}");
    match tally.never_reached().as_slice() {
        [] => Ok(()),
        missing => Err(format!("never reached by {}", missing.join(", "))),
    }
}

fn compare_generated(seed: u64, index: u64, tally: &mut Tally) -> Result<(), String> {
    let mut random = Random::new(seed, index);
    let image = images::image(&mut random);
    compare(&image.bytes, Pairs::Some, &mut random, tally)
        .map_err(|difference| format!("{difference}\n{}", describe(seed, index, &image)))
}

fn show_generated(seed: u64, index: u64, tally: &mut Tally) -> Result<(), String> {
    let image = images::image(&mut Random::new(seed, index));
    println!("{}", describe(seed, index, &image));
    compare_generated(seed, index, tally)?;
    print!("{tally}");
    Ok(())
}

fn describe(seed: u64, index: u64, image: &Image) -> String {
    let Image { kind, bytes } = image;
    format!("seed {seed} index {index}: {kind}, {} bytes\n{}", bytes.len(), hex_dump(bytes))
}

fn hex_dump(bytes: &[u8]) -> String {
    let line = |(index, part): (usize, &[u8])| {
        let digits: Vec<String> = part.iter().map(|byte| format!("{byte:02x}")).collect();
        format!("{:8} {}\n", 16 * index, digits.join(" "))
    };
    bytes.chunks(16).enumerate().map(line).collect()
}
