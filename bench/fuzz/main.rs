//! The program and an independent one of the same rules in one process: the same bytes in, so the reports and the statuses have to be
//! the same. `run` beside this file builds and starts it.
//!
//!     fuzz_program WORD..               libFuzzer's own words and folders; $DIFFERENCES is where inputs that differ are kept
//!     fuzz_program cut STRIDE FILE..    each file cut off at every STRIDEth length, and read by pieces of every STRIDEth length
//!
//! A file is an input; one that begins with `A` is run with `--audit`, over what comes after that letter.

mod mutations;

use std::cell::RefCell;
use std::ffi::CString;
use std::os::unix::ffi::OsStringExt;
use std::{env, fs, process, ptr, slice};
use yardstick::network_config::Stage;
use yardstick::xcm_io::{StdSink, StdSource};

/// What the program ends with where memory is refused; then nothing is compared.
const NO_MEMORY: i32 = 8;

/// The most inputs that are kept of those that differ.
const MOST_KEPT: usize = 200;

unsafe extern "C" {
    /// The program's `main`, under this name in its object.
    fn program_main() -> i32;
    fn LLVMFuzzerRunDriver(
        count: *mut i32,
        words: *mut *mut *mut i8,
        one: extern "C" fn(*const u8, usize) -> i32,
    ) -> i32;
}

/// The program's words and standard streams.
#[derive(Default)]
struct Streams {
    audit: bool,
    input: Vec<u8>,
    taken: usize,
    piece: usize,
    written: Vec<u8>,
}

thread_local! {
    static STREAMS: RefCell<Streams> = RefCell::default();
    static KEPT: RefCell<Vec<String>> = const { RefCell::new(Vec::new()) };
}

/// Hands on the next piece of the input.
#[unsafe(no_mangle)]
extern "C" fn program_read(_: i32, buffer: *mut u8, room: usize) -> isize {
    STREAMS.with_borrow_mut(|it| {
        let count = room.min(it.piece).min(it.input.len() - it.taken);
        // SAFETY: the program lends room for so many bytes.
        unsafe { ptr::copy_nonoverlapping(it.input[it.taken..].as_ptr(), buffer, count) };
        it.taken += count;
        count as isize
    })
}

/// Takes the next piece of the report.
#[unsafe(no_mangle)]
extern "C" fn program_write(_: i32, bytes: *const u8, length: usize) -> isize {
    STREAMS.with_borrow_mut(|it| {
        let count = length.min(it.piece.max(16));
        // SAFETY: the program lends so many bytes.
        it.written.extend_from_slice(unsafe { slice::from_raw_parts(bytes, count) });
        count as isize
    })
}

#[unsafe(no_mangle)]
extern "C" fn rattle_arg_count() -> usize {
    STREAMS.with_borrow(|it| 2 + usize::from(it.audit))
}

/// Puts a word at the front of the buffer, and answers its length; -1 where there is no such word, -2 where it doesn't fit.
#[unsafe(no_mangle)]
extern "C" fn rattle_arg(index: usize, buffer: *mut u8, room: usize) -> isize {
    let words: [&[u8]; 3] = [b"program", b"run", b"--audit"];
    if index >= rattle_arg_count() {
        return -1;
    }
    let word = words[index];
    if word.len() > room {
        return -2;
    }
    // SAFETY: the buffer has room for the word.
    unsafe { ptr::copy_nonoverlapping(word.as_ptr(), buffer, word.len()) };
    word.len() as isize
}

/// How a run ended, and its report.
#[derive(PartialEq)]
struct Answer {
    status: i32,
    report: Vec<u8>,
}

/// The program's answer to an input that it reads and reports by pieces of at most this length.
fn program(audit: bool, input: &[u8], piece: usize) -> Answer {
    let input = input.to_vec();
    STREAMS.replace(Streams { audit, input, taken: 0, piece, written: Vec::new() });
    // SAFETY: the program's `main` takes nothing, and each of its runs is by itself.
    let status = unsafe { program_main() };
    Answer { status, report: STREAMS.take().written }
}

/// The independent program's answer.
fn independent(audit: bool, input: &[u8]) -> Answer {
    let mut words = vec!["run".to_string()];
    words.extend(audit.then(|| "--audit".to_string()));
    let mut report = Vec::new();
    let (mut source, mut sink) = (StdSource::new(input), StdSink::new(&mut report));
    let status = yardstick::xcm_cli::run(&words, Stage::Twenty, &mut source, &mut sink) as i32;
    Answer { status, report }
}

/// Whether a file is run with the audit, and its input.
fn case_of(file: &[u8]) -> (bool, &[u8]) {
    match file {
        [b'A', input @ ..] => (true, input),
        input => (false, input),
    }
}

/// A length of pieces that goes by the input: mostly whole reads.
fn piece_of(input: &[u8]) -> usize {
    let sum = input.iter().fold(0_u32, |sum, byte| sum.wrapping_mul(31).wrapping_add(u32::from(*byte)));
    [1, 5, 64, 4_096].get(sum as usize % 16).copied().unwrap_or(usize::MAX)
}

/// A line without what varies from input to input.
fn shape_of(line: Option<&[u8]>) -> String {
    let line = String::from_utf8_lossy(line.unwrap_or(b"(end)")).into_owned();
    let words = line.split(' ').map(|word| if word.contains(|it: char| it.is_ascii_digit()) { "N" } else { word });
    words.take(6).collect::<Vec<_>>().join(" ")
}

/// Where the two answers to a file differ: both statuses, and the first lines that do.
fn difference(file: &[u8]) -> Option<String> {
    let (audit, input) = case_of(file);
    let ours = program(audit, input, piece_of(input));
    if ours.status == NO_MEMORY {
        return None;
    }
    let theirs = independent(audit, input);
    if ours == theirs {
        return None;
    }
    let (mut a, mut b) = (ours.report.split(|it| *it == b'\n'), theirs.report.split(|it| *it == b'\n'));
    let first = loop {
        let (a, b) = (a.next(), b.next());
        if a != b || a.is_none() {
            break format!("{} | {}", shape_of(a), shape_of(b));
        }
    };
    Some(format!("{} | {} | {first}", ours.status, theirs.status))
}

/// The file with pieces left out as long as it differs in the same way: lines, then runs of bytes of falling length.
fn minimised(file: &[u8], how: &str) -> Vec<u8> {
    let mut least = file.to_vec();
    let same = |it: &[u8]| difference(it).as_deref() == Some(how);
    let mut length = least.len() / 2;
    while length > 0 {
        let mut at = 0;
        while at < least.len() {
            let mut fewer = least[..at].to_vec();
            fewer.extend_from_slice(&least[(at + length).min(least.len())..]);
            if same(&fewer) { least = fewer } else { at += length }
        }
        length /= 2;
    }
    least
}

/// Keeps an input that differs in a way that wasn't seen yet.
fn keep(file: &[u8], how: String) {
    let known = KEPT.with_borrow(|it| it.len() >= MOST_KEPT || it.contains(&how));
    if known {
        return;
    }
    let number = KEPT.with_borrow_mut(|it| {
        it.push(how.clone());
        it.len()
    });
    let folder = env::var("DIFFERENCES").unwrap_or_else(|_| ".".to_string());
    let name = format!("{folder}/{}-{number}", process::id());
    eprintln!("difference {name}: {how}");
    fs::write(format!("{name}.whole"), file).expect("an input is kept");
    fs::write(format!("{name}.least"), minimised(file, &how)).expect("an input is kept");
    fs::write(format!("{name}.how"), how).expect("a difference is kept");
}

extern "C" fn one(bytes: *const u8, length: usize) -> i32 {
    // SAFETY: libFuzzer lends so many bytes.
    let file = if length == 0 { &[] } else { unsafe { slice::from_raw_parts(bytes, length) } };
    if let Some(how) = difference(file) {
        keep(file, how);
    }
    0
}

/// Cuts each file, and reads it by pieces; answers how many runs differed.
fn cut(stride: usize, files: &[String]) -> usize {
    let (mut cuts, mut pieces, mut differ) = (0_usize, 0_usize, 0_usize);
    for name in files {
        let file = fs::read(name).expect("a file is read");
        let (audit, input) = case_of(&file);
        let whole = independent(audit, input);
        for length in (0..=input.len()).step_by(stride) {
            let piece = length.max(1);
            cuts += 1;
            if program(audit, &input[..length], usize::MAX) != independent(audit, &input[..length]) {
                differ += 1;
                println!("{name}: cut off at {length} it differs");
            }
            pieces += 1;
            if program(audit, input, piece) != whole {
                differ += 1;
                println!("{name}: by pieces of {piece} it differs");
            }
        }
    }
    println!("{} files, {cuts} cut off, {pieces} by pieces, {differ} differ", files.len());
    differ
}

fn main() {
    let words: Vec<String> = env::args().collect();
    if words.get(1).is_some_and(|it| it == "cut") {
        let stride = words[2].parse().expect("a stride");
        process::exit(i32::from(cut(stride, &words[3..]) > 0));
    }
    let owned: Vec<CString> = env::args_os().map(|it| CString::new(it.into_vec()).expect("a word")).collect();
    let mut pointers: Vec<*mut i8> = owned.iter().map(|it| it.as_ptr().cast_mut()).collect();
    let (mut count, mut first) = (pointers.len() as i32, pointers.as_mut_ptr());
    // SAFETY: the words live until the end.
    process::exit(unsafe { LLVMFuzzerRunDriver(&mut count, &mut first, one) });
}
