//! A caller of the static library `xcm_run_c`. For each input it compares the report and the number that the library answers with those
//! of the program, also where the report has too little room, and asks for the tree of each message of its steps.
//!
//!     c_door PROGRAM INPUT..
use std::io::Write;
use std::process::{Command, Stdio, exit};
use std::{env, fs};

unsafe extern "C" {
    fn xcm_run(
        audit: bool,
        input: *const u8,
        length: usize,
        report: *mut u8,
        room: usize,
        needed: *mut usize,
    ) -> u8;
    fn xcm_message_text(
        message: *const u8,
        length: usize,
        text: *mut u8,
        room: usize,
        needed: *mut usize,
    ) -> u8;
}

/// What a text doesn't fit with.
const NO_ROOM: u8 = 6;

/// What is in a buffer where nothing was written.
const UNTOUCHED: u8 = 0xaa;

/// What a call of the library left.
struct Told {
    answer: u8,
    buffer: Vec<u8>,
    needed: usize,
}

impl Told {
    /// Whether this is the answer and the text, in a buffer of this room.
    fn is(&self, answer: u8, text: &[u8]) -> bool {
        let room = self.buffer.len();
        let (front, behind) = self.buffer.split_at(text.len().min(room));
        let wanted = if text.len() > room { NO_ROOM } else { answer };
        self.answer == wanted
            && self.needed == text.len()
            && front == &text[..front.len()]
            && behind.iter().all(|byte| *byte == UNTOUCHED)
    }
}

fn run(audit: bool, input: &[u8], room: usize) -> Told {
    let (mut buffer, mut needed) = (vec![UNTOUCHED; room], 0);
    let (from, to) = (input.as_ptr(), buffer.as_mut_ptr());
    // SAFETY: both slices are borrowed for the call, and no pointer of a slice is null.
    let answer = unsafe { xcm_run(audit, from, input.len(), to, room, &mut needed) };
    Told { answer, buffer, needed }
}

fn tree(message: &[u8], room: usize) -> Told {
    let (mut buffer, mut needed) = (vec![UNTOUCHED; room], 0);
    let (from, to) = (message.as_ptr(), buffer.as_mut_ptr());
    // SAFETY: as above.
    let answer = unsafe { xcm_message_text(from, message.len(), to, room, &mut needed) };
    Told { answer, buffer, needed }
}

/// What the program answers and writes.
fn program(path: &str, audit: bool, input: &[u8]) -> (u8, Vec<u8>) {
    let words: &[&str] = if audit { &["run", "--audit"] } else { &["run"] };
    let mut child = Command::new(path)
        .args(words)
        .stdin(Stdio::piped())
        .stdout(Stdio::piped())
        .spawn()
        .expect("the program starts");
    let mut source = child.stdin.take().expect("a pipe");
    let input = input.to_vec();
    let feeding = std::thread::spawn(move || {
        // A program that has read what decides closes its input.
        let _ = source.write_all(&input);
    });
    let output = child.wait_with_output().expect("the program ends");
    feeding.join().expect("the input is fed");
    (output.status.code().unwrap_or(255) as u8, output.stdout)
}

/// The bytes of hex digits, with or without `0x`.
fn bytes_of(digits: &str) -> Option<Vec<u8>> {
    let digits = digits.strip_prefix("0x").unwrap_or(digits);
    let pairs = digits.as_bytes().chunks(2);
    pairs
        .map(|pair| u8::from_str_radix(std::str::from_utf8(pair).ok()?, 16).ok())
        .collect()
}

/// The messages of the steps `exec` and `claim`.
fn messages(input: &[u8]) -> Vec<Vec<u8>> {
    let text = String::from_utf8_lossy(input);
    let steps = text.lines().map(|line| line.trim_end_matches('\r'));
    steps
        .filter(|line| line.starts_with("exec ") || line.starts_with("claim "))
        .filter_map(|line| bytes_of(line.rsplit(' ').next()?))
        .collect()
}

/// Whether the library runs the input as the program does, in buffers of several lengths.
fn runs_alike(path: &str, input: &[u8]) -> bool {
    [false, true].into_iter().all(|audit| {
        let (answer, report) = program(path, audit, input);
        let length = report.len();
        let rooms = [length, length + 16, length / 2, length.saturating_sub(1), 0];
        rooms.into_iter().all(|room| run(audit, input, room).is(answer, &report))
    })
}

/// Whether a message is told: as a tree, or in a line that says why there is none; and the same in less room.
fn is_told(message: &[u8]) -> bool {
    let length = tree(message, 0).needed;
    let told = tree(message, length);
    let Ok(text) = String::from_utf8(told.buffer.clone()) else {
        return false;
    };
    let is_whole = match told.answer {
        0 => text.is_empty() || text.ends_with('\n') && text.starts_with(|it: char| it.is_ascii_uppercase()),
        4 => text.lines().count() == 1 && text.ends_with('\n'),
        _ => false,
    };
    is_whole && tree(message, length / 2).is(told.answer, text.as_bytes())
}

fn main() {
    let words: Vec<String> = env::args().collect();
    let (mut runs, mut trees) = (0, 0);
    for path in &words[2..] {
        let input = fs::read(path).expect("the input is read");
        if !runs_alike(&words[1], &input) {
            eprintln!("c_door: {path}: the library answers otherwise than the program");
            exit(1);
        }
        runs += 1;
        for message in messages(&input) {
            if !is_told(&message) {
                eprintln!("c_door: {path}: a message isn't told");
                exit(1);
            }
            trees += 1;
        }
    }
    println!("{runs} inputs run alike, {trees} messages told");
}
