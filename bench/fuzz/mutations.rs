//! Changes that know what an input is made of: lines, hex words, numbers and the parts of a JSON document.

use std::slice;

unsafe extern "C" {
    fn LLVMFuzzerMutate(bytes: *mut u8, length: usize, room: usize) -> usize;
}

/// How many bytes a hex word may grow by.
const GROWTH: usize = 64;

const NUMBERS: [&str; 12] = [
    "0", "1", "2", "10", "1000", "2000", "4294967295", "4294967296", "18446744073709551615", "18446744073709551616",
    "340282366920938463463374607431768211455", "340282366920938463463374607431768211456",
];

/// Numbers drawn from a seed.
struct Drawn(u64);

impl Drawn {
    fn below(&mut self, end: usize) -> usize {
        self.0 = self.0.wrapping_mul(6_364_136_223_846_793_005).wrapping_add(1_442_695_040_888_963_407);
        (self.0 >> 33) as usize % end.max(1)
    }

    fn of<'a, T>(&mut self, list: &'a [T]) -> Option<&'a T> {
        let at = self.below(list.len());
        list.get(at)
    }
}

/// Where runs of such bytes begin and end.
fn runs(bytes: &[u8], is_in: impl Fn(u8) -> bool) -> Vec<(usize, usize)> {
    let (mut found, mut start) = (Vec::new(), None);
    for (at, byte) in bytes.iter().copied().chain([0]).enumerate() {
        match start {
            None if is_in(byte) => start = Some(at),
            Some(from) if !is_in(byte) => {
                found.push((from, at));
                start = None;
            }
            _ => {}
        }
    }
    found
}

/// Where the text, list or object that begins here ends.
fn end_of_value(bytes: &[u8], start: usize) -> usize {
    let (mut depth, mut in_text) = (0_usize, false);
    for (at, byte) in bytes.iter().enumerate().skip(start) {
        match byte {
            b'"' => in_text = !in_text,
            b'{' | b'[' if !in_text => depth += 1,
            b'}' | b']' if !in_text => depth = depth.saturating_sub(1),
            _ => {}
        }
        if depth == 0 && !in_text {
            return at + 1;
        }
    }
    bytes.len()
}

/// A value of the document, drawn.
fn value_in(bytes: &[u8], drawn: &mut Drawn) -> Option<(usize, usize)> {
    let end = bytes.windows(3).position(|it| it == b"---").unwrap_or(bytes.len());
    let starts: Vec<usize> = (0..end).filter(|at| matches!(bytes[*at], b'{' | b'[' | b'"')).collect();
    let start = *drawn.of(&starts)?;
    Some((start, end_of_value(bytes, start)))
}

fn replaced(bytes: &[u8], (from, to): (usize, usize), with: &[u8]) -> Vec<u8> {
    [&bytes[..from], with, &bytes[to..]].concat()
}

/// The bytes of one hex word changed.
fn change_hex(bytes: &[u8], drawn: &mut Drawn) -> Option<Vec<u8>> {
    let words = runs(bytes, |it| it.is_ascii_hexdigit());
    let long: Vec<_> = words.into_iter().filter(|(from, to)| to - from >= 4 && (to - from) % 2 == 0).collect();
    let word = *drawn.of(&long)?;
    let digits = std::str::from_utf8(&bytes[word.0..word.1]).ok()?;
    let mut message: Vec<u8> =
        (0..digits.len()).step_by(2).filter_map(|at| u8::from_str_radix(&digits[at..at + 2], 16).ok()).collect();
    let length = message.len();
    message.resize(length + GROWTH, 0);
    // SAFETY: the vector has so many bytes.
    let length = unsafe { LLVMFuzzerMutate(message.as_mut_ptr(), length, length + GROWTH) };
    let digits: String = message[..length].iter().map(|byte| format!("{byte:02x}")).collect();
    Some(replaced(bytes, word, digits.as_bytes()))
}

/// A line doubled, moved or left out.
fn change_lines(bytes: &[u8], drawn: &mut Drawn) -> Option<Vec<u8>> {
    let mut lines: Vec<&[u8]> = bytes.split_inclusive(|it| *it == b'\n').collect();
    let line = *drawn.of(&lines)?;
    let at = drawn.below(lines.len());
    match drawn.below(3) {
        0 => lines.insert(at, line),
        1 => _ = lines.remove(at),
        _ => {
            let other = drawn.below(lines.len());
            lines.swap(at, other);
        }
    }
    Some(lines.concat())
}

/// A number replaced, by a known one or one of the same input.
fn change_number(bytes: &[u8], drawn: &mut Drawn) -> Option<Vec<u8>> {
    let numbers = runs(bytes, |it| it.is_ascii_digit());
    let number = *drawn.of(&numbers)?;
    let other = *drawn.of(&numbers)?;
    let with = if drawn.below(2) == 0 { &bytes[other.0..other.1] } else { drawn.of(&NUMBERS)?.as_bytes() };
    Some(replaced(bytes, number, with))
}

/// A value of the document replaced by another, doubled or left out.
fn change_value(bytes: &[u8], drawn: &mut Drawn) -> Option<Vec<u8>> {
    let value = value_in(bytes, drawn)?;
    let other = value_in(bytes, drawn)?;
    let text = &bytes[other.0..other.1];
    match drawn.below(4) {
        0 => Some(replaced(bytes, value, b"")),
        1 => Some(replaced(bytes, (value.1, value.1), &[b",", text].concat())),
        _ => Some(replaced(bytes, value, text)),
    }
}

/// Puts the bytes back, as many as there is room for.
fn put(changed: &[u8], bytes: *mut u8, room: usize) -> usize {
    let count = changed.len().min(room);
    // SAFETY: libFuzzer lends room for so many bytes.
    unsafe { slice::from_raw_parts_mut(bytes, count) }.copy_from_slice(&changed[..count]);
    count
}

#[unsafe(no_mangle)]
extern "C" fn LLVMFuzzerCustomMutator(bytes: *mut u8, length: usize, room: usize, seed: u32) -> usize {
    let mut drawn = Drawn(u64::from(seed));
    // SAFETY: libFuzzer lends so many bytes.
    let input = unsafe { slice::from_raw_parts(bytes, length) }.to_vec();
    let changed = match drawn.below(10) {
        0..=3 => change_hex(&input, &mut drawn),
        4 => change_lines(&input, &mut drawn),
        5 => change_number(&input, &mut drawn),
        6 | 7 => change_value(&input, &mut drawn),
        _ => None,
    };
    match changed {
        Some(changed) if !changed.is_empty() => put(&changed, bytes, room),
        // SAFETY: as libFuzzer lends them.
        _ => unsafe { LLVMFuzzerMutate(bytes, length, room) },
    }
}

/// Lines of the second input among those of the first.
#[unsafe(no_mangle)]
extern "C" fn LLVMFuzzerCustomCrossOver(
    first: *const u8, first_length: usize, second: *const u8, second_length: usize, out: *mut u8, room: usize, seed: u32,
) -> usize {
    let mut drawn = Drawn(u64::from(seed));
    // SAFETY: libFuzzer lends so many bytes.
    let (first, second) = unsafe { (slice::from_raw_parts(first, first_length), slice::from_raw_parts(second, second_length)) };
    let mut lines: Vec<&[u8]> = first.split_inclusive(|it| *it == b'\n').collect();
    let others: Vec<&[u8]> = second.split_inclusive(|it| *it == b'\n').collect();
    let from = drawn.below(others.len());
    let to = (from + 1 + drawn.below(4)).min(others.len());
    let at = drawn.below(lines.len() + 1).min(lines.len());
    lines.splice(at..at, others[from..to].iter().copied());
    put(&lines.concat(), out, room)
}
