// The format of a trace in plain Rust, written from docs/FORMATS.md: what is refused, and with which message. hostile compares the program
// with it.

const MOST_EVENTS: usize = 1_000_000;
const MOST_BYTES: usize = 33_554_432;

// The command of the program that reads the trace.
#[derive(Clone, Copy, PartialEq)]
pub enum Length {
    // a limited number of events, which are kept
    Limited,
    Any,
}

// A number of at most `most` digits, with no leading zero.
fn number(word: &[u8], digits: usize) -> Option<u64> {
    let plain = word.len() == 1 || word.first() != Some(&b'0');
    let good = plain && (1..=digits).contains(&word.len()) && word.iter().all(u8::is_ascii_digit);
    good.then(|| {
        std::str::from_utf8(word)
            .ok()
            .and_then(|word| word.parse().ok())
    })?
}

pub fn shape_fault(
    [capacity, modulus, width, batch, take_batch]: [u64; 5],
) -> Option<&'static str> {
    if !(1..=64).contains(&capacity) {
        Some("capacity must be from 1 to 64")
    } else if !(1..=capacity).contains(&batch) {
        Some("batch must be from 1 to capacity")
    } else if !(1..=capacity).contains(&take_batch) {
        Some("take batch must be from 1 to capacity")
    } else if !(capacity + batch.max(take_batch) + 1..=256).contains(&modulus) {
        Some(if take_batch == 1 {
            "modulus must be from capacity + batch + 1 to 256"
        } else {
            "modulus must be from capacity + the larger batch + 1 to 256"
        })
    } else if !(1..=64).contains(&width) {
        Some("width must be from 1 to 64")
    } else {
        None
    }
}

fn shape_of(line: &[u8]) -> Option<[u64; 5]> {
    let words: Vec<&[u8]> = line.split(|byte| *byte == b' ').collect();
    if words[0] != b"shape" || !(4..=6).contains(&words.len()) {
        return None;
    }
    let mut shape = [0, 0, 0, 1, 1];
    for (place, word) in words[1..].iter().enumerate() {
        shape[place] = number(word, 4)?;
    }
    (words.len() == 4 || shape[words.len() - 2] != 1).then_some(shape)
}

// Whether these words are those of an event whose bit `is_bit` accepts.
fn is_event(line: &[u8], is_bit: impl Fn(&[u8]) -> bool) -> bool {
    let words: Vec<&[u8]> = line.split(|byte| *byte == b' ').collect();
    match words[..] {
        [b"P" | b"C", b"read" | b"wrote", bit] => is_bit(bit),
        [b"P" | b"C", b"got" | b"write", bit, b"0" | b"1"] => is_bit(bit),
        _ => false,
    }
}

// The name of a bit: its letter, and its numbers as written.
fn bit_of(word: &[u8]) -> Option<(u8, Vec<&[u8]>)> {
    let (letter, rest) = word.split_first()?;
    match letter {
        b'x' if rest.is_empty() => Some((b'x', vec![])),
        b's' | b'r' => Some((*letter, vec![rest])),
        b'c' => {
            let numbers: Vec<&[u8]> = rest.split(|byte| *byte == b'.').collect();
            (numbers.len() == 2).then_some((b'c', numbers))
        }
        _ => None,
    }
}

fn is_bit_of(word: &[u8], [capacity, modulus, width, ..]: [u64; 5]) -> bool {
    let limits: &[u64] = match word.first() {
        Some(b'c') => &[capacity, width],
        Some(b's' | b'r') => &[modulus],
        _ => &[],
    };
    let is_below = |(word, limit): (&&[u8], &u64)| number(word, 4).is_some_and(|it| it < *limit);
    bit_of(word).is_some_and(|(_, numbers)| numbers.iter().zip(limits).all(is_below))
}

fn is_bit_of_some(word: &[u8]) -> bool {
    bit_of(word).is_some_and(|(_, numbers)| {
        numbers
            .iter()
            .all(|it| number(it, usize::MAX).is_some() || is_long(it))
    })
}

// A number that needs more than 64 bits.
fn is_long(word: &[u8]) -> bool {
    word.len() > 19 && word[0] != b'0' && word.iter().all(u8::is_ascii_digit)
}

// A line as it is printed.
fn shown(line: &[u8]) -> String {
    let mut text = String::new();
    for byte in line {
        let escaped = byte.escape_ascii().to_string();
        if text.len() + escaped.len() > 80 {
            return format!("\"{text}\"..");
        }
        text.push_str(&escaped);
    }
    format!("\"{text}\"")
}

fn cause(text: &[u8], at: usize, line: &[u8], has_feed: bool) -> String {
    if text.is_empty() {
        return "there is no text: line 1 is to be: shape CAPACITY MODULUS WIDTH".into();
    }
    let first = text
        .iter()
        .find(|byte| !matches!(byte, b' ' | b'\t' | b'\n' | b'\r' | b'\x0c'));
    if at == 1 && first == Some(&b'{') {
        return "it looks like a script: lamport_ring play reads it".into();
    }
    if at == 1 && (text.starts_with(b"queue") || text.starts_with(b"cut queue")) {
        return "it looks like recorded calls: lamport_ring audit --calls reads them".into();
    }
    let words = if at == 1 && line.starts_with(b"\xef\xbb\xbf") {
        "begins with a byte order mark"
    } else if at == 1 && (line.starts_with(b"\xfe\xff") || line.starts_with(b"\xff\xfe")) {
        "is UTF-16 text"
    } else if line.ends_with(b"\r") {
        "ends in a carriage return"
    } else if line.is_empty() {
        "is empty"
    } else if line.ends_with(b" ") {
        "ends in a space"
    } else if line.starts_with(b" ") {
        "begins with a space"
    } else if !has_feed {
        "has no line feed at its end"
    } else if line.iter().any(u8::is_ascii_control) {
        "has a tab or another control character: between two words stands one space"
    } else if at == 1 && has_batch_of_one(line) {
        "ends in a batch of 1, which is left out"
    } else if at == 1 {
        "is not: shape CAPACITY MODULUS WIDTH [BATCH [TAKE_BATCH]], in numbers of at most 4 digits"
    } else if is_event(line, is_bit_of_some) {
        "names a bit that is not in the shape"
    } else {
        "is none of: S read BIT, S got BIT V, S write BIT V, S wrote BIT"
    };
    format!("line {at} {words}: {}", shown(line))
}

// Whether a line 1 has four or five numbers of which the last is 1.
fn has_batch_of_one(line: &[u8]) -> bool {
    let text = String::from_utf8_lossy(line);
    let words: Vec<&str> = text.split(' ').collect();
    let is_number = |word: &&str| {
        word.bytes().all(|byte| byte.is_ascii_digit())
            && (*word == "0" || !(word.is_empty() || word.starts_with('0')))
    };
    words[0] == "shape" && (words.len() == 5 || words.len() == 6) && words[1..].iter().all(is_number) && words[words.len() - 1] == "1"
}

// The message for a refused trace, line by line; None for one that is accepted.
pub fn refusal(text: &[u8], length: Length) -> Option<String> {
    let bad = |at: usize, line: &[u8], has_feed: bool| {
        let words = format!("refused: trace line {at} is not a line of the format\n");
        Some(match length {
            Length::Limited => format!("{words}  {}\n", cause(text, at, line, has_feed)),
            Length::Any => words,
        })
    };
    if length == Length::Limited && text.len() > MOST_BYTES {
        return Some("refused: input is too large\n".into());
    }
    let mut shape = None;
    let mut rest = text;
    let mut at = 1;
    while at == 1 || !rest.is_empty() {
        if length == Length::Limited && at > MOST_EVENTS + 1 {
            return Some("refused: trace has too many events\n".into());
        }
        let Some(end) = rest.iter().position(|byte| *byte == b'\n') else {
            return bad(at, rest, false);
        };
        let line = &rest[..end];
        rest = &rest[end + 1..];
        match shape {
            None => {
                let Some(found) = shape_of(line) else {
                    return bad(at, line, true);
                };
                if let Some(words) = shape_fault(found) {
                    return Some(format!("refused: {words}\n"));
                }
                shape = Some(found);
            }
            Some(shape) => {
                if !is_event(line, |bit| is_bit_of(bit, shape)) {
                    return bad(at, line, true);
                }
            }
        }
        at += 1;
    }
    None
}
