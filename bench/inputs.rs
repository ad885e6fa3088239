// The inputs of hostile: examples and results of plays, mutated, cut and combined; every byte at every position of a small
// input; each limit and one more; deep and enormous ones. The same seed gives the same inputs.
use crate::play_twin::Play;
use crate::script_twin;

#[derive(Clone, Copy, Debug, PartialEq)]
pub enum Kind {
    Bits,
    LongBits,
    Audit,
    Calls,
    Play,
    PlayTrace,
    PlayCalls,
}

impl Kind {
    pub fn of(words: &str) -> Self {
        match words {
            "audit --bits" => Kind::Bits,
            "audit --bits --long" => Kind::LongBits,
            "audit" => Kind::Audit,
            "audit --calls" => Kind::Calls,
            "play" => Kind::Play,
            "play --trace" => Kind::PlayTrace,
            "play --calls" => Kind::PlayCalls,
            _ => panic!("no command: {words}"),
        }
    }

    fn is_script(self) -> bool {
        matches!(self, Kind::Play | Kind::PlayTrace | Kind::PlayCalls)
    }
}

// Pseudo-random numbers (splitmix64).
pub struct Pick(pub u64);

impl Pick {
    pub fn next(&mut self) -> u64 {
        self.0 = self.0.wrapping_add(0x9e37_79b9_7f4a_7c15);
        let z = (self.0 ^ self.0 >> 30).wrapping_mul(0xbf58_476d_1ce4_e5b9);
        let z = (z ^ z >> 27).wrapping_mul(0x94d0_49bb_1331_11eb);
        z ^ z >> 31
    }

    pub fn below(&mut self, bound: usize) -> usize {
        (self.next() % bound as u64) as usize
    }

    fn one_of<'a, T: ?Sized>(&mut self, of: &[&'a T]) -> &'a T {
        of[self.below(of.len())]
    }
}

const NUMBERS: &[&str] = &[
    "0", "1", "2", "3", "00", "01", "63", "64", "65", "255", "256", "257", "999", "9999", "10000", "1000000", "1000001",
    "4294967295", "4294967296", "9223372036854775808", "18446744073709551615", "18446744073709551616", "99999999999999999999999999",
    "-1", "-0", "1.0", "1e3", "1E+2", "1e309", "1e-400", "0x10", "+1", "",
];

const TRACE_WORDS: &[&str] = &[
    "P", "C", "read", "got", "write", "wrote", "s0", "s1", "s2", "r0", "r1", "r2", "x", "c0.0", "c0.1", "c1.0", "c0", "c0.0.0", "c.0", "s",
    "r00", "s256", "x0", "0", "1", "2", " ", "\n", "\r\n", "\t", "shape", "shape 1 3 1\n", "shape 2 5 1 2\n",
];

const TRACE_LINES: &[&str] = &[
    "P read r0", "P got r0 1", "P got r0 0", "P write c0.0 1", "P wrote c0.0", "P write s1 1", "P wrote s1", "P write s0 0", "P wrote s0",
    "P write x 1", "P wrote x", "P write x 0", "C read s0", "C got s0 0", "C got s0 1", "C read s1", "C got s1 1", "C got s1 0", "C read x",
    "C got x 1", "C got x 0", "C read c0.0", "C got c0.0 1", "C got c0.0 0", "C write r1 1", "C wrote r1", "C write r0 0", "C wrote r0",
    "C write s0 1", "P read s0", "",
];

const CALLS_WORDS: &[&str] = &[
    "P", "C", "put", "stored", "full", "short", "nothing", "closed", "close", "take", "item", "empty", "queue", " ", "\n", "\r\n", "0", "1",
    "P put 1\n", "queue 1\n",
];

const CALLS_LINES: &[&str] = &[
    "P put 1", "P put 0", "P put 1 2", "P put 3 4 5", "P stored", "P stored 1", "P stored 2", "P full", "P short", "P nothing", "P closed",
    "P close", "C take", "C take 2", "C take 3", "C item 1", "C item 0", "C item 1 2", "C item 3 4 5", "C empty", "C short", "C nothing",
    "C closed", "queue 1", "queue", "queue 1 2", "queue 0", "queue 2 2", "",
];

const SCRIPT_WORDS: &[&str] = &[
    "{", "}", "[", "]", ",", ":", "\"", "\\", "\\u0050", "\\ud83d\\ude00", "\\ud83d", "\\udc00", "\\n", "null", "true", "false", "1", "-1",
    "1.0", "1e5", "1e999", "\"capacity\":", "\"modulus\":", "\"width\":", "\"items\":", "\"takes\":", "\"close\":", "\"schedule\":",
    "\"oracle\":", "\"batch\":", "\"batch\":2,", "\"take_batch\":", "\"take_batch\":2,", "\"other\":1,", "P", "C", "P9", "C0", "01", " ", "\n", "\t", "\u{feff}", "\u{1f600}", "é",
];

const SCRIPT_LINES: &[&str] = &[
    "\"capacity\":1,", "\"capacity\":64,", "\"modulus\":3,", "\"modulus\":256,", "\"width\":1,", "\"width\":64,", "\"items\":[],", "\"takes\":0,",
    "\"takes\":18446744073709551615,", "\"close\":true,", "\"close\":null,", "\"schedule\":\"\",", "\"schedule\":\"P1000000\",", "\"oracle\":\"01\",",
    "\"batch\":1,", "\"batch\":0,", "\"take_batch\":1,", "\"take_batch\":0,", "",
];

const SMALL_TRACE: &str = "shape 1 3 1\nC read s0\nP write s0 0\nC got s0 0\nP wrote s0\nC read x\nC got x 0\nP read r0\nP got r0 1\nP write c0.0 1\n";
const SMALL_CALLS: &str = "queue 1 2\nP put 12 3\nC take 2\nP stored 1\nC item 12\nP close\nP closed\nC take\nC closed\n";
const SMALL_SCRIPT: &str = "{\"capacity\":2,\"modulus\":5,\"width\":2,\"items\":[1,3],\"takes\":2,\"close\":true,\"schedule\":\"P12C9P8C40\",\"oracle\":\"01\",\"batch\":2,\"take_batch\":2}";

// A valid script.
pub fn script(pick: &mut Pick) -> String {
    let large = pick.below(50) == 0;
    let capacity = 1 + pick.below(if large { 64 } else { 4 });
    let batch = 1 + if pick.below(2) == 0 { pick.below(capacity) } else { 0 };
    let take_batch = 1 + if pick.below(2) == 0 { pick.below(capacity) } else { 0 };
    let least = capacity + batch.max(take_batch) + 1;
    let modulus = (least + pick.below(if large { 256 } else { 3 })).min(256);
    let width = 1 + pick.below(if large { 64 } else { 3 });
    let mask = if width == 64 { u64::MAX } else { (1 << width) - 1 };
    let items: Vec<String> = (0..pick.below(7)).map(|_| (pick.next() & mask).to_string()).collect();
    let runs = pick.below(40);
    let longest = if large { 400 } else { 12 };
    let schedule: String = (0..runs)
        .map(|_| {
            let letter = pick.one_of(&["P", "C"]);
            match pick.below(3) {
                0 => letter.to_string(),
                _ => format!("{letter}{}", 1 + pick.below(longest)),
            }
        })
        .collect();
    let oracle: String = (0..pick.below(6)).map(|_| pick.one_of(&["0", "1"])).collect();
    let mut fields = vec![
        format!("\"capacity\":{capacity}"),
        format!("\"modulus\":{modulus}"),
        format!("\"width\":{width}"),
        format!("\"items\":[{}]", items.join(",")),
        format!("\"takes\":{}", pick.below(9)),
        format!("\"close\":{}", pick.below(2) == 0),
        format!("\"schedule\":\"{schedule}\""),
        format!("\"oracle\":\"{oracle}\""),
    ];
    if batch > 1 || pick.below(4) == 0 {
        fields.push(format!("\"batch\":{batch}"));
    }
    if take_batch > 1 || pick.below(4) == 0 {
        fields.push(format!("\"take_batch\":{take_batch}"));
    }
    for at in 0..fields.len() {
        if pick.below(8) == 0 {
            let other = pick.below(fields.len());
            fields.swap(at, other);
        }
    }
    let between = pick.one_of(&[",", ",", ", ", ",\n "]);
    format!("{{{}}}", fields.join(between))
}

pub struct Maker {
    kind: Kind,
    pick: Pick,
    examples: Vec<Vec<u8>>,
    // those that do not depend on the seed; the last one is fed first
    fixed: Vec<Vec<u8>>,
    made: u64,
}

fn bytes(text: impl Into<String>) -> Vec<u8> {
    text.into().into_bytes()
}

// Every byte instead of each byte and before each byte of a small input, and each prefix of it.
fn every_byte(small: &str, to: &mut Vec<Vec<u8>>) {
    let small = small.as_bytes();
    for at in 0..small.len() {
        to.push(small[..at].to_vec());
        to.push([&small[..at], &small[at + 1..]].concat());
        for byte in 0..=255 {
            to.push([&small[..at], &[byte], &small[at + 1..]].concat());
            to.push([&small[..at], &[byte], &small[at..]].concat());
        }
    }
    for byte in 0..=255 {
        to.push([small, &[byte]].concat());
    }
}

fn limits_of_trace(to: &mut Vec<Vec<u8>>) {
    for [capacity, modulus, width, batch] in shapes() {
        to.push(bytes(format!("shape {capacity} {modulus} {width}\n")));
        to.push(bytes(format!("shape {capacity} {modulus} {width} {batch}\n")));
        for take_batch in [0, 1, 2, 3, 64, 65] {
            to.push(bytes(format!("shape {capacity} {modulus} {width} {batch} {take_batch}\n")));
        }
    }
    for bit in ["s2", "s3", "r2", "r3", "c0.0", "c1.0", "c0.1", "s255", "s256", "s99999999999999999999999"] {
        to.push(bytes(format!("shape 1 3 1\nC read {bit}\n")));
    }
    for (bit, good) in [("s255", "C"), ("s256", "C"), ("c63.63", "C"), ("c64.63", "C"), ("c63.64", "C")] {
        to.push(bytes(format!("shape 64 256 64\n{good} read {bit}\n")));
    }
    // as many events as a trace may have, and more; with and without a fault after them
    let most = "C read s0\nC got s0 1\n".repeat(500_000);
    for tail in ["", "C read s0\n", "nonsense\n", "C", "\n", "C got s0 0\n"] {
        to.push(bytes(format!("shape 1 3 1\n{most}{tail}")));
    }
    to.push(bytes(format!("shape 1 3 1\n{}", "C read s0\nP write s0 1\nC got s0 0\nP wrote s0\n".repeat(250_000))));
    to.push(bytes(format!("shape 64 256 64\n{}", "P write c63.63 1\nP wrote c63.63\n".repeat(500_000))));
    // as many bytes as an input may have, and one more
    for length in [33_554_432, 33_554_433] {
        let mut text = bytes("shape 1 3 1\nC read s0\n");
        text.resize(length, b'x');
        to.push(text);
        to.push(vec![b'\n'; length]);
    }
    // lines of that length, and white space before a script
    to.push(bytes(format!("shape {}\n", "1".repeat(1_000_000))));
    to.push(bytes(format!("shape 1 3 1\nC read s{}\n", "1".repeat(1_000_000))));
    to.push(bytes(format!("shape 1 3 1\nC read {}\n", "\u{1b}".repeat(1_000_000))));
    to.push(bytes(format!("{}{{", " \t\r\n\x0c".repeat(100_000))));
}

fn shapes() -> Vec<[u64; 4]> {
    let mut shapes = Vec::new();
    for capacity in [0, 1, 2, 63, 64, 65, 9999, 10000] {
        for batch in [0, 1, 2, 64, 65] {
            for modulus in [0, 1, 2, 3, 4, 65, 66, 67, 128, 129, 130, 255, 256, 257, 9999] {
                for width in [0, 1, 64, 65] {
                    shapes.push([capacity, modulus, width, batch]);
                }
            }
        }
    }
    shapes
}

fn limits_of_calls(to: &mut Vec<Vec<u8>>) {
    for number in NUMBERS {
        for line in ["queue N", "queue 1 N", "queue N 7", "queue 2\nP put N", "queue 2\nP put 1 2\nP stored N", "queue 2\nC take N", "queue 2\nC item N"] {
            to.push(bytes(line.replace('N', number) + "\n"));
        }
    }
    // long lines: a million items put at once, and taken; one number of a million digits
    let items: String = (0..1_000_000).map(|item| format!(" {item}")).collect();
    to.push(bytes(format!("queue\nP put{items}\nP stored\nC take 1000000\nC item{items}\n")));
    to.push(bytes(format!("queue\nP put{items}\nP stored\nC take 1000000\nC item{items} 7\n")));
    to.push(bytes(format!("queue\nP put{items}\nP stored\nC take 999999\nC item{items}\n")));
    to.push(bytes(format!("queue\nP put {}\n", "1".repeat(1_000_000))));
    to.push(bytes(format!("queue {}\n", " ".repeat(1_000_000))));
    // an item that comes again after 65,535, 65,536 and 65,537 others that were taken
    for others in [65_534, 65_535, 65_536, 65_537] {
        let calls: String = (0..=others).map(|item| format!("P put {item}\nP stored\nC take\nC item {item}\n")).collect();
        to.push(bytes(format!("queue 1\n{calls}C take\nC item 0\n")));
    }
    let full = "P put 7\nP stored\nC take\nC item 7\n".repeat(500_000);
    to.push(bytes(format!("queue 18446744073709551615\n{full}")));
}

fn limits_of_script(to: &mut Vec<Vec<u8>>) {
    let with = |field: &str, value: &str| {
        let (_, rest) = SMALL_SCRIPT.split_once(&format!("\"{field}\":")).unwrap();
        let old = if rest.starts_with('[') {
            &rest[..=rest.find(']').unwrap()]
        } else {
            &rest[..rest.find([',', '}']).unwrap()]
        };
        bytes(SMALL_SCRIPT.replace(&format!("\"{field}\":{old}"), &format!("\"{field}\":{value}")))
    };
    for field in ["capacity", "modulus", "width", "takes", "batch", "take_batch", "items", "close", "schedule", "oracle"] {
        for value in NUMBERS.iter().chain(&["null", "true", "[]", "{}", "\"\"", "\"P\"", "[1,2,3,4]", "[-1]", "[1.0]", "[[]]", "\"0\"", "\"P0\"", "\"P1000000\"", "\"P1000001\"", "\"\\u0050\""]) {
            to.push(with(field, value));
        }
        let name = format!("\"{field}\":");
        to.push(bytes(SMALL_SCRIPT.replace(&name, "\"\":")));
        to.push(bytes(SMALL_SCRIPT.replace('}', &format!(",{name}1}}"))));
    }
    for [capacity, modulus, width, batch] in shapes() {
        to.push(bytes(format!("{{\"capacity\":{capacity},\"modulus\":{modulus},\"width\":{width},\"items\":[],\"takes\":0,\"close\":false,\"schedule\":\"PC\",\"oracle\":\"\",\"batch\":{batch}}}")));
        to.push(bytes(format!("{{\"capacity\":{capacity},\"modulus\":{modulus},\"width\":{width},\"items\":[],\"takes\":0,\"close\":false,\"schedule\":\"PC\",\"oracle\":\"\",\"take_batch\":{batch}}}")));
    }
    for count in [999, 1000, 1001, 100_000] {
        to.push(with("items", &format!("[{}]", vec!["1"; count].join(","))));
    }
    for letters in [999_999, 1_000_000, 1_000_001] {
        to.push(with("schedule", &format!("\"P{letters}\"")));
        to.push(with("schedule", &format!("\"P{}C\"", letters - 1)));
        to.push(with("schedule", &format!("\"{}\"", "P".repeat(letters))));
        to.push(with("schedule", &format!("\"{}\"", "PC".repeat(letters / 2))));
        to.push(with("oracle", &format!("\"{}\"", "01".repeat(letters))));
    }
    to.push(with("schedule", &format!("\"P{}\"", "9".repeat(1_000_000))));
    to.push(with("schedule", &format!("\"P1{}\"", "0".repeat(1_000_000))));
    // deep, wide, and enormous
    for depth in [1, 2, 126, 127, 128, 129, 1000, 100_000, 10_000_000] {
        to.push(bytes("[".repeat(depth)));
        to.push(bytes("{\"a\":".repeat(depth)));
        to.push(bytes(format!("{}{}", "[".repeat(depth), "]".repeat(depth))));
        to.push(with("items", &format!("{}{}", "[".repeat(depth), "]".repeat(depth))));
        to.push(bytes(format!("{}1{}", "{\"a\":".repeat(depth), "}".repeat(depth))));
    }
    for digits in [19, 20, 21, 308, 309, 310, 1_000_000] {
        for front in ["", "-", "0.", "1.", "1e", "1e-", "0e", "-1E+"] {
            to.push(with("takes", &format!("{front}{}", "9".repeat(digits))));
        }
    }
    for number in ["1.7976931348623157e308", "1.7976931348623159e308", "17976931348623157e292", "4.9e-324", "1e-323", "0e999999999999", "123456789012345678901234567890e280", "-1e308", "-1e309", "1e0308", "1e0309", "0.0000000001e318", "10e307", "10e308"] {
        to.push(with("takes", number));
    }
    let mut text = bytes(SMALL_SCRIPT);
    text.resize(33_554_432, b' ');
    to.push(text.clone());
    text.push(b' ');
    to.push(text);
    let mut text = bytes(SMALL_SCRIPT.replace("\"01\"", &format!("\"{}\"", "0".repeat(33_554_432 - SMALL_SCRIPT.len() + 2))));
    to.push(text.clone());
    text.push(b'\n');
    to.push(text);
    to.push(bytes(format!("\"{}\"", "\\u0050".repeat(1_000_000))));
    to.push(bytes(format!("[{}1]", "1,".repeat(1_000_000))));
    to.push(bytes(format!("{{{}\"a\":1}}", "\"a\":1,".repeat(1_000_000))));
}

impl Maker {
    // The examples are files, one per line of this text.
    pub fn new(kind: Kind, pick: Pick, examples: &str) -> Self {
        let examples = examples.lines().map(|file| std::fs::read(file).unwrap());
        let examples: Vec<Vec<u8>> = examples.filter(|text| text.len() < 20_000).collect();
        let mut fixed = vec![vec![]];
        match kind {
            Kind::Calls => {
                every_byte(SMALL_CALLS, &mut fixed);
                limits_of_calls(&mut fixed);
            }
            Kind::Bits | Kind::LongBits | Kind::Audit => {
                every_byte(SMALL_TRACE, &mut fixed);
                limits_of_trace(&mut fixed);
            }
            _ => {
                every_byte(SMALL_SCRIPT, &mut fixed);
                limits_of_script(&mut fixed);
            }
        }
        for text in examples.iter().filter(|text| text.len() < 600) {
            fixed.extend((0..=text.len()).map(|at| text[..at].to_vec()));
        }
        Maker {
            kind,
            pick,
            examples,
            fixed,
            made: 0,
        }
    }

    // The next input: first all that do not depend on the seed, then others up to the count.
    pub fn next(&mut self, count: u64) -> Option<Vec<u8>> {
        if let Some(input) = self.fixed.pop() {
            self.made += 1;
            return Some(input);
        }
        if self.made >= count {
            return None;
        }
        self.made += 1;
        let mut input = self.first();
        let changes = [0, 1, 1, 1, 2, 2, 3, 8][self.pick.below(8)];
        for _ in 0..changes {
            self.change(&mut input);
        }
        Some(input)
    }

    fn first(&mut self) -> Vec<u8> {
        match self.pick.below(16) {
            0 => (0..self.pick.below(80)).map(|_| self.pick.next() as u8).collect(),
            1 => (0..self.pick.below(30)).flat_map(|_| self.word()).collect(),
            2..=6 => {
                let at = self.pick.below(self.examples.len());
                self.examples[at].clone()
            }
            _ => self.played(),
        }
    }

    // A text from a play: the script, its trace or its calls.
    fn played(&mut self) -> Vec<u8> {
        let text = script(&mut self.pick);
        if self.kind.is_script() {
            return text.into_bytes();
        }
        let script = script_twin::read(text.as_bytes()).ok().expect("a script");
        let play = Play::new(&script, true).play();
        bytes(if self.kind == Kind::Calls { play.calls() } else { play.trace() })
    }

    fn word(&mut self) -> Vec<u8> {
        let words = match self.kind {
            Kind::Calls => CALLS_WORDS,
            Kind::Bits | Kind::LongBits | Kind::Audit => TRACE_WORDS,
            _ => SCRIPT_WORDS,
        };
        bytes(match self.pick.below(4) {
            0 => self.pick.one_of(NUMBERS),
            _ => self.pick.one_of(words),
        })
    }

    fn line(&mut self) -> Vec<u8> {
        let lines = match self.kind {
            Kind::Calls => CALLS_LINES,
            Kind::Bits | Kind::LongBits | Kind::Audit => TRACE_LINES,
            _ => SCRIPT_LINES,
        };
        bytes(self.pick.one_of(lines))
    }

    // A position in the text, possibly its end; or the start of a line.
    fn place(&mut self, input: &[u8]) -> usize {
        self.pick.below(input.len() + 1)
    }

    fn line_place(&mut self, input: &[u8]) -> usize {
        let at = self.place(input);
        let (before, skip) = if self.kind.is_script() { (b',', 1) } else { (b'\n', 1) };
        input[at..].iter().position(|byte| *byte == before).map_or(input.len(), |more| at + more + skip)
    }

    fn change(&mut self, input: &mut Vec<u8>) {
        let at = self.place(input);
        match self.pick.below(14) {
            0 if at < input.len() => input[at] = self.pick.next() as u8,
            1 if at < input.len() => input[at] ^= 1 << self.pick.below(8),
            2 => input.insert(at, self.pick.next() as u8),
            3 if at < input.len() => {
                input.remove(at);
            }
            4 => input.truncate(at),
            5 => {
                let word = self.word();
                input.splice(at..at, word);
            }
            6 | 7 => self.change_number(input, at),
            8 | 9 => {
                let at = self.line_place(input);
                let mut line = self.line();
                if !self.kind.is_script() {
                    line.push(b'\n');
                }
                input.splice(at..at, line);
            }
            10 => {
                // a line is omitted, repeated, or moved
                let from = self.line_place(input);
                let end = input[from..].iter().position(|byte| matches!(byte, b'\n' | b','));
                let to = end.map_or(input.len(), |more| from + more + 1);
                let line: Vec<u8> = input[from..to].to_vec();
                if self.pick.below(3) > 0 {
                    input.drain(from..to);
                }
                if self.pick.below(2) == 0 {
                    let at = self.line_place(input);
                    input.splice(at..at, line);
                }
            }
            11 => {
                let other = self.first();
                let from = self.place(&other);
                input.truncate(at);
                input.extend_from_slice(&other[from..]);
            }
            12 if self.pick.below(20) == 0 => {
                let to = at + self.pick.below(input.len() - at + 1).min(200);
                let part = input[at..to].repeat(1 + self.pick.below(60));
                input.splice(at..at, part);
            }
            13 if self.pick.below(20) == 0 => {
                let part = self.pick.one_of(&["[", "{\"a\":", "]", "\"", "0", " ", "\n", "P", "\\"]);
                let often = [2, 19, 20, 126, 127, 128, 1000][self.pick.below(7)];
                input.splice(at..at, part.repeat(often).into_bytes());
            }
            _ => {
                // two bytes are swapped
                let other = self.place(input);
                if at < input.len() && other < input.len() {
                    input.swap(at, other);
                }
            }
        }
    }

    // The number at or after this position is changed.
    fn change_number(&mut self, input: &mut Vec<u8>, at: usize) {
        let Some(more) = input[at..].iter().position(u8::is_ascii_digit) else {
            return;
        };
        let from = at + more;
        let length = input[from..].iter().take_while(|byte| byte.is_ascii_digit()).count();
        let number = match self.pick.below(3) {
            0 => self.pick.one_of(NUMBERS).to_string(),
            1 => self.pick.below(10).to_string(),
            _ => {
                let old: u128 = String::from_utf8_lossy(&input[from..from + length]).parse().unwrap_or(0);
                let one = self.pick.below(2) == 0;
                (if one { old + 1 } else { old.saturating_sub(1) }).to_string()
            }
        };
        input.splice(from..from + length, number.into_bytes());
    }
}
