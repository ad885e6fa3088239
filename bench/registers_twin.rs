// The audit of a recorded register in plain Rust, to time the program against and to compare it with; the two share no line of code. It reads a
// recording on standard input, in pieces, and prints what `audit --register` prints; its arguments are those of that command after --register
// (`--at-least CLASS`, `--report`, `--stop`), and its status is the same. It keeps the writes that a read under way may return, and for each
// reader and for all together the reads that the next reason would name.
use std::collections::VecDeque;
use std::io::{Read, Write, stdin, stdout};
use std::process::exit;
use std::rc::Rc;

const READERS: usize = 64;
// The longest line, and the most reads that a reason names.
const LONGEST: usize = 54;
const NAMED: usize = 8;
const CANNOT: &str = "this recording cannot tell a regular register from an atomic one";

const SAFE: usize = 0;
const REGULAR: usize = 1;
const BY_READER: usize = 2;
const ATOMIC: usize = 3;
const NAMES: [&str; 4] = ["safe", "regular", "atomic by reader", "atomic"];

// A line after the first.
enum Line {
    Write(u64),
    Wrote,
    Read(usize),
    Got(usize, u64),
}

// A decimal number at the front, below 2^64, with no leading zero; and the rest after it.
fn number(text: &[u8]) -> Option<(u64, &[u8])> {
    let end = text
        .iter()
        .position(|byte| !byte.is_ascii_digit())
        .unwrap_or(text.len());
    if end == 0 || end > 20 || (text[0] == b'0' && end > 1) {
        return None;
    }
    let mut n = 0u64;
    for byte in &text[..end] {
        n = n.checked_mul(10)?.checked_add(u64::from(byte - b'0'))?;
    }
    Some((n, &text[end..]))
}

fn whole_number(text: &[u8]) -> Option<u64> {
    match number(text)? {
        (n, []) => Some(n),
        _ => None,
    }
}

fn further_line(text: &[u8]) -> Option<Line> {
    if let Some(digits) = text.strip_prefix(b"W write ") {
        return whole_number(digits).map(Line::Write);
    }
    if text == b"W wrote" {
        return Some(Line::Wrote);
    }
    let (reader, rest) = number(text.strip_prefix(b"R")?)?;
    let reader = (1..=READERS as u64).contains(&reader).then_some(reader as usize - 1)?;
    if rest == b" read" {
        return Some(Line::Read(reader));
    }
    whole_number(rest.strip_prefix(b" got ")?).map(|value| Line::Got(reader, value))
}

// The first value, the number of values if given, and whether the recording is cut.
fn first_line(text: &[u8]) -> Option<(u64, Option<u64>, bool)> {
    let (rest, is_cut) = match text.strip_prefix(b"cut ") {
        Some(rest) => (rest, true),
        None => (text, false),
    };
    let (first, rest) = number(rest.strip_prefix(b"register ")?)?;
    if rest.is_empty() {
        return Some((first, None, is_cut));
    }
    let values = whole_number(rest.strip_prefix(b" ")?)?;
    (first < values).then_some((first, Some(values), is_cut))
}

// A read that ended, and the line of the earliest write whose value it can have returned.
#[derive(Clone, Copy)]
struct Seen {
    reader: usize,
    ended: u64,
    value: u64,
    written: u64,
}

// The read that raised a floor, the reads that show why it is of no earlier write, and whether there are more of these.
#[derive(Clone)]
struct Chain {
    read: Seen,
    after: Option<Rc<[Seen]>>,
    is_cut: bool,
}

impl Chain {
    fn new(read: Seen, leaning: Option<&Chain>) -> Self {
        let Some(other) = leaning else {
            return Chain {
                read,
                after: None,
                is_cut: false,
            };
        };
        let mut after = vec![other.read];
        after.extend(other.after.iter().flat_map(|reads| reads.iter()));
        let is_cut = other.is_cut || after.len() >= NAMED;
        after.truncate(NAMED - 1);
        Chain {
            read,
            after: Some(after.into()),
            is_cut,
        }
    }
}

// The earliest write that a read may be of, given the reads before it, and the reads that imply this.
#[derive(Clone, Default)]
struct Floor {
    number: u64,
    by: Option<Chain>,
}

struct Open {
    before: u64,
    all: Floor,
    own: Floor,
}

#[derive(Default)]
struct Reader {
    own: Floor,
    open: Option<Open>,
}

#[derive(Default)]
struct Report {
    reads: u64,
    overlapped: u64,
    several: u64,
    could: u64,
}

struct Audit {
    values: Option<u64>,
    // the values and lines of the writes from this number on
    window: VecDeque<(u64, u64)>,
    base: u64,
    begun: u64,
    writing: bool,
    // whether a read that has ended since the write under way began returned its value
    returned: bool,
    // the line at which the last write ended
    ended_at: u64,
    floor: Floor,
    readers: Vec<Reader>,
    misses: [Option<(u64, String)>; 4],
    report: Report,
}

type Turn = Result<(), ()>;

impl Audit {
    fn new(first: u64, values: Option<u64>) -> Self {
        Audit {
            values,
            window: VecDeque::from([(first, 0)]),
            base: 0,
            begun: 0,
            writing: false,
            returned: false,
            ended_at: 0,
            floor: Floor::default(),
            readers: Vec::new(),
            misses: [None, None, None, None],
            report: Report::default(),
        }
    }

    fn is_value(&self, value: u64) -> bool {
        self.values.is_none_or(|values| value < values)
    }

    fn ended(&self) -> u64 {
        self.begun - u64::from(self.writing)
    }

    // The first write of the value from this number on.
    fn find(&self, from: u64, value: u64) -> Option<u64> {
        let skip = (from - self.base) as usize;
        let place = self.window.range(skip..).position(|write| write.0 == value)?;
        Some(from + place as u64)
    }

    fn line(&mut self, at: u64, line: &Line) -> Turn {
        match *line {
            Line::Write(value) => {
                if self.writing {
                    return Err(());
                }
                self.begin_write(at, value);
            }
            Line::Wrote => {
                if !self.writing {
                    return Err(());
                }
                self.writing = false;
                self.ended_at = at;
            }
            Line::Read(reader) => {
                while self.readers.len() <= reader {
                    self.readers.push(Reader::default());
                }
                if self.readers[reader].open.is_some() {
                    return Err(());
                }
                self.begin_read(reader);
            }
            Line::Got(reader, value) => {
                let state = self.readers.get_mut(reader).ok_or(())?;
                let open = state.open.take().ok_or(())?;
                self.end_read(at, reader, value, &open);
            }
        }
        Ok(())
    }

    fn begin_write(&mut self, at: u64, value: u64) {
        let oldest = self
            .readers
            .iter()
            .filter_map(|reader| reader.open.as_ref())
            .fold(self.begun, |oldest, open| oldest.min(open.before));
        self.window.drain(..(oldest - self.base) as usize);
        self.base = oldest;
        self.window.push_back((value, at));
        self.begun += 1;
        self.writing = true;
        self.returned = false;
    }

    fn begin_read(&mut self, reader: usize) {
        let before = self.ended();
        let raised = |floor: &Floor| match floor.number > before {
            true => floor.clone(),
            false => Floor {
                number: before,
                by: None,
            },
        };
        self.report.could += u64::from(self.writing && self.returned);
        self.readers[reader].open = Some(Open {
            before,
            all: raised(&self.floor),
            own: raised(&self.readers[reader].own),
        });
    }

    fn end_read(&mut self, at: u64, reader: usize, value: u64, open: &Open) {
        let any = self.find(open.before, value);
        let from = |low: u64| match any {
            Some(n) if n < low => self.find(low, value),
            found => found,
        };
        let (all, own) = (from(open.all.number), from(open.own.number));
        self.report.reads += 1;
        self.report.overlapped += u64::from(open.before < self.begun);
        self.report.several += u64::from(open.before + 1 < self.begun);
        if self.writing && self.window.back().is_some_and(|write| write.0 == value) {
            self.returned = true;
        }
        let got = || format!("R{} got {value}", reader + 1);
        if !self.is_value(value) {
            self.misses_from(SAFE, at, || format!("{}, which is no value of the register", got()));
        } else if any.is_none() && open.before == self.begun {
            let held = self.window[self.window.len() - 1].0;
            let since = match self.ended_at {
                0 => "since the start".into(),
                line => format!("since line {line}"),
            };
            self.misses_from(SAFE, at, || {
                format!("{}, but no write overlapped the read, and the register held {held} {since}", got())
            });
        } else if any.is_none() {
            self.misses_from(REGULAR, at, || {
                format!("{}, but neither the last write before the read nor one that overlapped it wrote {value}", got())
            });
        } else {
            for (class, found, floor) in [(BY_READER, own, &open.own), (ATOMIC, all, &open.all)] {
                if found.is_none() && self.misses[class].is_none() {
                    self.misses[class] = Some((at, inverted(&got(), floor)));
                }
            }
        }
        let link = |number: u64| Seen {
            reader,
            ended: at,
            value,
            written: self.window[(number - self.base) as usize].1,
        };
        let raise = |floor: &Floor, found: Option<u64>, low: &Floor| match found {
            Some(number) if number > floor.number => {
                let leaning = low.by.as_ref().filter(|_| any < Some(low.number));
                Some(Floor {
                    number,
                    by: Some(Chain::new(link(number), leaning)),
                })
            }
            _ => None,
        };
        let all_floor = raise(&self.floor, all, &open.all);
        let own_floor = raise(&self.readers[reader].own, own, &open.own);
        if let Some(floor) = all_floor {
            self.floor = floor;
        }
        if let Some(floor) = own_floor {
            self.readers[reader].own = floor;
        }
    }

    // This class and all stronger ones are missed at this line, if they were not missed before.
    fn misses_from(&mut self, class: usize, at: u64, words: impl Fn() -> String) {
        for missed in &mut self.misses[class..] {
            if missed.is_none() {
                *missed = Some((at, words()));
            }
        }
    }

    // The number of the strongest class that it has, from 1; 0 if none.
    fn best(&self) -> usize {
        self.misses.iter().position(Option::is_some).unwrap_or(4)
    }

    fn output(&self, reports: bool) -> String {
        let mut out = match self.best() {
            0 => "not safe".into(),
            best => NAMES[best - 1].to_string(),
        };
        let line = |class: usize| self.misses[class].as_ref().map(|miss| miss.0);
        for class in SAFE..=ATOMIC {
            let is_said = match class {
                SAFE => false,
                REGULAR => line(REGULAR) == line(SAFE),
                BY_READER => line(BY_READER) == line(REGULAR) || line(BY_READER) == line(ATOMIC),
                _ => line(ATOMIC) == line(REGULAR),
            };
            if let (Some((at, words)), false) = (&self.misses[class], is_said) {
                out += &format!("\nnot {}: line {at}: {words}", NAMES[class]);
            }
        }
        if reports {
            let Report {
                reads,
                overlapped,
                several,
                could,
            } = self.report;
            out += &format!(
                "\nwrites {}\nreads {reads}\noverlapped {overlapped}\nby several {several}\ncould invert {could}",
                self.begun
            );
            if could == 0 {
                out += "\n";
                out += CANNOT;
            }
        }
        out
    }
}

fn inverted(got: &str, floor: &Floor) -> String {
    let Some(Chain { read, after, is_cut }) = &floor.by else {
        return String::new();
    };
    let mut words = format!(
        "{got}, but a read of R{} that ended at line {} gave the later value {}, of line {}",
        read.reader + 1,
        read.ended,
        read.value,
        read.written
    );
    for link in after.iter().flat_map(|reads| reads.iter()) {
        words += &format!(
            "; for the read of R{} that ended at line {} can be of no write before that of line {}",
            link.reader + 1,
            link.ended,
            link.written
        );
    }
    if *is_cut {
        words += "; ..";
    }
    words
}

struct Options {
    least: usize,
    reports: bool,
    stops: bool,
}

// The reading of a recording in pieces.
struct Reading {
    options: Options,
    carried: Vec<u8>,
    at: u64,
    audit: Option<Audit>,
    is_cut: bool,
    out_of_turn: Option<u64>,
    is_over: bool,
}

impl Reading {
    // Reads the next piece; None if a line is not in the format.
    fn read(&mut self, piece: &[u8]) -> Option<()> {
        let mut rest = piece;
        while let (Some(end), false) = (rest.iter().position(|byte| *byte == b'\n'), self.is_over) {
            if self.carried.is_empty() {
                self.end_line(&rest[..end])?;
            } else {
                let mut line = std::mem::take(&mut self.carried);
                line.extend_from_slice(&rest[..end]);
                self.end_line(&line)?;
            }
            rest = &rest[end + 1..];
        }
        if self.is_over {
            return Some(());
        }
        if self.carried.len() + rest.len() > LONGEST {
            return None;
        }
        self.carried.extend_from_slice(rest);
        Some(())
    }

    fn end_line(&mut self, text: &[u8]) -> Option<()> {
        let at = self.at;
        let Some(audit) = &mut self.audit else {
            let (first, values, is_cut) = first_line(text)?;
            self.audit = Some(Audit::new(first, values));
            self.is_cut = is_cut;
            self.at += 1;
            return Some(());
        };
        let line = further_line(text)?;
        if matches!(line, Line::Write(value) if !audit.is_value(value)) {
            return None;
        }
        if self.out_of_turn.is_none() && audit.line(at, &line).is_err() {
            self.out_of_turn = Some(at);
        }
        self.is_over = self.options.stops
            && (self.out_of_turn.is_some() || audit.misses[self.options.least].is_some());
        self.at += 1;
        Some(())
    }

    // The exit status of the process, and its output.
    fn finding(&self) -> Option<(i32, String)> {
        let audit = self.audit.as_ref()?;
        if !self.carried.is_empty() {
            return None;
        }
        if let Some(line) = self.out_of_turn {
            return Some((3, format!("fault: line {line}: out of turn")));
        }
        let cut = if self.is_cut { "\ncut yes" } else { "" };
        let status = if audit.best() > self.options.least { 0 } else { 3 };
        Some((status, audit.output(self.options.reports) + cut))
    }
}

fn options() -> Option<Options> {
    let mut options = Options {
        least: ATOMIC,
        reports: false,
        stops: false,
    };
    let mut words = std::env::args().skip(1);
    while let Some(word) = words.next() {
        match word.as_str() {
            "--report" => options.reports = true,
            "--stop" => options.stops = true,
            "--at-least" => {
                let name = words.next()?;
                options.least = [SAFE, REGULAR, ATOMIC].into_iter().find(|class| NAMES[*class] == name)?;
            }
            _ => return None,
        }
    }
    Some(options)
}

fn refuse(line: u64) -> ! {
    eprintln!("refused: register line {line} is not a line of the format");
    exit(1)
}

fn main() {
    let Some(options) = options() else { exit(2) };
    let mut piece = vec![0; 1 << 16];
    let mut reading = Reading {
        options,
        carried: Vec::new(),
        at: 1,
        audit: None,
        is_cut: false,
        out_of_turn: None,
        is_over: false,
    };
    loop {
        let size = stdin().read(&mut piece).expect("the input can be read");
        if size == 0 || reading.is_over {
            break;
        }
        if reading.read(&piece[..size]).is_none() {
            refuse(reading.at);
        }
        if reading.is_over {
            break;
        }
    }
    let Some((status, finding)) = reading.finding() else {
        refuse(reading.at)
    };
    match writeln!(stdout(), "{finding}") {
        Ok(()) => exit(status),
        Err(_) => exit(1),
    }
}
