// The audit in plain Rust: bench.py measures the program against it, and hostile compares the two. It audits programs, or, with --bits,
// bits alone. It reads a trace on standard input, goes through its lines once and prints what it finds. It assumes that the lines are well-formed.
use std::fmt::Write;
use std::io::Read;
use std::process::exit;

// A read of a bit (its value is 0 here), or a write of the value to it.
#[derive(Clone, Copy, PartialEq)]
struct Access {
    bit: usize,
    is_write: bool,
    value: u8,
}

impl Access {
    fn read(bit: usize) -> Self {
        Access {
            bit,
            is_write: false,
            value: 0,
        }
    }

    fn write(bit: usize, value: u8) -> Self {
        Access {
            bit,
            is_write: true,
            value,
        }
    }

    // Whether it writes the bit, with any value.
    fn writes(&self, bit: usize) -> bool {
        self.is_write && self.bit == bit
    }
}

// The shape, with the indexes of the bits in one table: those of s, those of r, x, and the digits of the cells.
#[derive(Clone, Copy)]
struct Shape {
    capacity: usize,
    modulus: usize,
    width: usize,
    batch: usize,
    take_batch: usize,
}

impl Shape {
    fn read(line: &[u8]) -> Self {
        let numbers: Vec<usize> = line.split(|b| *b == b' ').skip(1).map(number).collect();
        Shape {
            capacity: numbers[0],
            modulus: numbers[1],
            width: numbers[2],
            batch: numbers.get(3).copied().unwrap_or(1),
            take_batch: numbers.get(4).copied().unwrap_or(1),
        }
    }

    fn s(&self, index: usize) -> usize {
        index
    }

    fn r(&self, index: usize) -> usize {
        self.modulus + index
    }

    fn x(&self) -> usize {
        2 * self.modulus
    }

    fn cell(&self, cell: usize, digit: usize) -> usize {
        2 * self.modulus + 1 + cell * self.width + digit
    }

    fn bits(&self) -> usize {
        self.cell(self.capacity, 0)
    }

    // The index of a bit, and its writer: 0 is the producer, 1 the consumer.
    fn place(&self, bit: &[u8]) -> (usize, usize) {
        match bit[0] {
            b's' => (self.s(number(&bit[1..])), 0),
            b'r' => (self.r(number(&bit[1..])), 1),
            b'x' => (self.x(), 0),
            _ => {
                let dot = position(bit, b'.').unwrap();
                (self.cell(number(&bit[1..dot]), number(&bit[dot + 1..])), 0)
            }
        }
    }

    // How far a is ahead of b.
    fn distance(&self, a: usize, b: usize) -> usize {
        if a >= b { a - b } else { a + self.modulus - b }
    }
}

fn number(digits: &[u8]) -> usize {
    digits
        .iter()
        .fold(0, |n, digit| 10 * n + usize::from(digit - b'0'))
}

fn position(bytes: &[u8], byte: u8) -> Option<usize> {
    bytes.iter().position(|b| *b == byte)
}

// An event: its side, 0 for the producer and 1 for the consumer, begins or ends the access. The value of the end of a read is its
// answer.
struct Event {
    side: usize,
    writer: usize,
    begins: bool,
    access: Access,
}

impl Event {
    fn read(shape: &Shape, line: &[u8]) -> Self {
        let word_end = 2 + position(&line[2..], b' ').unwrap();
        let rest = &line[word_end + 1..];
        let bit_end = position(rest, b' ').unwrap_or(rest.len());
        let value = rest.get(bit_end + 1).map_or(0, |digit| digit - b'0');
        let (bit, writer) = shape.place(&rest[..bit_end]);
        let (is_write, begins) = match &line[2..word_end] {
            b"read" => (false, true),
            b"got" => (false, false),
            b"write" => (true, true),
            _ => (true, false),
        };
        Event {
            side: usize::from(line[0] == b'C'),
            writer,
            begins,
            access: Access {
                bit,
                is_write,
                value,
            },
        }
    }
}

// The access that a side has open, and whether a write has overlapped it.
#[derive(Clone, Copy)]
struct Open {
    bit: usize,
    is_write: bool,
    overlapped: bool,
}

// What each bit holds, the value of its open write, and what each side has open.
struct Bits {
    held: Vec<u8>,
    written: Vec<Option<u8>>,
    sides: [Option<Open>; 2],
}

impl Bits {
    fn new(shape: &Shape) -> Self {
        let mut held = vec![0; shape.bits()];
        held[shape.s(0)] = 1;
        held[shape.r(0)] = 1;
        Bits {
            written: vec![None; held.len()],
            held,
            sides: [None, None],
        }
    }

    // Takes the next event, or returns its fault.
    fn read(&mut self, event: &Event) -> Result<(), &'static str> {
        let Event {
            side,
            writer,
            begins,
            access,
        } = *event;
        let Access {
            bit,
            is_write,
            value,
        } = access;
        if is_write != (side == writer) {
            return Err("wrong side");
        }
        match self.sides[side] {
            None if begins => {}
            Some(open) if !begins && open.bit == bit && open.is_write == is_write => {}
            _ => return Err("out of turn"),
        }
        match (is_write, begins) {
            (false, true) => {
                let overlapped = self.written[bit].is_some();
                self.sides[side] = Some(Open {
                    bit,
                    is_write,
                    overlapped,
                });
            }
            (false, false) => {
                if self.sides[side].is_some_and(|open| !open.overlapped) && value != self.held[bit]
                {
                    return Err("not permitted");
                }
                self.sides[side] = None;
            }
            (true, true) => {
                self.written[bit] = Some(value);
                self.sides[side] = Some(Open {
                    bit,
                    is_write,
                    overlapped: false,
                });
                if let Some(open) = &mut self.sides[1 - side]
                    && open.bit == bit
                {
                    open.overlapped = true;
                }
            }
            (true, false) => {
                self.held[bit] = self.written[bit].take().unwrap();
                self.sides[side] = None;
            }
        }
        Ok(())
    }
}

// A side's own count: its bits, their indexes in the table, and the next bit write of a unary write under way.
struct Row {
    first: usize,
    bits: Vec<bool>,
    due: Option<(usize, bool)>,
}

impl Row {
    fn new(first: usize, modulus: usize) -> Self {
        let mut bits = vec![false; modulus];
        bits[0] = true;
        Row {
            first,
            bits,
            due: None,
        }
    }

    fn begin(&mut self, value: usize) {
        self.due = if self.bits[value] {
            self.clear_below(value)
        } else {
            Some((value, true))
        };
    }

    // The clear of the highest bit that is set below this one.
    fn clear_below(&self, bit: usize) -> Option<(usize, bool)> {
        self.bits[..bit]
            .iter()
            .rposition(|set| *set)
            .map(|found| (found, false))
    }

    fn next(&self) -> Option<Access> {
        self.due
            .map(|(bit, value)| Access::write(self.first + bit, u8::from(value)))
    }

    // The due write was made. Returns whether the unary write is complete.
    fn go_on(&mut self) -> bool {
        if let Some((bit, value)) = self.due {
            self.bits[bit] = value;
            self.due = self.clear_below(bit);
        }
        self.due.is_none()
    }
}

// The progress of a put: in a scan, the number of bits read as 0; in a word, the number of digits written.
#[derive(Clone, Copy)]
enum Put {
    Resting,
    Scanning(usize),
    Choosing,
    Storing(usize),
    Counting,
    Closing,
    Closed,
}

// The producer's events, read as its puts. The items of a put are counted once its count write begins.
struct Producer {
    shape: Shape,
    stage: Put,
    count: usize,
    next_count: usize,
    cell: usize,
    room: usize,
    item: u64,
    row: Row,
    items: Vec<u64>,
    counted: usize,
}

impl Producer {
    fn new(shape: Shape) -> Self {
        Producer {
            shape,
            stage: Put::Resting,
            count: 0,
            next_count: 0,
            cell: 0,
            room: 0,
            item: 0,
            row: Row::new(shape.s(0), shape.modulus),
            items: Vec::new(),
            counted: 0,
        }
    }

    // An access begins, while none is open. Returns whether the program may make it.
    fn begin(&mut self, access: Access) -> bool {
        let shape = self.shape;
        match self.stage {
            Put::Resting if access == Access::write(shape.x(), 1) => self.stage = Put::Closing,
            Put::Resting if access == Access::read(shape.r(0)) => self.stage = Put::Scanning(0),
            Put::Scanning(zeros) if access == Access::read(shape.r(zeros)) => {}
            Put::Choosing if self.room > 0 && access.writes(shape.cell(self.cell, 0)) => {
                self.item = u64::from(access.value);
                self.stage = Put::Storing(0);
            }
            Put::Choosing if self.items.len() > self.counted => {
                self.row.begin(self.next_count);
                self.counted = self.items.len();
                self.stage = Put::Counting;
                return self.row.next() == Some(access);
            }
            Put::Storing(digit) if access.writes(shape.cell(self.cell, digit)) => {
                self.item |= u64::from(access.value) << digit;
            }
            Put::Counting if self.row.next() == Some(access) => {}
            _ => return false,
        }
        true
    }

    // The open access ends with this answer. Returns whether the program may continue with it.
    fn end(&mut self, answer: u8) -> bool {
        let shape = self.shape;
        match self.stage {
            Put::Scanning(zeros) if answer == 0 => {
                self.stage = Put::Scanning(zeros + 1);
                return zeros + 1 < shape.modulus;
            }
            Put::Scanning(seen) => {
                let ahead = shape.distance(self.count, seen);
                self.room = shape.capacity.saturating_sub(ahead).min(shape.batch);
                self.next_count = self.count;
                self.stage = if self.room > 0 {
                    Put::Choosing
                } else {
                    Put::Resting
                };
            }
            Put::Storing(digit) if digit + 1 < shape.width => self.stage = Put::Storing(digit + 1),
            Put::Storing(_) => {
                self.items.push(self.item);
                self.cell = (self.cell + 1) % shape.capacity;
                self.next_count = (self.next_count + 1) % shape.modulus;
                self.room -= 1;
                self.stage = Put::Choosing;
            }
            Put::Counting => {
                if self.row.go_on() {
                    self.count = self.next_count;
                    self.stage = Put::Resting;
                }
            }
            Put::Closing => self.stage = Put::Closed,
            Put::Resting | Put::Choosing | Put::Closed => unreachable!(),
        }
        true
    }
}

// The progress of a take: in a scan (the first, or the one after a close), the number of bits read as 0; in a word, of digits read.
#[derive(Clone, Copy)]
enum Take {
    Resting,
    Scanning { zeros: usize, again: bool },
    Checking,
    // after a word, `left` more items are shown that may still be read
    Choosing(usize),
    Loading { digit: usize, left: usize },
    Counting,
    Told,
}

// The consumer's events, read as its takes. The items of a take are taken once its count write has ended.
struct Consumer {
    shape: Shape,
    stage: Take,
    count: usize,
    next_count: usize,
    cell: usize,
    item: u64,
    row: Row,
    items: Vec<u64>,
    loaded: Vec<u64>,
}

impl Consumer {
    fn new(shape: Shape) -> Self {
        Consumer {
            shape,
            stage: Take::Resting,
            count: 0,
            next_count: 0,
            cell: 0,
            item: 0,
            row: Row::new(shape.r(0), shape.modulus),
            items: Vec::new(),
            loaded: Vec::new(),
        }
    }

    // The access that is due: a take begins if none is under way, and one that may read another word writes its count.
    fn next(&self) -> Option<Access> {
        match self.stage {
            Take::Resting => Some(Access::read(self.shape.s(0))),
            Take::Scanning { zeros, .. } => Some(Access::read(self.shape.s(zeros))),
            Take::Checking => Some(Access::read(self.shape.x())),
            Take::Loading { digit, .. } => Some(Access::read(self.shape.cell(self.cell, digit))),
            Take::Choosing(_) | Take::Counting => self.row.next(),
            Take::Told => None,
        }
    }

    // An access begins, while none is open. Returns whether the program may make it.
    fn begin(&mut self, access: Access) -> bool {
        if let Take::Choosing(left) = self.stage {
            if left > 0 && access == Access::read(self.shape.cell(self.cell, 0)) {
                self.item = 0;
                self.stage = Take::Loading { digit: 0, left };
            } else {
                self.row.begin(self.next_count);
                self.stage = Take::Counting;
            }
        }
        let goes_on = self.next() == Some(access);
        if let Take::Resting = self.stage {
            self.stage = Take::Scanning {
                zeros: 0,
                again: false,
            };
        }
        goes_on
    }

    // The open access ends with this answer. Returns whether the program may continue with it.
    fn end(&mut self, answer: u8) -> bool {
        let shape = self.shape;
        match self.stage {
            Take::Scanning { zeros, again } if answer == 0 => {
                self.stage = Take::Scanning {
                    zeros: zeros + 1,
                    again,
                };
                return zeros + 1 < shape.modulus;
            }
            Take::Scanning { zeros: seen, again } => {
                let ahead = shape.distance(seen, self.count);
                self.stage = if (1..=shape.capacity).contains(&ahead) {
                    self.item = 0;
                    self.next_count = self.count;
                    Take::Loading {
                        digit: 0,
                        left: ahead.min(shape.take_batch),
                    }
                } else if again {
                    Take::Told
                } else {
                    Take::Checking
                };
            }
            Take::Checking if answer == 1 => {
                self.stage = Take::Scanning {
                    zeros: 0,
                    again: true,
                }
            }
            Take::Checking => self.stage = Take::Resting,
            Take::Loading { digit, left } => {
                self.item |= u64::from(answer) << digit;
                self.stage = Take::Loading {
                    digit: digit + 1,
                    left,
                };
                if digit + 1 == shape.width {
                    self.loaded.push(self.item);
                    self.cell = (self.cell + 1) % shape.capacity;
                    self.next_count = (self.next_count + 1) % shape.modulus;
                    self.stage = Take::Choosing(left - 1);
                }
            }
            Take::Counting => {
                if self.row.go_on() {
                    self.items.append(&mut self.loaded);
                    self.count = self.next_count;
                    self.stage = Take::Resting;
                }
            }
            Take::Resting | Take::Choosing(_) | Take::Told => unreachable!(),
        }
        true
    }
}

// The programs of the two sides.
struct Programs {
    producer: Producer,
    consumer: Consumer,
}

impl Programs {
    // Takes the next event, which the bits permit, or returns its fault.
    fn read(&mut self, event: &Event) -> Result<(), &'static str> {
        let goes_on = match (event.side, event.begins) {
            (0, true) => self.producer.begin(event.access),
            (0, false) => self.producer.end(event.access.value),
            (_, true) => self.consumer.begin(event.access),
            (_, false) => self.consumer.end(event.access.value),
        };
        if goes_on {
            Ok(())
        } else {
            Err("not of the program")
        }
    }

    // What was put, what was taken, and whether a take returned that the ring is closed.
    fn text(&self) -> String {
        let mut text = String::new();
        let put = &self.producer.items[..self.producer.counted];
        for (word, items) in [("put", put), ("taken", &self.consumer.items)] {
            text.push_str(word);
            for item in items {
                write!(text, " {item}").unwrap();
            }
            text.push('\n');
        }
        text.push_str(if let Take::Told = self.consumer.stage {
            "told yes\n"
        } else {
            "told no\n"
        });
        text
    }
}

// The result for a trace: the exit status of the process, and its output.
pub fn finding(text: &[u8], bits_alone: bool) -> (i32, String) {
    let mut lines = text.split(|byte| *byte == b'\n');
    let shape = Shape::read(lines.next().unwrap());
    let mut bits = Bits::new(&shape);
    let mut programs = (!bits_alone).then(|| Programs {
        producer: Producer::new(shape),
        consumer: Consumer::new(shape),
    });
    for (place, line) in lines.take_while(|line| !line.is_empty()).enumerate() {
        let event = Event::read(&shape, line);
        let found = bits.read(&event).and_then(|()| match &mut programs {
            Some(programs) => programs.read(&event),
            None => Ok(()),
        });
        if let Err(kind) = found {
            return (3, format!("fault: line {}: {kind}\n", place + 2));
        }
    }
    let lists = programs.map_or(String::new(), |programs| programs.text());
    (0, format!("lawful\n{lists}"))
}

#[allow(dead_code)]
fn main() {
    let bits_alone = std::env::args().nth(1).is_some_and(|word| word == "--bits");
    let mut text = Vec::new();
    std::io::stdin().read_to_end(&mut text).unwrap();
    let (status, words) = finding(&text, bits_alone);
    print!("{words}");
    exit(status)
}
