// The player of scripts in plain Rust, written from docs/MODEL.md: two sides over safe bits, their report, their trace and their calls
// as a recorder would record them. hostile compares the program with it, and uses it to make lawful traces and recordings.
use crate::script_twin::Script;
use std::collections::VecDeque;
use std::fmt::Write;

#[derive(Clone, Copy)]
struct Access {
    bit: usize,
    // the value that is written; None for a read
    value: Option<u8>,
}

// The open access of a side. For a read: the bit's value, and whether a write overlapped it.
#[derive(Clone, Copy)]
struct Open {
    access: Access,
    held: u8,
    overlapped: bool,
}

enum At {
    Resting,
    // the number of zeros that a scan has read; for a take, whether it is the scan after a close
    Scanning(usize, bool),
    Checking,
    // the remaining writes and reads, all of them known
    Working,
}

// A side: its count and the bits of it, the stage of its call, the number of items offered or asked for, and the result.
struct Side {
    at: At,
    count: usize,
    row: Vec<bool>,
    left: VecDeque<Access>,
    offered: usize,
    stored: usize,
    digits: Vec<u8>,
    closing: bool,
}

pub struct Play<'a> {
    script: &'a Script,
    held: Vec<u8>,
    open: [Option<Open>; 2],
    sides: [Side; 2],
    asked: usize,
    events: u64,
    // the items stored by puts that are over, and by puts that have begun to write their count
    over: usize,
    put: usize,
    taken: Vec<u64>,
    knows_closed: bool,
    closed: bool,
    full: u64,
    empty: u64,
    flicker: u64,
    trace: Option<String>,
    calls: Option<String>,
}

impl<'a> Play<'a> {
    pub fn new(script: &'a Script, records: bool) -> Self {
        let modulus = script.modulus as usize;
        let bits = 2 * modulus + 1 + (script.capacity * script.width) as usize;
        let mut held = vec![0; bits];
        held[0] = 1;
        held[modulus] = 1;
        let side = || {
            let mut row = vec![false; modulus];
            row[0] = true;
            Side {
                at: At::Resting,
                count: 0,
                row,
                left: VecDeque::new(),
                offered: 0,
                stored: 0,
                digits: Vec::new(),
                closing: false,
            }
        };
        let mut shape = format!(
            "shape {} {} {}",
            script.capacity, script.modulus, script.width
        );
        if script.take_batch > 1 {
            write!(shape, " {} {}", script.batch, script.take_batch).unwrap();
        } else if script.batch > 1 {
            write!(shape, " {}", script.batch).unwrap();
        }
        Play {
            script,
            held,
            open: [None, None],
            sides: [side(), side()],
            asked: 0,
            events: 0,
            over: 0,
            put: 0,
            taken: Vec::new(),
            knows_closed: false,
            closed: false,
            full: 0,
            empty: 0,
            flicker: 0,
            trace: records.then(|| shape + "\n"),
            calls: records.then(|| format!("queue {}\n", script.capacity)),
        }
    }

    fn modulus(&self) -> usize {
        self.script.modulus as usize
    }

    // A bit of a count: s for the producer's, r for the consumer's.
    fn row_bit(&self, side: usize, index: usize) -> usize {
        side * self.modulus() + index
    }

    fn cell_bits(&self, cell: usize) -> std::ops::Range<usize> {
        let width = self.script.width as usize;
        let first = 2 * self.modulus() + 1 + cell * width;
        first..first + width
    }

    fn close_bit(&self) -> usize {
        2 * self.modulus()
    }

    fn name(&self, bit: usize) -> String {
        let modulus = self.modulus();
        let width = self.script.width as usize;
        if bit < modulus {
            format!("s{bit}")
        } else if bit < 2 * modulus {
            format!("r{}", bit - modulus)
        } else if bit == 2 * modulus {
            "x".into()
        } else {
            let digit = bit - 2 * modulus - 1;
            format!("c{}.{}", digit / width, digit % width)
        }
    }

    // The next access of a side, if it is not done.
    fn next(&mut self, side: usize) -> Option<Access> {
        let read = |bit| Some(Access { bit, value: None });
        if let At::Resting = self.sides[side].at {
            if side == 0 {
                let left = self.script.items.len() - self.over;
                if left > 0 {
                    self.sides[0].offered = left.min(self.script.batch as usize);
                    self.sides[0].at = At::Scanning(0, false);
                    let offered = self.offered().to_vec();
                    self.record("P put", &offered);
                } else if self.script.close && !self.closed {
                    self.closed = true;
                    let bit = self.close_bit();
                    self.sides[0].closing = true;
                    self.sides[0].left = [Access {
                        bit,
                        value: Some(1),
                    }]
                    .into();
                    self.sides[0].at = At::Working;
                    self.record("P close", &[]);
                } else {
                    return None;
                }
            } else {
                if self.knows_closed || self.taken.len() as u64 >= self.script.takes {
                    return None;
                }
                let left = self.script.takes - self.taken.len() as u64;
                let wanted = left.min(self.script.take_batch);
                self.sides[1].offered = wanted as usize;
                self.sides[1].at = At::Scanning(0, false);
                self.record(
                    "C take",
                    if wanted > 1 {
                        std::slice::from_ref(&wanted)
                    } else {
                        &[]
                    },
                );
            }
        }
        match self.sides[side].at {
            At::Scanning(zeros, _) => read(self.row_bit(1 - side, zeros)),
            At::Checking => read(self.close_bit()),
            At::Working => self.sides[side].left.front().copied(),
            At::Resting => None,
        }
    }

    // The items that the put under way offers.
    fn offered(&self) -> &'a [u64] {
        &self.script.items[self.over..self.over + self.sides[0].offered]
    }

    fn record(&mut self, words: &str, numbers: &[u64]) {
        if let Some(calls) = &mut self.calls {
            calls.push_str(words);
            for number in numbers {
                write!(calls, " {number}").unwrap();
            }
            calls.push('\n');
        }
    }

    // The writes of a count: they set its bit and then clear the bits below, the highest first.
    fn write_count(&mut self, side: usize, count: usize) {
        let first = self.row_bit(side, 0);
        let row = &mut self.sides[side].row;
        let mut writes = Vec::new();
        if !row[count] {
            row[count] = true;
            writes.push((count, 1));
        }
        for index in (0..count).rev() {
            if row[index] {
                row[index] = false;
                writes.push((index, 0));
            }
        }
        let accesses = writes.iter().map(|(index, value)| Access {
            bit: first + index,
            value: Some(*value),
        });
        self.sides[side].left.extend(accesses);
        self.sides[side].count = count;
    }

    // Plays one letter of a side.
    pub fn step(&mut self, side: usize) {
        match self.open[side] {
            None => {
                let Some(access) = self.next(side) else {
                    return;
                };
                self.begin(side, access);
            }
            Some(open) => {
                self.open[side] = None;
                self.end(side, open);
            }
        }
        self.events += 1;
    }

    fn begin(&mut self, side: usize, access: Access) {
        let Access { bit, value } = access;
        let beside = self.open[1 - side].as_mut();
        let mut overlapped = false;
        if let Some(other) = beside
            && other.access.bit == bit
        {
            overlapped = other.access.value.is_some();
            other.overlapped |= value.is_some();
        }
        let held = self.held[bit];
        self.open[side] = Some(Open {
            access,
            held,
            overlapped,
        });
        if value.is_some() && side == 0 && bit < self.modulus() {
            // an item counts as put when the write of its count begins
            self.put = self.put.max(self.over + self.sides[0].stored);
        }
        let name = self.name(bit);
        if let Some(trace) = &mut self.trace {
            let letter = ["P", "C"][side];
            match value {
                None => writeln!(trace, "{letter} read {name}").unwrap(),
                Some(value) => writeln!(trace, "{letter} write {name} {value}").unwrap(),
            }
        }
    }

    fn end(&mut self, side: usize, open: Open) {
        let Access { bit, value } = open.access;
        let mut answer = open.held;
        match value {
            Some(value) => self.held[bit] = value,
            None if open.overlapped => {
                self.flicker += 1;
                let oracle = &self.script.oracle;
                answer = match oracle.len() {
                    0 => 0,
                    count => oracle[self.asked % count],
                };
                self.asked += 1;
            }
            None => {}
        }
        let name = self.name(bit);
        if let Some(trace) = &mut self.trace {
            let letter = ["P", "C"][side];
            match value {
                None => writeln!(trace, "{letter} got {name} {answer}").unwrap(),
                Some(_) => writeln!(trace, "{letter} wrote {name}").unwrap(),
            }
        }
        match self.sides[side].at {
            At::Scanning(zeros, again) if answer == 0 => {
                self.sides[side].at = At::Scanning(zeros + 1, again);
            }
            At::Scanning(seen, _) if side == 0 => self.seen_by_put(seen),
            At::Scanning(seen, again) => self.seen_by_take(seen, again),
            At::Checking if answer == 1 => self.sides[side].at = At::Scanning(0, true),
            At::Checking => {
                self.empty += 1;
                self.sides[side].at = At::Resting;
                self.record("C empty", &[]);
            }
            At::Working => self.worked(side, answer),
            At::Resting => unreachable!(),
        }
    }

    fn seen_by_put(&mut self, seen: usize) {
        let modulus = self.modulus();
        let inside = (self.sides[0].count + modulus - seen) % modulus;
        let capacity = self.script.capacity as usize;
        let stored = self.sides[0].offered.min(capacity.saturating_sub(inside));
        if stored == 0 {
            self.full += 1;
            self.sides[0].at = At::Resting;
            self.record("P full", &[]);
            return;
        }
        self.sides[0].stored = stored;
        let items = &self.offered()[..stored];
        for (place, item) in items.iter().enumerate() {
            let cell = (self.over + place) % capacity;
            for (digit, bit) in self.cell_bits(cell).enumerate() {
                let value = Some((item >> digit & 1) as u8);
                self.sides[0].left.push_back(Access { bit, value });
            }
        }
        let count = (self.sides[0].count + stored) % modulus;
        self.write_count(0, count);
        self.sides[0].at = At::Working;
    }

    fn seen_by_take(&mut self, seen: usize, again: bool) {
        let modulus = self.modulus();
        let inside = (seen + modulus - self.sides[1].count) % modulus;
        let capacity = self.script.capacity as usize;
        if 1 <= inside && inside <= capacity {
            let shown = inside.min(self.sides[1].offered);
            for place in 0..shown {
                for bit in self.cell_bits((self.taken.len() + place) % capacity) {
                    self.sides[1].left.push_back(Access { bit, value: None });
                }
            }
            let count = (self.sides[1].count + shown) % modulus;
            self.write_count(1, count);
            self.sides[1].digits.clear();
            self.sides[1].at = At::Working;
        } else if again {
            self.knows_closed = true;
            self.sides[1].at = At::Resting;
            self.record("C closed", &[]);
        } else {
            self.sides[1].at = At::Checking;
        }
    }

    // The first of the remaining accesses has ended.
    fn worked(&mut self, side: usize, answer: u8) {
        let done = self.sides[side].left.pop_front().unwrap();
        if side == 1 && done.value.is_none() {
            self.sides[1].digits.push(answer);
        }
        if !self.sides[side].left.is_empty() {
            return;
        }
        self.sides[side].at = At::Resting;
        if side == 1 {
            let words = self.sides[1].digits.chunks(self.script.width as usize);
            let digits = words.map(|word| word.iter().rev());
            let items: Vec<u64> = digits
                .map(|word| word.fold(0, |item, digit| item << 1 | u64::from(*digit)))
                .collect();
            self.taken.extend(&items);
            self.record("C item", &items);
        } else if self.sides[0].closing {
            self.sides[0].closing = false;
            self.record("P closed", &[]);
        } else {
            let Side {
                stored, offered, ..
            } = self.sides[0];
            self.over += stored;
            self.sides[0].stored = 0;
            let part = [stored as u64];
            self.record(
                "P stored",
                if stored < offered { &part } else { &part[..0] },
            );
        }
    }

    pub fn play(mut self) -> Self {
        for (side, count) in &self.script.runs {
            for _ in 0..*count {
                self.step(*side);
            }
        }
        self
    }

    pub fn report(&self) -> String {
        let list = |items: &[u64]| {
            items.iter().fold(String::new(), |mut text, item| {
                write!(text, " {item}").unwrap();
                text
            })
        };
        format!(
            "events {}\nput{}\ntaken{}\ntold {}\nfull {}\nempty {}\nflicker {}\n",
            self.events,
            list(&self.script.items[..self.put]),
            list(&self.taken),
            if self.knows_closed { "yes" } else { "no" },
            self.full,
            self.empty,
            self.flicker
        )
    }

    pub fn trace(&self) -> &str {
        self.trace.as_deref().unwrap_or("")
    }

    // The calls, each starting at its first event: the line with which a call starts comes before the other side's line.
    pub fn calls(&self) -> &str {
        self.calls.as_deref().unwrap_or("")
    }
}
