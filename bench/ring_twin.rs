// Rings for one producer and one consumer in plain Rust, on two threads, against which ring_bench.py measures `lamport_ring run`:
//
//   ring_twin flicker B M W G H N   a word for each safe bit: the ring of safe bits, following its programs
//   ring_twin counter B M W G H N   a word for each count and for each cell, with counts modulo M
//   ring_twin usual B M W G H N     head and tail with acquire and release, each cached by the other side; B a power of
//                                   two, M unused
//
// Each does what `run` does: it moves the list of the items i mod 2^W, i from 0 to N-1, through B cells into another list, in puts of at
// most G items and takes of at most H; the producer closes after the last put, and the consumer takes until it finds the ring closed. Each
// side yields its processor on every 256th call, and pauses when it has to wait, as with the gate of `run`. The words of the first two are
// laid out as those of the rings of `run`. What was taken is compared with what was put, and the output is that of `run --report`.
use std::hint::spin_loop;
use std::process::exit;
use std::sync::atomic::AtomicU64;
use std::sync::atomic::Ordering::{Acquire, Relaxed, Release, SeqCst};
use std::thread;
use std::time::Instant;

#[derive(Clone, Copy)]
struct Shape {
    capacity: usize,
    modulus: usize,
    width: usize,
    batch: usize,
    take_batch: usize,
}

impl Shape {
    fn item(&self, number: u64) -> u64 {
        number & (u64::MAX >> (64 - self.width))
    }

    // The distance from b up to a.
    fn distance(&self, a: usize, b: usize) -> usize {
        if a >= b { a - b } else { a + self.modulus - b }
    }

    // How many of `offered` items there is room for.
    fn fitting(&self, put: usize, taken: usize, offered: usize) -> usize {
        self.capacity
            .saturating_sub(self.distance(put, taken))
            .min(offered)
    }

    // How many of `wanted` items are shown.
    fn shown(&self, put: usize, taken: usize, wanted: usize) -> usize {
        let ahead = self.distance(put, taken);
        if ahead > self.capacity {
            0
        } else {
            ahead.min(wanted)
        }
    }
}

// n + more, wrapping around to 0 at `size`.
fn past_in(n: usize, more: usize, size: usize) -> usize {
    let sum = n + more;
    if sum < size { sum } else { sum - size }
}

fn words(length: usize) -> Vec<AtomicU64> {
    (0..length).map(|_| AtomicU64::new(0)).collect()
}

// The handle of a producer.
trait PutEnd: Send {
    // Stores the first of these items, as many as there is room for, and returns how many: 0 if the ring is full.
    fn put(&mut self, items: &[u64]) -> usize;

    fn close(&mut self);
}

enum Taken {
    Items(usize),
    Empty,
    Closed,
}

// The handle of a consumer.
trait TakeEnd {
    // Takes the next items, as many as are shown and fit, into the first places.
    fn take(&mut self, into: &mut [u64]) -> Taken;
}

// The number of calls that a side makes between two yields.
const TURN: u64 = 256;

// Called by a side before each of its calls.
fn pass(count: u64) {
    if count % TURN == TURN - 1 {
        thread::yield_now();
    }
}

// How a side waits: the hints in one pause, the pauses in a row before it yields, and how often it has had to wait in a row.
struct Waiting {
    hints: usize,
    rests: u64,
    times: u64,
}

impl Waiting {
    fn new(shape: Shape) -> Self {
        Waiting {
            hints: 4 * shape.capacity,
            rests: (16 / shape.capacity as u64).max(1),
            times: 0,
        }
    }

    fn wait(&mut self) {
        self.times += 1;
        if self.times > self.rests {
            thread::yield_now();
        } else {
            for _ in 0..self.hints {
                spin_loop();
            }
        }
    }
}

// Puts the items in order and closes after the last. Returns how many puts were made, and how many found the ring full.
fn put_all(mut end: impl PutEnd, shape: Shape, items: &[u64]) -> (u64, u64) {
    let mut waiting = Waiting::new(shape);
    let (mut put, mut calls, mut full) = (0, 0, 0);
    while put < items.len() {
        pass(calls);
        let stored = end.put(&items[put..items.len().min(put + shape.batch)]);
        calls += 1;
        put += stored;
        if stored == 0 {
            full += 1;
            waiting.wait();
        } else {
            waiting.times = 0;
        }
    }
    end.close();
    (calls, full)
}

// Takes until the ring is closed. Returns how many takes found it empty.
fn take_all(mut end: impl TakeEnd, shape: Shape, items: &mut Vec<u64>) -> u64 {
    let mut waiting = Waiting::new(shape);
    let mut room = [0; 64];
    let (mut made, mut empty) = (0, 0);
    loop {
        pass(made);
        made += 1;
        let into = &mut room[..shape.take_batch];
        match end.take(into) {
            Taken::Items(count) => {
                items.extend_from_slice(&into[..count]);
                waiting.times = 0;
            }
            Taken::Empty => {
                empty += 1;
                waiting.wait();
            }
            Taken::Closed => return empty,
        }
    }
}

// Moves the items from one handle to the other and prints the report, timed from `start`.
fn relay(start: Instant, putter: impl PutEnd, taker: impl TakeEnd, shape: Shape, items: &[u64]) {
    let mut taken = Vec::with_capacity(items.len());
    let ((calls, full), empty) = thread::scope(|scope| {
        let puts = scope.spawn(|| put_all(putter, shape, items));
        let empty = take_all(taker, shape, &mut taken);
        (puts.join().expect("a producer that ends"), empty)
    });
    let nanoseconds = start.elapsed().as_nanos();
    if taken != items {
        eprintln!("ring_twin: the items taken are not those put");
        exit(1)
    }
    let pace = taken.len() as u128 * 1_000_000_000 / nanoseconds;
    println!("put {}\ntaken {}\nclosed yes", items.len(), taken.len());
    println!("calls {calls}\nfull {full}\nempty {empty}\nitems a second {pace}");
}

// The words of a ring of safe bits: 0 or 1, or 2 while a write is under way. This many lie between the close bit, the two counts and
// the cells.
const APART: usize = 16;

struct SafeBits {
    words: Vec<AtomicU64>,
    s: usize,
    r: usize,
    cells: usize,
    width: usize,
}

impl SafeBits {
    fn new(shape: Shape) -> Self {
        let s = 1 + APART;
        let r = s + shape.modulus + APART;
        let cells = r + shape.modulus + APART;
        let words = words(cells + shape.capacity * (shape.width + APART));
        words[s].store(1, SeqCst);
        words[r].store(1, SeqCst);
        SafeBits {
            words,
            s,
            r,
            cells,
            width: shape.width,
        }
    }

    fn close(&self) -> &AtomicU64 {
        &self.words[0]
    }

    fn cell(&self, cell: usize) -> &[AtomicU64] {
        let first = self.cells + cell * (self.width + APART);
        &self.words[first..first + self.width]
    }
}

// A write is two stores.
fn write_bit(bit: &AtomicU64, value: u64) {
    bit.store(2, SeqCst);
    bit.store(value, SeqCst);
}

// The reads of a side. A read is two loads; if they show a write under way, it returns 0 and 1 alternately.
struct Reader {
    flip: u64,
}

impl Reader {
    fn read(&mut self, bit: &AtomicU64) -> u64 {
        let first = bit.load(SeqCst);
        let second = bit.load(SeqCst);
        if first == second && first < 2 {
            return first;
        }
        let answer = self.flip;
        self.flip = 1 - answer;
        answer
    }

    // The number of the lowest bit that reads as 1.
    fn scan(&mut self, row: &[AtomicU64]) -> usize {
        let mut value = 0;
        while self.read(&row[value]) == 0 {
            value += 1;
        }
        value
    }
}

// A side's own count: its bits, and the values that it remembers.
struct Row<'a> {
    bits: &'a [AtomicU64],
    set: Vec<bool>,
}

impl<'a> Row<'a> {
    fn new(bits: &'a [AtomicU64]) -> Self {
        let mut set = vec![false; bits.len()];
        set[0] = true;
        Row { bits, set }
    }

    // A unary write: sets the value's bit, then clears the set bits below it, from the highest down.
    fn write(&mut self, value: usize) {
        if !self.set[value] {
            self.write_bit(value, true);
        }
        for below in (0..value).rev() {
            if self.set[below] {
                self.write_bit(below, false);
            }
        }
    }

    fn write_bit(&mut self, number: usize, value: bool) {
        write_bit(&self.bits[number], u64::from(value));
        self.set[number] = value;
    }
}

// A handle of a ring of safe bits: its own count, the bits of the other count, and what it remembers.
struct FlickerEnd<'a> {
    shape: Shape,
    bits: &'a SafeBits,
    row: Row<'a>,
    other: &'a [AtomicU64],
    reader: Reader,
    count: usize,
    cell: usize,
}

impl<'a> FlickerEnd<'a> {
    fn new(shape: Shape, bits: &'a SafeBits, own: usize, other: usize) -> Self {
        FlickerEnd {
            shape,
            bits,
            row: Row::new(&bits.words[own..own + shape.modulus]),
            other: &bits.words[other..other + shape.modulus],
            reader: Reader { flip: 0 },
            count: 0,
            cell: 0,
        }
    }

    fn go_on(&mut self, by: usize) {
        self.count = past_in(self.count, by, self.shape.modulus);
        self.row.write(self.count);
        self.cell = past_in(self.cell, by, self.shape.capacity);
    }

    fn sees_items(&mut self, wanted: usize) -> usize {
        let seen = self.reader.scan(self.other);
        self.shape.shown(seen, self.count, wanted)
    }
}

impl PutEnd for FlickerEnd<'_> {
    fn put(&mut self, items: &[u64]) -> usize {
        let seen = self.reader.scan(self.other);
        let most = self.shape.fitting(self.count, seen, items.len());
        if most == 0 {
            return 0;
        }
        let mut cell = self.cell;
        for item in &items[..most] {
            for (digit, bit) in self.bits.cell(cell).iter().enumerate() {
                write_bit(bit, item >> digit & 1);
            }
            cell = past_in(cell, 1, self.shape.capacity);
        }
        self.go_on(most);
        most
    }

    fn close(&mut self) {
        write_bit(self.bits.close(), 1);
    }
}

impl TakeEnd for FlickerEnd<'_> {
    fn take(&mut self, into: &mut [u64]) -> Taken {
        let mut most = self.sees_items(into.len());
        if most == 0 {
            if self.reader.read(self.bits.close()) == 0 {
                return Taken::Empty;
            }
            // after a close a second scan shows whether an item came before it
            most = self.sees_items(into.len());
            if most == 0 {
                return Taken::Closed;
            }
        }
        let mut cell = self.cell;
        for place in &mut into[..most] {
            let mut item = 0;
            for (digit, bit) in self.bits.cell(cell).iter().enumerate() {
                item |= self.reader.read(bit) << digit;
            }
            *place = item;
            cell = past_in(cell, 1, self.shape.capacity);
        }
        self.go_on(most);
        Taken::Items(most)
    }
}

fn flicker(shape: Shape, items: &[u64]) {
    let start = Instant::now();
    let bits = SafeBits::new(shape);
    let putter = FlickerEnd::new(shape, &bits, bits.s, bits.r);
    let taker = FlickerEnd::new(shape, &bits, bits.r, bits.s);
    relay(start, putter, taker, shape, items)
}

// The indexes of the words of a counter ring.
const CLOSE: usize = 0;
const S: usize = 1;
const R: usize = 2;
const CELLS: usize = 3;

// A handle of a counter ring, with the indexes of its own count and of the other one.
struct CounterEnd<'a> {
    shape: Shape,
    words: &'a [AtomicU64],
    own: usize,
    other: usize,
    count: usize,
    cell: usize,
}

impl<'a> CounterEnd<'a> {
    fn new(shape: Shape, words: &'a [AtomicU64], own: usize, other: usize) -> Self {
        CounterEnd {
            shape,
            words,
            own,
            other,
            count: 0,
            cell: 0,
        }
    }

    fn scan(&self) -> usize {
        self.words[self.other].load(SeqCst) as usize
    }

    fn sees_items(&self, wanted: usize) -> usize {
        self.shape.shown(self.scan(), self.count, wanted)
    }

    fn go_on(&mut self, by: usize) {
        self.count = past_in(self.count, by, self.shape.modulus);
        self.words[self.own].store(self.count as u64, SeqCst);
        self.cell = past_in(self.cell, by, self.shape.capacity);
    }
}

impl PutEnd for CounterEnd<'_> {
    fn put(&mut self, items: &[u64]) -> usize {
        let most = self.shape.fitting(self.count, self.scan(), items.len());
        if most == 0 {
            return 0;
        }
        let mut cell = self.cell;
        for item in &items[..most] {
            self.words[CELLS + cell].store(*item, SeqCst);
            cell = past_in(cell, 1, self.shape.capacity);
        }
        self.go_on(most);
        most
    }

    fn close(&mut self) {
        self.words[CLOSE].store(1, SeqCst);
    }
}

impl TakeEnd for CounterEnd<'_> {
    fn take(&mut self, into: &mut [u64]) -> Taken {
        let mut most = self.sees_items(into.len());
        if most == 0 {
            if self.words[CLOSE].load(SeqCst) == 0 {
                return Taken::Empty;
            }
            // after a close a second scan shows whether an item came before it
            most = self.sees_items(into.len());
            if most == 0 {
                return Taken::Closed;
            }
        }
        let mut cell = self.cell;
        for place in &mut into[..most] {
            *place = self.words[CELLS + cell].load(SeqCst);
            cell = past_in(cell, 1, self.shape.capacity);
        }
        self.go_on(most);
        Taken::Items(most)
    }
}

fn counter(shape: Shape, items: &[u64]) {
    let start = Instant::now();
    let words = words(CELLS + shape.capacity);
    let putter = CounterEnd::new(shape, &words, S, R);
    let taker = CounterEnd::new(shape, &words, R, S);
    relay(start, putter, taker, shape, items)
}

// A word with cache lines of its own.
#[repr(align(128))]
struct Alone(AtomicU64);

// The words of an ordinary ring: head and tail grow without bound.
struct Usual {
    head: Alone,
    tail: Alone,
    closed: Alone,
    cells: Vec<AtomicU64>,
}

impl Usual {
    fn cell(&self, number: u64) -> &AtomicU64 {
        &self.cells[number as usize & (self.cells.len() - 1)]
    }
}

// A handle of an ordinary ring: its own index, and the other one as it was last seen.
struct UsualEnd<'a> {
    ring: &'a Usual,
    own: u64,
    seen: u64,
}

impl UsualEnd<'_> {
    fn room(&self) -> usize {
        self.ring.cells.len() - (self.own - self.seen) as usize
    }

    fn sees_items(&mut self, wanted: usize) -> usize {
        if ((self.seen - self.own) as usize) < wanted {
            self.seen = self.ring.tail.0.load(Acquire);
        }
        ((self.seen - self.own) as usize).min(wanted)
    }
}

impl PutEnd for UsualEnd<'_> {
    fn put(&mut self, items: &[u64]) -> usize {
        if self.room() < items.len() {
            self.seen = self.ring.head.0.load(Acquire);
        }
        let most = self.room().min(items.len());
        if most == 0 {
            return 0;
        }
        for (number, item) in (self.own..).zip(&items[..most]) {
            self.ring.cell(number).store(*item, Relaxed);
        }
        self.own += most as u64;
        self.ring.tail.0.store(self.own, Release);
        most
    }

    fn close(&mut self) {
        self.ring.closed.0.store(1, Release);
    }
}

impl TakeEnd for UsualEnd<'_> {
    fn take(&mut self, into: &mut [u64]) -> Taken {
        let mut most = self.sees_items(into.len());
        if most == 0 {
            if self.ring.closed.0.load(Acquire) == 0 {
                return Taken::Empty;
            }
            most = self.sees_items(into.len());
            if most == 0 {
                return Taken::Closed;
            }
        }
        for (number, place) in (self.own..).zip(&mut into[..most]) {
            *place = self.ring.cell(number).load(Relaxed);
        }
        self.own += most as u64;
        self.ring.head.0.store(self.own, Release);
        Taken::Items(most)
    }
}

fn usual(shape: Shape, items: &[u64]) {
    assert!(shape.capacity.is_power_of_two());
    let start = Instant::now();
    let ring = Usual {
        head: Alone(AtomicU64::new(0)),
        tail: Alone(AtomicU64::new(0)),
        closed: Alone(AtomicU64::new(0)),
        cells: words(shape.capacity),
    };
    let end = || UsualEnd {
        ring: &ring,
        own: 0,
        seen: 0,
    };
    relay(start, end(), end(), shape, items)
}

fn main() {
    let words: Vec<String> = std::env::args().skip(1).collect();
    let numbers: Vec<usize> = words
        .iter()
        .skip(1)
        .map_while(|word| word.parse().ok())
        .collect();
    let (Some(name), &[capacity, modulus, width, batch, take_batch, count]) =
        (words.first(), &numbers[..])
    else {
        eprintln!(
            "usage: ring_twin flicker|counter|usual CAPACITY MODULUS WIDTH BATCH TAKE-BATCH COUNT"
        );
        exit(2)
    };
    let shape = Shape {
        capacity,
        modulus,
        width,
        batch,
        take_batch,
    };
    let items: Vec<u64> = (0..count as u64).map(|number| shape.item(number)).collect();
    match name.as_str() {
        "flicker" => flicker(shape, &items),
        "counter" => counter(shape, &items),
        "usual" => usual(shape, &items),
        _ => {
            eprintln!("ring_twin: no ring is named {name}");
            exit(2)
        }
    }
}
