//! Moves a file from one thread to another through the proved ring: `cargo run --example pass_file FROM TO`.
use counter_ring::{open, PutAll, Putter, Shape, TakeAll, Taker};
use std::fs::File;
use std::io::{self, BufReader, BufWriter, Read, Write};
use std::{env, process, thread};

const BATCH: usize = 16;
const BYTES: usize = 7;

// An item has up to 7 bytes of the file, and their number in its highest byte.
fn pack(bytes: &[u8]) -> u64 {
    let mut whole = [0; 8];
    whole[0] = bytes.len() as u8;
    whole[1..=bytes.len()].copy_from_slice(bytes);
    u64::from_be_bytes(whole)
}

// (Whatever comes of it, the ring is closed in the end: else the other thread would wait forever.)
fn read_file(mut putter: Putter, from: File) -> io::Result<()> {
    let read = put_file(&mut putter, from);
    putter.close();
    read
}

fn put_file(putter: &mut Putter, from: File) -> io::Result<()> {
    let mut from = BufReader::new(from);
    let mut bytes = [0; BYTES * BATCH];
    loop {
        let length = match from.read(&mut bytes)? {
            0 => return Ok(()),
            length => length,
        };
        let items: Vec<u64> = bytes[..length].chunks(BYTES).map(pack).collect();
        let mut done = 0;
        while done < items.len() {
            match putter.put_all(&items[done..]) {
                PutAll::Stored(stored) => done += stored,
                _ => thread::yield_now(),
            }
        }
    }
}

fn write_file(mut taker: Taker, to: File) -> io::Result<()> {
    let mut to = BufWriter::new(to);
    let mut items = [0; BATCH];
    loop {
        match taker.take_all(&mut items) {
            TakeAll::Taken(taken) => {
                for item in &items[..taken] {
                    let whole = item.to_be_bytes();
                    to.write_all(&whole[1..=usize::from(whole[0])])?;
                }
            }
            TakeAll::Closed => return to.flush(),
            _ => thread::yield_now(),
        }
    }
}

fn pass(from: &str, to: &str) -> Result<(), Box<dyn std::error::Error>> {
    let shape = Shape { batch: BATCH as u64, take_batch: BATCH as u64, ..Shape::of(64) };
    let (from, to) = (File::open(from)?, File::create(to)?);
    let (putter, taker) = open(shape)?;
    let reader = thread::spawn(move || read_file(putter, from));
    write_file(taker, to)?;
    reader.join().expect("the reader does not panic")?;
    Ok(())
}

fn main() {
    let words: Vec<String> = env::args().collect();
    let [_, from, to] = &words[..] else {
        eprintln!("usage: pass_file FROM TO");
        process::exit(2);
    };
    if let Err(fault) = pass(from, to) {
        eprintln!("pass_file: {fault}");
        process::exit(1);
    }
}
