//! kinds WORDS: records each kind of event, in logs of WORDS words; without WORDS no event.
#[path = "../../include/rust/ring_calls.rs"]
mod ring_calls;
use ring_calls::{Clock, PutLog, TakeLog, write_calls};

fn main() -> std::io::Result<()> {
    let words = std::env::args().nth(1).map(|word| word.parse().expect("a number"));
    let clock = Clock::new();
    let (mut p, mut c) = (PutLog::new(&clock, words.unwrap_or(8)), TakeLog::new(&clock, words.unwrap_or(8)));
    if words.is_none() {
        return write_calls("queue 2", &p, &c, &mut std::io::stdout().lock());
    }
    p.put(5);
    c.take();
    p.stored();
    c.item(5);
    p.put_all(&[1, 2, 3]);
    p.stored_of(2, 3);
    p.put(4);
    p.full();
    p.put_all(&[4, 5]);
    p.short();
    p.put(6);
    p.nothing();
    c.take_all(3);
    c.short();
    c.take_all(3);
    c.items(&[1, 2]);
    c.take();
    c.empty();
    c.take();
    c.nothing();
    p.put_all(&[1, 2, 3]);
    p.some(2);
    p.put(6);
    p.some(0);
    c.take_all(3);
    c.some(&[1, 2]);
    c.take();
    c.some(&[]);
    p.close();
    p.closed();
    p.put_all(&[7, u64::MAX]);
    p.closed();
    c.take();
    c.closed();
    write_calls("queue 2", &p, &c, &mut std::io::stdout().lock())
}
