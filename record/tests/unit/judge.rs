//! judge.rs: judge FILE..: judges each recording in process: line by line, by kinds and by names, and as the logs of a recorder
//! that makes it anew. For each it prints what audit --calls prints about it, and an empty line; the report of a fault is on
//! stderr. It panics if they differ.
#[path = "../../include/rust/ring_audit.rs"]
mod ring_audit;
#[path = "../../include/rust/ring_calls.rs"]
mod ring_calls;
use ring_audit::{Audit, Fault, lawful};
use ring_calls::{Clock, PutLog, TakeLog, WORDS, write_calls};
use std::collections::BTreeSet;

type Line = (u32, Vec<u64>);

// The kind of a line, and its numbers.
fn line_of(text: &str) -> Line {
    let mut words = text.splitn(3, ' ');
    let begins = [words.next().expect("a side"), words.next().expect("a word")].join(" ");
    let kind = WORDS.iter().position(|each| *each == begins).expect("a line");
    let numbers = words.next().map_or(vec![], |numbers| numbers.split(' ').map(|each| each.parse().expect("a number")).collect());
    (kind as u32, numbers)
}

fn record(p: &mut PutLog, c: &mut TakeLog, kind: u32, numbers: &[u64]) {
    let first = numbers.first().map_or(0, |first| *first as usize);
    match kind {
        0 if numbers.len() == 1 => p.put(numbers[0]),
        0 => p.put_all(numbers),
        1 => p.close(),
        2 => c.take_all(first),
        3 if first > 0 => p.stored_of(first, first + 1),
        3 => p.stored(),
        4 => p.some(first),
        5 => p.full(),
        6 => p.short(),
        7 => p.nothing(),
        8 => p.closed(),
        9 if numbers.len() == 1 => c.item(numbers[0]),
        9 => c.items(numbers),
        10 => c.some(numbers),
        11 => c.empty(),
        12 => c.short(),
        13 => c.nothing(),
        _ => c.closed(),
    }
}

fn hear(audit: &mut Audit, kind: u32, numbers: &[u64]) -> bool {
    let first = numbers.first().map_or(0, |first| *first as usize);
    match kind {
        0 if numbers.len() == 1 => audit.put(numbers[0]),
        0 => audit.put_all(numbers),
        1 => audit.close(),
        2 => audit.take_all(first),
        3 if first > 0 => audit.stored_of(first, first + 1),
        3 => audit.stored(),
        4 => audit.some(first),
        5 => audit.full(),
        6 => audit.put_short(),
        7 => audit.put_nothing(),
        8 => audit.closed(),
        9 if numbers.len() == 1 => audit.item(numbers[0]),
        9 => audit.items(numbers),
        10 => audit.some_items(numbers),
        11 => audit.empty(),
        12 => audit.take_short(),
        13 => audit.take_nothing(),
        _ => audit.told(),
    }
}

// First lines, rooms that are too small, and an audit that goes to another thread.
fn try_edges() {
    let good = ["queue", "queue 1", "queue 18446744073709551615", "queue 0 1", "queue 9 10"];
    let bad = [
        "", "queue ", "queue 0", "queue 08", "queue +8", "queue 8 ", "queue  8", "queue 8 8", "queue 1 2 3", "queue x",
        "queue 18446744073709551616", "queue8", "cut queue 8",
    ];
    let (clock, words) = (Clock::new(), "refused: calls line 1 is not a line of the format");
    let (p, c) = (PutLog::new(&clock, 0), TakeLog::new(&clock, 0));
    let mut audit = Audit::new("queue", 2).unwrap();
    for head in good {
        assert!(audit.restart(head).is_ok() && audit.put(1) && audit.fault().is_none() && lawful(head, &p, &c).is_ok(), "{head}");
    }
    for head in bad {
        assert!(audit.restart(head).unwrap_err().words == words && !audit.put(1) && audit.fault() == Some(words), "{head}");
        assert!(Audit::new(head, 2).err().unwrap().words == words && lawful(head, &p, &c).unwrap_err().words == words, "{head}");
    }
    audit.restart("queue").unwrap();
    assert!(audit.put_all(&[1, 2]) && audit.some(1) && !audit.put_all(&[2, 3]) && !audit.put(1));
    assert_eq!(audit.fault(), Some("refused: no room for the items of line 4"));
    assert_eq!((audit.report().stored, audit.report().calls), (1, 1));
    let mut audit = Audit::new("queue", 0).unwrap();
    let (heard, mut audit) = std::thread::spawn(move || (audit.take() && audit.empty(), audit)).join().unwrap();
    assert!(heard && !audit.put(1) && !audit.event(0, &[]) && audit.restart("queue 8").is_ok() && !audit.event(15, &[]));
    assert_eq!(audit.fault(), Some("refused: calls line 2 is not a line of the format"));
}

// Passes a recording line by line; checks each result against that of all lines so far, and the finding.
fn told_of(head: &str, is_cut: bool, lines: &[Line], event: impl Fn(&mut Audit, u32, &[u64]) -> bool) -> String {
    let mut audit = Audit::new(head, lines.iter().map(|(_, numbers)| numbers.len()).sum()).unwrap();
    let mut all_lawful = true;
    for (kind, numbers) in lines {
        all_lawful &= event(&mut audit, *kind, numbers);
        assert_eq!(all_lawful, audit.fault().is_none());
    }
    let mut report = audit.report();
    report.cut = is_cut;
    audit.fault().map_or(report.to_string(), |words| format!("{words}\n"))
}

fn judge(text: &str) -> Result<String, Fault> {
    let (first, rest) = text.split_once('\n').expect("a first line");
    let (is_cut, head) = (first.starts_with("cut "), first.trim_start_matches("cut "));
    let lines: Vec<Line> = rest.lines().map(line_of).collect();
    let told = told_of(head, is_cut, &lines, Audit::event);
    assert_eq!(told, told_of(head, is_cut, &lines, hear));
    // (logs with no room for more are cut by one more call)
    let room = |side| lines.iter().filter(|line| WORDS[line.0 as usize].starts_with(side)).map(|line| 2 + line.1.len()).sum();
    let clock = Clock::new();
    let (mut p, mut c) = (PutLog::new(&clock, room('P')), TakeLog::new(&clock, room('C')));
    for _ in 0..2 {
        p.restart();
        c.restart();
        lines.iter().for_each(|(kind, numbers)| record(&mut p, &mut c, *kind, numbers));
        if is_cut {
            c.take();
        }
    }
    let mut written = Vec::new();
    write_calls(head, &p, &c, &mut written).expect("memory");
    assert_eq!(String::from_utf8_lossy(&written), text);
    let found = lawful(head, &p, &c);
    if let Err(Fault { lines, line, against, .. }) = &found {
        // the line at fault and the one that contradicts it are marked, and no other
        let marked = lines.lines().filter(|each| each.starts_with('>')).map(|each| each[1..8].trim().parse().expect("a number"));
        assert_eq!(marked.collect::<BTreeSet<u64>>(), [*line, *against].into_iter().filter(|each| *each > 0).collect());
    }
    assert_eq!(told, found.as_ref().map_or_else(|fault| format!("{}\n", fault.words), |report| report.to_string()));
    found.map(|_| told)
}

fn main() {
    try_edges();
    eprintln!("{} recordings", std::env::args().count() - 1);
    for name in std::env::args().skip(1) {
        match judge(&std::fs::read_to_string(&name).expect(&name)) {
            Ok(told) => println!("{told}"),
            Err(fault) => {
                println!("{}\n", fault.words);
                eprintln!("{fault}");
            }
        }
    }
}
