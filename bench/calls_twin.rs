// The audit of recorded calls in plain Rust, to time the program against and to compare it with; the two share no line of code. It reads a
// recording on standard input, in pieces, and prints its one finding: `lawful` and a report (status 0), `fault: line L: ..` (status
// 3), or `refused: calls line L is not a line of the format` (status 1). What it keeps is one line's numbers, the items offered
// and not taken, and the last 65,536 that were taken.
use std::collections::VecDeque;
use std::io::{Read, Write, stdin, stdout};
use std::process::exit;

#[path = "calls_lines.rs"]
mod lines;
use lines::{Kind, Line};

// The number of items taken earlier among which a repeated item is looked for.
const BACK: usize = 65_536;

// An item that a put offered and no ended take has taken: the line at which the put began, and the line at which it ended.
struct Offered {
    value: u64,
    of: u64,
    since: u64,
}

// A put under way: the line at which it began, and the number of items it offers; at its start, the count of taken items and whether a close
// had ended.
struct Put {
    line: u64,
    offered: u64,
    taken: u64,
    late: bool,
}

// The call of the producer that is under way.
#[derive(Default)]
enum PutTurn {
    #[default]
    Rests,
    Puts(Put),
    Closes,
}

// A take under way: the number of items it asked for; at its start, the count of stored items and whether a close had ended.
struct TakeTurn {
    asked: u64,
    stored: u64,
    late: bool,
}

#[derive(Default)]
struct Report {
    calls: u64,
    full: u64,
    empty: u64,
    nothing: u64,
    low: u64,
    high: u64,
    overlapped: u64,
}

// What is known from the lines so far. `u64::MAX` means an unbounded capacity: no count reaches it.
#[derive(Default)]
struct Audit {
    // the queue may report full at this many items or more, and never holds more than `most`
    full_from: u64,
    most: u64,
    stored: u64,
    taken: u64,
    // the items from number taken + 1 on, up to those of the put under way
    inside: VecDeque<Offered>,
    // the last items taken, each with the line of its take
    back: VecDeque<(u64, u64)>,
    put: PutTurn,
    take: Option<TakeTurn>,
    put_overlapped: bool,
    take_overlapped: bool,
    close_began: bool,
    // the lines at which the first close ended, a take first returned closed, and the last put that stored items ended
    closed_at: Option<u64>,
    closed_since: Option<u64>,
    stored_at: u64,
    report: Report,
}

type Verdict = Result<(), String>;

fn out_of_turn() -> Verdict {
    Err("out of turn".into())
}

impl Audit {
    fn new(numbers: &[u64]) -> Self {
        Audit {
            full_from: numbers.first().copied().unwrap_or(u64::MAX),
            most: numbers.last().copied().unwrap_or(u64::MAX),
            ..Audit::default()
        }
    }

    // Takes a line after the first.
    fn line(&mut self, at: u64, kind: Kind, numbers: &[u64]) -> Verdict {
        match kind {
            Kind::Put | Kind::Close => self.begin_put(at, kind, numbers),
            Kind::Take => self.begin_take(numbers),
            Kind::Item
            | Kind::TakeSome
            | Kind::Empty
            | Kind::TakeShort
            | Kind::TakeNothing
            | Kind::TakeClosed => match self.take.take() {
                Some(turn) => self.end_take(at, kind, &turn, numbers),
                None => out_of_turn(),
            },
            _ => match std::mem::replace(&mut self.put, PutTurn::Rests) {
                PutTurn::Rests => out_of_turn(),
                PutTurn::Puts(put) => self.end_put(at, kind, &put, numbers.first().copied()),
                PutTurn::Closes if kind == Kind::PutClosed => {
                    self.closed_at.get_or_insert(at);
                    Ok(())
                }
                PutTurn::Closes => out_of_turn(),
            },
        }?;
        // The number surely inside: what ended puts stored, minus what was taken or may already be taken.
        let asked = self.take.as_ref().map_or(0, |turn| turn.asked);
        let low = self.stored.saturating_sub(self.taken.saturating_add(asked));
        self.report.low = self.report.low.max(low);
        Ok(())
    }

    fn begin_put(&mut self, at: u64, kind: Kind, numbers: &[u64]) -> Verdict {
        if !matches!(self.put, PutTurn::Rests) {
            return out_of_turn();
        }
        if kind == Kind::Close {
            self.close_began = true;
            self.put = PutTurn::Closes;
        } else {
            // Items offered by a put that began after a close can never go in: they cannot be taken.
            let late = self.closed_at.is_some();
            if !late {
                self.inside.extend(numbers.iter().map(|value| Offered {
                    value: *value,
                    of: at,
                    since: 0,
                }));
            }
            self.put = PutTurn::Puts(Put {
                line: at,
                offered: numbers.len() as u64,
                taken: self.taken,
                late,
            });
            let high = (self.inside.len() as u64).min(self.most);
            self.report.high = self.report.high.max(high);
        }
        self.put_overlapped = self.take.is_some();
        if self.put_overlapped {
            self.report.overlapped += 1 + u64::from(!self.take_overlapped);
            self.take_overlapped = true;
        }
        self.report.calls += 1;
        Ok(())
    }

    fn begin_take(&mut self, numbers: &[u64]) -> Verdict {
        if self.take.is_some() {
            return out_of_turn();
        }
        self.take = Some(TakeTurn {
            asked: numbers.first().copied().unwrap_or(1),
            stored: self.stored,
            late: self.closed_at.is_some(),
        });
        self.take_overlapped = !matches!(self.put, PutTurn::Rests);
        if self.take_overlapped {
            self.report.overlapped += 1 + u64::from(!self.put_overlapped);
            self.put_overlapped = true;
        }
        self.report.calls += 1;
        Ok(())
    }

    // A put ends, and stored `some` of its items if a number is given.
    fn end_put(&mut self, at: u64, kind: Kind, put: &Put, some: Option<u64>) -> Verdict {
        let offered = put.offered;
        let is_of_another = match kind {
            Kind::PutShort => offered == 1,
            Kind::PutSome => some > Some(offered),
            _ => some >= Some(offered),
        };
        if is_of_another {
            return out_of_turn();
        }
        if kind == Kind::PutClosed {
            return match put.late {
                true => Ok(()),
                false => Err("closed, but there was no close".into()),
            };
        }
        let (word, count) = match kind {
            Kind::Stored | Kind::PutSome => ("stored", some.unwrap_or(offered)),
            Kind::Full => ("full", 0),
            Kind::PutShort => ("short", 0),
            _ => ("nothing", 0),
        };
        if put.late && kind != Kind::PutNothing {
            let closed_at = self.closed_at.unwrap();
            return Err(format!("{word}, but closed at line {closed_at}"));
        }
        if self.stored + count < self.taken {
            let (item, line) = self.back[self.back.len() - 1];
            let words = match count {
                0 => "not stored".into(),
                _ => format!("only {count} stored"),
            };
            return Err(format!("{words}, but item {item} was taken at line {line}"));
        }
        let asked = self.take.as_ref().map_or(0, |turn| turn.asked);
        let surely = (self.stored + count).saturating_sub(self.taken.saturating_add(asked));
        if count > 0 && surely > self.most {
            return Err(format!("stored, but at least {surely} inside"));
        }
        self.no_room(kind, count, put)?;
        if !put.late {
            self.inside
                .truncate((self.stored + count - self.taken) as usize);
            let first = self.stored.saturating_sub(self.taken) as usize;
            self.inside
                .range_mut(first..)
                .for_each(|item| item.since = at);
        }
        if count > 0 {
            self.stored_at = at;
        }
        self.stored += count;
        let says_full = match kind {
            Kind::Stored => some.is_some(),
            _ => kind == Kind::Full || kind == Kind::PutShort,
        };
        self.report.full += u64::from(says_full);
        self.report.nothing += u64::from(kind == Kind::PutNothing);
        Ok(())
    }

    // A put that stored `count` items reports that there was no room for one more, or for all that it offered. At its start at most this many were inside
    // before the items that it stored, and later no more.
    fn no_room(&self, kind: Kind, count: u64, put: &Put) -> Verdict {
        let (line, offered) = (put.line, put.offered);
        let before = self.stored - put.taken;
        let (more, words) = match kind {
            Kind::Stored if count < offered => (
                count + 1,
                format!("only {count} stored, but before them at most"),
            ),
            Kind::Full => (1, "full, but at most".into()),
            Kind::PutShort => (offered, format!("short for {offered}, but at most")),
            _ => return Ok(()),
        };
        if before + more > self.full_from {
            return Ok(());
        }
        Err(format!("{words} {before} inside since line {line}"))
    }

    fn end_take(&mut self, at: u64, kind: Kind, turn: &TakeTurn, values: &[u64]) -> Verdict {
        let asked = turn.asked;
        if kind == Kind::TakeShort && asked == 1 || values.len() as u64 > asked {
            return out_of_turn();
        }
        if kind == Kind::TakeClosed {
            if !self.close_began {
                return Err("closed, but no close has begun".into());
            }
            self.none_since("closed", 0, self.stored)?;
            self.closed_since.get_or_insert(at);
            return Ok(());
        }
        let word = match kind {
            Kind::Item | Kind::TakeSome => "item",
            Kind::Empty => "empty",
            Kind::TakeShort => "short",
            _ => "nothing",
        };
        if let (Some(closed_since), true) = (self.closed_since, kind != Kind::TakeNothing) {
            return Err(format!(
                "{word}, but closed was told at line {closed_since}"
            ));
        }
        for value in values {
            self.take_one(at, *value)?;
        }
        self.back.drain(..self.back.len().saturating_sub(BACK));
        match kind {
            Kind::Item if (values.len() as u64) < asked => {
                self.none_since("no more", 0, turn.stored)?
            }
            Kind::Empty => self.none_since(word, 0, turn.stored)?,
            Kind::TakeShort => self.none_since(word, asked - 1, turn.stored)?,
            _ => {}
        }
        let shut = turn.late
            && (kind == Kind::Empty || kind == Kind::TakeShort && self.stored == self.taken);
        if shut {
            return Err(format!(
                "{word}, but closed at line {}",
                self.closed_at.unwrap()
            ));
        }
        let inside = self.stored.saturating_sub(self.taken);
        if inside > self.most {
            let since = self.stored_at;
            return Err(format!(
                "not taken, but at least {inside} inside since line {since}"
            ));
        }
        self.report.empty += u64::from(kind == Kind::Empty || kind == Kind::TakeShort);
        self.report.nothing += u64::from(kind == Kind::TakeNothing);
        Ok(())
    }

    // At most `few` of the first `stored` items are inside; else the next one after these is reported.
    fn none_since(&self, word: &str, few: u64, stored: u64) -> Verdict {
        if stored <= self.taken.saturating_add(few) {
            return Ok(());
        }
        let Offered { value, since, .. } = self.inside[few as usize];
        Err(format!(
            "{word}, but item {value} was inside since line {since}"
        ))
    }

    fn take_one(&mut self, at: u64, value: u64) -> Verdict {
        let next = match self.inside.front() {
            Some(next) if next.value == value => {
                self.inside.pop_front();
                self.taken += 1;
                self.back.push_back((value, at));
                return Ok(());
            }
            Some(next) => format!("item {} of line {} is next", next.value, next.of),
            None => "none is next".into(),
        };
        if self.inside.iter().any(|item| item.value == value) {
            return Err(format!("item {value}, but {next}"));
        }
        let found = self.back.iter().rev().find(|(taken, _)| *taken == value);
        Err(match found {
            Some((_, line)) => {
                format!("item {value} comes again, it was taken at line {line}; {next}")
            }
            None => format!("item {value} was not inside; {next}"),
        })
    }

    fn report(&self) -> String {
        let Report {
            calls,
            full,
            empty,
            nothing,
            low,
            high,
            overlapped,
        } = self.report;
        let (stored, taken) = (self.stored, self.taken);
        let told = if self.closed_since.is_some() {
            "yes"
        } else {
            "no"
        };
        let open = u8::from(!matches!(self.put, PutTurn::Rests)) + u8::from(self.take.is_some());
        format!(
            "lawful\ncalls {calls}\nstored {stored}\ntaken {taken}\nfull {full}\nempty {empty}\nnothing {nothing}\n\
             told {told}\ninside {low} {high}\noverlapped {overlapped}\nopen {open}"
        )
    }
}

fn refusal(line: u64) -> (i32, String) {
    let words = format!("refused: calls line {line} is not a line of the format");
    (1, words)
}

// The reading of a recording in pieces.
pub struct Reading {
    line: Line,
    at: u64,
    audit: Option<Audit>,
    is_cut: bool,
    fault: Option<String>,
}

impl Reading {
    pub fn new() -> Self {
        Reading {
            line: Line::default(),
            at: 1,
            audit: None,
            is_cut: false,
            fault: None,
        }
    }

    // Reads the next piece, or refuses it: the exit status of the process, and its one line.
    pub fn read(&mut self, piece: &[u8]) -> Result<(), (i32, String)> {
        let mut rest = piece;
        while let Some(end) = self.line.take_words(rest, self.fault.is_none()) {
            if rest[end] == b'\n' {
                self.end_line()?;
            }
            rest = &rest[end + 1..];
        }
        self.line.carry(rest);
        Ok(())
    }

    fn end_line(&mut self) -> Result<(), (i32, String)> {
        let Reading {
            line,
            at,
            audit,
            is_cut,
            fault,
        } = self;
        if !line.is_good(*at == 1) {
            return Err(refusal(*at));
        }
        match audit {
            None => {
                *audit = Some(Audit::new(&line.numbers));
                *is_cut = line.kind == Kind::CutQueue;
            }
            Some(audit) if fault.is_none() => {
                let verdict = audit.line(*at, line.kind, &line.numbers);
                *fault = verdict
                    .err()
                    .map(|words| format!("fault: line {at}: {words}"));
            }
            // A later line may not be of the format, and then the whole recording is refused.
            Some(_) => {}
        }
        line.clear();
        *at += 1;
        Ok(())
    }

    // The result for the whole: the exit status of the process, and its output without the last line feed.
    pub fn finding(&self) -> (i32, String) {
        match (&self.audit, &self.fault) {
            (Some(_), _) if self.line.begun => refusal(self.at),
            (None, _) => refusal(self.at),
            (Some(_), Some(fault)) => (3, fault.clone()),
            (Some(audit), None) => (
                0,
                audit.report() + if self.is_cut { "\ncut yes" } else { "" },
            ),
        }
    }
}

// Prints the finding, and exits.
#[allow(dead_code)]
fn end_with((status, finding): (i32, String)) -> ! {
    match writeln!(stdout(), "{finding}") {
        Ok(()) => exit(status),
        Err(_) => exit(1),
    }
}

#[allow(dead_code)]
fn main() {
    let mut piece = vec![0; 1 << 16];
    let mut reading = Reading::new();
    loop {
        let size = stdin().read(&mut piece).expect("the input can be read");
        if size == 0 {
            end_with(reading.finding());
        }
        if let Err(refusal) = reading.read(&piece[..size]) {
            end_with(refusal);
        }
    }
}
