// The reader of scripts in plain Rust, written from docs/FORMATS.md: what JSON is, what a script is, what is refused, and the messages
// for it. hostile compares the program with it.
use crate::form_twin::shape_fault;

const MOST_BYTES: usize = 33_554_432;
const MOST_ITEMS: usize = 1_000;
const MOST_LETTERS: u64 = 1_000_000;
const DEEPEST: usize = 127;

pub struct Script {
    pub capacity: u64,
    pub modulus: u64,
    pub width: u64,
    pub batch: u64,
    pub take_batch: u64,
    pub items: Vec<u64>,
    pub takes: u64,
    pub close: bool,
    // a side (0 is P, 1 is C) and a number of letters
    pub runs: Vec<(usize, u64)>,
    pub oracle: Vec<u8>,
}

// The message for a refused script: the first line, and the second, or how it begins.
pub struct Refusal {
    pub first: String,
    pub second: Second,
}

pub enum Second {
    Nothing,
    Line(String),
    // the words of the JSON reader
    Json,
}

enum Value {
    Truth(bool),
    // a number without sign, fraction or exponent, below 2^64
    Whole(u64),
    Text(Vec<u8>),
    List(Vec<Value>),
    Object(Vec<(Vec<u8>, Value)>),
    // null, and other numbers
    Other,
}

struct Json<'a> {
    rest: &'a [u8],
    depth: usize,
}

impl Json<'_> {
    fn skip(&mut self) {
        while let [b' ' | b'\t' | b'\n' | b'\r', rest @ ..] = self.rest {
            self.rest = rest;
        }
    }

    fn takes(&mut self, word: &[u8]) -> bool {
        match self.rest.strip_prefix(word) {
            Some(rest) => {
                self.rest = rest;
                true
            }
            None => false,
        }
    }

    fn value(&mut self) -> Option<Value> {
        self.skip();
        match self.rest.first()? {
            b'{' => self.inside(Self::object),
            b'[' => self.inside(Self::list),
            b'"' => self.text().map(Value::Text),
            b't' => self.takes(b"true").then_some(Value::Truth(true)),
            b'f' => self.takes(b"false").then_some(Value::Truth(false)),
            b'n' => self.takes(b"null").then_some(Value::Other),
            _ => self.number(),
        }
    }

    fn inside(&mut self, read: fn(&mut Self) -> Option<Value>) -> Option<Value> {
        self.rest = &self.rest[1..];
        self.depth += 1;
        if self.depth > DEEPEST {
            return None;
        }
        let value = read(self)?;
        self.depth -= 1;
        Some(value)
    }

    // After a member: whether another one follows, or this is the end.
    fn goes_on(&mut self, end: &[u8]) -> Option<bool> {
        self.skip();
        if self.takes(b",") {
            Some(true)
        } else {
            self.takes(end).then_some(false)
        }
    }

    fn list(&mut self) -> Option<Value> {
        let mut values = Vec::new();
        self.skip();
        let mut more = !self.takes(b"]");
        while more {
            values.push(self.value()?);
            more = self.goes_on(b"]")?;
        }
        Some(Value::List(values))
    }

    fn object(&mut self) -> Option<Value> {
        let mut members = Vec::new();
        self.skip();
        let mut more = !self.takes(b"}");
        while more {
            self.skip();
            let name = self.text()?;
            self.skip();
            if !self.takes(b":") {
                return None;
            }
            members.push((name, self.value()?));
            more = self.goes_on(b"}")?;
        }
        Some(Value::Object(members))
    }

    fn text(&mut self) -> Option<Vec<u8>> {
        if !self.takes(b"\"") {
            return None;
        }
        let mut text = Vec::new();
        loop {
            let (byte, rest) = self.rest.split_first()?;
            self.rest = rest;
            match byte {
                b'"' => return Some(text),
                b'\\' => self.escape(&mut text)?,
                0..=0x1f => return None,
                _ => text.push(*byte),
            }
        }
    }

    fn escape(&mut self, text: &mut Vec<u8>) -> Option<()> {
        let (byte, rest) = self.rest.split_first()?;
        self.rest = rest;
        let plain = match byte {
            b'"' | b'\\' | b'/' => *byte,
            b'b' => 8,
            b'f' => 12,
            b'n' => b'\n',
            b'r' => b'\r',
            b't' => b'\t',
            b'u' => {
                let mut code = self.unit()?;
                if (0xd800..0xdc00).contains(&code) {
                    if !self.takes(b"\\u") {
                        return None;
                    }
                    let low = self.unit()?;
                    if !(0xdc00..0xe000).contains(&low) {
                        return None;
                    }
                    code = 0x10000 + ((code - 0xd800) << 10) + (low - 0xdc00);
                }
                let letter = char::from_u32(code)?;
                text.extend_from_slice(letter.encode_utf8(&mut [0; 4]).as_bytes());
                return Some(());
            }
            _ => return None,
        };
        text.push(plain);
        Some(())
    }

    fn unit(&mut self) -> Option<u32> {
        let digits = self.rest.get(..4)?;
        self.rest = &self.rest[4..];
        digits.iter().try_fold(0, |code, digit| {
            Some(16 * code + char::from(*digit).to_digit(16)?)
        })
    }

    fn digits(&mut self) -> usize {
        let count = self
            .rest
            .iter()
            .take_while(|byte| byte.is_ascii_digit())
            .count();
        self.rest = &self.rest[count..];
        count
    }

    fn number(&mut self) -> Option<Value> {
        let begin = self.rest;
        let signed = self.takes(b"-");
        let zero = self.rest.first() == Some(&b'0');
        let count = self.digits();
        if count == 0 || zero && count > 1 {
            return None;
        }
        let mut plain = !signed;
        if self.takes(b".") {
            plain = false;
            if self.digits() == 0 {
                return None;
            }
        }
        if self.takes(b"e") || self.takes(b"E") {
            plain = false;
            let _ = self.takes(b"+") || self.takes(b"-");
            if self.digits() == 0 {
                return None;
            }
        }
        let words = std::str::from_utf8(&begin[..begin.len() - self.rest.len()]).ok()?;
        if let (true, Ok(whole)) = (plain, words.parse()) {
            return Some(Value::Whole(whole));
        }
        let double: f64 = words.parse().ok()?;
        double.is_finite().then_some(Value::Other)
    }
}

fn json(bytes: &[u8]) -> Option<Value> {
    std::str::from_utf8(bytes).ok()?;
    let mut json = Json {
        rest: bytes,
        depth: 0,
    };
    let value = json.value()?;
    json.skip();
    json.rest.is_empty().then_some(value)
}

const FIELDS: [&str; 10] = [
    "capacity",
    "modulus",
    "width",
    "items",
    "takes",
    "close",
    "schedule",
    "oracle",
    "batch",
    "take_batch",
];

// Whether a value has the kind of the field with this index.
fn has_kind(place: usize, value: &Value) -> bool {
    match (place, value) {
        (3, Value::List(items)) => items.iter().all(|it| matches!(it, Value::Whole(_))),
        (5, Value::Truth(_)) => true,
        (6 | 7, Value::Text(_)) => true,
        (3 | 5..=7, _) => false,
        (_, value) => matches!(value, Value::Whole(_)),
    }
}

fn kind_words(place: usize) -> &'static str {
    match place {
        3 => "an array of whole numbers, each from 0 to 18446744073709551615",
        5 => "true or false",
        6 => "a text of letters P and C with counts, as \"P8C10\"",
        7 => "a text of 0 and 1",
        _ => "a whole number from 0 to 18446744073709551615, with no sign, fraction or exponent",
    }
}

fn refused(words: impl std::fmt::Display, second: Second) -> Refusal {
    Refusal {
        first: format!("refused: {words}"),
        second,
    }
}

fn whole(value: &Value) -> u64 {
    match value {
        Value::Whole(number) => *number,
        _ => unreachable!(),
    }
}

fn text(value: &Value) -> &[u8] {
    match value {
        Value::Text(text) => text,
        _ => unreachable!(),
    }
}

// The index of the first byte that no schedule may have there.
fn stray(schedule: &[u8]) -> Option<usize> {
    // what may come: a letter always, the first digit of a count after a letter, further digits after a digit
    let mut first_digit = false;
    let mut digit = false;
    for (place, byte) in schedule.iter().enumerate() {
        match byte {
            b'P' | b'C' => (first_digit, digit) = (true, false),
            b'1'..=b'9' if first_digit || digit => (first_digit, digit) = (false, true),
            b'0' if digit => {}
            _ => return Some(place),
        }
    }
    None
}

fn runs(schedule: &[u8]) -> Vec<(usize, u64)> {
    let mut runs: Vec<(usize, u64)> = Vec::new();
    for byte in schedule {
        match (byte, runs.last_mut()) {
            (b'P' | b'C', _) => runs.push((usize::from(*byte == b'C'), 0)),
            (_, Some((_, count))) => {
                *count = (10 * *count + u64::from(byte - b'0')).min(10 * MOST_LETTERS)
            }
            _ => unreachable!(),
        }
    }
    for (_, count) in &mut runs {
        *count = (*count).max(1);
    }
    runs
}

fn byte_line(name: &str, text: &[u8], place: usize) -> Second {
    Second::Line(format!(
        "  byte {place} of {name} is \"{}\"",
        text[place].escape_ascii()
    ))
}

// The script in these bytes, or the message that refuses them.
pub fn read(bytes: &[u8]) -> Result<Script, Refusal> {
    if bytes.len() > MOST_BYTES {
        return Err(refused("input is too large", Second::Nothing));
    }
    let value = json(bytes).ok_or_else(|| {
        let second = if bytes.is_empty() {
            Second::Line(
                "  there is no text: a script is a JSON object, lamport_ring play --help shows one"
                    .into(),
            )
        } else if bytes.starts_with(b"shape ") {
            Second::Line("  it looks like a trace: lamport_ring audit reads it".into())
        } else if bytes.starts_with(b"queue") || bytes.starts_with(b"cut queue") {
            Second::Line("  it looks like recorded calls: lamport_ring audit --calls reads them".into())
        } else {
            Second::Json
        };
        refused("script is not JSON", second)
    })?;
    let Value::Object(members) = value else {
        return Err(refused("script is not an object", Second::Nothing));
    };
    if members
        .iter()
        .any(|(name, _)| !FIELDS.iter().any(|field| field.as_bytes() == &name[..]))
    {
        let words = "  the fields are capacity, modulus, width, items, takes, close, schedule, oracle, batch and take_batch";
        return Err(refused(
            "script has an unknown field",
            Second::Line(words.into()),
        ));
    }
    let one = Value::Whole(1);
    let mut given: Vec<&Value> = Vec::new();
    for (place, field) in FIELDS.iter().enumerate() {
        let last = members
            .iter()
            .rev()
            .find(|(name, _)| &name[..] == field.as_bytes());
        match last {
            Some((_, value)) => given.push(value),
            None if place >= 8 => given.push(&one),
            None => {
                return Err(refused(
                    format_args!("field {field} is missing"),
                    Second::Nothing,
                ));
            }
        }
    }
    if let Some(place) = (0..10).find(|place| !has_kind(*place, given[*place])) {
        let field = FIELDS[place];
        let second = Second::Line(format!("  {field} is {}", kind_words(place)));
        return Err(refused(
            format_args!("field {field} has the wrong kind"),
            second,
        ));
    }
    let [capacity, modulus, width, takes, batch, take_batch] =
        [0, 1, 2, 4, 8, 9].map(|place| whole(given[place]));
    if let Some(words) = shape_fault([capacity, modulus, width, batch, take_batch]) {
        return Err(refused(words, Second::Nothing));
    }
    let items: Vec<u64> = match given[3] {
        Value::List(items) => items.iter().map(whole).collect(),
        _ => unreachable!(),
    };
    if items.len() > MOST_ITEMS {
        return Err(refused("script has too many items", Second::Nothing));
    }
    if let Some(place) = items.iter().position(|it| width < 64 && it >> width != 0) {
        return Err(refused(
            format_args!("item {place} does not fit the width"),
            Second::Nothing,
        ));
    }
    let schedule = text(given[6]);
    if let Some(place) = stray(schedule) {
        return Err(refused(
            format_args!("schedule is wrong at byte {place}"),
            byte_line("schedule", schedule, place),
        ));
    }
    let runs = runs(schedule);
    let letters = runs
        .iter()
        .try_fold(0u64, |sum, (_, count)| sum.checked_add(*count));
    if letters.is_none_or(|letters| letters > MOST_LETTERS) {
        return Err(refused("schedule is too long", Second::Nothing));
    }
    let oracle = text(given[7]);
    if let Some(place) = oracle.iter().position(|byte| !matches!(byte, b'0' | b'1')) {
        return Err(refused(
            format_args!("oracle is wrong at byte {place}"),
            byte_line("oracle", oracle, place),
        ));
    }
    Ok(Script {
        capacity,
        modulus,
        width,
        batch,
        take_batch,
        items,
        takes,
        close: matches!(given[5], Value::Truth(true)),
        runs,
        oracle: oracle.iter().map(|byte| byte - b'0').collect(),
    })
}
