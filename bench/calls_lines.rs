// The lines of recorded calls in plain Rust, a word at a time: a part of calls_twin.rs.
// No word of the format is longer: 2^64 - 1 has 20 digits.
const LONGEST: usize = 20;

// The kind of a line, or of its first words.
#[derive(Clone, Copy, Default, PartialEq)]
pub enum Kind {
    #[default]
    Start,
    Producer,
    Consumer,
    Cut,
    Queue,
    CutQueue,
    Put,
    Stored,
    PutSome,
    Full,
    PutShort,
    PutNothing,
    PutClosed,
    Close,
    Take,
    Item,
    TakeSome,
    Empty,
    TakeShort,
    TakeNothing,
    TakeClosed,
    Bad,
}

impl Kind {
    // The line with one more word, which is not a number.
    fn with(self, word: &[u8]) -> Self {
        match (self, word) {
            (Kind::Start, b"queue") => Kind::Queue,
            (Kind::Start, b"cut") => Kind::Cut,
            (Kind::Cut, b"queue") => Kind::CutQueue,
            (Kind::Start, b"P") => Kind::Producer,
            (Kind::Start, b"C") => Kind::Consumer,
            (Kind::Producer, b"put") => Kind::Put,
            (Kind::Producer, b"stored") => Kind::Stored,
            (Kind::Producer, b"some") => Kind::PutSome,
            (Kind::Producer, b"full") => Kind::Full,
            (Kind::Producer, b"short") => Kind::PutShort,
            (Kind::Producer, b"nothing") => Kind::PutNothing,
            (Kind::Producer, b"closed") => Kind::PutClosed,
            (Kind::Producer, b"close") => Kind::Close,
            (Kind::Consumer, b"take") => Kind::Take,
            (Kind::Consumer, b"item") => Kind::Item,
            (Kind::Consumer, b"some") => Kind::TakeSome,
            (Kind::Consumer, b"empty") => Kind::Empty,
            (Kind::Consumer, b"short") => Kind::TakeShort,
            (Kind::Consumer, b"nothing") => Kind::TakeNothing,
            (Kind::Consumer, b"closed") => Kind::TakeClosed,
            _ => Kind::Bad,
        }
    }

    // The least and the greatest number of numbers that a line of this kind may have.
    fn numbers(self) -> (usize, usize) {
        match self {
            Kind::Queue | Kind::CutQueue => (0, 2),
            Kind::Put | Kind::Item | Kind::TakeSome => (1, usize::MAX),
            Kind::Stored | Kind::Take => (0, 1),
            Kind::PutSome => (1, 1),
            Kind::Start | Kind::Cut | Kind::Producer | Kind::Consumer | Kind::Bad => (1, 0),
            _ => (0, 0),
        }
    }

    // Whether its numbers are items.
    fn has_items(self) -> bool {
        matches!(self, Kind::Put | Kind::Item | Kind::TakeSome)
    }
}

// A number in decimal: below 2^64, with no leading zero.
fn number(word: &[u8]) -> Option<u64> {
    if word.is_empty() || (word[0] == b'0' && word.len() > 1) || word.len() > LONGEST {
        return None;
    }
    let short = word.len() < LONGEST;
    word.iter().try_fold(0u64, |n, byte| {
        let digit = u64::from(byte.wrapping_sub(b'0'));
        match digit {
            10.. => None,
            _ if short => Some(10 * n + digit),
            _ => n.checked_mul(10)?.checked_add(digit),
        }
    })
}

// The kind of a line that begins with these bytes, and the end of its second word: for the most frequent lines, which are then not read word by word.
fn frequent(rest: &[u8]) -> Option<(Kind, usize)> {
    match rest {
        [b'P', b' ', b'p', b'u', b't', b' ', ..] => Some((Kind::Put, 5)),
        [b'C', b' ', b'i', b't', b'e', b'm', b' ', ..] => Some((Kind::Item, 6)),
        [b'C', b' ', b't', b'a', b'k', b'e', b'\n', ..] => Some((Kind::Take, 6)),
        [b'P', b' ', b's', b't', b'o', b'r', b'e', b'd', b'\n', ..] => Some((Kind::Stored, 8)),
        [b'C', b' ', b'e', b'm', b'p', b't', b'y', b'\n', ..] => Some((Kind::Empty, 7)),
        [b'P', b' ', b'f', b'u', b'l', b'l', b'\n', ..] => Some((Kind::Full, 6)),
        _ => None,
    }
}

// The line that is being read: the words so far, and the beginning of a word that continues in the next piece.
#[derive(Default)]
pub struct Line {
    pub carried: [u8; LONGEST],
    pub length: usize,
    pub kind: Kind,
    pub numbers: Vec<u64>,
    // the number of numbers so far, kept or not
    pub counted: usize,
    // whether any byte of it was read
    pub begun: bool,
}

impl Line {
    pub fn clear(&mut self) {
        self.length = 0;
        self.kind = Kind::Start;
        self.numbers.clear();
        self.counted = 0;
        self.begun = false;
    }

    // The end of the words that are read from this part of the piece: one word, or the first two of a frequent line.
    pub fn take_words(&mut self, rest: &[u8], keeps: bool) -> Option<usize> {
        if !self.begun
            && let Some((kind, end)) = frequent(rest)
        {
            self.begun = true;
            self.kind = kind;
            return Some(end);
        }
        let end = rest.iter().position(|byte| matches!(byte, b' ' | b'\n'))?;
        self.end_word(&rest[..end], keeps);
        Some(end)
    }

    // The piece ends within a word.
    pub fn carry(&mut self, part: &[u8]) {
        self.begun |= !part.is_empty();
        match self.carried.get_mut(self.length..self.length + part.len()) {
            Some(room) => {
                room.copy_from_slice(part);
                self.length += part.len();
            }
            None => self.kind = Kind::Bad,
        }
    }

    // A word ends, of which this part is new; a number is kept if `keeps`.
    pub fn end_word(&mut self, part: &[u8], keeps: bool) {
        self.begun = true;
        if self.length == 0 {
            return self.word(part, keeps);
        }
        self.carry(part);
        let word = self.carried;
        self.word(&word[..self.length], keeps);
        self.length = 0;
    }

    pub fn word(&mut self, word: &[u8], keeps: bool) {
        if self.kind.numbers().1 == 0 {
            self.kind = self.kind.with(word);
            return;
        }
        match number(word) {
            Some(value) if self.counted < self.kind.numbers().1 => {
                self.counted += 1;
                if keeps || !self.kind.has_items() {
                    self.numbers.push(value);
                }
            }
            _ => self.kind = Kind::Bad,
        }
    }

    // Whether this is a line of the format, as the first line of a text or a later one.
    pub fn is_good(&self, first: bool) -> bool {
        let (least, most) = self.kind.numbers();
        first == matches!(self.kind, Kind::Queue | Kind::CutQueue)
            && (least..=most).contains(&self.counted)
            && match (self.kind, &self.numbers[..]) {
                (Kind::Queue | Kind::CutQueue, [capacity]) => *capacity >= 1,
                (Kind::Queue | Kind::CutQueue, [low, high]) => low < high,
                (Kind::Stored | Kind::PutSome, [count]) => *count >= 1,
                (Kind::Take, [count]) => *count >= 2,
                _ => true,
            }
    }
}
