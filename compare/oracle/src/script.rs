//! Reading the lines of a call script, as docs/CALLS.md lays them out. The tests in wrapper/tests/scripts read by this file too.

use crate::kinds;
use crate::run::MOST_PLACES;

/// A record of the run of watched nodes that is lent.
#[derive(Debug, Clone, Copy, PartialEq, Eq)]
pub struct Watched {
    pub node: u8,
    pub timeout: u64,
    pub heard: u64,
}

pub struct Start {
    pub node: u8,
    pub flags: u32,
    pub timeout: u32,
    pub queue: u64,
    pub register: u8,
    pub cycle: Option<u32>,
    pub tolerance: Option<u32>,
    pub counters: [u32; 4],
    /// In the order of the counters' fields; none: those that the original gives.
    pub thresholds: Option<[u32; 7]>,
}

impl Start {
    /// A start of a head that no script has.
    pub fn of_a_scratch_head() -> Self {
        Self {
            node: 1,
            flags: 0,
            timeout: 0,
            queue: 0,
            register: 0,
            cycle: None,
            tolerance: None,
            counters: [0; 4],
            thresholds: None,
        }
    }
}

/// A bin, and grams from it.
pub type Component = (u8, u16);

/// The values that a load names. A cycle or tolerance that it names may be missing.
pub struct Load {
    pub register: Option<u8>,
    pub cycle: Option<Option<u32>>,
    pub tolerance: Option<Option<u32>>,
    pub counters: [Option<u32>; 4],
    pub history: Option<Vec<[u8; 20]>>,
}

/// An entry that is written at a place of the desk's buffer.
pub struct EntryWrite {
    pub place: u64,
    pub status: bool,
    pub queue: bool,
    pub mode: u8,
    pub profile: u16,
    pub code: u16,
    pub seconds: u32,
    pub nanoseconds: u32,
    pub additional: u64,
}

pub enum Call {
    Start(Start),
    Nmt(u64),
    Dll { event: u64, expected: bool },
    Error { kind: u64, a: u64, b: u64 },
    Cycle,
    Tick(u64),
    Withdraw,
    Heard { node: u8, time: u64 },
    Add { node: u8, timeout: u64 },
    Remove(u8),
    Bitmap,
    Due,
    HandOut,
    Arm(u64),
    Frame { time: u64, bytes: Vec<u8> },
    Load(Load),
    State(u64),
    Command(u64),
    EntryWrite(EntryWrite),
    EntryRead([u8; 20]),
    Kind(u64),
    Range { earliest: u64, latest: u64 },
    Margin(u64),
    Recipe(Vec<Component>),
    Weight(u64),
}

pub enum Line {
    /// An empty line, or a comment.
    Passed,
    Watch(Watched),
    Unwatch,
    Lend {
        places: usize,
        number: u64,
    },
    Desk(Vec<u8>),
    Show,
    Call(Call),
}

const LONGEST_LINE: usize = 16_384;
const LONGEST_HISTORY: usize = 300;
const LONGEST_DESK: usize = 100;
/// More than a recipe may have, so that one that is too long can be tried.
const MOST_COMPONENTS: usize = 20;
const LONGEST_FRAME: usize = 1518;

/// What a line says; none: it is unreadable.
pub fn read(line: &[u8]) -> Option<Line> {
    if line.is_empty() || line.starts_with(b"#") {
        return Some(Line::Passed);
    }
    if line.len() > LONGEST_LINE {
        return None;
    }
    let mut words = Words { rest: Some(line) };
    let read = match words.next()? {
        b"watch" => Line::Watch(Watched {
            node: words.number()?,
            timeout: words.number()?,
            heard: words.number()?,
        }),
        b"unwatch" => Line::Unwatch,
        b"lend" => Line::Lend {
            places: words.number().filter(|places| *places <= MOST_PLACES)?,
            number: words.number()?,
        },
        b"desk" => Line::Desk(words.bytes(LONGEST_DESK)?),
        b"show" => Line::Show,
        name => Line::Call(read_call(name, &mut words)?),
    };
    words.rest.is_none().then_some(read)
}

fn read_call(name: &[u8], words: &mut Words) -> Option<Call> {
    Some(match name {
        b"start" => Call::Start(read_start(words)?),
        b"nmt" => Call::Nmt(words.number()?),
        b"dll" => Call::Dll {
            event: words.number()?,
            expected: words.flag()?,
        },
        b"error" => read_error(words)?,
        b"cycle" => Call::Cycle,
        b"tick" => Call::Tick(words.number()?),
        b"withdraw" => Call::Withdraw,
        b"heard" => Call::Heard {
            node: words.number()?,
            time: words.number()?,
        },
        b"add" => Call::Add {
            node: words.number()?,
            timeout: words.number()?,
        },
        b"remove" => Call::Remove(words.number()?),
        b"bitmap" => Call::Bitmap,
        b"due" => Call::Due,
        b"handout" => Call::HandOut,
        b"arm" => Call::Arm(words.number()?),
        b"frame" => Call::Frame {
            time: words.number()?,
            bytes: words.bytes(LONGEST_FRAME)?,
        },
        b"load" => Call::Load(read_load(words)?),
        b"state" => Call::State(words.number()?),
        b"command" => Call::Command(words.number()?),
        b"entrywrite" => Call::EntryWrite(read_entry_write(words)?),
        b"entryread" => Call::EntryRead(entry(words.next()?)?),
        b"kind" => Call::Kind(words.number()?),
        b"range" => Call::Range {
            earliest: words.number()?,
            latest: words.number()?,
        },
        b"margin" => Call::Margin(words.number()?),
        b"recipe" => Call::Recipe(words.components()?),
        b"weight" => Call::Weight(words.number()?),
        _ => return None,
    })
}

fn read_start(words: &mut Words) -> Option<Start> {
    Some(Start {
        node: words.number()?,
        flags: words.number()?,
        timeout: words.number()?,
        queue: words.number()?,
        register: words.number()?,
        cycle: words.number_or_missing()?,
        tolerance: words.number_or_missing()?,
        counters: [
            words.number()?,
            words.number()?,
            words.number()?,
            words.number()?,
        ],
        thresholds: words.thresholds()?,
    })
}

fn read_entry_write(words: &mut Words) -> Option<EntryWrite> {
    Some(EntryWrite {
        place: words.number()?,
        status: words.flag()?,
        queue: words.flag()?,
        mode: words.number().filter(|mode| *mode <= 3)?,
        profile: words.number()?,
        code: words.number()?,
        seconds: words.number()?,
        nanoseconds: words.number()?,
        additional: words.number()?,
    })
}

/// A and B have 8 bits where the kind carries them.
fn read_error(words: &mut Words) -> Option<Call> {
    let kind = words.number()?;
    let a = words.number()?;
    let b = words.number()?;
    let carried = kinds::carried(kind);
    let fits = |place, number| place >= carried || number <= u64::from(u8::MAX);
    (fits(0, a) && fits(1, b)).then_some(Call::Error { kind, a, b })
}

fn read_load(words: &mut Words) -> Option<Load> {
    Some(Load {
        register: words.named(b"register", Words::number)?,
        cycle: words.named(b"cycle", Words::number_or_missing)?,
        tolerance: words.named(b"tolerance", Words::number_or_missing)?,
        counters: [
            words.named(b"c1", Words::number)?,
            words.named(b"c2", Words::number)?,
            words.named(b"c3", Words::number)?,
            words.named(b"c5", Words::number)?,
        ],
        history: words.named(b"history", Words::entries)?,
    })
}

/// The words of a line that are still to be read.
struct Words<'a> {
    /// What stands behind the last space; none behind the last word.
    rest: Option<&'a [u8]>,
}

impl<'a> Words<'a> {
    fn peek(&self) -> Option<&'a [u8]> {
        self.rest?.split(|byte| *byte == b' ').next()
    }

    fn next(&mut self) -> Option<&'a [u8]> {
        let word = self.peek()?;
        self.rest = self.rest?.get(word.len() + 1..);
        Some(word)
    }

    /// A number that fits its place.
    fn number<N: TryFrom<u64>>(&mut self) -> Option<N> {
        N::try_from(number(self.next()?)?).ok()
    }

    fn number_or_missing(&mut self) -> Option<Option<u32>> {
        if self.peek()? == b"-" {
            self.next();
            return Some(None);
        }
        self.number().map(Some)
    }

    /// The seven of a start, if a further word stands there.
    fn thresholds(&mut self) -> Option<Option<[u32; 7]>> {
        if self.rest.is_none() {
            return Some(None);
        }
        let mut thresholds = [0; 7];
        for threshold in &mut thresholds {
            *threshold = self.number()?;
        }
        Some(Some(thresholds))
    }

    fn flag(&mut self) -> Option<bool> {
        match self.number::<u64>()? {
            0 => Some(false),
            1 => Some(true),
            _ => None,
        }
    }

    /// What `read` reads behind the name, if the name is next.
    fn named<T>(&mut self, name: &[u8], read: fn(&mut Self) -> Option<T>) -> Option<Option<T>> {
        if self.peek() != Some(name) {
            return Some(None);
        }
        self.next();
        read(self).map(Some)
    }

    /// The bytes of the desk's buffer or of a frame; none of them is `-`.
    fn bytes(&mut self, longest: usize) -> Option<Vec<u8>> {
        let word = self.next()?;
        if word == b"-" {
            return Some(Vec::new());
        }
        let bytes = bytes(word)?;
        (1..=longest).contains(&bytes.len()).then_some(bytes)
    }

    fn components(&mut self) -> Option<Vec<Component>> {
        let mut components = Vec::new();
        while self.rest.is_some() {
            components.push((self.number()?, self.number()?));
        }
        (components.len() <= MOST_COMPONENTS).then_some(components)
    }

    fn entries(&mut self) -> Option<Vec<[u8; 20]>> {
        let mut entries = Vec::new();
        while let Some(word) = self.next() {
            entries.push(entry(word)?);
        }
        (entries.len() <= LONGEST_HISTORY).then_some(entries)
    }
}

fn number(word: &[u8]) -> Option<u64> {
    let (digits, base) = match word.strip_prefix(b"0x") {
        Some(digits) => (digits, 16),
        None => (word, 10),
    };
    if digits.is_empty() {
        return None;
    }
    digits.iter().try_fold(0u64, |number, byte| {
        let digit = char::from(*byte).to_digit(base)?;
        number
            .checked_mul(u64::from(base))?
            .checked_add(u64::from(digit))
    })
}

/// The 20 bytes of an entry that is written as 40 hexadecimal digits.
fn entry(word: &[u8]) -> Option<[u8; 20]> {
    bytes(word)?.try_into().ok()
}

/// The bytes that are written as two hexadecimal digits each.
fn bytes(word: &[u8]) -> Option<Vec<u8>> {
    if word.len() % 2 == 1 {
        return None;
    }
    word.chunks(2)
        .map(|pair| {
            let digit = |place: usize| char::from(pair[place]).to_digit(16);
            Some((digit(0)? * 16 + digit(1)?) as u8)
        })
        .collect()
}
