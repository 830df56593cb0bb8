//! The program `calls`: a script line by line, as docs/calls.md says.

use std::collections::BTreeMap;

use crate::book::{denial, parts, read, Book, Denial};
use crate::listing::classes_text;
use crate::register::{relation, Register, Stop};
use crate::roles::Hierarchy;
use crate::search::{Meter, Plan};
use crate::world::World;

const MOST_NODES: usize = 1 << 24;

pub enum Call {
    Book(Vec<u8>),
    Read,
    Parts,
    Below(bool, usize, usize),
    Transitive(bool, usize),
    Sheet(usize, BTreeMap<usize, u64>),
    Judge(usize),
    Keeps,
    Open,
    File(usize, usize),
    Ask(usize, usize, usize),
    Show(usize, usize, usize, usize),
    C(usize, usize),
    Classes,
}

fn number(item: &[u8]) -> Option<usize> {
    if item.is_empty() || !item.iter().all(u8::is_ascii_digit) {
        return None;
    }
    std::str::from_utf8(item).ok()?.parse().ok()
}

fn digit(byte: u8) -> Option<u8> {
    match byte {
        b'0'..=b'9' => Some(byte - b'0'),
        b'a'..=b'f' => Some(byte - b'a' + 10),
        _ => None,
    }
}

pub fn bytes(item: &[u8]) -> Option<Vec<u8>> {
    if item.len() % 2 != 0 {
        return None;
    }
    item.chunks(2).map(|two| Some(digit(two[0])? * 16 + digit(two[1])?)).collect()
}

fn word(item: &[u8]) -> Option<u64> {
    if item.is_empty() || item.len() > 16 {
        return None;
    }
    let mut value = 0;
    for &byte in item {
        value = value * 16 + digit(byte)? as u64;
    }
    Some(value)
}

/// One of the two hierarchies of a book; both mean the same.
fn of_book(item: &[u8]) -> Option<()> {
    matches!(item, b"closed" | b"told").then_some(())
}

/// A hierarchy of the book: whether the universal role is added.
fn hierarchy(item: &[u8]) -> Option<bool> {
    match item {
        b"closed" | b"told" => Some(false),
        b"closed+universal" | b"told+universal" => Some(true),
        _ => None,
    }
}

fn nodes(item: &[u8]) -> Option<usize> {
    number(item).filter(|&n| n <= MOST_NODES)
}

pub fn parse(line: &[u8]) -> Option<Call> {
    // All that Unicode calls white space; the page does not say which is meant. What is no text is no call.
    let line = std::str::from_utf8(line).ok()?.trim().as_bytes();
    let items: Vec<&[u8]> = line.split(|&b| b == b' ').filter(|item| !item.is_empty()).collect();
    let (&name, rest) = items.split_first()?;
    match (name, rest) {
        (b"book", []) => Some(Call::Book(Vec::new())),
        (b"book", [hex]) => Some(Call::Book(bytes(hex)?)),
        (b"read", []) => Some(Call::Read),
        (b"parts", []) => Some(Call::Parts),
        (b"below", [h, r, s]) => Some(Call::Below(hierarchy(h)?, number(r)?, number(s)?)),
        (b"transitive", [h, r]) => Some(Call::Transitive(hierarchy(h)?, number(r)?)),
        (b"sheet", [length, items @ ..]) => {
            let length = number(length)?;
            let mut words = BTreeMap::new();
            for item in items {
                let colon = item.iter().position(|&b| b == b':')?;
                let index = number(&item[..colon])?;
                if index >= length {
                    return None;
                }
                words.insert(index, word(&item[colon + 1..])?);
            }
            Some(Call::Sheet(length, words))
        }
        (b"judge", [entry]) => Some(Call::Judge(number(entry)?)),
        (b"keeps", [h]) => of_book(h).map(|()| Call::Keeps),
        (b"open", [h]) => of_book(h).map(|()| Call::Open),
        (b"file", [entry, n]) => Some(Call::File(number(entry)?, nodes(n)?)),
        (b"ask", [a, b, n]) => Some(Call::Ask(number(a)?, number(b)?, nodes(n)?)),
        (b"show", [a, b, n, words]) => Some(Call::Show(number(a)?, number(b)?, nodes(n)?, number(words)?)),
        (b"c", [first, second]) => Some(Call::C(number(first)?, number(second)?)),
        (b"classes", []) => Some(Call::Classes),
        _ => None,
    }
}

#[derive(Clone)]
pub struct Session {
    bytes: Vec<u8>,
    book: Result<Book, Denial>,
    world: Option<World>,
    register: Option<Register>,
    pub meter: Meter,
    /// The steps that each book may take.
    limit: u64,
}

fn hex(bytes: &[u8]) -> String {
    bytes.iter().map(|b| format!("{b:02x}")).collect()
}

fn yes(answer: bool) -> String {
    (if answer { "yes" } else { "no" }).to_string()
}

impl Session {
    pub fn new(limit: u64) -> Session {
        Session {
            bytes: Vec::new(),
            book: Err(denial(1, 0)),
            world: None,
            register: None,
            meter: Meter { left: limit, peak: 0 },
            limit,
        }
    }

    pub fn book(&self) -> Option<&Book> {
        self.book.as_ref().ok()
    }

    pub fn world(&self) -> Option<&World> {
        self.world.as_ref()
    }

    /// How many classes were given besides 0, where a register is open.
    pub fn class_count(&self) -> usize {
        self.register.as_ref().map_or(0, |r| r.classes.len())
    }

    /// The answer to a line: its lines of text, or that the model gave up.
    pub fn answer(&mut self, line: &[u8], line_number: usize) -> Result<Vec<String>, Stop> {
        match parse(line) {
            None => Ok(vec![format!("bad line {line_number}")]),
            Some(call) => match self.call(call) {
                Err(Stop::Denied(d)) => Ok(vec![d.line()]),
                other => other,
            },
        }
    }

    fn hierarchy(&self, universal: bool) -> Result<Hierarchy, Denial> {
        let hierarchy = Hierarchy::of_book(self.book.as_ref().map_err(|&d| d)?);
        if universal { hierarchy.with_universal() } else { Ok(hierarchy) }
    }

    fn open(&mut self) -> Result<usize, Denial> {
        self.register = None;
        let plan = Plan::new(self.book.as_ref().map_err(|&d| d)?, &self.hierarchy(false)?)?;
        let width = plan.width();
        self.register = Some(Register::new(plan));
        Ok(width)
    }

    fn opened(&mut self) -> Result<&mut Register, Denial> {
        if self.register.is_none() {
            self.open()?;
        }
        Ok(self.register.as_mut().expect("just opened"))
    }

    pub fn call(&mut self, call: Call) -> Result<Vec<String>, Stop> {
        let mut meter = self.meter.clone();
        if let Call::Book(_) = call {
            meter.left = self.limit;
        }
        let answer = self.call_with(call, &mut meter);
        self.meter = meter;
        answer
    }

    fn call_with(&mut self, call: Call, meter: &mut Meter) -> Result<Vec<String>, Stop> {
        match call {
            Call::Book(bytes) => {
                self.book = read(&bytes);
                self.bytes = bytes;
                self.world = None;
                self.register = None;
                return Ok(Vec::new());
            }
            Call::C(first, second) => {
                return Ok(vec![format!("c {}", relation(&self.bytes, first, second, meter)?)]);
            }
            Call::Classes => {
                return Ok(vec![format!("classes {}", classes_text(&self.bytes, meter)?.replace('\n', ";"))]);
            }
            _ => {}
        }
        let book = self.book.clone()?;
        let line = match call {
            Call::Read => format!(
                "read {} {} {} {}",
                book.roles.len(),
                book.pairs.len(),
                book.concepts.len(),
                book.rules.len()
            ),
            Call::Parts => {
                return Ok(parts(&book, self.bytes.len())
                    .into_iter()
                    .map(|(kind, place, length)| {
                        let text = format!("{kind} {place} {length} {}", hex(&self.bytes[place..place + length]));
                        text.trim_end().to_string()
                    })
                    .collect());
            }
            Call::Below(universal, r, s) => yes(self.hierarchy(universal)?.below(r, s)),
            Call::Transitive(universal, r) => yes(self.hierarchy(universal)?.transitive(r)),
            Call::Sheet(length, words) => {
                self.world = None;
                let world = World::from_sheet(book.roles.len(), length, &words)?;
                let size = world.size;
                self.world = Some(world);
                format!("sheet {size}")
            }
            Call::Judge(entry) => match &self.world {
                None => "no world".to_string(),
                Some(world) => format!("set {:x}", world.judge(&book, entry)?),
            },
            Call::Keeps => match &self.world {
                None => "no world".to_string(),
                Some(world) => format!("keeps {}", yes(world.keeps(&book, &self.hierarchy(false)?)?)),
            },
            Call::Open => format!("open {}", self.open()?),
            Call::File(entry, n) => format!("class {}", self.opened()?.file(entry, n, meter)?),
            Call::Ask(a, b, n) => yes(self.opened()?.ask(a, b, n, meter)?),
            Call::Show(a, b, n, words) => {
                let shown = self.opened()?.show(a, b, n, words, meter)?;
                let mut text = format!("shown {} {}", shown.world.size, shown.side);
                for (i, word) in shown.world.to_sheet() {
                    text += &format!(" {i}:{word:x}");
                }
                self.world = Some(shown.world);
                text
            }
            Call::Book(_) | Call::C(..) | Call::Classes => unreachable!(),
        };
        Ok(vec![line])
    }
}
