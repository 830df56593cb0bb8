//! A book, read from its bytes as docs/book-format.md and docs/denials.md say.

/// A refusal: its number and its detail. The layer goes by the number.
#[derive(Clone, Copy, PartialEq, Eq, Debug)]
pub struct Denial {
    pub number: u64,
    pub detail: u64,
}

pub fn denial(number: u64, detail: usize) -> Denial {
    Denial { number, detail: detail as u64 }
}

impl Denial {
    pub fn layer(&self) -> &'static str {
        match self.number {
            1..=3 => "trailer",
            4..=7 => "records",
            _ => "register",
        }
    }

    pub fn line(&self) -> String {
        format!("denied {} {} {}", self.number, self.detail, self.layer())
    }
}

#[derive(Clone, Copy, PartialEq, Eq, Debug)]
pub enum Quantifier {
    Exists,
    Forall,
    NoneOf,
}

#[derive(Clone, Copy, PartialEq, Eq, Debug)]
pub enum Concept {
    Nothing,
    Everything,
    Name(usize),
    Not(usize),
    And(usize, usize),
    Or(usize, usize),
    Restriction(Quantifier, usize, usize),
}

#[derive(Clone, Debug)]
pub struct Book {
    /// For each role, whether it is transitive.
    pub roles: Vec<bool>,
    /// Told inclusions: the lower role, the upper role.
    pub pairs: Vec<(usize, usize)>,
    pub concepts: Vec<Concept>,
    /// Premise, conclusion.
    pub rules: Vec<(usize, usize)>,
    /// Place and length of each section, in the order roles, pairs, concepts, rules.
    pub sections: [(usize, usize); 4],
}

pub const TRAILER: usize = 16;
const RECORD: [usize; 4] = [1, 2, 4, 2];
const FEWEST: [usize; 4] = [0, 0, 1, 0];
const MOST: [usize; 4] = [64, 256, 60, 32];

fn two(bytes: &[u8], at: usize) -> usize {
    bytes[at] as usize + 256 * bytes[at + 1] as usize
}

pub fn read(bytes: &[u8]) -> Result<Book, Denial> {
    let length = bytes.len();
    if !(16..=8192).contains(&length) {
        return Err(denial(1, length));
    }
    let trailer = length - TRAILER;
    let mut sections = [(0, 0); 4];
    let mut counts = [0; 4];
    for k in 0..4 {
        let field = trailer + 4 * k + 2;
        counts[k] = two(bytes, field);
        if counts[k] < FEWEST[k] || counts[k] > MOST[k] {
            return Err(denial(2, field));
        }
    }
    let mut end = 0;
    for k in 0..4 {
        let field = trailer + 4 * k;
        let place = two(bytes, field);
        if k > 0 && place < end {
            return Err(denial(3, field));
        }
        sections[k] = (place, counts[k] * RECORD[k]);
        end = place + sections[k].1;
    }
    if end > trailer {
        return Err(denial(3, trailer + 12));
    }

    let record = |k: usize, i: usize| {
        let place = sections[k].0 + i * RECORD[k];
        (place, &bytes[place..place + RECORD[k]])
    };

    let mut roles = Vec::new();
    for i in 0..counts[0] {
        let (place, r) = record(0, i);
        match r[0] {
            0 => roles.push(false),
            1 => roles.push(true),
            _ => return Err(denial(4, place)),
        }
    }

    let mut pairs = Vec::new();
    for i in 0..counts[1] {
        let (place, r) = record(1, i);
        let (lower, upper) = (r[0] as usize, r[1] as usize);
        if lower >= counts[0] || upper >= counts[0] {
            return Err(denial(5, place));
        }
        pairs.push((lower, upper));
    }

    let mut concepts: Vec<Concept> = Vec::new();
    for i in 0..counts[2] {
        let (place, r) = record(2, i);
        match concept(i, r, counts[0], &concepts) {
            Some(c) => concepts.push(c),
            None => return Err(denial(6, place)),
        }
    }

    let mut rules = Vec::new();
    for i in 0..counts[3] {
        let (place, r) = record(3, i);
        let (premise, conclusion) = (r[0] as usize, r[1] as usize);
        if premise >= counts[2] || conclusion >= counts[2] {
            return Err(denial(7, place));
        }
        rules.push((premise, conclusion));
    }
    Ok(Book { roles, pairs, concepts, rules, sections })
}

/// Entry i, given the entries before it; none if the record is bad.
fn concept(i: usize, r: &[u8], roles: usize, before: &[Concept]) -> Option<Concept> {
    let (a, b) = (r[1] as usize, r[2] as usize);
    if r[3] != 0 {
        return None;
    }
    match r[0] {
        0 if a == 0 && b == 0 => Some(Concept::Nothing),
        1 if a == 0 && b == 0 => Some(Concept::Everything),
        2 if a < 64 && b == 0 && !before.contains(&Concept::Name(a)) => Some(Concept::Name(a)),
        3 if a < i && b == 0 => Some(Concept::Not(a)),
        4 if a < i && b < i => Some(Concept::And(a, b)),
        5 if a < i && b < i => Some(Concept::Or(a, b)),
        6..=8 if a < roles && b < i => {
            let quantifier = match r[0] {
                6 => Quantifier::Exists,
                7 => Quantifier::Forall,
                _ => Quantifier::NoneOf,
            };
            Some(Concept::Restriction(quantifier, a, b))
        }
        _ => None,
    }
}

/// The parts of a book that was read, as (kind, place, length).
pub fn parts(book: &Book, length: usize) -> Vec<(&'static str, usize, usize)> {
    let mut list = Vec::new();
    let mut at = 0;
    let names = ["roles", "pairs", "concepts", "rules", "trailer"];
    for k in 0..5 {
        let (place, bytes) = if k < 4 { book.sections[k] } else { (length - TRAILER, TRAILER) };
        if at < place {
            list.push(("note", at, place - at));
        }
        list.push((names[k], place, bytes));
        at = place + bytes;
    }
    list
}
