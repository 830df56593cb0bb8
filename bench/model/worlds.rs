//! Every small world of tiny books, by brute force, against the program `calls`.
//!
//!     worlds CALLS COUNT SEED
//!
//! CALLS is the program, COUNT how many books are made at random, besides a family of which all books are taken. Of the model
//! this shares the reading of books, hierarchies, judging and keeping, and nothing of the search.

#[allow(dead_code)]
mod book;
mod random;
mod raw;
#[allow(dead_code)]
mod roles;
#[allow(dead_code)]
mod world;

use std::collections::BTreeMap;
use std::io::Write;
use std::process::{Command, Stdio};

use book::{read, Book, Concept};
use random::Random;
use raw::Raw;
use roles::Hierarchy;
use world::{all, has, World};

/// Nodes lent to each call. Books so small were never seen to need more, and what a refused call would have answered is not checked; so
/// the run fails where one is refused.
const NODES: usize = 4096;
/// A size of worlds is gone through if there are at most so many of them; every tenth book at random has the larger limit.
const MOST_WORLDS: u64 = 300_000;
const MOST_OF_TENTH: u64 = 6_000_000;
const LARGEST: usize = 4;

/// What the worlds of up to some size say of a book: the size of the least world with an individual in entry a and outside
/// entry b (or in a, with b the number of the entries); 0 if there is none.
struct Seen {
    apart: Vec<Vec<usize>>,
    bound: usize,
    worlds: u64,
    keeping: u64,
}

/// For each hierarchy and size, the rows of all roles that keep inclusions and transitivity.
type Rows = BTreeMap<(Vec<bool>, Vec<bool>, usize), Vec<Vec<Vec<u64>>>>;

fn rows_that_keep(hierarchy: &Hierarchy, size: usize) -> Vec<Vec<Vec<u64>>> {
    let bits = hierarchy.count * size * size;
    let mut list = Vec::new();
    for word in 0u64..1 << bits {
        let mut rows = vec![vec![0; size]; hierarchy.count];
        for (r, rows) in rows.iter_mut().enumerate() {
            for (x, row) in rows.iter_mut().enumerate() {
                *row = word >> ((r * size + x) * size) & all(size);
            }
        }
        let world = World { size, names: vec![0; 64], rows };
        if world.keeps_roles(hierarchy) {
            list.push(world.rows);
        }
    }
    list
}

/// How many ways to give each of m individuals a set of names, in rising order: the order of individuals does not matter.
fn sorted_ways(names: usize, m: usize) -> u64 {
    let kinds = 1u64 << names;
    (0..m as u64).fold(1, |ways, i| ways * (kinds + i) / (i + 1))
}

fn see(book: &Book, hierarchy: &Hierarchy, most: u64, cache: &mut Rows) -> Seen {
    let n = book.concepts.len();
    let names: Vec<usize> = book.concepts.iter().filter_map(|c| if let Concept::Name(k) = c { Some(*k) } else { None }).collect();
    // The pairs that no world has separated yet.
    let mut open: Vec<(usize, usize)> = (0..n).flat_map(|a| (0..=n).map(move |b| (a, b))).collect();
    let mut sets = Vec::new();
    let mut seen = Seen { apart: vec![vec![0; n + 1]; n], bound: 0, worlds: 0, keeping: 0 };
    for size in 1..=LARGEST {
        if 1u64 << (hierarchy.count * size * size) > most {
            break;
        }
        let told = (0..hierarchy.count)
            .flat_map(|r| (0..hierarchy.count).map(move |s| (r, s)))
            .map(|(r, s)| hierarchy.below(r, s))
            .collect();
        let rows = cache.entry((book.roles.clone(), told, size)).or_insert_with(|| rows_that_keep(hierarchy, size));
        if rows.len() as u64 * sorted_ways(names.len(), size) > most {
            break;
        }
        seen.bound = size;
        for rows in rows.iter() {
            let mut world = World { size, names: vec![0; 64], rows: rows.clone() };
            let mut kinds = vec![0usize; size];
            loop {
                for (i, &name) in names.iter().enumerate() {
                    world.names[name] = (0..size).filter(|&x| has(kinds[x] as u64, i)).map(|x| 1 << x).sum();
                }
                seen.worlds += 1;
                world.judge_into(book, &mut sets);
                if book.rules.iter().all(|&(premise, conclusion)| sets[premise] & !sets[conclusion] == 0) {
                    seen.keeping += 1;
                    open.retain(|&(a, b)| {
                        let inside = if b < n { sets[a] & !sets[b] } else { sets[a] };
                        if inside != 0 {
                            seen.apart[a][b] = size;
                        }
                        inside == 0
                    });
                }
                // The next sequence of sets of names that does not fall.
                let Some(x) = (0..size).rev().find(|&x| kinds[x] + 1 < 1 << names.len()) else { break };
                let next = kinds[x] + 1;
                kinds[x..].fill(next);
            }
        }
    }
    seen
}

/// All books of a family: one role or none told, name 0 and two entries more of every kind, and no rule or any one.
fn family() -> Vec<Raw> {
    let mut list = Vec::new();
    for role in 0..2u8 {
        for second in records(1) {
            for third in records(2) {
                for rule in 0..10u8 {
                    let mut raw = Raw::default();
                    raw.roles.push(role);
                    raw.concepts = vec![[2, 0, 0, 0], second, third];
                    if rule < 9 {
                        raw.rules.push([rule / 3, rule % 3]);
                    }
                    list.push(raw);
                }
            }
        }
    }
    list
}

/// Every record that entry i may have, with role 0 and name 1 alone. A name stands once.
fn records(i: u8) -> Vec<[u8; 4]> {
    let mut list = vec![[0, 0, 0, 0], [1, 0, 0, 0], [2, 1, 0, 0]];
    for a in 0..i {
        list.push([3, a, 0, 0]);
        for kind in 6..9 {
            list.push([kind, 0, a, 0]);
        }
        for b in 0..i {
            list.push([4, a, b, 0]);
            list.push([5, a, b, 0]);
        }
    }
    list
}

fn random_book(random: &mut Random) -> Raw {
    let mut raw = Raw::default();
    let roles = if random.chance(60) { 1 } else { 2 };
    for _ in 0..roles {
        raw.roles.push(random.chance(45) as u8);
    }
    if roles == 2 {
        for _ in 0..random.below(3) {
            let r = random.below(2) as u8;
            raw.pairs.push([r, 1 - r]);
        }
    }
    let names = random.between(1, if roles == 1 { 3 } else { 2 });
    let entries = random.between(names + 1, 9);
    for n in 0..names {
        raw.entry(2, n, 0);
    }
    while raw.concepts.len() < entries {
        let i = raw.concepts.len();
        let (a, b) = (random.below(i), random.below(i));
        match random.below(20) {
            0 => raw.entry(random.below(2) as u8, 0, 0),
            1..=3 => raw.entry(3, a, 0),
            4..=6 => raw.entry(4, a, b),
            7..=9 => raw.entry(5, a, b),
            _ => raw.entry(random.pick(&[6, 6, 7, 8]), random.below(roles), a),
        };
    }
    for _ in 0..random.below(4) {
        raw.rule(random.below(entries), random.below(entries));
    }
    raw
}

/// The script for a book of n entries, and how many lines it is answered by.
fn script(bytes: &[u8], n: usize) -> (String, usize) {
    let mut text = String::from("book ");
    for byte in bytes {
        text += &format!("{byte:02x}");
    }
    text += "\n";
    for entry in 0..n {
        text += &format!("file {entry} {NODES}\n");
    }
    for a in 0..=n {
        for b in 0..=n {
            text += &format!("ask {a} {b} {NODES}\nshow {a} {b} {NODES} 4161\n");
        }
    }
    (text, n + 2 * (n + 1) * (n + 1))
}

#[derive(Default)]
struct Figures {
    books: u64,
    worlds: u64,
    keeping: u64,
    bounds: [u64; LARGEST + 1],
    calls: u64,
    shown: u64,
    equal_pairs: u64,
    /// Pairs with different numbers, by the size of the least world that was found to separate them; 0: only the shown one.
    apart_pairs: [u64; LARGEST + 1],
    yes: u64,
    /// Asks that were answered no, likewise.
    no: [u64; LARGEST + 1],
    no_room: u64,
    wrong: u64,
    wrong_books: u64,
}

struct Checker<'a> {
    book: &'a Book,
    hierarchy: &'a Hierarchy,
    seen: &'a Seen,
    figures: &'a mut Figures,
    wrong: Vec<String>,
}

impl Checker<'_> {
    fn error(&mut self, text: String) {
        self.wrong.push(text);
    }

    fn check(&mut self, answers: &[&str]) {
        let n = self.book.concepts.len();
        self.figures.calls += answers.len() as u64;
        let mut class = Vec::new();
        for (entry, answer) in answers[..n].iter().enumerate() {
            match answer.strip_prefix("class ").and_then(|k| k.parse::<usize>().ok()) {
                Some(k) => class.push(k),
                None => {
                    if answer.starts_with("denied 15 ") {
                        self.figures.no_room += 1;
                    } else {
                        self.error(format!("file {entry}: {answer}"));
                    }
                    return;
                }
            }
        }
        let count = class.iter().copied().max().unwrap_or(0);
        // The first entry of each class, from 1.
        let first: Vec<Option<usize>> = (0..=count).map(|k| if k == 0 { None } else { class.iter().position(|&c| c == k) }).collect();
        if first[1..].iter().any(Option::is_none) {
            return self.error(format!("a class without an entry: {class:?}"));
        }
        let mut at = n;
        let mut sides = BTreeMap::new();
        for a in 0..=n {
            for b in 0..=n {
                let (ask, show) = (answers[at], answers[at + 1]);
                at += 2;
                let missing = if a > count { Some(a) } else if b > count { Some(b) } else { None };
                if let Some(k) = missing {
                    let wanted = format!("denied 9 {k} register");
                    if ask != wanted || show != wanted {
                        self.error(format!("ask and show {a} {b}: {ask}; {show}; not {wanted}"));
                    }
                    continue;
                }
                if ask.starts_with("denied 15 ") || show.starts_with("denied 15 ") {
                    self.figures.no_room += 1;
                    continue;
                }
                if let Some(side) = self.check_show(a, b, &first, show) {
                    sides.insert((a, b), side);
                }
                self.check_ask(a, b, &first, ask, sides.get(&(a, b)).copied());
            }
        }
        // Equal numbers exactly where nothing separates.
        for e in 0..n {
            for f in 0..=n {
                if f < n && f <= e {
                    continue;
                }
                let (other, what) = if f < n { (class[f], format!("entries {e} and {f}")) } else { (0, format!("entry {e}")) };
                let there = self.seen.apart[e][f];
                let back = if f < n { self.seen.apart[f][e] } else { 0 };
                let least = if there == 0 || back == 0 { there.max(back) } else { there.min(back) };
                if class[e] == other {
                    self.figures.equal_pairs += 1;
                    if least > 0 {
                        self.error(format!("{what}: class {other}, but a world of {least} separates"));
                    }
                } else {
                    self.figures.apart_pairs[least] += 1;
                    if least == 0 && !sides.contains_key(&(class[e].min(other), class[e].max(other))) {
                        self.error(format!("{what}: different numbers, and no world that separates"));
                    }
                }
            }
        }
    }

    /// Whether an enumerated world has an individual of class a outside class b: the size of the least, or 0.
    fn least(&self, a: usize, b: usize, first: &[Option<usize>]) -> usize {
        match first[a] {
            None => 0,
            Some(entry) => self.seen.apart[entry][first[b].unwrap_or(self.book.concepts.len())],
        }
    }

    /// The side of a shown world, which is checked by judging and keeping.
    fn check_show(&mut self, a: usize, b: usize, first: &[Option<usize>], show: &str) -> Option<usize> {
        if a == b {
            if show != format!("denied 16 {a} register") {
                self.error(format!("show {a} {b}: {show}"));
            }
            return None;
        }
        let Some(rest) = show.strip_prefix("shown ") else {
            self.error(format!("show {a} {b}: {show}"));
            return None;
        };
        let items: Vec<&str> = rest.split(' ').collect();
        let size: usize = items[0].parse().unwrap_or(0);
        let side: usize = items[1].parse().unwrap_or(0);
        let mut words = BTreeMap::new();
        for item in &items[2..] {
            if let Some((i, word)) = item.split_once(':') {
                words.insert(i.parse().unwrap_or(usize::MAX), u64::from_str_radix(word, 16).unwrap_or(0));
            }
        }
        self.figures.shown += 1;
        let roles = self.book.roles.len();
        let world = match World::from_sheet(roles, 65 + roles * size, &words) {
            Ok(world) if world.size == size => world,
            _ => {
                self.error(format!("show {a} {b}: no good sheet: {show}"));
                return None;
            }
        };
        let sets = world.judge_all(self.book);
        let (inside, outside) = match side {
            1 => (first[a], first[b]),
            2 => (first[b], first[a]),
            _ => {
                self.error(format!("show {a} {b}: side {side}"));
                return None;
            }
        };
        let separates = inside.is_some_and(|e| sets[e] & 1 == 1) && !outside.is_some_and(|e| sets[e] & 1 == 1);
        if world.keeps(self.book, self.hierarchy) != Ok(true) || !separates {
            self.error(format!("show {a} {b}: the world does not keep the book or does not separate: {show}"));
            return None;
        }
        // The first side is tried first.
        if side == 2 && self.least(a, b, first) > 0 {
            self.error(format!("show {a} {b}: side 2, but an individual of {a} can be outside {b}"));
        }
        Some(side)
    }

    fn check_ask(&mut self, a: usize, b: usize, first: &[Option<usize>], ask: &str, side: Option<usize>) {
        let least = self.least(a, b, first);
        match ask {
            "yes" => {
                self.figures.yes += 1;
                if least > 0 || side == Some(1) {
                    self.error(format!("ask {a} {b}: yes, but a world has an individual of {a} outside {b}"));
                }
            }
            "no" => {
                self.figures.no[least] += 1;
                if side != Some(1) {
                    self.error(format!("ask {a} {b}: no, but no world is shown for it"));
                }
            }
            _ => self.error(format!("ask {a} {b}: {ask}")),
        }
    }
}

fn answers(program: &str, script: String) -> String {
    let mut child = Command::new(program).stdin(Stdio::piped()).stdout(Stdio::piped()).spawn().expect("the program runs");
    let mut stdin = child.stdin.take().unwrap();
    let writer = std::thread::spawn(move || {
        let _ = stdin.write_all(script.as_bytes());
    });
    let out = child.wait_with_output().expect("the program ends");
    writer.join().unwrap();
    let said = String::from_utf8_lossy(&out.stdout).into_owned();
    if out.status.success() { said } else { format!("{said}{}\n", out.status) }
}

fn main() {
    let args: Vec<String> = std::env::args().collect();
    if args.len() != 4 {
        eprintln!("usage: worlds CALLS COUNT SEED");
        std::process::exit(2);
    }
    let count: u64 = args[2].parse().expect("a number");
    let seed: u64 = args[3].parse().expect("a number");
    let mut books: Vec<Vec<u8>> = family().iter().map(Raw::bytes).filter(|bytes| read(bytes).is_ok()).collect();
    let all_of_family = books.len();
    books.extend((0..count).map(|i| random_book(&mut Random::new(seed, i)).bytes()));

    let mut cache = Rows::new();
    let mut figures = Figures::default();
    for batch in books.chunks(100) {
        let mut text = String::new();
        let mut lengths = Vec::new();
        for bytes in batch {
            let book = read(bytes).expect("a good book");
            let (part, lines) = script(bytes, book.concepts.len());
            text += &part;
            lengths.push(lines);
        }
        let answered = answers(&args[1], text);
        let lines: Vec<&str> = answered.lines().collect();
        let mut at = 0;
        for (bytes, length) in batch.iter().zip(lengths) {
            let most = if figures.books >= all_of_family as u64 && figures.books % 10 == 0 { MOST_OF_TENTH } else { MOST_WORLDS };
            let book = read(bytes).expect("a good book");
            let hierarchy = Hierarchy::of_book(&book);
            let seen = see(&book, &hierarchy, most, &mut cache);
            figures.books += 1;
            figures.worlds += seen.worlds;
            figures.keeping += seen.keeping;
            figures.bounds[seen.bound] += 1;
            let mut checker = Checker { book: &book, hierarchy: &hierarchy, seen: &seen, figures: &mut figures, wrong: Vec::new() };
            match lines.get(at..at + length) {
                Some(lines) => checker.check(lines),
                None => checker.error("answers are missing".to_string()),
            }
            at += length;
            let wrong = checker.wrong;
            if !wrong.is_empty() {
                figures.wrong += wrong.len() as u64;
                figures.wrong_books += 1;
                if figures.wrong_books <= 20 {
                    print!("DIFFERS {}", script(bytes, book.concepts.len()).0.lines().next().unwrap_or(""));
                    println!();
                    for text in wrong {
                        println!("    {text}");
                    }
                }
            }
        }
        if at != lines.len() {
            figures.wrong += 1;
            println!("DIFFERS {} lines of answers, {at} wanted", lines.len());
        }
    }
    let f = figures;
    println!("books: {} of the family, {count} at random (seed {seed})", all_of_family);
    for m in 1..=LARGEST {
        println!("books whose worlds of 1 to {m} individuals were all gone through: {}", f.bounds[m]);
    }
    println!("worlds: {}, of these kept their book: {}", f.worlds, f.keeping);
    println!("pairs of entries (or an entry and class 0) with equal numbers, none of the worlds separating: {}", f.equal_pairs);
    for m in 1..=LARGEST {
        println!("pairs with different numbers, the least world that separates them having {m}: {}", f.apart_pairs[m]);
    }
    println!("pairs with different numbers that only the shown world separates: {}", f.apart_pairs[0]);
    println!("asks answered yes, no world against it: {}", f.yes);
    for m in 1..=LARGEST {
        println!("asks answered no, the least world against it having {m}: {}", f.no[m]);
    }
    println!("asks answered no with the shown world alone against it: {}", f.no[0]);
    println!("shown worlds that keep the book and separate: {}", f.shown);
    println!(
        "{} books, {} calls, {} worlds checked, {} calls refused for want of room, {} wrong",
        f.books, f.calls, f.worlds, f.no_room, f.wrong
    );
    let checked = f.worlds > 0 && f.shown > 0 && f.yes > 0;
    std::process::exit(!(checked && f.no_room == 0 && f.wrong == 0) as i32);
}
