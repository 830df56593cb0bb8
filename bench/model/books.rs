//! Books made at random: good ones of many shapes, and damaged ones.

use crate::book::read;
use crate::random::Random;
use crate::raw::Raw;
use crate::roles::Hierarchy;
use crate::search::{Label, Meter, Plan};

fn free_name(raw: &Raw, random: &mut Random) -> Option<usize> {
    let free: Vec<usize> = (0..64).filter(|&n| !raw.concepts.iter().any(|c| c[0] == 2 && c[1] as usize == n)).collect();
    // Mostly small names, so that sheets meet them.
    if free.is_empty() { None } else if random.chance(70) { Some(free[0]) } else { Some(random.pick(&free)) }
}

/// w, where the book can be read and has fewer than 64 roles.
fn width(raw: &Raw) -> Option<usize> {
    let book = read(&raw.bytes()).ok()?;
    match Plan::new(&book, &Hierarchy::of_book(&book)) {
        Ok(plan) => Some(plan.width()),
        Err(d) if d.number == 13 => Some(d.detail as usize),
        Err(_) => None,
    }
}

struct Sizes {
    roles: usize,
    transitive: usize,
    pairs: usize,
    names: usize,
    concepts: usize,
    rules: usize,
    /// Of 100 entries that are no names, how many are restrictions, and of these how many existential.
    restrictions: usize,
    exists: usize,
}

fn random_raw(random: &mut Random, sizes: &Sizes) -> Raw {
    let mut raw = Raw::default();
    for _ in 0..sizes.roles {
        raw.roles.push(random.chance(sizes.transitive) as u8);
    }
    if sizes.roles > 0 {
        // Mostly from higher to lower numbers or the other way, so that circles are not the rule.
        let way = random.below(3);
        for _ in 0..sizes.pairs {
            let (a, b) = (random.below(sizes.roles) as u8, random.below(sizes.roles) as u8);
            raw.pairs.push(match way {
                0 => [a.min(b), a.max(b)],
                1 => [a.max(b), a.min(b)],
                _ => [a, b],
            });
        }
    }
    let names_first = random.chance(70);
    while raw.concepts.len() < sizes.concepts {
        let i = raw.concepts.len();
        let named = if names_first { i < sizes.names } else { random.below(sizes.concepts) < sizes.names };
        if i == 0 || named {
            match random.below(12) {
                0 if i == 0 || random.chance(30) => {
                    raw.entry(random.below(2) as u8, 0, 0);
                }
                _ => match free_name(&raw, random) {
                    Some(n) => {
                        raw.entry(2, n, 0);
                    }
                    None => {
                        raw.entry(1, 0, 0);
                    }
                },
            }
            continue;
        }
        let part = |random: &mut Random| if random.chance(30) { i - 1 - random.below(i.min(4)) } else { random.below(i) };
        let (a, b) = (part(random), part(random));
        if sizes.roles > 0 && random.chance(sizes.restrictions) {
            let kind = if random.chance(sizes.exists) { 6 } else { random.pick(&[7, 8]) };
            let role = random.below(sizes.roles);
            raw.entry(kind, role, a);
        } else {
            match random.below(20) {
                0 => raw.entry(random.below(2) as u8, 0, 0),
                1..=6 => raw.entry(3, a, 0),
                7..=12 => raw.entry(4, a, b),
                _ => raw.entry(5, a, b),
            };
        }
    }
    let premise_names = random.chance(60);
    for _ in 0..sizes.rules {
        let premise = if premise_names { random.below(sizes.names.clamp(1, sizes.concepts)) } else { random.below(sizes.concepts) };
        let conclusion = random.below(sizes.concepts);
        raw.rule(premise, conclusion);
    }
    raw
}

fn add_notes(random: &mut Random, raw: &mut Raw) {
    for k in 0..5 {
        if random.chance(30) {
            let length = random.between(1, 12);
            raw.notes[k] = (0..length).map(|_| random.next() as u8).collect();
        }
    }
}

/// Bits that move on by one at each step of role 0; what the first one becomes is for `feed` to say.
struct Stages {
    names: Vec<usize>,
    every: Vec<usize>,
    some: Vec<usize>,
}

impl Stages {
    fn new(raw: &mut Raw, bits: usize) -> Stages {
        let names: Vec<usize> = (0..bits).map(|n| raw.entry(2, n, 0)).collect();
        let every: Vec<usize> = names.iter().map(|&n| raw.entry(7, 0, n)).collect();
        let some: Vec<usize> = names.iter().map(|&n| raw.entry(6, 0, n)).collect();
        for i in 0..bits - 1 {
            raw.rule(names[i], every[i + 1]);
            raw.rule(some[i + 1], names[i]);
        }
        Stages { names, every, some }
    }

    /// The first bit is set next exactly where `one` or `other` holds now, and there is always a next step.
    fn feed(&self, raw: &mut Raw, one: usize, other: usize) {
        let fed = raw.entry(5, one, other);
        raw.rule(fed, self.every[0]);
        raw.rule(self.some[0], fed);
        let everything = raw.entry(1, 0, 0);
        let onward = raw.entry(6, 0, everything);
        raw.rule(everything, onward);
    }
}

/// Stages fed with the exclusive or of two of them: up to 2^bits - 1 nodes.
fn shift(random: &mut Random) -> Raw {
    let mut raw = Raw::default();
    let bits = random.pick(&[2, 3, 4, 5, 6, 6, 7, 7, 8]);
    raw.roles = vec![0];
    let stages = Stages::new(&mut raw, bits);
    let tap = if random.chance(60) { 0 } else { random.below(bits - 1) };
    let (a, b) = (stages.names[bits - 1], stages.names[tap]);
    let (not_a, not_b) = (raw.entry(3, a, 0), raw.entry(3, b, 0));
    let (one, other) = (raw.entry(4, a, not_b), raw.entry(4, not_a, b));
    stages.feed(&mut raw, one, other);
    if random.chance(50) {
        let some_bit = random.pick(&stages.names);
        raw.entry(3, some_bit, 0);
    }
    if random.chance(30) {
        let at = random.below(raw.rules.len());
        raw.rules.remove(at);
    }
    raw
}

/// Like `shift`, with other feedback, and entry 0 needing just 64, 65, 200 or 201 nodes, where that can be found.
fn edge(random: &mut Random) -> Raw {
    let wanted = random.pick(&[64, 65, 200, 201, 200, 201]);
    let mut raw = Raw::default();
    for _ in 0..3000 {
        raw = Raw::default();
        let bits = if wanted < 100 { random.between(7, 8) } else { 8 };
        raw.roles = vec![0];
        let stages = Stages::new(&mut raw, bits);
        let names = &stages.names;
        let mut gate = random.pick(&names[..bits - 1]);
        for _ in 0..random.between(1, 4) {
            let b = random.pick(&names[..bits - 1]);
            let kind = random.pick(&[4, 5]);
            let second = if random.chance(50) { b } else { raw.entry(3, b, 0) };
            gate = raw.entry(kind, gate, second);
        }
        let (not_gate, last) = (raw.entry(3, gate, 0), names[bits - 1]);
        let not_last = raw.entry(3, last, 0);
        let (one, other) = (raw.entry(4, gate, not_last), raw.entry(4, not_gate, last));
        stages.feed(&mut raw, one, other);
        if needed(&raw) == Some(wanted) {
            break;
        }
    }
    raw
}

/// How many nodes the search for entry 0 needs.
fn needed(raw: &Raw) -> Option<usize> {
    let book = read(&raw.bytes()).ok()?;
    let plan = Plan::new(&book, &Hierarchy::of_book(&book)).ok()?;
    let mut meter = Meter { left: 50_000, peak: 0 };
    plan.search(Label::EMPTY.with(0, true), 1000, &mut meter).ok()?;
    Some(meter.peak)
}

/// A chain of names, each calling for the next, and now and then an end that fails.
fn chain(random: &mut Random) -> Raw {
    let mut raw = Raw::default();
    let length = random.between(2, 12);
    let roles = random.between(1, 3);
    for _ in 0..roles {
        raw.roles.push(random.chance(40) as u8);
    }
    for _ in 0..random.below(3) {
        raw.pairs.push([random.below(roles) as u8, random.below(roles) as u8]);
    }
    let names: Vec<usize> = (0..length).map(|n| raw.entry(2, n, 0)).collect();
    for i in 0..length {
        let kind = if random.chance(80) { 6 } else { random.pick(&[7, 8]) };
        let role = random.below(roles);
        let next = if i + 1 < length { names[i + 1] } else { random.pick(&names) };
        let e = raw.entry(kind, role, next);
        raw.rule(names[i], e);
    }
    for _ in 0..random.below(8) {
        let last = raw.concepts.len();
        let (a, b) = (random.below(last), random.below(last));
        let kind = random.pick(&[3, 4, 5]);
        let e = if kind == 3 { raw.entry(3, a, 0) } else { raw.entry(kind, a, b) };
        if raw.rules.len() < 30 && random.chance(50) {
            raw.rule(random.pick(&names), e);
        }
    }
    raw
}

/// Chains of existential restrictions by roles that are mostly below a transitive one, against value restrictions by a role
/// that is mostly above it: what is passed on decides.
fn passing(random: &mut Random) -> Raw {
    let mut raw = Raw::default();
    let roles = random.between(3, 5);
    for r in 0..roles {
        raw.roles.push(random.chance(if r == 1 { 90 } else { 20 }) as u8);
    }
    if random.chance(70) {
        raw.pairs.push([0, 1]);
    }
    if random.chance(90) {
        raw.pairs.push([1, 2]);
    }
    for _ in 0..random.below(3) {
        raw.pairs.push([random.below(roles) as u8, random.below(roles) as u8]);
    }
    let names = random.between(1, 3);
    for n in 0..names {
        raw.entry(2, n, 0);
    }
    for n in 0..names {
        raw.entry(3, n, 0);
    }
    let mut chains = Vec::new();
    for _ in 0..random.between(1, 3) {
        let mut last = random.below(names);
        for _ in 0..random.between(2, 4) {
            let role = if random.chance(85) { random.below(2) } else { random.below(roles) };
            last = raw.entry(6, role, last);
            chains.push(last);
        }
    }
    let mut values = Vec::new();
    for _ in 0..random.between(1, 3) {
        let role = if random.chance(80) { 2 } else { random.below(roles) };
        let n = random.below(names);
        values.push(match random.below(5) {
            0 | 1 => raw.entry(7, role, names + n),
            2 | 3 => raw.entry(8, role, n),
            _ => {
                let some = raw.entry(6, role, n);
                raw.entry(3, some, 0)
            }
        });
    }
    for _ in 0..random.between(2, 6) {
        let (chain, value) = (random.pick(&chains), random.pick(&values));
        let kind = random.pick(&[4, 4, 4, 5]);
        raw.entry(kind, chain, value);
    }
    for _ in 0..random.below(3) {
        let premise = random.below(2 * names);
        let conclusion = if random.chance(50) { random.pick(&chains) } else { random.pick(&values) };
        raw.rule(premise, conclusion);
    }
    raw
}

/// Two ways at each of many entries, with an end that clashes or not.
fn choices(random: &mut Random) -> Raw {
    let mut raw = Raw::default();
    let n = random.between(2, 9);
    let names: Vec<usize> = (0..2 * n).map(|k| raw.entry(2, k, 0)).collect();
    let mut all = None;
    for k in 0..n {
        let or = raw.entry(5, names[2 * k], names[2 * k + 1]);
        all = Some(match all {
            None => or,
            Some(before) => raw.entry(4, before, or),
        });
    }
    if random.chance(50) {
        let not: Vec<usize> = names.iter().take(3).map(|&x| raw.entry(3, x, 0)).collect();
        for _ in 0..random.between(1, 5) {
            raw.rule(random.pick(&names), random.pick(&not));
        }
    }
    if random.chance(50) {
        raw.roles = vec![random.chance(50) as u8];
        let whole = all.unwrap();
        let e = raw.entry(6, 0, whole);
        raw.rule(random.pick(&names), e);
    }
    raw
}

/// More than 24 entries that are all different.
fn many(random: &mut Random) -> Raw {
    let mut raw = Raw::default();
    let names = random.between(5, 30);
    let list: Vec<usize> = (0..names).map(|n| raw.entry(2, n, 0)).collect();
    let total = random.between(26, 50).max(names);
    while raw.concepts.len() < total {
        let kind = random.pick(&[3, 4, 5]);
        let (a, b) = (random.below(raw.concepts.len()), random.pick(&list));
        if kind == 3 { raw.entry(3, a, 0) } else { raw.entry(kind, a, b) };
    }
    for _ in 0..random.below(3) {
        raw.rule(random.pick(&list), random.pick(&list));
    }
    raw
}

/// A good book and what it is called.
pub fn good(random: &mut Random) -> (Raw, &'static str) {
    let restrictions = random.pick(&[30, 50, 70, 90]);
    let exists = random.pick(&[30, 50, 70]);
    let transitive = random.pick(&[10, 40, 70]);
    let (mut raw, name) = match random.below(100) {
        0..=10 => {
            let sizes = Sizes {
                roles: random.below(3),
                transitive,
                pairs: random.below(4),
                names: random.between(1, 3),
                concepts: random.between(1, 7),
                rules: random.below(4),
                restrictions,
                exists,
            };
            (random_raw(random, &sizes), "tiny")
        }
        11..=14 => (passing(random), "passing"),
        15..=34 => {
            let sizes = Sizes {
                roles: random.between(1, 4),
                transitive,
                pairs: random.below(7),
                names: random.between(1, 5),
                concepts: random.between(5, 16),
                rules: random.below(8),
                restrictions,
                exists,
            };
            (random_raw(random, &sizes), "small")
        }
        35..=49 => {
            let sizes = Sizes {
                roles: random.between(1, 9),
                transitive,
                pairs: random.below(13),
                names: random.between(2, 10),
                concepts: random.between(12, 32),
                rules: random.below(14),
                restrictions,
                exists,
            };
            (random_raw(random, &sizes), "middle")
        }
        50..=64 => (full(random, restrictions, exists), "full"),
        65..=69 => (passing(random), "passing"),
        70..=71 => (edge(random), "edge"),
        72..=75 => (shift(random), "shift"),
        76..=82 => (chain(random), "chain"),
        83..=86 => (choices(random), "choices"),
        87..=89 => (many(random), "many classes"),
        90..=93 => {
            // Many roles and pairs; few entries.
            let roles = random.between(10, 63);
            let sizes = Sizes {
                roles,
                transitive: random.pick(&[2, 10, 40]),
                pairs: random.below(120),
                names: 3,
                concepts: random.between(2, 12),
                rules: random.below(5),
                restrictions: 70,
                exists,
            };
            (random_raw(random, &sizes), "many roles")
        }
        94..=95 => {
            let sizes = Sizes {
                roles: 64,
                transitive,
                pairs: random.below(257),
                names: 3,
                concepts: random.between(1, 60),
                rules: random.below(33),
                restrictions,
                exists,
            };
            (random_raw(random, &sizes), "64 roles")
        }
        _ => {
            let sizes = Sizes {
                roles: random.between(3, 20),
                transitive: 60,
                pairs: random.between(10, 60),
                names: 5,
                concepts: random.between(30, 60),
                rules: random.below(33),
                restrictions: 80,
                exists,
            };
            (random_raw(random, &sizes), "wide")
        }
    };
    if random.chance(60) {
        add_notes(random, &mut raw);
    }
    if random.chance(1) {
        // As long as a book may be.
        let rest = 8192 - raw.bytes().len();
        let at = random.below(5);
        let more: Vec<u8> = (0..rest).map(|_| random.next() as u8).collect();
        raw.notes[at].extend(more);
    }
    (raw, name)
}

/// A book with w from 52 to 64: made too big and then cut, entry by entry.
fn full(random: &mut Random, restrictions: usize, exists: usize) -> Raw {
    let target = if random.chance(30) { 64 } else { random.between(52, 64) };
    let sizes = Sizes {
        roles: random.between(1, 8),
        transitive: random.pick(&[0, 20, 50]),
        pairs: random.below(9),
        names: random.between(3, 20),
        concepts: random.between(40, 60),
        rules: random.between(3, 25),
        restrictions,
        exists,
    };
    let mut raw = random_raw(random, &sizes);
    while width(&raw).is_some_and(|w| w > target) {
        if raw.concepts.len() > 20 {
            raw.concepts.pop();
            let left = raw.concepts.len() as u8;
            for rule in &mut raw.rules {
                rule[0] %= left;
                rule[1] %= left;
            }
        } else if !raw.rules.is_empty() {
            raw.rules.pop();
        } else if !raw.pairs.is_empty() {
            raw.pairs.pop();
        } else {
            break;
        }
    }
    while raw.rules.len() < 32 && width(&raw).is_some_and(|w| w < target) {
        let (a, b) = (random.below(raw.concepts.len()), random.below(raw.concepts.len()));
        raw.rule(a, b);
    }
    raw
}

fn set_two(bytes: &mut [u8], at: usize, value: usize) {
    bytes[at..at + 2].copy_from_slice(&(value as u16).to_le_bytes());
}

fn two(bytes: &[u8], at: usize) -> usize {
    bytes[at] as usize + 256 * bytes[at + 1] as usize
}

pub const DAMAGES: [&str; 28] = [
    "1 short", "1 long", "2 roles", "2 pairs", "2 concepts", "2 concepts 0", "2 rules", "3 pairs", "3 concepts", "3 rules",
    "3 rules end", "3 any place", "4 role", "5 lower", "5 upper", "6 kind", "6 last byte", "6 unused operand", "6 name",
    "6 name twice", "6 part of not", "6 first part", "6 second part", "6 role of restriction", "6 part of restriction",
    "7 premise", "7 conclusion", "any byte",
];

/// Damages a good book in the way named. Records are damaged where they are, so the book has to have some.
fn damage(random: &mut Random, bytes: &mut Vec<u8>, which: &str) {
    if bytes.len() < 16 {
        return;
    }
    let trailer = bytes.len() - 16;
    let place = |k: usize| two(bytes, trailer + 4 * k);
    let count = |k: usize| two(bytes, trailer + 4 * k + 2);
    let (places, counts): (Vec<usize>, Vec<usize>) = ((0..4).map(place).collect(), (0..4).map(count).collect());
    let size = [1, 2, 4, 2];
    let end = |k: usize| places[k] + counts[k] * size[k];
    // After other damage the sections may lie anywhere.
    let within = |k: usize| counts[k] > 0 && end(k) <= trailer;
    let far = |random: &mut Random, low: usize| match random.below(4) {
        0 => low,
        1 => low + 1,
        2 => 65535,
        _ => random.between(low, 65535),
    };
    // The place of a random record of a section, and its number.
    let record = |random: &mut Random, k: usize| {
        let i = random.below(counts[k]);
        (places[k] + i * size[k], i)
    };
    let byte_from = |random: &mut Random, low: usize| {
        let low = low.min(255);
        (if random.chance(50) { low } else { random.between(low, 255) }) as u8
    };
    match which {
        "1 short" => {
            let n = random.below(16);
            bytes.truncate(n);
        }
        "1 long" => {
            let n = if random.chance(50) { 8193 } else { random.between(8193, 9000) };
            let filler = vec![random.next() as u8; n - bytes.len().min(n)];
            if random.chance(50) {
                bytes.extend(filler);
            } else {
                bytes.splice(0..0, filler);
            }
        }
        "2 roles" => set_two(bytes, trailer + 2, far(random, 65)),
        "2 pairs" => set_two(bytes, trailer + 6, far(random, 257)),
        "2 concepts" => set_two(bytes, trailer + 10, far(random, 61)),
        "2 concepts 0" => set_two(bytes, trailer + 10, 0),
        "2 rules" => set_two(bytes, trailer + 14, far(random, 33)),
        "3 pairs" | "3 concepts" | "3 rules" => {
            let k = match which {
                "3 pairs" => 1,
                "3 concepts" => 2,
                _ => 3,
            };
            let early = end(k - 1);
            let to = if random.chance(50) { early.saturating_sub(1) } else { random.below(early.max(1)) };
            set_two(bytes, trailer + 4 * k, to);
        }
        "3 rules end" => {
            let last = trailer - (counts[3] * 2).min(trailer);
            set_two(bytes, trailer + 12, far(random, last + 1));
        }
        "3 any place" => {
            let k = random.below(4);
            let to = if random.chance(50) { random.below(bytes.len() + 4) } else { random.below(65536) };
            set_two(bytes, trailer + 4 * k, to);
        }
        "4 role" if within(0) => {
            let (at, _) = record(random, 0);
            bytes[at] = byte_from(random, 2);
        }
        "5 lower" | "5 upper" if within(1) => {
            let (at, _) = record(random, 1);
            bytes[at + (which == "5 upper") as usize] = byte_from(random, counts[0]);
        }
        "7 premise" | "7 conclusion" if within(3) => {
            let (at, _) = record(random, 3);
            bytes[at + (which == "7 conclusion") as usize] = byte_from(random, counts[2]);
        }
        "any byte" => {
            for _ in 0..random.between(1, 3) {
                let at = random.below(bytes.len());
                bytes[at] = random.next() as u8;
            }
        }
        _ if which.starts_with('6') && within(2) => {
            let (at, i) = record(random, 2);
            let names: Vec<u8> = (0..i).map(|j| places[2] + 4 * j).filter(|&p| bytes[p] == 2).map(|p| bytes[p + 1]).collect();
            match which {
                "6 kind" => bytes[at] = byte_from(random, 9),
                "6 last byte" => bytes[at + 3] = byte_from(random, 1),
                "6 unused operand" => {
                    bytes[at] = random.below(4) as u8;
                    if bytes[at] < 2 {
                        let operand = random.between(1, 2);
                        bytes[at + 1] = 0;
                        bytes[at + 2] = 0;
                        bytes[at + operand] = byte_from(random, 1);
                    } else {
                        bytes[at + 2] = byte_from(random, 1);
                    }
                }
                "6 name" => bytes[at..at + 3].copy_from_slice(&[2, byte_from(random, 64), 0]),
                "6 name twice" if !names.is_empty() => bytes[at..at + 3].copy_from_slice(&[2, random.pick(&names), 0]),
                "6 part of not" => bytes[at..at + 3].copy_from_slice(&[3, byte_from(random, i), 0]),
                "6 first part" => bytes[at..at + 3].copy_from_slice(&[random.pick(&[4, 5]), byte_from(random, i), 0]),
                "6 second part" => bytes[at..at + 3].copy_from_slice(&[random.pick(&[4, 5]), 0, byte_from(random, i)]),
                "6 role of restriction" => {
                    bytes[at..at + 3].copy_from_slice(&[random.pick(&[6, 7, 8]), byte_from(random, counts[0]), 0])
                }
                "6 part of restriction" => {
                    bytes[at..at + 3].copy_from_slice(&[random.pick(&[6, 7, 8]), 0, byte_from(random, i)])
                }
                _ => {}
            }
        }
        _ => {}
    }
}

/// Some bytes and what they are called.
pub fn any_book(random: &mut Random) -> (Vec<u8>, String) {
    match random.below(100) {
        0..=64 => {
            let (raw, name) = good(random);
            (raw.bytes(), name.to_string())
        }
        65..=91 => {
            // Books with records in each section, so that each can be damaged.
            let sizes = Sizes {
                roles: random.between(1, 6),
                transitive: 30,
                pairs: random.between(1, 6),
                names: random.between(1, 4),
                concepts: random.between(2, 20),
                rules: random.between(1, 6),
                restrictions: 50,
                exists: 50,
            };
            let mut raw = random_raw(random, &sizes);
            if random.chance(50) {
                add_notes(random, &mut raw);
            }
            let mut bytes = raw.bytes();
            let which = random.pick(&DAMAGES);
            damage(random, &mut bytes, which);
            (bytes, format!("damaged {which}"))
        }
        92..=96 => {
            let (raw, _) = good(random);
            let mut bytes = raw.bytes();
            for _ in 0..random.between(2, 4) {
                let which = random.pick(&DAMAGES);
                damage(random, &mut bytes, which);
            }
            (bytes, "damaged in several ways".to_string())
        }
        _ => {
            let most = random.pick(&[40, 300]);
            let length = random.below(most);
            let mut bytes: Vec<u8> = (0..length).map(|_| random.next() as u8).collect();
            if bytes.len() >= 16 && random.chance(60) {
                // A trailer of small numbers, so that more than the counts is looked at.
                let at = bytes.len() - 16;
                let mut place = 0;
                for k in 0..4 {
                    place += random.below(length / 4 + 1);
                    set_two(&mut bytes, at + 4 * k, place);
                    set_two(&mut bytes, at + 4 * k + 2, random.below(4));
                }
            }
            (bytes, "random bytes".to_string())
        }
    }
}
