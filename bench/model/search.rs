//! The search for an individual, as docs/search.md defines it, and the world that it finds.

use std::collections::HashSet;

use crate::book::{denial, Book, Concept, Denial, Quantifier};
use crate::roles::Hierarchy;
use crate::world::World;

#[derive(Clone, Debug)]
enum Working {
    Concept(Concept),
    Rule(usize, usize),
    /// *book*: every rule; the range of their numbers.
    Book(usize, usize),
}

/// A set of signed entries.
#[derive(Clone, Copy, PartialEq, Eq, Hash, Debug)]
pub struct Label {
    pub plus: u64,
    pub minus: u64,
}

impl Label {
    pub const EMPTY: Label = Label { plus: 0, minus: 0 };

    pub fn with(mut self, i: usize, sign: bool) -> Label {
        if sign {
            self.plus |= 1 << i;
        } else {
            self.minus |= 1 << i;
        }
        self
    }

    fn has(&self, i: usize, sign: bool) -> bool {
        (if sign { self.plus } else { self.minus }) >> i & 1 == 1
    }

    fn contains(&self, seed: &Label) -> bool {
        seed.plus & !self.plus == 0 && seed.minus & !self.minus == 0
    }
}

/// What the searches need of a book and its hierarchy.
#[derive(Clone, Debug)]
pub struct Plan {
    entries: Vec<Working>,
    /// For each working entry, its propagated restrictions as (number, role).
    propagated: Vec<Vec<(usize, usize)>>,
    /// The hierarchy with its universal role.
    roles: Hierarchy,
    /// The entries *nothing* and *everything*, as sets.
    nothing: u64,
    everything: u64,
    pub role_count: usize,
    pub concept_count: usize,
}

/// Why a search came to no end: no room for a node, or the model's own limit of steps.
#[derive(Clone, Copy, PartialEq, Eq, Debug)]
pub enum Halt {
    Full,
    Limit,
}

impl Plan {
    pub fn new(book: &Book, hierarchy: &Hierarchy) -> Result<Plan, Denial> {
        if hierarchy.count != book.roles.len() {
            return Err(denial(12, hierarchy.count));
        }
        let roles = hierarchy.with_universal()?;
        let universal = hierarchy.count;
        let concepts = book.concepts.len();
        let mut entries: Vec<Working> = book.concepts.iter().map(|&c| Working::Concept(c)).collect();
        let mut propagated = vec![Vec::new(); concepts];
        for (i, &concept) in book.concepts.iter().enumerate() {
            if let Concept::Restriction(quantifier, s, part) = concept {
                if roles.transitive(s) {
                    continue;
                }
                for p in 0..universal {
                    if roles.transitive(p) && roles.below(p, s) {
                        propagated[i].push((entries.len(), p));
                        entries.push(Working::Concept(Concept::Restriction(quantifier, p, part)));
                    }
                }
            }
        }
        let first_rule = entries.len();
        for &(premise, conclusion) in &book.rules {
            entries.push(Working::Rule(premise, conclusion));
        }
        let book_entry = entries.len();
        entries.push(Working::Book(first_rule, book_entry));
        entries.push(Working::Concept(Concept::Restriction(Quantifier::Forall, universal, book_entry)));
        if entries.len() > 64 {
            return Err(denial(13, entries.len()));
        }
        propagated.resize(entries.len(), Vec::new());
        let set_of = |concept: Concept| (0..concepts).filter(|&i| book.concepts[i] == concept).map(|i| 1 << i).sum();
        let (nothing, everything) = (set_of(Concept::Nothing), set_of(Concept::Everything));
        Ok(Plan { entries, propagated, roles, nothing, everything, role_count: universal, concept_count: concepts })
    }

    pub fn width(&self) -> usize {
        self.entries.len()
    }

    fn clashes(&self, label: &Label) -> bool {
        label.plus & label.minus != 0 || label.plus & self.nothing != 0 || label.minus & self.everything != 0
    }

    /// A signed restriction read as (is it an obligation, role, part, sign of the part).
    fn restriction(&self, i: usize, sign: bool) -> Option<(bool, usize, usize, bool)> {
        match self.entries[i] {
            Working::Concept(Concept::Restriction(quantifier, role, part)) => Some(match (quantifier, sign) {
                (Quantifier::Exists, true) => (true, role, part, true),
                (Quantifier::Exists, false) => (false, role, part, false),
                (Quantifier::Forall, true) => (false, role, part, true),
                (Quantifier::Forall, false) => (true, role, part, false),
                (Quantifier::NoneOf, true) => (false, role, part, false),
                (Quantifier::NoneOf, false) => (true, role, part, true),
            }),
            _ => None,
        }
    }

    /// The obligation at entry i of a label: the role, and the seed of the successor.
    fn obligation(&self, label: &Label, i: usize) -> Option<(usize, Label)> {
        for sign in [true, false] {
            if !label.has(i, sign) {
                continue;
            }
            if let Some((true, role, part, part_sign)) = self.restriction(i, sign) {
                return Some((role, self.seed(label, role, part, part_sign)));
            }
        }
        None
    }

    fn seed(&self, label: &Label, role: usize, part: usize, part_sign: bool) -> Label {
        let mut seed = Label::EMPTY.with(part, part_sign);
        for j in 0..self.entries.len() {
            for sign in [true, false] {
                if !label.has(j, sign) {
                    continue;
                }
                if let Some((false, s, all_part, all_sign)) = self.restriction(j, sign) {
                    if !self.roles.below(role, s) {
                        continue;
                    }
                    seed = seed.with(all_part, all_sign);
                    if self.roles.transitive(s) {
                        seed = seed.with(j, sign);
                    } else {
                        for &(number, p) in &self.propagated[j] {
                            if self.roles.below(role, p) {
                                seed = seed.with(number, sign);
                            }
                        }
                    }
                }
            }
        }
        seed
    }

    /// The search from the seed with *book* and *everywhere* added, in so many nodes: the labels that stand, or none.
    pub fn search(&self, seed: Label, room: usize, meter: &mut Meter) -> Result<Option<Vec<Label>>, Halt> {
        self.counted(seed, room, meter, None)
    }

    /// The same search, counted.
    pub fn counted(&self, seed: Label, room: usize, meter: &mut Meter, tally: Option<&mut Tally>) -> Result<Option<Vec<Label>>, Halt> {
        let w = self.width();
        let root = seed.with(w - 2, true).with(w - 1, true);
        let mut search = Search { plan: self, room, standing: Vec::new(), meter, tally };
        Ok(if search.explore(root)? { Some(search.standing) } else { None })
    }

    /// The world of the labels that stand; refused where they are more than 64.
    pub fn found_world(&self, labels: &[Label]) -> Result<World, Denial> {
        if labels.is_empty() || labels.len() > 64 {
            return Err(denial(17, labels.len()));
        }
        let size = labels.len();
        let mut names = vec![0; 64];
        let mut edges: Vec<(usize, usize, usize)> = Vec::new();
        for (x, label) in labels.iter().enumerate() {
            for i in 0..self.width() {
                if let Working::Concept(Concept::Name(n)) = self.entries[i] {
                    if label.has(i, true) {
                        names[n] |= 1 << x;
                    }
                }
                if let Some((role, seed)) = self.obligation(label, i) {
                    let y = labels.iter().position(|l| l.contains(&seed)).expect("each obligation is met");
                    edges.push((role, x, y));
                }
            }
        }
        let mut rows = vec![vec![0u64; size]; self.role_count];
        for s in 0..self.role_count {
            for &(role, x, y) in &edges {
                if self.roles.below(role, s) {
                    rows[s][x] |= 1 << y;
                }
            }
        }
        // Chains of edges that are all below one transitive role.
        for t in (0..self.role_count).filter(|&t| self.roles.transitive(t)) {
            let mut step = vec![0u64; size];
            for &(role, x, y) in &edges {
                if self.roles.below(role, t) {
                    step[x] |= 1 << y;
                }
            }
            for x in 0..size {
                let mut reached = 0u64;
                let mut ahead = step[x];
                while ahead != 0 {
                    let y = ahead.trailing_zeros() as usize;
                    reached |= 1 << y;
                    ahead = (ahead | step[y]) & !reached;
                }
                for s in 0..self.role_count {
                    if self.roles.below(t, s) {
                        rows[s][x] |= reached;
                    }
                }
            }
        }
        Ok(World { size, names, rows })
    }
}

/// Counts the steps of all searches of a session against a limit, and the most nodes that ever stood.
#[derive(Clone, Debug)]
pub struct Meter {
    pub left: u64,
    pub peak: usize,
}

impl Meter {
    fn step(&mut self, cost: u64) -> Result<(), Halt> {
        if self.left < cost {
            self.left = 0;
            return Err(Halt::Limit);
        }
        self.left -= cost;
        Ok(())
    }
}

/// What a search did.
#[derive(Default, Debug)]
pub struct Tally {
    /// How often a node was made for a seed, and how often that failed; and the different seeds of both.
    pub made: u64,
    pub failed: u64,
    pub seeds: HashSet<Label>,
    pub failed_seeds: HashSet<Label>,
    /// The labels at which choices ended: expansions, and clashes.
    pub ends: u64,
    /// Whether a node for a seed that failed before fails at once. The register does not do this.
    pub remember: bool,
}

struct Search<'a> {
    plan: &'a Plan,
    room: usize,
    standing: Vec<Label>,
    meter: &'a mut Meter,
    tally: Option<&'a mut Tally>,
}

impl Search<'_> {
    /// A node for this seed: whether it stands in the end.
    fn explore(&mut self, seed: Label) -> Result<bool, Halt> {
        if self.standing.len() >= self.room {
            return Err(Halt::Full);
        }
        if let Some(tally) = &mut self.tally {
            if tally.remember && tally.failed_seeds.contains(&seed) {
                return Ok(false);
            }
            tally.made += 1;
            tally.seeds.insert(seed);
        }
        let stands = self.try_from(seed, self.plan.width())?;
        if let (Some(tally), false) = (&mut self.tally, stands) {
            tally.failed += 1;
            tally.failed_seeds.insert(seed);
        }
        Ok(stands)
    }

    fn end(&mut self) {
        if let Some(tally) = &mut self.tally {
            tally.ends += 1;
        }
    }

    /// Tries the expansions of a label in which the entries from `above` on have been taken, in order, until one stands.
    fn try_from(&mut self, mut label: Label, above: usize) -> Result<bool, Halt> {
        self.meter.step(1)?;
        if self.plan.clashes(&label) {
            self.end();
            return Ok(false);
        }
        for i in (0..above).rev() {
            let (plus, minus) = (label.has(i, true), label.has(i, false));
            if !plus && !minus {
                continue;
            }
            // What does not clash has one sign.
            let sign = plus;
            let mut choice = None;
            match self.plan.entries[i] {
                Working::Concept(Concept::And(a, b)) if sign => label = label.with(a, true).with(b, true),
                Working::Concept(Concept::Or(a, b)) if !sign => label = label.with(a, false).with(b, false),
                Working::Concept(Concept::Not(a)) => label = label.with(a, !sign),
                Working::Book(first, end) if sign => {
                    for rule in first..end {
                        label = label.with(rule, true);
                    }
                }
                Working::Concept(Concept::Or(a, b)) if sign => choice = Some([(a, true), (b, true)]),
                Working::Concept(Concept::And(a, b)) if !sign => choice = Some([(a, false), (b, false)]),
                Working::Rule(premise, conclusion) if sign => choice = Some([(premise, false), (conclusion, true)]),
                _ => {}
            }
            if let Some(two) = choice {
                if two.iter().any(|&(part, part_sign)| label.has(part, part_sign)) {
                    continue;
                }
                for (part, part_sign) in two {
                    if self.try_from(label.with(part, part_sign), i)? {
                        return Ok(true);
                    }
                }
                return Ok(false);
            }
            if self.plan.clashes(&label) {
                self.end();
                return Ok(false);
            }
        }
        self.end();
        self.stand(label)
    }

    /// A node stands with this expansion, and its obligations are met by rising number; or it is removed again.
    fn stand(&mut self, label: Label) -> Result<bool, Halt> {
        let before = self.standing.len();
        self.standing.push(label);
        self.meter.peak = self.meter.peak.max(self.standing.len());
        for i in 0..self.plan.width() {
            if let Some((_, seed)) = self.plan.obligation(&label, i) {
                self.meter.step(1 + self.standing.len() as u64 / 16)?;
                if self.standing.iter().any(|l| l.contains(&seed)) {
                    continue;
                }
                if !self.explore(seed)? {
                    self.standing.truncate(before);
                    return Ok(false);
                }
            }
        }
        Ok(true)
    }
}
