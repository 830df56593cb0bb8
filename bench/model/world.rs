//! Finite worlds of at most 64 individuals; sheets; judging and keeping, as docs/worlds.md and docs/sheets.md say.

use crate::book::{denial, Book, Concept, Denial, Quantifier};
use crate::roles::Hierarchy;

#[derive(Clone, Debug)]
pub struct World {
    pub size: usize,
    /// For each of the 64 names, the set of the individuals that bear it.
    pub names: Vec<u64>,
    /// `rows[r][x]`: the set of those to which role r joins x.
    pub rows: Vec<Vec<u64>>,
}

/// The set of the numbers below m.
pub fn all(m: usize) -> u64 {
    if m >= 64 { u64::MAX } else { (1 << m) - 1 }
}

pub fn has(set: u64, x: usize) -> bool {
    x < 64 && set >> x & 1 == 1
}

/// The words that a sheet of m individuals needs.
pub fn words_needed(roles: usize, m: usize) -> usize {
    65 + roles * m
}

impl World {
    pub fn row(&self, r: usize, x: usize) -> u64 {
        if r < self.rows.len() { self.rows[r][x] } else { 0 }
    }

    /// The world on a sheet of so many words, those not named in `words` being 0.
    pub fn from_sheet(roles: usize, length: usize, words: &std::collections::BTreeMap<usize, u64>) -> Result<World, Denial> {
        let word = |i: usize| words.get(&i).copied().unwrap_or(0);
        if length == 0 || word(0) < 1 || word(0) > 64 {
            return Err(denial(10, 0));
        }
        let size = word(0) as usize;
        let needed = words_needed(roles, size);
        if length < needed {
            return Err(denial(10, length));
        }
        for i in 1..needed {
            if word(i) & !all(size) != 0 {
                return Err(denial(10, i));
            }
        }
        let names = (0..64).map(|n| word(1 + n)).collect();
        let rows = (0..roles).map(|r| (0..size).map(|x| word(65 + r * size + x)).collect()).collect();
        Ok(World { size, names, rows })
    }

    /// The words that are not 0 of the sheet of this world, as `I:HEX`.
    pub fn to_sheet(&self) -> Vec<(usize, u64)> {
        let mut words = vec![(0, self.size as u64)];
        for n in 0..64 {
            words.push((1 + n, self.names[n]));
        }
        for (r, rows) in self.rows.iter().enumerate() {
            for (x, &row) in rows.iter().enumerate() {
                words.push((65 + r * self.size + x, row));
            }
        }
        words.retain(|&(_, word)| word != 0);
        words
    }

    /// For each entry of the book, the set of the individuals in it.
    pub fn judge_all(&self, book: &Book) -> Vec<u64> {
        let mut sets = Vec::new();
        self.judge_into(book, &mut sets);
        sets
    }

    /// The same, in a list that is used again.
    pub fn judge_into(&self, book: &Book, sets: &mut Vec<u64>) {
        let everyone = all(self.size);
        sets.clear();
        for &concept in &book.concepts {
            let set = match concept {
                Concept::Nothing => 0,
                Concept::Everything => everyone,
                Concept::Name(n) => self.names[n],
                Concept::Not(a) => everyone & !sets[a],
                Concept::And(a, b) => sets[a] & sets[b],
                Concept::Or(a, b) => sets[a] | sets[b],
                Concept::Restriction(quantifier, r, a) => {
                    let mut set = 0;
                    for x in 0..self.size {
                        let row = self.row(r, x);
                        let inside = match quantifier {
                            Quantifier::Exists => row & sets[a] != 0,
                            Quantifier::Forall => row & !sets[a] == 0,
                            Quantifier::NoneOf => row & sets[a] == 0,
                        };
                        if inside {
                            set |= 1 << x;
                        }
                    }
                    set
                }
            };
            sets.push(set);
        }
    }

    pub fn judge(&self, book: &Book, entry: usize) -> Result<u64, Denial> {
        if entry >= book.concepts.len() {
            return Err(denial(8, entry));
        }
        Ok(self.judge_all(book)[entry])
    }

    /// The inclusions and transitivity that the hierarchy asks for.
    pub fn keeps_roles(&self, hierarchy: &Hierarchy) -> bool {
        for r in 0..hierarchy.count {
            for s in 0..hierarchy.count {
                if hierarchy.below(r, s) && (0..self.size).any(|x| self.row(r, x) & !self.row(s, x) != 0) {
                    return false;
                }
            }
            if hierarchy.transitive(r) {
                for x in 0..self.size {
                    for y in 0..self.size {
                        if has(self.row(r, x), y) && self.row(r, y) & !self.row(r, x) != 0 {
                            return false;
                        }
                    }
                }
            }
        }
        true
    }

    pub fn keeps(&self, book: &Book, hierarchy: &Hierarchy) -> Result<bool, Denial> {
        if hierarchy.count != book.roles.len() {
            return Err(denial(12, hierarchy.count));
        }
        let sets = self.judge_all(book);
        Ok(self.size > 0
            && self.keeps_roles(hierarchy)
            && book.rules.iter().all(|&(premise, conclusion)| sets[premise] & !sets[conclusion] == 0))
    }
}
