//! Hierarchies of roles, as docs/hierarchies.md says.

use crate::book::{denial, Book, Denial};

#[derive(Clone, Debug)]
pub struct Hierarchy {
    pub count: usize,
    /// `under[r][s]`: role r is below role s.
    under: Vec<Vec<bool>>,
    passing: Vec<bool>,
}

impl Hierarchy {
    /// That of a book: told inclusions followed along chains.
    pub fn of_book(book: &Book) -> Hierarchy {
        let count = book.roles.len();
        let mut under = vec![vec![false; count]; count];
        for r in 0..count {
            let mut ahead = vec![r];
            while let Some(s) = ahead.pop() {
                if under[r][s] {
                    continue;
                }
                under[r][s] = true;
                for &(lower, upper) in &book.pairs {
                    if lower == s {
                        ahead.push(upper);
                    }
                }
            }
        }
        Hierarchy { count, under, passing: book.roles.clone() }
    }

    /// With one role more: above all, below itself alone, transitive.
    pub fn with_universal(&self) -> Result<Hierarchy, Denial> {
        if self.count >= 64 {
            return Err(denial(12, self.count));
        }
        let count = self.count + 1;
        let mut under = vec![vec![false; count]; count];
        for r in 0..count {
            for s in 0..count {
                under[r][s] = s == self.count || (r < self.count && self.under[r][s]);
            }
        }
        let mut passing = self.passing.clone();
        passing.push(true);
        Ok(Hierarchy { count, under, passing })
    }

    pub fn below(&self, r: usize, s: usize) -> bool {
        r < self.count && s < self.count && self.under[r][s]
    }

    pub fn transitive(&self, r: usize) -> bool {
        r < self.count && self.passing[r]
    }
}
