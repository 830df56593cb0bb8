//! The register, the call for hosts in C and the program `classes`, as docs/register.md, docs/denials.md and
//! hosts/c/register.h say.

use crate::book::{denial, read, Denial};
use crate::roles::Hierarchy;
use crate::search::{Halt, Label, Meter, Plan};
use crate::world::{words_needed, World};

#[derive(Clone, Copy, PartialEq, Eq, Debug)]
pub enum Stop {
    Denied(Denial),
    /// The model gave up; what follows is not known.
    Limit,
}

impl From<Denial> for Stop {
    fn from(d: Denial) -> Stop {
        Stop::Denied(d)
    }
}

fn stop(number: u64, detail: usize) -> Stop {
    Stop::Denied(denial(number, detail))
}

/// A search that is full is refused with 15 and this detail.
fn room(class: usize) -> impl Fn(Halt) -> Stop {
    move |halt| match halt {
        Halt::Full => stop(15, class),
        Halt::Limit => Stop::Limit,
    }
}

pub const MOST_CLASSES: usize = 24;

#[derive(Clone, Debug)]
pub struct Register {
    pub plan: Plan,
    /// The entries by which the classes 1, 2, .. stand.
    pub classes: Vec<usize>,
}

pub struct Shown {
    pub world: World,
    pub side: usize,
}

impl Register {
    pub fn new(plan: Plan) -> Register {
        Register { plan, classes: Vec::new() }
    }

    /// "a not b" for entries; b may be none.
    fn find(&self, a: usize, b: Option<usize>, nodes: usize, meter: &mut Meter) -> Result<Option<Vec<Label>>, Halt> {
        let mut seed = Label::EMPTY.with(a, true);
        if let Some(b) = b {
            seed = seed.with(b, false);
        }
        self.plan.search(seed, nodes, meter)
    }

    pub fn file(&mut self, entry: usize, nodes: usize, meter: &mut Meter) -> Result<usize, Stop> {
        if entry >= self.plan.concept_count {
            return Err(stop(8, entry));
        }
        if self.find(entry, None, nodes, meter).map_err(room(0))?.is_none() {
            return Ok(0);
        }
        for k in 1..=self.classes.len() {
            let class = self.classes[k - 1];
            if self.find(entry, Some(class), nodes, meter).map_err(room(k))?.is_none()
                && self.find(class, Some(entry), nodes, meter).map_err(room(k))?.is_none()
            {
                return Ok(k);
            }
        }
        if self.classes.len() == MOST_CLASSES {
            return Err(stop(14, MOST_CLASSES));
        }
        self.classes.push(entry);
        Ok(self.classes.len())
    }

    fn given(&self, a: usize, b: usize) -> Result<(), Stop> {
        for n in [a, b] {
            if n > self.classes.len() {
                return Err(stop(9, n));
            }
        }
        Ok(())
    }

    /// "a not b" for classes. Class 0 has no world of its own, and "a not 0" is the search for a alone.
    fn apart(&self, a: usize, b: usize, nodes: usize, meter: &mut Meter) -> Result<Option<Vec<Label>>, Halt> {
        if a == 0 {
            return Ok(None);
        }
        let other = if b == 0 { None } else { Some(self.classes[b - 1]) };
        self.find(self.classes[a - 1], other, nodes, meter)
    }

    pub fn ask(&self, a: usize, b: usize, nodes: usize, meter: &mut Meter) -> Result<bool, Stop> {
        self.given(a, b)?;
        if a == 0 {
            return Ok(true);
        }
        if b == 0 {
            return Ok(false);
        }
        Ok(self.apart(a, b, nodes, meter).map_err(room(a))?.is_none())
    }

    pub fn show(&self, a: usize, b: usize, nodes: usize, words: usize, meter: &mut Meter) -> Result<Shown, Stop> {
        self.given(a, b)?;
        if a == b {
            return Err(stop(16, a));
        }
        let (labels, side) = match self.apart(a, b, nodes, meter).map_err(room(a))? {
            Some(labels) => (labels, 1),
            None => match self.apart(b, a, nodes, meter).map_err(room(a))? {
                Some(labels) => (labels, 2),
                None => return Err(stop(16, a)),
            },
        };
        let world = self.plan.found_world(&labels)?;
        let needed = words_needed(self.plan.role_count, world.size);
        if words < needed {
            return Err(stop(11, needed));
        }
        Ok(Shown { world, side })
    }
}

pub const HOST_NODES: usize = 200;

/// What `register_relation` answers.
pub fn relation(bytes: &[u8], first: usize, second: usize, meter: &mut Meter) -> Result<u64, Stop> {
    let answer = |meter: &mut Meter| -> Result<u64, Stop> {
        let book = read(bytes)?;
        let mut register = Register::new(Plan::new(&book, &Hierarchy::of_book(&book))?);
        let a = register.file(first, HOST_NODES, meter)?;
        let b = register.file(second, HOST_NODES, meter)?;
        // Equal numbers are asked about too.
        let within = register.ask(a, b, HOST_NODES, meter)?;
        let around = register.ask(b, a, HOST_NODES, meter)?;
        Ok(match (within, around) {
            (true, true) => 0,
            (true, false) => 1,
            (false, true) => 2,
            (false, false) => 3,
        })
    };
    match answer(meter) {
        Err(Stop::Denied(d)) => Ok(100 + d.number),
        other => other,
    }
}
