//! The program `classes`. The pages do not say how it answers; its form, what it prints where it is refused and how many nodes
//! it lends were seen by trying it.

use crate::book::read;
use crate::register::{Register, Stop};
use crate::roles::Hierarchy;
use crate::search::{Meter, Plan};

const LISTING_NODES: usize = 64;

pub fn classes_text(bytes: &[u8], meter: &mut Meter) -> Result<String, Stop> {
    let opened = read(bytes).and_then(|book| Plan::new(&book, &Hierarchy::of_book(&book)));
    let mut register = match opened {
        Ok(plan) => Register::new(plan),
        Err(d) => return Ok(format!("book {:02}\n", d.number)),
    };
    let mut text = String::new();
    for entry in 0..register.plan.concept_count {
        text += &match register.file(entry, LISTING_NODES, meter) {
            Ok(class) => format!("class {entry:02} {class:02}\n"),
            Err(Stop::Denied(d)) => format!("denied {entry:02} {:02}\n", d.number),
            Err(Stop::Limit) => return Err(Stop::Limit),
        };
    }
    Ok(text)
}
