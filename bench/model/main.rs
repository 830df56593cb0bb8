//! An independent model of the class register, written from the pages in docs/ alone, and a maker of scripts to compare with it.
//!
//!     model calls [-n]                     answers a script from standard input; -n puts the number of the line before each answer
//!     model classes                        what the program `classes` prints of the book on standard input
//!     model c HEXBOOK E1 E2                what the call for hosts in C answers
//!     model host                           the same for each line `HEXBOOK E1 E2` of standard input
//!     model gen SEED INDEX                 the script of one book
//!     model batch SEED FIRST COUNT SCRIPT KINDS
//!                                          the scripts of so many books in one file, and a line for each in another:
//!                                          index, lines or `skipped`, working entries, kind
//!     model count ENTRY STEPS [remember]   what the search for an individual in an entry of the book on standard input does, in 64
//!                                          nodes and at most so many steps: how it ends, nodes made, different seeds, nodes that
//!                                          failed, different seeds of these, ends; with `remember` failed seeds are not tried again

mod book;
mod books;
mod calls;
mod listing;
mod random;
mod raw;
mod register;
mod roles;
mod scripts;
mod search;
mod world;

use std::io::{Read, Write};

/// Steps of the searches of one book after which the model gives up.
const LIMIT: u64 = 2_000_000;

fn input() -> Vec<u8> {
    let mut bytes = Vec::new();
    std::io::stdin().read_to_end(&mut bytes).expect("standard input can be read");
    bytes
}

fn meter() -> search::Meter {
    search::Meter { left: LIMIT, peak: 0 }
}

fn run_calls(numbered: bool) {
    let script = input();
    let mut out = std::io::BufWriter::new(std::io::stdout());
    let mut session = calls::Session::new(LIMIT);
    let mut lines: Vec<&[u8]> = script.split(|&b| b == b'\n').collect();
    if lines.last().is_some_and(|l| l.is_empty()) {
        lines.pop();
    }
    for (i, line) in lines.iter().enumerate() {
        let answer = match session.answer(line, i + 1) {
            Ok(texts) => texts,
            Err(_) => vec!["the model gave up".to_string()],
        };
        for text in answer {
            if numbered {
                write!(out, "{} ", i + 1).unwrap();
            }
            writeln!(out, "{text}").unwrap();
        }
    }
    out.flush().unwrap();
}

fn relation_line(hex: &str, first: &str, second: &str) -> String {
    let bytes = calls::bytes(hex.as_bytes()).expect("the book is given in hex digits");
    let entry = |text: &str| text.parse().expect("an entry is a number");
    match register::relation(&bytes, entry(first), entry(second), &mut meter()) {
        Ok(answer) => answer.to_string(),
        Err(_) => "the model gave up".to_string(),
    }
}

fn count(entry: usize, steps: u64, remember: bool) {
    let book = book::read(&input()).expect("a good book");
    let plan = search::Plan::new(&book, &roles::Hierarchy::of_book(&book)).expect("a book that opens");
    let mut tally = search::Tally { remember, ..Default::default() };
    let seed = search::Label::EMPTY.with(entry, true);
    let how = match plan.counted(seed, 64, &mut search::Meter { left: steps, peak: 0 }, Some(&mut tally)) {
        Ok(Some(_)) => "stands",
        Ok(None) => "fails",
        Err(search::Halt::Full) => "full",
        Err(search::Halt::Limit) => "stopped",
    };
    println!("{how} {} {} {} {} {}", tally.made, tally.seeds.len(), tally.failed, tally.failed_seeds.len(), tally.ends);
}

fn batch(seed: u64, first: u64, count: u64, script: &str, kinds: &str) {
    let mut text = Vec::new();
    let mut table = String::new();
    for index in first..first + count {
        match scripts::script(seed, index, LIMIT) {
            Ok(made) => {
                table += &format!("{index} {} {} {}\n", made.lines.len(), made.width, made.kind);
                for line in made.lines {
                    text.extend(line);
                    text.push(b'\n');
                }
            }
            Err(kind) => table += &format!("{index} skipped 0 {kind}\n"),
        }
    }
    std::fs::write(script, text).expect("the script can be written");
    std::fs::write(kinds, table).expect("the kinds can be written");
}

fn run() {
    let args: Vec<String> = std::env::args().skip(1).collect();
    let args: Vec<&str> = args.iter().map(String::as_str).collect();
    let whole = |text: &str| text.parse::<u64>().expect("a number");
    match args[..] {
        ["calls"] => run_calls(false),
        ["calls", "-n"] => run_calls(true),
        ["classes"] => print!("{}", listing::classes_text(&input(), &mut meter()).unwrap_or("the model gave up\n".into())),
        ["c", hex, first, second] => println!("{}", relation_line(hex, first, second)),
        ["host"] => {
            for line in String::from_utf8(input()).expect("text").lines() {
                let items: Vec<&str> = line.split(' ').collect();
                println!("{}", relation_line(items[0], items[1], items[2]));
            }
        }
        ["gen", seed, index] => match scripts::script(whole(seed), whole(index), LIMIT) {
            Ok(made) => {
                for line in made.lines {
                    std::io::stdout().write_all(&line).unwrap();
                    println!();
                }
            }
            Err(kind) => println!("skipped {kind}"),
        },
        ["batch", seed, first, count, script, kinds] => batch(whole(seed), whole(first), whole(count), script, kinds),
        ["count", entry, steps] => count(whole(entry) as usize, whole(steps), false),
        ["count", entry, steps, "remember"] => count(whole(entry) as usize, whole(steps), true),
        _ => {
            eprintln!(
                "usage: model calls [-n] | classes | c HEXBOOK E1 E2 | host | gen SEED INDEX | batch SEED FIRST COUNT SCRIPT KINDS | \
                 count ENTRY STEPS [remember]"
            );
            std::process::exit(2);
        }
    }
}

fn main() {
    // A search goes as deep as its nodes wait for each other.
    let thread = std::thread::Builder::new().stack_size(4 << 30).spawn(run).expect("a thread");
    if thread.join().is_err() {
        std::process::exit(101);
    }
}
