//! Scripts of calls made at random, one for each book. The model runs each line as it is made, so that a line can be lent just
//! the nodes that it needs.

use crate::book::{read, Denial};
use crate::books::any_book;
use crate::calls::Session;
use crate::random::Random;
use crate::register::Stop;
use crate::roles::Hierarchy;
use crate::search::Plan;
use crate::world::{all, has, words_needed, World};

pub struct Script {
    pub kind: String,
    /// The working entries of the book under closure rows; 0 where it does not open.
    pub width: usize,
    pub lines: Vec<Vec<u8>>,
}

fn hex(bytes: &[u8]) -> String {
    bytes.iter().map(|b| format!("{b:02x}")).collect()
}

/// The script of one book; none if the model gives up on it, with the kind of the book.
pub fn script(seed: u64, index: u64, limit: u64) -> Result<Script, String> {
    let mut random = Random::new(seed, index);
    let (bytes, kind) = any_book(&mut random);
    let mut maker = Maker { random, session: Session::new(limit), lines: Vec::new() };
    match maker.make(&bytes, &kind) {
        Ok(()) => Ok(Script { kind, width: width(&bytes).unwrap_or(0), lines: maker.lines }),
        Err(GaveUp) => Err(kind),
    }
}

fn width(bytes: &[u8]) -> Result<usize, Denial> {
    let book = read(bytes)?;
    Ok(Plan::new(&book, &Hierarchy::of_book(&book))?.width())
}

struct GaveUp;

struct Maker {
    random: Random,
    session: Session,
    lines: Vec<Vec<u8>>,
}

impl Maker {
    /// Puts a line into the script and answers it.
    fn line(&mut self, text: impl Into<Vec<u8>>) -> Result<(), GaveUp> {
        let text = text.into();
        self.lines.push(text.clone());
        match self.session.answer(&text, self.lines.len()) {
            Err(Stop::Limit) => Err(GaveUp),
            _ => Ok(()),
        }
    }

    fn make(&mut self, bytes: &[u8], kind: &str) -> Result<(), GaveUp> {
        if self.random.chance(1) {
            // Mostly answered on the book before, or on none.
            self.line("read")?;
        }
        self.line(format!("book {}", hex(bytes)))?;
        let good = self.session.book().is_some();
        self.line("read")?;
        if good || self.random.chance(30) {
            self.line("parts")?;
        }
        if good && self.random.chance(60) {
            self.all_of_it()?;
        }
        let calls = if good { self.random.between(8, 24) } else { self.random.between(2, 8) };
        for _ in 0..calls {
            self.any_call()?;
        }
        if kind == "shift" {
            // Worlds of more than 64 individuals, or nearly.
            for _ in 0..4 {
                let ((a, b), words) = (self.two_classes(), self.random.pick(&[0, 65, 100, 4161]));
                self.line(format!("show {a} {b} 4096 {words}"))?;
            }
        }
        if kind == "edge" {
            let other = self.entry();
            self.line("c 0 0")?;
            self.line(format!("c 0 {other}"))?;
        }
        if kind == "edge" || self.random.chance(if good { 60 } else { 25 }) {
            self.line("classes")?;
        }
        Ok(())
    }

    fn entry(&mut self) -> usize {
        let count = self.session.book().map_or(3, |b| b.concepts.len());
        match self.random.below(40) {
            0 => count,
            1 => count + 1 + self.random.below(300),
            2 => self.random.pick(&[usize::MAX, 1 << 32, (1 << 63) - 1, 64, 65536]),
            _ => self.random.below(count),
        }
    }

    fn role(&mut self) -> usize {
        let count = self.session.book().map_or(3, |b| b.roles.len());
        match self.random.below(12) {
            0 => count,
            1 => count + 1,
            2 => self.random.pick(&[64, 63, 65, 255, 1 << 32, usize::MAX]),
            _ => self.random.below(count),
        }
    }

    /// Two classes, now and then one twice.
    fn two_classes(&mut self) -> (usize, usize) {
        let (a, b) = (self.class(), self.class());
        if self.random.chance(8) { (a, a) } else { (a, b) }
    }

    fn class(&mut self) -> usize {
        let count = self.session.class_count();
        match self.random.below(30) {
            0 => count + 1,
            1 => self.random.pick(&[25, 24, 1000, usize::MAX]),
            2..=4 => 0,
            _ => self.random.below(count + 1),
        }
    }

    /// How many nodes to lend to a call: few, just enough or many.
    fn nodes(&mut self, line: impl Fn(usize) -> String) -> usize {
        if self.random.chance(2) {
            return self.random.pick(&[1 << 16, 100_000, 1 << 20]);
        }
        if self.random.below(2000) == 0 {
            return 1 << 24;
        }
        let mut trial = self.session.clone();
        trial.meter.left = trial.meter.left.min(60_000);
        trial.meter.peak = 0;
        let needed = match trial.answer(line(4096).as_bytes(), 1) {
            Err(_) => return self.random.below(6),
            Ok(_) => trial.meter.peak,
        };
        match self.random.below(12) {
            0..=3 => needed,
            4 | 5 => needed.saturating_sub(1),
            6 => self.random.below(needed + 1),
            7 => needed + 1,
            8 => self.random.below(4),
            9 => 64,
            10 => 200,
            _ => 4096,
        }
    }

    fn hierarchy(&mut self, universal: bool) -> &'static str {
        if universal && self.random.chance(50) {
            self.random.pick(&["closed+universal", "told+universal"])
        } else {
            self.random.pick(&["closed", "told"])
        }
    }

    fn file(&mut self, entry: usize) -> Result<(), GaveUp> {
        let n = self.nodes(|n| format!("file {entry} {n}"));
        self.line(format!("file {entry} {n}"))
    }

    fn ask(&mut self) -> Result<(), GaveUp> {
        let (a, b) = self.two_classes();
        let n = self.nodes(|n| format!("ask {a} {b} {n}"));
        self.line(format!("ask {a} {b} {n}"))
    }

    fn show(&mut self) -> Result<(), GaveUp> {
        let (a, b) = self.two_classes();
        let n = self.nodes(|n| format!("show {a} {b} {n} 5000"));
        let roles = self.session.book().map_or(0, |b| b.roles.len());
        let words = match self.random.below(10) {
            0 => self.random.below(70),
            1 | 2 => {
                let m = self.random.between(1, 4);
                (words_needed(roles, m) + self.random.below(3)).saturating_sub(1)
            }
            3 => words_needed(roles, 64),
            _ => 4161,
        };
        self.line(format!("show {a} {b} {n} {words}"))
    }

    /// All entries filed, and the classes asked and shown.
    fn all_of_it(&mut self) -> Result<(), GaveUp> {
        if self.random.chance(50) {
            let h = self.hierarchy(false);
            self.line(format!("open {h}"))?;
        }
        let count = self.session.book().map_or(0, |b| b.concepts.len());
        let mut order: Vec<usize> = (0..count).collect();
        if self.random.chance(50) {
            for i in (1..count).rev() {
                let j = self.random.below(i + 1);
                order.swap(i, j);
            }
        }
        let lent = self.random.pick(&[None, Some(64), Some(200), Some(4096)]);
        for entry in order {
            match lent {
                None => self.file(entry)?,
                Some(n) => self.line(format!("file {entry} {n}"))?,
            }
        }
        for _ in 0..self.random.below(8) {
            self.ask()?;
            self.show()?;
            if self.random.chance(60) {
                self.look()?;
            }
        }
        Ok(())
    }

    /// Judges and keeps in the world that there is.
    fn look(&mut self) -> Result<(), GaveUp> {
        for _ in 0..self.random.between(1, 4) {
            let entry = self.entry();
            self.line(format!("judge {entry}"))?;
        }
        let h = self.hierarchy(false);
        self.line(format!("keeps {h}"))
    }

    /// A world at random, mostly one that keeps the inclusions and transitivity, or a changed one of those there were.
    fn sheet(&mut self) -> Result<(), GaveUp> {
        let roles = self.session.book().map_or(1, |b| b.roles.len());
        let size = match self.random.below(20) {
            0 => 64,
            1 => self.random.between(1, 64),
            _ => self.random.between(1, 6),
        };
        let mut world = match self.session.world() {
            Some(world) if self.random.chance(50) => world.clone(),
            _ => self.world(roles, size),
        };
        if self.random.chance(40) {
            let flipped = 1 << self.random.below(world.size);
            if self.random.chance(50) || world.rows.is_empty() {
                let n = self.random.below(64);
                world.names[n] ^= flipped;
            } else {
                let (r, x) = (self.random.below(world.rows.len()), self.random.below(world.size));
                world.rows[r][x] ^= flipped;
            }
        }
        let needed = words_needed(roles, world.size);
        let mut words = world.to_sheet();
        let mut length = needed;
        match self.random.below(14) {
            0 => length = needed + self.random.below(5000),
            1 => length = needed - 1,
            2 => {
                length = self.random.below(needed);
                if self.random.chance(50) {
                    words.push((1 + self.random.below(2), u64::MAX));
                }
            }
            3 => words[0].1 = self.random.pick(&[0, 65, 64, u64::MAX, 1 << 32]),
            4 | 5 if world.size < 64 => {
                let i = self.random.between(1, needed - 1);
                let bit = self.random.between(world.size, 63);
                words.push((i, 1 << bit));
                if self.random.chance(50) {
                    words.push((self.random.between(1, needed - 1), u64::MAX));
                }
            }
            6 => {
                length = needed + 3;
                words.push((needed + self.random.below(3), self.random.next()));
            }
            7 => {
                let i = self.random.below(needed);
                words.push((i, self.random.next() & all(world.size)));
            }
            8 => length = self.random.pick(&[0, 1, 64, 65, 66, 4161, 4162, 1 << 20, usize::MAX]),
            _ => {}
        }
        // Most lines are no bad ones: an index has to lie on the sheet.
        if !self.random.chance(2) {
            words.retain(|&(i, _)| i < length);
        }
        if self.random.chance(20) {
            words.reverse();
        }
        let mut text = format!("sheet {length}");
        for (i, word) in words {
            if self.random.chance(2) {
                text += &format!(" {i}:{word:016x}");
            } else {
                text += &format!(" {i}:{word:x}");
            }
        }
        self.line(text)
    }

    fn world(&mut self, roles: usize, size: usize) -> World {
        let thin = self.random.below(3);
        let word = |random: &mut Random| {
            let mut word = random.next();
            for _ in 0..thin {
                word &= random.next();
            }
            word & all(size)
        };
        let mut names = vec![0; 64];
        for n in 0..64 {
            if n < 8 || self.random.chance(20) {
                names[n] = word(&mut self.random);
            }
        }
        let mut rows = vec![vec![0; size]; roles];
        for row in rows.iter_mut().flatten() {
            if self.random.chance(60) {
                *row = word(&mut self.random);
            }
        }
        let hierarchy = self.session.book().map(Hierarchy::of_book);
        if let Some(hierarchy) = hierarchy.filter(|_| self.random.chance(80)) {
            let chains = self.random.chance(65);
            close(&mut rows, &hierarchy, size, chains);
        }
        World { size, names, rows }
    }

    fn any_call(&mut self) -> Result<(), GaveUp> {
        match self.random.below(100) {
            0..=2 => self.line("read"),
            3..=4 => self.line("parts"),
            5..=14 => {
                let (h, r, s) = (self.hierarchy(true), self.role(), self.role());
                self.line(format!("below {h} {r} {s}"))
            }
            15..=18 => {
                let (h, r) = (self.hierarchy(true), self.role());
                self.line(format!("transitive {h} {r}"))
            }
            19..=32 => {
                self.sheet()?;
                self.look()
            }
            33..=38 => self.look(),
            39..=42 => {
                let h = self.hierarchy(false);
                self.line(format!("open {h}"))
            }
            43..=58 => {
                let entry = self.entry();
                self.file(entry)
            }
            59..=68 => self.ask(),
            69..=78 => {
                self.show()?;
                if self.random.chance(50) { self.look() } else { Ok(()) }
            }
            79..=86 => {
                let (a, b) = (self.entry(), self.entry());
                self.line(format!("c {a} {b}"))
            }
            87..=95 => {
                let bad = self.bad();
                self.line(bad)
            }
            96..=98 => self.spaced(),
            _ => {
                let again = self.lines.iter().rfind(|l| l.starts_with(b"book")).cloned();
                // The same book afresh: nothing is left of its register and its world.
                self.line(again.unwrap_or_else(|| b"read".to_vec()))
            }
        }
    }

    /// A line that is no call.
    fn bad(&mut self) -> Vec<u8> {
        const LINES: [&str; 71] = [
            "", "weigh 2", "book 0", "book 0g", "book 0A", "book 00 00", "book 0x00", "books", "Read", "read x", "read 1",
            "parts 0", "below closed 0", "below closed 0 0 0", "below open 0 0", "below universal 0 0", "below Closed 0 0",
            "below closed 0 -1", "transitive closed", "transitive told 0 0", "transitive 0", "transitive told x",
            "transitive told 0x1", "sheet", "sheet x", "sheet 2 0", "sheet 2 0:", "sheet 2 :1", "sheet 2 2:1", "sheet 0 0:1",
            "sheet 2 0:G", "sheet 2 0:A", "sheet 2 0:+1", "sheet 2 0:00000000000000001", "sheet 2 0:1:1", "sheet 2 0=1",
            "sheet 2 -1:1", "judge", "judge x", "judge 0 0", "judge -1", "judge 1.0", "keeps", "keeps closed+universal",
            "keeps universal", "keeps closed told", "open", "open closed+universal", "open closed 1", "open x", "file",
            "file 0", "file 0 1 1", "file x 1", "file 0 x", "file 0 16777217", "ask 0 0", "ask 0 0 16777217", "ask 0 0 0 0",
            "ask 0 0 99999999999", "show 0 0 1", "show 0 0 16777217 70", "show 0 1 1 x", "c 0", "c 0 0 0", "classes 0",
            "judge\t0", "judge 18446744073709551616", "sheet 18446744073709551616 0:1", "\u{feff}read", "read\0",
        ];
        if self.random.chance(3) {
            return b"read\xff".to_vec();
        }
        self.random.pick(&LINES).as_bytes().to_vec()
    }

    /// A call with white space at its ends, more spaces between its items, or zeros before its numbers.
    fn spaced(&mut self) -> Result<(), GaveUp> {
        let before = self.random.pick(&["", " ", "  ", "\t", " \t ", "\u{b}", "\u{a0}"]);
        let after = self.random.pick(&["", " ", "   ", "\t", "\r", " \t\r", "\u{c}", "\u{85}", "\u{2003}"]);
        let between = self.random.pick(&[" ", "  ", "   "]);
        let zeros = self.random.pick(&["", "", "0", "000000000000000000000000"]);
        let entry = self.entry();
        let call = match self.random.below(6) {
            0 => "read".to_string(),
            1 => format!("keeps{between}told"),
            2 => format!("judge{between}{zeros}{entry}"),
            3 => format!("below{between}told 0{between}{zeros}0"),
            4 => format!("sheet{between}{zeros}4161 {zeros}0:1{between}66:00000001"),
            _ => format!("file {zeros}{entry}{between}3"),
        };
        self.line(format!("{before}{call}{after}"))
    }
}

/// The least rows above these that keep the inclusions, and transitivity if asked for.
fn close(rows: &mut [Vec<u64>], hierarchy: &Hierarchy, size: usize, chains: bool) {
    loop {
        let before = rows.to_vec();
        for r in 0..rows.len() {
            for s in 0..rows.len() {
                if hierarchy.below(r, s) {
                    for x in 0..size {
                        rows[s][x] |= rows[r][x];
                    }
                }
            }
            if chains && hierarchy.transitive(r) {
                for y in 0..size {
                    for x in 0..size {
                        if has(rows[r][x], y) {
                            rows[r][x] |= rows[r][y];
                        }
                    }
                }
            }
        }
        if before == rows {
            return;
        }
    }
}
