//! A sample of random calls as text, with what each must print, for a program of the port's own language: the notation of
//! crates/calls. Answers are the model's, which are compared with filter.rs's before they are written.
use crate::compare::{self, Terms};
use crate::make::{self, Rng, damage};
use crate::model::{self, Answer, Call, LAST_REFUSAL, Picks};
use crate::pack::*;
use std::fmt::Write;
use std::{fs, io, path::Path};

/// What the program has room for: bytes of text, of a pack and of the output; list entries; bytes of scratch.
const TEXT_ROOM: usize = 262_144;
const PACK_ROOM: usize = 4096;
const LIST_ROOM: usize = 256;
const SCRATCH_ROOM: usize = 64;
/// Both packs of a case have at most so many bytes, so that many cases fit.
const SMALL: usize = 480;
/// What lent bytes and entries hold before a call.
const BEFORE: u8 = 0xA5;
const BEFORE_ENTRY: u32 = 0xA5A5_A5A5;

const NAMES: [&str; KINDS] = [
    "bits", "native", "fixed", "bytes", "bytes64", "views", "list-views", "list-views64", "runs", "struct", "union",
    "dictionary", "lists", "lists64",
];

/// A call that the program has room for.
pub struct Case {
    pub name: String,
    pub mask: Vec<u8>,
    pub journal: Vec<u8>,
    terms: Terms,
}

impl Case {
    /// The call with its buffers lent.
    pub fn lent<T>(&self, run: impl FnOnce(&Call) -> T) -> T {
        let Terms { list, scratch, output, stated, asked } = self.terms;
        let (list, scratch, output) = (vec![BEFORE_ENTRY; list], vec![BEFORE; scratch], vec![BEFORE; output]);
        run(&Call { mask: &self.mask, journal: &self.journal, stated, asked, list: &list, scratch: &scratch, output: &output })
    }
}

/// Case `i`: the root's kind is given by `i`, three of ten have damage to a pack or a mask that is none, and each of the four calls
/// comes in turn.
pub fn case(r: &mut Rng, i: u64) -> Case {
    loop {
        let kind = 1 + (i % KINDS as u64) as u32;
        let (mut mask, mut journal) = make::case(r);
        if Pack::read(&journal).unwrap().nodes[0].kind != kind {
            continue;
        }
        let damaged = i % 10 < 3;
        match i % 10 {
            0 if r.percent(10) => mask = journal.clone(),
            0 => mask = damage(r, &mask),
            1 | 2 => journal = damage(r, &journal),
            _ => {}
        }
        let mut terms = compare::terms(r, &mask, &journal)[(i / 10 % 4) as usize];
        // a number of the text has 32 bits
        terms.stated = terms.stated.map(|count| count % (1 << 32));
        let small = mask.len() + journal.len() <= SMALL && journal.len().max(mask.len()) <= PACK_ROOM;
        if small && terms.list <= LIST_ROOM && terms.scratch <= SCRATCH_ROOM && terms.output <= PACK_ROOM {
            let name = format!("{i}-{}{}", NAMES[kind as usize - 1], if damaged { "-damaged" } else { "" });
            return Case { name, mask, journal, terms };
        }
    }
}

/// The list as it grows, and what it covers.
#[derive(Default)]
pub struct Replay {
    given: String,
    expected: String,
    pub answers: [u64; LAST_REFUSAL + 1],
    pub lazy: [u64; 4],
    pub stored: [u64; 4],
    pub kinds: [u64; KINDS + 1],
}

impl Replay {
    pub fn add(&mut self, case: &Case) {
        let Terms { list, scratch, output, stated, asked } = case.terms;
        let numbers = [stated.is_some() as u64, stated.unwrap_or(0), asked as u64, list as u64, scratch as u64, output as u64];
        let numbers = numbers.map(|n| n.to_string()).join(" ");
        writeln!(self.given, "{}{} |{} | {numbers}", case.name, words(&case.mask), words(&case.journal)).unwrap();

        let end = case.lent(model::filter);
        self.answers[compare::number_of(&end.answer)] += 1;
        writeln!(self.expected, "{}: {}", case.name, compare::line(&end.answer)).unwrap();
        if let Answer::Done { route, bytes, .. } = end.answer {
            let (picks, journal) = (Picks::of(&case.mask), Pack::read(&case.journal).unwrap());
            self.expected += "  extract";
            for (i, byte) in end.output[..bytes as usize].iter().enumerate() {
                write!(self.expected, "{}{byte:02x}", if i % 4 == 0 { " " } else { "" }).unwrap();
            }
            self.expected += "\n";
            if asked {
                let entries: String = picks.entries().iter().map(|entry| format!(" {entry}")).collect();
                writeln!(self.expected, "  list{entries}").unwrap();
            }
            writeln!(self.expected, "  scratch zero {}", model::scratch_needed(&journal)).unwrap();
            let routes = if asked { &mut self.stored } else { &mut self.lazy };
            routes[route as usize] += 1;
            journal.nodes.iter().for_each(|n| self.kinds[n.kind as usize] += 1);
        }
        self.expected += "  rest kept\n";
    }

    /// Writes `stdin`, under a title, and `stdout`.
    pub fn write(&self, title: &str, folder: &Path) -> io::Result<()> {
        let given = title.to_owned() + &self.given;
        if given.len() > TEXT_ROOM {
            return Err(io::Error::other(format!("{} bytes of text, and there is room for {TEXT_ROOM}", given.len())));
        }
        fs::write(folder.join("stdin"), given)?;
        fs::write(folder.join("stdout"), &self.expected)
    }
}

/// Bytes as the program's words, each after a space: numbers of four bytes, then single bytes.
fn words(bytes: &[u8]) -> String {
    let fours = bytes.chunks_exact(4);
    let rest: String = fours.remainder().iter().map(|byte| format!(" b{byte}")).collect();
    fours.map(|four| format!(" {}", number(four, 0, 4))).collect::<String>() + &rest
}
