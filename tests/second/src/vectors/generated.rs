//! Generated lines for the programs of vectors: the 16-bit check over blocks, receivers
//! with any state and store on cut pieces, records, both ends of the gate exchange, and
//! the display.
//! Sequences are made from a seed, each of them beginning with what it sets, and are laid
//! into files that a program can read whole: `PART-NAME-NNNNN.in` are the calls, `.out`
//! what the program of that part has to print.

mod blocks;
mod display;
mod exchange;
mod receivers;
mod records;
mod tally;

use super::link::Section;
use super::text::{section, Lines};
use crate::dle::Dle;
use crate::expansion::Expansion;
use crate::gen::{Wire, Xorshift};
use crate::mdu::Mdu;
use crate::pcs::Pcs;
use crate::stream::Link;
use std::fs;
use std::io;
use std::path::Path;
pub use tally::Tally;

/// What a program reads of its standard input at most.
pub const INPUT: usize = 65_536;

/// The files of one part's section.
struct Files<'a> {
    folder: &'a Path,
    part: &'a str,
    name: &'a str,
    made: usize,
    lines: Lines,
    tally: &'a mut Tally,
}

impl<'a> Files<'a> {
    fn new(folder: &'a Path, part: &'a str, name: &'a str, tally: &'a mut Tally) -> Self {
        Files { folder, part, name, made: 0, lines: section(name), tally }
    }

    /// A sequence goes into one file.
    fn add(&mut self, sequence: Lines) -> io::Result<()> {
        self.tally.count(self.name, &sequence);
        if self.lines.calls.len() + sequence.calls.len() > INPUT {
            self.write()?;
        }
        self.lines.append(sequence);
        Ok(())
    }

    fn write(&mut self) -> io::Result<()> {
        let lines = std::mem::replace(&mut self.lines, section(self.name));
        assert!(lines.calls.len() <= INPUT, "a sequence is too long");
        let file = format!("{}-{}-{:05}", self.part, self.name, self.made);
        fs::write(self.folder.join(format!("{file}.in")), lines.calls)?;
        fs::write(self.folder.join(format!("{file}.out")), lines.answered)?;
        self.made += 1;
        Ok(())
    }
}

fn links<L: Link>(files: &mut Files, random: &mut Xorshift, wire: Wire, count: usize) -> io::Result<()> {
    let mut link = Section::new(files.name, wire == Wire::Mdu, &|_, _, _| Err(3));
    for _ in 0..count {
        link.lines = Lines::default();
        receivers::sequence::<L>(random, wire, &mut link);
        files.add(std::mem::take(&mut link.lines))?;
    }
    files.write()
}

fn others(files: &mut Files, random: &mut Xorshift, count: usize, sequence: fn(&mut Xorshift) -> Lines) -> io::Result<()> {
    for _ in 0..count {
        files.add(sequence(random))?;
    }
    files.write()
}

/// Writes the files of `count` sequences of each sort into `folder`.
pub fn generate(folder: &Path, seed: u64, count: usize) -> io::Result<Tally> {
    fs::create_dir_all(folder)?;
    let mut random = Xorshift::new(seed);
    let mut tally = Tally::default();
    links::<Pcs>(&mut Files::new(folder, "links", "pcs", &mut tally), &mut random, Wire::Pcs, count)?;
    links::<Mdu>(&mut Files::new(folder, "links", "mdu", &mut tally), &mut random, Wire::Mdu, count)?;
    links::<Dle>(&mut Files::new(folder, "links", "dle", &mut tally), &mut random, Wire::Dle, count)?;
    links::<Expansion>(&mut Files::new(folder, "links", "expansion", &mut tally), &mut random, Wire::Expansion, count)?;
    let sorts: [(&str, &str, fn(&mut Xorshift) -> Lines); 8] = [
        ("values", "crc", blocks::carried),
        ("records", "reading", records::read),
        ("records", "making", records::made),
        ("gate", "asking", exchange::asking),
        ("gate", "responding", exchange::responding),
        ("gate", "chain", exchange::chain),
        ("display", "orders", display::orders),
        ("display", "taking", display::taking),
    ];
    for (part, name, sequence) in sorts {
        others(&mut Files::new(folder, part, name, &mut tally), &mut random, count, sequence)?;
    }
    Ok(tally)
}

#[cfg(test)]
mod tests {
    use super::*;

    fn folder(name: &str) -> std::path::PathBuf {
        std::env::temp_dir().join(format!("second-{}-{name}", std::process::id()))
    }

    #[test]
    fn every_answer_is_seen_and_no_other() {
        let folder = folder("answers");
        for seed in [0, 1, 42] {
            let tally = generate(&folder, seed, 500).unwrap();
            assert!(tally.missing().is_empty(), "seed {seed}: {:?}", tally.missing());
        }
        fs::remove_dir_all(&folder).unwrap();
    }

    #[test]
    fn files_fit_and_repeat() {
        let (one, two) = (folder("one"), folder("two"));
        generate(&one, 7, 100).unwrap();
        generate(&two, 7, 100).unwrap();
        let mut files = 0;
        for entry in fs::read_dir(&one).unwrap() {
            let path = entry.unwrap().path();
            let text = fs::read_to_string(&path).unwrap();
            assert_eq!(text, fs::read_to_string(two.join(path.file_name().unwrap())).unwrap());
            if path.extension().unwrap() == "in" {
                assert!(text.len() <= INPUT);
                let answered = fs::read_to_string(path.with_extension("out")).unwrap();
                assert_eq!(text.lines().count(), answered.lines().count());
                assert!(text.lines().zip(answered.lines()).all(|(call, line)| line.starts_with(call)));
                // A program takes no more than 4,096 bytes of a word.
                let words = text.split([' ', '\n']);
                assert!(words.filter(|word| word.bytes().all(|b| b.is_ascii_hexdigit())).all(|word| word.len() <= 8192));
            }
            files += 1;
        }
        assert!(files >= 20);
        fs::remove_dir_all(&one).unwrap();
        fs::remove_dir_all(&two).unwrap();
    }
}
