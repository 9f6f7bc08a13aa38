//! The calls that the programs of vectors make, and what they print of them.
//!
//! # Format
//! `second calls PART` prints a call a line: the standard input of the program
//! `vectors_PART`. `second vectors PART` prints the same lines, each followed by what
//! the call answered: what the program has to print. Below a bar, which is not
//! printed, stands between the two. PART is `values` (sections `crc`, `packing`, `whole`
//! and most of `examples`), `links` (those of the links), `gate`, `display` or `records`
//! (all others).
//!
//! A line is words with one space between them. Numbers are decimal. BYTES are
//! upper-case hex without spaces; `-` stands for none, `runN` for N bytes of
//! which byte k is (7k + 3) modulo 256, `sameN` for N bytes 05, `frame` for the
//! frame that the last successful `write`, `write-error` or `display-write` line left, in
//! part `records` for the bytes of the last `keep` line. Where a frame or data would be
//! printed and has more than 64 bytes, `long` is printed instead.
//!
//! Lent memory (a writer's output, a receiver's store) is filled beforehand:
//! place k holds k modulo 251. A MIX is taken over all of it: from 0, for each
//! byte in order, mix = (31 mix + byte) modulo 2^32.
//!
//! Check values (section `crc`)
//!     crc16 BYTES | VALUE                 in hex, high byte first
//!     crc32 BYTES | VALUE
//!     crc16-from START BYTES | VALUE      by the host's call, from the value START
//!
//! Packing (section `packing`), in memory that is long enough
//!     pack BYTES | BYTES
//!     unpack BYTES | BYTES                or `refused 13`
//!
//! 01's examples (section `examples`), number N
//!     example N sum BYTES | VALUE         decimal; the next three in hex
//!     example N unpack BYTES | BYTES
//!     example N hide BYTES | BYTES        as between expansion's marks
//!     example N dle-frame SEQUENCE NODE BYTES | BYTES
//!     example N CALL | ANSWER             a `crc16` or `element` line
//!
//! Links (sections `pcs`, `mdu`, `dle`, `expansion`). NUMBERS are what the writer
//! is called with before its bytes, in its order: seven for PCS, of which the last is 1
//! with CRC and 0 without, the address for MDU, sequence and node for DLE, four for
//! expansion. `write-error` has DLE's sequence, node and error byte. R is how many
//! bytes are lent.
//!     write NUMBERS BYTES room R | ANSWER memory MIX
//!     write-error NUMBERS room R | ANSWER memory MIX
//!         ANSWER is `refused N`, or `length L frame BYTES`
//!     fresh R                             a fresh state and a filled store of R bytes
//!     store BYTES                         a store of these bytes, the state stays
//!     content | BYTES                     all of the store, however long
//!     state STATE                         puts these numbers into the state, the store stays
//!         STATE is mode, count, open, noise; for MDU mode, count, length, open, noise
//!     receive BYTES | used U EVENT state STATE store MIX
//!         EVENT is `nothing`, `refused N` or `message NUMBERS L BYTES` with the data
//!         length and the data as the accessor gives it. For DLE two more numbers
//!         stand behind the node: 1 and the error byte, or 0 and 0.
//!         Only the bytes printed are handed over, whatever the call uses of them;
//!         what it doesn't use is not handed over again unless a later line prints it.
//!     part R L | gives N                  the accessor with a store of R bytes and a
//!                                         message of data length L gives N bytes
//!
//! Gate exchange (section `gate`). ANSWER is `nothing`, `send ID REPEAT`, `done`,
//! `given-up` or `refused N`; STATE is the asking end's mode (below 65,536), latest
//! id, repeat and time of sending.
//!     ask fresh
//!     ask state STATE
//!     ask start NOW | ANSWER state STATE
//!     ask tick NOW | ANSWER state STATE
//!     ask arrival ID TYPE NOW | ANSWER state STATE
//!     ask cycle N | last ID state STATE   N times a start and its acknowledgement, all
//!                                         at time 0; ID is the last one sent
//!     respond fresh
//!     respond state H ID                  H is 1 if one was handed out, ID the last one
//!     respond WHO ID TYPE REPEAT ADDRESS | REPLY handed H last L
//!         an accepted frame at WHO (`board` or `head`); H is 1 if it is handed out
//!         REPLY is `reply ID TYPE REPEAT ADDRESS` or `reply none`; L is the id handed
//!         out last, `none` if there is none
//!     respond-refused WHO N BYTES | REPLY handed H last L
//!         a frame refused with N, BYTES its store; N is 0 where nothing was told
//!     chain down A | gives B here H       H is 1 if that means here
//!     chain up A | gives B                both: or `refused 15`
//!
//! Queue display (section `display`). R is how many bytes are lent for a frame or as a
//! store, A how many for an answer, at most 4,096 each: a line that asks for more is
//! answered by nothing. All are filled anew for each line.
//!     display-write VALUE RECEIVER SENDER NUMBER room R | ANSWER memory MIX
//!         ANSWER is `refused N`, or `length L frame BYTES`
//!     display-read BYTES room R | ANSWER store MIX
//!         ANSWER is `refused N`, or `order RECEIVER SENDER NUMBER VALUE`
//!     display-shown VALUE | BYTES         the three places, from the left
//!     display fresh OWN                   a fresh display; without such a line one with
//!                                         own address 0
//!     display take BYTES room R answer A | REPLY shown BYTES store MIX memory MIX
//!         REPLY is `nothing`, `length L frame BYTES` or `refused N`; the display shows
//!         these three places afterwards
//!
//! Records (section `records`). SIGN is `unsigned` or `signed`; the lent run of
//! fares has R places (at most 1,100), place k holding k + 1 beforehand; PLACES are
//! all of them afterwards (none printed if R is 0).
//!     keep BYTES                                     for the word `frame`
//!     copy SIGN BYTES room R | ANSWER places PLACES  ANSWER `count C` or `refused N`
//!     element SIGN BYTES K | ANSWER                  ANSWER `value V` or `refused N`
//!     make SIGN TYPE ADDRESS room R fares N FARES | ANSWER memory MIX
//!         N fares (at most 1,100), of which the first are given and the others are 0
//!         ANSWER is `refused N` or `length L record BYTES`
//!
//! Record views (section `views`)
//!     view BYTES | ANSWER                            ANSWER `type T count C` or `refused 16`
//!     view-element SIGN BYTES T C K | ANSWER         a view with these fields, element K
//!
//! The host's call on a whole frame (section `whole`)
//!     whole LINK BYTES room R | answer A store MIX
//!         with a filled store of R bytes; A is the 64-bit answer
//!
//! The last line is `end`.

mod boards;
mod display;
mod dle;
mod expansion;
mod gate;
mod generated;
mod link;
mod mdu;
mod pcs;
mod records;
mod text;
mod values;

use display::display_section;
use gate::gate_section;
use records::{records_section, views_section};
use text::{section, Lines};
pub use generated::generate;
use values::{crc_section, examples_section, packing_section};

/// One of the programs.
#[derive(Clone, Copy, PartialEq)]
pub enum Part {
    Values,
    Links,
    Gate,
    Display,
    Records,
}

impl Part {
    #[cfg(test)]
    const ALL: [Part; 5] = [Part::Values, Part::Links, Part::Gate, Part::Display, Part::Records];

    pub fn named(name: &str) -> Option<Part> {
        match name {
            "values" => Some(Part::Values),
            "links" => Some(Part::Links),
            "gate" => Some(Part::Gate),
            "display" => Some(Part::Display),
            "records" => Some(Part::Records),
            _ => None,
        }
    }
}

/// The sections of the links, each with the lines of its whole frames.
fn link_sections() -> [(Lines, Lines); 4] {
    [pcs::section(), mdu::section(), dle::section(), expansion::section()]
}

fn values_lines() -> Lines {
    let mut lines = crc_section();
    lines.append(packing_section());
    lines.append(examples_section(Part::Values));
    lines.append(section("whole"));
    for (_, whole) in link_sections() {
        lines.append(whole);
    }
    lines
}

fn links_lines() -> Lines {
    let mut lines = Lines::default();
    for (link, _) in link_sections() {
        lines.append(link);
    }
    lines
}

fn records_lines() -> Lines {
    let mut lines = examples_section(Part::Records);
    lines.append(records_section());
    lines.append(views_section());
    lines
}

fn lines(part: Part) -> Lines {
    let mut lines = match part {
        Part::Values => values_lines(),
        Part::Links => links_lines(),
        Part::Gate => gate_section(),
        Part::Display => display_section(),
        Part::Records => records_lines(),
    };
    lines.add("end", "");
    lines
}

/// The program's standard input.
pub fn calls(part: Part) -> String {
    lines(part).calls
}

/// What the program has to print.
pub fn vectors(part: Part) -> String {
    lines(part).answered
}

#[cfg(test)]
mod tests {
    use super::*;

    #[test]
    fn examples() {
        let expected = [
            "118", "96", "105", "123", "128", "AAD751D1800000", "D4C1", "988F", "10021010030264961003", "FF02FF01FF00",
            "38500", "-27036",
        ];
        let text = examples_section(Part::Values).answered + &examples_section(Part::Records).answered;
        let examples = text.lines().filter(|line| line.starts_with("example "));
        let values: Vec<&str> = examples.filter_map(|line| line.split(' ').last()).collect();
        assert_eq!(values, expected);
    }

    #[test]
    fn each_line_begins_with_its_call() {
        for part in Part::ALL {
            let (calls, text) = (calls(part), vectors(part));
            assert!(calls.len() <= generated::INPUT);
            assert_eq!(calls.lines().count(), text.lines().count());
            assert!(calls.lines().zip(text.lines()).all(|(call, line)| line.starts_with(call)));
        }
    }

    #[test]
    fn every_number_of_the_table_appears() {
        let text = Part::ALL.map(vectors).concat();
        for number in 1..=26 {
            let word = format!("refused {number}");
            let seen = text.lines().any(|line| line.contains(&format!("{word} ")) || line.ends_with(&word));
            // 11 is withdrawn; of those of the requests, 21 is built.
            assert_eq!(seen, (number <= 18 && number != 11) || number == 21, "{word}");
        }
    }
}
