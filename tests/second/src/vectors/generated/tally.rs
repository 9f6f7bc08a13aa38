//! How often each call gave each answer, and which answers have to be seen.

use crate::vectors::text::Lines;
use std::collections::BTreeMap;

/// Each call with the answers that it can give: refusals by their number, others by
/// their word, the value of a check as `value`, and as `empty` where no bytes were
/// given, what is shown of a number as `places`. A PCS message is `plain` or `crc`, and
/// its 5 is `5-end` where an end mark gives it. All have to be seen, and no other may
/// be: PCS's 11 is withdrawn.
const ANSWERS: [(&str, &str); 29] = [
    ("crc16-from", "value empty"),
    ("pcs receive", "nothing plain crc 1 4 5 5-end 6 8 9 10 12 13"),
    ("mdu receive", "nothing message 1 8 9 10 12"),
    ("dle receive", "nothing message 1 4 5 6 7 10 12"),
    ("expansion receive", "nothing message 1 4 5 6 7 8 9 12"),
    ("pcs part", "gives empty"),
    ("mdu part", "gives empty"),
    ("dle part", "gives empty"),
    ("expansion part", "gives empty"),
    ("copy unsigned", "count 2 16 17"),
    ("copy signed", "count 2 16 17"),
    ("element unsigned", "value 16 17 18"),
    ("element signed", "value 16 17 18"),
    ("view", "type 16"),
    ("view-element unsigned", "value 16 17 18"),
    ("view-element signed", "value 16 17 18"),
    ("make unsigned", "length 2 3"),
    ("make signed", "length 2 3"),
    ("ask start", "send 12 14"),
    ("ask tick", "nothing send given-up 12"),
    ("ask arrival", "nothing send done given-up 12"),
    ("respond board", "silent reply handed"),
    ("respond head", "silent reply handed"),
    ("respond-refused", "silent reply"),
    ("chain", "gives 15"),
    ("display-write", "length 2 3"),
    ("display-read", "order 1 4 5 6 8 9 10 13 21"),
    ("display-shown", "places"),
    ("display take", "nothing length 1 2 3 4 5 6 8 9 10 13 21"),
];

/// Counts by call and answer.
#[derive(Default)]
pub struct Tally(BTreeMap<(String, String), u64>);

/// The call as the table names it; none for a line that only sets or shows something.
fn call_name(section: &str, words: &[&str]) -> Option<String> {
    match words {
        ["receive" | "part", ..] => Some(format!("{section} {}", words[0])),
        ["ask", "start" | "tick" | "arrival", ..] | ["respond", "board" | "head", ..] => {
            Some(format!("{} {}", words[0], words[1]))
        }
        ["copy" | "element" | "view-element" | "make", sign, ..] => Some(format!("{} {sign}", words[0])),
        ["display", "take", ..] => Some(String::from("display take")),
        ["view" | "respond-refused" | "chain" | "crc16-from" | "display-write" | "display-read" | "display-shown", ..] => {
            Some(words[0].to_string())
        }
        _ => None,
    }
}

/// Whether the last of the bytes that a receiver used is PCS's end mark.
fn ended(call: &[&str], used: &str) -> bool {
    let used: usize = used.parse().unwrap_or(0);
    used > 0 && call[1].get(2 * used - 2..2 * used) == Some("FE")
}

fn answer_name(section: &str, call: &[&str], words: &[&str]) -> String {
    let name = match words {
        _ if call[0] == "crc16-from" => if call[2] == "-" { "empty" } else { "value" },
        _ if call[0] == "display-shown" => "places",
        ["used", used, "refused", "5", ..] if section == "pcs" => if ended(call, used) { "5-end" } else { "5" },
        ["used", _, "message", _, _, _, _, _, _, crc, ..] if section == "pcs" => if *crc == "1" { "crc" } else { "plain" },
        ["used", _, "refused", number, ..] | ["refused", number, ..] => number,
        ["used", _, event, ..] => event,
        ["reply", "none", ..] => "silent",
        ["reply", _, _, _, _, "handed", "1", ..] => "handed",
        ["gives", "0"] => "empty",
        [word, ..] => word,
        [] => "",
    };
    name.to_string()
}

impl Tally {
    pub fn count(&mut self, section: &str, lines: &Lines) {
        for (call, line) in lines.calls.lines().zip(lines.answered.lines()) {
            let words: Vec<&str> = call.split(' ').collect();
            if let Some(name) = call_name(section, &words) {
                let answer: Vec<&str> = line[call.len()..].split_whitespace().collect();
                *self.0.entry((name, answer_name(section, &words, &answer))).or_default() += 1;
            }
        }
    }

    fn seen(&self, call: &str, answer: &str) -> u64 {
        self.0.get(&(call.to_string(), answer.to_string())).copied().unwrap_or(0)
    }

    /// One row a call.
    pub fn table(&self) -> String {
        let mut text = String::new();
        for (call, answers) in ANSWERS {
            text += call;
            for answer in answers.split(' ') {
                text += &format!("  {answer}: {}", self.seen(call, answer));
            }
            text += "\n";
        }
        text
    }

    /// Answers that a call can give and that were never seen, and the other way round.
    pub fn missing(&self) -> Vec<String> {
        let mut missing = Vec::new();
        for (call, answers) in ANSWERS {
            for answer in answers.split(' ') {
                if self.seen(call, answer) == 0 {
                    missing.push(format!("{call} never answered {answer}"));
                }
            }
        }
        for (call, answer) in self.0.keys() {
            let can = ANSWERS.iter().any(|(name, answers)| name == call && answers.split(' ').any(|word| word == answer));
            if !can {
                missing.push(format!("{call} can't answer {answer} and did"));
            }
        }
        missing
    }
}

#[cfg(test)]
mod tests {
    use super::*;

    #[test]
    fn counts_and_misses() {
        let mut lines = Lines::default();
        lines.add("fresh 258", "");
        lines.add("receive 10", "used 1 nothing state 1 0 1 0 store 5");
        lines.add("receive 03", "used 1 refused 9 state 0 0 0 2 store 5");
        lines.add("part 2 0", "gives 0");
        lines.add("respond head 1 0 0 7", "reply 1 1 0 7 handed 1 last 1");
        lines.add("respond head 1 0 1 7", "reply 1 1 0 7 handed 0 last 1");
        lines.add("respond head 1 1 0 7", "reply none handed 0 last 1");
        let mut tally = Tally::default();
        tally.count("dle", &lines);
        assert_eq!(tally.0.values().sum::<u64>(), 6);
        assert_eq!((tally.seen("dle receive", "nothing"), tally.seen("dle part", "empty")), (1, 1));
        for answer in ["silent", "reply", "handed"] {
            assert_eq!(tally.seen("respond head", answer), 1);
        }
        let missing = tally.missing();
        assert!(missing.contains(&String::from("dle receive can't answer 9 and did")));
        assert!(missing.contains(&String::from("dle receive never answered 4")));
        assert!(!missing.contains(&String::from("dle receive never answered nothing")));
    }

    /// The two sorts of PCS messages and the two places of its 5 are told apart, and a withdrawn number is not let through.
    #[test]
    fn pcs_answers() {
        let mut lines = Lines::default();
        lines.add("receive FEFE", "used 1 message 1 2 0 3 4 5 0 1 FE state 0 0 0 0 store 5");
        lines.add("receive FEFE", "used 1 message 1 2 0 3 4 5 1 1 FE state 0 0 0 0 store 5");
        lines.add("receive 05FE", "used 1 refused 5 state 0 0 0 0 store 5");
        lines.add("receive 05FE", "used 2 refused 5 state 0 0 0 0 store 5");
        lines.add("receive FE", "used 1 refused 11 state 0 0 0 0 store 5");
        let mut tally = Tally::default();
        tally.count("pcs", &lines);
        for answer in ["plain", "crc", "5", "5-end", "11"] {
            assert_eq!(tally.seen("pcs receive", answer), 1, "{answer}");
        }
        assert!(tally.missing().contains(&String::from("pcs receive can't answer 11 and did")));
    }
}
