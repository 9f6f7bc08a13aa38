//! The words of a line, lent memory and its mix: what all sections of vectors share.

use crate::listing::hex;

/// Lines so far: the calls alone, and each with its answer.
#[derive(Default)]
pub struct Lines {
    pub calls: String,
    pub answered: String,
}

impl Lines {
    /// A line that only sets something has the answer "".
    pub fn add(&mut self, call: &str, answer: &str) {
        self.calls += &format!("{call}\n");
        self.answered += format!("{call} {answer}").trim_end();
        self.answered += "\n";
    }

    pub fn append(&mut self, other: Lines) {
        self.calls += &other.calls;
        self.answered += &other.answered;
    }
}

pub fn section(name: &str) -> Lines {
    let mut lines = Lines::default();
    lines.add(&format!("section {name}"), "");
    lines
}

pub fn run(length: usize) -> Vec<u8> {
    (0..length).map(|k| (7 * k + 3) as u8).collect()
}

pub fn filled(length: usize) -> Vec<u8> {
    (0..length).map(|k| (k % 251) as u8).collect()
}

pub fn mix(memory: &[u8]) -> u32 {
    memory.iter().fold(0u32, |mix, byte| mix.wrapping_mul(31).wrapping_add(*byte as u32))
}

/// BYTES as given.
pub fn bytes_word(bytes: &[u8]) -> String {
    if bytes.is_empty() {
        String::from("-")
    } else {
        hex(bytes)
    }
}

/// BYTES as an answer.
pub fn answer_word(bytes: &[u8]) -> String {
    if bytes.len() > 64 {
        String::from("long")
    } else {
        bytes_word(bytes)
    }
}

pub fn words<T: ToString>(numbers: &[T]) -> String {
    numbers.iter().map(T::to_string).collect::<Vec<_>>().join(" ")
}

pub fn value_word<T: ToString>(result: Result<T, u8>) -> String {
    match result {
        Ok(value) => format!("value {}", value.to_string()),
        Err(number) => format!("refused {number}"),
    }
}

/// Bytes together with the word that they are printed as.
pub struct Given {
    pub word: String,
    pub bytes: Vec<u8>,
}

pub fn given(bytes: &[u8]) -> Given {
    Given { word: bytes_word(bytes), bytes: bytes.to_vec() }
}

pub fn given_run(length: usize) -> Given {
    Given { word: format!("run{length}"), bytes: run(length) }
}

pub fn given_same(length: usize) -> Given {
    Given { word: format!("same{length}"), bytes: vec![5; length] }
}
