//! The conformance cases of the repository, and random numbers.
#![allow(dead_code)]

use std::fs;
use std::path::Path;

/// A file of the repository.
pub fn file(path: &str) -> String {
    let path = Path::new(env!("CARGO_MANIFEST_DIR")).join("../..").join(path);
    fs::read_to_string(&path).unwrap_or_else(|error| panic!("{}: {error}", path.display()))
}

/// The lines of a file of cases.
pub fn cases(path: &str) -> Vec<String> {
    let is_case = |line: &&str| !line.trim().is_empty() && !line.starts_with('#');
    file(path).lines().filter(is_case).map(String::from).collect()
}

/// The columns of a line. A column that isn't there is empty.
pub fn columns<const N: usize>(line: &str) -> [&str; N] {
    let mut columns = line.split('|').map(str::trim);
    std::array::from_fn(|_| columns.next().unwrap_or(""))
}

/// The bytes of hexadecimal digits, `-` for none.
pub fn unhex(text: &str) -> Vec<u8> {
    let digits: Vec<u32> = text.chars().filter_map(|digit| digit.to_digit(16)).collect();
    digits.chunks(2).map(|pair| (16 * pair[0] + pair[1]) as u8).collect()
}

/// Random numbers, the same in each run (xorshift).
pub struct Dice(pub u64);

impl Dice {
    /// A number below a bound.
    pub fn below(&mut self, bound: usize) -> usize {
        self.0 ^= self.0 << 13;
        self.0 ^= self.0 >> 7;
        self.0 ^= self.0 << 17;
        (self.0 >> 11) as usize % bound
    }

    /// One of several values.
    pub fn one_of<T: Clone>(&mut self, values: &[T]) -> T {
        values[self.below(values.len())].clone()
    }

    /// At most so many bytes.
    pub fn bytes(&mut self, most: usize) -> Vec<u8> {
        (0..self.below(most + 1)).map(|_| self.below(256) as u8).collect()
    }

    /// A short text of characters of each length.
    pub fn text(&mut self) -> String {
        let characters = ['a', 'Z', ' ', 'é', '€', '😀', '\u{feff}', '\0'];
        (0..self.below(12)).map(|_| characters[self.below(8)]).collect()
    }
}
