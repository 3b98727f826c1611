//! The word that is nearest to what was typed.

use crate::table::{Word, WORDS};

/// One that begins so, or the fewest letters put in, left out or replaced.
pub fn nearest(typed: &str) -> &'static str {
    let far = |word: &&Word| if word.name.starts_with(typed) { 0 } else { distance(typed, word.name) };
    WORDS.iter().min_by_key(far).map_or("", |word| word.name)
}

fn distance(one: &str, other: &str) -> usize {
    let other: Vec<char> = other.chars().collect();
    let mut above: Vec<usize> = (0..=other.len()).collect();
    for (i, c) in one.chars().enumerate() {
        let mut row = vec![i + 1];
        for (j, d) in other.iter().enumerate() {
            row.push((above[j + 1] + 1).min(row[j] + 1).min(above[j] + usize::from(c != *d)));
        }
        above = row;
    }
    above[other.len()]
}
