//! `help [WORD]`: all words, or what one takes and writes.

use crate::answer::{Answer, Stop};
use crate::call::Call;
use crate::nearest::nearest;
use crate::shells;
use crate::table::{line, of_script, Word, OF_SCRIPT, WORDS};

pub fn run(call: &Call) -> Result<Answer, Stop> {
    for (flag, made) in [("--bash", shells::bash as fn() -> String), ("--zsh", shells::zsh), ("--man", shells::man)] {
        if call.has(flag) {
            return Ok(Answer::good(made()));
        }
    }
    let Some(typed) = call.file(0) else { return Ok(Answer::good(all())) };
    let typed = typed.to_string_lossy();
    match Word::find(&typed) {
        Some(word) => Ok(Answer::good(word.help())),
        None => {
            Err(Stop::Misuse(of_script(&typed).unwrap_or_else(|| format!("there is no word {typed}; the nearest is {}", nearest(&typed)))))
        }
    }
}

/// The line `{words}` is a line for each word, the line `{script}` one for each of the script's.
const OVERVIEW: &str = include_str!("../../../docs/words/help.txt");

fn all() -> String {
    let lines: String = WORDS.iter().map(|word| word.line()).collect();
    let more: String = OF_SCRIPT.iter().map(|(name, behind, purpose)| line(name, behind, purpose)).collect();
    OVERVIEW.replace("{words}\n", &lines).replace("{script}\n", &more)
}
