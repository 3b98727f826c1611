//! What a word hands back, and how it is written: standard output or a file, standard error, the status.

use crate::files::{self, Put, Target};
use crate::table::Word;
use std::ffi::OsString;
use std::io::Write;

pub struct Answer {
    /// For standard output or the file behind -o.
    pub out: Vec<u8>,
    /// For standard error.
    pub said: String,
    pub status: i32,
    /// A refused answer never reaches a file.
    pub refused: bool,
    /// What was done already, for one that cannot be written.
    pub done: String,
    /// Another file that goes with it: where both are files, both are written or none.
    pub beside: Option<(OsString, Vec<u8>)>,
}

impl Answer {
    pub fn good(out: impl Into<Vec<u8>>) -> Answer {
        Answer { out: out.into(), said: String::new(), status: 0, refused: false, done: String::new(), beside: None }
    }

    #[cfg(feature = "core")]
    pub fn saying(mut self, said: impl AsRef<str>) -> Answer {
        self.said += said.as_ref();
        self
    }

    /// The 7E line, and why in words.
    #[cfg(feature = "core")]
    pub fn refused(refusal: border::Refusal, said: String) -> Answer {
        Answer { said, status: 1, refused: true, ..Answer::good(format!("{}\n", refusal.line())) }
    }
}

pub struct Written {
    pub answer: Answer,
    pub output: Option<OsString>,
}

/// Why there is no answer. Either is status 2.
pub enum Stop {
    /// With how the word is used.
    Misuse(String),
    Trouble(String),
}

/// What most words are: one listing in, one answer out.
#[cfg(feature = "core")]
pub fn of_listing(call: &crate::call::Call, answer: impl FnOnce(&files::Input) -> Result<Answer, border::Refusal>) -> Result<Answer, Stop> {
    let input = files::input(call)?;
    Ok(match answer(&input) {
        Ok(answer) => answer.saying(input.warning()),
        Err(refusal) => Answer::refused(refusal, crate::diagnose::of_listing(&input.name, refusal, &input.bytes)),
    })
}

/// On standard error. What cannot be said there changes nothing.
pub fn say(text: &str) {
    let _ = std::io::stderr().write_all(text.as_bytes());
}

pub fn complain(word: Option<&Word>, stop: Stop) -> i32 {
    say(&match (&stop, word) {
        (Stop::Misuse(why), Some(word)) => format!("mortarbee: {why}\nusage: {}\n", word.usage()),
        (Stop::Misuse(why) | Stop::Trouble(why), _) => format!("mortarbee: {why}\n"),
    });
    2
}

fn put(answer: &Answer, output: Option<OsString>) -> Result<Put, Stop> {
    let output = output.filter(|file| !answer.refused && *file != *"-");
    if let Some((beside, bytes)) = &answer.beside {
        let targets = (files::target_of(beside)?, output.as_deref().map(files::target_of).transpose()?);
        if let (Target::File(beside), Some(Target::File(path))) = targets {
            return files::replace_all(&[(beside, bytes.as_slice()), (path, answer.out.as_slice())]).map(|()| Put::Whole);
        }
        files::put_file(beside, bytes)?;
    }
    match output {
        Some(file) => files::put_file(&file, &answer.out),
        None => files::put_out(&answer.out),
    }
}

/// Writes the answer, and gives the status. What is said of an accepted one comes last, where it is not scrolled away.
pub fn finish(word: &Word, made: Result<Written, Stop>) -> i32 {
    let Written { answer, output } = match made {
        Ok(written) => written,
        Err(stop) => return complain(Some(word), stop),
    };
    if answer.status != 0 {
        say(&answer.said);
    }
    match put(&answer, output) {
        Ok(Put::Whole) => {}
        Ok(Put::NobodyReads) => return answer.status,
        Err(stop) => {
            let status = complain(Some(word), stop);
            say(&answer.done);
            return status;
        }
    }
    if answer.status == 0 {
        say(&answer.said);
    }
    answer.status
}
