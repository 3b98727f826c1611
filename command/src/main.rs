//! `mortarbee WORD [OPTIONS] [FILE ..]`: finds the word, parts what is typed behind it, runs it, and writes its answer.
//! Exits 0 on acceptance, 1 on a refusal, 2 on misuse and where something cannot be read or written.
#![forbid(unsafe_code)]

mod answer; // what a word hands back, and how it is written
mod call; // what is typed behind a word
#[cfg(feature = "core")]
mod diagnose; // a refusal in words
mod files; // what is read and written
mod life; // a sign of life on a terminal
mod nearest; // the word that was meant
#[cfg(feature = "all")]
mod page; // the page of a run
mod rest; // a word that this build is without
mod sha256; // the checksum that `version` prints
mod shells; // completions and the man page
#[cfg(feature = "all")]
mod store; // the store of C-24
mod table; // the table of words
mod words; // one file a word

use answer::{Answer, Stop, Written};
use call::Call;
use std::ffi::OsString;
use std::path::Path;
use std::process::exit;
use table::Word;

fn main() {
    border::streams::ignore_size_signal();
    let typed: Vec<OsString> = std::env::args_os().skip(1).collect();
    let status = match word_of(&typed) {
        Ok((word, behind)) => answer::finish(word, Call::scan(word, behind).and_then(run)),
        Err(why) => answer::complain(None, Stop::Trouble(why)),
    };
    exit(status);
}

fn run(call: Call) -> Result<Written, Stop> {
    let answer = if call.help {
        Answer::good(call.word.help())
    } else {
        let run = rest::run_of(&call)?;
        life::during(|| run(&call))?
    };
    Ok(Written { answer, output: call.output })
}

/// Which word is meant, and what stands behind it. With no word, or with options or a file alone, the job is document 01's.
fn word_of(typed: &[OsString]) -> Result<(&'static Word, &[OsString]), String> {
    if typed.iter().any(|one| one.is_empty()) {
        return Err("an empty word (mortarbee help says more)".into());
    }
    let named = |name| Word::find(name).expect("it is in the table");
    let Some(first) = typed.first() else { return Ok((named("optimize"), typed)) };
    let shown = first.to_string_lossy();
    let name = match shown.as_ref() {
        "-h" | "--help" => "help",
        "--version" => "version",
        other => other,
    };
    if let Some(word) = Word::find(name) {
        return Ok((word, &typed[1..]));
    }
    if shown.starts_with('-') || Path::new(first).exists() {
        return Ok((named("optimize"), typed));
    }
    if shown.contains(['/', '.']) {
        return Err(format!("{shown}: there is no such file"));
    }
    if let Some(said) = table::of_script(&shown) {
        return Err(said);
    }
    let nearest = nearest::nearest(&shown);
    Err(format!("there is no word {shown}, and no such file; the nearest word is {nearest} (mortarbee help says more)"))
}
