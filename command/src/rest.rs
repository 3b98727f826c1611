//! A word that this build is without: the script at the top builds what it needs, and hands over to that.

use crate::answer::Stop;
use crate::call::Call;
use crate::files;
use crate::table::Needs;
use crate::words::{self, Run};
use std::os::unix::process::CommandExt;
use std::process::Command;

const HERE: Needs = if cfg!(feature = "all") {
    Needs::All
} else if cfg!(feature = "core") {
    Needs::Core
} else {
    Needs::Texts
};

/// What the call runs. Where it is not here, this process becomes the script's, if it came from there.
pub fn run_of(call: &Call) -> Result<Run, Stop> {
    if call.needs() <= HERE {
        return words::run_of(call.word.name).ok_or_else(|| Stop::Trouble(format!("no build has the word {}", call.word.name)));
    }
    // A build of minutes is not begun for a file that is not there.
    (0..).map_while(|k| call.file(k)).filter(|file| *file != "-" && call.word.name != "settings").try_for_each(files::look_at)?;
    let needs = if call.needs() == Needs::All { "all" } else { "core" };
    let Some(script) = std::env::var_os("MORTARBEE_SCRIPT") else {
        return Err(Stop::Trouble(format!("this command is built without what {} needs: cargo build --features {needs}", call.word.name)));
    };
    let why = Command::new(&script).args(std::env::args_os().skip(1)).env("MORTARBEE_NEEDS", needs).exec();
    Err(Stop::Trouble(format!("{} cannot be started: {why}", script.to_string_lossy())))
}

#[cfg(test)]
mod tests {
    use super::HERE;
    use crate::table::WORDS;
    use crate::words::run_of;

    #[test]
    fn a_word_runs_where_what_it_needs_is_there() {
        for word in WORDS {
            assert_eq!(run_of(word.name).is_some(), word.needs <= HERE, "{}", word.name);
        }
    }
}
