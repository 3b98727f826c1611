//! The table of words: each with its options and what it needs to be built. Parsing, usage, `help`, the man page and the completions are
//! made of it.

use Needs::{All, Core, Texts};

/// What a word calls: nothing of the archive, the archive of the main job, or all of it.
#[derive(Clone, Copy, Debug, PartialEq, Eq, PartialOrd, Ord)]
pub enum Needs {
    Texts,
    Core,
    All,
}

pub struct Flag {
    pub name: &'static str,
    /// What stands behind it; empty where nothing does.
    pub value: &'static str,
    pub purpose: &'static str,
    pub needs: Needs,
}

pub struct Word {
    pub name: &'static str,
    /// As `help` shows it behind the name; empty where it shows nothing.
    pub shown: &'static str,
    /// Its line of `help`.
    pub purpose: &'static str,
    pub needs: Needs,
    /// The numbers that come first, and the files behind them; brackets are for those that may be left out.
    pub numbers: &'static [&'static str],
    pub files: &'static [&'static str],
    /// `-o FILE` is every word's.
    pub options: &'static [&'static Flag],
    /// How it is used, where it is more than these say.
    pub irregular: &'static str,
    /// What `help NAME` writes behind the usage.
    pub text: &'static str,
}

const fn alone(name: &'static str, purpose: &'static str) -> Flag {
    Flag { name, value: "", purpose, needs: Texts }
}

const fn with(name: &'static str, value: &'static str, purpose: &'static str) -> Flag {
    Flag { name, value, purpose, needs: Texts }
}

const fn of_store(name: &'static str, value: &'static str, purpose: &'static str) -> Flag {
    Flag { name, value, purpose, needs: All }
}

const COMMENTS: Flag = alone("--comments", "keeps the comments, which are left out otherwise");
const NO_CALLF: Flag = alone("--no-callf", "shrinks no Callf");
const NO_FOLDS: Flag = alone("--no-folds", "folds no branches");
const HEX: Flag = alone(
    "--hex",
    "rows of an address and sixteen digit pairs; rows equal to the one before are one *; the last line is the address behind the last byte",
);
const ADDRESSES: Flag = alone("--addresses", "each statement's address and bytes in front, of a listing that assembles");
const WORDS_TOO: Flag = alone("--words", "a sentence for each statement");
const FORCE: Flag = alone("--force", "lets -o name the text itself, whose damaged lines are then gone");
const REPORT: Flag = with(
    "--report",
    "FILE",
    "the report's lines: 7B, 1 or 2, the place from 0 of a replaced line; at the end 7C and the place from which on lines are left off",
);
const PAIRING: Flag = with(
    "--pairing",
    "FILE",
    "line i is the place of FIRST that statement i of SECOND is paired with, as stems prints it; an empty file pairs nothing",
);
const STORE: Flag = of_store("--store", "STORE", "takes these switches from a store: mortarbee help settings");
const FAMILY: Flag = of_store("--family", "F", "from an edition of family F");
const EDITION: Flag = of_store("--edition", "E", "from edition E of it; without it from the newest");
const LISTING: Flag = with("--listing", "FILE", "the new listing goes to FILE, without the line 7F, which is then all of the answer");
const IMAGE: Flag = with("--image", "FILE", "the new image goes to FILE");
const STEMS: Flag = with("--stems", "FILE", "the list that stems writes goes to FILE; of these three all files are written, or none");
const KEPT_IN: Flag = with("--store", "FILE", "the store");
const BASH: Flag = alone("--bash", "writes completions for bash");
const ZSH: Flag = alone("--zsh", "writes completions for zsh");
const MAN: Flag = alone("--man", "writes the manual page");

/// A row with the switches of a run (C-18, C-24).
const RUN: &[&Flag] = &[&COMMENTS, &NO_CALLF, &NO_FOLDS];

macro_rules! text {
    ($name:literal) => {
        include_str!(concat!("../../docs/words/help-", $name, ".txt"))
    };
}

const ROW: Word =
    Word { name: "", shown: "", purpose: "", needs: All, numbers: &[], files: &["[LISTING]"], options: &[], irregular: "", text: "" };

/// In the order of `help`.
pub const WORDS: &[Word] = &[
    Word {
        name: "optimize",
        purpose: "the new listing and a last line 7F",
        needs: Core,
        options: &[&COMMENTS, &NO_CALLF, &NO_FOLDS, &STORE, &FAMILY, &EDITION, &LISTING, &IMAGE, &STEMS],
        irregular: "mortarbee optimize [--comments] [--no-callf] [--no-folds] [-o FILE] [LISTING]\n   \
                    or: mortarbee optimize --store STORE --family F [--edition E] [-o FILE] [LISTING]\n   \
                    into files, with either: [--listing FILE] [--image FILE] [--stems FILE]",
        text: text!("optimize"),
        ..ROW
    },
    Word {
        name: "judge",
        purpose: "whether a listing assembles: good, its statements and its bytes",
        needs: Core,
        text: text!("judge"),
        ..ROW
    },
    Word { name: "check", purpose: "whether it keeps the form alone: good and its statements", needs: Core, text: text!("check"), ..ROW },
    Word {
        name: "image",
        purpose: "the image of the listing as it stands; --hex in digits",
        needs: Core,
        options: &[&HEX],
        text: text!("image"),
        ..ROW
    },
    Word {
        name: "text",
        purpose: "the listing for people; --addresses with addresses and bytes",
        needs: Core,
        options: &[&ADDRESSES],
        text: text!("text"),
        ..ROW
    },
    Word { name: "read", purpose: "the listing of a text for people", files: &["[TEXT]"], text: text!("read"), ..ROW },
    Word {
        name: "where",
        shown: "N",
        purpose: "the address of statement N, from 0",
        needs: Core,
        numbers: &["N"],
        text: text!("where"),
        ..ROW
    },
    Word {
        name: "read-back",
        shown: "START",
        purpose: "the listing of an image, from the address START on",
        numbers: &["START"],
        files: &["[IMAGE]"],
        text: text!("read-back"),
        ..ROW
    },
    Word {
        name: "salvage",
        purpose: "what can be kept of a damaged listing; --report FILE for what was done",
        files: &["[TEXT]"],
        options: &[&REPORT, &FORCE],
        text: text!("salvage"),
        ..ROW
    },
    Word {
        name: "stems",
        purpose: "the place of the listing that each statement of the new one stems from",
        needs: Core,
        options: RUN,
        text: text!("stems"),
        ..ROW
    },
    Word {
        name: "differences",
        shown: "FIRST SECOND",
        purpose: "what is kept, removed, added or changed; FIRST alone: what optimize does to it",
        files: &["FIRST", "SECOND"],
        options: &[&PAIRING],
        irregular: "mortarbee differences FIRST [SECOND [--pairing FILE]] [-o FILE]",
        text: text!("differences"),
        ..ROW
    },
    Word { name: "steps", purpose: "the rewrites of a run, one line each", options: RUN, text: text!("steps"), ..ROW },
    Word {
        name: "targets",
        purpose: "what each transfer of the new listing names, and whether that needs eyes",
        needs: Core,
        options: RUN,
        text: text!("targets"),
        ..ROW
    },
    Word {
        name: "map",
        purpose: "where each instruction and each piece of data stands in the long image and in the short one",
        options: RUN,
        text: text!("map"),
        ..ROW
    },
    Word {
        name: "why",
        purpose: "why each far jump and each pattern that is left stays; --words in words",
        options: &[&WORDS_TOO, &COMMENTS, &NO_CALLF, &NO_FOLDS],
        text: text!("why"),
        ..ROW
    },
    Word {
        name: "page",
        purpose: "the run to look at: one HTML file, long and short side by side",
        options: RUN,
        text: text!("page"),
        ..ROW
    },
    Word {
        name: "audit",
        shown: "LISTING IMAGE",
        purpose: "whether an image is what its long listing shrinks to",
        files: &["LISTING", "IMAGE"],
        options: RUN,
        text: text!("audit"),
        ..ROW
    },
    Word {
        name: "settings",
        purpose: "switches kept by family and edition in a store: add, drop, show",
        files: &["JOB", "[F]"],
        options: &[&COMMENTS, &NO_CALLF, &NO_FOLDS, &KEPT_IN],
        irregular: "mortarbee settings add F [--comments] [--no-callf] [--no-folds] --store FILE\n   \
                    or: mortarbee settings drop F --store FILE\n   \
                    or: mortarbee settings show --store FILE",
        text: text!("settings"),
        ..ROW
    },
    Word {
        name: "batch",
        purpose: "the answers to many listings, each ended by a line ==",
        needs: Core,
        files: &["[LISTINGS]"],
        options: RUN,
        text: text!("batch"),
        ..ROW
    },
    Word {
        name: "explain",
        shown: "N",
        purpose: "what refusal N means, and what to look at",
        needs: Texts,
        files: &["N"],
        text: text!("explain"),
        ..ROW
    },
    Word {
        name: "help",
        shown: "[WORD]",
        purpose: "this text, or what a word takes and writes",
        needs: Texts,
        files: &["[WORD]"],
        options: &[&BASH, &ZSH, &MAN],
        text: text!("help"),
        ..ROW
    },
    Word {
        name: "version",
        purpose: "the commit, the toolchain and the program's checksum",
        needs: Texts,
        files: &[],
        text: text!("version"),
        ..ROW
    },
];

/// The words of the script at the top of the repository, which the command is without: what stands behind each, and its line of `help`.
pub const OF_SCRIPT: &[(&str, &str, &str)] = &[
    ("build", "", "makes the command again, of the sources as they are"),
    ("install", "PREFIX", "puts the command, its manual page, its completions and what they name below PREFIX"),
    ("uninstall", "PREFIX", "takes them away"),
    ("tarball", "FOLDER", "packs them, with their checksums, into FOLDER"),
];

/// What is said of such a word where the command is asked for it.
pub fn of_script(typed: &str) -> Option<String> {
    let (name, behind, purpose) = OF_SCRIPT.iter().find(|(name, _, _)| *name == typed)?;
    let usage = format!("./mortarbee {name} {behind}");
    Some(format!("{name} is a word of the script at the top of the repository: {} {purpose}", usage.trim_end()))
}

impl Word {
    pub fn find(name: &str) -> Option<&'static Word> {
        WORDS.iter().find(|word| word.name == name)
    }

    pub fn usage(&self) -> String {
        if !self.irregular.is_empty() {
            return self.irregular.into();
        }
        let mut parts = vec!["mortarbee".to_string(), self.name.into()];
        parts.extend(self.numbers.iter().map(|number| number.to_string()));
        parts.extend(self.options.iter().map(|option| format!("[{}]", option.shown())));
        if self.needs > Texts {
            parts.push("[-o FILE]".into());
        }
        parts.extend(self.files.iter().map(|file| file.to_string()));
        parts.join(" ")
    }

    /// The usage and the text, its line `{options}` become a line for each option.
    pub fn help(&self) -> String {
        let options: String = self.options.iter().map(|option| format!("  {}   {}\n", option.shown(), option.purpose)).collect();
        format!("{}\n{}", self.usage(), self.text.replace("{options}\n", &options))
    }

    /// The word's line of `help`.
    pub fn line(&self) -> String {
        line(self.name, self.shown, self.purpose)
    }
}

/// A line of `help`.
pub fn line(name: &str, shown: &str, purpose: &str) -> String {
    let head = if shown.is_empty() { name.into() } else { format!("{name} {shown}") };
    if head.len() < 12 {
        format!("  {head:<13}{purpose}\n")
    } else {
        format!("  {head}   {purpose}\n")
    }
}

impl Flag {
    pub fn shown(&self) -> String {
        if self.value.is_empty() {
            self.name.into()
        } else {
            format!("{} {}", self.name, self.value)
        }
    }
}
