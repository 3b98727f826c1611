//! What shells and `man` are told of the words, from the table: `help --bash`, `help --zsh`, `help --man`.

use crate::table::{Word, WORDS};

fn options(word: &Word) -> impl Iterator<Item = &'static str> {
    word.options.iter().map(|option| option.name).chain(["-o", "--help"])
}

fn names() -> Vec<&'static str> {
    WORDS.iter().map(|word| word.name).collect()
}

/// What may stand behind a word beside its options and files.
fn behind(word: &Word) -> Vec<&'static str> {
    match word.name {
        "help" => names(),
        "settings" => vec!["add", "drop", "show"],
        _ => vec![],
    }
}

pub fn bash() -> String {
    let mut out = String::from("# bash completion for mortarbee: made by mortarbee help --bash\n_mortarbee() {\n");
    out += "    local options='' now=${COMP_WORDS[COMP_CWORD]} word=${COMP_WORDS[1]}\n";
    out += "    [ \"$COMP_CWORD\" != 1 ] || word=''\n    case $word in\n";
    out += &format!("        '') options='{}' ;;\n", names().join(" "));
    for word in WORDS {
        let all: Vec<&str> = behind(word).into_iter().chain(options(word)).collect();
        out += &format!("        {}) options='{}' ;;\n", word.name, all.join(" "));
    }
    // A line is one name, whatever stands in it.
    out +=
        "    esac\n    mapfile -t COMPREPLY < <(compgen -W \"$options\" -- \"$now\"; [ \"$word\" = help ] || compgen -f -- \"$now\")\n}\n";
    out + "complete -o filenames -F _mortarbee mortarbee\n"
}

/// Text in single quotes of zsh, where a colon parts what an entry has.
fn quoted(text: &str) -> String {
    text.replace('\'', "'\\''").replace(':', "\\:").replace('[', "(").replace(']', ")")
}

fn zsh_option(name: &str, value: &str, purpose: &str) -> String {
    let value = if value.is_empty() { String::new() } else { format!(":{value}:_files") };
    format!("'{name}[{}]{value}'", quoted(purpose))
}

pub fn zsh() -> String {
    let mut out = String::from("#compdef mortarbee\n# made by mortarbee help --zsh\nlocal -a all\nall=(\n");
    for word in WORDS {
        out += &format!("    '{}:{}'\n", word.name, quoted(word.purpose));
    }
    out += ")\nif (( CURRENT == 2 )); then\n    _describe word all\n    _files\n    return\nfi\ncase $words[2] in\n";
    for word in WORDS {
        let mut all: Vec<String> = word.options.iter().map(|option| zsh_option(option.name, option.value, option.purpose)).collect();
        all.push(zsh_option("-o", "FILE", "the answer goes to FILE"));
        out += &format!("    {}) _arguments {} '*:file:_files' ;;\n", word.name, all.join(" "));
    }
    out + "esac\n"
}

/// A line of a manual page: no dash becomes a hyphen, and no line a request.
fn roff(line: &str) -> String {
    let guard = if line.starts_with(['.', '\'']) { "\\&" } else { "" };
    format!("{guard}{}\n", line.replace('\\', "\\e").replace('-', "\\-"))
}

pub fn man() -> String {
    let mut out = format!(".TH MORTARBEE 1 \"\" \"mortarbee {}\"\n", env!("CARGO_PKG_VERSION"));
    out += ".SH NAME\nmortarbee \\- a jump optimizer whose rewriting is proved\n";
    out += ".SH SYNOPSIS\n.B mortarbee\n[WORD] [OPTIONS] [FILE]\n.SH WORDS\n";
    for word in WORDS {
        out += &format!(".SS {}{}.PP\n.nf\n", roff(word.name), roff(&format!("{}.", word.purpose)));
        out += &word.help().lines().map(roff).collect::<String>();
        out += ".fi\n";
        let is_told = word.text.contains("{options}");
        for option in word.options.iter().filter(|_| !is_told) {
            out += &format!(".TP\n.B {}{}", roff(&option.shown()), roff(option.purpose));
        }
    }
    out + ".SH EXIT STATUS\n0; 1 for a refusal, and where audit finds a difference; 2 for misuse and for what cannot be read or written.\n"
}
