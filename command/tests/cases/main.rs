//! What people type, and what comes of it: the cases of tests/data, and the listings of examples/. One is run by its name: `cargo test
//! --test cases -- NAME`, which may be a part of it. MORTARBEE_PROGRAM names another program than the one that is built (its words on
//! standard error are not looked at); with MORTARBEE_BLESS=1 tests/data is written anew with what the program answers.

mod case;
mod examples;

use case::{parse, print, Case};
use std::fs;
use std::io::Write;
use std::path::{Path, PathBuf};
use std::process::{Command, Stdio};

/// What one run made.
struct Done {
    status: Option<i32>,
    out: Vec<u8>,
    err: Vec<u8>,
}

fn program() -> (PathBuf, bool) {
    match std::env::var_os("MORTARBEE_PROGRAM") {
        Some(program) => (program.into(), true),
        None => (env!("CARGO_BIN_EXE_mortarbee").into(), false),
    }
}

/// The files that a case takes from those that are given: those that it names.
fn files<'a>(given: &'a [(String, Vec<u8>)], case: &'a Case) -> impl Iterator<Item = &'a (String, Vec<u8>)> {
    given.iter().filter(|(name, _)| case.words.iter().any(|word| word.trim_start_matches("./") == name)).chain(&case.files)
}

fn run(given: &[(String, Vec<u8>)], case: &Case, folder: &Path) -> Done {
    fs::create_dir_all(folder).expect("a folder");
    case.folders.iter().for_each(|name| fs::create_dir_all(folder.join(name)).expect("a folder"));
    files(given, case).for_each(|(name, bytes)| fs::write(folder.join(name), bytes).expect("a file"));
    let mut command = Command::new(program().0);
    command.args(&case.words).current_dir(folder).stdin(Stdio::piped()).stdout(Stdio::piped()).stderr(Stdio::piped());
    let mut child = command.spawn().expect("the command");
    // A word that reads nothing may have ended.
    let _ = child.stdin.take().expect("a pipe").write_all(&case.stdin);
    let done = child.wait_with_output().expect("its end");
    Done { status: done.status.code(), out: done.stdout, err: done.stderr }
}

/// What is not as it should be.
fn faults(case: &Case, done: &Done, folder: &Path) -> Vec<String> {
    let mut wrong = vec![];
    if done.status != Some(case.status) {
        wrong.push(format!("status {:?} instead of {}", done.status, case.status));
    }
    let err = case.err.as_ref().filter(|_| !program().1);
    for (what, got, wanted) in [("output", &done.out, Some(&case.out)), ("error", &done.err, err)] {
        if wanted.is_some_and(|wanted| wanted != got) {
            let wanted = String::from_utf8_lossy(wanted.map_or(&[], |wanted| wanted));
            wrong.push(format!("standard {what}: {:?} instead of {wanted:?}", String::from_utf8_lossy(got)));
        }
    }
    for (name, bytes) in &case.made {
        if fs::read(folder.join(name)).ok().as_ref() != Some(bytes) {
            wrong.push(format!("another file {name}"));
        }
    }
    wrong
}

struct Runner {
    top: PathBuf,
    wanted: Vec<String>,
    passed: usize,
    failed: usize,
}

impl Runner {
    fn try_all(&mut self, given: &[(String, Vec<u8>)], cases: &mut [Case]) {
        for case in cases {
            if !self.wanted.is_empty() && !self.wanted.iter().any(|part| case.name.contains(part)) {
                continue;
            }
            let folder = self.top.join((self.passed + self.failed).to_string());
            let done = run(given, case, &folder);
            let wrong = faults(case, &done, &folder);
            if wrong.is_empty() {
                self.passed += 1;
                println!("test {} ... ok", case.name);
            } else {
                self.failed += 1;
                println!("test {} ... FAILED\n    {}", case.name, wrong.join("\n    "));
            }
            let _ = fs::remove_dir_all(&folder);
            (case.out, case.status) = (done.out, done.status.unwrap_or(-1));
            case.err = Some(done.err);
        }
    }
}

fn main() {
    let wanted = std::env::args().skip(1).filter(|word| !word.starts_with('-')).collect();
    let top = std::env::temp_dir().join(format!("mortarbee-cases.{}", std::process::id()));
    let mut runner = Runner { top, wanted, passed: 0, failed: 0 };
    let data = Path::new(env!("CARGO_MANIFEST_DIR")).join("tests/data");
    let mut names: Vec<PathBuf> = fs::read_dir(&data).expect("tests/data").map(|one| one.expect("a name").path()).collect();
    names.sort();
    for name in names.iter().filter(|name| name.extension().is_some_and(|end| end == "txt")) {
        let text = fs::read_to_string(name).expect("cases");
        let (given, mut cases) = parse(&text);
        runner.try_all(&given, &mut cases);
        if std::env::var_os("MORTARBEE_BLESS").is_some() {
            let remarks: String = text.lines().take_while(|line| line.starts_with('#')).map(|line| format!("{line}\n")).collect();
            fs::write(name, print(&remarks, &given, &cases)).expect("tests/data");
        }
    }
    runner.try_all(&[], &mut examples::cases());
    let _ = fs::remove_dir_all(&runner.top);
    let result = if runner.failed == 0 { "ok" } else { "FAILED" };
    println!("\ntest result: {result}. {} passed; {} failed", runner.passed, runner.failed);
    assert!(runner.passed + runner.failed > 0, "there is no such case");
    std::process::exit(i32::from(runner.failed > 0));
}
