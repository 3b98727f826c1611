//! `batch`: the answers to many listings, each ended by a line `==`.

use crate::answer::{Answer, Stop};
use crate::call::Call;
use crate::diagnose;
use crate::diagnose::frames::feeds;
use crate::files;
use border::owned::Page;
use border::print_run;

pub fn run(call: &Call) -> Result<Answer, Stop> {
    let input = files::input(call)?;
    let (mut out, mut said) = (vec![], String::new());
    let (mut rest, mut line) = (input.bytes.as_slice(), 0);
    for number in 1.. {
        if rest.is_empty() {
            break;
        }
        let n = block_end(rest);
        match print_run(call.settings(), &rest[..n]) {
            Ok(run) => put_run(&mut out, &run),
            Err(refusal) => {
                out.extend_from_slice(format!("{}\n", refusal.line()).as_bytes());
                said += &diagnose::of_part(&input.name, &format!("answer {number}: "), line, refusal, &rest[..n]);
            }
        }
        out.extend_from_slice(b"==\n");
        line += feeds(&rest[..n]) + 1;
        rest = rest.get(n + 3..).unwrap_or(b"");
    }
    Ok(Answer::good(out).saying(said).saying(input.warning()))
}

/// Where the first line `==` begins; the text's end where there is none.
fn block_end(text: &[u8]) -> usize {
    let mut at = 0;
    for line in text.split_inclusive(|c| *c == b'\n') {
        if line == b"==\n" {
            return at;
        }
        at += line.len();
    }
    at
}

/// The page, and a line IMAGE: how many zeros the image begins with in hexadecimal, and the rest in digit pairs.
fn put_run(out: &mut Vec<u8>, run: &Page) {
    let zeros = run.image.iter().take_while(|byte| **byte == 0).count();
    let digits: String = run.image[zeros..].iter().map(|byte| format!("{byte:02X}")).collect();
    out.extend_from_slice(&run.page);
    out.extend_from_slice(format!("IMAGE {zeros:X} {digits}\n").as_bytes());
}
