//! `why [--words]`: why each far jump and each pattern that is left stays.

use crate::answer::{self, Answer, Stop};
use crate::call::Call;
use crate::diagnose::frames::{is_marked, line_of};
use border::lines::{self, Reason, Tried, Why};
use border::{owned, Refusal};

pub fn run(call: &Call) -> Result<Answer, Stop> {
    answer::of_listing(call, |input| {
        let told = owned::why(call.settings(), &input.bytes)?;
        if !call.has("--words") {
            return Ok(Answer::good(told));
        }
        let all: Vec<Why> = lines::all(&told).unwrap_or_default();
        let marked = is_marked(&input.bytes);
        let line = |(place, sentence)| format!("{}:{}: {sentence}\n", input.name, line_of(place, marked) + 1);
        Ok(Answer::good(sentences(&all, marked).into_iter().map(line).collect::<String>()))
    })
}

/// A sentence for each statement that stays, behind its place: its lines stand one behind the other.
pub fn sentences(all: &[Why], marked: bool) -> Vec<(usize, String)> {
    let of_one = |whys: &[Why]| {
        let first = whys[0];
        let mut said = format!("{} stays: {}", form_name(stands(first.tried)), cause(&first, marked));
        for more in &whys[1..] {
            // What was said of Br, that the Jmpf may not be replaced, is not said of Jmp again.
            if more.tried != Tried::Form(JMP) || !matches!(more.reason, Reason::ChangeJump | Reason::InnerLabel) {
                said += "; ";
                said += &cause(more, marked);
            }
        }
        (usize::from(first.place), said)
    };
    all.chunk_by(|a, b| a.place == b.place).map(of_one).collect()
}

const JMP: u8 = 0x2A;
const JMPF: u8 = 0x2B;
const CALL: u8 = 0x3B;
const CALLF: u8 = 0x3C;

/// Rule 3's patterns in their order: the branch that stands, and the one that it becomes; from the eleventh on a trampoline, whose branch
/// stays.
const PATTERNS: [(u8, u8); 23] = [
    (0x2E, 0x2F),
    (0x2F, 0x2E),
    (0x30, 0x32),
    (0x32, 0x30),
    (0x35, 0x38),
    (0x38, 0x35),
    (0x36, 0x39),
    (0x39, 0x36),
    (0x37, 0x3A),
    (0x3A, 0x37),
    (0x2E, 0x2E),
    (0x2F, 0x2F),
    (0x30, 0x30),
    (0x31, 0x31),
    (0x32, 0x32),
    (0x33, 0x33),
    (0x34, 0x34),
    (0x35, 0x35),
    (0x36, 0x36),
    (0x37, 0x37),
    (0x38, 0x38),
    (0x39, 0x39),
    (0x3A, 0x3A),
];

fn pattern(number: u8) -> (u8, u8) {
    PATTERNS.get(usize::from(number)).copied().unwrap_or((0, 0))
}

/// The form that stands.
fn stands(tried: Tried) -> u8 {
    match tried {
        Tried::Form(CALL) => CALLF,
        Tried::Form(_) => JMPF,
        Tried::Pattern(number) => pattern(number).0,
    }
}

/// What is tried in its place.
fn subject(tried: Tried) -> String {
    match tried {
        Tried::Form(form) => form_name(form).into(),
        Tried::Pattern(number) => match pattern(number) {
            (from, to) if from == to && from > 0 => "the fold of its trampoline".into(),
            (_, to) => format!("the fold to {}", form_name(to)),
        },
    }
}

fn form_name(form: u8) -> &'static str {
    match form {
        42 => "Jmp",
        43 => "Jmpf",
        44 => "Br",
        46 => "Bz",
        47 => "Bnz",
        48 => "Bp",
        49 => "Bpc",
        50 => "Bn",
        51 | 52 => "Dbnz",
        53..=55 => "Be",
        56..=58 => "Bne",
        59 => "Call",
        60 => "Callf",
        _ => "the instruction",
    }
}

fn cause(why: &Why, marked: bool) -> String {
    let subject = subject(why.tried);
    match why.reason {
        Reason::ChangeJump => "it is a change jump".into(),
        Reason::InnerLabel if matches!(why.tried, Tried::Pattern(_)) => format!("{subject} is barred: an inner label points inside it"),
        Reason::InnerLabel => "an inner label points inside it".into(),
        Reason::LabelBetween => format!("{subject} is barred: an inner label stands between its statements"),
        Reason::BeyondPad => format!("{subject} leaves an offset beyond a pad"),
        Reason::Refused(refusal) => subject + &refused(why, refusal, marked),
    }
}

/// The candidate's refusal is its own, or another statement's, which the rewrite moves.
fn refused(why: &Why, refusal: Refusal, marked: bool) -> String {
    let Refusal { number, place, amount, .. } = refusal;
    let own = place == usize::from(why.place);
    let other = format!(" makes line {}", line_of(place, marked) + 1);
    let explain = format!("refusal {number} (mortarbee explain {number})");
    match (number, own) {
        (10, true) => format!(" misses its target by {}", missed(amount)),
        (10, false) => format!("{other} miss its target by {}", missed(amount)),
        (11, true) => " crosses the 4,096-byte edge".into(),
        (11, false) => format!("{other} cross the 4,096-byte edge"),
        (_, true) => format!(" is refused: {explain}"),
        (_, false) => format!("{other} wrong: {explain}"),
    }
}

/// How many bytes a difference is past 127 ahead or 128 back.
fn missed(amount: i32) -> String {
    let n = amount.unsigned_abs().saturating_sub(if amount < 0 { 128 } else { 127 });
    format!("{n} byte{}", if n == 1 { "" } else { "s" })
}
