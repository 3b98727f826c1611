//! The crate without waterbear: programs made by hand, what becomes of each statement, and what is refused. The levels that need leave are
//! allowed by variables, so all of it is one test.
use mortarbee_waterbear::program::{Argument, Expr, Item, Program, Statement, What};
use mortarbee_waterbear::tables::*;
use mortarbee_waterbear::{rewrite, Fate, Outcome, Stopped, Target};

fn name(text: &str) -> Expr {
    Expr::Name(text.to_owned())
}

fn to(form: u8, target: Expr) -> What {
    What::Instruction(form, vec![Argument::Value(target)])
}

fn label(text: &str) -> What {
    What::Label(text.to_owned())
}

fn size(what: &What) -> i32 {
    match what {
        What::Instruction(JMPF | CALLF, _) => 3,
        What::Instruction(BZ | BR | JMP, _) => 2,
        What::Instruction(..) => 1,
        What::Bytes(items) => items.iter().map(|item| if let Item::Text(text) = item { text.len() as i32 } else { 1 }).sum(),
        _ => 0,
    }
}

/// A program without pads and orgs, laid out.
fn program(all: Vec<What>) -> Program {
    let (mut at, mut context) = (0, String::new());
    let mut made = Program::default();
    made.locals.entry(String::new()).or_default();
    for (line, what) in all.into_iter().enumerate() {
        match &what {
            What::Label(name) if name.starts_with('.') => {
                made.locals.entry(context.clone()).or_default().insert(name.clone(), at);
            }
            What::Label(name) => {
                context = name.clone();
                made.locals.entry(context.clone()).or_default();
                made.globals.insert(name.clone(), at);
            }
            What::Variable(name, Expr::Number(value)) => {
                made.globals.insert(name.clone(), *value);
            }
            _ => {}
        }
        let size = size(&what);
        made.statements.push(Statement { what, line: line as u32, at, size });
        at += size;
    }
    made
}

fn done(all: Vec<What>) -> Outcome {
    rewrite(&program(all), false).unwrap()
}

fn stopped(all: Vec<What>) -> Stopped {
    rewrite(&program(all), false).unwrap_err()
}

/// A branch over a jump is folded; the branch has the jump's target and the label stays.
fn folds() {
    let outcome =
        done(vec![label("main"), to(BZ, name(".skip")), to(JMPF, name("far")), label(".skip"), label("far"), to(JMPF, name("main"))]);
    let became = |form, place| Fate::Became { form, target: Target::Of(place) };
    assert_eq!(outcome.fates, [Fate::Kept, became(BNZ, 2), Fate::Gone, Fate::Kept, Fate::Kept, became(BR, 5)]);
    assert_eq!(outcome.image, [0x90, 0x00, 0x01, 0xFC]);
}

/// C-15: a constant that names a byte moves with it; where it stays the same it stays as written.
fn moves_constants() {
    let entry = |value| What::Variable("entry".to_owned(), Expr::Number(value));
    let nop = || What::Instruction(NOP, vec![]);
    let moved = done(vec![entry(3), to(JMPF, name("entry")), nop()]);
    assert_eq!(moved.fates[1], Fate::Became { form: BR, target: Target::Number(2) });
    assert_eq!(moved.image, [0x01, 0x00, 0x00]);
    let kept = done(vec![entry(0), nop(), to(BR, name("entry"))]);
    assert_eq!(kept.fates, [Fate::Kept, Fate::Kept, Fate::Became { form: BR, target: Target::Of(2) }]);
}

fn many(count: usize) -> Vec<What> {
    let mut all = vec![label("main")];
    all.extend((0..count).map(|_| What::Instruction(NOP, vec![])));
    all.push(to(JMPF, name("main")));
    all
}

/// 1,024 statements fit; one more needs leave, and says so.
fn asks_for_leave() {
    assert!(done(many(1022)).inert.iter().all(|inert| !inert));
    let why = stopped(many(1023));
    assert_eq!(why.statement, Some(1024));
    assert!(why.text.contains("MORTARBEE_SKELETON=1") && why.text.contains("not proved"), "{}", why.text);
    std::env::set_var("MORTARBEE_SKELETON", "1");
    let outcome = done(many(1023));
    assert_eq!(outcome.inert.iter().filter(|inert| **inert).count(), 1023);
    assert_eq!(outcome.fates.last(), Some(&Fate::Became { form: JMP, target: Target::Of(1024) }));
    std::env::remove_var("MORTARBEE_SKELETON");
}

/// Constant data is packed before leave is needed: 2,000 statements of a byte are one run of words.
fn packs() {
    let mut all: Vec<What> = (0..2000).map(|n| What::Bytes(vec![Item::Text(vec![1 + (n % 200) as u8])])).collect();
    all.push(to(JMPF, Expr::Number(1999)));
    let outcome = done(all);
    assert_eq!(outcome.image.len(), 2002);
    assert_eq!(outcome.image[1999], 1 + (1999 % 200) as u8);
    assert_eq!(outcome.fates[2000], Fate::Became { form: BR, target: Target::Of(2000) });
}

fn refuses() {
    let sum = (0..10).fold(name("a"), |e, _| Expr::Two(PLUS, Box::new(e), Box::new(name("a"))));
    let why = stopped(vec![label("a"), to(JMPF, sum)]);
    assert!(why.text.starts_with("an expression takes"), "{}", why.text);
    let wide = Expr::Two(PLUS, Box::new(name("a")), Box::new(Expr::Number(i32::MAX)));
    let wider = Expr::One(LOWER_BYTE, Box::new(Expr::Two(PLUS, Box::new(wide), Box::new(Expr::Number(1)))));
    let why = stopped(vec![label("a"), What::Bytes(vec![Item::Value(wider)])]);
    assert!(why.text.starts_with("a value passes 32 bits"), "{}", why.text);
    assert_eq!(why.statement, Some(1));
}

#[test]
fn programs_by_hand() {
    folds();
    moves_constants();
    packs();
    refuses();
    asks_for_leave();
}
