//! Every line 70 to 77 of every example is read, and written again as it was; what is no such line is none.
use mortarbee::lines::{all, Difference, NoSuchLine, Salvage, Step, Target, Why};
use mortarbee::{audit, owned, Finding, Refusal, Settings};
use std::fmt::Display;
use std::str::FromStr;

fn listings() -> Vec<Vec<u8>> {
    let folder = std::path::Path::new(env!("CARGO_MANIFEST_DIR")).join("../../examples");
    let mut all = vec![std::fs::read(folder.join("tray/tray.lst")).expect("the tray")];
    for one in std::fs::read_dir(folder).expect("examples") {
        let path = one.expect("a name").path();
        if path.extension().is_some_and(|end| end == "lst") {
            all.push(std::fs::read(path).expect("a listing"));
        }
    }
    all.push(b"050F80\n012B010001\n051002\n020001\n".to_vec());
    all
}

/// Reads all lines and writes them again; gives how many they are.
fn again<L: FromStr<Err = NoSuchLine> + Display>(answer: &[u8]) -> usize {
    let lines: Vec<L> = all(answer).expect("such lines");
    let written: String = lines.iter().map(|line| format!("{line}\n")).collect();
    assert_eq!(written.as_bytes(), answer);
    lines.len()
}

#[test]
fn lines_are_read_and_written_again() {
    let asked = Settings::default();
    let (mut counts, listings) = ([0; 6], listings());
    for listing in &listings {
        counts[5] += again::<Salvage>(&owned::salvage(listing).report);
        let Ok((run, stems)) = owned::optimize_stems(Settings { comments: true, ..asked }, listing) else { continue };
        counts[0] += again::<Difference>(&owned::differences(listing, &run.listing, Some(&stems)).unwrap());
        counts[0] += again::<Difference>(&owned::differences(listing, &run.listing, None).unwrap());
        counts[1] += again::<Target>(&owned::targets(asked, listing).unwrap().0);
        counts[2] += again::<Why>(&owned::why(asked, listing).unwrap());
        counts[3] += again::<Step>(&owned::steps(asked, listing).unwrap());
        for shipped in [&run.image[..], &run.image[..run.image.len() / 2], &[&run.image[..], &[0]].concat(), b"\xA5"] {
            let found = audit(asked, listing, shipped).unwrap();
            assert_eq!(found.to_string().parse(), Ok(found));
            counts[4] += 1;
        }
    }
    assert!(counts.iter().all(|count| *count > 0), "{counts:?}");
}

#[test]
fn other_texts_are_no_such_lines() {
    for line in [
        "",
        "76",
        "760100002E00002F00",
        "760100002E00002F000100",
        "760400002E00002F0001",
        "740100002E00002F0001",
        "760100002e00002F0001",
        "76010000é",
    ] {
        assert_eq!(line.parse::<Step>(), Err(NoSuchLine), "{line}");
    }
    assert_eq!("7E0A00000000000080".parse(), Ok(Refusal { number: 10, place: 0, argument: 0, amount: 128 }));
    assert_eq!("7704000000000000000000".parse::<Finding>(), Err(NoSuchLine));
    assert_eq!("7002".parse::<Difference>(), Err(NoSuchLine));
    assert_eq!("73000000000501".parse::<Difference>(), Err(NoSuchLine));
    assert_eq!("752C000101000000000000000001".parse::<Why>(), Err(NoSuchLine));
}

#[test]
fn refusals_say_what_they_mean() {
    let refusal = owned::assemble(b"0143\n012B010001\n").unwrap_err();
    assert_eq!(refusal.to_string(), "refused 4, statement 1: a name is not found");
    assert_eq!(refusal.line(), "7E0400010000000000");
    let other = owned::differences(b"0143\n", b"01\n", None).unwrap_err();
    assert_eq!(other.to_string(), "the second listing: refused 1, statement 0: the line or frame breaks the form of a listing");
    let error: &dyn std::error::Error = &other;
    assert_eq!(error.source().unwrap().to_string(), other.refusal.to_string());
    assert_eq!(
        Refusal { number: 17, place: 0, argument: 0, amount: 0 }.to_string(),
        "refused 17: the store does not have that family or edition"
    );
}
