//! The listings of examples/ through the words: their answers and texts stand beside them, and the routine of examples/tray has more of
//! them.

use crate::case::Case;
use std::fs;
use std::path::{Path, PathBuf};

fn folder() -> PathBuf {
    Path::new(env!("CARGO_MANIFEST_DIR")).join("../examples")
}

fn read(name: &str) -> Vec<u8> {
    fs::read(folder().join(name)).unwrap_or_else(|why| panic!("examples/{name}: {why}"))
}

/// A word on a listing of this name, and what it writes; what is said is held elsewhere.
fn case(words: &[&str], name: &str, bytes: &[u8], out: Vec<u8>) -> Case {
    let status = i32::from(out.starts_with(b"7E"));
    let words: Vec<String> = words.iter().chain(&[name]).map(|word| word.to_string()).collect();
    Case {
        name: format!("examples: {}", words.join(" ")),
        words,
        files: vec![(name.into(), bytes.to_vec())],
        out,
        status,
        ..Case::default()
    }
}

/// Each listing with its answer, and with its text where it keeps the form; a text of the old form is read back to its listing.
fn answers() -> Vec<Case> {
    let mut all = vec![];
    let mut names: Vec<String> =
        fs::read_dir(folder()).expect("examples").map(|one| one.expect("a name").file_name().to_string_lossy().into()).collect();
    names.sort();
    for listing in names.iter().filter(|name| name.ends_with(".lst")) {
        let bytes = read(listing);
        let (out, text) = (listing.replace(".lst", ".out"), listing.replace(".lst", ".txt"));
        all.push(case(&["optimize"], listing, &bytes, read(&out)));
        if names.contains(&text) {
            let text_bytes = read(&text);
            all.push(case(&["text"], listing, &bytes, text_bytes.clone()));
            if !bytes.starts_with(b"7D02") {
                all.push(case(&["read"], &text, &text_bytes, bytes));
            }
        }
    }
    all
}

/// The routine of examples/tray: long, and short as `optimize` writes it.
fn tray() -> Vec<Case> {
    let (long, out) = (read("tray/tray.lst"), read("tray/tray.out"));
    let last = out[..out.len() - 1].iter().rposition(|c| *c == b'\n').expect("a last line") + 1;
    let short = out[..last].to_vec();
    let kept = |words: &[&str], file: &str| case(words, "tray.lst", &long, read(&format!("tray/{file}")));
    let mut all = vec![
        case(&["check"], "tray.lst", &long, b"good 49\n".to_vec()),
        case(&["judge"], "tray.lst", &long, b"good 49 264\n".to_vec()),
        case(&["where", "40"], "tray.lst", &long, b"000044\n".to_vec()),
        kept(&["optimize"], "tray.out"),
        kept(&["text"], "tray.txt"),
        kept(&["text", "--addresses"], "long.txt"),
        kept(&["image", "--hex"], "long.hex"),
        kept(&["stems", "--comments"], "stems.out"),
        kept(&["differences"], "differences.out"),
        kept(&["steps"], "steps.out"),
        kept(&["targets"], "targets.out"),
        case(&["read"], "tray.txt", &read("tray/tray.txt"), long.clone()),
        case(&["text", "--addresses"], "short.lst", &short, read("tray/short.txt")),
        case(&["image", "--hex"], "short.lst", &short, read("tray/short.hex")),
    ];
    let image = bytes_of(&read("tray/short.hex"));
    all.push(case(&["read-back", "8"], "short.bin", &image, read("tray/back.out")));
    let mut audit = case(&["audit", "tray.lst"], "short.bin", &image, b"77000000000000FFFF0000\n".to_vec());
    audit.files.push(("tray.lst".into(), long));
    all.push(audit);
    all
}

/// The image that rows of `image --hex` show; a `*` is the row before, up to the next address.
fn bytes_of(rows: &[u8]) -> Vec<u8> {
    let mut image: Vec<u8> = vec![];
    for row in String::from_utf8_lossy(rows).lines() {
        let Some((address, pairs)) = row.split_once(':') else { continue };
        let address = usize::from_str_radix(address, 16).expect("an address");
        while image.len() < address {
            let at = image.len() - 16;
            image.extend_from_within(at..);
        }
        image.truncate(address);
        image.extend(pairs.split_whitespace().map(|pair| u8::from_str_radix(pair, 16).expect("a pair")));
    }
    image
}

pub fn cases() -> Vec<Case> {
    [answers(), tray()].concat()
}
