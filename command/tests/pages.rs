//! The page of a run: one file that loads nothing, with every statement, every arrow, what needs eyes and what stays.
#![cfg(feature = "all")]

mod kit;

use kit::Folder;
use std::path::Path;

fn count(page: &str, part: &str) -> usize {
    page.matches(part).count()
}

/// How many statements, arrows on both sides, targets that need eyes and statements that stay a page has.
fn shown(f: &Folder, name: &str) -> [usize; 4] {
    let page = f.wrote(&format!("m page '{name}'"));
    assert!(page.starts_with("<!DOCTYPE html>\n") && page.ends_with("</html>\n"));
    for loaded in ["src=", "href=", "http:", "https:", "<script", "@import", "url("] {
        assert_eq!(count(&page, loaded), 0, "{loaded}");
    }
    ["<td class=\"no\">", "<path", "<li class=\"bad\">", "<li><code>"].map(|part| count(&page, part))
}

#[test]
fn pages_show_every_statement_and_arrow() {
    let f = Folder::new("pages");
    let example = |name: &str| Path::new(env!("CARGO_MANIFEST_DIR")).join("../examples").join(name).display().to_string();
    f.write("marked.lst", "012B100100010000000003\n020001\n012B010001\n0143\n");
    f.write("far.lst", "050F80\n012B010001\n051002\n020001\n0143\n");
    assert_eq!(shown(&f, &example("whole-run.lst")), [6, 5, 0, 0]);
    assert_eq!(shown(&f, "marked.lst"), [4, 3, 1, 0]);
    assert_eq!(shown(&f, "far.lst"), [5, 2, 0, 1]);
    assert_eq!(shown(&f, &example("tray/tray.lst")), [49, 26, 0, 0]);
    assert!(f.wrote(&format!("m page {}", example("whole-run.lst"))).contains("<h2>The walk</h2>"));
    assert!(!f.wrote(&format!("m page {}", example("tray/tray.lst"))).contains("<h2>The walk</h2>"));
}

/// The page and standard error count alike: lines from 1, statements from 0, and as many targets.
#[test]
fn page_and_standard_error_count_alike() {
    let f = Folder::new("alike");
    f.write("marked.lst", "012B100100010000000003\n020001\n012B010001\n0143\n");
    let done = f.run("m page marked.lst");
    let (page, said) = (String::from_utf8_lossy(&done.stdout), String::from_utf8_lossy(&done.stderr));
    assert!(said.starts_with("marked.lst: warning: 1 of 2 targets name another byte than before, or none: "), "{said}");
    assert!(page.contains("<b>1 of 2</b>targets to look at"), "{page}");
    assert!(page.contains("The transfer at line 1, statement 0 named byte 0 of line 4, statement 3"), "{page}");
    f.write("lined.lst", "7D02\n05000000010F80\n01000000022B010001\n05000000031002\n02000000040001\n");
    assert!(f.wrote("m page lined.lst").contains("<li><code>line 3, statement 1: Jmpf stays: Br misses its target by 1 byte"));
    assert!(f.wrote("m why --words lined.lst").starts_with("lined.lst:3: Jmpf stays: Br misses its target by 1 byte"));
}

#[test]
fn a_refused_listing_has_no_page() {
    let f = Folder::new("nopage");
    f.write("far.lst", "012C0000000082\n");
    let done = f.run("m page far.lst -o page.html");
    assert_eq!((done.status.code(), done.stdout.as_slice()), (Some(1), &b"7E0A00000000000080\n"[..]));
    assert!(!f.has("page.html"));
}

/// D-59: the listing with its comments, which the page shows, may pass the total limit where the one that is asked for does not.
#[test]
fn a_page_that_cannot_be_made_is_told() {
    let f = Folder::new("limit");
    let comment = |bytes: usize| format!("04{}\n", "41".repeat(bytes));
    f.write("full.lst", &format!("0300010000000000\n012C010001\n{}{}", comment(119).repeat(204), comment(81)));
    assert_eq!(f.wrote("m full.lst"), "0300010000000000\n012C0000000000\n7F0000000002\n");
    let done = f.run("m page full.lst -o page.html");
    let said = String::from_utf8_lossy(&done.stderr);
    assert_eq!((done.status.code(), f.has("page.html")), (Some(2), false));
    assert!(said.starts_with("mortarbee: the new listing with its comments passes the total limit"), "{said}");
}
