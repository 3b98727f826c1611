//! C-22 over the archive: bad lines come out as comments, and a good listing unchanged.
use mortarbee::{salvage, REPORT_ROOM, SALVAGE_ROOM};

fn saved(text: &[u8]) -> (String, String) {
    let (mut listing, mut report) = (vec![0; SALVAGE_ROOM], vec![0; REPORT_ROOM]);
    let done = salvage(text, &mut listing, &mut report).unwrap();
    listing.truncate(done.listing);
    report.truncate(done.report);
    (String::from_utf8(listing).unwrap(), String::from_utf8(report).unwrap())
}

#[test]
fn replaces_bad_lines() {
    assert_eq!(saved(b"0143\n014x\n0143"), ("0143\n0430313478\n0430313433\n".into(), "7B010001\n7B010002\n".into()));
    assert_eq!(saved(b"7D02\n0143\n"), ("7D02\n040000000030313433\n".into(), "7B010000\n".into()));
    assert_eq!(saved(b"0143\n028001\n"), ("0143\n028001\n".into(), "".into()));
}

#[test]
fn leaves_off_from_statement_1024_on() {
    let (listing, report) = saved("0143\n".repeat(1025).as_bytes());
    assert_eq!(listing, "0143\n".repeat(1024));
    assert_eq!(report, "7C0400\n");
}

#[test]
fn refuses_12_for_either_room() {
    let (mut listing, mut report) = ([7; 12], [7; 9]);
    let r = salvage(b"0143\n99", &mut listing[..11], &mut report).unwrap_err();
    assert_eq!((r.number, r.place), (12, 2));
    assert_eq!(salvage(b"0143\n99", &mut listing, &mut report[..8]).unwrap_err().number, 12);
    assert_eq!((listing, report), ([7; 12], [7; 9]));
    assert_eq!(salvage(b"0143\n99", &mut listing, &mut report).unwrap().statements, 2);
}
