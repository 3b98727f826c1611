//! C-13 over the archive: the list of stems, and the differences under it, under another, and without one.
use mortarbee::{differences, optimize_stems, NotCompared, Settings, Whose, DIFFERENCES_ROOM, IMAGE_ROOM, LISTING_ROOM, STEMS_ROOM};

const INPUT: &[u8] = b"012E018001\n012B010001\n028001\n0143\n020001\n012B0000000005\n";
const OUTPUT: &[u8] = b"012F010001\n028001\n0143\n020001\n012C0000000002\n";

fn told(first: &[u8], second: &[u8], pairing: Option<&[u8]>) -> Result<String, (Whose, u8, usize)> {
    let mut text = vec![0; DIFFERENCES_ROOM];
    let n = differences(first, second, pairing, &mut text).map_err(|no| (no.whose, no.refusal.number, no.refusal.place))?;
    text.truncate(n);
    Ok(String::from_utf8(text).unwrap())
}

#[test]
fn tells_what_a_run_did() {
    let (mut out, mut image, mut list) = (vec![0; LISTING_ROOM], vec![0; IMAGE_ROOM], vec![7; STEMS_ROOM]);
    let asked = Settings { comments: true, ..Settings::default() };
    let (done, n) = optimize_stems(asked, INPUT, &mut out, &mut image, &mut list).unwrap();
    assert_eq!((&out[..done.listing], done.rewrites, n), (OUTPUT, 2, 5));
    assert_eq!(list[..2 * n], [0, 0, 0, 2, 0, 3, 0, 4, 0, 5]);
    assert!(list[2 * n..].iter().all(|&b| b == 7));
    let lines = "730000000005012E018001012F010001\n710001012B010001\n7000020001028001\n70000300020143\n7000040003020001\n730005000407012B0000000005012C0000000002\n";
    assert_eq!(told(INPUT, OUTPUT, Some(&list[..2 * n])), Ok(lines.into()));
}

#[test]
fn drops_comments_from_the_list_unless_asked() {
    let (mut out, mut image, mut list) = (vec![0; LISTING_ROOM], vec![0; IMAGE_ROOM], vec![0; STEMS_ROOM]);
    let (_, n) = optimize_stems(Settings::default(), b"04\n0143\n", &mut out, &mut image, &mut list).unwrap();
    assert_eq!((n, &list[..2]), (1, &[0, 1][..]));
    let kept = Settings { comments: true, ..Settings::default() };
    assert_eq!(optimize_stems(kept, b"04\n0143\n", &mut out, &mut image, &mut list).unwrap().1, 2);
}

#[test]
fn refuses_12_for_the_list_and_writes_nothing() {
    let (mut out, mut image, mut list) = ([7; 64], [7; 64], [7; 10]);
    let r = optimize_stems(Settings::default(), INPUT, &mut out, &mut image, &mut list[..9]).unwrap_err();
    assert_eq!((r.number, r.place), (12, 6));
    assert_eq!((out, image, list), ([7; 64], [7; 64], [7; 10]));
    assert!(optimize_stems(Settings::default(), INPUT, &mut out, &mut image, &mut list).is_ok());
}

#[test]
fn pairs_what_both_begin_and_end_with() {
    assert_eq!(told(b"0143\n0143\n", b"0143\n", None), Ok("70000000000143\n7100010143\n".into()));
    assert_eq!(
        told(b"0143\n0144\n0143\n", b"0143\n0145\n0143\n", None),
        Ok("70000000000143\n7100010144\n7200010145\n70000200020143\n".into())
    );
    assert_eq!(told(b"", b"", None), Ok("".into()));
    assert_eq!(told(b"0143\n", b"0143\n", Some(&[])), Ok("7100000143\n7200000143\n".into()));
}

#[test]
fn refuses_in_order_and_says_whose() {
    assert_eq!(told(b"99\n", b"98\n", Some(&[9])), Err((Whose::First, 1, 0)));
    assert_eq!(told(b"0143\n", b"98\n", Some(&[9])), Err((Whose::Second, 1, 0)));
    assert_eq!(told(b"0143\n", b"7D02\n", Some(&[9])), Err((Whose::Second, 1, 0)));
    assert_eq!(told(b"0143\n", b"0143\n", Some(&[0, 1])), Err((Whose::Both, 13, 0)));
    assert_eq!(told(b"0143\n0144\n", b"0143\n0144\n", Some(&[0, 1, 0, 0])), Err((Whose::Both, 13, 1)));
    assert_eq!(told(b"0143\n0144\n", b"0143\n", Some(&[0, 0, 0, 1])), Err((Whose::Both, 13, 1)));
    let mut room = [7; 15];
    let NotCompared { whose, refusal: r } = differences(b"0143\n", b"0143\n", None, &mut room[..14]).unwrap_err();
    assert_eq!((whose, r.number, r.place, room), (Whose::Both, 12, 1, [7; 15]));
    assert_eq!(differences(b"0143\n", b"0143\n", None, &mut room), Ok(15));
}
