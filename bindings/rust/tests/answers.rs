//! An audit, the rewrites, the targets and why something stays, on document 01's whole run and beside it.
use mortarbee::{
    audit, map, optimize_jumps, steps, targets, why, Finding, Origin, Settings, Targets, IMAGE_ROOM, LISTING_ROOM, MAP_ROOM, STEPS_ROOM,
    TARGETS_ROOM, WHY_ROOM,
};

const WHOLE: &[u8] = b"012E018001\n012B010001\n028001\n0143\n020001\n012B0000000005\n";

fn image() -> Vec<u8> {
    let (mut out, mut image) = (vec![0; LISTING_ROOM], vec![0; IMAGE_ROOM]);
    let done = optimize_jumps(Settings::default(), WHOLE, &mut out, &mut image).unwrap();
    image.truncate(done.image);
    image
}

#[test]
fn holds_an_image() {
    let asked = Settings::default();
    let mut shipped = image();
    assert_eq!(audit(asked, WHOLE, &shipped), Ok(Finding::Same));
    let origin = Some(Origin { statement: 5, offset: 1 });
    assert_eq!(audit(asked, WHOLE, &shipped[..4]), Ok(Finding::Short { address: 4, origin }));
    shipped[4] ^= 1;
    assert_eq!(audit(asked, WHOLE, &shipped), Ok(Finding::Differs { address: 4, wanted: 0xFD, shipped: 0xFC, origin }));
    shipped[4] ^= 1;
    shipped.push(0);
    assert_eq!(audit(asked, WHOLE, &shipped), Ok(Finding::Long { address: 5 }));
    assert_eq!(audit(asked, b"0143\n050003\n0143\n", &[0, 0, 1]), Ok(Finding::Differs { address: 2, wanted: 0, shipped: 1, origin: None }));
    assert_eq!(audit(asked, b"0143\n01\n", &[]).unwrap_err().number, 1);
}

#[test]
fn tells_the_rewrites() {
    let mut out = vec![7; STEPS_ROOM];
    assert_eq!(steps(Settings::default(), WHOLE, &mut out), Ok(2));
    assert_eq!(&out[..42], b"760100002E00002F0001\n760300052B00052C0005\n");
    assert!(out[42..].iter().all(|&b| b == 7));
    let mut short = [7; 41];
    let r = steps(Settings::default(), WHOLE, &mut short).unwrap_err();
    assert_eq!((r.number, r.place, short), (12, 6, [7; 41]));
}

#[test]
fn tells_the_targets() {
    let mut out = vec![7; TARGETS_ROOM];
    assert_eq!(targets(Settings::default(), WHOLE, &mut out), Ok(Targets { transfers: 2, marked: 0 }));
    assert_eq!(&out[..90], b"74000000000100000006000500000000000300050000\n74000005000500000005000300000000000200030000\n");
    assert!(out[90..].iter().all(|&b| b == 7));
    let mut short = [7; 89];
    let r = targets(Settings::default(), WHOLE, &mut short).unwrap_err();
    assert_eq!((r.number, r.place, short), (12, 6, [7; 89]));
    // label + 3 names no byte any more
    let offset = b"012B100100010000000003\n020001\n012B010001\n0143\n";
    assert_eq!(targets(Settings::default(), offset, &mut out), Ok(Targets { transfers: 2, marked: 1 }));
    assert_eq!(&out[..45], b"740100000000000000060003000000000005FFFF0000\n");
}

#[test]
fn maps_both_images() {
    let mut out = vec![7; MAP_ROOM];
    assert_eq!(map(Settings::default(), WHOLE, &mut out), Ok(4));
    assert_eq!(&out[37..74], b"790000000002000000050000000200000002\n");
    assert_eq!(&out[111..148], b"780000000006000000090000000300000005\n");
    assert!(out[148..].iter().all(|&b| b == 7));
    let mut short = [7; 147];
    let r = map(Settings::default(), WHOLE, &mut short).unwrap_err();
    assert_eq!((r.number, r.place, short), (12, 6, [7; 147]));
}

#[test]
fn tells_why_forms_stay() {
    let mut out = vec![7; WHY_ROOM];
    assert_eq!(why(Settings::default(), WHOLE, &mut out), Ok(0));
    assert!(out.iter().all(|&b| b == 7));
    let far = b"050F80\n012B010001\n051002\n020001\n";
    assert_eq!(why(Settings::default(), far, &mut out), Ok(2));
    assert_eq!(&out[..54], b"752C0001050A00010000000080\n752A0001050B00010000001002\n");
    assert!(out[54..].iter().all(|&b| b == 7));
    let mut short = [7; 53];
    let r = why(Settings::default(), far, &mut short).unwrap_err();
    assert_eq!((r.number, r.place, short), (12, 4, [7; 53]));
    assert_eq!(why(Settings::default(), b"0143\n01\n", &mut out).unwrap_err().number, 1);
}
