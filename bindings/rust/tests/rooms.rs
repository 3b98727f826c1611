//! Images and listings byte for byte, and both rooms one byte short, exact and longer: on listings of document 01 and on any bytes.
use mortarbee::{assemble, Refusal, IMAGE_ROOM};

/// The first line of a listing with source lines (C-20).
const MARK: &str = "7D02\n";
const WHOLE_RUN: &str = "012E018001\n012B010001\n028001\n0143\n020001\n012B0000000005\n";

/// Listings, and what the image is or the refusal: number, place, argument, number at fault.
const CASES: [(&str, Result<&[u8], (u8, usize, usize, i32)>); 23] = [
    ("", Ok(&[])),
    (WHOLE_RUN, Ok(&[0x80, 0x03, 0x21, 0x00, 0x06, 0x00, 0x21, 0x00, 0x05])),
    ("050004\n0143\n", Ok(&[0, 0, 0, 0, 0])),
    ("07010000001234\n", Ok(&[0x34, 0x12])),
    ("0142000000010D0000000000\n", Ok(&[0xB8, 0x0D])),
    ("050100\n012D0000000100\n050110\n", Ok(BRF)),
    ("012C0000000082\n", Err((10, 0, 0, 128))),
    ("01\n", Err((1, 0, 0, 0))),
    ("0143\n020001\n020001\n", Err((3, 2, 0, 0))),
    ("012C010001\n", Err((4, 0, 0, 0))),
    ("0143\n050000\n", Err((5, 1, 0, 0))),
    ("05FFFF\n0143\n0143\n", Err((6, 2, 0, 0))),
    ("0143\n010000FFFFFFFF\n", Err((8, 1, 0, -1))),
    ("0143", Err((1, 0, 0, 0))),
    ("01340100000000C8\n", Err((10, 0, 1, 198))),
    ("012D0000010000\n", Err((9, 0, 0, 65_536))),
    ("05FFFE\n012A000000F345\n", Err((11, 1, 0, 62_277))),
    ("7D02\n", Ok(&[])),
    ("7D02\n0143\n", Err((1, 0, 0, 0))),
    ("7D02\n04FFFFFFFF\n7D02\n", Err((1, 1, 0, 0))),
    ("7D02\n04FFFFFFFF\n01000000072C0000000082\n", Err((10, 1, 0, 128))),
    ("0143\n7D02\n", Err((1, 1, 0, 0))),
    ("7D02", Err((1, 0, 0, 0))),
];

/// 256 zeros, then Brf at 100 to 100.
const BRF: &[u8] = &{
    let mut image = [0u8; 259];
    image[256] = 0x11;
    image[257] = 0xFE;
    image[258] = 0xFF;
    image
};

/// A refusal about a whole statement, or about none: no argument, no number at fault.
fn plain(number: u8, place: usize) -> Refusal {
    Refusal { number, place, argument: 0, amount: 0 }
}

const FILL: u8 = 0xA5;

fn xorshift(state: &mut u64) -> u64 {
    *state ^= *state << 13;
    *state ^= *state >> 7;
    *state ^= *state << 17;
    *state
}

const LINES: [&str; 12] = [
    "0143",
    "012B018000",
    "012C018001",
    "012E018002",
    "028000",
    "028001",
    "028002",
    "04",
    "06020000000001018000",
    "0701018001",
    "013C0000000004",
    "050020",
];

/// A sound line, with a source line if it is asked for.
fn any_line(state: &mut u64, marked: bool) -> String {
    let (kind, rest) = LINES[(xorshift(state) % 12) as usize].split_at(2);
    if marked {
        format!("{kind}{:08X}{rest}\n", xorshift(state) as u32)
    } else {
        format!("{kind}{rest}\n")
    }
}

/// A text of any bytes, of digits and line feeds, or of sound lines in one of both forms.
fn any_text(state: &mut u64) -> Vec<u8> {
    let kind = xorshift(state) % 4;
    if kind >= 2 {
        let (marked, lines) = (kind == 3, xorshift(state) % 14);
        let head = if marked { MARK } else { "" };
        return (0..lines).fold(head.to_owned(), |text, _| text + &any_line(state, marked)).into_bytes();
    }
    let length = (xorshift(state) % 300) as usize;
    (0..length)
        .map(|_| {
            let byte = xorshift(state) as u8;
            if kind == 1 {
                b"0123456789ABCDEF\n\n0001"[byte as usize % 22]
            } else {
                byte
            }
        })
        .collect()
}

/// How many statements a listing has; the mark is none.
fn statements(listing: &[u8]) -> usize {
    listing.iter().filter(|b| **b == b'\n').count() - listing.starts_with(MARK.as_bytes()) as usize
}

fn assembled(listing: &[u8], room: usize) -> (Result<usize, Refusal>, Vec<u8>) {
    let mut image = vec![FILL; room];
    let answer = assemble(listing, &mut image).map(|done| {
        assert_eq!((done.listing, done.rewrites), (0, 0));
        done.image
    });
    (answer, image)
}

/// The image in rooms one byte short, exact and longer.
fn image_rooms(listing: &[u8]) -> Result<Vec<u8>, Refusal> {
    let (answer, image) = assembled(listing, IMAGE_ROOM);
    let n = match answer {
        Ok(n) => n,
        Err(refusal) => {
            assert!(image.iter().all(|b| *b == FILL), "a refusal changed a byte");
            assert!((1..=11).contains(&refusal.number));
            return Err(refusal);
        }
    };
    assert!(image[n..].iter().all(|b| *b == FILL), "a byte behind the image changed");
    for longer in [0, 1, 7] {
        let (again, room) = assembled(listing, n + longer);
        assert_eq!(again, Ok(n));
        assert_eq!(room[..n], image[..n]);
        assert!(room[n..].iter().all(|b| *b == FILL));
    }
    if n > 0 {
        let (short, room) = assembled(listing, n - 1);
        assert_eq!(short, Err(plain(12, statements(listing))));
        assert!(room.iter().all(|b| *b == FILL), "a room that is too short was written to");
    }
    Ok(image[..n].to_vec())
}

#[test]
fn images_and_their_rooms() {
    for (listing, wanted) in CASES {
        let got = image_rooms(listing.as_bytes());
        let wanted = wanted.map(<[u8]>::to_vec).map_err(|(number, place, argument, amount)| Refusal { number, place, argument, amount });
        assert_eq!(got, wanted, "{listing}");
    }
}

#[test]
fn any_bytes_for_assemble() {
    let mut state = 0x9E37_79B9_7F4A_7C15;
    let accepted = (0..10_000).filter(|_| image_rooms(&any_text(&mut state)).is_ok()).count();
    assert!(accepted > 100, "only {accepted} texts were accepted");
}

mod rewriting {
    use super::*;
    use mortarbee::{optimize_jumps, Done, Settings, LISTING_ROOM};

    fn rewritten(listing: &[u8], out_room: usize, image_room: usize) -> (Result<Done, Refusal>, Vec<u8>, Vec<u8>) {
        let (mut out, mut image) = (vec![FILL; out_room], vec![FILL; image_room]);
        let answer = optimize_jumps(Settings { comments: true, ..Settings::default() }, listing, &mut out, &mut image);
        (answer, out, image)
    }

    /// The new listing and its image in rooms one byte short, exact and longer, each room against each.
    fn both_rooms(listing: &[u8]) -> Result<(usize, Vec<u8>, Vec<u8>), Refusal> {
        let (answer, out, image) = rewritten(listing, LISTING_ROOM, IMAGE_ROOM);
        let full = |room: &[u8]| room.iter().all(|b| *b == FILL);
        let done = match answer {
            Ok(done) => done,
            Err(refusal) => {
                assert!(full(&out) && full(&image), "a refusal changed a byte");
                assert_eq!(image_rooms(listing), Err(refusal), "assembling alone is refused alike");
                return Err(refusal);
            }
        };
        let (n, m) = (done.listing, done.image);
        assert!(full(&out[n..]) && full(&image[m..]), "a byte behind the result changed");
        let rooms = |n: usize| [n.checked_sub(1), Some(n), Some(n + 5)].into_iter().flatten();
        for out_room in rooms(n) {
            for image_room in rooms(m) {
                let (again, a, b) = rewritten(listing, out_room, image_room);
                if out_room >= n && image_room >= m {
                    assert_eq!(again, Ok(done));
                    assert!(a[..n] == out[..n] && b[..m] == image[..m] && full(&a[n..]) && full(&b[m..]));
                } else {
                    assert_eq!(again, Err(plain(12, statements(listing))));
                    assert!(full(&a) && full(&b), "a room was written to on refusal 12");
                }
            }
        }
        assert_eq!(image_rooms(&out[..n]).as_deref(), Ok(&image[..m]), "the new listing assembles to the image");
        Ok((done.rewrites, out[..n].to_vec(), image[..m].to_vec()))
    }

    #[test]
    fn the_whole_run() {
        let (rewrites, out, image) = both_rooms(WHOLE_RUN.as_bytes()).unwrap();
        assert_eq!(rewrites, 2);
        assert_eq!(out, b"012F010001\n028001\n0143\n020001\n012C0000000002\n");
        assert_eq!(image, [0x90, 0x01, 0x00, 0x01, 0xFD]);
    }

    /// C-20: a replaced instruction keeps its own source line, and the jump that goes takes its own with it.
    #[test]
    fn the_whole_run_with_source_lines() {
        let listing =
            b"7D02\n010000000A2E018001\n010000000B2B010001\n020000000C8001\n010000000D43\n020000000E0001\n01FFFFFFFF2B0000000005\n";
        let (rewrites, out, image) = both_rooms(listing).unwrap();
        assert_eq!(rewrites, 2);
        assert_eq!(out, b"7D02\n010000000A2F010001\n020000000C8001\n010000000D43\n020000000E0001\n01FFFFFFFF2C0000000002\n");
        assert_eq!(image, [0x90, 0x01, 0x00, 0x01, 0xFD]);
    }

    /// C-15: the target comes out as a number, two bytes longer than its name.
    #[test]
    fn a_constant_as_a_target() {
        let (rewrites, out, image) = both_rooms(b"0300010000000003\n012B010001\n0143\n").unwrap();
        assert_eq!(rewrites, 1);
        assert_eq!(out, b"0300010000000003\n012C0000000002\n0143\n");
        assert_eq!(image, [0x01, 0x00, 0x00]);
    }

    #[test]
    fn cases_and_their_rooms() {
        for (listing, wanted) in CASES {
            let got = both_rooms(listing.as_bytes());
            assert_eq!(got.err().map(|r| (r.number, r.place, r.argument, r.amount)), wanted.err(), "{listing}");
        }
    }

    #[test]
    fn any_bytes_for_optimize_jumps() {
        let mut state = 0x2545_F491_4F6C_DD1D;
        for _ in 0..5_000 {
            let _ = both_rooms(&any_text(&mut state));
        }
    }
}
