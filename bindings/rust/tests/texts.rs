//! C-16 over the archive: listings as text for people, and the room one byte short, exact and longer.
use mortarbee::{text, TEXT_ROOM};

fn written(listing: &str) -> String {
    let mut room = vec![0; TEXT_ROOM];
    let n = text(listing.as_bytes(), &mut room).unwrap();
    String::from_utf8(room[..n].to_vec()).unwrap()
}

#[test]
fn writes_one_line_a_statement() {
    assert_eq!(written(""), "");
    assert_eq!(written("7D02\n"), "");
    assert_eq!(
        written("012E018001\n012B010001\n028001\n0143\n020001\n012B0000000005\n"),
        "bz .l00001\njmpf g00001\n.l00001:\nnop\ng00001:\njmpf 5\n"
    );
    assert_eq!(written("030001100000000001200000000005\n"), "g00001=1+(-(5))\n");
    assert_eq!(written("7D02\n0800000007FF0100\n0400000000\n"), ".align 255,256\n.comment\n");
    assert_eq!(written("0142000000010D0000000007\n01370100000000100000000003\n"), "not1 269,7\nbe @R1,#16,3\n");
}

#[test]
fn refuses_as_any_listing_then_the_room() {
    let mut room = [7; 13];
    assert_eq!(text(b"0143\n0146\n", &mut room).unwrap_err().number, 1);
    let short = text(b"0143\n020000\n", &mut room[..11]).unwrap_err();
    assert_eq!((short.number, short.place), (12, 2));
    assert_eq!(room, [7; 13]);
    assert_eq!(text(b"0143\n020000\n", &mut room), Ok(12));
    assert_eq!(&room, b"nop\ng00000:\n\x07");
}
