//! C-19 over the archive: texts for people read into listings, the columns of lines that are refused, and the room one byte short, exact
//! and longer.
use mortarbee::{read, text, READ_ROOM, TEXT_ROOM};

fn listing(text: &str) -> String {
    let mut room = vec![0; READ_ROOM];
    let n = read(text.as_bytes(), &mut room).unwrap();
    String::from_utf8(room[..n].to_vec()).unwrap()
}

fn refused(text: &[u8]) -> (u8, usize, i32) {
    let mut room = vec![7; READ_ROOM];
    let r = read(text, &mut room).unwrap_err();
    assert_eq!(room, vec![7; READ_ROOM]);
    (r.number, r.place, r.amount)
}

#[test]
fn reads_what_is_written() {
    let lines = "012E018001\n012B010001\n028001\n0143\n020001\n012B0000000005\n08FF0100\n04\n040AFF\n05FFFF\n060201000700000000FF\n";
    let mut room = vec![0; TEXT_ROOM];
    let n = text(lines.as_bytes(), &mut room).unwrap();
    assert_eq!(listing(std::str::from_utf8(&room[..n]).unwrap()), lines);
    assert_eq!(listing(""), "");
}

#[test]
fn groups_as_asked() {
    assert_eq!(listing("g00000=1-2-3\n"), listing("g00000=(1-2)-3\n"));
    assert_eq!(listing("g00000=1+2&3\n"), listing("g00000=(1+2)&3\n"));
    assert_eq!(listing("g00000=1|2^3&4\n"), listing("g00000=1|(2^(3&4))\n"));
    assert_eq!(listing("g00000=1&2+3*4\n"), listing("g00000=1&(2+(3*4))\n"));
    assert_eq!(listing("g00000=-g00002*2\n"), listing("g00000=(-(g00002))*2\n"));
    assert_eq!(listing("g00000=1 - -5\n"), "030000110000000001 00FFFFFFFB\n".replace(' ', ""));
    assert_eq!(listing("g00000=- 5\n"), "0300002000 00000005\n".replace(' ', ""));
}

#[test]
fn columns() {
    assert_eq!(refused(b"nop\nadd #x\n"), (15, 1, 5));
    assert_eq!(refused(b"\n"), (15, 0, 0));
    assert_eq!(refused(b"nop"), (15, 0, 3));
    assert_eq!(refused(b"g00000=2147483648\n"), (15, 0, 16));
    assert_eq!(refused(b"g32768:\n"), (15, 0, 5));
    assert_eq!(refused(b"g00000=1 \n"), (15, 0, 9));
    assert_eq!(refused(b".byte 1,2,3,4,5,6,7,8,9,10,11,12,13,14,15,16,17\n"), (15, 0, 44));
    assert_eq!(refused(b"nop\r\n"), (15, 0, 3));
}

#[test]
fn limits_then_the_room() {
    let of = |zeros| format!("g00000={}1\n", "0".repeat(zeros));
    assert_eq!(refused(of(1017).as_bytes()), (2, 0, 0));
    assert_eq!(listing(&of(1016)), "0300000000000001\n");
    assert_eq!(refused(b"g00000=1+1+1+1+1+1\n"), (2, 0, 0));
    assert_eq!(refused("nop\n".repeat(1025).as_bytes()), (2, 1024, 0));
    let mut room = [7; 13];
    let short = read(b"nop\ng00000:\n", &mut room[..11]).unwrap_err();
    assert_eq!((short.number, short.place), (12, 2));
    assert_eq!(room, [7; 13]);
    assert_eq!(read(b"nop\ng00000:\n", &mut room), Ok(12));
    assert_eq!(&room, b"0143\n020000\n\x07");
}
