//! C-17 and C-24: addresses, editions in a store of 160 bytes and more, and runs under them.
use mortarbee::{
    add_edition, assemble, drop_old, get_edition, get_newest, optimize_jumps, optimize_jumps_under, where_sits, Edition, Refusal, Settings,
    IMAGE_ROOM, LISTING_ROOM, STORE_ROOM,
};

/// A refusal about no argument.
fn refusal<T>(number: u8, place: usize) -> Result<T, Refusal> {
    Err(Refusal { number, place, argument: 0, amount: 0 })
}

#[test]
fn where_statements_sit() {
    let listing = b"0143\n050010\n0143\n08010004\n020001\n";
    for (n, at) in [0, 1, 16, 17, 21, 21].into_iter().enumerate() {
        assert_eq!(where_sits(listing, n), Ok(at));
    }
    assert_eq!(where_sits(listing, 6), refusal(14, 0));
    assert_eq!(where_sits(listing, usize::MAX), refusal(14, 0));
    assert_eq!(where_sits(b"", 0), Ok(0));
    assert_eq!(where_sits(b"99\n0143\n", 0), Ok(0));
    assert_eq!(where_sits(b"0143\n99\n", 1), Ok(1));
    assert_eq!(where_sits(b"0143\n99\n", 2), refusal(1, 1));
    assert_eq!(where_sits(b"0143\n050000\n", 2), refusal(5, 1));
    assert_eq!(where_sits(b"05FFFF\n0143\n0143\n", 2), Ok(65_536));
    assert_eq!(where_sits(b"05FFFF\n0143\n0143\n", 3), refusal(6, 2));
    assert_eq!(where_sits(b"7D02\n010000000143\n", 1), Ok(1));
}

/// The end position is the image's length, where the last statement has bytes.
#[test]
fn the_end_is_the_image() {
    for listing in
        ["0143\n", "012E018001\n012B010001\n028001\n0143\n020001\n012B0000000005\n", "050100\n012D0000000100\n", "0143\n07010000001234\n"]
    {
        let mut image = vec![0; IMAGE_ROOM];
        let done = assemble(listing.as_bytes(), &mut image).unwrap();
        assert_eq!(where_sits(listing.as_bytes(), listing.lines().count()), Ok(done.image));
    }
}

const QUIET: Settings = Settings { comments: false, callf: false, folds: false };
const LOUD: Settings = Settings { comments: true, callf: true, folds: true };

fn held(number: u16, settings: Settings) -> Result<Edition, Refusal> {
    Ok(Edition { number, settings })
}

#[test]
fn editions_are_added_found_and_dropped() {
    let mut store = vec![0; STORE_ROOM + 7];
    store[STORE_ROOM..].fill(0xA5);
    assert_eq!(get_newest(&store, 7), refusal(17, 0));
    assert_eq!(add_edition(&mut store, 7, QUIET), Ok(1));
    assert_eq!(add_edition(&mut store, 7, LOUD), Ok(2));
    assert_eq!(add_edition(&mut store, 0, Settings::default()), Ok(1));
    assert_eq!(store[..15], [0, 7, 0, 1, 0, 0, 7, 0, 2, 7, 0, 0, 0, 1, 6]);
    assert_eq!(get_edition(&store, 7, 1), held(1, QUIET));
    assert_eq!(get_edition(&store, 7, 2), held(2, LOUD));
    assert_eq!(get_edition(&store, 7, 0), refusal(17, 0));
    assert_eq!(get_edition(&store, 7, 3), refusal(17, 0));
    assert_eq!(get_newest(&store, 7), held(2, LOUD));
    assert_eq!(get_newest(&store, 0), held(1, Settings::default()));
    assert_eq!(drop_old(&mut store, 7), Ok(2));
    assert_eq!(store[..15], [0, 0, 0, 0, 0, 0, 7, 0, 2, 7, 0, 0, 0, 1, 6]);
    assert_eq!(get_edition(&store, 7, 1), refusal(17, 0));
    assert_eq!(add_edition(&mut store, 7, QUIET), Ok(3));
    assert_eq!(drop_old(&mut store, 8), refusal(17, 0));
    assert!(store[STORE_ROOM..].iter().all(|b| *b == 0xA5), "a byte beyond the store changed");
}

/// Each refusal of a store, from each function: no byte changes.
#[test]
fn refusals_of_a_store() {
    let mut full = vec![0; STORE_ROOM];
    for n in 1..=32 {
        assert_eq!(add_edition(&mut full, 1, QUIET), Ok(n));
    }
    let mut last = vec![0; STORE_ROOM];
    last[..5].copy_from_slice(&[0, 1, 0xFF, 0xFF, 0]);
    for (store, number) in [(full, 18), (last, 18)] {
        let mut room = store.clone();
        assert_eq!(add_edition(&mut room, 1, LOUD), refusal(number, 0));
        assert_eq!(room, store);
    }
    let twice = [[0, 1, 0, 1, 0], [0, 1, 0, 1, 7]].concat();
    for (number, head) in [(12, vec![0; STORE_ROOM - 1]), (19, twice), (19, vec![0, 1, 0, 0, 0]), (19, vec![0, 1, 0, 1, 8])] {
        let mut store = head;
        store.resize(if number == 12 { STORE_ROOM - 1 } else { STORE_ROOM }, 0);
        let mut room = store.clone();
        assert_eq!(add_edition(&mut room, 1, LOUD), refusal(number, 0));
        assert_eq!(drop_old(&mut room, 1), refusal(number, 0));
        assert_eq!(get_edition(&room, 1, 1), refusal(number, 0));
        assert_eq!(get_newest(&room, 1), refusal(number, 0));
        assert_eq!(optimize_jumps_under(&room, 1, 1, b"0143\n", &mut [0; 9], &mut [0; 9]), refusal(number, 0));
        assert_eq!(room, store, "a refusal changed a byte");
    }
}

/// Under an edition, and under the newest: as under its settings. An unknown one comes before all that is wrong with the listing.
#[test]
fn runs_under_an_edition() {
    let listing = b"04AA\n012E018001\n012B010001\n028001\n0143\n020001\n012B0000000005\n";
    let mut store = vec![0; STORE_ROOM];
    for settings in [QUIET, LOUD, Settings::default()] {
        let edition = add_edition(&mut store, 0x1234, settings).unwrap();
        let (mut out, mut image) = (vec![0xA5; LISTING_ROOM], vec![0xA5; IMAGE_ROOM]);
        let wanted = optimize_jumps(settings, listing, &mut out, &mut image);
        assert!(wanted.is_ok());
        for number in [edition, 0] {
            let (mut out_under, mut image_under) = (vec![0xA5; LISTING_ROOM], vec![0xA5; IMAGE_ROOM]);
            assert_eq!(optimize_jumps_under(&store, 0x1234, number, listing, &mut out_under, &mut image_under), wanted);
            assert!(out == out_under && image == image_under);
        }
    }
    let (mut out, mut image) = ([0xA5; 9], [0xA5; 9]);
    for (family, edition) in [(0x1234, 4), (0x1233, 1), (0x1233, 0)] {
        assert_eq!(optimize_jumps_under(&store, family, edition, b"99\n", &mut out, &mut image), refusal(17, 0));
    }
    assert_eq!(optimize_jumps_under(&store, 0x1234, 0, b"0143\n99\n", &mut out, &mut image), refusal(1, 1));
    assert!(out == [0xA5; 9] && image == [0xA5; 9]);
}
