//! What document 01's program prints, the 7E line, the statement count, all positions and a store's places, each held to what other entries say.
use mortarbee::{add_edition, check, drop_old, get_edition, owned, positions, print_run, show_place, where_sits};
use mortarbee::{Edition, Refusal, Settings, STORE_ROOM};

fn examples() -> Vec<(Vec<u8>, Vec<u8>)> {
    let folder = std::path::Path::new(env!("CARGO_MANIFEST_DIR")).join("../../examples");
    let names = std::fs::read_dir(folder).expect("examples").map(|one| one.expect("a name").path());
    let read = |path: &std::path::Path| std::fs::read(path).expect("an example");
    names
        .filter(|path| path.extension().is_some_and(|end| end == "lst"))
        .map(|path| (read(&path), read(&path.with_extension("out"))))
        .collect()
}

#[test]
fn prints_what_stands_beside_the_examples() {
    for (listing, answer) in examples() {
        match print_run(Settings::default(), &listing) {
            Ok(page) => {
                assert_eq!(page.page, answer);
                let run = owned::optimize_jumps(Settings::default(), &listing).expect("it is accepted");
                let last = format!("7F{:04X}{:06X}\n", run.rewrites, run.image.len());
                assert_eq!(page.parts(), (run.listing.as_slice(), last.as_bytes()));
                assert_eq!((page.rewrites, page.image), (run.rewrites, run.image));
            }
            Err(refusal) => {
                assert_eq!(format!("{}\n", refusal.line()).into_bytes(), answer);
                assert_eq!(refusal.line().parse(), Ok(refusal));
            }
        }
    }
}

#[test]
fn lines_of_refusals_carry_their_numbers() {
    for (number, place, argument, amount) in [(8, 0, 0, -1), (10, 1023, 2, -129), (12, 1024, 0, 0), (15, 7, 0, 1024), (19, 0, 0, 0)] {
        let refusal = Refusal { number, place, argument, amount };
        assert_eq!(refusal.line(), format!("7E{number:02X}{place:04X}{argument:02X}{amount:08X}"));
        assert_eq!(refusal.line().parse(), Ok(refusal));
    }
}

#[test]
fn all_positions_are_those_of_each_statement() {
    for (listing, _) in examples() {
        let Ok(count) = check(&listing) else {
            assert_eq!(check(&listing).unwrap_err(), owned::text(&listing).unwrap_err());
            assert_eq!(positions(&listing).unwrap_err(), owned::text(&listing).unwrap_err());
            continue;
        };
        assert_eq!(count, owned::text(&listing).expect("a text").iter().filter(|c| **c == b'\n').count());
        let each: Result<Vec<usize>, Refusal> = (0..=count).map(|n| where_sits(&listing, n)).collect();
        assert_eq!(positions(&listing), each);
    }
    assert_eq!(positions(b""), Ok(vec![0]));
    assert_eq!(positions(&b"0143\n".repeat(1024)).map(|all| (all.len(), all[1024])), Ok((1025, 1024)));
    assert_eq!(positions(&b"0143\n".repeat(1025)).unwrap_err().number, 2);
    assert_eq!(positions(b"0143\n050000\n").unwrap_err().number, 5);
}

#[test]
fn places_of_a_store_are_shown() {
    let mut store = vec![0; STORE_ROOM];
    let quiet = Settings { comments: true, callf: false, folds: false };
    assert_eq!(add_edition(&mut store, 7, quiet), Ok(1));
    assert_eq!(add_edition(&mut store, 7, Settings::default()), Ok(2));
    assert_eq!(drop_old(&mut store, 7), Ok(2));
    assert_eq!(add_edition(&mut store, 9, quiet), Ok(1));
    let held: Vec<_> = (0..40).filter_map(|k| show_place(&store, k).expect("a good store")).collect();
    assert_eq!(held.len(), 2);
    assert!(held.contains(&(9, Edition { number: 1, settings: quiet })));
    for (family, edition) in held {
        assert_eq!(get_edition(&store, family, edition.number), Ok(edition));
    }
    assert_eq!(show_place(&store, usize::MAX), Ok(None));
    assert_eq!(show_place(&store[..STORE_ROOM - 1], 0).unwrap_err().number, 12);
    store[4] = 8;
    store[3] = 1;
    assert_eq!(show_place(&store, 1).unwrap_err().number, 19);
}
