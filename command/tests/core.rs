//! The command over the archive of the main job: its words answer, and the others say what they need, or hand over to the script.
#![cfg(all(feature = "core", not(feature = "all")))]

mod kit;

use kit::Folder;

#[test]
fn the_words_of_the_main_job_answer() {
    let f = Folder::new("core");
    assert_eq!(f.wrote("m good.lst"), "012F010001\n028001\n0143\n020001\n012C0000000002\n7F0002000005\n");
    assert_eq!(f.wrote("m judge good.lst"), "good 6 9\n");
    assert_eq!(f.wrote("m check good.lst"), "good 6\n");
    assert_eq!(f.wrote("m image --hex good.lst"), "000000: 80 03 21 00 06 00 21 00 05\n000009:\n");
    assert_eq!(f.wrote("m text good.lst"), "bz .l00001\njmpf g00001\n.l00001:\nnop\ng00001:\njmpf 5\n");
    assert_eq!(f.wrote("m where 3 good.lst"), "000005\n");
    assert_eq!(f.wrote("m stems good.lst"), "0000\n0002\n0003\n0004\n0005\n");
    assert!(f.wrote("m targets good.lst").starts_with("74000000000100000006"));
    assert!(f.wrote("m batch good.lst").ends_with("IMAGE 0 90010001FD\n==\n"));
    assert_eq!(f.wrote("m optimize --listing l --image i --stems s good.lst && cat l | wc -l").trim(), "7F0002000005\n5");
    assert_eq!(f.status("m bad.lst"), Some(1));
    assert!(f.said("m bad.lst").starts_with("bad.lst:1:5: error: refused 1, statement 0: "));
}

#[test]
fn other_words_hand_over_to_the_script() {
    let f = Folder::new("rest");
    f.write("script", "#!/bin/sh\necho needs $MORTARBEE_NEEDS: $*\n");
    let as_script = |line: &str| {
        f.wrote(&format!("chmod +x script; unset MORTARBEE_NEEDS; MORTARBEE_SCRIPT=./script; export MORTARBEE_SCRIPT; {line}"))
    };
    assert_eq!(as_script("m steps good.lst"), "needs all: steps good.lst\n");
    assert_eq!(as_script("m optimize --store s --family 7 good.lst"), "needs all: optimize --store s --family 7 good.lst\n");
    assert_eq!(as_script("m judge good.lst"), "good 6 9\n");
    assert_eq!(as_script("m steps nothing.lst"), "");
    assert!(f.said("m steps good.lst").contains("built without what steps needs"));
    assert_eq!(f.status("m steps nothing.lst"), Some(2));
}
