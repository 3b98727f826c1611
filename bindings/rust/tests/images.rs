//! C-21 over the archive: what is read back assembles to the same bytes.
use mortarbee::{assemble, read_back, IMAGE_ROOM, LISTING_ROOM};

fn back(image: &[u8], start: usize) -> Vec<u8> {
    let mut listing = vec![0; LISTING_ROOM];
    let n = read_back(image, start, &mut listing).unwrap();
    listing.truncate(n);
    listing
}

#[test]
fn gives_the_same_bytes() {
    // a firmware's size: 1,000 far jumps
    let image: Vec<u8> = (0..1000).flat_map(|k: u32| [0x21, (k / 4) as u8, k as u8]).collect();
    let mut room = vec![0; IMAGE_ROOM];
    let done = assemble(&back(&image, 0), &mut room).unwrap();
    assert_eq!(&room[..done.image], &image[..]);
    let done = assemble(&back(&image, 1500), &mut room).unwrap();
    assert_eq!(&room[1500..done.image], &image[1500..]);
}

#[test]
fn refuses_a_start_beyond_the_end() {
    let mut listing = [7; 20];
    assert_eq!(read_back(&[0], 2, &mut listing).unwrap_err().number, 16);
    assert_eq!(listing, [7; 20]);
    assert_eq!(read_back(&[0], 1, &mut listing), Ok(0));
}
