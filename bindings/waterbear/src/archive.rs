//! The one place that calls Mortarbee: a listing goes in, its image, the new frames, their stems and the new image come out.
use crate::frames::frames_of;

pub struct Answer {
    /// The image of the listing as it stands.
    pub before: Vec<u8>,
    /// The new listing's frames, without their source lines.
    pub frames: Vec<Vec<u8>>,
    /// The place that each of them stems from.
    pub stems: Vec<usize>,
    pub image: Vec<u8>,
}

pub struct Refusal {
    pub number: u8,
    pub place: usize,
    /// The line that the program prints.
    pub line: String,
}

pub fn optimized(listing: &[u8]) -> Result<Answer, Refusal> {
    let mut out = vec![0; mortarbee::LISTING_ROOM];
    let mut image = vec![0; mortarbee::IMAGE_ROOM];
    let mut list = vec![0; mortarbee::STEMS_ROOM];
    let told = |refusal: mortarbee::Refusal| {
        let line = format!("7E{:02X}{:04X}{:02X}{:08X}", refusal.number, refusal.place, refusal.argument, refusal.amount);
        Refusal { number: refusal.number, place: refusal.place, line }
    };
    let before = mortarbee::assemble(listing, &mut image).map(|done| image[..done.image].to_vec()).map_err(told)?;
    let settings = mortarbee::Settings::default();
    let (done, count) = mortarbee::optimize_stems(settings, listing, &mut out, &mut image, &mut list).map_err(told)?;
    image.truncate(done.image);
    let stems = list[..2 * count].chunks(2).map(|pair| 256 * pair[0] as usize + pair[1] as usize).collect();
    Ok(Answer { before, frames: frames_of(&out[..done.listing]), stems, image })
}
