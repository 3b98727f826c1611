//! `audit LISTING IMAGE`: whether an image is what its long listing shrinks to. The status is 1 also where they differ.

use crate::answer::{Answer, Stop};
use crate::call::Call;
use crate::diagnose;
use crate::files;
use border::{Finding, Origin};

pub fn run(call: &Call) -> Result<Answer, Stop> {
    let (Some(listing), Some(image)) = (call.file(0), call.file(1)) else {
        return Err(Stop::Misuse("audit takes a listing and an image".into()));
    };
    if listing == "-" && image == "-" {
        return Err(Stop::Misuse("standard input can be one of the files alone".into()));
    }
    let image = files::take(Some(image))?;
    let input = files::take(Some(listing))?;
    Ok(match border::audit(call.settings(), &input.bytes, &image.bytes) {
        Ok(finding) => told(finding, image.bytes.len()).saying(input.warning()),
        Err(refusal) => Answer::refused(refusal, diagnose::of_listing(&input.name, refusal, &input.bytes)),
    })
}

/// The line 77, and the finding in words.
fn told(finding: Finding, bytes: usize) -> Answer {
    let said = match finding {
        Finding::Same => format!("the same: {bytes} bytes"),
        Finding::Differs { address, wanted, shipped, origin } => {
            format!("differs: at {address:06X} the listing has {wanted:02X}, the image {shipped:02X}{}", whose(origin))
        }
        Finding::Short { address, origin } => format!("differs: the image ends at {address:06X}{}", whose(origin)),
        Finding::Long { address } => format!("differs: the image goes on at {address:06X}, where what the listing shrinks to ends"),
    };
    let status = i32::from(finding != Finding::Same);
    Answer { status, ..Answer::good(format!("{finding}\n")).saying(said + "\n") }
}

/// Whose byte it is.
fn whose(origin: Option<Origin>) -> String {
    match origin {
        Some(Origin { statement, offset }) => format!("; byte {offset} of statement {statement}"),
        None => "; a gap, no statement's byte".into(),
    }
}
