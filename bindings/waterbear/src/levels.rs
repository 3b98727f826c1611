//! How a listing is written: four ways, each shorter than the one before, and which of them may be taken.

#[derive(Clone, Copy, Debug, PartialEq, Eq, PartialOrd, Ord)]
pub enum Level {
    /// Every statement as it is: the image of the listing is the image.
    Whole,
    /// The same, but constant data as words, runs of zeros as pads of multiple 1, and constants with operators as numbers.
    Packed,
    /// Only what the rewriting looks at. Data and instructions that hold no label and transfer nothing have a size and no more: pads of
    /// multiple 1 stand for a run of them. Constants go. Argued, not proved.
    Skeleton,
    /// The same without branches that can neither be folded nor come to be too long, and without labels that nothing else names. Argued,
    /// not proved.
    Bare,
}

/// What one writing is asked for.
#[derive(Clone, Copy)]
pub struct Options {
    pub level: Level,
    /// A target that holds a name but no label stays as written, as in waterbear (C-15 off).
    pub constants_stay: bool,
    /// Data that holds a label may come to be negative, as in waterbear (DIFF-13 and 14 off).
    pub negative_items: bool,
}

fn is_set(name: &str) -> bool {
    std::env::var_os(name).is_some_and(|value| !value.is_empty() && value != "0")
}

#[cfg(feature = "tests")]
fn for_tests(name: &str) -> Option<String> {
    std::env::var(name).ok()
}

#[cfg(not(feature = "tests"))]
fn for_tests(_: &str) -> Option<String> {
    None
}

/// The ways that are tried, in this order.
pub fn allowed() -> Vec<Options> {
    let mut levels = vec![Level::Whole, Level::Packed];
    if is_set("MORTARBEE_SKELETON") {
        levels.push(Level::Skeleton);
    }
    if is_set("MORTARBEE_BARE") {
        levels.push(Level::Bare);
    }
    if let Some(first) = for_tests("MORTARBEE_LEVEL") {
        let all = [Level::Whole, Level::Packed, Level::Skeleton, Level::Bare];
        levels = all[first.parse::<usize>().unwrap_or(0).min(3)..].to_vec();
    }
    let constants_stay = for_tests("MORTARBEE_CONSTANTS").as_deref() == Some("stay");
    let negative_items = for_tests("MORTARBEE_ITEMS").as_deref() == Some("negative");
    levels.into_iter().map(|level| Options { level, constants_stay, negative_items }).collect()
}
