//! What a run is asked for, and what a finished one left in the lent rooms.

/// What a run is asked for. By default comments go from the new listing, Callf is tried as Call, and folds are tried.
#[derive(Clone, Copy, Debug, PartialEq, Eq)]
pub struct Settings {
    pub comments: bool,
    pub callf: bool,
    pub folds: bool,
}

impl Default for Settings {
    fn default() -> Self {
        Settings { comments: false, callf: true, folds: true }
    }
}

/// What a finished run left in the lent rooms. What lies behind is unchanged.
#[derive(Clone, Copy, Debug, PartialEq, Eq)]
pub struct Done {
    /// Bytes of the listing room, the line 7F not among them.
    pub listing: usize,
    pub rewrites: usize,
    /// Bytes of the image room.
    pub image: usize,
}

/// How many transfers an output has, and how many of them need eyes.
#[derive(Clone, Copy, Debug, PartialEq, Eq)]
pub struct Targets {
    pub transfers: usize,
    pub marked: usize,
}

/// What `salvage` left in the lent rooms.
#[derive(Clone, Copy, Debug, PartialEq, Eq)]
pub struct Saved {
    pub statements: usize,
    /// Bytes of the listing room, and of the report room.
    pub listing: usize,
    pub report: usize,
}

/// An edition of a family: its number from 1 on, and the settings of a run under it.
#[derive(Clone, Copy, Debug, PartialEq, Eq)]
pub struct Edition {
    pub number: u16,
    pub settings: Settings,
}
