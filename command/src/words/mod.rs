//! The words: one file each, and which function a name runs.

#[cfg(feature = "all")]
mod audit;
#[cfg(feature = "core")]
mod batch;
#[cfg(feature = "core")]
mod check;
#[cfg(feature = "all")]
mod differences;
mod explain;
mod help;
#[cfg(feature = "core")]
mod image;
#[cfg(feature = "core")]
mod judge;
#[cfg(feature = "all")]
mod map;
#[cfg(feature = "core")]
mod optimize;
#[cfg(feature = "all")]
mod page;
#[cfg(feature = "all")]
mod read;
#[cfg(feature = "all")]
mod read_back;
#[cfg(feature = "all")]
mod salvage;
#[cfg(feature = "all")]
mod settings;
#[cfg(feature = "core")]
mod stems;
#[cfg(feature = "all")]
mod steps;
#[cfg(feature = "core")]
mod targets;
#[cfg(feature = "core")]
pub mod text;
mod version;
#[cfg(feature = "core")]
mod where_;
#[cfg(feature = "all")]
pub mod why;

use crate::answer::{Answer, Stop};
use crate::call::Call;

pub type Run = fn(&Call) -> Result<Answer, Stop>;

/// What a word runs; nothing where this build is without it.
pub fn run_of(name: &str) -> Option<Run> {
    Some(match name {
        "explain" => explain::run,
        "help" => help::run,
        "version" => version::run,
        _ => return archived(name),
    })
}

#[cfg(feature = "core")]
fn archived(name: &str) -> Option<Run> {
    Some(match name {
        "optimize" => optimize::run,
        "judge" => judge::run,
        "check" => check::run,
        "image" => image::run,
        "text" => text::run,
        "where" => where_::run,
        "stems" => stems::run,
        "targets" => targets::run,
        "batch" => batch::run,
        _ => return beyond_core(name),
    })
}

#[cfg(feature = "all")]
fn beyond_core(name: &str) -> Option<Run> {
    Some(match name {
        "read" => read::run,
        "read-back" => read_back::run,
        "salvage" => salvage::run,
        "differences" => differences::run,
        "steps" => steps::run,
        "map" => map::run,
        "why" => why::run,
        "page" => page::run,
        "audit" => audit::run,
        "settings" => settings::run,
        _ => return None,
    })
}

#[cfg(not(feature = "core"))]
fn archived(_: &str) -> Option<Run> {
    None
}

#[cfg(all(feature = "core", not(feature = "all")))]
fn beyond_core(_: &str) -> Option<Run> {
    None
}
