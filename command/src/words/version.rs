//! `version`: its number, the commit, the toolchain's identity, and the checksum of the program.

use crate::answer::{Answer, Stop};
use crate::call::Call;
use crate::sha256::sha256;

pub fn run(_: &Call) -> Result<Answer, Stop> {
    let program = std::env::current_exe().and_then(std::fs::read).map_or("not known".into(), |bytes| sha256(&bytes));
    let commit = env!("MORTARBEE_COMMIT");
    let toolchain = env!("MORTARBEE_TOOLCHAIN");
    let version = env!("CARGO_PKG_VERSION");
    Ok(Answer::good(format!("version {version}\ncommit {commit}\ntoolchain {toolchain}\nprogram {program}\n")))
}
