//! `settings add F`, `settings drop F`, `settings show`: switches kept by family and edition (C-24).

use crate::answer::{Answer, Stop};
use crate::call::{number_of, two_bytes, Call};
use crate::store;
use border::{Edition, Settings};

pub fn run(call: &Call) -> Result<Answer, Stop> {
    let family = call.file(1).map(|one| number_of(one).map(|_| one)).transpose()?;
    match (call.file(0).and_then(|job| job.to_str()), family) {
        (Some("add"), Some(family)) => add(call, two_bytes(family)?),
        (Some("add"), None) => Err(Stop::Misuse("settings add needs a family's number".into())),
        (Some("drop"), Some(family)) if !call.has_switches() => drop_old(call, two_bytes(family)?),
        (Some("drop"), _) => Err(Stop::Misuse("settings drop takes a family's number alone".into())),
        (Some("show"), None) if !call.has_switches() => show(call),
        (Some("show"), _) => Err(Stop::Misuse("settings show takes the store alone".into())),
        _ => Err(Stop::Misuse("settings takes add, drop or show".into())),
    }
}

fn add(call: &Call, family: u16) -> Result<Answer, Stop> {
    let mut store = store::take(call, true)?;
    match border::add_edition(&mut store.bytes, family, call.settings()) {
        Ok(edition) => {
            store.put()?;
            let done = format!("mortarbee: {} has the new edition, {edition}\n", store.name);
            Ok(Answer { done, ..Answer::good(format!("{edition}\n")).saying(store.novelty()) })
        }
        Err(refusal) => Ok(Answer::refused(refusal, store.refusal(refusal, Some(family)))),
    }
}

fn drop_old(call: &Call, family: u16) -> Result<Answer, Stop> {
    let mut store = store::take(call, true)?;
    match border::drop_old(&mut store.bytes, family) {
        Ok(_) => store.put().map(|()| Answer::good("")),
        Err(refusal) => Ok(Answer::refused(refusal, store.refusal(refusal, Some(family)))),
    }
}

/// One line a setting: the family, the edition, and the switches that are on.
fn show(call: &Call) -> Result<Answer, Stop> {
    let store = store::take(call, false)?;
    let settings = match store.settings() {
        Ok(settings) => settings,
        Err(refusal) => return Ok(Answer::refused(refusal, store.refusal(refusal, None))),
    };
    let line = |(family, edition): &(u16, Edition)| {
        let Settings { comments, callf, folds } = edition.settings;
        let on = [(comments, " comments"), (callf, " callf"), (folds, " folds")].map(|(is_on, name)| if is_on { name } else { "" });
        format!("{family} {}{}\n", edition.number, on.concat())
    };
    Ok(Answer::good(settings.iter().map(line).collect::<String>()).saying(store.absence()))
}
