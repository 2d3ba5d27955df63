//! Random sheets at any limits.

use super::damage::{damage_limits, damage_sheet};
use super::{Profile, random_sheet};
use crate::limits::LimitSheet;
use crate::rng::Rng;
use crate::sheet::Job;
use crate::version::{MOST_LIMIT, USUAL_RUN, USUAL_TAIL, Version};

/// A random sheet: four in five are of version 2, the others of version 1; halls are of version 3. About one in five is one that numbers 1
/// to 9 refuse.
pub fn random_limit_sheet(rng: &mut Rng, profile: Profile) -> LimitSheet {
    let mut sheet = random_sheet(rng, profile);
    if rng.percent(20) {
        return LimitSheet(sheet);
    }
    if let Ok(mut job) = Job::read(&sheet.bytes) {
        if job.version == Version::ONE {
            job.version = Version::TWO;
        }
        set_limits(rng, &mut job);
        if rng.percent(4) {
            damage_limits(rng, &mut job);
        }
        sheet.bytes = job.bytes();
        if rng.percent(4) {
            damage_sheet(rng, &mut job, &mut sheet);
        }
    }
    LimitSheet(sheet)
}

/// Limits of 1 to 15, often small ones, at which repeaters are due: each drawn by itself, all sinks alike, those of version 1, or the least
/// and the greatest.
pub fn set_limits(rng: &mut Rng, job: &mut Job) {
    let limit = |rng: &mut Rng| {
        let most = rng.pick(&[4, MOST_LIMIT]);
        rng.between(1, most.into()) as u8
    };
    let way = rng.below(8);
    let (run, tail) = match way {
        0 => (USUAL_RUN, USUAL_TAIL),
        1 => (rng.pick(&[1, MOST_LIMIT]), rng.pick(&[1, MOST_LIMIT])),
        2 => (limit(rng), USUAL_TAIL),
        _ => (limit(rng), limit(rng)),
    };
    job.run = run;
    for sink in &mut job.sinks {
        sink.tail = if way > 3 { limit(rng) } else { tail };
    }
}
