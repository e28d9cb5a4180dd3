//! What a generated tape is like: how many names it draws from, how its
//! clock runs, which settings and calls it takes.

use crate::random::Random;

pub const NAMES: [&str; 11] = [
    "few", "full", "gates", "silences", "extreme", "last", "damaged", "mixed", "soak", "crowded",
    "reconnects",
];

#[derive(Clone, Copy, PartialEq, Eq)]
pub enum Settings {
    Default,
    /// Short intervals of a few nanoseconds, small limits.
    Small,
    /// The same, with small silent counts and room for answers.
    Gates,
    /// 0, 1 and values near the ends.
    Extreme,
    /// Long handshakes, so that links and names fill up.
    Long,
    /// Refusals that start at a nanosecond or two and are never forgotten.
    Silences,
    /// Refusals that last, and room for few answers, which wait long.
    Crowded,
    /// No refusals, answers that wait long.
    Reconnects,
}

#[derive(Clone, Copy, PartialEq, Eq)]
pub enum Pace {
    /// Mostly still or at a time the table waits for.
    Near,
    /// Hardly moving.
    Slow,
    /// Anywhere, back too.
    Wild,
}

#[derive(Clone)]
pub struct Profile {
    pub peers: u64,
    pub pairs: u64,
    pub digests: u64,
    pub epochs: u64,
    /// Of 100 msg1s for a held peer, how many carry its epoch.
    pub same: u64,
    /// Of 100 peers drawn, how many are drawn again until one has no place.
    pub fresh: u64,
    /// Of 100 fresh answers, how many are sent next, the clock as it is.
    pub follow: u64,
    /// Of 100 calls, how many begin a planned run.
    pub plan: u64,
    /// How many messages there are.
    pub messages: u64,
    pub calls: usize,
    pub settings: Settings,
    pub pace: Pace,
    /// The clock starts this far below its last reading.
    pub clock_left: Option<u64>,
    /// Link numbers start this far below 2^64 - 1.
    pub near_last: Option<u64>,
    /// Of 100 records, how many are damaged.
    pub damage: u64,
    /// Weights of the calls 1 to 16.
    pub weights: [u64; 16],
}

//                     dial ab ar m1 rp se un m2 rs hd rm po cl pa re wk
const EVEN: [u64; 16] = [10, 3, 6, 14, 6, 14, 4, 10, 2, 6, 6, 5, 1, 8, 5, 4];
const FEW: [u64; 16] = [14, 2, 6, 14, 5, 16, 4, 14, 2, 5, 5, 4, 1, 7, 4, 3];
const GATES: [u64; 16] = [4, 2, 1, 34, 14, 8, 1, 4, 1, 7, 8, 4, 0, 1, 1, 1];
const SILENT: [u64; 16] = [2, 2, 1, 40, 10, 8, 1, 2, 1, 1, 24, 4, 0, 1, 1, 1];
const FULL: [u64; 16] = [26, 1, 3, 26, 3, 18, 1, 6, 1, 1, 5, 1, 0, 9, 2, 1];
const AGAIN: [u64; 16] = [6, 2, 16, 14, 16, 8, 3, 5, 1, 2, 8, 2, 1, 10, 5, 1];
const NAMED: [u64; 16] = [8, 3, 1, 30, 4, 30, 1, 6, 1, 1, 20, 1, 0, 2, 2, 1];

/// The profile `name`, varied by the draw.
pub fn named(name: &str, r: &mut Random) -> Option<Profile> {
    let even = Profile {
        peers: 4,
        pairs: 5,
        digests: 4,
        epochs: 3,
        same: 50,
        fresh: 0,
        follow: 20,
        plan: 1,
        messages: 4,
        calls: 120,
        settings: Settings::Default,
        pace: Pace::Near,
        clock_left: None,
        near_last: None,
        damage: 0,
        weights: EVEN,
    };
    Some(match name {
        "few" => Profile { peers: 3, pairs: 3, epochs: 2, weights: FEW, settings: either(r), ..even },
        "full" => full(r, even),
        "gates" => gates(r, even),
        "silences" => Profile {
            peers: 1,
            epochs: 1,
            plan: 100,
            calls: 140,
            settings: Settings::Silences,
            ..even
        },
        "extreme" => Profile { settings: Settings::Extreme, pace: Pace::Wild, plan: 4, ..even },
        "last" => Profile { near_last: Some(r.below(12)), settings: either(r), ..even },
        "damaged" => Profile { damage: 4 + r.below(40), settings: either(r), ..even },
        "mixed" => mixed(r, even)?,
        "soak" => soak(r, even),
        "crowded" => Profile {
            digests: 30,
            epochs: 2,
            same: 30,
            plan: 40,
            messages: 30,
            settings: Settings::Crowded,
            weights: GATES,
            ..even
        },
        "reconnects" => Profile {
            peers: 10,
            pairs: 3,
            digests: 30,
            fresh: 60,
            plan: 30,
            messages: 3,
            settings: Settings::Reconnects,
            pace: Pace::Slow,
            weights: AGAIN,
            ..even
        },
        _ => return None,
    })
}

fn either(r: &mut Random) -> Settings {
    if r.chance(50) { Settings::Small } else { Settings::Default }
}

fn full(r: &mut Random, even: Profile) -> Profile {
    let names = r.chance(50);
    Profile {
        peers: 33 + r.below(8),
        pairs: 6 + r.below(40),
        digests: 40,
        fresh: if names { 70 } else { 20 },
        plan: 0,
        calls: 320,
        settings: Settings::Long,
        pace: Pace::Slow,
        weights: if names { NAMED } else { FULL },
        ..even
    }
}

/// Holders that are heard and restarted, or holders that end unheard.
fn gates(r: &mut Random, even: Profile) -> Profile {
    let silent = r.chance(50);
    Profile {
        peers: 1 + r.below(2),
        pairs: 3 + r.below(12),
        digests: 2 + r.below(12),
        epochs: 2 + r.below(2),
        same: 10 + r.below(30),
        follow: 60 + r.below(40),
        plan: 5,
        messages: 30,
        calls: 160,
        settings: if r.chance(60) { Settings::Gates } else { Settings::Default },
        weights: if silent { SILENT } else { GATES },
        ..even
    }
}

/// Short or default intervals under a clock that ends soon.
fn soak(r: &mut Random, even: Profile) -> Profile {
    let base = if r.chance(60) { gates(r, even) } else { Profile { settings: either(r), ..even } };
    let bits = r.below(38);
    Profile { clock_left: Some(r.below(1 << bits)), ..base }
}

/// One of the others, with some of another's ways.
fn mixed(r: &mut Random, even: Profile) -> Option<Profile> {
    let ways = ["few", "full", "gates", "extreme", "last", "damaged"];
    let name = r.pick(&ways)?;
    let base = named(name, r)?;
    let name = r.pick(&ways)?;
    let other = named(name, r)?;
    Some(match r.below(5) {
        0 => Profile { pace: other.pace, ..base },
        1 => Profile { settings: other.settings, ..base },
        2 => Profile { weights: other.weights, ..base },
        3 => Profile { near_last: other.near_last, damage: other.damage, ..base },
        _ => Profile { peers: 1 + r.below(6), pairs: 1 + r.below(6), weights: even.weights, ..base },
    })
}
