//! Whole days with entries from the first frame to the last.

use crate::channel::{Role, Verb};
use crate::day::MOST_LINES;
use crate::script::{Rng, Script};
use crate::text::LAST_FRAME;

/// A day to 23:59:59:24, all servers ready at frame 0, an entry about every `gap` frames. The gap
/// is widened if the day would have too many lines.
pub fn long_day(servers: u32, period: u32, gap: u32) -> Vec<u8> {
    let seed = (u64::from(servers) << 40) | (u64::from(period) << 32) | u64::from(gap);
    let mut rng = Rng::new(seed);
    let table: Vec<(u16, u8)> =
        (1..=servers).map(|identity| (identity as u16, rng.below(256) as u8)).collect();
    let mut script = Script::new(period, &table);
    for place in 0..script.count() {
        script.revive(place);
    }
    let room = (MOST_LINES - 1 - script.lines.len()) as u32;
    let gap = gap.max(LAST_FRAME / room + 1);
    loop {
        // from 1 to 2 × gap − 1, so gap on the average
        let frames = rng.between(1, 2 * gap - 1);
        if script.frame() + frames > LAST_FRAME || script.lines.len() == MOST_LINES - 1 {
            break;
        }
        script.wait(frames);
        some_entry(&mut rng, &mut script);
    }
    script.end_at(LAST_FRAME);
    script.text()
}

/// Mostly allowed; servers that fell are mostly brought back, and cut links mended.
pub fn some_entry(rng: &mut Rng, script: &mut Script) {
    let place = script.some_server(rng);
    let other = script.some_other(rng, place);
    let has_other = place != other;
    if rng.chance(1, 40) {
        let verb = *rng.pick(&Verb::ALL);
        if has_other || !verb.has_two() {
            script.entry(verb, place, other);
            return;
        }
    }
    let way_up = |place: usize| script.role(place).way_up().map(|verb| (verb, place));
    if let Some((verb, place)) = (0..script.count()).find_map(way_up) {
        if rng.chance(3, 5) {
            script.entry(verb, place, place);
            return;
        }
    }
    if mends(rng, script, 2, 8) {
        return;
    }
    let primaries = script.channel.primaries();
    let choice = rng.below(10);
    if choice < 5 && has_other && !primaries.is_empty() {
        let from = *rng.pick(&primaries);
        let to = script.some_other(rng, from);
        script.entry(Verb::Pass, from, to);
    } else if choice < 7 && has_other && !script.channel.is_cut(place, other) {
        script.entry(Verb::Cut, place, other);
    } else {
        let role = script.role(place);
        let verb = match role.way_up() {
            Some(verb) => verb,
            None if matches!(role, Role::Backup { .. }) && rng.chance(1, 3) => Verb::Unready,
            None => Verb::Crash,
        };
        script.entry(verb, place, place);
    }
}

/// Mends some link, `part` times in `whole` for each that is cut. False if it does not.
pub fn mends(rng: &mut Rng, script: &mut Script, part: u32, whole: u32) -> bool {
    let cuts = script.channel.links(true);
    let mends = rng.below(whole) < part * cuts.len() as u32;
    if mends {
        let &(from, to) = rng.pick(&cuts);
        script.entry(Verb::Mend, from, to);
    }
    mends
}
