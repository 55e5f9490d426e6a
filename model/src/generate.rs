//! Short days of many kinds, each from a seed.

use crate::channel::{Role, Verb, MOST_SERVERS};
use crate::day::MOST_LINES;
use crate::script::{join, Rng, Script};
use crate::text::{read_timecode, write_timecode, LAST_FRAME};

/// The day of a seed. Seeds that are 0 modulo 997 give days at the limit of lines, and every third
/// of the others a day in which reveals reach prospects and primaries.
pub fn day(seed: u64) -> Vec<u8> {
    let mut rng = Rng::new(seed);
    let remainder = seed % 997;
    if remainder == 0 {
        return full_day(&mut rng, seed / 997);
    }
    let rng = &mut rng;
    if seed.is_multiple_of(3) {
        let script = match rng.below(3) {
            0 => played(rng, 3, 6, elections),
            _ => played(rng, 2, 5, unheard),
        };
        return if rng.chance(1, 6) { spoil(rng, script) } else { script.text() };
    }
    let script = match rng.below(18) {
        0 | 1 => played(rng, 1, 8, churn),
        2 | 3 => played(rng, 1, 7, soup),
        4 => played(rng, 2, 6, one_way_cuts),
        5 => played(rng, 2, 5, partition),
        6 => played(rng, 3, 5, many_passes),
        7 => played(rng, 2, 4, crossing_passes),
        8 => chain_of_passes(rng),
        9 => played(rng, 2, 6, lost_pass),
        10 | 11 => played(rng, 1, 6, crash_on_beat),
        12 => played(rng, 1, 6, unready_and_restart),
        13 => refused_end(rng),
        14 => played(rng, 2, 8, staggered),
        15 => played(rng, 12, 16, crowd),
        16 => played(rng, 1, 1, alone),
        _ => late(rng),
    };
    if rng.chance(2, 5) {
        spoil(rng, script)
    } else {
        script.text()
    }
}

// Groups

/// A table of `least` to `most` servers in any order, and a period that fits it.
fn group(rng: &mut Rng, least: u32, most: u32) -> Script {
    let count = rng.between(least, most);
    let style = rng.below(4);
    let mut identities: Vec<u16> = Vec::new();
    while identities.len() < count as usize {
        let identity = match style {
            0 | 1 => identities.len() as u32 + 1,
            2 => rng.between(1, 65_535),
            _ => {
                *rng.pick(&[1, 2, 9, 10, 99, 100, 999, 1000, 9999, 10_000, 65_534, 65_535])
                    + rng.below(2) * rng.below(500)
            }
        };
        if identity <= 65_535 && !identities.contains(&(identity as u16)) {
            identities.push(identity as u16);
        }
    }
    let style = rng.below(6);
    let same = rng.below(256);
    let mut table: Vec<(u16, u8)> = Vec::new();
    for (turn, &identity) in identities.iter().enumerate() {
        let turn = turn as u32;
        let priority = match style {
            // all tie
            0 => same,
            // some tie
            1 => rng.below(3) * 100,
            2 => *rng.pick(&[0, 255]),
            // in the order of identities, and against it
            3 => 10 * (turn + 1),
            4 => 255 - 10 * turn,
            _ => rng.below(256),
        };
        table.push((identity, priority as u8));
    }
    if rng.chance(1, 2) {
        rng.shuffle(&mut table);
    }
    let least = count.max(2);
    let period = match rng.below(16) {
        0..=6 => least,
        7..=12 => least + rng.below(5),
        13 | 14 => rng.between(least, 40),
        _ => 250,
    };
    Script::new(period, &table)
}

/// Frames around those in which something is due.
pub fn pause(rng: &mut Rng, period: u32) -> u32 {
    match rng.below(14) {
        0 => 0,
        1 => 1,
        2 => 2,
        3 => period - 1,
        4 => period,
        5 => period + 1,
        6 => 2 * period - 1,
        7 => 2 * period,
        8 => 2 * period + 1,
        9 => 4 * period,
        10 => 4 * period + 2,
        _ => rng.between(1, 25),
    }
}

fn wait_a_while(rng: &mut Rng, script: &mut Script) {
    let frames = pause(rng, script.period());
    script.wait(frames);
}

/// All servers, or nearly all, become backup: in one frame, or over some frames.
fn make_ready(rng: &mut Rng, script: &mut Script) {
    let mut places: Vec<usize> = (0..script.count()).collect();
    if rng.chance(1, 2) {
        rng.shuffle(&mut places);
    }
    let spread = rng.chance(1, 3);
    let all = rng.chance(3, 4);
    for place in places {
        if !all && rng.chance(1, 5) {
            if rng.chance(1, 2) {
                script.entry(Verb::Start, place, place);
            }
            continue;
        }
        script.revive(place);
        if spread {
            let frames = rng.below(3);
            script.wait(frames);
        }
    }
}

/// Long enough for a primary, if all links are whole.
fn settle(rng: &mut Rng, script: &mut Script) {
    let period = script.period();
    let frames = 4 * period + 2 + rng.below(period);
    script.wait(frames);
}

fn finish(rng: &mut Rng, script: &mut Script) {
    wait_a_while(rng, script);
    if rng.chance(1, 2) {
        wait_a_while(rng, script);
    }
    script.end();
}

/// A primary, but once in `whole`, or if there is none, any server.
fn some_primary(rng: &mut Rng, script: &Script, whole: u32) -> usize {
    let primaries = script.channel.primaries();
    if primaries.is_empty() || rng.chance(1, whole) {
        script.some_server(rng)
    } else {
        *rng.pick(&primaries)
    }
}

/// A verb that the state allows, if the server drawn has one.
fn allowed_entry(rng: &mut Rng, script: &mut Script) {
    let primaries = script.channel.primaries();
    let place = if !primaries.is_empty() && rng.chance(1, 3) {
        *rng.pick(&primaries)
    } else {
        script.some_server(rng)
    };
    let other = script.some_other(rng, place);
    if place != other && rng.chance(1, 5) {
        let cut = script.channel.is_cut(place, other);
        script.entry(if cut { Verb::Mend } else { Verb::Cut }, place, other);
        return;
    }
    let verb = match script.role(place) {
        Role::Down => Verb::Restart,
        Role::Idle => *rng.pick(&[Verb::Start, Verb::Start, Verb::Start, Verb::Crash]),
        Role::Sync => *rng.pick(&[Verb::Ready, Verb::Ready, Verb::Ready, Verb::Crash]),
        Role::Backup { .. } => *rng.pick(&[Verb::Unready, Verb::Crash]),
        Role::Prospect { .. } => Verb::Crash,
        Role::Primary { .. } if place != other => {
            *rng.pick(&[Verb::Pass, Verb::Pass, Verb::Pass, Verb::Crash])
        }
        Role::Primary { .. } => Verb::Crash,
    };
    script.entry(verb, place, other);
}

fn any_entry(rng: &mut Rng, script: &mut Script) {
    let place = script.some_server(rng);
    let other = script.some_other(rng, place);
    let verb = *rng.pick(&Verb::ALL);
    if rng.chance(1, 8) {
        let frame = rng.below(script.frame() + 1);
        let time = write_timecode(frame).expect("within the day");
        if frame < script.frame() && (place != other || !verb.has_two()) {
            script.entry_at(&time, verb, place, other);
            return;
        }
    }
    if place != other || !verb.has_two() {
        script.entry(verb, place, other);
    }
}

/// A day of some kind, with `least` to `most` servers.
fn played(rng: &mut Rng, least: u32, most: u32, kind: fn(&mut Rng, &mut Script)) -> Script {
    let mut script = group(rng, least, most);
    kind(rng, &mut script);
    finish(rng, &mut script);
    script
}

// Kinds of days

fn churn(rng: &mut Rng, script: &mut Script) {
    make_ready(rng, script);
    for _ in 0..rng.between(4, 24) {
        wait_a_while(rng, script);
        allowed_entry(rng, script);
    }
}

/// Verbs drawn without regard to roles.
fn soup(rng: &mut Rng, script: &mut Script) {
    if rng.chance(3, 4) {
        make_ready(rng, script);
    }
    for _ in 0..rng.between(10, 35) {
        if rng.chance(1, 2) {
            wait_a_while(rng, script);
        }
        any_entry(rng, script);
    }
}

/// Cuts in one direction and mends, some of them in the frame of a beat.
fn one_way_cuts(rng: &mut Rng, script: &mut Script) {
    make_ready(rng, script);
    settle(rng, script);
    for _ in 0..rng.between(4, 16) {
        match rng.below(4) {
            0 => script.wait_for_sending(2 * script.period()),
            1 => {}
            _ => wait_a_while(rng, script),
        }
        let cuts = script.channel.links(true);
        if !cuts.is_empty() && rng.chance(1, 2) {
            let &(from, to) = rng.pick(&cuts);
            script.entry(Verb::Mend, from, to);
        } else {
            let from = some_primary(rng, script, 3);
            let to = script.some_other(rng, from);
            script.entry(Verb::Cut, from, to);
            if rng.chance(1, 6) {
                script.entry(Verb::Mend, from, to);
            }
        }
    }
}

/// Two parts that cannot hear each other, or in one direction only; then they heal.
fn partition(rng: &mut Rng, script: &mut Script) {
    if rng.chance(1, 2) {
        make_ready(rng, script);
        settle(rng, script);
        part(rng, script);
    } else {
        part(rng, script);
        make_ready(rng, script);
    }
    settle(rng, script);
    wait_a_while(rng, script);
    if rng.chance(1, 3) {
        allowed_entry(rng, script);
    }
    heal(rng, script);
    settle(rng, script);
}

fn part(rng: &mut Rng, script: &mut Script) {
    let count = script.count() as u32;
    let side = rng.between(1, (1 << count) - 2);
    let is_left = |place: usize| side >> place & 1 == 1;
    let both = rng.chance(3, 4);
    let mut links = script.channel.links(false);
    rng.shuffle(&mut links);
    for (from, to) in links {
        if is_left(from) != is_left(to) && (both || is_left(from)) {
            script.entry(Verb::Cut, from, to);
        }
    }
}

fn heal(rng: &mut Rng, script: &mut Script) {
    let slowly = rng.chance(1, 4);
    let mut links = script.channel.links(true);
    rng.shuffle(&mut links);
    for (from, to) in links {
        if slowly && rng.chance(1, 3) {
            script.wait(1);
        }
        if slowly && rng.chance(1, 10) {
            continue;
        }
        script.entry(Verb::Mend, from, to);
    }
}

/// Everybody alone and primary; then several pass to one server in one frame.
fn many_passes(rng: &mut Rng, script: &mut Script) {
    for (from, to) in script.channel.links(false) {
        script.entry(Verb::Cut, from, to);
    }
    for place in 0..script.count() {
        script.revive(place);
    }
    let period = script.period();
    script.wait(4 * period);
    let frames = rng.below(2 * period);
    script.wait(frames);
    // often the lowest, who hears passes from higher servers alone
    let lowest = script.channel.from_highest().pop().unwrap_or(0);
    let target = if rng.chance(1, 2) { lowest } else { script.some_server(rng) };
    let away = script.some_other(rng, target);
    match rng.below(4) {
        0 => {
            script.entry(Verb::Crash, target, target);
            script.revive(target);
        }
        1 => {}
        _ => script.entry(Verb::Pass, target, away),
    }
    let mut places: Vec<usize> = (0..script.count()).filter(|&place| place != target).collect();
    rng.shuffle(&mut places);
    for place in places {
        if rng.chance(7, 8) {
            script.entry(Verb::Mend, place, target);
        }
        if rng.chance(7, 8) {
            script.entry(Verb::Pass, place, target);
        }
    }
    wait_a_while(rng, script);
    if rng.chance(1, 2) {
        heal(rng, script);
    }
}

/// Two primaries pass to each other.
fn crossing_passes(rng: &mut Rng, script: &mut Script) {
    let first = script.some_server(rng);
    let second = script.some_other(rng, first);
    for (from, to) in script.channel.links(false) {
        if from == first || to == first {
            script.entry(Verb::Cut, from, to);
        }
    }
    make_ready(rng, script);
    settle(rng, script);
    let other =
        script.channel.primaries().into_iter().find(|&place| place != first).unwrap_or(second);
    let early = rng.chance(1, 2);
    if early {
        heal(rng, script);
    }
    script.entry(Verb::Pass, first, other);
    if rng.chance(1, 4) {
        script.wait(1);
    }
    script.entry(Verb::Pass, other, first);
    if !early {
        heal(rng, script);
    }
    settle(rng, script);
}

/// Passes as soon as the next server is primary, several in one second.
fn chain_of_passes(rng: &mut Rng) -> Script {
    let count = rng.between(2, 4);
    let mut table: Vec<(u16, u8)> = Vec::new();
    for identity in 1..=count {
        table.push((identity as u16, rng.below(4) as u8));
    }
    let mut script = Script::new(count + rng.below(2), &table);
    make_ready(rng, &mut script);
    settle(rng, &mut script);
    for _ in 0..rng.between(3, 9) {
        let from = some_primary(rng, &script, 8);
        let to = script.some_other(rng, from);
        script.entry(Verb::Pass, from, to);
        if rng.chance(1, 6) {
            script.entry(Verb::Pass, from, to);
        }
        let frames = 2 * script.period() + rng.below(3);
        script.wait(frames);
    }
    finish(rng, &mut script);
    script
}

/// A pass to a server that is down, not ready, or does not hear it.
fn lost_pass(rng: &mut Rng, script: &mut Script) {
    make_ready(rng, script);
    settle(rng, script);
    for _ in 0..rng.between(1, 3) {
        let primaries = script.channel.primaries();
        let Some(&from) = primaries.first() else {
            settle(rng, script);
            continue;
        };
        let to = script.some_other(rng, from);
        match rng.below(4) {
            0 => script.entry(Verb::Crash, to, to),
            1 => script.entry(Verb::Unready, to, to),
            2 => script.entry(Verb::Cut, from, to),
            _ => {
                script.entry(Verb::Crash, to, to);
                script.entry(Verb::Restart, to, to);
            }
        }
        let frames = rng.below(3);
        script.wait(frames);
        script.entry(Verb::Pass, from, to);
        // ready again in the same frame, or in one soon after
        if rng.chance(1, 2) {
            let frames = rng.below(3);
            script.wait(frames);
            script.revive(to);
        }
        settle(rng, script);
    }
}

/// A crash in the frame of a beat, and in the frames beside it.
fn crash_on_beat(rng: &mut Rng, script: &mut Script) {
    make_ready(rng, script);
    if rng.chance(1, 2) {
        settle(rng, script);
    }
    for _ in 0..rng.between(1, 4) {
        script.wait_for_sending(4 * script.period());
        let frames = if rng.chance(1, 3) { rng.between(1, script.period()) } else { 0 };
        script.wait(frames);
        let busy: Vec<usize> = (0..script.count())
            .filter(|&place| {
                matches!(script.role(place), Role::Prospect { .. } | Role::Primary { .. })
            })
            .collect();
        let place = if busy.is_empty() { script.some_server(rng) } else { *rng.pick(&busy) };
        script.entry(Verb::Crash, place, place);
        if rng.chance(1, 2) {
            script.revive(place);
        } else if rng.chance(1, 2) {
            wait_a_while(rng, script);
            script.revive(place);
        }
        if rng.chance(1, 2) {
            settle(rng, script);
        }
    }
}

fn unready_and_restart(rng: &mut Rng, script: &mut Script) {
    make_ready(rng, script);
    for _ in 0..rng.between(3, 12) {
        wait_a_while(rng, script);
        let place = script.some_server(rng);
        match rng.below(6) {
            0 | 1 => script.entry(Verb::Unready, place, place),
            2 => {
                script.entry(Verb::Unready, place, place);
                script.entry(Verb::Ready, place, place);
            }
            3 => {
                script.entry(Verb::Crash, place, place);
                script.entry(Verb::Restart, place, place);
            }
            4 => script.entry(Verb::Restart, place, place),
            _ => script.revive(place),
        }
    }
}

/// An `end` that goes back, and what may come after it.
fn refused_end(rng: &mut Rng) -> Script {
    let mut script = group(rng, 1, 5);
    make_ready(rng, &mut script);
    wait_a_while(rng, &mut script);
    script.wait(1);
    allowed_entry(rng, &mut script);
    let frame = rng.below(script.frame());
    script.end_at(frame);
    for _ in 0..rng.below(6) {
        wait_a_while(rng, &mut script);
        any_entry(rng, &mut script);
    }
    match rng.below(8) {
        0 => script.lines.push(b"period\t9".to_vec()),
        1 => script.lines.push(b"server\t77\t7".to_vec()),
        2 => script.end_at(rng.below(frame + 1)),
        _ => {}
    }
    if rng.chance(7, 8) {
        finish(rng, &mut script);
    }
    script
}

/// Ready in frames so near each other that silences run out side by side.
fn staggered(rng: &mut Rng, script: &mut Script) {
    let mut places: Vec<usize> = (0..script.count()).collect();
    rng.shuffle(&mut places);
    for &place in &places {
        script.entry(Verb::Start, place, place);
    }
    for &place in &places {
        let frames = *rng.pick(&[0, 1, 1, 1, 2, 3]);
        script.wait(frames);
        script.entry(Verb::Ready, place, place);
    }
    if rng.chance(1, 2) {
        settle(rng, script);
        for place in script.channel.primaries() {
            script.entry(Verb::Crash, place, place);
        }
    }
    settle(rng, script);
}

/// Several reveal in one frame, again and again: all that hear the primary do so when it falls.
fn elections(rng: &mut Rng, script: &mut Script) {
    let count = script.count();
    for place in 0..count {
        script.revive(place);
    }
    for _ in 0..rng.between(1, 3) {
        let period = script.period();
        let frames = if rng.chance(1, 3) { 2 * period + rng.below(4) } else { 4 * period + 2 };
        script.wait(frames);
        // sometimes in the frame of a beat or of a reply
        if rng.chance(1, 2) {
            script.wait_for_sending(2 * period);
        }
        let place = some_primary(rng, script, 8);
        match rng.below(6) {
            0 => {
                let other = script.some_other(rng, place);
                script.entry(Verb::Cut, place, other);
            }
            1 => script.entry(Verb::Pass, place, script.some_other(rng, place)),
            _ => script.entry(Verb::Crash, place, place),
        }
        if rng.chance(1, 2) {
            wait_a_while(rng, script);
            script.revive(place);
        }
    }
    settle(rng, script);
}

/// Somebody is not heard by some of the lower servers, whose reveals come to it as a prospect and
/// as a primary.
fn unheard(rng: &mut Rng, script: &mut Script) {
    let period = script.period();
    let ranks = script.channel.from_highest();
    // the highest, or somebody above one other at least
    let at = rng.below(ranks.len() as u32 - 1) as usize;
    let at = if rng.chance(3, 4) { 0 } else { at };
    let (top, lower) = (ranks[at], &ranks[at + 1..]);
    let mut deaf = lower.to_vec();
    rng.shuffle(&mut deaf);
    deaf.truncate(rng.between(1, lower.len() as u32) as usize);
    for &place in &deaf {
        script.entry(Verb::Cut, top, place);
    }
    let mut places: Vec<usize> = ranks.iter().copied().filter(|&place| place != top).collect();
    rng.shuffle(&mut places);
    script.revive(top);
    // often so that a timer is due in the frame of a reply, or that everybody reveals at once
    let frames = match rng.below(3) {
        0 => *rng.pick(&[0, 0, period - 1, 2 * period - 1, 5 * period - 1]),
        _ => rng.below(4 * period + 1),
    };
    script.wait(frames);
    for place in places {
        script.revive(place);
        if rng.chance(1, 4) {
            script.wait(1);
        }
    }
    for _ in 0..rng.between(1, 3) {
        let frames = 2 * period + rng.below(period + 2);
        script.wait(frames);
        let &place = rng.pick(&deaf);
        match rng.below(6) {
            // silent again from here on
            0 => {
                script.entry(Verb::Unready, place, place);
                script.entry(Verb::Ready, place, place);
            }
            1 | 2 => {
                for &place in &deaf {
                    script.entry(Verb::Crash, place, place);
                    script.revive(place);
                }
            }
            3 => script.entry(Verb::Mend, top, place),
            4 => script.entry(Verb::Pass, top, place),
            _ => allowed_entry(rng, script),
        }
    }
    if rng.chance(1, 2) {
        heal(rng, script);
    }
    settle(rng, script);
}

/// Many servers.
fn crowd(rng: &mut Rng, script: &mut Script) {
    make_ready(rng, script);
    settle(rng, script);
    for _ in 0..rng.below(8) {
        allowed_entry(rng, script);
        wait_a_while(rng, script);
    }
}

/// One server.
fn alone(rng: &mut Rng, script: &mut Script) {
    make_ready(rng, script);
    for _ in 0..rng.below(10) {
        wait_a_while(rng, script);
        let verb =
            *rng.pick(&[Verb::Crash, Verb::Restart, Verb::Unready, Verb::Ready, Verb::Start]);
        script.entry(verb, 0, 0);
        if rng.chance(1, 2) {
            script.revive(0);
        }
    }
}

/// Days that begin late, or go to the last frame.
fn late(rng: &mut Rng) -> Script {
    let mut script = group(rng, 1, 5);
    match rng.below(8) {
        // nothing but the end
        0 => {
            script.end_at(LAST_FRAME);
            return script;
        }
        // something early, and then everybody down
        1 | 2 => {
            make_ready(rng, &mut script);
            settle(rng, &mut script);
            for place in 0..script.count() {
                script.entry(Verb::Crash, place, place);
            }
        }
        // a beat every ten seconds, all day
        3 => {
            let table: Vec<(u16, u8)> = script
                .channel
                .servers
                .iter()
                .map(|server| (server.identity, server.priority))
                .collect();
            script = Script::new(250, &table);
            if rng.chance(1, 4) {
                make_ready(rng, &mut script);
            }
        }
        _ => {}
    }
    let before = rng.between(0, 200) + rng.below(2) * rng.below(400);
    let frames = LAST_FRAME - before - script.frame();
    script.wait(frames);
    make_ready(rng, &mut script);
    for _ in 0..rng.below(8) {
        wait_a_while(rng, &mut script);
        allowed_entry(rng, &mut script);
    }
    if rng.chance(1, 4) {
        finish(rng, &mut script);
        return script;
    }
    if rng.chance(1, 2) {
        script.wait(LAST_FRAME);
        for _ in 0..rng.below(4) {
            any_entry(rng, &mut script);
        }
        if rng.chance(1, 4) {
            script.end_at(LAST_FRAME - 1);
        }
    }
    script.end_at(LAST_FRAME);
    script
}

/// Days of 65,535 lines and a few more. The turn picks how they end.
fn full_day(rng: &mut Rng, turn: u64) -> Vec<u8> {
    let mut script = group(rng, 2, 6);
    make_ready(rng, &mut script);
    // room for two lines at the end
    while script.lines.len() < MOST_LINES - 1 {
        if rng.chance(1, 50) {
            let frames = rng.between(1, 5);
            script.wait(frames);
        }
        let cut = rng.chance(1, 2);
        let links = script.channel.links(cut);
        if rng.chance(1, 20) || links.is_empty() {
            let place = script.some_server(rng);
            let verb = *rng.pick(&Verb::ALL[..3]);
            script.entry(verb, place, place);
            script.lines.truncate(MOST_LINES - 1);
        } else {
            let &(from, to) = rng.pick(&links);
            script.entry(if cut { Verb::Mend } else { Verb::Cut }, from, to);
        }
    }
    let place = script.some_server(rng);
    match turn % 8 {
        // 65,535 lines, the last one `end`
        1 => script.end(),
        // 65,536 lines, the last one `end`
        2 => {
            script.entry(Verb::Start, place, place);
            script.end();
        }
        // 65,535 lines without `end`
        3 => script.entry(Verb::Start, place, place),
        // a line after `end`
        4 => {
            script.end();
            script.entry(Verb::Start, place, place);
        }
        // lines beyond the limit with faults of their own
        5 => {
            script.entry(Verb::Start, place, place);
            script.lines.push(b"end\t24:00:00:00".to_vec());
        }
        6 => {
            script.entry(Verb::Start, place, place);
            script.lines.push(b"server\t1\t256".to_vec());
            script.end();
        }
        7 => {
            script.entry(Verb::Start, place, place);
            script.end();
            script.end();
            script.end();
        }
        // a piece of a line after 65,535
        _ => {
            script.end();
            let mut text = script.text();
            text.extend_from_slice(b"end");
            return text;
        }
    }
    script.text()
}

// Refused days

/// Stands in the place of the `period` line.
#[rustfmt::skip]
pub const PERIODS: &[&str] = &[
    "period", "period\t", "period\t1", "period\t0", "period\t02", "period\t251", "period\t+5",
    "period\t-5", "period\t5 ", "period\t5\r", "period\t5\t", "period\t5\t6", "Period\t5",
    "period 5", "period\t5\0", "period\t0x5", "period\t4294967298", "period\t18446744073709551618",
    "perio\t5", "\tperiod\t5", "", "\t", "server\t1\t5", "end\t00:00:00:00",
    "00:00:00:00\tstart\t1", "00:00:00:00\tstart\t0", "end\t1:00:00:00", "server\t1\t1000",
];

/// Stands before or in the place of a `server` line. {A} is in the table, {X} is not.
#[rustfmt::skip]
pub const SERVERS: &[&str] = &[
    "server", "server\t{X}", "server\t{X}\t256", "server\t{X}\t999", "server\t0\t1",
    "server\t65536\t1", "server\t{X}\t01", "server\t{X}\t00", "server\t{X}\t", "server\t\t1",
    "server\t\t", "server\t0{X}\t1", "server\t{X}\t5\t", "server\t{X}\t5\t6", "server\t{X}\t5\r",
    "server\t{X}\t-0", "server\t{X} \t5", "server\t{X}\t5\0", "Server\t{X}\t5", "servers\t{X}\t5",
    "period\t5", "period\t1", "", "end", "end\t00:00:00:00", "00:00:00:00\tcrash\t{X}",
    "00:00:00:00\tcrash\t{A}", "server\t99999\t1", "server\t655350\t1",
];

/// Stand before an entry or `end`, by the number they get. {T} is the time of that line, {L} is
/// later, {B} is in the table too.
#[rustfmt::skip]
pub const FORMS: &[&str] = &[
    "", "foo", "foo\tbar", "\t", "{T}", "{T}\t", "{T}\tstart", "{T}\tstart\t{A}\t{B}",
    "{T}\tstart\t{A}\t", "{T}\tpass\t{A}", "{T}\tpass\t{A}\t{B}\t{B}", "{T}\tcut\t{A}\t{B}\t",
    "{T}\tcut", "{T}\tmend\t{A}", "{T}\tSTART\t{A}", "{T} start {A}", "{T}\tend\t{A}",
    "{T}\tperiod\t{A}", "{T}\tserver\t{A}\t5", "{T}\tstart \t{A}", "{T}\tstart\0\t{A}",
    "{T}\tstar\t{A}", "{T}\tcrash\t{A}\t0", "end", "end\t{T}\t", "end\t{T}\t{A}", "period",
    "24:00:00:00\tstart", "foo\tbar\t0", "{T}\tlower\t{A}", "{T}\tmended\t{A}\t{B}",
    "{L}\tready", "{T}\t\t{A}", "server\t0", "{T}\trestarts\t{A}", "{T}\tpass\t{A}\t{B}\t",
];
#[rustfmt::skip]
pub const NUMBERS: &[&str] = &[
    "{T}\tstart\t0", "{T}\tstart\t", "{T}\tstart\t65536", "{T}\tcrash\t0{A}", "{T}\tcrash\t+{A}",
    "{T}\tcrash\t{A} ", "{T}\tcrash\t{A}\r", "{T}\tcut\t0\t{A}", "{T}\tcut\t{A}\t0",
    "{T}\tcut\t{A}\t", "{T}\tcut\t\t{A}", "{T}\tmend\t{A}\t65536", "{T}\tpass\t{X}\t0",
    "{T}\tpass\t0\t0", "{T}\tpass\t{A}\t00", "period\t1", "server\t{A}\t999", "server\t0\t5",
    "{T}\tcrash\t18446744073709551617", "{T}\tcut\t{A}\t{B}x", "00:00:00:00\tstart\t0",
    "{L}\tready\t0", "{L}\tcut\t{X}\t65536", "00:00:00:00\tpass\t{A}\t0", "{T}\tpass\t{A}\t-1",
];
#[rustfmt::skip]
pub const TIMES: &[&str] = &[
    "24:00:00:00\tstart\t{A}", "23:60:00:00\tstart\t{A}", "23:59:60:00\tstart\t{A}",
    "23:59:59:25\tstart\t{A}", "0:00:00:00\tstart\t{A}", "00:00:00\tstart\t{A}",
    "000:0:00:00\tstart\t{A}", "00:00:00:0\tstart\t{A}", "00:00:00:000\tstart\t{A}",
    "00-00:00:00\tstart\t{A}", "00:00:00;00\tstart\t{A}", " 0:00:00:00\tstart\t{A}",
    "+0:00:00:00\tstart\t{A}", "\tstart\t{A}", "foo\tstart\t1", "24:00:00:00\tcrash\t0",
    "{T}\r\tcrash\t{A}", "{T} \tcrash\t{A}", "99:99:99:99\tcut\t{A}\t{A}", "end\t24:00:00:00",
    "end\t", "end\t{T}\r", "end\t0", "00:00:00:0a\tpass\t0\t{B}", "0:000:00:00\tmend\t{A}\t{X}",
    "{T}0\tcut\t65536\t{A}", "\tready\t0", "00:00:60:00\tpass\t{A}\t", "00:00:00:99\tcrash\t{X}",
];
#[rustfmt::skip]
pub const PLACES: &[&str] = &[
    "period\t5", "server\t{X}\t5", "server\t{A}\t5",
    // an end too early: the lines after it are out of place
    "end\t{T}",
];
#[rustfmt::skip]
pub const IDENTITIES: &[&str] = &[
    "{T}\tstart\t{X}", "{T}\tpass\t{A}\t{X}", "{T}\tpass\t{X}\t{A}", "{T}\tpass\t{A}\t{A}",
    "{T}\tcut\t{X}\t{A}", "{T}\tcut\t{A}\t{X}", "{T}\tcut\t{A}\t{A}", "{T}\tmend\t{A}\t{A}",
    "{T}\tmend\t{X}\t{X}", "{T}\trestart\t{X}", "00:00:00:00\tstart\t{X}",
    "00:00:00:00\tcut\t{A}\t{A}", "23:59:59:24\tcrash\t{X}", "{L}\tcrash\t{X}",
    "{L}\tpass\t{A}\t{A}", "{L}\tmend\t{A}\t{X}", "{L}\tready\t{X}",
    "00:00:00:00\tmend\t{A}\t{X}", "00:00:00:00\trestart\t{X}",
];
const ENTRIES: &[&[&str]] = &[FORMS, NUMBERS, TIMES, PLACES, IDENTITIES, IDENTITIES];

/// Stands after `end`.
#[rustfmt::skip]
pub const AFTER_END: &[&str] = &[
    "{T}\tstart\t{A}", "end\t{T}", "period\t5", "server\t{X}\t1", "server\t{A}\t1", "garbage", "",
    "\t", "{T}\tstart\t{X}", "24:00:00:00\tstart\t{A}", "end\t00:00:00:00", "{T}\tstart\t0",
    "end\t24:00:00:00", "23:59:59:24\tcut\t{A}\t{A}", "period\t1", "00:00:00:00\tcrash\t{A}", "end",
];

/// A line from one of the lists above.
pub fn filled(template: &str, time: &str, later: &str, known: (u16, u16), unknown: u16) -> Vec<u8> {
    template
        .replace("{L}", later)
        .replace("{T}", time)
        .replace("{A}", &known.0.to_string())
        .replace("{B}", &known.1.to_string())
        .replace("{X}", &unknown.to_string())
        .into_bytes()
}

fn some_fault(rng: &mut Rng) -> &'static &'static str {
    let list = *rng.pick(ENTRIES);
    rng.pick(list)
}

/// Gives a day one fault, or at least something that looks like one.
fn spoil(rng: &mut Rng, script: Script) -> Vec<u8> {
    let servers = script.count();
    let mut known: Vec<u16> = script.channel.servers.iter().map(|server| server.identity).collect();
    // enough frames for something to be due
    let later = script.channel.period * 4;
    let mut lines = script.lines;
    rng.shuffle(&mut known);
    let mut unknown = rng.between(1, 65_535) as u16;
    while known.contains(&unknown) {
        unknown = rng.between(1, 65_535) as u16;
    }
    let second = *known.get(1).unwrap_or(&known[0]);
    let last = lines.len() - 1;
    let after_servers = 1 + servers;
    // some line among the entries and `end`
    let among_entries =
        after_servers + rng.below((lines.len() - after_servers).max(1) as u32) as usize;
    let among_entries = among_entries.min(last);
    let fill = |template: &&str, near: &[u8]| -> Vec<u8> {
        let near = String::from_utf8_lossy(near).into_owned();
        let mut fields = near.split('\t');
        let first = fields.next().unwrap_or("");
        let time = if first == "end" { fields.next().unwrap_or("") } else { first };
        let frame = read_timecode(time.as_bytes()).unwrap_or(0) + later;
        let later = write_timecode(frame.min(LAST_FRAME)).expect("within the day");
        filled(template, time, &later, (known[0], second), unknown)
    };
    match rng.below(32) {
        0 | 1 => lines[0] = fill(rng.pick(PERIODS), b""),
        2 => {
            let line = fill(rng.pick(SERVERS), b"");
            lines[1 + rng.below(servers as u32) as usize] = line;
        }
        3 => {
            let line = fill(rng.pick(SERVERS), b"");
            lines.insert(1 + rng.below(servers as u32 + 1) as usize, line);
        }
        4..=11 => {
            let line = fill(some_fault(rng), &lines[among_entries]);
            lines.insert(among_entries, line);
        }
        12 | 13 => {
            for _ in 0..rng.between(1, 2) {
                let line = fill(rng.pick(AFTER_END), &lines[last]);
                lines.push(line);
            }
        }
        // lines of 63 to 66 bytes
        14 | 15 | 29 => {
            let length = rng.between(63, 66) as usize;
            let at = rng.below(lines.len() as u32 + 1) as usize;
            let base = match rng.below(5) {
                0 => "period\t1",
                1 => "server\t1",
                2 => "end\t00:00:00:00",
                3 => "00:00:00:00\tstart\t1",
                _ => "foo",
            };
            let mut line = base.as_bytes().to_vec();
            let padding = *rng.pick(b"0123456789\t \0");
            line.resize(length, padding);
            lines.insert(at, line);
        }
        // an identity twice
        16 => {
            let line = lines[1 + rng.below(servers as u32) as usize].clone();
            lines.insert(1 + rng.below(servers as u32 + 1) as usize, line);
        }
        // sixteen servers or seventeen, some with a period too small for them
        17 | 18 => {
            let wanted = MOST_SERVERS + rng.below(3) as usize;
            let mut identity = 0;
            for _ in servers..wanted {
                identity += 1;
                while known.contains(&identity) {
                    identity += 1;
                }
                lines.insert(after_servers, format!("server\t{identity}\t7").into_bytes());
            }
            if rng.chance(1, 2) {
                lines[0] = b"period\t16".to_vec();
            }
            // an identity twice, among the sixteen or straight after them
            if rng.chance(1, 2) {
                let at = if rng.chance(1, 3) { rng.between(1, 16) } else { 17 };
                let line = lines[1].clone();
                lines.insert(at as usize, line);
            }
        }
        // a period at the number of servers and below it
        19 | 28 => {
            let period = (servers as u32).saturating_sub(rng.below(3)).max(2);
            lines[0] = format!("period\t{period}").into_bytes();
            if rng.chance(1, 3) {
                let line = fill(some_fault(rng), &lines[after_servers.min(last)]);
                lines.insert(after_servers, line);
            }
        }
        // no server, no period, neither
        20 => {
            let first = if rng.chance(1, 3) { 0 } else { 1 };
            lines.drain(first..after_servers);
            if rng.chance(1, 2) {
                let line = fill(some_fault(rng), b"00:00:00:00");
                lines.insert(first, line);
            }
        }
        21 => {
            lines.remove(0);
        }
        // lines in each other's place
        22 | 23 => {
            let one = rng.below(lines.len() as u32) as usize;
            let other = rng.below(lines.len() as u32) as usize;
            lines.swap(one, other);
        }
        // no `end`
        24 => {
            lines.pop();
        }
        // no line feed at the end
        25 => {
            let mut text = join(&lines);
            text.pop();
            return text;
        }
        // a carriage return or a tab at the end of a line, or of every line
        26 => {
            let byte = *rng.pick(b"\r\t");
            let only = if rng.chance(1, 4) { None } else { Some(rng.below(lines.len() as u32)) };
            for (at, line) in lines.iter_mut().enumerate() {
                if only.is_none() || only == Some(at as u32) {
                    line.push(byte);
                }
            }
        }
        // cut off anywhere, down to nothing
        27 => {
            let mut text = join(&lines);
            let length = rng.below(text.len() as u32 + 1);
            text.truncate(if rng.chance(1, 6) { 0 } else { length as usize });
            return text;
        }
        // a byte changed, put in or left out
        _ => {
            let mut text = join(&lines);
            for _ in 0..rng.between(1, 2) {
                let at = rng.below(text.len() as u32) as usize;
                let byte = *rng.pick(b"0123456789:\t\n\r \0aep\xff");
                match rng.below(3) {
                    0 => text[at] = byte,
                    1 => text.insert(at, byte),
                    _ => {
                        text.remove(at);
                    }
                }
            }
            return text;
        }
    }
    join(&lines)
}
