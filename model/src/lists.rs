//! Short lists of calls of many kinds, each from a seed.

use crate::calls::{outcome, role_digit, Answer, Call, Outcome, Plain, What};
use crate::calls::{BACKUP, DOWN, IDLE, PRIMARY, PROSPECT, SYNC};
use crate::channel::{Channel, Note, Verb, MOST_PERIOD, MOST_SERVERS};
use crate::generate::pause;
use crate::script::Rng;
use crate::text::LAST_FRAME;

/// Lines of one list, its table among them.
pub const LEAST_CALLS: usize = 10;
pub const MOST_CALLS: usize = 80;

/// No slice is longer in these lists.
pub const MOST_LENT: usize = 60_000;

/// The numbers that a call can be refused with.
pub const REFUSALS: [u8; 15] = [1, 2, 3, 4, 5, 6, 7, 8, 9, 11, 12, 13, 14, 15, 16];

#[rustfmt::skip]
const KINDS: [fn(&mut Maker); 21] = [
    tables, churn, soup, roles, parted, passes, falls, last_frame, late, slices, times, identities,
    ties, crowd, alone, slow, again, by_frames, many_passes, one_way_cuts, unheard,
];

/// The kinds take turns, so that a few dozen lists have them all.
pub fn lists(seed: u64, count: u64) -> Vec<Vec<Call>> {
    let mut seeds = Rng::new(seed);
    (0..count as usize)
        .map(|number| {
            let mut maker = Maker {
                rng: Rng::new(seeds.next()),
                turn: number / KINDS.len(),
                calls: Vec::new(),
                plain: Plain::default(),
            };
            KINDS[number % KINDS.len()](&mut maker);
            while maker.calls.len() < LEAST_CALLS {
                maker.call(What::Frame);
            }
            maker.calls
        })
        .collect()
}

/// A list under way, and the channel that it has led to. Calls beyond the most are left out.
struct Maker {
    rng: Rng,
    /// How many lists of the same kind came before.
    turn: usize,
    calls: Vec<Call>,
    plain: Plain,
}

/// The order in which servers come into a table, by identity.
#[derive(Clone, Copy)]
enum Order {
    Rising,
    Falling,
    Any,
}

impl Maker {
    // What is there

    fn is_full(&self) -> bool {
        self.calls.len() == MOST_CALLS
    }

    fn channel(&self) -> &Channel {
        self.plain.channel.as_ref().expect("a list makes its channel first")
    }

    fn count(&self) -> usize {
        self.channel().servers.len()
    }

    fn period(&self) -> u32 {
        self.channel().period
    }

    fn frame(&self) -> u32 {
        self.channel().frame
    }

    fn identity(&self, place: usize) -> u16 {
        self.channel().servers[place].identity
    }

    fn role(&self, place: usize) -> u8 {
        role_digit(self.channel().servers[place].role)
    }

    /// Links from one server to another, cut or whole, in any order.
    fn links(&mut self, cut: bool) -> Vec<(usize, usize)> {
        let mut links = self.channel().links(cut);
        self.rng.shuffle(&mut links);
        links
    }

    // What is drawn

    fn some_server(&mut self) -> usize {
        let count = self.count() as u32;
        self.rng.below(count) as usize
    }

    /// A server other than `place`, if there is one.
    fn some_other(&mut self, place: usize) -> usize {
        let count = self.count();
        self.rng.other(count, place)
    }

    fn some_primary(&mut self) -> usize {
        let primaries = self.channel().primaries();
        if primaries.is_empty() {
            return self.some_server();
        }
        *self.rng.pick(&primaries)
    }

    /// An identity that is not in the table, and not 0.
    fn absent(&mut self) -> u16 {
        loop {
            let near = self.identity(0).wrapping_add(1);
            let any = self.rng.between(1, 65_535) as u16;
            let identity = *self.rng.pick(&[near, any, 65_535, 1]);
            if identity != 0 && self.channel().place(identity).is_none() {
                return identity;
            }
        }
    }

    // Tables

    fn server(&mut self, identity: u16, priority: u8) {
        self.lend(What::Server { identity, priority }, 0);
    }

    fn fresh(&mut self, period: u32) {
        self.lend(What::Fresh { period }, 0);
    }

    /// The servers of a table.
    fn some_table(&mut self, count: usize, order: Order, tie: bool) -> Vec<(u16, u8)> {
        let rng = &mut self.rng;
        let style = rng.below(4);
        let mut table: Vec<(u16, u8)> = Vec::new();
        let ties = if tie { 0 } else { rng.between(1, 4) };
        let same = rng.below(256) as u8;
        while table.len() < count {
            let identity = match style {
                0 => table.len() as u32 + 1,
                1 => 10 * table.len() as u32 + 7,
                2 => rng.between(1, 65_535),
                _ if rng.chance(1, 4) => rng.between(1, 2 * count as u32),
                _ => *rng.pick(&[1, 2, 9, 10, 99, 100, 9_999, 10_000, 65_534, 65_535]),
            } as u16;
            let priority = match ties {
                0 => same,
                1 => *rng.pick(&[0, 100, 255]),
                2 => 10 * (table.len() as u8 + 1),
                3 => 255 - 10 * table.len() as u8,
                _ => rng.below(256) as u8,
            };
            if table.iter().all(|server| server.0 != identity) {
                table.push((identity, priority));
            }
        }
        table.sort_unstable();
        match order {
            Order::Rising => {}
            Order::Falling => table.reverse(),
            Order::Any => rng.shuffle(&mut table),
        }
        table
    }

    fn some_order(&mut self) -> Order {
        *self.rng.pick(&[Order::Rising, Order::Falling, Order::Any, Order::Any])
    }

    /// A new table and its fresh channel.
    fn group_with(&mut self, count: usize, period: u32, tie: bool) {
        self.lend(What::Table, 0);
        let order = self.some_order();
        for (identity, priority) in self.some_table(count, order, tie) {
            self.server(identity, priority);
        }
        self.fresh(period);
    }

    /// The number of servers is one of these; the period is often the least that fits.
    fn group(&mut self, counts: &[usize]) {
        let count = *self.rng.pick(counts);
        let period = self.some_period(count);
        let tie = self.rng.chance(1, 6);
        self.group_with(count, period, tie);
    }

    fn some_period(&mut self, count: usize) -> u32 {
        let least = count.max(2) as u32;
        match self.rng.below(12) {
            0..=5 => least,
            6..=9 => least + self.rng.below(5),
            10 => self.rng.between(least, 40),
            _ => MOST_PERIOD,
        }
    }

    // Calls

    /// A call with just this slice.
    fn lend(&mut self, what: What, len: usize) {
        if !self.is_full() {
            let call = Call { what, len };
            self.plain.answer(&call);
            self.calls.push(call);
        }
    }

    fn push(&mut self, what: What, len: usize, outcome: Outcome) {
        if self.is_full() {
            return;
        }
        self.calls.push(Call { what, len });
        let answer = self.plain.settle(outcome, len);
        // sometimes the line that a sheet would have
        if let (What::Act { first, .. }, Answer::Call { number: number @ 11.., .. }) =
            (what, answer)
        {
            if self.rng.chance(1, 5) {
                self.call(What::Refused { identity: first, number });
            }
        }
    }

    /// A call with a slice of any length, mostly long enough; if it is not, once more.
    fn call(&mut self, what: What) {
        if self.is_full() {
            return;
        }
        let outcome = outcome(self.channel(), what);
        let need = need(&outcome);
        if need > 0 && self.rng.chance(1, 14) {
            let any = self.rng.below(need as u32) as usize;
            let len = *self.rng.pick(&[need - 1, need - 1, any]);
            self.lend_short(what, len);
        }
        let len = match self.rng.below(8) {
            0 | 1 => need,
            2 => need + 1,
            3 => need + self.rng.below(200) as usize,
            _ => MOST_LENT,
        };
        self.push(what, len.min(MOST_LENT), outcome);
    }

    /// A slice that is known to be too short; nothing to run.
    fn lend_short(&mut self, what: What, len: usize) {
        if !self.is_full() {
            self.calls.push(Call { what, len: len.min(MOST_LENT) });
        }
    }

    /// One byte too short, and then just long enough.
    fn call_twice(&mut self, what: What) {
        let outcome = outcome(self.channel(), what);
        let need = need(&outcome);
        if (1..=MOST_LENT).contains(&need) {
            self.lend_short(what, need - 1);
            self.push(what, need, outcome);
        }
    }

    /// `other` is used by the verbs that have two; the rest have anything there.
    fn verb(&mut self, verb: Verb, place: usize, other: usize) -> What {
        let first = self.identity(place);
        let second = self.identity(other);
        let second = if verb.has_two() {
            second
        } else {
            let absent = self.absent();
            *self.rng.pick(&[0, 0, first, second, absent])
        };
        What::Act { verb, first, second }
    }

    fn act(&mut self, verb: Verb, place: usize, other: usize) {
        if verb.has_two() && place == other {
            return;
        }
        let what = self.verb(verb, place, other);
        self.call(what);
    }

    fn wait(&mut self, frames: u32) {
        let goal = (self.frame() + frames).min(LAST_FRAME);
        if frames <= 3 && self.rng.chance(1, 2) {
            while self.frame() < goal && !self.is_full() {
                self.call(What::Frame);
            }
        } else {
            self.call(What::Time { time: goal });
        }
    }

    fn pause(&mut self) {
        let period = self.period();
        let frames = match self.rng.below(16) {
            0 => self.rng.between(5, 10) * period,
            _ => pause(&mut self.rng, period),
        };
        self.wait(frames);
    }

    /// Long enough for a primary, if all links are whole.
    fn settle(&mut self) {
        let period = self.period();
        let frames = 4 * period + 2 + self.rng.below(period);
        self.wait(frames);
    }

    /// To the next frame in which somebody sends, if it is soon; or to the one before it.
    fn wait_for_sending(&mut self, before: bool) {
        let mut channel = self.channel().clone();
        let mut notes: Vec<Note> = Vec::new();
        let most = (channel.frame + 2 * channel.period + 1).min(LAST_FRAME);
        while channel.frame < most {
            channel.advance(&mut notes);
            if notes.iter().any(|note| note.word == "beat" || note.word == "reveal") {
                self.call(What::Time { time: channel.frame - u32::from(before) });
                return;
            }
        }
    }

    /// Down, idle and sync servers become backup.
    fn revive(&mut self, place: usize) {
        for _ in DOWN..BACKUP {
            if let Some(verb) = self.channel().servers[place].role.way_up() {
                self.act(verb, place, place);
            }
        }
    }

    /// All servers, or nearly all, become backup: in one frame, or over some frames.
    fn make_ready(&mut self) {
        let mut places: Vec<usize> = (0..self.count()).collect();
        if self.rng.chance(1, 2) {
            self.rng.shuffle(&mut places);
        }
        let spread = self.rng.chance(1, 4);
        let all = self.rng.chance(3, 4);
        for place in places {
            if all || self.rng.chance(4, 5) {
                self.revive(place);
            }
            if spread {
                let frames = self.rng.below(3);
                self.wait(frames);
            }
        }
    }

    /// Takes a server to a role, if the others let it.
    fn bring(&mut self, place: usize, role: u8) {
        for _ in 0..8 {
            let other = self.some_other(place);
            let period = self.period();
            match (self.role(place), role) {
                (now, wanted) if now == wanted => return,
                (DOWN, _) => self.act(Verb::Restart, place, other),
                (IDLE, SYNC..) => self.act(Verb::Start, place, other),
                (SYNC, BACKUP..) => self.act(Verb::Ready, place, other),
                (BACKUP, SYNC) => self.act(Verb::Unready, place, other),
                (BACKUP, PROSPECT..) | (PROSPECT, PRIMARY) => self.wait(2 * period),
                _ => self.act(Verb::Crash, place, other),
            }
        }
    }

    fn is_allowed(&self, verb: Verb, place: usize, other: usize) -> bool {
        let (first, second) = (self.identity(place), self.identity(other));
        outcome(self.channel(), What::Act { verb, first, second }).is_ok()
    }

    /// A verb that the state allows.
    fn allowed(&mut self) {
        let place = if self.rng.chance(1, 3) { self.some_primary() } else { self.some_server() };
        let other = self.some_other(place);
        let mut verbs = Verb::ALL.to_vec();
        self.rng.shuffle(&mut verbs);
        // the way up, rather than a crash
        if self.role(place) < BACKUP && self.rng.chance(3, 4) {
            verbs = vec![Verb::Restart, Verb::Start, Verb::Ready];
        }
        if let Some(verb) = verbs.into_iter().find(|&verb| self.is_allowed(verb, place, other)) {
            self.act(verb, place, other);
        }
    }

    /// A verb drawn without regard to the state.
    fn any(&mut self) {
        let place = self.some_server();
        let other = self.some_other(place);
        let verb = *self.rng.pick(&Verb::ALL);
        self.act(verb, place, other);
    }

    /// A call that has nothing to do with the state, most often refused.
    fn odd(&mut self) {
        let verb = *self.rng.pick(&Verb::ALL);
        let two = *self.rng.pick(&[Verb::Pass, Verb::Cut, Verb::Mend]);
        let place = self.some_server();
        let known = self.identity(place);
        let absent = self.absent();
        let frame = self.frame();
        let act = |verb, first, second| What::Act { verb, first, second };
        let what = match self.rng.below(12) {
            0 => act(verb, absent, known),
            1 => act(two, known, absent),
            2 => act(two, known, known),
            3 => act(verb, 0, known),
            4 => act(two, known, 0),
            5 => act(two, 0, absent),
            6 => act(two, absent, 0),
            7 => What::Time { time: frame.saturating_sub(1) },
            8 => What::Time { time: self.rng.below(frame + 1) },
            9 => What::Time { time: *self.rng.pick(&[LAST_FRAME + 1, u32::MAX]) },
            10 => What::Time { time: LAST_FRAME + 1 + self.rng.below(u32::MAX - LAST_FRAME) },
            _ => self.some_note(),
        };
        self.call(what);
    }

    fn some_note(&mut self) -> What {
        let place = self.some_server();
        let known = self.identity(place);
        let any = self.rng.below(65_536) as u16;
        let identity = *self.rng.pick(&[0, known, known, any, 65_535]);
        let number = *self.rng.pick(&REFUSALS);
        What::Refused { identity, number }
    }
}

/// How many bytes a call writes.
fn need(outcome: &Outcome) -> usize {
    outcome.as_ref().map_or(0, |(_, text)| text.len())
}

// Kinds of lists

/// Tables with faults, and periods that do not fit.
fn tables(maker: &mut Maker) {
    let count = [1, 2, 3, 5, MOST_SERVERS][maker.turn % 5];
    maker.lend(What::Table, 0);
    // no server yet: 6, or 2 for the period
    for period in [5, 1, 2, 251] {
        if maker.rng.chance(1, 2) {
            maker.fresh(period);
        }
    }
    let order = [Order::Rising, Order::Falling, Order::Any][maker.turn / 5 % 3];
    let table = maker.some_table(count, order, maker.turn % 2 == 1);
    for (at, &(identity, priority)) in table.iter().enumerate() {
        if maker.rng.chance(1, 4) {
            maker.server(0, priority);
        }
        if at > 0 && (at == 1 || maker.rng.chance(1, 4)) {
            let again = maker.rng.below(256) as u8;
            let &(twice, _) = maker.rng.pick(&table[..at]);
            maker.server(twice, again);
        }
        // too early: what is missing comes after it
        if at > 2 && maker.rng.chance(1, 4) {
            maker.fresh(at as u32 - 1);
        }
        maker.server(identity, priority);
    }
    if count == MOST_SERVERS {
        // a seventeenth, of itself and with other faults
        let free = (1..).find(|&identity| table.iter().all(|server| server.0 != identity));
        maker.server(free.expect("there are more than sixteen"), 7);
        maker.server(table[3].0, 7);
        maker.server(0, 7);
        maker.server(65_535, 255);
    }
    let mut periods = vec![0, 1, 251, 300, count as u32 - 1];
    maker.rng.shuffle(&mut periods);
    for &period in &periods[..3] {
        // only what is refused
        if period < count as u32 || !(2..=MOST_PERIOD).contains(&period) {
            maker.fresh(period);
        }
    }
    let period = maker.some_period(count);
    maker.fresh(period);
    if count < MOST_SERVERS {
        maker.make_ready();
    } else {
        for place in [0, 3, 15] {
            maker.revive(place);
        }
    }
    maker.settle();
    maker.odd();
    maker.pause();
    maker.allowed();
    maker.settle();
}

fn churn(maker: &mut Maker) {
    maker.group(&[1, 2, 3, 4, 5]);
    maker.make_ready();
    for _ in 0..maker.rng.between(6, 18) {
        maker.pause();
        maker.allowed();
        if maker.rng.chance(1, 6) {
            maker.odd();
        }
    }
    maker.settle();
}

/// Verbs drawn without regard to roles.
fn soup(maker: &mut Maker) {
    maker.group(&[1, 2, 3, 4, 5]);
    if maker.rng.chance(3, 4) {
        maker.make_ready();
    }
    for _ in 0..maker.rng.between(10, 30) {
        match maker.rng.below(5) {
            0 | 1 => maker.pause(),
            2 => maker.odd(),
            _ => {}
        }
        maker.any();
    }
    maker.settle();
}

/// Every verb on a server in two of the six roles: what is refused, and then what is allowed.
fn roles(maker: &mut Maker) {
    let count = *maker.rng.pick(&[2, 3]);
    let period = count as u32 + maker.rng.below(3);
    maker.group_with(count, period, false);
    for turn in 0..2 {
        let role = ((2 * maker.turn + turn) % 6) as u8;
        let place = maker.some_server();
        maker.bring(place, role);
        let mut verbs = Verb::ALL;
        maker.rng.shuffle(&mut verbs);
        for verb in verbs {
            let other = maker.some_other(place);
            if verb.has_two() && verb != Verb::Pass {
                // allowed and refused in turns
                maker.act(verb, place, other);
                maker.act(verb, place, other);
            } else if !maker.is_allowed(verb, place, other) {
                maker.act(verb, place, other);
            }
        }
        for verb in verbs {
            let other = maker.some_other(place);
            maker.bring(place, role);
            if verb == Verb::Mend && maker.is_allowed(Verb::Cut, place, other) {
                maker.act(Verb::Cut, place, other);
            }
            if maker.is_allowed(verb, place, other) {
                maker.act(verb, place, other);
            }
        }
    }
}

/// Two parts that cannot hear each other, or in one direction only; then they heal.
fn parted(maker: &mut Maker) {
    maker.group(&[2, 2, 3, 3, 5]);
    let count = maker.count() as u32;
    let side = maker.rng.between(1, (1 << count) - 2);
    let is_left = |place: usize| side >> place & 1 == 1;
    let both = maker.rng.chance(3, 4);
    let early = maker.rng.chance(1, 2);
    if early {
        maker.make_ready();
        maker.settle();
    }
    for (from, to) in maker.links(false) {
        if is_left(from) != is_left(to) && (both || is_left(from)) {
            maker.act(Verb::Cut, from, to);
        }
    }
    if !early {
        maker.make_ready();
    }
    maker.settle();
    maker.odd();
    if maker.rng.chance(1, 3) {
        maker.allowed();
    }
    let slowly = maker.rng.chance(1, 2);
    for (from, to) in maker.links(true) {
        maker.act(Verb::Mend, from, to);
        if maker.rng.chance(1, 5) {
            maker.act(Verb::Cut, from, to);
        }
        if slowly {
            let frames = maker.rng.below(maker.period() + 2);
            maker.wait(frames);
        }
    }
    maker.settle();
}

/// Passes to servers that hear them, and to some that are down, not ready, or cut off.
fn passes(maker: &mut Maker) {
    maker.group(&[2, 3, 5]);
    maker.make_ready();
    maker.settle();
    for _ in 0..maker.rng.between(3, 6) {
        let from = maker.some_primary();
        let to = maker.some_other(from);
        match maker.rng.below(8) {
            0 | 1 => maker.bring(to, DOWN),
            2 if maker.role(to) == BACKUP => maker.act(Verb::Unready, to, from),
            3 => maker.act(Verb::Cut, from, to),
            _ => {}
        }
        maker.act(Verb::Pass, from, to);
        match maker.rng.below(6) {
            0 => maker.act(Verb::Pass, from, to),
            1 => maker.revive(to),
            2 => maker.act(Verb::Crash, from, to),
            _ => {}
        }
        let frames = 2 * maker.period() + maker.rng.below(3);
        maker.wait(frames);
        if maker.channel().primaries().is_empty() {
            maker.revive(to);
            maker.settle();
        }
    }
}

/// Crashes in the frame of a beat, and in the frames beside it.
fn falls(maker: &mut Maker) {
    maker.group(&[1, 2, 3, 5]);
    maker.make_ready();
    if maker.rng.chance(1, 2) {
        maker.settle();
    }
    for _ in 0..maker.rng.between(2, 5) {
        let before = maker.rng.chance(1, 5);
        maker.wait_for_sending(before);
        if maker.rng.chance(1, 4) {
            let frames = maker.rng.between(1, maker.period());
            maker.wait(frames);
        }
        let busy: Vec<usize> =
            (0..maker.count()).filter(|&place| maker.role(place) >= PROSPECT).collect();
        let place = if busy.is_empty() { maker.some_server() } else { *maker.rng.pick(&busy) };
        maker.act(Verb::Crash, place, place);
        match maker.rng.below(4) {
            0 => maker.act(Verb::Crash, place, place),
            1 => maker.pause(),
            2 => maker.settle(),
            _ => {}
        }
        maker.revive(place);
    }
    maker.settle();
}

/// The last frame of the day, reached with hardly anybody awake.
fn last_frame(maker: &mut Maker) {
    let counts = [1, 2, 3, 2, 5, 1, 3, 16];
    let count = counts[maker.turn % counts.len()];
    let period = maker.some_period(count);
    maker.group_with(count, period, maker.turn % 4 == 3);
    // something early, and then nobody
    if count <= 3 && maker.turn % 2 == 1 {
        maker.make_ready();
        maker.settle();
        for place in 0..count {
            maker.bring(place, DOWN);
            if maker.rng.chance(1, 3) {
                maker.act(Verb::Restart, place, place);
            }
        }
    } else if maker.rng.chance(1, 2) {
        maker.any();
    }
    let before = [0, 1, 0, 2, 3][maker.turn % 5];
    maker.call(What::Time { time: LAST_FRAME - before });
    for _ in 0..before {
        maker.call(What::Frame);
    }
    maker.call(What::Frame);
    maker.lend(What::Frame, 0);
    at_the_end(maker);
    for _ in 0..maker.rng.between(6, 12) {
        maker.allowed();
        maker.any();
        if maker.rng.chance(1, 3) {
            maker.odd();
        }
    }
    maker.call(What::Frame);
}

/// Advances at the last frame, all of them refused but for the one to where it is.
fn at_the_end(maker: &mut Maker) {
    let mut whats = [
        What::Frame,
        What::Time { time: LAST_FRAME },
        What::Time { time: LAST_FRAME - 1 },
        What::Time { time: 0 },
        What::Time { time: LAST_FRAME + 1 },
        What::Time { time: u32::MAX },
        maker.some_note(),
    ];
    maker.rng.shuffle(&mut whats);
    for what in whats {
        maker.call(what);
    }
}

/// Elections in the last frames of the day.
fn late(maker: &mut Maker) {
    let count = *maker.rng.pick(&[1, 2, 3, 5]);
    let period = count.max(2) as u32 + maker.rng.below(4);
    maker.group_with(count, period, false);
    let before = maker.rng.between(3 * period, 9 * period);
    maker.call(What::Time { time: LAST_FRAME - before });
    maker.make_ready();
    maker.settle();
    for _ in 0..maker.rng.below(4) {
        maker.pause();
        maker.allowed();
    }
    // to the end at once, or by one in the last frames
    let before = if maker.rng.chance(1, 2) { 0 } else { maker.rng.between(1, 4) };
    let time = maker.frame().max(LAST_FRAME - before);
    maker.call_twice(What::Time { time });
    maker.call(What::Time { time });
    while maker.frame() < LAST_FRAME && !maker.is_full() {
        maker.call(What::Frame);
    }
    maker.call(What::Frame);
    for _ in 0..maker.rng.between(1, 5) {
        maker.allowed();
    }
    at_the_end(maker);
}

/// Every kind of call with a slice one byte too short, and just long enough.
fn slices(maker: &mut Maker) {
    let count = *maker.rng.pick(&[2, 2, 3]);
    let period = maker.some_period(count).min(20);
    maker.group_with(count, period, false);
    let place = maker.some_server();
    let other = maker.some_other(place);
    let twice = |maker: &mut Maker, verb: Verb| {
        let what = maker.verb(verb, place, other);
        maker.call_twice(what);
    };
    for verb in [Verb::Cut, Verb::Mend, Verb::Crash, Verb::Restart, Verb::Start, Verb::Ready] {
        twice(maker, verb);
    }
    twice(maker, Verb::Unready);
    maker.act(Verb::Ready, place, other);
    if maker.rng.chance(1, 2) {
        maker.revive(other);
    }
    let note = maker.some_note();
    maker.call_twice(note);
    // the frame of the first reveal, and the election after it
    maker.wait_for_sending(true);
    maker.call_twice(What::Frame);
    let time = maker.frame() + 2 * period;
    maker.call_twice(What::Time { time });
    maker.wait(1);
    let primary = maker.some_primary();
    let away = maker.some_other(primary);
    let what = maker.verb(Verb::Pass, primary, away);
    maker.call_twice(what);
    maker.call_twice(What::Time { time: maker.frame() + 2 * period + 1 });
    // a slice of nothing where nothing is written
    maker.lend(What::Time { time: maker.frame() }, 0);
    for _ in 0..3 {
        let verb = *maker.rng.pick(&Verb::ALL);
        if !maker.is_allowed(verb, place, other) {
            let what = maker.verb(verb, place, other);
            maker.lend(what, 0);
        }
    }
    for turn in 0..3 {
        maker.wait_for_sending(turn < 2);
        maker.call_twice(What::Frame);
    }
    twice(maker, Verb::Crash);
    maker.settle();
}

/// Times before, at and after the present frame, and outside the day.
fn times(maker: &mut Maker) {
    let count = *maker.rng.pick(&[1, 2, 3]);
    let long = maker.turn.is_multiple_of(4);
    let period = if long { MOST_PERIOD } else { maker.some_period(count).min(12) };
    maker.group_with(count, period, false);
    maker.call(What::Time { time: 0 });
    maker.call(What::Time { time: u32::MAX });
    maker.make_ready();
    maker.wait(1);
    for turn in 0..maker.rng.between(8, 14) {
        let frame = maker.frame();
        let time = match maker.rng.below(10) {
            0 => 0,
            1 | 2 => frame.saturating_sub(1),
            3 | 4 => frame,
            5 => LAST_FRAME + 1,
            6 => u32::MAX,
            7 => u32::MAX - maker.rng.below(frame + 2),
            // more than the slice can take, where a whole day of beats is
            8 if long && turn > 4 => LAST_FRAME,
            _ => maker.rng.below(frame + 1),
        };
        maker.call(What::Time { time });
        if maker.rng.chance(2, 3) {
            maker.pause();
        }
        if maker.rng.chance(1, 6) {
            maker.allowed();
        }
    }
    maker.settle();
}

/// Identities that are 0, absent or the same, and such where nobody looks.
fn identities(maker: &mut Maker) {
    maker.group(&[1, 2, 3, 5]);
    maker.make_ready();
    if maker.rng.chance(2, 3) {
        maker.settle();
    }
    let place = maker.some_server();
    let other = maker.some_other(place);
    let (a, b) = (maker.identity(place), maker.identity(other));
    let (x, y) = (maker.absent(), maker.absent());
    let mut whats = Vec::new();
    for verb in Verb::ALL {
        for (first, second) in
            [(0, a), (a, 0), (0, x), (x, 0), (0, 0), (x, a), (a, x), (x, y), (x, x), (a, a), (a, b)]
        {
            whats.push(What::Act { verb, first, second });
        }
    }
    maker.rng.shuffle(&mut whats);
    for what in whats.into_iter().take(36) {
        maker.call(what);
        if maker.rng.chance(1, 12) {
            maker.pause();
        }
    }
    maker.settle();
}

/// Equal priorities: the greater identity is higher.
fn ties(maker: &mut Maker) {
    let count = *maker.rng.pick(&[2, 3, 4, 5]);
    let period = maker.some_period(count);
    maker.group_with(count, period, true);
    maker.make_ready();
    maker.settle();
    for _ in 0..maker.rng.between(2, 6) {
        let primary = maker.some_primary();
        let other = maker.some_other(primary);
        let verb = *maker.rng.pick(&[Verb::Crash, Verb::Pass, Verb::Cut]);
        maker.act(verb, primary, other);
        maker.settle();
        maker.revive(primary);
    }
    maker.settle();
}

/// Sixteen servers, many of them ready.
fn crowd(maker: &mut Maker) {
    let period = 16 + maker.rng.below(3) * maker.rng.below(10);
    maker.group_with(MOST_SERVERS, period, maker.turn % 3 == 2);
    let awake = maker.rng.between(8, 16) as usize;
    let first = maker.some_server();
    for at in 0..awake {
        maker.revive((first + at) % MOST_SERVERS);
    }
    maker.settle();
    for _ in 0..maker.rng.between(2, 5) {
        maker.allowed();
        maker.pause();
    }
    let primary = maker.some_primary();
    maker.act(Verb::Crash, primary, primary);
    maker.settle();
}

/// One server.
fn alone(maker: &mut Maker) {
    maker.group(&[1]);
    maker.make_ready();
    for _ in 0..maker.rng.between(4, 10) {
        maker.pause();
        let verb = *maker.rng.pick(&Verb::ALL);
        let what = maker.verb(verb, 0, 0);
        maker.call(what);
        if maker.rng.chance(1, 2) {
            maker.revive(0);
        }
    }
    maker.settle();
}

/// The greatest period.
fn slow(maker: &mut Maker) {
    let count = *maker.rng.pick(&[2, 3, 5]);
    maker.group_with(count, MOST_PERIOD, false);
    maker.make_ready();
    maker.settle();
    for _ in 0..maker.rng.between(4, 10) {
        maker.allowed();
        maker.pause();
        if maker.rng.chance(1, 5) {
            maker.odd();
        }
    }
    maker.settle();
}

/// More than one fresh channel of a table. A refused one leaves the channel as it is.
fn again(maker: &mut Maker) {
    maker.group(&[1, 2, 3, 5]);
    let count = maker.count();
    for _ in 0..maker.rng.between(2, 3) {
        maker.make_ready();
        maker.settle();
        maker.allowed();
        maker.pause();
        if maker.rng.chance(2, 3) {
            let period = *maker.rng.pick(&[0, 1, 251, 300]);
            maker.fresh(period);
            maker.pause();
        }
        maker.odd();
        let period = maker.some_period(count);
        maker.fresh(period);
        maker.odd();
    }
    maker.make_ready();
    maker.settle();
}

/// An election with one call for each frame.
fn by_frames(maker: &mut Maker) {
    let count = *maker.rng.pick(&[1, 2, 3, 4]);
    let period = count.max(2) as u32 + maker.rng.below(2);
    maker.group_with(count, period, false);
    maker.make_ready();
    if maker.rng.chance(1, 3) {
        maker.wait(2 * period - 1);
    }
    while !maker.is_full() {
        maker.call(What::Frame);
        if maker.rng.chance(1, 8) {
            maker.allowed();
        }
    }
}

/// Everybody alone and primary; then several pass to one server in one frame.
fn many_passes(maker: &mut Maker) {
    let count = *maker.rng.pick(&[3, 3, 4]);
    let period = count as u32 + maker.rng.below(3);
    maker.group_with(count, period, false);
    for (from, to) in maker.links(false) {
        maker.act(Verb::Cut, from, to);
    }
    for place in 0..count {
        maker.revive(place);
    }
    maker.wait(4 * period);
    let frames = *maker.rng.pick(&[0, 0, 1, period - 1, period]);
    maker.wait(frames);
    let lowest = maker.channel().from_highest()[count - 1];
    let target = if maker.rng.chance(1, 2) { lowest } else { maker.some_server() };
    let away = maker.some_other(target);
    match maker.rng.below(8) {
        0 => maker.act(Verb::Crash, target, away),
        1..=3 => {}
        // a prospect again, while the others are primary
        4 | 5 => {
            maker.act(Verb::Crash, target, away);
            maker.revive(target);
            let frames = 2 * period + maker.rng.below(2 * period);
            maker.wait(frames);
        }
        _ => maker.act(Verb::Pass, target, away),
    }
    for place in (0..count).filter(|&place| place != target) {
        maker.act(Verb::Mend, place, target);
        maker.act(Verb::Pass, place, target);
    }
    if maker.role(target) < BACKUP {
        maker.revive(target);
    }
    maker.wait(1);
    maker.wait(2 * period);
    for (from, to) in maker.links(true) {
        maker.act(Verb::Mend, from, to);
    }
    maker.settle();
}

/// Cuts in one direction and mends, some of them in the frame of a beat.
fn one_way_cuts(maker: &mut Maker) {
    maker.group(&[2, 3, 5]);
    maker.make_ready();
    maker.settle();
    for _ in 0..maker.rng.between(5, 12) {
        match maker.rng.below(4) {
            0 | 1 => maker.wait_for_sending(false),
            2 => {}
            _ => maker.pause(),
        }
        let cuts = maker.links(true);
        match cuts.first() {
            Some(&(from, to)) if maker.rng.chance(1, 2) => maker.act(Verb::Mend, from, to),
            _ => {
                let from = maker.some_primary();
                let to = maker.some_other(from);
                maker.act(Verb::Cut, from, to);
                if maker.rng.chance(1, 6) {
                    maker.act(Verb::Mend, from, to);
                }
            }
        }
    }
    maker.settle();
}

/// Nobody hears the highest. The others reveal while it is prospect, or in one frame while it is
/// primary, and then it is heard.
fn unheard(maker: &mut Maker) {
    let count = *maker.rng.pick(&[3, 3, 4]);
    let period = count as u32 + maker.rng.below(3);
    maker.group_with(count, period, false);
    let mut places = maker.channel().from_highest();
    let highest = places.remove(0);
    for &place in &places {
        maker.act(Verb::Cut, highest, place);
    }
    maker.revive(highest);
    let frames = match maker.turn % 4 {
        // the reply is in the frame of a beat
        0 => 5 * period - 1,
        // and this one in the frame in which the prospect limit falls
        1 => 2 * period - 1,
        2 => maker.rng.below(2 * period),
        _ => 4 * period + maker.rng.below(period),
    };
    maker.wait(frames);
    maker.rng.shuffle(&mut places);
    for &place in &places {
        maker.revive(place);
    }
    maker.wait(2 * period);
    maker.wait(1);
    maker.allowed();
    maker.settle();
    for (from, to) in maker.links(true) {
        maker.act(Verb::Mend, from, to);
    }
    let primary = maker.some_primary();
    maker.act(Verb::Crash, primary, primary);
    maker.settle();
}
