//! Frames laid out on a line: the spans of roles, columns that hold several roles, and marks
//! thinned out until they stand apart.

use crate::sheet::Role;
use std::ops::Range;

/// Widths and places are in tenths of a pixel.
pub type Tenths = u32;

/// The frames from `from` to before `to` on a line of this width.
#[derive(Clone, Copy, Debug)]
pub struct Scale {
    pub from: u32,
    pub to: u32,
    pub width: Tenths,
}

impl Scale {
    pub fn frames(&self) -> u32 {
        self.to - self.from
    }

    pub fn x(&self, frame: u32) -> Tenths {
        let part = u64::from(frame - self.from) * u64::from(self.width);
        (part / u64::from(self.frames())) as Tenths
    }

    /// The first frame at this place or after it.
    pub fn frame(&self, x: Tenths) -> u32 {
        let part = u64::from(x) * u64::from(self.frames());
        self.from + part.div_ceil(u64::from(self.width)) as u32
    }
}

/// A role held from a frame to before another one.
#[derive(Clone, Debug, PartialEq, Eq)]
pub struct Span {
    pub role: Role,
    pub from: u32,
    pub to: u32,
    /// The roles entered in its first frame; the last of them is held. None: idle from the start.
    pub lines: Range<usize>,
}

/// The spans of a server that enters these roles. Before the first it is idle.
pub fn spans(roles: &[(u32, Role)], from: u32, to: u32) -> Vec<Span> {
    let mut list = Vec::new();
    let mut last = Span { role: Role::Idle, from, to, lines: 0..0 };
    for (place, &(frame, role)) in roles.iter().enumerate() {
        if frame > last.from {
            last.to = frame;
            let next = Span { role, from: frame, to, lines: place..place };
            list.push(std::mem::replace(&mut last, next));
        }
        last.role = role;
        last.lines.end = place + 1;
    }
    list.push(last);
    list
}

/// How long each role is held within one column, the whole of it being the scale's frames.
pub type Shares = [u64; Role::ALL.len()];

/// Whether a span is narrower than one of so many columns.
pub fn is_narrow(span: &Span, scale: Scale, count: usize) -> bool {
    u64::from(span.to - span.from) * (count as u64) < u64::from(scale.frames())
}

/// For each of the columns that has a span narrower than a column, the shares of its roles.
pub fn columns(spans: &[Span], scale: Scale, count: usize) -> Vec<Option<Shares>> {
    // a frame is `count` long, a column as long as there are frames
    let long = u64::from(scale.frames());
    let place = |frame: u32| u64::from(frame - scale.from) * count as u64;
    let mut list: Vec<(bool, Shares)> = vec![Default::default(); count];
    for span in spans {
        let (mut at, end) = (place(span.from), place(span.to));
        let narrow = is_narrow(span, scale, count);
        while at < end {
            let column = at / long;
            let next = end.min((column + 1) * long);
            let (several, shares) = &mut list[column as usize];
            *several |= narrow;
            shares[span.role as usize] += next - at;
            at = next;
        }
    }
    list.into_iter().map(|(several, shares)| several.then_some(shares)).collect()
}

/// A column's height parted among the roles; time on air, however short, gets at least `least`.
pub fn heights(shares: &Shares, height: u32, least: u32) -> [u32; Role::ALL.len()] {
    let mut parts = [0; Role::ALL.len()];
    let on_air = shares[Role::Primary as usize];
    let whole: u64 = shares.iter().sum();
    let part = |share: u64, of: u64, height: u32| {
        ((share * u64::from(height) + of / 2) / of.max(1)) as u32
    };
    if on_air > 0 {
        parts[Role::Primary as usize] = part(on_air, whole, height).max(least);
    }
    let rest = height - parts[Role::Primary as usize];
    let (mut time, mut filled) = (0, 0);
    for role in &Role::ALL[1..] {
        time += shares[*role as usize];
        let top = part(time, whole - on_air, rest);
        parts[*role as usize] = top - filled;
        filled = top;
    }
    parts
}

/// Lines of one kind that stand so close that they are drawn as one, at the place of the first.
#[derive(Clone, Debug, PartialEq, Eq)]
pub struct Group {
    pub x: Tenths,
    pub lines: Range<usize>,
}

/// Thins out: two groups are at least `apart` from each other.
pub fn thin(places: impl Iterator<Item = Tenths>, apart: Tenths) -> Vec<Group> {
    let mut list: Vec<Group> = Vec::new();
    for (line, x) in places.enumerate() {
        match list.last_mut() {
            Some(group) if x < group.x + apart => group.lines.end = line + 1,
            _ => list.push(Group { x, lines: line..line + 1 }),
        }
    }
    list
}

#[cfg(test)]
mod tests {
    use super::*;
    use Role::{Backup, Idle, Primary, Prospect, Sync};

    fn plain(list: &[Span]) -> Vec<(Role, u32, u32)> {
        list.iter().map(|span| (span.role, span.from, span.to)).collect()
    }

    #[test]
    fn idle_before_the_first_line() {
        assert_eq!(plain(&spans(&[], 0, 9)), [(Idle, 0, 9)]);
        assert_eq!(plain(&spans(&[(4, Sync)], 0, 9)), [(Idle, 0, 4), (Sync, 4, 9)]);
        assert_eq!(plain(&spans(&[(4, Sync)], 4, 9)), [(Sync, 4, 9)]);
    }

    #[test]
    fn the_last_role_of_a_frame_is_held() {
        let roles = [(0, Sync), (0, Backup), (4, Prospect), (5, Backup), (5, Prospect)];
        let list = spans(&roles, 0, 9);
        assert_eq!(plain(&list), [(Backup, 0, 4), (Prospect, 4, 5), (Prospect, 5, 9)]);
        let lines: Vec<_> = list.into_iter().map(|span| span.lines).collect();
        assert_eq!(lines, [0..2, 2..3, 3..5]);
    }

    #[test]
    fn places_and_frames() {
        let scale = Scale { from: 100, to: 110, width: 14_400 };
        assert_eq!((scale.x(100), scale.x(101), scale.x(110)), (0, 1_440, 14_400));
        let day = Scale { from: 0, to: 2_160_000, width: 14_400 };
        assert_eq!((day.x(149), day.x(150), day.x(2_160_000)), (0, 1, 14_400));
        assert_eq!((day.frame(0), day.frame(1), day.frame(14_400)), (0, 150, 2_160_000));
        for scale in [scale, day, Scale { to: 107, ..scale }] {
            for x in 0..scale.width {
                let frame = scale.frame(x);
                assert!(scale.x(frame) >= x);
                assert!(frame == scale.from || scale.x(frame - 1) < x);
            }
        }
    }

    #[test]
    fn only_columns_with_narrow_spans_have_shares() {
        // 40 frames in 4 columns of 10
        let scale = Scale { from: 0, to: 40, width: 80 };
        let list = spans(&[(0, Backup), (25, Prospect), (28, Primary)], 0, 40);
        let all = columns(&list, scale, 4);
        let at = |role: Role| all[2].map(|shares| shares[role as usize]);
        assert_eq!([all[0], all[1], all[3]], [None; 3]);
        assert_eq!([at(Backup), at(Prospect), at(Primary)], [Some(20), Some(12), Some(8)]);
        assert_eq!(columns(&spans(&[(20, Sync)], 0, 40), scale, 4), [None; 4]);
    }

    #[test]
    fn every_frame_is_in_a_column() {
        let roles: Vec<_> = (0..997).map(|i| (i * 3, Role::ALL[i as usize % 6])).collect();
        let scale = Scale { from: 0, to: 3_001, width: 14_400 };
        let all = columns(&spans(&roles, 0, 3_001), scale, 720);
        assert!(all.iter().flatten().all(|shares| shares.iter().sum::<u64>() == 3_001));
        assert!(all.iter().take(700).all(Option::is_some));
    }

    #[test]
    fn heights_fill_the_column_and_show_what_is_on_air() {
        assert_eq!(heights(&[50, 0, 50, 0, 0, 0], 16, 4), [8, 0, 8, 0, 0, 0]);
        assert_eq!(heights(&[1, 0, 999_999, 0, 0, 0], 16, 4), [4, 0, 12, 0, 0, 0]);
        assert_eq!(heights(&[7, 0, 0, 0, 0, 0], 16, 4), [16, 0, 0, 0, 0, 0]);
        for shares in [[3, 5, 7, 11, 13, 17], [0, 1, 1, 1, 1, 1], [9, 1, 1, 1, 1, 1]] {
            assert_eq!(heights(&shares, 16, 4).iter().sum::<u32>(), 16);
        }
    }

    #[test]
    fn thinned_marks_stand_apart_and_none_is_lost() {
        let places = [0, 0, 3, 19, 20, 21, 90];
        let groups = thin(places.into_iter(), 20);
        let plain: Vec<_> = groups.iter().map(|g| (g.x, g.lines.clone())).collect();
        assert_eq!(plain, [(0, 0..4), (20, 4..6), (90, 6..7)]);
        assert_eq!(thin(std::iter::empty(), 20), []);
    }

    #[test]
    fn a_day_of_beats_becomes_few_ticks() {
        let scale = Scale { from: 0, to: 2_160_000, width: 14_400 };
        let ticks = thin((0..1_080_000).map(|beat| scale.x(beat * 2)), 20);
        assert_eq!(ticks.len(), 720);
        assert_eq!(ticks.iter().map(|tick| tick.lines.len()).sum::<usize>(), 1_080_000);
        assert!(ticks.windows(2).all(|pair| pair[1].x - pair[0].x >= 20));
    }
}
