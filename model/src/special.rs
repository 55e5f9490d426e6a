//! Days made by hand: every refusal in every way it can arise, every verb in every role, and what
//! is rare among drawn days. In the texts here spaces stand for tabs and `@8` for 00:00:00:08.

use crate::calls::{BACKUP, DOWN, IDLE, PRIMARY, PROSPECT, SYNC};
use crate::channel::{Verb, MOST_SERVERS};
use crate::day::MOST_LINES;
use crate::generate::{
    filled, AFTER_END, FORMS, IDENTITIES, NUMBERS, PERIODS, PLACES, SERVERS, TIMES,
};
use crate::script::{join, timed, Script};
use crate::text::{write_timecode, Refusal};

/// All of them but those at the limit of lines.
pub fn days() -> Vec<Vec<u8>> {
    let mut days: Vec<Vec<u8>> = RIGHT.iter().map(|text| day(text)).collect();
    days.extend(refused().into_iter().map(|(_, day)| day));
    days.extend(templates());
    days.extend(STATES.iter().map(|text| day(text)));
    days.extend(verbs_in_roles());
    days.extend(links_in_roles());
    days.extend(passes());
    days.extend(passes_to_another());
    days.extend(two_primaries());
    days.extend(cuts_in_one_direction());
    days.extend(crashes());
    days.extend(tables());
    days.extend(LATE.iter().map(|text| day(text)));
    days.extend(REPLIES.iter().map(|text| day(text)));
    days.extend(ready_side_by_side());
    days.extend(elections_with_cuts());
    days.extend(replies_at_each_age());
    days.extend(two_revealers());
    days.extend(passes_beside_reveals());
    days.extend(entries_after_replies());
    days
}

fn day(text: &str) -> Vec<u8> {
    timed(text).replace(' ', "\t").into_bytes()
}

/// Days that no line is refused in, at the edges of what is allowed; D1 to D9 among them.
#[rustfmt::skip]
pub const RIGHT: &[&str] = &[
    // D1 to D6
    "period 2\nserver 1 10\nserver 2 20\n@0 start 1\n@0 ready 1\n@0 start 2\n@0 ready 2\nend @8",
    "period 2\nserver 1 10\nserver 2 20\n@0 start 1\n@0 ready 1\n@0 start 2\n@0 ready 2\n\
     @8 crash 2\nend @20",
    "period 2\nserver 1 10\nserver 2 20\n@0 start 1\n@0 ready 1\n@0 start 2\n@0 ready 2\n\
     @9 crash 2\nend @20",
    "period 2\nserver 1 10\nserver 2 20\n@0 start 1\n@0 ready 1\n@0 start 2\n@0 ready 2\n\
     @8 pass 2 1\nend @20",
    "period 2\nserver 1 20\nserver 2 20\n@0 start 1\n@0 ready 1\n@0 start 2\n@0 ready 2\nend @12",
    "period 3\nserver 1 10\nserver 2 20\nserver 3 30\n@0 start 1\n@0 ready 1\n@0 start 2\n\
     @0 ready 2\n@0 start 3\n@0 ready 3\nend @16",
    // D7, D8 and D9
    "period 2\nserver 1 1\nserver 2 2\nend @0",
    "period 2\nserver 1 255\nend @0",
    "period 2\nserver 1 1\nend 23:59:59:24",
    // least and greatest numbers
    "period 250\nserver 65535 0\nend @0",
    "period 250\nserver 1 0\nserver 65535 255\n@0 start 65535\n@0 start 1\nend @0",
    "period 2\nserver 10 100\nserver 9 99\n@0 crash 10\n@0 crash 9\n@0 cut 9 10\nend @0",
    // the same frame again and again, and frames at which a second, a minute and an hour begin
    "period 2\nserver 1 1\n@0 start 1\n@24 ready 1\n@25 unready 1\n@1499 ready 1\n@1500 crash 1\n\
     @89999 restart 1\n@90000 start 1\nend @90000",
    "period 2\nserver 1 1\n@0 start 1\n@0 ready 1\n@0 unready 1\n@0 ready 1\n@0 crash 1\n\
     @0 restart 1\n@0 start 1\n@0 ready 1\nend @0",
    // the server lines in falling order
    "period 3\nserver 3 5\nserver 2 5\nserver 1 5\n@0 start 3\n@0 start 2\n@0 start 1\n\
     @0 ready 2\n@0 ready 3\n@0 ready 1\nend @20",
];

/// At the last frame of the day, and on the way there.
#[rustfmt::skip]
pub const LATE: &[&str] = &[
    "period 2\nserver 1 1\n23:59:59:24 start 1\n23:59:59:24 ready 1\nend 23:59:59:24",
    "period 2\nserver 1 1\n@0 start 1\n23:59:59:20 ready 1\nend 23:59:59:24",
    "period 2\nserver 1 1\n23:59:59:24 start 1\nend 23:59:59:23\nend 00:00:00:00\nend 23:59:59:24",
    "period 2\nserver 1 1\n23:59:59:24 start 1\n23:59:59:23 ready 1\n23:59:59:24 ready 1\n\
     end 23:59:59:25",
    "period 2\nserver 1 1\nserver 2 1\n23:59:59:00 start 1\n23:59:59:00 ready 1\n\
     23:59:59:01 start 2\n23:59:59:01 ready 2\n23:59:59:10 pass 2 1\n23:59:59:24 pass 1 2\n\
     end 23:59:59:24\nend 23:59:59:24",
    "period 250\nserver 7 0\nserver 65535 0\n12:00:00:00 start 7\n12:00:00:00 ready 7\n\
     12:00:40:00 start 65535\n12:00:40:00 ready 65535\n12:05:00:00 crash 7\n\
     12:10:00:00 crash 65535\nend 23:59:59:24",
    // a beat every ten seconds, all day
    "period 250\nserver 1 1\n@0 start 1\n@0 ready 1\nend 23:59:59:24",
];

/// Refusals of the state, in days that go on after them.
#[rustfmt::skip]
pub const STATES: &[&str] = &[
    // 11 for each verb, with the present time and the first identity; nothing is done
    "period 2\nserver 1 10\nserver 2 20\n@0 start 1\n@5 ready 1\n@4 start 2\n@4 ready 2\n\
     @4 unready 1\n@4 pass 1 2\n@4 crash 1\n@4 restart 1\n@4 cut 1 2\n@4 mend 2 1\n@0 crash 2\n\
     end @6",
    // 11 before 12 to 15
    "period 2\nserver 1 10\nserver 2 20\n@1 crash 1\n@1 cut 1 2\n@0 start 1\n@0 restart 2\n\
     @0 ready 2\n@0 cut 1 2\n@0 mend 2 1\n@1 start 1\n@1 restart 2\n@1 ready 2\n@1 cut 1 2\n\
     @1 mend 2 1\nend @1",
    // `end` refused, and what may come after it
    "period 2\nserver 1 1\n@5 start 1\nend @4\nend @5",
    "period 2\nserver 1 1\n@5 start 1\nend @4\nend @0\nend @4\nend @12",
    "period 2\nserver 1 1\n@5 start 1\nend @4\n@6 ready 1\n@5 crash 1\nend @5\n@10 crash 1\n\
     end @10",
    "period 2\nserver 1 1\n@5 start 1\nend @4",
    "period 2\nserver 1 1\n@5 start 1\nend @4\nperiod 2\nend @5",
    "period 2\nserver 1 1\n@5 start 1\nend @4\nserver 2 2\nend @5",
    "period 2\nserver 1 1\n@5 start 1\nend @4\n@5 ready 2\nend @5",
    "period 2\nserver 1 1\n@5 start 1\nend @4\nend @5\nend @5",
    // the advance stands before 12, 13, 14 and 15
    "period 2\nserver 1 10\nserver 2 20\n@0 start 1\n@0 ready 1\n@4 start 1\n@6 restart 1\n\
     @8 mend 1 2\n@10 crash 2\n@12 ready 2\nend @14",
    // a refused entry advances past the frames in which something is sent and heard
    "period 2\nserver 1 10\nserver 2 20\n@0 start 1\n@0 ready 1\n@0 start 2\n@0 ready 2\n\
     @30 restart 1\n@60 start 2\nend @61",
    // refusals of a server that is alone
    "period 2\nserver 9 9\n@0 ready 9\n@0 unready 9\n@0 restart 9\n@1 crash 9\n@1 crash 9\n\
     @2 restart 9\n@2 restart 9\n@3 start 9\n@3 start 9\n@4 ready 9\n@8 unready 9\n@12 ready 9\n\
     end @12",
    // 12 for the acting server only
    "period 2\nserver 1 10\nserver 2 20\n@0 crash 1\n@0 cut 1 2\n@0 cut 2 1\n@0 mend 1 2\n\
     @0 mend 2 1\n@0 pass 1 2\n@0 start 2\n@0 ready 2\n@8 pass 2 1\n@9 pass 2 1\nend @20",
];

// Refusals of the input

/// Days with the number that their last line gets. Further days are in `templates`.
pub fn refused() -> Vec<(Refusal, Vec<u8>)> {
    let mut days: Vec<(Refusal, Vec<u8>)> = Vec::new();
    days.extend(WAYS.iter().map(|&(refusal, text)| (refusal, day(text))));
    days.extend(RAW.iter().map(|&(refusal, bytes)| (refusal, bytes.to_vec())));
    days.extend(lengths());
    days.extend(crowds());
    days
}

#[rustfmt::skip]
const WAYS: &[(Refusal, &str)] = &[
    // 1: an unknown word, or a wrong count of fields, as each line of a day
    (1, "foo"), (1, "period"), (1, "period 2 2"), (1, "Period 2"), (1, "server"), (1, "end"),
    (1, "@0"), (1, "@0 start"), (1, "@0 begin 1"), (1, "start 1"), (1, "period 2\nfoo"),
    (1, "period 2\nserver 1"), (1, "period 2\nserver 1 1 1"), (1, "period 2\nperiod"),
    (1, "period 2\nend"), (1, "period 2\n@0 pass 1"), (1, "period 2\nserver 1 1\nfoo 1 1"),
    (1, "period 2\nserver 1 1\nend @0 @0"), (1, "period 2\nserver 1 1\n@0 start 1 1"),
    (1, "period 2\nserver 1 1\n@0 Start 1"), (1, "period 2\nserver 1 1\n@0 start 1\nserver"),
    (1, "period 2\nserver 1 1\n@0 down 1"), (1, "period 2\nserver 1 1\nend @0\nfoo"),
    (1, "period 2\nserver 1 1\nend @0\nend"),
    // 1 before all others: 2, 3, 4, 5, 6, 7, 8
    (1, "period 2\nserver 0 1 1"), (1, "period 2\nserver 1 1\n24:00:00:00 cut 1"), (1, "@0 cut 1"),
    (1, "period 2\nserver 1 1\nserver 1 1 1"), (1, "period 2\n@0 ready 1 1"),
    (1, "period 2\nserver 1 1\nserver 2 2\nserver 3 3\n@0 end 1"),
    (1, "period 2\nserver 1 1\n@0 start 9 9"),
    // 2: each number of a line, in each way
    (2, "period 1"), (2, "period 0"), (2, "period 251"), (2, "period 02"), (2, "period 002"),
    (2, "period 2a"), (2, "period a"), (2, "period -2"), (2, "period +2"), (2, "period 2.0"),
    (2, "period 00"), (2, "period 1000"), (2, "period 65538"), (2, "period 4294967298"),
    (2, "period 18446744073709551618"), (2, "period 340282366920938463463374607431768211458"),
    (2, "period 2\nserver 0 1"), (2, "period 2\nserver 65536 1"), (2, "period 2\nserver 01 1"),
    (2, "period 2\nserver 1x 1"), (2, "period 2\nserver 100000 1"), (2, "period 2\nserver -1 1"),
    (2, "period 2\nserver 65537 1"), (2, "period 2\nserver 4294967297 1"),
    (2, "period 2\nserver 18446744073709551617 1"), (2, "period 2\nserver 1 256"),
    (2, "period 2\nserver 1 00"), (2, "period 2\nserver 1 01"), (2, "period 2\nserver 1 1000"),
    (2, "period 2\nserver 1 x"), (2, "period 2\nserver 1 4294967296"),
    (2, "period 2\nserver 1 18446744073709551616"), (2, "period 2\nserver 1 255255"),
    (2, "period 2\nserver 1 1\n@0 start 0"), (2, "period 2\nserver 1 1\n@0 start 65536"),
    (2, "period 2\nserver 1 1\n@0 start 01"), (2, "period 2\nserver 1 1\n@0 start 65537"),
    (2, "period 2\nserver 1 1\n@0 start x"),
    (2, "period 2\nserver 1 1\n@0 crash 18446744073709551617"),
    (2, "period 2\nserver 1 1\nserver 2 2\n@0 cut 0 2"),
    (2, "period 2\nserver 1 1\nserver 2 2\n@0 cut 1 0"),
    (2, "period 2\nserver 1 1\nserver 2 2\n@0 mend 1 02"),
    (2, "period 2\nserver 1 1\nserver 2 2\n@0 pass 65537 2"),
    (2, "period 2\nserver 1 1\nserver 2 2\n@0 pass 1 65538"),
    // 2 before 4, 5, 6, 7 and 8
    (2, "server 0 1"), (2, "@0 start 0"), (2, "period 2\nserver 1 1\nserver 1 256"),
    (2, "period 2\n@0 start 0"), (2, "period 2\nserver 1 1\nserver 2 2\nserver 3 3\n@0 start 0"),
    (2, "period 2\nserver 1 1\n@0 cut 9 0"), (2, "period 2\nserver 1 1\nend @0\nperiod 1"),
    (2, "period 2\nperiod 251"),
    // 3: the time of an entry, and of `end`
    (3, "period 2\nserver 1 1\n24:00:00:00 start 1"),
    (3, "period 2\nserver 1 1\n00:60:00:00 start 1"),
    (3, "period 2\nserver 1 1\n00:00:60:00 start 1"),
    (3, "period 2\nserver 1 1\n00:00:00:25 start 1"),
    (3, "period 2\nserver 1 1\n0:00:00:00 start 1"), (3, "period 2\nserver 1 1\n00:00:00 start 1"),
    (3, "period 2\nserver 1 1\n00:00:00:00: start 1"),
    (3, "period 2\nserver 1 1\n00.00.00.00 start 1"),
    (3, "period 2\nserver 1 1\n00:00:0a:00 start 1"),
    (3, "period 2\nserver 1 1\n-1:00:00:00 start 1"),
    (3, "period 2\nserver 1 1\n0000:00:00: start 1"), (3, "period 2\nserver 1 1\nfoo start 1"),
    (3, "period 2\nserver 1 1\nend 24:00:00:00"), (3, "period 2\nserver 1 1\nend 23:60:00:00"),
    (3, "period 2\nserver 1 1\nend 23:59:60:00"), (3, "period 2\nserver 1 1\nend 23:59:59:25"),
    (3, "period 2\nserver 1 1\nend 99:99:99:99"), (3, "period 2\nserver 1 1\nend 00:00:00:0"),
    (3, "period 2\nserver 1 1\nend 00:00:00:000"), (3, "period 2\nserver 1 1\nend foo"),
    // fields from left to right: 3 before 2, and before 4, 6, 7 and 8
    (3, "period 2\nserver 1 1\n24:00:00:00 start 0"), (3, "period 2\nserver 1 1\nfoo cut 0 0"),
    (3, "24:00:00:00 start 1"), (3, "end 24:00:00:00"), (3, "period 2\nend 24:00:00:00"),
    (3, "period 2\nserver 1 1\nserver 2 2\nserver 3 3\nend 24:00:00:00"),
    (3, "period 2\nserver 1 1\n24:00:00:00 start 9"),
    (3, "period 2\nserver 1 1\n24:00:00:00 cut 1 1"),
    (3, "period 2\nserver 1 1\nend @0\nend 24:00:00:00"),
    // 4: each line in each place that is not its own
    (4, "server 1 1"), (4, "@0 start 1"), (4, "end @0"), (4, "end 23:59:59:24"),
    (4, "period 2\nperiod 2"), (4, "period 2\nserver 1 1\nperiod 2"),
    (4, "period 2\nserver 1 1\n@0 start 1\nperiod 2"),
    (4, "period 2\nserver 1 1\n@0 start 1\nserver 2 2"),
    (4, "period 2\nserver 1 1\nend @0\nperiod 2"), (4, "period 2\nserver 1 1\nend @0\nserver 2 2"),
    (4, "period 2\nserver 1 1\nend @9\n@9 start 1"), (4, "period 2\nserver 1 1\nend @9\nend @9"),
    (4, "period 2\nserver 1 1\nend @9\n@0 start 1"), (4, "period 2\nserver 1 1\nend @9\nend @0"),
    // 4: no `end`
    (4, "period 2"), (4, "period 250\nserver 1 1"),
    (4, "period 2\nserver 1 1\nserver 2 2\nserver 3 3"), (4, "period 2\nserver 1 1\n@9 start 1"),
    (4, "period 2\nserver 1 1\n@0 ready 1"),
    // 4 before 5 and 8
    (4, "period 2\nserver 1 1\n@0 start 1\nserver 1 1"),
    (4, "period 2\nserver 1 1\nend @0\n@0 start 9"),
    (4, "period 2\nserver 1 1\nend @0\n@0 cut 1 1"),
    (4, "period 2\nserver 1 1\nend @0\nserver 1 1"),
    // 5
    (5, "period 2\nserver 1 1\nserver 1 1"), (5, "period 2\nserver 1 1\nserver 1 2\nend @0"),
    (5, "period 2\nserver 1 1\nserver 2 1\nserver 1 255"),
    (5, "period 2\nserver 65535 0\nserver 65535 0"),
    (5, "period 9\nserver 3 1\nserver 2 1\nserver 1 1\nserver 2 1\nserver 4 4\nend @0"),
    (5, "period 2\nserver 10 0\nserver 1 0\nserver 10 0\n@0 start 10\nend @0"),
    // 5 before 7
    (5, "period 2\nserver 1 1\nserver 2 2\nserver 3 3\nserver 2 2\nend @0"),
    // 6: no server; before 7 and 8
    (6, "period 2\n@0 start 1"), (6, "period 2\nend @0"), (6, "period 250\n23:59:59:24 cut 1 1"),
    (6, "period 2\nend 23:59:59:24"), (6, "period 2\n@0 mend 7 8\nserver 7 1"),
    // 7: before 8, and whatever the entry
    (7, "period 2\nserver 1 1\nserver 2 2\nserver 3 3\nend @0"),
    (7, "period 2\nserver 1 1\nserver 2 2\nserver 3 3\n@0 start 1\nend @9"),
    (7, "period 2\nserver 1 1\nserver 2 2\nserver 3 3\n@9 start 9"),
    (7, "period 2\nserver 1 1\nserver 2 2\nserver 3 3\n@0 pass 1 1"),
    (7, "period 3\nserver 1 1\nserver 2 2\nserver 3 3\nserver 4 4\nend 23:59:59:24"),
    // 8: unknown as the first and as the second, and both the same
    (8, "period 2\nserver 1 1\n@0 start 2"), (8, "period 2\nserver 1 1\n@0 ready 65535"),
    (8, "period 2\nserver 2 2\n@0 unready 1"), (8, "period 2\nserver 2 2\n@0 crash 1"),
    (8, "period 2\nserver 2 2\n@0 restart 22"),
    (8, "period 2\nserver 1 1\nserver 2 2\n@0 pass 3 1"),
    (8, "period 2\nserver 1 1\nserver 2 2\n@0 pass 1 3"),
    (8, "period 2\nserver 1 1\nserver 2 2\n@0 cut 3 1"),
    (8, "period 2\nserver 1 1\nserver 2 2\n@0 cut 1 3"),
    (8, "period 2\nserver 1 1\nserver 2 2\n@0 mend 3 1"),
    (8, "period 2\nserver 1 1\nserver 2 2\n@0 mend 1 3"),
    (8, "period 2\nserver 1 1\nserver 2 2\n@0 cut 3 4"),
    (8, "period 2\nserver 1 1\nserver 2 2\n@0 pass 1 1"),
    (8, "period 2\nserver 1 1\nserver 2 2\n@0 cut 2 2"),
    (8, "period 2\nserver 1 1\nserver 2 2\n@0 mend 1 1"),
    (8, "period 2\nserver 1 1\nserver 2 2\n@0 cut 3 3"), (8, "period 2\nserver 1 1\n@0 pass 1 1"),
    // 8 advances nothing, and comes before 11 to 15
    (8, "period 2\nserver 1 1\n@0 start 1\n@0 ready 1\n@9 crash 2\nend @9"),
    (8, "period 2\nserver 1 1\n@0 start 1\n@0 ready 1\n23:59:59:24 crash 2"),
    (8, "period 2\nserver 1 1\n@5 start 1\n@4 start 2"),
    (8, "period 2\nserver 1 1\n@5 crash 1\n@5 pass 1 2"),
    (8, "period 2\nserver 1 1\nserver 2 2\n@5 start 1\n@4 cut 1 1"),
    (8, "period 2\nserver 1 1\nserver 2 2\n@0 cut 1 2\n@0 cut 2 2"),
];

#[rustfmt::skip]
const RAW: &[(Refusal, &[u8])] = &[
    // nothing, and empty lines in each place
    (4, b""), (1, b"\n"), (1, b"\n\n"), (1, b"\nperiod\t2\n"), (1, b"period\t2\n\n"),
    (1, b"period\t2\nserver\t1\t1\n\nend\t00:00:00:00\n"),
    (1, b"period\t2\nserver\t1\t1\n00:00:00:01\tstart\t1\n\nend\t00:00:00:01\n"),
    (1, b"period\t2\nserver\t1\t1\nend\t00:00:00:00\n\n"),
    // no line feed at the end of each line
    (1, b"p"), (1, b"period"), (1, b"period\t2"), (1, b"period\t2\nserver\t1\t1"),
    (1, b"period\t2\nserver\t1\t1\n00:00:00:00\tstart\t1"),
    (1, b"period\t2\nserver\t1\t1\nend\t00:00:00:00"),
    (1, b"period\t2\nserver\t1\t1\nend\t24:00:00:00"),
    (1, b"period\t2\nserver\t1\t1\nend\t00:00:00:00\nx"),
    (1, b"period\t2\nserver\t1\t1\nend\t00:00:00:00\n\t"),
    (1, b"period\t2\nserver\t1\t1\nend\t00:00:00:00\nend\t00:00:00:00"), (1, b"\0"), (1, b"\r"),
    (1, b" "),
    // NUL bytes
    (1, b"\0\n"), (1, b"\0\0\0\n"), (1, b"period\0\t2\n"), (2, b"period\t2\0\n"),
    (2, b"period\t\x002\n"), (1, b"\0period\t2\n"), (2, b"period\t2\nserver\t1\0\t1\n"),
    (2, b"period\t2\nserver\t1\t\0\n"), (1, b"period\t2\nserver\t1\t1\n00:00:00:00\tstart\0\t1\n"),
    (3, b"period\t2\nserver\t1\t1\n00:00:00:0\0\tstart\t1\n"),
    (2, b"period\t2\nserver\t1\t1\n00:00:00:00\tstart\t1\0\n"),
    (3, b"period\t2\nserver\t1\t1\nend\t00:00:00:00\0\n"),
    (1, b"period\t2\nserver\t1\t1\nend\t00:00:00:00\n\0\n"),
    (1, b"period\t2\nserver\t1\t1\nend\t00:00:00:00\n\0"),
    // carriage returns
    (1, b"\r\n"), (2, b"period\t2\r\n"), (1, b"period\r\t2\n"), (2, b"period\t2\nserver\t1\t1\r\n"),
    (2, b"period\t2\nserver\t1\r\t1\n"), (2, b"period\t2\nserver\t1\t1\n00:00:00:00\tstart\t1\r\n"),
    (1, b"period\t2\nserver\t1\t1\n00:00:00:00\tstart\r\t1\n"),
    (3, b"period\t2\nserver\t1\t1\nend\t00:00:00:00\r\n"),
    (3, b"period\t2\nserver\t1\t1\n00:00:00:00\r\tstart\t1\n"),
    (1, b"period\t2\nserver\t1\t1\nend\t00:00:00:00\n\r\n"),
    (1, b"period\t2\rserver\t1\t1\rend\t00:00:00:00\r"),
    // tabs and spaces
    (1, b"\t\n"), (1, b"\t\t\n"), (1, b"\t\t\t\t\t\n"), (1, b"\tperiod\t2\n"),
    (1, b"period\t2\t\n"), (1, b"period\t\t2\n"), (2, b"period\t\n"), (1, b"period 2\n"),
    (1, b" period\t2\n"), (2, b"period\t 2\n"), (2, b"period\t2 \n"), (1, b"period \t2\n"),
    (2, b"period\t2\nserver\t\t\n"), (2, b"period\t2\nserver\t1\t\n"),
    (2, b"period\t2\nserver\t\t1\n"), (3, b"period\t2\nserver\t1\t1\nend\t\n"),
    (3, b"period\t2\nserver\t1\t1\n\tstart\t1\n"),
    (2, b"period\t2\nserver\t1\t1\n00:00:00:00\tstart\t\n"),
    (1, b"period\t2\nserver\t1\t1\n00:00:00:00\tstart\t1\t\n"),
    (2, b"period\t2\nserver\t1\t1\n00:00:00:00\tcut\t\t\n"),
    (1, b"period\t2\nserver\t1\t1\n00:00:00:00\t\t1\n"), (1, b"period\t2\nserver\t1\t1\n\t\t\n"),
    (1, b"period\t2\nserver\t1\t1\n\t\t\t\n"),
    // bytes above 127
    (1, b"\xff\n"), (1, b"\xef\xbb\xbfperiod\t2\n"), (2, b"period\t\xb2\n"),
    (2, b"period\t2\nserver\t\xd9\xa1\t1\n"),
    (3, b"period\t2\nserver\t1\t1\n00:00:00:0\xb0\tstart\t1\n"),
    (1, b"period\t2\nserver\t1\t1\n00:00:00:00\tst\xe4rt\t1\n"),
];

/// Lines of 63 to 66 bytes and more: 1 from 65 bytes on, with a line feed or without.
fn lengths() -> Vec<(Refusal, Vec<u8>)> {
    let head = "period 2\nserver 1 1\nserver 2 2\n";
    let lines: &[(Refusal, &str, &str)] = &[
        (2, "", "period 2"),
        (2, "period 2\n", "server 1"),
        (2, "period 2\n", "server 1 1"),
        (2, head, "@0 start 1"),
        (2, head, "@0 cut 1 2"),
        (3, head, "end @0"),
        (1, head, "foo"),
        (1, "", "foo"),
    ];
    let mut days = Vec::new();
    for &(refusal, head, line) in lines {
        for length in [63, 64, 65, 66, 129] {
            let mut bytes = day(line);
            // digits in the place of the line feed and after it
            bytes.pop();
            bytes.resize(length, b'1');
            if line == "server 1" {
                // a long identity, and a priority after it
                bytes[length - 2..].copy_from_slice(b"\t1");
            }
            let refusal = if length > 64 { 1 } else { refusal };
            let whole = [day(head), bytes, b"\n".to_vec()].concat();
            if length == 64 || length == 65 {
                days.push((1, whole[..whole.len() - 1].to_vec()));
            }
            days.push((refusal, whole));
        }
    }
    // a long time before a verb
    for (length, refusal) in [(64, 3), (65, 1)] {
        let time = "0".repeat(length - " start 1".len());
        days.push((refusal, day(&format!("{head}{time} start 1"))));
    }
    // one byte again and again, and no line feed at all
    for byte in [b'\0', b'\t', b'\r', b' ', b'x', 0xff] {
        for length in [64, 65, 300] {
            days.push((1, vec![byte; length]));
        }
    }
    days
}

/// Tables of many servers.
fn crowds() -> Vec<(Refusal, Vec<u8>)> {
    let many = |period: u32, count: u32| {
        let servers: Vec<String> =
            (1..=count).map(|identity| format!("server {identity} 7\n")).collect();
        format!("period {period}\n{}", servers.concat())
    };
    let (full, next) = (MOST_SERVERS as u32, MOST_SERVERS as u32 + 1);
    let mut days = Vec::new();
    // a seventeenth server, also where the period is too small for the others
    for period in [2, 16, 17, 250] {
        days.push((6, day(&format!("{}end @0", many(period, next)))));
    }
    days.push((6, day(&many(16, next))));
    days.push((6, day(&format!("{}server 17 0\nserver 18 0\nend @0", many(16, full)))));
    // 5, 2 and 1 come before it
    days.push((5, day(&format!("{}server 16 7\nend @0", many(16, full)))));
    days.push((5, day(&format!("{}server 1 0\nend @0", many(250, full)))));
    days.push((2, day(&format!("{}server 17 256\nend @0", many(16, full)))));
    days.push((2, day(&format!("{}server 0 0\nend @0", many(16, full)))));
    days.push((1, day(&format!("{}server 17\nend @0", many(16, full)))));
    days.push((4, day(&format!("{}period 16\nend @0", many(16, full)))));
    // an identity twice, in each two places of four
    for (one, other) in [(0, 1), (0, 2), (0, 3), (1, 2), (1, 3), (2, 3)] {
        let mut identities = [4, 3, 2, 1];
        identities[other] = identities[one];
        let servers = identities.map(|identity| format!("server {identity} {identity}\n"));
        days.push((5, day(&format!("period 4\n{}end @0", servers.concat()))));
    }
    // a period one too small
    for count in 3..=full {
        days.push((7, day(&format!("{}end @0", many(count - 1, count)))));
    }
    days.push((7, day(&format!("{}@0 start 1\nend @0", many(2, full)))));
    days.push((4, day(&many(15, full))));
    days
}

/// The line that each list of faulty lines is put before, and `end`.
const BEFORE: &str = "period 2\nserver 1 10\nserver 2 20\n\
    @0 start 1\n@0 ready 1\n@0 start 2\n@0 ready 2\n@9 crash 2\nend @18";

/// Each line of the lists of faulty lines, once, and the number that its list gets in a day.
pub fn entry_templates() -> Vec<(Refusal, Vec<u8>)> {
    let lists = [(1, FORMS), (2, NUMBERS), (3, TIMES), (4, PLACES), (8, IDENTITIES)];
    let mut days = Vec::new();
    for (refusal, list) in lists {
        for template in list {
            days.push((refusal, with_line(template, 7, false)));
        }
    }
    days
}

fn templates() -> Vec<Vec<u8>> {
    let mut days: Vec<Vec<u8>> = entry_templates().into_iter().map(|(_, day)| day).collect();
    days.extend(PERIODS.iter().map(|template| with_line(template, 0, true)));
    days.extend(SERVERS.iter().map(|template| with_line(template, 2, false)));
    days.extend(SERVERS.iter().map(|template| with_line(template, 1, true)));
    days.extend(AFTER_END.iter().map(|template| with_line(template, 9, false)));
    days
}

/// A line put before line `at`, counted from 0, or in its place.
fn with_line(template: &str, at: usize, in_place: bool) -> Vec<u8> {
    let mut lines: Vec<Vec<u8>> =
        BEFORE.lines().map(|line| day(line).strip_suffix(b"\n").unwrap_or(b"").to_vec()).collect();
    let time = |frame: u32| write_timecode(frame).expect("within the day");
    let line = filled(template, &time(if at < 8 { 9 } else { 18 }), &time(17), (1, 2), 77);
    if in_place {
        lines[at] = line;
    } else {
        lines.insert(at, line);
    }
    join(&lines)
}

// Roles

const ROLES: [u8; 6] = [DOWN, IDLE, SYNC, BACKUP, PROSPECT, PRIMARY];

/// Leads an idle server to a role, if it hears nobody.
fn lead(script: &mut Script, place: usize, role: u8) {
    match role {
        DOWN => script.entry(Verb::Crash, place, place),
        IDLE => {}
        SYNC => script.entry(Verb::Start, place, place),
        _ => script.revive(place),
    }
    match role {
        PROSPECT => script.wait(2 * script.period()),
        PRIMARY => script.wait(4 * script.period()),
        _ => false,
    };
}

fn finished(mut script: Script, periods: u32) -> Vec<u8> {
    script.wait(periods * script.period() + 2);
    script.end();
    script.text()
}

/// Each verb but `cut` and `mend` in each role; then both servers become ready, if they can.
fn verbs_in_roles() -> Vec<Vec<u8>> {
    let mut days = Vec::new();
    for (period, table, place) in
        [(2, [(1, 10), (2, 20)], 0), (3, [(700, 255), (65_535, 0)], 0), (2, [(1, 5), (2, 5)], 1)]
    {
        for role in ROLES {
            for verb in &Verb::ALL[..6] {
                let mut script = Script::new(period, &table);
                lead(&mut script, place, role);
                script.entry(*verb, place, 1 - place);
                script.wait(1);
                script.revive(1 - place);
                script.revive(place);
                days.push(finished(script, 4));
            }
        }
    }
    days
}

/// `cut` and `mend` in each role, allowed and refused.
fn links_in_roles() -> Vec<Vec<u8>> {
    let mut days = Vec::new();
    for (from, to) in [(0, 1), (1, 0)] {
        for role in ROLES {
            let mut script = Script::new(2, &[(1, 10), (2, 20)]);
            lead(&mut script, from, role);
            script.entry(Verb::Mend, from, to);
            script.entry(Verb::Cut, from, to);
            script.entry(Verb::Cut, from, to);
            // the other direction is a link of its own
            script.entry(Verb::Mend, to, from);
            script.wait(2);
            script.revive(to);
            script.revive(from);
            script.wait(9);
            script.entry(Verb::Mend, from, to);
            script.entry(Verb::Mend, from, to);
            days.push(finished(script, 3));
        }
    }
    days
}

const PAIRS: [[(u16, u8); 2]; 3] = [[(1, 10), (2, 20)], [(1, 20), (2, 10)], [(1, 7), (2, 7)]];

/// A pass to a server in each role, heard or not, by a higher server and by a lower one, in the
/// frame of a beat and in the one after it; to a prospect or primary also later.
fn passes() -> Vec<Vec<u8>> {
    let mut days = Vec::new();
    for table in PAIRS {
        for role in ROLES {
            let later = (role >= PROSPECT).then_some((true, 3));
            for (heard, frames) in [(true, 0), (true, 1), (false, 0)].into_iter().chain(later) {
                let mut script = Script::new(2, &table);
                script.entry(Verb::Cut, 0, 1);
                script.entry(Verb::Cut, 1, 0);
                lead(&mut script, 0, PRIMARY);
                lead(&mut script, 1, role);
                script.wait(frames);
                if heard {
                    script.entry(Verb::Mend, 0, 1);
                }
                script.entry(Verb::Pass, 0, 1);
                script.wait(1);
                script.entry(Verb::Mend, 1, 0);
                days.push(finished(script, 5));
            }
        }
    }
    days
}

/// A pass that is heard by a third server in each role.
fn passes_to_another() -> Vec<Vec<u8>> {
    let mut days = Vec::new();
    let tables = [[(1, 10), (2, 20), (3, 30)], [(65_533, 9), (65_534, 9), (65_535, 0)]];
    for (table, from) in [(tables[0], 0), (tables[0], 1), (tables[1], 0), (tables[1], 1)] {
        for role in ROLES {
            let mut script = Script::new(3, &table);
            let third = 1 - from;
            script.entry(Verb::Cut, from, third);
            script.entry(Verb::Cut, third, from);
            lead(&mut script, from, PRIMARY);
            lead(&mut script, third, role);
            script.wait(1);
            script.entry(Verb::Mend, from, third);
            script.entry(Verb::Pass, from, 2);
            script.wait(1);
            script.revive(2);
            script.entry(Verb::Mend, third, from);
            days.push(finished(script, 5));
        }
    }
    for to in [0, 1] {
        let mut script = Script::new(3, &tables[0]);
        for place in 0..3 {
            script.revive(place);
        }
        script.wait(14);
        script.entry(Verb::Pass, 2, to);
        days.push(finished(script, 5));
    }
    days
}

/// Two that could not hear each other are primary; then one link is mended, or both.
fn two_primaries() -> Vec<Vec<u8>> {
    let mut days = Vec::new();
    for table in PAIRS {
        for (mends, apart) in [
            (&[(0, 1)][..], 0),
            (&[(1, 0)], 0),
            (&[(0, 1), (1, 0)], 0),
            (&[(0, 1), (1, 0)], 1),
            (&[(1, 0), (0, 1)], 3),
        ] {
            let mut script = Script::new(2, &table);
            lead(&mut script, 0, BACKUP);
            lead(&mut script, 1, BACKUP);
            script.wait(10);
            script.entry(Verb::Cut, 0, 1);
            script.entry(Verb::Cut, 1, 0);
            script.wait(10);
            for &(from, to) in mends {
                script.entry(Verb::Mend, from, to);
                script.wait(apart);
            }
            days.push(finished(script, 4));
        }
    }
    days
}

/// Cuts in one direction, in the frame of a beat and in the frames beside it; mended or not.
fn cuts_in_one_direction() -> Vec<Vec<u8>> {
    let mut days = Vec::new();
    for (from, to) in [(0, 1), (1, 0)] {
        for frame in 8..=11 {
            for later in [Some(0), Some(1), Some(2), Some(8), None] {
                let mut script = Script::new(2, &[(1, 10), (2, 20)]);
                script.revive(0);
                script.revive(1);
                script.wait(frame);
                script.entry(Verb::Cut, from, to);
                if let Some(frames) = later {
                    script.wait(frames);
                    script.entry(Verb::Mend, from, to);
                }
                days.push(finished(script, 5));
            }
        }
    }
    days
}

/// The primary crashes or is passed from in each frame of two periods, and comes back.
fn crashes() -> Vec<Vec<u8>> {
    let mut days = Vec::new();
    for (period, table) in [(2, &PAIRS[0][..]), (3, &[(9, 1), (8, 2), (7, 2)])] {
        for frame in 0..2 * period {
            let mut script = Script::new(period, table);
            for place in 0..script.count() {
                script.revive(place);
            }
            script.wait(4 * period + frame);
            let place = script.channel.primaries().first().copied().unwrap_or(0);
            script.entry(Verb::Crash, place, place);
            script.wait(frame % period);
            script.revive(place);
            days.push(finished(script, 6));
        }
    }
    days
}

/// One server, sixteen servers, ties, and the least and the greatest period.
fn tables() -> Vec<Vec<u8>> {
    let mut days = Vec::new();
    for period in [2, 3, 249, 250] {
        for (identity, priority) in [(1, 0), (65_535, 255)] {
            let mut script = Script::new(period, &[(identity, priority)]);
            lead(&mut script, 0, PRIMARY);
            days.push(finished(script, 3));
        }
    }
    // every number of servers, with the least period for it
    for count in 2..=16 {
        let table: Vec<(u16, u8)> = (1..=count).map(|turn| (turn, (turn * 37 % 5) as u8)).collect();
        let mut script = Script::new(count.into(), &table);
        for place in 0..script.count() {
            script.revive(place);
        }
        days.push(finished(script, 5));
    }
    for period in [16, 17, 250] {
        // all tie; in the order of identities; against it; two of each priority
        for style in 0..4u16 {
            let table: Vec<(u16, u8)> = (0..16)
                .map(|turn: u16| {
                    let identity = if style == 2 { 60_000 - turn } else { 7 * turn + 1 };
                    let priority = [9, turn, turn, turn / 2][usize::from(style)];
                    (identity, priority as u8)
                })
                .collect();
            let mut script = Script::new(period, &table);
            for place in 0..16 {
                script.revive(place);
                if style == 3 {
                    script.wait(1);
                }
            }
            script.wait(4 * period + 2);
            let primary = script.channel.primaries().first().copied().unwrap_or(0);
            script.entry(Verb::Pass, primary, 5);
            script.wait(period);
            script.entry(Verb::Crash, 5, 5);
            days.push(finished(script, 5));
        }
    }
    days
}

// Replies to reveals

/// One for each thing that is easily misread.
#[rustfmt::skip]
pub const REPLIES: &[&str] = &[
    // a further reveal in the next frame gets a further reply, of a prospect and of a primary
    "period 4\nserver 1 10\nserver 2 20\nserver 3 30\nserver 4 40\n@0 start 1\n@0 ready 1\n\
     @0 start 2\n@0 ready 2\n@0 start 3\n@0 ready 3\n@0 start 4\n@0 ready 4\nend @19",
    "period 3\nserver 1 10\nserver 2 20\nserver 3 30\n@0 start 1\n@0 ready 1\n@0 start 2\n\
     @0 ready 2\n@0 start 3\n@0 ready 3\n@14 cut 3 1\nend @23",
    // two reveals in one frame get one reply, between two `lower`
    "period 3\nserver 1 10\nserver 2 20\nserver 3 30\n@0 start 1\n@0 ready 1\n@0 start 2\n\
     @0 ready 2\n@0 start 3\n@0 ready 3\n@14 cut 3 1\n@14 cut 3 2\nend @23",
    // the same in the frame in which the beat is due
    "period 3\nserver 1 10\nserver 2 20\nserver 3 30\n@0 start 1\n@0 ready 1\n@0 start 2\n\
     @0 ready 2\n@0 start 3\n@0 ready 3\n@13 unready 1\n@13 ready 1\n@13 unready 2\n\
     @13 ready 2\n@14 cut 3 1\n@14 cut 3 2\nend @23",
    // a beat and a reveal of one sender
    "period 4\nserver 1 10\nserver 2 20\nserver 3 30\nserver 4 40\n@0 cut 3 4\n@0 cut 4 3\n\
     @0 start 3\n@0 ready 3\n@0 start 4\n@0 ready 4\n@16 cut 2 1\n@16 cut 3 1\n@16 cut 4 1\n\
     @16 cut 1 3\n@16 cut 1 4\n@16 start 1\n@16 ready 1\n@16 start 2\n@16 ready 2\n\
     @24 pass 4 2\nend @40",
    // the beat by which it enters has been sent already
    "period 3\nserver 1 10\nserver 2 20\nserver 3 30\n@0 start 1\n@0 ready 1\n@0 start 2\n\
     @0 ready 2\n@0 start 3\n@0 ready 3\n@14 cut 3 1\n@18 pass 3 2\nend @25",
    // the reply, and then `primary`
    "period 3\nserver 1 10\nserver 2 20\nserver 3 30\n@0 cut 2 1\n@0 cut 3 1\n@0 cut 1 2\n\
     @0 start 2\n@0 ready 2\n@0 start 3\n@0 ready 3\n@5 start 1\n@5 ready 1\nend @20",
    // a reveal that raises a backup gets the backup's own and no beat
    "period 2\nserver 1 10\nserver 2 20\n@0 start 1\n@0 ready 1\n@1 start 2\n@1 ready 2\nend @9",
    // the reveal of a higher server gets none, of a backup and of a primary
    "period 2\nserver 1 10\nserver 2 20\n@0 start 2\n@0 ready 2\n@1 start 1\n@1 ready 1\nend @9",
    "period 2\nserver 1 10\nserver 2 20\n@0 cut 1 2\n@0 start 1\n@0 ready 1\n@5 start 2\n\
     @5 ready 2\nend @13",
    // a reply over a cut link, and one that a higher backup hears
    "period 2\nserver 1 10\nserver 2 20\n@0 cut 2 1\n@0 start 1\n@0 ready 1\n@0 start 2\n\
     @0 ready 2\nend @13",
    "period 3\nserver 1 10\nserver 2 20\nserver 3 30\n@0 cut 1 3\n@0 cut 2 3\n@0 start 1\n\
     @0 ready 1\n@0 start 2\n@0 ready 2\n@5 start 3\n@5 ready 3\n@7 mend 2 3\nend @20",
];

const THREE: [[(u16, u8); 3]; 3] =
    [[(1, 10), (2, 20), (3, 30)], [(1, 30), (2, 20), (3, 10)], [(7, 5), (8, 5), (9, 5)]];

/// Three servers become ready in the same frame, or up to two frames apart.
fn ready_side_by_side() -> Vec<Vec<u8>> {
    let mut days = Vec::new();
    for turn in 0..27 {
        let at = [turn % 3, turn / 3 % 3, turn / 9];
        let mut script = Script::new(3, &THREE[turn as usize % THREE.len()]);
        for frame in 0..3 {
            for place in (0..3).filter(|&place| at[place] == frame) {
                script.revive(place);
            }
            script.wait(1);
        }
        days.push(finished(script, 4));
    }
    days
}

/// Three servers that are ready at once, with every set of links cut.
fn elections_with_cuts() -> Vec<Vec<u8>> {
    let mut days = Vec::new();
    for cuts in 0..64 {
        let mut script = Script::new(3, &THREE[cuts % THREE.len()]);
        for (at, (from, to)) in script.channel.links(false).into_iter().enumerate() {
            if cuts >> at & 1 == 1 {
                script.entry(Verb::Cut, from, to);
            }
        }
        for place in 0..3 {
            script.revive(place);
        }
        days.push(finished(script, 5));
    }
    days
}

/// A lower server that hears nothing reveals so that this is heard at each age of a prospect, and
/// soon after it became primary.
fn replies_at_each_age() -> Vec<Vec<u8>> {
    let mut days = Vec::new();
    for period in 2..=4 {
        for later in 0..2 * period + 2 {
            let table = PAIRS[(period + later) as usize % PAIRS.len()];
            let higher = usize::from(table[1].1 >= table[0].1);
            let mut script = Script::new(period, &table);
            script.entry(Verb::Cut, higher, 1 - higher);
            script.revive(higher);
            script.wait(later);
            script.revive(1 - higher);
            script.wait(2 * period + 3);
            script.entry(Verb::Mend, higher, 1 - higher);
            days.push(finished(script, 3));
        }
    }
    days
}

/// Two lower servers that do not hear the primary reveal in one frame or in two, in each frame from
/// one of its beats to the next; they hear each other, or not.
fn two_revealers() -> Vec<Vec<u8>> {
    let mut days = Vec::new();
    for frames in 0..3 {
        for (first, apart) in [(0, 0), (0, 1), (1, 1)] {
            for hear in [true, false] {
                let mut script = Script::new(3, &THREE[0]);
                script.entry(Verb::Cut, 2, 0);
                script.entry(Verb::Cut, 2, 1);
                if !hear {
                    script.entry(Verb::Cut, 0, 1);
                    script.entry(Verb::Cut, 1, 0);
                }
                script.revive(2);
                script.wait(12 + frames);
                script.revive(first);
                script.wait(apart);
                script.revive(1 - first);
                script.wait(8);
                script.entry(Verb::Mend, 2, 0);
                days.push(finished(script, 3));
            }
        }
    }
    days
}

/// A primary passes in the frame of a lower server's reveal, and in those beside it.
fn passes_beside_reveals() -> Vec<Vec<u8>> {
    let mut days = Vec::new();
    for to in [0, 1] {
        for frame in 17..=20 {
            let mut script = Script::new(3, &THREE[0]);
            for place in 0..3 {
                script.revive(place);
            }
            script.wait(14);
            // it hears nothing from here on and reveals at 18
            script.entry(Verb::Cut, 2, 0);
            script.wait(frame - 14);
            script.entry(Verb::Pass, 2, to);
            days.push(finished(script, 5));
        }
    }
    days
}

/// An entry in the frame of a reply, of a prospect and of a primary.
fn entries_after_replies() -> Vec<Vec<u8>> {
    let mut days = Vec::new();
    for later in [1, 9] {
        for turn in 0..6 {
            let mut script = Script::new(3, &THREE[0]);
            script.entry(Verb::Cut, 2, 0);
            script.revive(2);
            script.wait(later);
            script.revive(0);
            script.revive(1);
            // the reveal at the sixth frame, and the reply
            script.wait(7);
            match turn {
                0 => script.entry(Verb::Crash, 2, 2),
                1 => {
                    script.entry(Verb::Crash, 2, 2);
                    script.revive(2);
                }
                2 => script.entry(Verb::Pass, 2, 1),
                3 => script.entry(Verb::Cut, 2, 1),
                4 => script.entry(Verb::Mend, 2, 0),
                _ => script.entry(Verb::Crash, 0, 0),
            }
            days.push(finished(script, 5));
        }
    }
    days
}

// The limit of lines

/// A day with a part that stands many times: the head, the body again and again, the tail.
pub struct Repeated {
    pub head: Vec<u8>,
    pub times: usize,
    pub body: Vec<u8>,
    pub tail: Vec<u8>,
}

impl Repeated {
    pub fn day(&self) -> Vec<u8> {
        [self.head.as_slice(), &self.body.repeat(self.times), &self.tail].concat()
    }
}

/// Days of 65,534 lines, and then others.
pub fn full() -> Vec<Repeated> {
    let tails: &[&str] = &[
        // 65,535 lines, the last one `end`
        "end @1\n",
        // 65,536 lines, the last one `end`
        "@1 start 1\nend @1\n",
        // 65,535 lines without `end`
        "@1 start 1\n",
        // a line after `end`, and a piece of one
        "end @1\nend @1\n",
        "end @1\nend",
        // line 65,536 with 1, 2, 3 and 8 of its own
        "@1 start 1\nend\n",
        "@1 start 1\nserver 1 256\n",
        "@1 start 1\nend 24:00:00:00\n",
        "@1 start 1\n@1 start 9\n",
    ];
    let bodies = ["@1 crash 1\n@1 restart 1\n", "end @0\n@1 ready 1\n"];
    let mut days = Vec::new();
    for (turn, tail) in tails.iter().enumerate() {
        let body = day(bodies[usize::from(turn == 1)]);
        let head = day("period 2\nserver 1 1\n@1 start 1\n@1 crash 1\n@1 restart 1\n@1 start 1\n");
        let lines = |bytes: &[u8]| bytes.iter().filter(|&&byte| byte == b'\n').count();
        let times = (MOST_LINES - 1 - lines(&head)) / lines(&body);
        let mut tail_bytes = day(tail);
        if !tail.ends_with('\n') {
            tail_bytes.pop();
        }
        days.push(Repeated { head, times, body, tail: tail_bytes });
    }
    days
}
