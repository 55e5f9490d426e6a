//! "A reveal deserves a reply": each point of it on days worked by hand, and replies foretold from
//! the state before a frame. In the days and sheets here spaces stand for tabs.

use crate::calls::{role_digit, Plain, BACKUP, PRIMARY, PROSPECT};
use crate::channel::{Channel, Note, Role, Server, Verb};
use crate::lists::lists;
use crate::tests::expect;
use crate::text::Heartbeat;
use std::cmp::Reverse;

// Foretold replies

/// A reply in the next frame.
pub struct Reply {
    pub place: usize,
    pub is_primary: bool,
    /// Its beat is due in that frame in any case.
    pub is_due: bool,
    /// Reveals of lower servers that it hears in that frame; the first gets the reply.
    pub reveals: usize,
    /// Whether the sheet would be another one without the reply.
    pub is_seen: bool,
    words: Vec<&'static str>,
}

/// Who replies in the next frame: a prospect or primary that hears the reveal of a lower server and
/// nobody higher. Whoever hears a higher sender, who comes first, is in backup after it, and has
/// sent if it is prospect again; and so has a backup that becomes prospect.
pub fn replies(channel: &Channel) -> Vec<Reply> {
    if channel.sent().is_empty() {
        return Vec::new();
    }
    (0..channel.servers.len()).filter_map(|place| reply(channel, place)).collect()
}

fn rank(server: &Server) -> (u8, u16) {
    (server.priority, server.identity)
}

fn reply(channel: &Channel, place: usize) -> Option<Reply> {
    let own = &channel.servers[place];
    let (beat, prospect) = match own.role {
        Role::Prospect { beat, prospect } => (beat, Some(prospect)),
        Role::Primary { beat } => (beat, None),
        _ => return None,
    };
    let mut heard: Vec<(usize, Heartbeat)> = channel
        .sent()
        .iter()
        .filter(|&&(sender, _)| sender != place && !channel.is_cut(sender, place))
        .copied()
        .collect();
    heard.sort_by_key(|&(sender, _)| Reverse(rank(&channel.servers[sender])));
    let (highest, _) = heard.first()?;
    if rank(&channel.servers[*highest]) > rank(own) {
        return None;
    }
    let first = heard.iter().position(|(_, heartbeat)| heartbeat.reveal)?;
    let is_primary = prospect.is_none();
    let is_due = beat + 1 == channel.period;
    let lower = |times: usize| vec!["lower"; if is_primary { times } else { 0 }];
    let behind = heard.len() - first - 1;
    let mut words = [lower(first + 1), vec!["beat"], lower(behind)].concat();
    if prospect == Some(2 * channel.period - 1) {
        words.push("primary");
    }
    Some(Reply {
        place,
        is_primary,
        is_due,
        reveals: heard.iter().filter(|(_, heartbeat)| heartbeat.reveal).count(),
        is_seen: !is_due || (is_primary && behind > 0),
        words,
    })
}

/// One frame, in which those reply who were foretold to; what they say is all that they say.
pub fn advance(channel: &mut Channel, notes: &mut Vec<Note>) -> Vec<Reply> {
    let replies = replies(channel);
    channel.advance(notes);
    for reply in &replies {
        let identity = channel.servers[reply.place].identity;
        let said = notes.iter().filter(|note| note.identity == identity);
        assert_eq!(said.map(|note| note.word).collect::<Vec<_>>(), reply.words);
        let sent: Vec<&Heartbeat> = channel
            .sent()
            .iter()
            .filter(|&&(sender, _)| sender == reply.place)
            .map(|(_, heartbeat)| heartbeat)
            .collect();
        assert!(matches!(sent.as_slice(), [Heartbeat { bs: 0, reveal: false, .. }]));
        let (Role::Prospect { beat, .. } | Role::Primary { beat }) =
            channel.servers[reply.place].role
        else {
            panic!("who replies stays prospect or primary");
        };
        assert_eq!(beat, 0);
    }
    replies
}

/// How a reply is named where they are counted. `again` are the places that replied in the frame
/// before.
pub fn kinds(reply: &Reply, again: &[usize]) -> Vec<&'static str> {
    let mut kinds = vec![if reply.is_primary { "of a primary" } else { "of a prospect" }];
    if reply.is_due {
        kinds.push("in the frame of a due beat");
    }
    if reply.is_due && reply.is_seen {
        kinds.push("before a `lower`, in the frame of a due beat");
    }
    if reply.reveals > 1 {
        kinds.push("to the first of several reveals");
    }
    if reply.words.ends_with(&["beat", "primary"]) {
        kinds.push("and then primary");
    }
    if again.contains(&reply.place) {
        kinds.push("in the frame after another");
    }
    kinds
}

pub const KINDS: [&str; 7] = [
    "of a prospect",
    "of a primary",
    "in the frame of a due beat",
    "before a `lower`, in the frame of a due beat",
    "to the first of several reveals",
    "and then primary",
    "in the frame after another",
];

// Days worked by hand

const THREE: &str = "period 3\nserver 1 10\nserver 2 20\nserver 3 30\n";
const THREE_READY: &str =
    "@0 start 1\n@0 ready 1\n@0 start 2\n@0 ready 2\n@0 start 3\n@0 ready 3\n";
/// D6 up to frame 12: 3 is primary and beats at 14, 17 and so on.
const THREE_CHOICE: &str =
    "@0 1 sync\n@0 1 backup\n@0 2 sync\n@0 2 backup\n@0 3 sync\n@0 3 backup\n\
    @6 1 prospect\n@6 1 reveal\n@6 2 prospect\n@6 2 reveal\n@6 3 prospect\n@6 3 reveal\n\
    @7 1 backup\n@7 2 backup\n@7 2 prospect\n@7 2 reveal\n@7 3 beat\n@8 2 backup\n@8 3 beat\n\
    @11 3 beat\n@12 3 primary\n";

/// "once only" is once in a frame: four reveal at 8, and 4 gets a further one at 10 and at 11.
#[test]
fn a_prospect_replies_once_in_each_frame() {
    expect(
        "period 4\nserver 1 10\nserver 2 20\nserver 3 30\nserver 4 40\n\
         @0 start 1\n@0 ready 1\n@0 start 2\n@0 ready 2\n@0 start 3\n@0 ready 3\n\
         @0 start 4\n@0 ready 4\nend @19",
        "@0 1 sync\n@0 1 backup\n@0 2 sync\n@0 2 backup\n@0 3 sync\n@0 3 backup\n@0 4 sync\n\
         @0 4 backup\n@8 1 prospect\n@8 1 reveal\n@8 2 prospect\n@8 2 reveal\n@8 3 prospect\n\
         @8 3 reveal\n@8 4 prospect\n@8 4 reveal\n\
         @9 1 backup\n@9 2 backup\n@9 2 prospect\n@9 2 reveal\n@9 3 backup\n@9 3 prospect\n\
         @9 3 reveal\n@9 4 beat\n\
         @10 2 backup\n@10 3 backup\n@10 3 prospect\n@10 3 reveal\n@10 4 beat\n\
         @11 3 backup\n@11 4 beat\n@15 4 beat\n@16 4 primary\n@19 4 beat",
    );
}

/// 1 does not hear 3 and reveals at 18. That raises 2, whose reveal comes a frame later.
#[test]
fn a_primary_replies_again_in_the_next_frame() {
    expect(
        &format!("{THREE}{THREE_READY}@14 cut 3 1\nend @23"),
        &format!(
            "{THREE_CHOICE}@14 3 beat\n@14 3 cut\n@17 3 beat\n@18 1 prospect\n@18 1 reveal\n\
             @19 2 prospect\n@19 2 reveal\n@19 3 lower\n@19 3 beat\n\
             @20 1 backup\n@20 2 backup\n@20 3 lower\n@20 3 beat\n@23 3 beat"
        ),
    );
}

/// 3 yields to 4 and is raised by 2 in frame 9 of the day above: when it hears 1 it has sent. Here
/// 2 has sent the beat by which it enters, at the pass of 3, when it hears the reveal of 1.
#[test]
fn what_was_sent_on_entering_counts() {
    expect(
        &format!("{THREE}{THREE_READY}@14 cut 3 1\n@18 pass 3 2\nend @25"),
        &format!(
            "{THREE_CHOICE}@14 3 beat\n@14 3 cut\n@17 3 beat\n@18 1 prospect\n@18 1 reveal\n\
             @18 3 pass\n@18 3 backup\n@19 2 prospect\n@19 2 beat\n@19 3 prospect\n@19 3 reveal\n\
             @20 1 backup\n@20 2 backup\n@22 3 beat\n@25 3 beat\n@25 3 primary"
        ),
    );
}

/// 2 sends a beat at the pass of 4, yields to 3 and is raised by 1, all at 25; 3 hears both.
#[test]
fn every_heartbeat_of_a_sender_has_its_note() {
    expect(
        "period 4\nserver 1 10\nserver 2 20\nserver 3 30\nserver 4 40\n@0 cut 3 4\n@0 cut 4 3\n\
         @0 start 3\n@0 ready 3\n@0 start 4\n@0 ready 4\n@16 cut 2 1\n@16 cut 3 1\n@16 cut 4 1\n\
         @16 cut 1 3\n@16 cut 1 4\n@16 start 1\n@16 ready 1\n@16 start 2\n@16 ready 2\n\
         @24 pass 4 2\nend @27",
        "@0 3 cut\n@0 4 cut\n@0 3 sync\n@0 3 backup\n@0 4 sync\n@0 4 backup\n\
         @8 3 prospect\n@8 3 reveal\n@8 4 prospect\n@8 4 reveal\n@12 3 beat\n@12 4 beat\n\
         @16 3 beat\n@16 3 primary\n@16 4 beat\n@16 4 primary\n\
         @16 2 cut\n@16 3 cut\n@16 4 cut\n@16 1 cut\n@16 1 cut\n\
         @16 1 sync\n@16 1 backup\n@16 2 sync\n@16 2 backup\n@20 3 beat\n@20 4 beat\n\
         @24 1 prospect\n@24 1 reveal\n@24 3 beat\n@24 4 beat\n@24 4 pass\n@24 4 backup\n\
         @25 2 prospect\n@25 2 beat\n@25 2 backup\n@25 2 prospect\n@25 2 reveal\n\
         @26 3 lower\n@26 3 lower\n@26 3 beat\n@26 4 prospect\n@26 4 reveal\n@27 2 backup",
    );
}

/// "the reply follows any `lower` note of the same heartbeat": 1 and 2 do not hear 3 and reveal at
/// 18. 2 is prospect and says nothing but its reply.
#[test]
fn one_reply_to_two_reveals() {
    expect(
        &format!("{THREE}{THREE_READY}@14 cut 3 1\n@14 cut 3 2\nend @23"),
        &format!(
            "{THREE_CHOICE}@14 3 beat\n@14 3 cut\n@14 3 cut\n@17 3 beat\n\
             @18 1 prospect\n@18 1 reveal\n@18 2 prospect\n@18 2 reveal\n\
             @19 1 backup\n@19 2 beat\n@19 3 lower\n@19 3 beat\n@19 3 lower\n\
             @20 3 lower\n@22 2 beat\n@22 3 beat\n@23 3 lower"
        ),
    );
}

/// The same with the beat of 20 due: it is sent where the reply stands, and not again.
#[test]
fn a_due_beat_is_the_reply() {
    expect(
        &format!(
            "{THREE}{THREE_READY}@13 unready 1\n@13 ready 1\n@13 unready 2\n@13 ready 2\n\
             @14 cut 3 1\n@14 cut 3 2\nend @23"
        ),
        &format!(
            "{THREE_CHOICE}@13 1 sync\n@13 1 backup\n@13 2 sync\n@13 2 backup\n\
             @14 3 beat\n@14 3 cut\n@14 3 cut\n@17 3 beat\n\
             @19 1 prospect\n@19 1 reveal\n@19 2 prospect\n@19 2 reveal\n\
             @20 1 backup\n@20 2 beat\n@20 3 lower\n@20 3 beat\n@20 3 lower\n\
             @21 3 lower\n@23 2 beat\n@23 3 beat"
        ),
    );
    // a prospect whose beat is due at 6
    expect(
        "period 2\nserver 1 10\nserver 2 20\n@0 cut 2 1\n@0 start 2\n@0 ready 2\n\
         @1 start 1\n@1 ready 1\nend @8",
        "@0 2 cut\n@0 2 sync\n@0 2 backup\n@1 1 sync\n@1 1 backup\n@4 2 prospect\n@4 2 reveal\n\
         @5 1 prospect\n@5 1 reveal\n@6 2 beat\n@7 1 beat\n@8 2 beat\n@8 2 primary",
    );
}

/// The reply of 7 leaves the prospect age as it is, and the one of 12 comes before `primary`, which
/// keeps its beat age: the next beat is at 15.
#[test]
fn a_reply_and_primary_in_one_frame() {
    expect(
        &format!(
            "{THREE}@0 cut 2 1\n@0 cut 3 1\n@0 cut 1 2\n@0 start 2\n@0 ready 2\n@0 start 3\n\
             @0 ready 3\n@5 start 1\n@5 ready 1\nend @15"
        ),
        "@0 2 cut\n@0 3 cut\n@0 1 cut\n@0 2 sync\n@0 2 backup\n@0 3 sync\n@0 3 backup\n\
         @5 1 sync\n@5 1 backup\n@6 2 prospect\n@6 2 reveal\n@6 3 prospect\n@6 3 reveal\n\
         @7 2 backup\n@7 3 beat\n@10 3 beat\n@11 1 prospect\n@11 1 reveal\n\
         @12 3 beat\n@12 3 primary\n@14 1 beat\n@15 3 lower\n@15 3 beat",
    );
}

/// A backup does not reply, to a lower server whose reveal raises it nor to a higher one.
#[test]
fn a_backup_does_not_reply() {
    let group = "period 2\nserver 1 10\nserver 2 20\n";
    expect(
        &format!("{group}@0 start 1\n@0 ready 1\n@1 start 2\n@1 ready 2\nend @9"),
        "@0 1 sync\n@0 1 backup\n@1 2 sync\n@1 2 backup\n@4 1 prospect\n@4 1 reveal\n\
         @5 2 prospect\n@5 2 reveal\n@6 1 backup\n@7 2 beat\n@9 2 beat\n@9 2 primary",
    );
    expect(
        &format!("{group}@0 start 2\n@0 ready 2\n@1 start 1\n@1 ready 1\nend @9"),
        "@0 2 sync\n@0 2 backup\n@1 1 sync\n@1 1 backup\n@4 2 prospect\n@4 2 reveal\n\
         @6 2 beat\n@8 2 beat\n@8 2 primary",
    );
}

/// The primary 1 hears the reveal of 2 at 10, where its beat is due, and is in backup.
#[test]
fn a_higher_reveal_gets_no_reply() {
    expect(
        "period 2\nserver 1 10\nserver 2 20\n@0 cut 1 2\n@0 start 1\n@0 ready 1\n\
         @5 start 2\n@5 ready 2\nend @13",
        "@0 1 cut\n@0 1 sync\n@0 1 backup\n@4 1 prospect\n@4 1 reveal\n@5 2 sync\n@5 2 backup\n\
         @6 1 beat\n@8 1 beat\n@8 1 primary\n@9 2 prospect\n@9 2 reveal\n\
         @10 1 backup\n@11 2 beat\n@13 2 beat\n@13 2 primary",
    );
}

/// 1 does not hear the reply of 2, which is sent all the same.
#[test]
fn a_reply_over_a_cut_link() {
    expect(
        "period 2\nserver 1 10\nserver 2 20\n@0 cut 2 1\n\
         @0 start 1\n@0 ready 1\n@0 start 2\n@0 ready 2\nend @9",
        "@0 2 cut\n@0 1 sync\n@0 1 backup\n@0 2 sync\n@0 2 backup\n\
         @4 1 prospect\n@4 1 reveal\n@4 2 prospect\n@4 2 reveal\n@5 2 beat\n@6 1 beat\n@7 2 beat\n\
         @8 1 beat\n@8 1 primary\n@8 2 primary\n@9 2 lower\n@9 2 beat",
    );
}

/// The backup 3 hears the reply of 2, which is lower, and is not raised by it.
#[test]
fn a_reply_is_a_plain_beat() {
    expect(
        &format!(
            "{THREE}@0 cut 1 3\n@0 cut 2 3\n@0 start 1\n@0 ready 1\n@0 start 2\n@0 ready 2\n\
             @5 start 3\n@5 ready 3\n@7 mend 2 3\nend @13"
        ),
        "@0 1 cut\n@0 2 cut\n@0 1 sync\n@0 1 backup\n@0 2 sync\n@0 2 backup\n@5 3 sync\n\
         @5 3 backup\n@6 1 prospect\n@6 1 reveal\n@6 2 prospect\n@6 2 reveal\n\
         @7 1 backup\n@7 2 beat\n@7 2 mended\n@10 2 beat\n@12 2 primary\n@13 2 beat",
    );
}

/// Plain beats and passes of lower servers get a primary's `lower`, a prospect's nothing.
#[test]
fn only_a_reveal_gets_a_reply() {
    for bs in [0, 1, 9] {
        let plain = Heartbeat { bs, priority: 5, tie_breaker: 1, reveal: false };
        for (role, words) in roles() {
            let mut server = Server { identity: 9, priority: 5, role };
            let lower: Vec<&str> = words.into_iter().filter(|&word| word == "lower").collect();
            assert_eq!(server.hears(&[plain]), (lower, Vec::new()));
            assert_eq!(server.role, role);
        }
    }
}

/// A prospect and a primary in the middle of a period, and what they say at a lower reveal.
fn roles() -> [(Role, Vec<&'static str>); 2] {
    [
        (Role::Prospect { beat: 3, prospect: 7 }, vec!["beat"]),
        (Role::Primary { beat: 3 }, vec!["lower", "beat"]),
    ]
}

/// "BS is not looked at": whoever it names, the reveal of a lower sender gets the reply. Such a
/// heartbeat is sent by no server of a channel.
#[test]
fn a_reveal_with_bs_gets_a_reply() {
    for bs in [0, 1, 9, 77] {
        for (role, words) in roles() {
            let mut server = Server { identity: 9, priority: 5, role };
            let reveal = Heartbeat { bs, priority: 5, tie_breaker: 1, reveal: true };
            let beat = Heartbeat { bs: 0, priority: 5, tie_breaker: 9, reveal: false };
            assert_eq!(server.hears(&[reveal]), (words, vec![beat]));
            match server.role {
                Role::Prospect { beat, prospect } => assert_eq!((beat, prospect), (0, 7)),
                Role::Primary { beat } => assert_eq!(beat, 0),
                other => panic!("{other:?}"),
            }
        }
    }
}

/// A second heartbeat of the same sender has its own note and no second reply. In a channel none
/// follows a reveal in its frame.
#[test]
fn two_reveals_of_one_sender() {
    let heard = [true, false, true];
    let heard = heard.map(|reveal| Heartbeat { bs: 0, priority: 5, tie_breaker: 1, reveal });
    let beat = Heartbeat { bs: 0, priority: 5, tie_breaker: 9, reveal: false };
    for (role, first) in roles() {
        let mut server = Server { identity: 9, priority: 5, role };
        let more = if first.contains(&"lower") { vec!["lower"; 2] } else { Vec::new() };
        assert_eq!(server.hears(&heard), ([first, more].concat(), vec![beat]));
    }
}

/// One's own priority and identity are neither higher nor lower.
#[test]
fn ones_own_reveal_gets_nothing() {
    for bs in [0, 1, 9] {
        for (role, _) in roles() {
            let mut server = Server { identity: 9, priority: 5, role };
            let own = Heartbeat { bs, priority: 5, tie_breaker: 9, reveal: true };
            assert_eq!(server.hears(&[own]), (Vec::new(), Vec::new()));
            assert_eq!(server.role, role);
        }
    }
}

// Settling

/// 2 and 3 are primary and beat at 13, where 3 passes to 1 and is heard by 2 again. Nobody beats
/// from 14 on; 1 is silent to 20, and 3 is primary at 27 = 13 + 4 × 3 + 2.
#[test]
fn four_periods_and_two_frames_are_needed() {
    expect(
        &format!("{THREE}{THREE_READY}@6 cut 3 2\n@13 pass 3 1\n@13 mend 3 2\nend @27"),
        "@0 1 sync\n@0 1 backup\n@0 2 sync\n@0 2 backup\n@0 3 sync\n@0 3 backup\n\
         @6 1 prospect\n@6 1 reveal\n@6 2 prospect\n@6 2 reveal\n@6 3 prospect\n@6 3 reveal\n\
         @6 3 cut\n@7 1 backup\n@7 2 beat\n@7 3 beat\n@10 2 beat\n@10 3 beat\n\
         @12 2 primary\n@12 3 primary\n@13 2 beat\n@13 3 beat\n\
         @13 3 pass\n@13 3 backup\n@13 3 mended\n\
         @14 1 prospect\n@14 1 beat\n@14 1 backup\n@14 2 backup\n@20 1 prospect\n@20 1 reveal\n\
         @21 2 prospect\n@21 2 reveal\n@21 3 prospect\n@21 3 reveal\n\
         @22 1 backup\n@22 2 backup\n@22 3 beat\n@25 3 beat\n@27 3 primary",
    );
}

/// "The settling time of 4 periods and 2 frames holds with it": after any call of some lists, with
/// all links mended.
#[test]
fn the_group_settles() {
    let mut settled = 0;
    for list in lists(4, 63) {
        let mut plain = Plain::default();
        for call in &list {
            plain.answer(call);
            if let Some(channel) = &plain.channel {
                settled += usize::from(settles(channel.clone()));
            }
        }
    }
    println!("{settled} settled");
    assert!(settled > 1_000);
}

/// False where nobody is in backup, prospect or primary.
fn settles(mut channel: Channel) -> bool {
    let mut notes = Vec::new();
    for (from, to) in channel.links(true) {
        channel.act(Verb::Mend, from, to, &mut notes).expect("a cut link");
    }
    let roles = |channel: &Channel| -> Vec<u8> {
        channel.servers.iter().map(|server| role_digit(server.role)).collect()
    };
    let before = roles(&channel);
    let ranks = channel.from_highest();
    let Some(&highest) = ranks.iter().find(|&&place| before[place] >= BACKUP) else {
        return false;
    };
    let period = channel.period;
    channel.advance(&mut notes);
    let is_choice = roles(&channel).iter().all(|&role| role < PROSPECT);
    for _ in 1..4 * period + 2 {
        channel.advance(&mut notes);
    }
    let primaries = channel.primaries();
    assert_eq!(primaries.len(), 1);
    assert!(!is_choice || primaries == [highest]);
    // who was in none of these roles is as it was
    let due = |place: usize, role: u8| match role {
        _ if primaries == [place] => PRIMARY,
        BACKUP.. => BACKUP,
        other => other,
    };
    let due: Vec<u8> = before.iter().enumerate().map(|(place, &role)| due(place, role)).collect();
    for _ in 0..2 * period {
        assert_eq!(roles(&channel), due);
        channel.advance(&mut notes);
    }
    true
}
