//! The group, one server and one frame, walked plainly.

use crate::text::{Heartbeat, Refusal};
use std::cmp::Reverse;

/// "A channel has 1 to 16 servers."
pub const MOST_SERVERS: usize = 16;

/// "P is the period in frames, 2..250"
pub const LEAST_PERIOD: u32 = 2;
pub const MOST_PERIOD: u32 = 250;

/// "down, or in one of five roles", each with the ages that it has.
#[derive(Clone, Copy, Debug, PartialEq, Eq)]
pub enum Role {
    Down,
    Idle,
    Sync,
    /// "Backup has a silence age."
    Backup {
        silence: u32,
    },
    /// "prospect has also a prospect age"
    Prospect {
        beat: u32,
        prospect: u32,
    },
    /// "Prospect and primary have a beat age"
    Primary {
        beat: u32,
    },
}

impl Role {
    /// The verb that brings a server that is not yet backup one step nearer to it.
    pub fn way_up(self) -> Option<Verb> {
        match self {
            Role::Down => Some(Verb::Restart),
            Role::Idle => Some(Verb::Start),
            Role::Sync => Some(Verb::Ready),
            Role::Backup { .. } | Role::Prospect { .. } | Role::Primary { .. } => None,
        }
    }
}

#[derive(Clone, Copy, Debug, PartialEq, Eq)]
pub enum Verb {
    Start,
    Ready,
    Unready,
    Pass,
    Crash,
    Restart,
    Cut,
    Mend,
}

impl Verb {
    pub const ALL: [Verb; 8] = [
        Verb::Start,
        Verb::Ready,
        Verb::Unready,
        Verb::Pass,
        Verb::Crash,
        Verb::Restart,
        Verb::Cut,
        Verb::Mend,
    ];

    pub fn word(self) -> &'static str {
        match self {
            Verb::Start => "start",
            Verb::Ready => "ready",
            Verb::Unready => "unready",
            Verb::Pass => "pass",
            Verb::Crash => "crash",
            Verb::Restart => "restart",
            Verb::Cut => "cut",
            Verb::Mend => "mend",
        }
    }

    /// "`pass a b`", "`cut a b`, `mend a b`"; the other verbs have one identity.
    pub fn has_two(self) -> bool {
        matches!(self, Verb::Pass | Verb::Cut | Verb::Mend)
    }
}

/// One line of a sheet but for its time: "the identity, and a word".
#[derive(Clone, Copy, Debug, PartialEq, Eq)]
pub struct Note {
    pub identity: u16,
    pub word: &'static str,
}

#[derive(Clone, Debug)]
pub struct Server {
    pub identity: u16,
    pub priority: u8,
    pub role: Role,
}

/// What one server has said and sent, in order.
#[derive(Default)]
struct Doing {
    words: Vec<&'static str>,
    sent: Vec<Heartbeat>,
}

impl Server {
    /// "greater priority is higher; with equal priority, the one with greater identity"
    fn rank(&self) -> (u8, u16) {
        (self.priority, self.identity)
    }

    fn heartbeat(&self, bs: u16, reveal: bool) -> Heartbeat {
        Heartbeat { bs, priority: self.priority, tie_breaker: self.identity, reveal }
    }

    fn beat(&self, doing: &mut Doing) {
        doing.words.push("beat");
        doing.sent.push(self.heartbeat(0, false));
    }

    fn reveal(&self, doing: &mut Doing) {
        doing.words.push("reveal");
        doing.sent.push(self.heartbeat(0, true));
    }

    /// "Entering prospect sets both its ages to 0"; it "prints the role, then the heartbeat".
    fn enter_prospect(&mut self, doing: &mut Doing) {
        self.role = Role::Prospect { beat: 0, prospect: 0 };
        doing.words.push("prospect");
    }

    fn enter_backup(&mut self, doing: &mut Doing) {
        self.role = Role::Backup { silence: 0 };
        doing.words.push("backup");
    }

    /// "sends a plain beat in that frame, once only, and not if it has already sent in that frame":
    /// what it does in a frame begins with nothing sent.
    fn reply(&mut self, doing: &mut Doing) {
        if !doing.sent.is_empty() {
            return;
        }
        if let Role::Prospect { beat, .. } | Role::Primary { beat } = &mut self.role {
            // "its beat age becomes 0"
            *beat = 0;
            self.beat(doing);
        }
    }

    /// "A timer set in frame s has age t − s in frame t."
    fn grow_older(&mut self) {
        match &mut self.role {
            Role::Down | Role::Idle | Role::Sync => {}
            Role::Backup { silence } => *silence += 1,
            Role::Prospect { beat, prospect } => {
                *beat += 1;
                *prospect += 1;
            }
            Role::Primary { beat } => *beat += 1,
        }
    }

    /// "Hearing, one heartbeat at a time"
    fn hear(&mut self, heard: &Heartbeat, doing: &mut Doing) {
        let sender = (heard.priority, heard.tie_breaker);
        let sender_is_higher = sender > self.rank();
        let sender_is_lower = sender < self.rank();
        match self.role {
            // "down, idle, sync: nothing"
            Role::Down | Role::Idle | Role::Sync => {}
            Role::Backup { .. } => {
                // "silence age to 0"
                self.role = Role::Backup { silence: 0 };
                if heard.bs == self.identity {
                    // "to prospect, sending a plain beat"
                    self.enter_prospect(doing);
                    self.beat(doing);
                } else if heard.reveal && sender_is_lower {
                    // "if Reveal is set and the sender is lower"
                    self.enter_prospect(doing);
                    self.reveal(doing);
                }
            }
            Role::Prospect { .. } | Role::Primary { .. } => {
                if sender_is_higher {
                    // "higher sender: to backup"; "BS is not looked at"
                    self.enter_backup(doing);
                } else if sender_is_lower {
                    // "a note `lower` with the hearer's identity"; of a prospect nothing
                    if matches!(self.role, Role::Primary { .. }) {
                        doing.words.push("lower");
                    }
                    // "the reply follows any `lower` note of the same heartbeat"
                    if heard.reveal {
                        self.reply(doing);
                    }
                }
            }
        }
    }

    /// What it says and sends when it hears these in one frame, whatever they are.
    #[cfg(test)]
    pub fn hears(&mut self, heard: &[Heartbeat]) -> (Vec<&'static str>, Vec<Heartbeat>) {
        let mut doing = Doing::default();
        for heartbeat in heard {
            self.hear(heartbeat, &mut doing);
        }
        (doing.words, doing.sent)
    }

    /// "Timers, after all hearing in the frame"
    fn timers(&mut self, period: u32, doing: &mut Doing) {
        // "The silence limit and the prospect limit are both 2 × P."
        let limit = 2 * period;
        // "backup with silence age 2 × P: to prospect, sending a reveal"
        if let Role::Backup { silence } = self.role {
            if silence == limit {
                self.enter_prospect(doing);
                self.reveal(doing);
            }
        }
        // "beat age P: a plain beat, beat age 0"
        if let Role::Prospect { beat, .. } | Role::Primary { beat } = &mut self.role {
            if *beat == period {
                *beat = 0;
                self.beat(doing);
            }
        }
        // "then prospect with prospect age 2 × P: to primary"
        if let Role::Prospect { beat, prospect } = self.role {
            if prospect == limit {
                // "Becoming primary keeps the beat age."
                self.role = Role::Primary { beat };
                doing.words.push("primary");
            }
        }
    }
}

#[derive(Clone, Debug)]
pub struct Channel {
    pub frame: u32,
    pub period: u32,
    /// In rising identity.
    pub servers: Vec<Server>,
    /// `cut[a][b]` is "the link from a to b only".
    cut: Vec<Vec<bool>>,
    /// What was sent in this frame, by the place of the sender, in the order sent.
    sent: Vec<(usize, Heartbeat)>,
}

impl Channel {
    /// "A fresh channel is at frame 0, all servers idle, all links whole, nothing sent."
    pub fn fresh(period: u32, table: &[(u16, u8)]) -> Channel {
        let mut servers: Vec<Server> = table
            .iter()
            .map(|&(identity, priority)| Server { identity, priority, role: Role::Idle })
            .collect();
        servers.sort_by_key(|server| server.identity);
        let count = servers.len();
        Channel {
            frame: 0,
            period,
            servers,
            cut: vec![vec![false; count]; count],
            sent: Vec::new(),
        }
    }

    pub fn place(&self, identity: u16) -> Option<usize> {
        self.servers.iter().position(|server| server.identity == identity)
    }

    /// What was sent in this frame so far, by the place of the sender.
    #[cfg(test)]
    pub fn sent(&self) -> &[(usize, Heartbeat)] {
        &self.sent
    }

    pub fn is_cut(&self, from: usize, to: usize) -> bool {
        self.cut[from][to]
    }

    /// Links from one server to another, cut or whole.
    pub fn links(&self, cut: bool) -> Vec<(usize, usize)> {
        let count = self.servers.len();
        (0..count)
            .flat_map(|from| (0..count).map(move |to| (from, to)))
            .filter(|&(from, to)| from != to && self.is_cut(from, to) == cut)
            .collect()
    }

    pub fn primaries(&self) -> Vec<usize> {
        let is_primary = |&place: &usize| matches!(self.servers[place].role, Role::Primary { .. });
        (0..self.servers.len()).filter(is_primary).collect()
    }

    /// All places, the highest server first.
    pub fn from_highest(&self) -> Vec<usize> {
        let mut places: Vec<usize> = (0..self.servers.len()).collect();
        places.sort_by_key(|&place| Reverse(self.servers[place].rank()));
        places
    }

    /// "To advance: the frame number rises by 1; then, server by server in rising identity,
    /// hearing and timers."
    pub fn advance(&mut self, notes: &mut Vec<Note>) {
        self.frame += 1;
        // "What is sent in frame t is heard in frame t + 1"
        let mut heard = std::mem::take(&mut self.sent);
        // "from highest to lowest, and one sender's heartbeats in the order sent": the sort keeps
        // the order of those with one sender
        heard.sort_by_key(|&(sender, _)| Reverse(self.servers[sender].rank()));
        for hearer in 0..self.servers.len() {
            let server = &mut self.servers[hearer];
            let mut doing = Doing::default();
            server.grow_older();
            for (sender, heartbeat) in &heard {
                // "by every other server whose link from the sender is whole at the end of
                // frame t": entries come last in a frame, so the links are still those
                if *sender != hearer && !self.cut[*sender][hearer] {
                    server.hear(heartbeat, &mut doing);
                }
            }
            server.timers(self.period, &mut doing);
            self.take(hearer, doing, notes);
        }
    }

    /// One verb; `other` is the place of the second identity, for the verbs that have one.
    pub fn act(
        &mut self,
        verb: Verb,
        place: usize,
        other: usize,
        notes: &mut Vec<Note>,
    ) -> Result<(), Refusal> {
        let identity = self.servers[place].identity;
        // "roles do not matter" for links
        if verb == Verb::Cut || verb == Verb::Mend {
            let to_cut = verb == Verb::Cut;
            // 15: "`cut` of a cut link, `mend` of a whole one"
            if self.cut[place][other] == to_cut {
                return Err(15);
            }
            self.cut[place][other] = to_cut;
            // "`cut`, `mended` (first identity)"
            notes.push(Note { identity, word: if to_cut { "cut" } else { "mended" } });
            return Ok(());
        }
        let passed_to = self.servers[other].identity;
        let server = &mut self.servers[place];
        let mut doing = Doing::default();
        match (verb, server.role) {
            // "`restart`: down to idle"
            (Verb::Restart, Role::Down) => {
                server.role = Role::Idle;
                doing.words.push("idle");
            }
            // 13: "`restart` of a server that is up"
            (Verb::Restart, _) => return Err(13),
            // 12: "the acting server only"
            (_, Role::Down) => return Err(12),
            // "`crash`: any role to down"
            (Verb::Crash, _) => {
                server.role = Role::Down;
                doing.words.push("down");
            }
            // "`start`: idle to sync"
            (Verb::Start, Role::Idle) => {
                server.role = Role::Sync;
                doing.words.push("sync");
            }
            // "`ready`: sync to backup, silence age 0"
            (Verb::Ready, Role::Sync) => server.enter_backup(&mut doing),
            // "`unready`: backup to sync"
            (Verb::Unready, Role::Backup { .. }) => {
                server.role = Role::Sync;
                doing.words.push("sync");
            }
            // "sends a heartbeat with BS = b and goes to backup"; "b may be down"
            (Verb::Pass, Role::Primary { .. }) => {
                doing.words.push("pass");
                doing.sent.push(server.heartbeat(passed_to, false));
                server.enter_backup(&mut doing);
            }
            // 14: "The role does not allow the verb."
            _ => return Err(14),
        }
        self.take(place, doing, notes);
        Ok(())
    }

    fn take(&mut self, place: usize, doing: Doing, notes: &mut Vec<Note>) {
        let identity = self.servers[place].identity;
        notes.extend(doing.words.into_iter().map(|word| Note { identity, word }));
        self.sent.extend(doing.sent.into_iter().map(|heartbeat| (place, heartbeat)));
    }
}
