//! What a run met, by name, and what it must meet. A name that is wanted and was not met fails the run; so does a
//! number, an answer or a transition that was met and is in no table.

use super::event::Event;
use super::facts;
use super::model::{Master, Outcome, State};
use super::recording::Sequence;
use super::stored;
use std::collections::BTreeMap;

/// Each call and each number that it can give.
const NUMBERS: &[(&str, &[u8])] = &[
    ("on", &[0, 2]),
    ("off", &[0, 2, 13]),
    ("attach", &[0, 2, 3, 6]),
    ("enable", &[0, 1, 2, 3]),
    ("disable", &[0, 1, 2, 3]),
    ("report", &[0, 2, 3, 4, 5]),
    ("lost", &[0, 2, 3]),
    ("record", &[0, 2, 12, 14]),
    ("stop", &[0, 2]),
    ("cancel", &[0, 2]),
    ("indication", &[0, 1, 2, 3, 4, 5]),
    ("client_abort", &[0, 2, 3, 4, 5]),
    ("start", &[0, 2, 7, 8, 9, 10, 11, 12]),
    ("abort", &[0, 2]),
    ("tick", &[0, 1, 2, 4]),
    ("answer", &[0, 1, 2, 3, 4, 15]),
    ("store", &[0, 1, 2, 7]),
    ("load", &[0, 2, 16, 17]),
    ("edition", &[0, 2, 7, 17]),
];

/// Where one number has several rules, each of them.
const RULES: &[&str] = &[
    "attach 3: above 7",
    "attach 3: taken",
    "attach 3: NAME attached",
    "enable 3: above 7",
    "enable 3: empty",
    "disable 3: above 7",
    "disable 3: empty",
    "report 3: above 7",
    "report 3: empty",
    "report 0: enabled",
    "report 0: not enabled",
    "lost 3: above 7",
    "lost 3: empty",
    "lost 0: enabled",
    "lost 0: not enabled",
    "indication 3: above 7",
    "indication 3: empty",
    "indication 5: not enabled",
    "indication 5: not reporting record",
    "indication 5: in playback, status not 11",
    "indication 5: in ready or abort",
    "client_abort 3: above 7",
    "client_abort 3: empty",
    "client_abort 5: not in playback",
    "client_abort 5: not enabled",
    "start 8: empty",
    "start 8: not wanted",
    "start 8: disabled",
    "start 9: NAME",
    "start 9: master NAME",
    "start 9: master NAME, in open bits: the client's own as stored",
    "start 9: master NAME, in open bits: the client's own as loaded",
    "start 9: master NAME, in open bits: another's",
    "start 9: identity number",
    "start 10: version label",
    "start 10: configuration label",
    "start 11: function",
    "start 11: state",
    "answer 3: above 7",
    "answer 3: empty",
    "answer 15: outside playback",
    "answer 15: other slot",
    "answer 15: other TAN",
    "answer 15: other function",
    "answer 15: other state",
    "answer 15: nothing like it",
    "answer 0: started",
    "answer 0: started repeated",
    "answer 0: done at once",
    "answer 0: done after started",
    "answer 0: after done",
    "answer 0: after done, an error",
    "answer 0: error answer",
    "load 16: the first block",
    "load 16: a block of records",
    "load 16: a block of steps",
    "load 16: a block left over",
    "load 16: several blocks",
    "load 17: for several reasons",
];

/// The error of each E.5 and the rule that gave it.
const ANSWERS: &[&str] = &[
    "00 new one-shot",
    "00 new open",
    "00 one-shot repeated",
    "00 start repeated",
    "00 done",
    "00 done takes 01",
    "00 done takes 10",
    "00 failed takes 01",
    "01 unknown function",
    "02 unknown state",
    "03 other function",
    "03 other state",
    "03 not found, status 10",
    "03 not found, status 11",
    "03 status for one-shot",
    "03 status for open",
    "03 status for done",
    "03 status for failed",
    "04 64 held",
    "06 playback, a step",
    "FF record complete",
    "FF failed",
    "FF failed takes 11",
    "FF playback, no step",
];

/// Each change of the master's state and its cause.
const TRANSITIONS: &[&str] = &[
    "inactive to ready by on",
    "ready to inactive by off",
    "ready to record by record",
    "ready to playback by start",
    "record to record complete by stop",
    "record to ready by stop",
    "record to ready by cancel",
    "record to ready by lost",
    "record to ready by report disabled",
    "record to ready by tick 36,000",
    "record complete to ready by E.4 of status 10",
    "record complete to ready by E.4 of status 11",
    "record complete to ready by cancel",
    "record complete to ready by lost",
    "record complete to ready by report disabled",
    "record complete to ready by tick 36,000",
    "playback to ready by answer of status 00",
    "playback to ready by answer of status 10",
    "playback to abort by abort",
    "playback to abort by client_abort",
    "playback to abort by lost",
    "playback to abort by report disabled",
    "playback to abort by report record",
    "playback to abort by report abort",
    "playback to abort by answer of status 11",
    "playback to abort by answer of status 00, error",
    "playback to abort by answer of status 01, error",
    "playback to abort by answer of status 10, error",
    "playback to abort by answer of status 11, error",
    "playback to abort by E.4 of status 11",
    "playback to abort by tick 36,000",
    "playback to abort by tick",
    "abort to ready by report disabled",
    "abort to ready by report abort",
    "abort to ready by report of a client not wanted",
    "abort to ready by lost",
    "abort to ready by tick",
];

/// Of two numbers that apply, the one given before the other.
const CONTESTS: &[(&str, &[(u8, u8)])] = &[
    ("attach", &[(3, 2), (3, 6), (2, 6)]),
    ("enable", &[(1, 3), (1, 2), (3, 2)]),
    ("disable", &[(1, 3), (1, 2), (3, 2)]),
    ("report", &[(4, 3), (4, 2), (3, 2)]),
    ("lost", &[(3, 2)]),
    ("indication", &[(1, 4), (1, 3), (1, 2), (4, 3), (4, 2), (3, 2)]),
    ("client_abort", &[(4, 3), (4, 2), (3, 2)]),
    ("start", &[(8, 9), (8, 10), (8, 11), (8, 12), (9, 8), (9, 10), (9, 11), (9, 12)]),
    ("start", &[(10, 8), (10, 9), (10, 11), (10, 12), (11, 12)]),
    ("tick", &[(1, 4), (1, 2), (4, 2)]),
    ("answer", &[(1, 4), (1, 3), (1, 2), (4, 3), (4, 2), (3, 2)]),
    ("store", &[(1, 2), (2, 7)]),
    ("load", &[(2, 16), (2, 17), (16, 17)]),
    ("edition", &[(2, 7), (2, 17), (7, 17)]),
];

/// In each state the numbers that a verification can give. A master is inactive only while every client is disabled. In playback only the reports can
/// be others than at the start, in abort a client can be gone too.
const VERIFIED: &[(&str, &[u8])] = &[
    ("inactive", &[7, 8]),
    ("ready", &[0, 7, 8, 9, 10, 11, 12]),
    ("record", &[0, 7, 8, 9, 10, 11, 12]),
    ("record complete", &[0, 7, 8, 9, 10, 11, 12]),
    ("playback", &[0, 12]),
    ("abort", &[0, 8, 12]),
];

/// The D.9 codes that a refused pool can have.
const CODES: &[u8] = &[0x01, 0x02, 0x03, 0x04, 0x05, 0x06, 0x07, 0x09, 0x0A, 0x0B, 0x0C, 0xFF];

/// Every call is made in every state.
const STATES: &[&str] = &["inactive", "ready", "record", "record complete", "playback", "abort"];

/// Every call that writes is lent nothing, one byte too few, as many as it needs, and more.
const WRITERS: &[&str] = &["enable", "disable", "indication", "tick", "answer", "store"];

/// What a start gives, of a sequence that was loaded, and of one of edition 2.
const STARTED: &[u8] = &[0, 8, 9, 10, 11, 12];

const FACTS: &[&str] = &[
    "step of trigger 1",
    "step of trigger 2",
    "step of trigger 255",
    "64 held, a failed one among them",
    "no step stays, the old sequence is kept",
    "a client's record is dropped",
    "a client's record stays",
    "a new sequence replaces an old one",
    "cancelled, the old sequence is kept",
    "started, a NAME differs outside the mask",
    "started, the neighbour's identical drill",
    "started, the master NAME is the client's own as stored only",
    "started, the master NAME is the client's own as loaded only",
    "started, a time mark though the trigger is now 2",
    "started, a distance mark though the trigger is now another",
    "started, another enabled client is not ready",
    "third playback of a sequence",
    "TAN 255 to 0",
    "8 frames in a tick, the most there can be",
    "no step unanswered in a tick of playback",
    "no frame, and a step unanswered",
    "no frame, and several steps unanswered",
    "a command leaves for the eighth time, the last",
    "first answer after 15 ticks",
    "sequence of 64 steps",
    "first report of a wanted client in ready",
    "first report of a wanted client in record",
    "first report of a wanted client in record complete",
    "first report of a wanted client in playback",
    "first report of a wanted client in abort",
    "first report of a wanted client in playback is abort",
    "report of a client not wanted is taken",
    "a wanted client repeats disabled",
    "a client not wanted reports disabled",
    "enabled again",
    "disabled again",
    "abort stays at report",
    "abort stays at lost",
    "abort stays at tick",
    "abort stays at client_abort",
    "abort stays at indication",
    "abort stays at answer",
    "abort left with no enabled client",
    "tick of 65535 mm",
    "reader of a step",
    "reader past the last step",
    "reader of a one-shot step that is taken",
    "reader of an open step that is taken",
    "reader of a done step that is taken",
    "reader of a failed step that is taken",
    "reader of a command that is not answered",
    "reader of a command that is started",
    "reader of a command that is done",
    "reader of a command that left 15 ticks ago and is not answered",
    "verified, a slot that is not the lowest of the sequence",
    "verified, a step that is not the first",
    "verified, several slots do not hold",
    "verified, several steps do not hold",
    "stored, the largest sequence: 7 blocks",
    "stored, the least sequence: 3 blocks",
    "stored, a client of it is not attached",
    "loaded, the largest sequence: 7 blocks",
    "loaded, the least sequence: 3 blocks",
    "loaded, a client of it is not attached",
    "loaded, records in another order",
    "loaded where there was no sequence",
    "loaded over another sequence",
    "loaded, the sequence that was there",
    "loaded, stored by this master",
    "loaded, stored by another master",
    "loaded, 1 client",
    "loaded, 3 clients",
    "loaded, 4 clients",
    "loaded, 6 clients",
    "loaded, 7 clients",
    "loaded, 8 clients",
    "loaded, 1 step",
    "loaded, 31 steps",
    "loaded, 32 steps",
    "loaded, 62 steps",
    "loaded, 63 steps",
    "loaded, 64 steps",
    "loaded, a version label of 1 byte",
    "loaded, a version label of 63 bytes",
    "loaded, a configuration label of 1 byte",
    "loaded, a configuration label of 63 bytes",
    "loaded, a configuration label with a byte that no version label has",
    "loaded, a state of 63",
    "loaded, a mark of 35,999 ticks",
    "loaded, a mark of 2,359,194,465 mm",
    "loaded, marks that no recording gives in this order",
    "a loaded sequence is played to its end",
    "a loaded sequence is stored",
    "a recording replaces a loaded sequence",
    "cancelled, a loaded sequence is kept",
    "edition 1 set over 1",
    "edition 1 set over 2",
    "edition 2 set over 1",
    "edition 2 set over 2",
    "an edition set of a loaded sequence",
    "edition 0 is unknown",
    "edition 3 is unknown",
    "an edition is unknown whose lowest byte is that of a known one",
    "started in edition 1, an identity number differs",
    "started in edition 1, an identity number differs in its lowest bit alone",
    "started in edition 1, an identity number differs in its highest bit alone",
    "start 9 in edition 2, an identity number differs in its lowest bit alone",
    "start 9 in edition 2, an identity number differs in its highest bit alone",
    "start 9 in edition 2, by the rule of edition 1 too",
    "start 9 in edition 2, of a slot that is not the lowest of the sequence",
    "started in edition 2, the mask leaves the identity number open",
    "started in edition 2, the mask asks for the identity number",
    "started in edition 2, a NAME differs above its identity number",
    "started in edition 2, a NAME differs in the lowest bit above its identity number alone",
    "verified, an identity number differs, in ready",
    "verified, an identity number differs, in record",
    "verified, an identity number differs, in record complete",
    "verified, every check holds by the rule of edition 1 alone",
    "verified, every check holds by both rules",
    "a sequence of edition 2 is played to its end",
    "a recording replaces a sequence of edition 2",
    "no step stays, a sequence of edition 2 is kept",
    "cancelled, a sequence of edition 2 is kept",
    "on, with a sequence of edition 2",
    "stored, edition 1",
    "stored, edition 2",
    "loaded, edition 1",
    "loaded, edition 2",
    "loaded, edition 1 over 2",
    "loaded, edition 2 over 1",
    "loaded, edition 2 over 2",
    "loaded, the sequence that was there in the other edition",
    "load 16, and the edition is unknown",
    "load 2, and the edition is unknown",
    "reader of no edition",
    "reader of edition 1",
    "reader of edition 2",
];

pub struct Coverage {
    met: BTreeMap<String, u64>,
    numbers: Vec<String>,
    answers: Vec<String>,
    transitions: Vec<String>,
    others: Vec<String>,
    /// How often the present sequence was started.
    started: u32,
    /// Whether it was loaded.
    loaded: bool,
}

fn owned(names: &[&str]) -> Vec<String> {
    names.iter().map(|name| name.to_string()).collect()
}

fn numbers() -> Vec<String> {
    let each = |&(call, numbers): &(&str, &[u8])| -> Vec<String> {
        numbers.iter().map(|number| format!("{call} {number}")).collect()
    };
    NUMBERS.iter().flat_map(each).collect()
}

fn others() -> Vec<String> {
    let mut names = owned(RULES);
    names.extend(stored::REASONS.iter().map(|(reason, _)| format!("load 17: {reason}")));
    names.extend(owned(FACTS));
    names.extend(STARTED.iter().map(|number| format!("start {number} of a loaded sequence")));
    names.extend(STARTED.iter().map(|number| format!("start {number} of a sequence of edition 2")));
    for (call, contests) in CONTESTS {
        names.extend(contests.iter().map(|(first, second)| format!("{call} {first} before {second}")));
    }
    for (state, numbers) in VERIFIED {
        names.extend(numbers.iter().map(|number| format!("verified {number} in {state}")));
    }
    names.extend(CODES.iter().map(|code| format!("pool refused with {code:02X}")));
    for (call, _) in NUMBERS {
        names.extend(STATES.iter().map(|state| format!("{call} in {state}")));
    }
    for call in WRITERS {
        names.extend(["nothing", "one too few", "what it needs", "more"].map(|room| format!("{call} lent {room}")));
    }
    names
}

impl Coverage {
    pub fn new() -> Coverage {
        Coverage {
            met: BTreeMap::new(),
            numbers: numbers(),
            answers: owned(ANSWERS),
            transitions: owned(TRANSITIONS),
            others: others(),
            started: 0,
            loaded: false,
        }
    }

    pub fn meet(&mut self, name: &str) {
        match self.met.get_mut(name) {
            Some(times) => *times += 1,
            None => {
                self.met.insert(name.to_string(), 1);
            }
        }
    }

    /// Counts what an event met; gives the number, answer or transition that is in no table, if there is one.
    pub fn event(&mut self, event: &Event, before: &Master, after: &Master, outcome: &Outcome) -> Result<(), String> {
        let number = outcome.as_ref().map_or_else(|refused| refused.number, |_| 0);
        let named = format!("{} {number}", event.name());
        self.known(&named, &self.numbers)?;
        self.meet(&named);
        if let Some(answer) = facts::answer(event, outcome) {
            self.known(answer, &self.answers)?;
            self.meet(answer);
        }
        if let Some(transition) = facts::transition(event, before, after) {
            self.known(&transition, &self.transitions)?;
            self.meet(&transition);
        }
        for name in facts::others(event, before, after, outcome) {
            self.meet(&name);
        }
        self.playbacks(event, outcome.is_ok(), before, after);
        self.loads(event, number, before, after);
        Ok(())
    }

    fn known(&self, name: &str, table: &[String]) -> Result<(), String> {
        if table.iter().any(|known| known == name) {
            return Ok(());
        }
        Err(name.to_string())
    }

    fn playbacks(&mut self, event: &Event, accepted: bool, before: &Master, after: &Master) {
        if before.sequence != after.sequence {
            self.started = 0;
        }
        if let (Event::Start, true) = (event, accepted) {
            self.started += 1;
            if self.started == 3 {
                self.meet("third playback of a sequence");
            }
        }
    }

    /// What comes of a sequence that was loaded.
    fn loads(&mut self, event: &Event, number: u8, before: &Master, after: &Master) {
        match event {
            Event::Start if self.loaded && before.state == State::Ready => self.meet(&format!("start {number} of a loaded sequence")),
            Event::Store { .. } if self.loaded && number == 0 => self.meet("a loaded sequence is stored"),
            Event::Cancel if self.loaded && number == 0 => self.meet("cancelled, a loaded sequence is kept"),
            Event::Edition { .. } if self.loaded && number == 0 => self.meet("an edition set of a loaded sequence"),
            Event::Answer { .. } if self.loaded && before.state != after.state && after.state == State::Ready => {
                self.meet("a loaded sequence is played to its end");
            }
            _ => {}
        }
        let replaced = before.sequence != after.sequence;
        match event {
            Event::Load { .. } => self.loaded |= number == 0,
            Event::Edition { .. } => {}
            _ if replaced && self.loaded => {
                self.meet("a recording replaces a loaded sequence");
                self.loaded = false;
            }
            _ => {}
        }
        self.loaded &= !after.sequence.steps.is_empty();
    }

    /// The readers were compared, on this sequence.
    pub fn readers(&mut self, sequence: &Sequence) {
        self.meet("reader past the last step");
        if sequence.steps.is_empty() {
            return self.meet("reader of no edition");
        }
        self.meet("reader of a step");
        self.meet(&format!("reader of edition {}", sequence.edition));
    }

    /// The readers of what is being recorded or played back were compared.
    pub fn progress(&mut self, master: &Master) {
        for name in facts::progress(master) {
            self.meet(name);
        }
    }

    /// The verification was compared; gives its number, if it can be none in this state.
    pub fn verified(&mut self, master: &Master) -> Result<(), String> {
        let (named, others) = facts::verified(master);
        self.known(&named, &self.others)?;
        self.meet(&named);
        others.into_iter().for_each(|name| self.meet(name));
        Ok(())
    }

    pub fn missed(&self) -> Vec<&str> {
        let wanted = self.numbers.iter().chain(&self.answers).chain(&self.transitions).chain(&self.others);
        wanted.filter(|name| !self.met.contains_key(&name[..])).map(|name| &name[..]).collect()
    }

    pub fn summary(&self) -> String {
        let met = |names: &[String]| names.iter().filter(|name| self.met.contains_key(&name[..])).count();
        let counts = (met(&self.numbers), met(&self.answers), met(&self.transitions), met(&self.others));
        format!("{} numbers, {} answers, {} transitions, {} other things met", counts.0, counts.1, counts.2, counts.3)
    }

    /// Every name and how often it was met.
    pub fn print(&self) {
        for (name, times) in &self.met {
            println!("{times:9}  {name}");
        }
    }
}
