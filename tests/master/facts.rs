//! The names of what an event met, from the model before and after it.

use super::event::Event;
use super::kept;
use super::messages::{self, Status};
use super::model::{Client, Master, Outcome, Refused, Report, State, LAST_TICK, SLOTS};
use super::playback::{Answered, Playback};
use super::recording::{Mark, Progress, Sequence};
use super::stored::{self, Laid, MOST_MILLIMETRES, MOST_TICKS};
use super::verification;

pub fn state(state: &State) -> &'static str {
    match state {
        State::Inactive => "inactive",
        State::Ready => "ready",
        State::Record(_) => "record",
        State::RecordComplete(_) => "record complete",
        State::Playback(_) => "playback",
        State::Abort => "abort",
    }
}

fn playback(master: &Master) -> Option<&Playback> {
    match &master.state {
        State::Playback(playback) => Some(playback),
        _ => None,
    }
}

/// The error of an E.5 and its rule.
pub fn answer(event: &Event, outcome: &Outcome) -> Option<&'static str> {
    match (event, outcome) {
        (Event::Indication { .. }, Ok(done)) => Some(done.rule),
        _ => None,
    }
}

pub fn transition(event: &Event, before: &Master, after: &Master) -> Option<String> {
    let (from, to) = (state(&before.state), state(&after.state));
    if from == to {
        return None;
    }
    Some(format!("{from} to {to} by {}", cause(event, before)))
}

fn cause(event: &Event, before: &Master) -> String {
    let wanted = |slot: usize| before.client(slot).map_or(false, |client| client.wanted);
    match event {
        Event::Report { slot, .. } if !wanted(*slot) => "report of a client not wanted".to_string(),
        Event::Report { report, .. } => format!("report {}", report_name(*report)),
        Event::Tick { .. } if ticks(before) + 1 == LAST_TICK => "tick 36,000".to_string(),
        Event::Indication { message, .. } => format!("E.4 of status {:02b}", message[2] / 64),
        Event::Answer { message, .. } if message[3] == 0 => format!("answer of status {:02b}", message[2] / 64),
        Event::Answer { message, .. } => format!("answer of status {:02b}, error", message[2] / 64),
        _ => event.name().to_string(),
    }
}

fn report_name(report: u32) -> &'static str {
    match Report::of(report) {
        Some(Report::Disabled) => "disabled",
        Some(Report::Ready) => "ready",
        Some(Report::Record) => "record",
        Some(Report::Playback) => "playback",
        Some(Report::Abort) => "abort",
        None => "of no known state",
    }
}

/// The ticks counted so far.
fn ticks(master: &Master) -> u32 {
    match (master.recording(), playback(master)) {
        (Some(recording), _) => recording.ticks,
        (_, Some(playback)) => playback.ticks,
        _ => 0,
    }
}

pub fn others(event: &Event, before: &Master, after: &Master, outcome: &Outcome) -> Vec<String> {
    let mut names = vec![format!("{} in {}", event.name(), state(&before.state))];
    names.extend(rule(event, outcome));
    names.extend(lent(event, before));
    match outcome {
        Ok(_) => accepted(event, before, after, &mut names),
        Err(refused) => {
            let later = applies(event, before).into_iter().filter(|&number| number != refused.number);
            names.extend(later.map(|number| format!("{} {} before {number}", event.name(), refused.number)));
            if refused.number == 6 {
                names.push(format!("pool refused with {:02X}", refused.code));
            }
            if let (Event::Load { blocks }, 16) = (event, refused.number) {
                names.push(format!("load 16: {}", wrong_blocks(blocks)));
            }
            names.extend(unknown_edition(event, refused.number));
        }
    }
    if let Event::Start = event {
        in_edition(before, outcome.as_ref().err(), &mut names);
    }
    if before.state == State::Abort && after.state == State::Abort {
        names.push(format!("abort stays at {}", event.name()));
    }
    names
}

fn rule(event: &Event, outcome: &Outcome) -> Option<String> {
    let (number, rule) = match outcome {
        Ok(done) => (0, done.rule),
        Err(refused) => (refused.number, refused.rule),
    };
    if rule.is_empty() || answer(event, outcome).is_some() {
        return None;
    }
    Some(format!("{} {number}: {rule}", event.name()))
}

/// Whose checks are wrong.
fn wrong_blocks(blocks: &[u8]) -> &'static str {
    match stored::wrong_checks(blocks)[..] {
        [only] => Laid::new(blocks).holds(only),
        _ => "several blocks",
    }
}

/// An edition that is none, where it was refused for that, or by a number that comes before.
fn unknown_edition(event: &Event, number: u8) -> Option<String> {
    match event {
        Event::Edition { edition: edition @ (0 | 3) } if number == 17 => Some(format!("edition {edition} is unknown")),
        Event::Edition { edition } if number == 17 && matches!(edition % 256, 1 | 2) => {
            Some("an edition is unknown whose lowest byte is that of a known one".to_string())
        }
        Event::Load { blocks } if stored::reasons(blocks).contains(&"an unknown edition") => {
            Some(format!("load {number}, and the edition is unknown"))
        }
        _ => None,
    }
}

fn lent(event: &Event, before: &Master) -> Option<String> {
    let needed = match event {
        Event::Enable { .. } | Event::Disable { .. } | Event::Indication { .. } | Event::Answer { .. } => 8,
        Event::Tick { .. } => 576,
        Event::Store { .. } => before.stored_bytes(),
        _ => return None,
    };
    let room = match event.room() {
        0 => "nothing",
        room if room + 1 == needed => "one too few",
        room if room == needed => "what it needs",
        room if room > needed => "more",
        _ => return None,
    };
    Some(format!("{} lent {room}", event.name()))
}

// The numbers that apply to an event, in no order.

fn applies(event: &Event, before: &Master) -> Vec<u8> {
    let mut numbers = Vec::new();
    let mut number = |applies: bool, number: u8| {
        if applies {
            numbers.push(number);
        }
    };
    let ready = before.state == State::Ready;
    let inactive = before.state == State::Inactive;
    let empty = |slot: usize| before.client(slot).is_none();
    match event {
        Event::Attach { slot, name, pool } => {
            let named = before.slots.iter().flatten().any(|client| client.name == *name);
            number(*slot >= SLOTS || !empty(*slot) || named, 3);
            number(!ready, 2);
            number(kept::accept(pool).is_err(), 6);
        }
        Event::Enable { slot, room } | Event::Disable { slot, room } => {
            number(*room < 8, 1);
            number(empty(*slot), 3);
            number(!ready, 2);
        }
        Event::Report { slot, report } => {
            number(Report::of(*report).is_none(), 4);
            number(empty(*slot), 3);
            number(inactive, 2);
        }
        Event::Lost { slot } => {
            number(empty(*slot), 3);
            number(inactive, 2);
        }
        Event::Indication { slot, message, room } => {
            number(*room < 8, 1);
            number(messages::read_indication(message).is_none(), 4);
            number(empty(*slot), 3);
            number(inactive, 2);
        }
        Event::ClientAbort { slot, message } => {
            number(messages::read_client_abort(message).is_none(), 4);
            number(empty(*slot), 3);
            number(inactive, 2);
        }
        Event::Tick { millimetres, room } => {
            number(*room < 576, 1);
            number(*millimetres > 65_535, 4);
            number(inactive, 2);
        }
        Event::Answer { slot, message, room } => {
            number(*room < 8, 1);
            number(messages::read_answer(message).is_none(), 4);
            number(empty(*slot), 3);
            number(inactive, 2);
        }
        Event::Store { room } => return store_applies(before, *room),
        Event::Load { blocks } => return load_applies(before, blocks),
        Event::Edition { edition } => return edition_applies(before, *edition),
        Event::Start if ready => return start_applies(before),
        _ => {}
    }
    numbers
}

fn store_applies(before: &Master, room: usize) -> Vec<u8> {
    let (short, none) = (room < before.stored_bytes(), before.sequence.steps.is_empty());
    let numbers = [(short, 1), (before.state != State::Ready, 2), (none, 7)];
    numbers.into_iter().filter(|(applies, _)| *applies).map(|(_, number)| number).collect()
}

fn load_applies(before: &Master, blocks: &[u8]) -> Vec<u8> {
    let (wrong, refused) = (!stored::wrong_checks(blocks).is_empty(), !stored::reasons(blocks).is_empty());
    let numbers = [(before.state != State::Ready, 2), (wrong, 16), (refused, 17)];
    numbers.into_iter().filter(|(applies, _)| *applies).map(|(_, number)| number).collect()
}

fn edition_applies(before: &Master, edition: u32) -> Vec<u8> {
    let (none, unknown) = (before.sequence.steps.is_empty(), !matches!(edition, 1 | 2));
    let numbers = [(before.state != State::Ready, 2), (none, 7), (unknown, 17)];
    numbers.into_iter().filter(|(applies, _)| *applies).map(|(_, number)| number).collect()
}

fn start_applies(before: &Master) -> Vec<u8> {
    let mut numbers = Vec::new();
    for (&slot, recorded) in &before.sequence.clients {
        match before.client(slot) {
            Some(client) => {
                numbers.extend(if client.enabled() { None } else { Some(8) });
                numbers.extend(verification::agree(before.sequence.edition, recorded, client).err().map(|refused| refused.number));
                numbers.extend(verification::labels_agree(recorded, client).err().map(|refused| refused.number));
                numbers.extend(before.reports_ready(slot).err().map(|refused| refused.number));
            }
            None => numbers.push(8),
        }
    }
    let known = |slot: usize| before.client(slot).is_some();
    let steps = before.sequence.steps.iter().filter(|step| known(step.slot));
    numbers.extend(steps.filter_map(|step| before.known(step).err()).map(|refused| refused.number));
    numbers
}

// What the readers met.

/// Of what is being recorded or played back.
pub fn progress(master: &Master) -> Vec<&'static str> {
    let taken = master.recording().into_iter().flat_map(|recording| &recording.steps).map(|taken| match taken.progress {
        Progress::OneShot => "reader of a one-shot step that is taken",
        Progress::Open => "reader of an open step that is taken",
        Progress::Done => "reader of a done step that is taken",
        Progress::Failed => "reader of a failed step that is taken",
    });
    let ticks = ticks(master);
    let sent = playback(master).into_iter().flat_map(|playback| &playback.commands).map(|command| match command.answered {
        Answered::Not if ticks - command.left == 15 => "reader of a command that left 15 ticks ago and is not answered",
        Answered::Not => "reader of a command that is not answered",
        Answered::Started => "reader of a command that is started",
        Answered::Done => "reader of a command that is done",
    });
    taken.chain(sent).collect()
}

/// The number of a verification, in which state, and what else is so.
pub fn verified(master: &Master) -> (String, Vec<&'static str>) {
    let failed = match master.verify() {
        Ok(()) => return (format!("verified 0 in {}", state(&master.state)), Vec::new()),
        Err(failed) => failed,
    };
    let named = format!("verified {} in {}", failed.refused.number, state(&master.state));
    let sequence = &master.sequence;
    let lowest = sequence.clients.keys().next() == Some(&failed.slot);
    let slots = sequence.clients.iter().filter(|(&slot, recorded)| master.same(slot, recorded).is_err()).count();
    let steps = sequence.steps.iter().filter(|step| master.known(step).is_err()).count();
    let others = match failed.refused.number {
        9 if failed.refused.rule == "identity number" => vec![(true, identity_differs(&master.state))],
        8..=10 => vec![(!lowest, "verified, a slot that is not the lowest of the sequence"), (slots > 1, "verified, several slots do not hold")],
        11 => vec![(failed.step > 0, "verified, a step that is not the first"), (steps > 1, "verified, several steps do not hold")],
        _ => Vec::new(),
    };
    (named, others.into_iter().filter(|(met, _)| *met).map(|(_, name)| name).collect())
}

fn identity_differs(state: &State) -> &'static str {
    match state {
        State::Record(_) => "verified, an identity number differs, in record",
        State::RecordComplete(_) => "verified, an identity number differs, in record complete",
        _ => "verified, an identity number differs, in ready",
    }
}

// What an accepted event met.

fn accepted(event: &Event, before: &Master, after: &Master, names: &mut Vec<String>) {
    let mut name = |name: &str| names.push(name.to_string());
    match event {
        Event::Enable { slot, .. } if before.client(*slot).map_or(false, |it| it.wanted) => name("enabled again"),
        Event::Disable { slot, .. } if before.client(*slot).map_or(false, |it| !it.wanted) => name("disabled again"),
        Event::Cancel if !before.sequence.steps.is_empty() => {
            name("cancelled, the old sequence is kept");
            if after.sequence.edition == 2 {
                name("cancelled, a sequence of edition 2 is kept");
            }
        }
        Event::On if after.sequence.edition == 2 => name("on, with a sequence of edition 2"),
        Event::Edition { edition } => name(&format!("edition {edition} set over {}", before.sequence.edition)),
        Event::Report { slot, report } => {
            let client = before.client(*slot).unwrap();
            reported(client, Report::of(*report).unwrap(), state(&before.state), names);
        }
        Event::Tick { millimetres, .. } => ticked(*millimetres, before, after, names),
        Event::Stop => ended(before, after, names),
        Event::Indication { message, slot, .. } => {
            indicated(before, after, *slot, message, names);
            ended(before, after, names);
        }
        Event::Start => started(before, names),
        Event::Answer { slot, message, .. } => {
            answered(before, *slot, message, names);
            if after.state == State::Ready && before.sequence.edition == 2 {
                names.push("a sequence of edition 2 is played to its end".to_string());
            }
        }
        Event::Store { .. } => kept("stored", before, names),
        Event::Load { blocks } => {
            kept("loaded", after, names);
            loaded(before, after, blocks, names);
        }
        _ => {}
    }
    let none_enabled = after.enabled_clients().next().is_none();
    if before.state == State::Abort && after.state == State::Ready && none_enabled {
        names.push("abort left with no enabled client".to_string());
    }
}

fn reported(client: &Client, report: Report, state: &str, names: &mut Vec<String>) {
    let first = client.report == Report::Disabled;
    match (client.wanted, first, report) {
        (true, true, Report::Disabled) => names.push("a wanted client repeats disabled".to_string()),
        (true, true, _) => {
            names.push(format!("first report of a wanted client in {state}"));
            if report == Report::Abort {
                names.push(format!("first report of a wanted client in {state} is abort"));
            }
        }
        (false, _, Report::Disabled) => names.push("a client not wanted reports disabled".to_string()),
        (false, _, _) => names.push("report of a client not wanted is taken".to_string()),
        (true, false, _) => {}
    }
}

fn ticked(millimetres: u32, before: &Master, after: &Master, names: &mut Vec<String>) {
    if millimetres == 65_535 {
        names.push("tick of 65535 mm".to_string());
    }
    if (before.tan, after.tan) == (255, 0) {
        names.push("TAN 255 to 0".to_string());
    }
    if let Some(playback) = playback(after) {
        let unanswered = || playback.commands.iter().filter(|command| command.answered == Answered::Not);
        match (unanswered().count(), playback.frames(&after.sequence.steps).len()) {
            (0, _) => names.push("no step unanswered in a tick of playback".to_string()),
            (1, 0) => names.push("no frame, and a step unanswered".to_string()),
            (2.., 0) => names.push("no frame, and several steps unanswered".to_string()),
            (16, 8) => names.push("8 frames in a tick, the most there can be".to_string()),
            _ => {}
        }
        if unanswered().any(|command| playback.ticks - command.left == 14) {
            names.push("a command leaves for the eighth time, the last".to_string());
        }
    }
}

fn indicated(before: &Master, after: &Master, slot: usize, message: &[u8], names: &mut Vec<String>) {
    let held = |master: &Master| master.recording().map_or(0, |recording| recording.steps.len());
    if held(after) > held(before) {
        let function = after.client(slot).and_then(|client| client.pool.function(message[1]));
        names.push(format!("step of trigger {}", function.unwrap().trigger));
    }
    let recording = match before.recording() {
        Some(recording) => recording,
        None => return,
    };
    let known = |taken: &super::recording::Taken| taken.step.slot == slot && taken.tan == message[3];
    let failed = recording.steps.iter().any(|taken| taken.progress == Progress::Failed);
    let begins = message[2] / 64 <= Status::Started.bits() && !recording.steps.iter().any(known);
    if matches!(before.state, State::Record(_)) && recording.steps.len() == 64 && failed && begins {
        names.push("64 held, a failed one among them".to_string());
    }
}

/// A stop, or the last E.4 of record complete.
fn ended(before: &Master, after: &Master, names: &mut Vec<String>) {
    if before.recording().is_none() || after.state != State::Ready {
        return;
    }
    let mut name = |met: bool, name: &str| {
        if met {
            names.push(name.to_string());
        }
    };
    let clients = before.recording().map_or(0, |recording| recording.clients.len());
    let (old, kept) = (before.sequence.steps.len(), before.sequence != after.sequence);
    let edition = before.sequence.edition;
    name(old > 0 && !kept, "no step stays, the old sequence is kept");
    name(edition == 2 && !kept, "no step stays, a sequence of edition 2 is kept");
    name(kept && old > 0, "a new sequence replaces an old one");
    name(kept && edition == 2, "a recording replaces a sequence of edition 2");
    name(kept && after.sequence.clients.len() < clients, "a client's record is dropped");
    name(kept && after.sequence.clients.len() == clients, "a client's record stays");
    name(kept && after.sequence.steps.len() == 64, "sequence of 64 steps");
}

fn started(before: &Master, names: &mut Vec<String>) {
    for (&slot, recorded) in &before.sequence.clients {
        let client = before.client(slot).unwrap();
        let mut name = |name: &str| names.push(format!("started, {name}"));
        if client.name != recorded.name {
            name("a NAME differs outside the mask");
        }
        match (recorded.master_name == recorded.name, client.pool.master_name == client.name) {
            (true, true) if client.name != recorded.name => name("the neighbour's identical drill"),
            (true, false) => name("the master NAME is the client's own as stored only"),
            (false, true) => name("the master NAME is the client's own as loaded only"),
            _ => {}
        }
    }
    for step in &before.sequence.steps {
        let function = before.client(step.slot).and_then(|client| client.pool.function(step.function));
        match (step.mark, function.map(|function| function.trigger)) {
            (Mark::Ticks(_), Some(2)) => names.push("started, a time mark though the trigger is now 2".to_string()),
            (Mark::Millimetres(_), Some(trigger)) if trigger != 2 => {
                names.push("started, a distance mark though the trigger is now another".to_string());
            }
            _ => {}
        }
    }
    if before.enabled_clients().any(|client| client.report != Report::Ready) {
        names.push("started, another enabled client is not ready".to_string());
    }
}

/// A start, refused or not: by the rule of which edition, and in which bits of its NAME a client is another than the recorded.
fn in_edition(before: &Master, refused: Option<&Refused>, names: &mut Vec<String>) {
    let number = refused.map_or(0, |refused| refused.number);
    let (edition, clients) = (before.sequence.edition, &before.sequence.clients);
    if edition == 2 && before.state == State::Ready {
        names.push(format!("start {number} of a sequence of edition 2"));
    }
    let by_identity = refused.map_or(false, |refused| refused.rule == "identity number");
    if edition == 2 && number == 9 && !by_identity {
        names.push("start 9 in edition 2, by the rule of edition 1 too".to_string());
    }
    if number != 0 && !by_identity {
        return;
    }
    let start = format!("{} in edition {edition}, ", if number == 0 { "started" } else { "start 9" });
    let slots = before.verify().map_or_else(|failed| vec![failed.slot], |()| clients.keys().copied().collect());
    if slots.first() != clients.keys().next() {
        names.push(format!("{start}of a slot that is not the lowest of the sequence"));
    }
    for slot in slots {
        let client = before.client(slot).unwrap();
        let facts = named_otherwise(client.name ^ clients[&slot].name, client.pool.mask);
        names.extend(facts.into_iter().filter(|(met, _)| *met).map(|(_, fact)| format!("{start}{fact}")));
    }
}

/// By the bits in which a NAME differs, and the mask.
fn named_otherwise(bits: u64, mask: u64) -> [(bool, &'static str); 7] {
    let (number, above) = (verification::identity_number(bits), bits >> 21);
    [
        (number != 0, "an identity number differs"),
        (bits == 1, "an identity number differs in its lowest bit alone"),
        (bits == 1 << 20, "an identity number differs in its highest bit alone"),
        (verification::identity_number(mask) == 0, "the mask leaves the identity number open"),
        (verification::identity_number(!mask) == 0, "the mask asks for the identity number"),
        (above != 0, "a NAME differs above its identity number"),
        (bits == 1 << 21, "a NAME differs in the lowest bit above its identity number alone"),
    ]
}

fn answered(before: &Master, slot: usize, message: &[u8], names: &mut Vec<String>) {
    let playback = match playback(before) {
        Some(playback) => playback,
        None => return,
    };
    for (command, step) in playback.commands.iter().zip(&before.sequence.steps) {
        let it = step.slot == slot && command.tan == message[4];
        if it && command.answered == Answered::Not && playback.ticks - command.left == 15 {
            names.push("first answer after 15 ticks".to_string());
        }
    }
}

/// A sequence that was stored or loaded.
fn kept(how: &str, master: &Master, names: &mut Vec<String>) {
    let Sequence { edition, steps, clients } = &master.sequence;
    names.push(format!("{how}, edition {edition}"));
    match (clients.len(), steps.len()) {
        (8, 64) => names.push(format!("{how}, the largest sequence: 7 blocks")),
        (1, 1) => names.push(format!("{how}, the least sequence: 3 blocks")),
        _ => {}
    }
    if clients.keys().any(|&slot| master.client(slot).is_none()) {
        names.push(format!("{how}, a client of it is not attached"));
    }
}

fn loaded(before: &Master, after: &Master, blocks: &[u8], names: &mut Vec<String>) {
    let slots: Vec<u8> = Laid::new(blocks).records().iter().map(|record| record[0]).collect();
    let (old, new) = (&before.sequence, &after.sequence);
    let counted = |count: usize, what: &str| format!("loaded, {count} {what}{}", if count == 1 { "" } else { "s" });
    names.extend([counted(new.clients.len(), "client"), counted(new.steps.len(), "step")]);
    let mut name = |met: bool, name: &str| {
        if met {
            names.push(name.to_string());
        }
    };
    name(slots.windows(2).any(|pair| pair[0] > pair[1]), "loaded, records in another order");
    name(old.steps.is_empty(), "loaded where there was no sequence");
    name(!old.steps.is_empty() && old != new, "loaded over another sequence");
    name(old == new, "loaded, the sequence that was there");
    let but_edition = old.edition != new.edition && old.steps == new.steps && old.clients == new.clients;
    name(but_edition, "loaded, the sequence that was there in the other edition");
    name(old.edition != 0, &format!("loaded, edition {} over {}", new.edition, old.edition));
    name(new.steps.iter().any(|step| step.state == 63), "loaded, a state of 63");
    name(new.steps.iter().any(|step| step.mark == Mark::Ticks(MOST_TICKS)), "loaded, a mark of 35,999 ticks");
    name(new.steps.iter().any(|step| step.mark == Mark::Millimetres(MOST_MILLIMETRES)), "loaded, a mark of 2,359,194,465 mm");
    name(falls(new), "loaded, marks that no recording gives in this order");
    labels(new, names);
}

/// A mark is less than one of its kind before it.
fn falls(sequence: &Sequence) -> bool {
    sequence.steps.windows(2).any(|pair| match (pair[0].mark, pair[1].mark) {
        (Mark::Ticks(one), Mark::Ticks(other)) | (Mark::Millimetres(one), Mark::Millimetres(other)) => one > other,
        _ => false,
    })
}

fn labels(sequence: &Sequence, names: &mut Vec<String>) {
    for client in sequence.clients.values() {
        for (kind, label) in [("version", &client.version_label), ("configuration", &client.configuration_label)] {
            match label.len() {
                1 => names.push(format!("loaded, a {kind} label of 1 byte")),
                63 => names.push(format!("loaded, a {kind} label of 63 bytes")),
                _ => {}
            }
        }
        if client.configuration_label.iter().any(|&byte| stored::forbidden(byte)) {
            names.push("loaded, a configuration label with a byte that no version label has".to_string());
        }
    }
}
