//! The model's verification: what is checked before a playback starts, and by which of two rules. "Start, from ready: 7;
//! then for each slot of the sequence, lowest first, 8, 9 and 10 before the next slot; then by step 11; then by slot 12."

use super::model::{self, Client, Master, Outcome, Refused, Report, State};
use super::playback::Playback;
use super::recording::{Identity, Step};

/// A check that does not hold: by which number, of which slot and of which step it is; both are 0 where it is of none.
pub struct Failed {
    pub refused: Refused,
    pub slot: usize,
    pub step: usize,
}

impl Master {
    pub fn start(&mut self) -> Outcome {
        self.ready()?;
        if let Err(failed) = self.verify() {
            return Err(failed.refused);
        }
        self.state = State::Playback(Playback::default());
        model::done()
    }

    /// "sets the sequence's edition, in ready: 2, 7, 17 unknown edition"
    pub fn edition(&mut self, edition: u32) -> Outcome {
        self.ready()?;
        if self.sequence.steps.is_empty() {
            return model::refuse(7);
        }
        if !matches!(edition, 1 | 2) {
            return model::refuse(17);
        }
        self.sequence.edition = edition;
        model::done()
    }

    /// The first check that does not hold, whatever the state.
    pub fn verify(&self) -> Result<(), Failed> {
        let at = |slot: usize, step: usize| move |refused: Refused| Failed { refused, slot, step };
        if self.sequence.steps.is_empty() {
            return model::refuse(7).map_err(at(0, 0));
        }
        for (&slot, recorded) in &self.sequence.clients {
            self.same(slot, recorded).map_err(at(slot, 0))?;
        }
        for (place, step) in self.sequence.steps.iter().enumerate() {
            self.known(step).map_err(at(step.slot, place))?;
        }
        for &slot in self.sequence.clients.keys() {
            self.reports_ready(slot).map_err(at(slot, 0))?;
        }
        Ok(())
    }

    /// "8, 9 and 10 before the next slot"
    pub fn same(&self, slot: usize, recorded: &Identity) -> Result<(), Refused> {
        let client = self.present(slot)?;
        agree(self.sequence.edition, recorded, client)?;
        labels_agree(recorded, client)
    }

    /// "a client of the sequence is not enabled"
    fn present(&self, slot: usize) -> Result<&Client, Refused> {
        match self.client(slot) {
            None => model::refuse_by(8, "empty"),
            Some(client) if !client.wanted => model::refuse_by(8, "not wanted"),
            Some(client) if !client.enabled() => model::refuse_by(8, "disabled"),
            Some(client) => Ok(client),
        }
    }

    /// "function or state not in the loaded pool"
    pub fn known(&self, step: &Step) -> Result<(), Refused> {
        let function = self.client(step.slot).and_then(|client| client.pool.function(step.function));
        match function {
            None => model::refuse_by(11, "function"),
            Some(function) if !function.states.contains(&step.state) => model::refuse_by(11, "state"),
            Some(_) => Ok(()),
        }
    }

    /// "a client is not reporting ready"
    pub fn reports_ready(&self, slot: usize) -> Result<(), Refused> {
        match self.client(slot) {
            Some(client) if client.report == Report::Ready => Ok(()),
            _ => model::refuse(12),
        }
    }
}

/// "Start goes by the sequence's edition." "Stored sequences of edition 2 demand that the lowest 21 bits of the client's
/// NAME, its identity number in ISO 11783-5, agree too, no matter what the mask says. Edition 1 files keep the rule they
/// have."
pub fn agree(edition: u32, recorded: &Identity, client: &Client) -> Result<(), Refused> {
    names_agree(recorded, client)?;
    if edition == 2 && identity_number(recorded.name) != identity_number(client.name) {
        return model::refuse_by(9, "identity number");
    }
    Ok(())
}

pub fn identity_number(name: u64) -> u64 {
    name % (1 << 21)
}

/// "NAMEs agree if they agree on every bit set in the loaded pool's mask." And of the master NAME, document 02, request 2:
/// "where the stored master NAME equals the stored client NAME, and the loaded one equals the loaded client NAME, the mask
/// applies to both. Otherwise all 64 bits count, as before."
fn names_agree(recorded: &Identity, client: &Client) -> Result<(), Refused> {
    let mask = client.pool.mask;
    if recorded.name & mask != client.name & mask {
        return model::refuse_by(9, "NAME");
    }
    let (stored, loaded) = (recorded.master_name, client.pool.master_name);
    let own = (stored == recorded.name, loaded == client.name);
    let agree = if own == (true, true) { stored & mask == loaded & mask } else { stored == loaded };
    match own {
        _ if agree => Ok(()),
        _ if stored & mask != loaded & mask => model::refuse_by(9, "master NAME"),
        (true, _) => model::refuse_by(9, "master NAME, in open bits: the client's own as stored"),
        (_, true) => model::refuse_by(9, "master NAME, in open bits: the client's own as loaded"),
        _ => model::refuse_by(9, "master NAME, in open bits: another's"),
    }
}

pub fn labels_agree(recorded: &Identity, client: &Client) -> Result<(), Refused> {
    if recorded.version_label != client.pool.version_label {
        return model::refuse_by(10, "version label");
    }
    if recorded.configuration_label != client.pool.configuration_label {
        return model::refuse_by(10, "configuration label");
    }
    Ok(())
}
