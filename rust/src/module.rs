//! The compact module: up to four sites that share one table, by counting their live operations.

use crate::forms::{Answer, Command, Reply};
use crate::reader;
use crate::refusal::{refuse_if, Refusal};
use crate::rules::Rules;
use crate::session::perform;
use crate::site::Site;

/// A place for a site, and how many entries it is promised.
#[derive(Clone, Debug, PartialEq, Eq)]
struct Slot {
    site: Option<Site>,
    promise: usize,
}

impl Slot {
    fn live(&self) -> usize {
        self.site.as_ref().map_or(0, Site::live)
    }

    /// What it still lacks of its promise.
    fn lacks(&self) -> usize {
        self.promise.saturating_sub(self.live())
    }

    fn is_restoring(&self) -> bool {
        self.site.as_ref().is_some_and(Site::is_restoring)
    }
}

/// Four slots. The log buffer of the slot that is called is lent for each call.
#[derive(Clone, Debug, PartialEq, Eq)]
pub struct Module {
    rules: Rules,
    slots: Vec<Slot>,
}

impl Module {
    pub const SLOTS: usize = 4;

    pub fn new(rules: Rules) -> Module {
        let slot = Slot { site: None, promise: rules.promise_before_opening() };
        Module { rules, slots: vec![slot; Module::SLOTS] }
    }

    /// The site of a slot, once it is opened.
    pub fn site(&self, slot: usize) -> Option<&Site> {
        self.slots.get(slot)?.site.as_ref()
    }

    /// What a slot is promised.
    pub fn promise(&self, slot: usize) -> usize {
        self.slots[slot].promise
    }

    /// The entries that are free.
    pub fn free(&self) -> usize {
        let live: usize = self.slots.iter().map(Slot::live).sum();
        self.rules.shared_entries().saturating_sub(live)
    }

    /// What all slots but one still lack of their promises.
    pub fn others_lack(&self, slot: usize) -> usize {
        let others = self.slots.iter().enumerate().filter(|other| other.0 != slot);
        others.map(|other| other.1.lacks()).sum()
    }

    /// Answers a line, which comes without its end, for the site of a slot.
    pub fn answer(&mut self, slot: usize, line: &[u8], log: &mut [u8]) -> Answer {
        let command = reader::command(line, self.rules).ok_or(Refusal::Unreadable)?;
        refuse_if(slot >= Module::SLOTS, Refusal::WrongTime)?;
        if let Command::Site(histories) = command {
            refuse_if(self.slots[slot].site.is_some(), Refusal::WrongTime)?;
            let site = Site::open(histories, log, self.rules)?;
            self.slots[slot] = Slot { site: Some(site), promise: self.rules.plain_promise() };
            return Ok(Reply::Opened);
        }
        refuse_if(self.slots[slot].site.is_none(), Refusal::WrongTime)?;
        match command {
            Command::Cut(kept) => self.cut(slot, kept, log),
            Command::Add(operation) if self.has_elsewhere(slot, operation.id) => {
                Err(Refusal::Underway)
            }
            command => self.call(slot, command, log),
        }
    }

    /// A call that is no cut. "Refused 10 exactly when the site has 64, or when the free entries do
    /// not exceed what the others still lack of their promise."
    fn call(&mut self, slot: usize, command: Command, log: &mut [u8]) -> Answer {
        let crowded = self.free() <= self.others_lack(slot);
        let ends = matches!(command, Command::End);
        let promise = self.rules.plain_promise();
        let own = &mut self.slots[slot];
        let site = own.site.as_mut().ok_or(Refusal::WrongTime)?;
        site.crowd(crowded);
        let answer = perform(command, site, log);
        site.crowd(false);
        if ends && answer.is_ok() {
            own.promise = promise;
        }
        answer
    }

    /// Whether a rule is broken and the id is under way in another site.
    fn has_elsewhere(&self, slot: usize, id: u64) -> bool {
        let others = (0..Module::SLOTS).filter(|&other| other != slot);
        self.rules.looks_up_in_all_sites()
            && others.filter_map(|other| self.site(other)).any(|site| site.is_underway(id))
    }

    fn cut(&mut self, slot: usize, kept: u64, log: &[u8]) -> Answer {
        let mut site = self.slots[slot].site.clone().ok_or(Refusal::WrongTime)?;
        let cut = site.cut(kept, log).map(|_| site);
        self.put(slot, cut, &log[..log.len().min(kept as usize)])
    }

    /// Restarts the site of a slot, whatever it was, from the first bytes of a log buffer.
    pub fn restart(&mut self, slot: usize, log: &[u8], kept: u64) -> Answer {
        refuse_if(slot >= Module::SLOTS, Refusal::WrongTime)?;
        let bytes = &log[..log.len().min(kept as usize)];
        self.put(slot, Site::restart(log, kept, self.rules), bytes)
    }

    /// Puts a site that was restarted from some bytes in a slot, if "the entries free once its own
    /// are given back .. cover its kept live lines and what the others lack".
    fn put(&mut self, slot: usize, restarted: Result<Site, Refusal>, bytes: &[u8]) -> Answer {
        let given_back = self.free() + self.slots[slot].live();
        let covers = |kept: usize| given_back >= kept + self.others_lack(slot);
        if self.rules.asks_ten_before_fifteen() && restarted == Err(Refusal::BadLog) {
            let lines =
                bytes.split(|&byte| byte == b'\n').filter(|line| line.starts_with(b"(did "));
            refuse_if(!covers(lines.count()), Refusal::TableFull)?;
        }
        let site = restarted?;
        refuse_if(!covers(site.live()), Refusal::TableFull)?;
        let own = &self.slots[slot];
        let promise = self.rules.promise_after_cut(own.live(), own.promise, own.is_restoring());
        let reply = Reply::Restarted { lines: site.lines_kept(), bytes: site.used() };
        self.slots[slot] = Slot { site: Some(site), promise };
        Ok(reply)
    }
}
