//! Random lists of a module's calls, written while a module runs along, so that tables fill, sites
//! are cut and their lost lines come again.

use second::module::Module;
use second::rules::Rules;
use second::site::Site;

use crate::random::Random;

/// A call of a slot: a line of a session, or a restart from the first bytes of its log buffer.
#[derive(Clone, Debug, PartialEq, Eq)]
pub enum Call {
    Line(usize, String),
    Restart(usize, u64),
    /// A restart from another buffer, which is the slot's from then on if it is accepted.
    RestartFrom(usize, Vec<u8>),
}

impl Call {
    pub fn slot(&self) -> usize {
        match self {
            Call::Line(slot, _) | Call::Restart(slot, _) | Call::RestartFrom(slot, _) => *slot,
        }
    }
}

/// The bytes of each slot's log buffer.
pub const ROOM: usize = 20_000;

/// The log buffers of the slots; a slot that is not there has one too, which no call may change.
pub fn buffers() -> Vec<Vec<u8>> {
    vec![vec![b'x'; ROOM]; Module::SLOTS + 1]
}

/// Makes a call.
pub fn make(module: &mut Module, call: &Call, logs: &mut [Vec<u8>]) -> second::forms::Answer {
    match call {
        Call::Line(slot, line) => {
            let log = &mut logs[(*slot).min(Module::SLOTS)];
            module.answer(*slot, line.as_bytes(), log)
        }
        Call::Restart(slot, kept) => {
            let log = &logs[(*slot).min(Module::SLOTS)];
            module.restart(*slot, log, *kept)
        }
        Call::RestartFrom(slot, bytes) => {
            let mut buffer = bytes.clone();
            buffer.resize(ROOM, b'x');
            let answer = module.restart(*slot, &buffer, bytes.len() as u64);
            if answer.is_ok() {
                logs[*slot] = buffer;
            }
            answer
        }
    }
}

/// Writes a list of calls.
pub struct Scribe<'r> {
    random: &'r mut Random,
    module: Module,
    logs: Vec<Vec<u8>>,
    /// Did lines that a cut of a slot lost.
    lost: Vec<Vec<String>>,
    next_id: u64,
}

impl<'r> Scribe<'r> {
    pub fn new(random: &'r mut Random) -> Scribe<'r> {
        let lost = vec![Vec::new(); Module::SLOTS];
        Scribe { random, module: Module::new(Rules::PAPER), logs: buffers(), lost, next_id: 1 }
    }

    /// Some calls. One slot takes more than the others, and one or two are opened late, if at all.
    pub fn write(mut self, calls: usize) -> Vec<Call> {
        let greedy = self.random.index(Module::SLOTS);
        let late = [self.random.index(Module::SLOTS), self.random.index(Module::SLOTS)];
        let mut list = Vec::new();
        while list.len() < calls {
            let slot = match self.random.below(100) {
                0 => Module::SLOTS + self.random.index(3),
                1..=30 => greedy,
                _ => self.random.index(Module::SLOTS),
            };
            if late.contains(&slot) && slot != greedy && list.len() < calls / 2 {
                continue;
            }
            for call in self.calls_of(slot) {
                let _ = make(&mut self.module, &call, &mut self.logs);
                list.push(call);
            }
        }
        list
    }

    fn calls_of(&mut self, slot: usize) -> Vec<Call> {
        let Some(site) = self.module.site(slot).cloned() else {
            return vec![match self.random.below(6) {
                0 => Call::Line(slot, "(add 7 (set 0 1 1))".to_string()),
                1 => Call::Restart(slot, self.random.below(40)),
                _ => Call::Line(slot, format!("(site {})", 1 + self.random.below(3))),
            }];
        };
        let line = |text: String| vec![Call::Line(slot, text)];
        match self.random.below(400) {
            0 => line("(site 2)".to_string()),
            1..=5 => vec![self.cut(slot, &site)],
            6 => vec![Call::Restart(slot, self.random.below(site.used() as u64 + 2))],
            7..=8 => line("(end)".to_string()),
            9..=10 => line("(show 0)".to_string()),
            11..=12 => line(format!("(persistent {})", self.random.below(site.done() + 2))),
            13..=14 => line(format!("(stable {})", self.random.below(site.done() + 2))),
            15 => line("(add 5".to_string()),
            _ if site.is_restoring() => vec![self.redo(slot)],
            16..=18 => vec![self.restart_from(slot, &site)],
            19..=280 => self.operation(slot, &site),
            281..=380 => vec![self.waiting(slot, &site)],
            _ => vec![self.finish(slot, &site)],
        }
    }

    /// A cut; the did lines behind it are lost.
    fn cut(&mut self, slot: usize, site: &Site) -> Call {
        let used = site.used();
        let kept = match self.random.below(3) {
            0 => self.random.below(used as u64 + 2),
            1 => 9,
            _ => used as u64,
        };
        let text = String::from_utf8_lossy(&self.logs[slot][..used]).into_owned();
        let mut from = 0;
        for line in text.split_inclusive('\n') {
            from += line.len();
            if from as u64 > kept && line.starts_with("(did ") {
                self.lost[slot].push(line.trim_end().to_string());
            }
        }
        Call::Line(slot, format!("(cut {kept})"))
    }

    /// A restart from the slot's log with a line behind it that makes no log of it, or none.
    fn restart_from(&mut self, slot: usize, site: &Site) -> Call {
        let mut bytes = self.logs[slot][..site.used()].to_vec();
        if self.random.percent(70) {
            bytes.extend_from_slice(b"(did 1)\n");
        }
        Call::RestartFrom(slot, bytes)
    }

    /// A lost line that comes again.
    fn redo(&mut self, slot: usize) -> Call {
        let lines = &self.lost[slot];
        let line = if lines.is_empty() {
            "(did 9 (set 0 9 1 9))".to_string()
        } else {
            lines[self.random.index(lines.len())].clone()
        };
        Call::Line(slot, format!("(redo {line})"))
    }

    /// An operation that runs at once, and its finish: done, it stays live until it is stable.
    fn operation(&mut self, slot: usize, site: &Site) -> Vec<Call> {
        let id = self.id();
        let history = self.random.below(site.count());
        let version = site.show(history).map_or(1, |shown| shown.version + 1);
        let add = format!("(add {id} (set {history} {version} {}))", self.random.below(1000));
        vec![Call::Line(slot, add), Call::Line(slot, format!("(finish {id})"))]
    }

    /// An operation that waits.
    fn waiting(&mut self, slot: usize, site: &Site) -> Call {
        let id = self.id();
        let version = site.show(0).map_or(9, |shown| shown.version + 50);
        Call::Line(slot, format!("(add {id} (inc 0 {version} 1))"))
    }

    fn finish(&mut self, slot: usize, site: &Site) -> Call {
        let ids: Vec<u64> = site.pending().map(|pending| pending.0.id).collect();
        match ids.is_empty() {
            true => Call::Line(slot, "(persistent 0)".to_string()),
            false if self.random.percent(50) => {
                Call::Line(slot, format!("(withdraw {})", self.random.pick(&ids)))
            }
            false => Call::Line(slot, format!("(finish {})", self.random.pick(&ids))),
        }
    }

    /// A new id, or now and then one that another slot may have.
    fn id(&mut self) -> u64 {
        if self.random.percent(8) {
            return 1 + self.random.below(self.next_id);
        }
        self.next_id += 1;
        self.next_id
    }
}
