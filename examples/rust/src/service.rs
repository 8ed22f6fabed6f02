//! Full service: a chair in daily use, a hundred thousand operations on a log of 65,536 bytes. Each day it works until its log is full,
//! with supply cuts between, after which the lost lines come again in any order. Each evening it changes over to a shorter log in the
//! other of its two buffers. Beside it stands an account of all its did lines, never trimmed, in plain arithmetic: what the chair shows
//! and copies is what the account says, and so is the card of the log's last lines.

use crate::account::{Account, HISTORIES};

/// The bytes of a log buffer.
pub const LOG_BYTES: usize = 65_536;
const OPERATIONS: u64 = 100_000;
/// The most operations between two reports: so fewer than 64 are live.
const BATCH: u64 = 20;
/// The lines that its card counts.
const WINDOW: u64 = 40;
/// What a fresh buffer holds before a copy.
const FRESH: u8 = 0xAA;

/// A site's calls.
pub trait Calls {
    /// Obeys a line; gives its reply. Both are without their ends.
    fn line(&mut self, line: &str) -> String;
    /// The log in use.
    fn log(&self) -> &[u8];
    /// Copies the log from n on into a fresh buffer; gives the bytes used there, or the refusal's number.
    fn trim(&self, n: u64, fresh: &mut [u8]) -> Result<usize, u64>;
    /// The card of the last did lines of the log: inc, set and not of each history.
    fn card(&self, window: u64) -> Result<Vec<u64>, u64>;
}

/// What opens sites over a log buffer.
pub trait Ledger {
    /// A site over a buffer that is lent to it.
    type Site<'log>: Calls;
    /// Begins a site.
    fn start<'log>(&self, log: &'log mut [u8], histories: u64) -> Result<Self::Site<'log>, u64>;
    /// Takes a site up again from the first bytes of its log.
    fn restart<'log>(&self, log: &'log mut [u8], kept: usize) -> Result<Self::Site<'log>, u64>;
}

/// Serves to the end; gives what is to be shown.
pub fn serve(ledger: &impl Ledger) -> String {
    let (mut log, mut fresh) = (vec![FRESH; LOG_BYTES], vec![FRESH; LOG_BYTES]);
    let (mut service, mut kept) = (Service::new(), 0);
    loop {
        let mut site = match kept {
            0 => ledger.start(&mut log, HISTORIES).expect("a site"),
            _ => ledger.restart(&mut log, kept).expect("the copy restarts"),
        };
        service.morning(&mut site, kept);
        service.day(&mut site);
        if service.operations == OPERATIONS {
            return service.farewell(&mut site);
        }
        kept = service.evening(&site, &mut fresh);
        drop(site);
        std::mem::swap(&mut log, &mut fresh);
        fresh.fill(FRESH);
    }
}

/// The chair's owner, who calls the site and knows what it has to reply.
struct Service {
    random: Random,
    account: Account,
    operations: u64,
    /// The stable mark.
    stable: u64,
    /// The bytes of the log that count as persistent.
    safe: usize,
    trims: u64,
    cuts: u64,
    redone: u64,
    gone: u64,
}

impl Service {
    fn new() -> Service {
        let (random, account) = (Random(1), Account::new());
        Service {
            random,
            account,
            operations: 0,
            stable: 0,
            safe: 0,
            trims: 0,
            cuts: 0,
            redone: 0,
            gone: 0,
        }
    }

    /// The site begins, or goes on from its copy: it shows what the account says, has its marks, and does not part with its base line.
    fn morning(&mut self, site: &mut impl Calls, kept: usize) {
        self.safe = site.log().len();
        self.account.begin_log(self.safe);
        if kept > 0 {
            assert_eq!(site.log().len(), kept);
            let head = self.account.head().len();
            for (bytes, number) in [(3, 15), (9, 15), (head - 1, 15), (kept + 1, 13)] {
                assert_eq!(site.line(&format!("(cut {bytes})")), format!("(refused {number})"));
            }
            let (stable, below) = (self.stable, self.account.base() / 2);
            assert_eq!(site.line(&format!("(stable {stable})")), "(ok (histories))");
            assert_eq!(site.line(&format!("(stable {})", stable + 1)), "(refused 14)");
            assert_eq!(site.line(&format!("(persistent {below})")), "(ok (histories)(dry))");
            assert_eq!(site.line("(end)"), "(ok (waiting))");
        }
        self.check_shows(site);
    }

    /// Works until the log is full or all is done.
    fn day(&mut self, site: &mut impl Calls) {
        loop {
            for _ in 0..1 + self.random.below(BATCH) {
                if self.operations == OPERATIONS || !self.operate(site) {
                    return self.settle(site);
                }
            }
            if self.random.below(10) == 0 {
                self.lose_supply(site);
            }
            self.settle(site);
        }
    }

    /// Adds an operation and finishes it; says whether the log had room for it.
    fn operate(&mut self, site: &mut impl Calls) -> bool {
        let id = self.operations % 500;
        let updates = self.updates();
        assert_eq!(site.line(&format!("(add {id} {updates})")), format!("(ok (ready {id}))"));
        let reply = site.line(&format!("(finish {id})"));
        if reply == "(refused 12)" {
            return false;
        }
        self.account.see(site.log());
        self.operations += 1;
        assert!(reply.starts_with(&format!("(ok {} (values ", self.account.done())), "{reply}");
        true
    }

    /// The updates of an operation that is ready at once, in one to four histories.
    fn updates(&mut self) -> String {
        let (first, count) = (self.random.below(HISTORIES), 1 + self.random.below(4));
        let mut updates = String::new();
        for at in 0..count {
            let history = (first + at) % HISTORIES;
            let version = self.account.version(history);
            let (next, later) = (version + 1, version + 1 + self.random.below(3));
            let (part, profile) = (self.random.below(2048), self.random.number());
            let rule = self.random.below(if at == 0 { 2 } else { 4 });
            updates += &match rule {
                0 => format!("(inc {history} {next} {part})"),
                1 => format!("(set {history} {later} {profile})"),
                2 => format!("(not {history} {version} 0)"),
                _ => format!("(unk {history} 0 {part})"),
            };
        }
        updates
    }

    /// All that is done is stored: it is persistent, and most of it stable, if there is room for the line that says so.
    fn settle(&mut self, site: &mut impl Calls) {
        let done = self.account.done();
        self.report(site);
        let mark = done.saturating_sub(self.random.below(6)).max(self.stable);
        let reply = site.line(&format!("(stable {mark})"));
        if reply != "(refused 12)" {
            assert!(reply.starts_with("(ok (histories"), "{reply}");
            self.stable = mark;
        }
        if self.random.below(2) == 0 {
            self.report(site);
        }
        assert_eq!(site.card(WINDOW), Ok(self.account.card(WINDOW)));
    }

    /// A report of every line done: all of the log counts as persistent.
    fn report(&mut self, site: &mut impl Calls) {
        let reply = site.line(&format!("(persistent {})", self.account.done()));
        assert!(reply.starts_with("(ok (histories"), "{reply}");
        self.safe = site.log().len();
    }

    /// A supply cut, perhaps two: the lines that it loses come again, in any order, some of them twice, now and then all but one.
    fn lose_supply(&mut self, site: &mut impl Calls) {
        let log = site.log().to_vec();
        let kept = self.cut(site);
        let text = String::from_utf8_lossy(&log[kept..]);
        let mut lost: Vec<&str> = text.lines().filter(|line| line.starts_with("(did ")).collect();
        let all = lost.len() as u64;
        if all > 0 && self.random.below(8) == 0 {
            lost.remove(self.random.below(all) as usize);
        }
        let first = self.account.done();
        if self.random.below(4) == 0 {
            self.redo(site, &lost);
            self.cut(site);
        }
        self.redo(site, &lost);
        if lost.len() as u64 == all {
            assert_same_work(&log, site.log());
        }
        assert!(site.line("(end)").starts_with("(ok (waiting"));
        let back = self.account.done() - first;
        assert!(back == all || lost.len() < all as usize, "{back} of {all} lines came back");
        self.redone += back;
        self.gone += all - back;
        self.check_shows(site);
    }

    /// Cuts somewhere behind what counts as persistent; gives the bytes that are kept.
    fn cut(&mut self, site: &mut impl Calls) -> usize {
        let used = site.log().len();
        let bytes = self.safe + self.random.below((used - self.safe) as u64 + 1) as usize;
        let reply = site.line(&format!("(cut {bytes})"));
        self.safe = site.log().len();
        self.stable = self.account.cut(site.log());
        assert_eq!(reply, format!("(ok {} {})", self.account.done(), self.safe));
        self.cuts += 1;
        self.safe
    }

    /// Delivers lines in any order, and some of them again.
    fn redo(&mut self, site: &mut impl Calls, lines: &[&str]) {
        let mut order = lines.to_vec();
        if !order.is_empty() {
            order.push(lines[self.random.below(lines.len() as u64) as usize]);
        }
        for last in (1..order.len()).rev() {
            order.swap(last, self.random.below(last as u64 + 1) as usize);
        }
        for line in order {
            let reply = site.line(&format!("(redo {line})"));
            assert!(
                ["(ok ", "(refused 7)", "(refused 8)"].iter().any(|begin| reply.starts_with(begin)),
                "{reply}"
            );
        }
        self.account.see(site.log());
    }

    /// Copies the log into the fresh buffer, mostly from the stable mark on; gives the bytes used. The copy is what the account says, the
    /// bytes past it and the log stay as they were.
    fn evening(&mut self, site: &impl Calls, fresh: &mut [u8]) -> usize {
        let (base, stable, log) = (self.account.base(), self.stable, site.log().to_vec());
        assert_eq!(site.trim(stable + 1, fresh), Err(13));
        assert_eq!(site.trim(stable + 1, &mut fresh[..9]), Err(13));
        assert_eq!(site.trim(base.wrapping_sub(1), fresh), Err(13));
        let n = if self.random.below(5) == 0 {
            base + self.random.below(stable - base + 1)
        } else {
            stable
        };
        let copy = self.account.copy(n, stable);
        assert_eq!(site.trim(n, &mut fresh[..copy.len() - 1]), Err(12));
        assert!(fresh.iter().all(|&byte| byte == FRESH), "a refused trim writes nothing");
        assert_eq!(site.trim(n, fresh), Ok(copy.len()));
        assert_eq!(String::from_utf8_lossy(&fresh[..copy.len()]), copy);
        assert!(fresh[copy.len()..].iter().all(|&byte| byte == FRESH), "bytes past the copy stay");
        assert_eq!(site.log(), log, "the old buffer is only read");
        self.trims += 1;
        copy.len()
    }

    /// Each history, and the card, shows what the account says.
    fn check_shows(&self, site: &mut impl Calls) {
        for history in 0..HISTORIES {
            let fields: Vec<u64> = numbers(&site.line(&format!("(show {history})")));
            assert_eq!(
                [fields[1], fields[4], fields[5]],
                self.account.shown(history),
                "history {history}"
            );
        }
        assert_eq!(site.card(WINDOW), Ok(self.account.card(WINDOW)));
    }

    /// All did lines once more from the first on, and what the chair shows at the end.
    fn farewell(mut self, site: &mut impl Calls) -> String {
        self.report(site);
        self.account.count_afresh();
        self.check_shows(site);
        let shows: String =
            (0..HISTORIES).map(|history| site.line(&format!("(show {history})")) + "\n").collect();
        let counts = site.card(WINDOW).expect("a card");
        let rows = counts.chunks(3).zip(0..HISTORIES);
        let card: String =
            rows.map(|(row, h)| format!("(card {h} {} {} {})\n", row[0], row[1], row[2])).collect();
        let Service { operations, trims, cuts, redone, gone, .. } = self;
        format!("{operations} operations, {trims} trims, {cuts} cuts, {redone} lines redone, {gone} lost for good\n{shows}{card}")
    }
}

/// The log after all lost lines have come again has the did lines of the log before the cut, each as often, and those of each history in
/// the same order.
fn assert_same_work(before: &[u8], end: &[u8]) {
    let (before, end) = (String::from_utf8_lossy(before), String::from_utf8_lossy(end));
    let (mut first, mut last) = (did_lines(&before), did_lines(&end));
    for history in 0..HISTORIES {
        let touches =
            |line: &&&str| line.split('(').skip(2).any(|update| numbers(update)[0] == history);
        assert!(first.iter().filter(touches).eq(last.iter().filter(touches)), "history {history}");
    }
    first.sort();
    last.sort();
    assert_eq!(first, last);
}

fn did_lines(log: &str) -> Vec<&str> {
    log.lines().filter(|line| line.starts_with("(did ")).collect()
}

/// The numbers of a form.
pub fn numbers(form: &str) -> Vec<u64> {
    form.split([' ', '(', ')']).filter_map(|word| word.parse().ok()).collect()
}

/// Random numbers, the same on every machine (splitmix64).
struct Random(u64);

impl Random {
    fn number(&mut self) -> u64 {
        self.0 = self.0.wrapping_add(0x9e37_79b9_7f4a_7c15);
        let mixed = (self.0 ^ (self.0 >> 30)).wrapping_mul(0xbf58_476d_1ce4_e5b9);
        let mixed = (mixed ^ (mixed >> 27)).wrapping_mul(0x94d0_49bb_1331_11eb);
        mixed ^ (mixed >> 31)
    }

    /// A number below a bound above 0.
    fn below(&mut self, bound: u64) -> u64 {
        self.number() % bound
    }
}
