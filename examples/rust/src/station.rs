//! The controller and the station of examples/c in Rust: each did line goes to the station at once, a keeper over a file; the controller
//! stores its log only every few operations, and takes back from the station what it lost. At the end the station asks what would fall with a
//! line that nobody has any more.
//!
//! usage: station LOG KEPT [BYTES]     with BYTES it ends itself once it has written that many to both files, in the middle of a line too

mod store;

use fitting_ledger::{removals, Keeper, Refusal, Rule, Site, Update, LOG_BYTES, LOG_LINES};
use std::cell::Cell;
use std::{env, io};
use store::{acknowledge, salt, Left, Store};

const HISTORIES: u64 = 4;
const OPERATIONS: u64 = 24;
const BATCH: u64 = 5;

fn refused(Refusal(number): Refusal) -> io::Error {
    io::Error::other(format!("refused {number}"))
}

/// A station: a keeper over a file.
struct Station<'a> {
    keeper: Keeper<'a>,
    store: Store<'a>,
}

/// A controller: a site over a file.
struct Controller<'a> {
    site: Site<'a>,
    store: Store<'a>,
}

impl Controller<'_> {
    fn place(&mut self, history: u64) -> io::Result<u64> {
        Ok(self.site.show(history).map_err(refused)?.single()[4])
    }

    /// How many operations the log has: a did line each.
    fn done(&self) -> u64 {
        let lines = self.site.log().split(|&byte| byte == b'\n');
        lines.filter(|line| line.starts_with(b"(did ")).count() as u64
    }

    /// Takes back from the station each line with a place above those that the site still has.
    fn take_back(&mut self, station: &Station) -> io::Result<()> {
        let mut places = [0; 16];
        for history in 0..HISTORIES {
            places[history as usize] = self.place(history)?;
        }
        let mut handed = vec![0; LOG_BYTES];
        let bytes = station.keeper.hand_out(&places, &mut handed).map_err(refused)?;
        for line in handed[..bytes].split_inclusive(|&byte| byte == b'\n') {
            self.site.redo(&line[..line.len() - 1]).map_err(refused)?;
        }
        match self.site.end().map_err(refused)?.first() {
            [] => Ok(()),
            _ => Err(io::Error::other("a line still waits")),
        }
    }

    /// Stores the log, and says so: to the site, and to the station, which needs the lines no longer.
    fn settle(&mut self, station: &mut Station) -> io::Result<()> {
        let n = self.done();
        self.store.grow(self.site.log())?;
        self.site.persistent(n).map_err(refused)?;
        self.site.stable(n).map_err(refused)?;
        self.store.grow(self.site.log())?;
        self.site.persistent(n).map_err(refused)?;
        for history in 0..HISTORIES {
            station.keeper.drop_lines(history, self.place(history)?).map_err(refused)?;
        }
        station.store.replace(station.keeper.lines())
    }

    /// Operation i: a part of a history's profile gets a new value. Its line, the last of the log, goes to the station.
    fn operate(&mut self, station: &mut Station, i: u64) -> io::Result<()> {
        let operand = i % 8 * 256 + (i * 11 + salt()) % 256;
        let (history, version) = (i % HISTORIES, i / HISTORIES + 1);
        let before = self.site.log().len();
        self.site
            .add(i, &[Update { rule: Rule::Inc, history, version, operand }])
            .map_err(refused)?;
        self.site.finish(i).map_err(refused)?;
        let line = &self.site.log()[before..];
        station.keeper.keep(&line[..line.len() - 1]).map_err(refused)?;
        station.store.grow(station.keeper.lines())?;
        acknowledge(line)?;
        if i % BATCH == BATCH - 1 {
            self.settle(station)?;
        }
        Ok(())
    }
}

fn main() -> io::Result<()> {
    let arguments: Vec<String> = env::args().collect();
    if !Site::fits() || !Keeper::fits() || arguments.len() < 3 {
        return Err(io::Error::other("usage: station LOG KEPT [BYTES]"));
    }
    let bytes_left = arguments.get(3).and_then(|n| n.parse().ok()).unwrap_or(usize::MAX);
    let left = Left(Cell::new(bytes_left));
    let (store, mut kept_lines) = Store::open(&arguments[2], &left)?;
    let kept = kept_lines.len();
    kept_lines.resize(LOG_BYTES, 0);
    let keeper = Keeper::resume(&mut kept_lines, kept).map_err(refused)?;
    let mut station = Station { keeper, store };
    station.store.cut(station.keeper.lines().len())?;
    let (mut store, mut log) = Store::open(&arguments[1], &left)?;
    let kept = log.len();
    log.resize(LOG_BYTES, 0);
    let mut controller = if log[..kept].contains(&b'\n') {
        let site = Site::restart(&mut log, kept).map_err(refused)?;
        store.cut(site.log().len())?;
        let mut controller = Controller { site, store };
        controller.take_back(&station)?;
        controller
    } else {
        store.cut(0)?;
        let site = Site::start(&mut log, HISTORIES).map_err(refused)?;
        store.grow(site.log())?;
        Controller { site, store }
    };
    for i in controller.done()..OPERATIONS {
        controller.operate(&mut station, i)?;
    }
    controller.settle(&mut station)?;
    for history in 0..HISTORIES {
        let reply = controller.site.show(history).map_err(refused)?;
        let numbers: Vec<String> = reply.single().iter().map(u64::to_string).collect();
        println!("(history {})", numbers.join(" "));
    }
    // what would fall with line 20; two operations each were one visit, and fall together
    let visits: Vec<[u64; 2]> = (0..OPERATIONS).map(|i| [i + 1, i / 2]).collect();
    let mut fallen = [0; LOG_LINES];
    let count = removals(controller.site.log(), &visits, &[20], &mut fallen).map_err(refused)?;
    let fallen: Vec<String> = fallen[..count].iter().map(u64::to_string).collect();
    println!("(falls {})", fallen.join(" "));
    Ok(())
}
