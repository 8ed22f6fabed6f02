//! The controller of examples/c in Rust, on numbers: it keeps its site's log in a file, can be killed at any moment, and goes on from what
//! the file holds. At the end it shows its histories, and the card of its last lines.
//!
//! usage: controller FILE [BYTES]     with BYTES it ends itself once it has written that many, in the middle of a line too

mod store;

use fitting_ledger::{Refusal, Rule, Site, Update, LOG_BYTES, REPLY_BYTES};
use std::cell::Cell;
use std::env;
use std::io::{self, Write};
use store::{acknowledge, salt, Left, Store};

const HISTORIES: u64 = 4;
const OPERATIONS: u64 = 24;
/// How many lines its card counts.
const WINDOW: u64 = 10;

fn refused(Refusal(number): Refusal) -> io::Error {
    io::Error::other(format!("refused {number}"))
}

/// The first n operations are stored: they are persistent, and stable. They leave the table once the line that says so is stored too.
fn settle(site: &mut Site, store: &mut Store, n: u64) -> io::Result<()> {
    site.persistent(n).map_err(refused)?;
    site.stable(n).map_err(refused)?;
    store.grow(site.log())?;
    site.persistent(n).map_err(refused)?;
    Ok(())
}

/// Operation i: a part of a history's profile gets a new value.
fn operate(site: &mut Site, store: &mut Store, i: u64) -> io::Result<()> {
    let operand = i % 8 * 256 + (i * 11 + salt()) % 256;
    let before = site.log().len();
    let update =
        Update { rule: Rule::Inc, history: i % HISTORIES, version: i / HISTORIES + 1, operand };
    site.add(i, &[update]).map_err(refused)?;
    site.finish(i).map_err(refused)?;
    store.grow(site.log())?;
    acknowledge(&site.log()[before..])?;
    settle(site, store, i + 1)
}

fn main() -> io::Result<()> {
    let arguments: Vec<String> = env::args().collect();
    if !Site::fits() || arguments.len() < 2 {
        return Err(io::Error::other("usage: controller FILE [BYTES]"));
    }
    let bytes_left = arguments.get(2).and_then(|n| n.parse().ok()).unwrap_or(usize::MAX);
    let left = Left(Cell::new(bytes_left));
    let (mut store, mut bytes) = Store::open(&arguments[1], &left)?;
    let kept = bytes.len();
    bytes.resize(LOG_BYTES, 0);
    let mut site = if bytes[..kept].contains(&b'\n') {
        let mut site = Site::restart(&mut bytes, kept).map_err(refused)?;
        store.cut(site.log().len())?;
        site.end().map_err(refused)?;
        site
    } else {
        store.cut(0)?;
        Site::start(&mut bytes, HISTORIES).map_err(refused)?
    };
    store.grow(site.log())?;
    let lines = site.log().split(|&byte| byte == b'\n');
    let done = lines.filter(|line| line.starts_with(b"(did ")).count() as u64;
    settle(&mut site, &mut store, done)?;
    for i in done..OPERATIONS {
        operate(&mut site, &mut store, i)?;
    }
    let mut reply = [0; REPLY_BYTES];
    for history in 0..HISTORIES {
        let line = format!("(show {history})");
        io::stdout().write_all(site.line(line.as_bytes(), &mut reply))?;
    }
    let card = site.card(WINDOW).map_err(refused)?;
    for history in 0..HISTORIES {
        let [incs, sets, nots] =
            [Rule::Inc, Rule::Set, Rule::Not].map(|rule| card.count(history, rule));
        println!("(card {history} {incs} {sets} {nots})");
    }
    Ok(())
}
