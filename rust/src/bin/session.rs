//! The second program as a filter: commands on standard input, replies on standard output.

use std::io::{self, Read, Write};

use second::rules::Rules;
use second::session;

fn main() -> io::Result<()> {
    let mut input = Vec::new();
    io::stdin().read_to_end(&mut input)?;
    let mut log = vec![0; 65_536];
    io::stdout().write_all(&session::run(&input, &mut log, Rules::PAPER).0)
}
