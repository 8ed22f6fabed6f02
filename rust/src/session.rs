//! A session: commands in, replies out, one a line.

use crate::forms::{Answer, Command, Reply};
use crate::reader;
use crate::refusal::{refuse_if, Refusal};
use crate::rules::Rules;
use crate::site::Site;
use crate::writer;

/// A session and its site, once that is opened. The log buffer is lent for each line.
#[derive(Clone, Debug, PartialEq, Eq)]
pub struct Session {
    rules: Rules,
    site: Option<Site>,
}

impl Session {
    pub fn new(rules: Rules) -> Session {
        Session { rules, site: None }
    }

    /// A session whose site was restarted from a log.
    pub fn of(site: Site, rules: Rules) -> Session {
        Session { rules, site: Some(site) }
    }

    pub fn site(&self) -> Option<&Site> {
        self.site.as_ref()
    }

    /// Whether a history of the site is dry. No line of a session asks this.
    pub fn poll(&self, history: u64) -> Result<bool, Refusal> {
        self.site.as_ref().ok_or(Refusal::WrongTime)?.poll(history)
    }

    /// Answers one line, which comes without its end.
    pub fn answer(&mut self, line: &[u8], log: &mut [u8]) -> Answer {
        let command = reader::command(line, self.rules).ok_or(Refusal::Unreadable)?;
        match (command, &mut self.site) {
            (Command::Site(histories), site) => {
                refuse_if(site.is_some(), Refusal::WrongTime)?;
                *site = Some(Site::open(histories, log, self.rules)?);
                Ok(Reply::Opened)
            }
            (_, None) => Err(Refusal::WrongTime),
            (command, Some(site)) => perform(command, site, log),
        }
    }
}

/// Passes a command on to the site.
pub(crate) fn perform(command: Command, site: &mut Site, log: &mut [u8]) -> Answer {
    Ok(match command {
        Command::Site(_) => return Err(Refusal::WrongTime),
        Command::Add(operation) => Reply::Added { ready: site.add(operation)? },
        Command::Finish(id) => Reply::Finished(site.finish(id, log)?),
        Command::Withdraw(id) => Reply::Withdrawn { dry: site.withdraw(id)? },
        Command::Persistent(n) => {
            let (rose, dry) = site.make_persistent(n)?;
            Reply::Persistent { rose, dry }
        }
        Command::Stable(n) => Reply::Stable { rose: site.make_stable(n, log)? },
        Command::Show(number) => Reply::Shown { number, history: site.show(number)? },
        Command::Cut(kept) => {
            let (lines, bytes) = site.cut(kept, log)?;
            Reply::Restarted { lines, bytes }
        }
        Command::Redo(did) => {
            let (lines, examined) = site.redo(did, log)?;
            Reply::Redone { lines, examined }
        }
        Command::End => Reply::Ended { waiting: site.end()? },
    })
}

/// Runs a whole session over a log buffer; gives its replies, and the session at its end.
pub fn run(input: &[u8], log: &mut [u8], rules: Rules) -> (Vec<u8>, Session) {
    run_on(Session::new(rules), input, log)
}

/// The same of a session that has begun.
pub fn run_on(mut session: Session, input: &[u8], log: &mut [u8]) -> (Vec<u8>, Session) {
    let mut replies = Vec::new();
    for piece in input.split_inclusive(|&byte| byte == b'\n') {
        let answer = match piece.strip_suffix(b"\n") {
            Some(line) => session.answer(line, log),
            None if session.rules.replies_to_rest() => Err(Refusal::Unreadable),
            None => continue,
        };
        writer::answer(&mut replies, &answer);
    }
    (replies, session)
}
