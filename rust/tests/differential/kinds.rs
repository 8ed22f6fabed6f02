//! The kinds of replies that the trials must meet.

/// Replies to a redo that are kept as they are: no log has so few bytes that a cut replies them.
const LOOKS: [&str; 5] = ["(ok 0 1)", "(ok 0 2)", "(ok 1 1)", "(ok 1 3)", "(ok 2 3)"];

/// The kinds of replies, refusals aside.
pub const KINDS: [&str; 43] = [
    "(ok)",
    "(ok (ready N))",
    "(ok (ready))",
    "(ok N (values N)(ready N)(overtaken N))",
    "(ok N (values N)(ready N)(overtaken))",
    "(ok N (values N)(ready)(overtaken N))",
    "(ok N (values N)(ready)(overtaken))",
    "(ok (dry N))",
    "(ok (dry))",
    "(ok (histories N)(dry N))",
    "(ok (histories N)(dry))",
    "(ok (histories)(dry N))",
    "(ok (histories)(dry))",
    "(ok (histories N))",
    "(ok (histories))",
    "(ok N N)",
    "(ok 0 1)",
    "(ok 0 2)",
    "(ok 1 1)",
    "(ok 1 3)",
    "(ok 2 3)",
    "(ok (waiting N))",
    "(ok (waiting))",
    "(history N)",
    "poll dry",
    "poll not dry",
    "restart (ok N N)",
    "restart (refused 13)",
    "restart (refused 15)",
    "upgrade ok",
    "trim ok",
    "removals ok",
    "find ok",
    "card ok",
    "keep ok",
    "drop ok",
    "hand out ok",
    "record ok",
    "report persistent",
    "report not persistent",
    "question persistent",
    "question not persistent",
    "forget ok",
];

/// A reply with N for its numbers and lists of them, but for refusals and few lines run.
pub fn kind_of(reply: &str) -> String {
    if reply.contains("refused ") || LOOKS.contains(&reply) {
        return reply.to_string();
    }
    let mut kind = String::new();
    for letter in reply.chars() {
        let letter = if letter.is_ascii_digit() { 'N' } else { letter };
        if letter != 'N' || !kind.ends_with('N') {
            kind.push(letter);
        }
    }
    while !kind.ends_with("(ok N N)") && kind.contains("N N") {
        kind = kind.replace("N N", "N");
    }
    kind
}
