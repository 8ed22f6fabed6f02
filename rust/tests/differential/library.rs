//! The proved library beside this program.

use super::*;
use second::library::Library;
use second::program::SPARE;
use trial::{polled, used_buffer, Played};

#[test]
fn its_sessions_agree() {
    assert_agrees(sessions(), &Library);
}

#[test]
fn its_restarts_changeovers_copies_keepers_and_records_agree() {
    assert_agrees(OTHERS.iter().flatten().map(Box::as_ref), &Library);
}

#[test]
fn it_recovers() {
    assert_agrees(claims(), &Library);
}

#[test]
fn it_recovers_with_stable_lines() {
    assert_recovers_with_marks(&Library);
}

#[test]
fn it_does_the_same_work_in_any_order() {
    arrival::assert_same_work(&arrival::papers(), &Library);
}

/// The switch once more: a broken rule differs from the library, not only from the paper.
#[test]
fn each_broken_rule_differs_from_it() {
    assert_notices_every_flaw(&Library);
}

/// It asks for 2,741 free bytes before each line, and does not write past what is lent.
#[test]
fn it_says_when_the_replies_do_not_fit() {
    let ends = |trial: &SessionTrial| trial.pieces.iter().all(|piece| piece.ends_with(b"\n"));
    for trial in rounds::sessions(0).into_iter().filter(ends) {
        let played = Played::by(&Library, &trial.pieces, trial.room);
        let length = played.length.expect("there is room");
        let last = played.replies().last().map_or(0, |reply| reply.len() + 1);
        let enough = length - last + SPARE;
        for room in [0, SPARE - 1, length, enough - 1, enough, enough + 1] {
            let (mut log, mut out) = (used_buffer(trial.room), used_buffer(room));
            let given = Library.session(&trial.pieces.concat(), &mut log, &mut out);
            assert_eq!(given, (room >= enough).then_some(length));
            if given.is_some() {
                assert_eq!((&log, &out[..]), (&played.log, &played.out[..room]));
            }
            let (mut log, mut out) = (used_buffer(trial.room), used_buffer(room));
            let (input, mut polls) = (trial.pieces.concat(), polled());
            assert_eq!(Library.session_polls(&input, &mut log, &mut out, &mut polls), given);
            assert_eq!(polls == polled(), given.is_none());
        }
    }
}

#[test]
fn it_says_when_the_reply_of_a_restart_does_not_fit() {
    for (log, reply) in [("(site 1)\n", "(ok 0 9)\n"), ("(site 0)\n", "(refused 15)\n")] {
        for room in 0..20 {
            let mut out = used_buffer(room);
            let given = Library.restart(log.as_bytes(), log.len(), &mut out);
            let mut expected = used_buffer(room);
            if let Some(front) = expected.get_mut(..reply.len()) {
                front.copy_from_slice(reply.as_bytes());
            }
            assert_eq!(given, (room >= reply.len()).then_some(reply.len()));
            assert_eq!(out, expected);
        }
    }
}

#[test]
fn it_asks_for_sixteen_places() {
    let line = b"(did 5 (inc 0 1 1 513))\n";
    for count in [0, 1, 15, 16, 17, 1000] {
        for (used, number) in [(24, Library::NOT_SIXTEEN), (23, NO_KEEPER), (25, NO_KEEPER)] {
            let mut out = used_buffer(30);
            let given = Library.hand_out_above(line, used, &vec![0; count], &mut out);
            if (count, used) == (16, 24) {
                assert_eq!((given, &out[..24]), (Ok(24), &line[..]));
            } else {
                assert_eq!((given, out), (Err(number), used_buffer(30)));
            }
        }
    }
}

/// A sample of everything, which the script `valgrind` runs.
#[test]
#[ignore = "its trials are among those above"]
fn a_sample_agrees() {
    let paper = Second::from_paper();
    let agree = |trial: &dyn Comparison| {
        assert!(trial.mismatch_at_end(&paper, &Library).is_none());
    };
    as_comparisons(&rounds::sessions(0)).for_each(agree);
    as_comparisons(&rounds::claims(0)).for_each(agree);
    for round in [0, 1, 11, 15] {
        rounds::others(round).iter().map(Box::as_ref).for_each(agree);
    }
}
