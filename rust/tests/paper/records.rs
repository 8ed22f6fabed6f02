//! Document 02, (e): operations that live on several modules.

use super::*;
use second::records::RecordCall::{self, Forget, Question, Record, Report};

/// The outcomes of calls on numbers that hold no record at first.
fn outcomes(calls: &[RecordCall]) -> Vec<Outcome> {
    agreed(|program| {
        let (mut numbers, mut count) = ([3; 320], 0);
        let mut call = |call: &RecordCall| {
            let outcome = program.records(&mut numbers, count, *call);
            if let Record { .. } | Forget { .. } = call {
                count = outcome.unwrap_or(count);
            }
            outcome
        };
        calls.iter().map(&mut call).collect::<Vec<_>>()
    })
}

const fn record(id: u64, sent: u8, full: u8, threshold: u64) -> RecordCall {
    Record { id, sent, full, threshold }
}

#[test]
fn two_of_two_and_one_of_two() {
    let [first, second] = [0, 1].map(|site| Report { id: 5, site });
    let split = [record(5, 3, 3, 2), first, first, Question { id: 5 }, second];
    assert_eq!(outcomes(&split), [Ok(1), Ok(0), Ok(0), Ok(0), Ok(1)]);
    assert_eq!(outcomes(&[record(5, 3, 3, 1), second, first]), [Ok(1), Ok(1), Ok(1)]);
}

#[test]
fn copies_without_details_never_count() {
    let [first, bare] = [0, 2].map(|site| Report { id: 5, site });
    assert_eq!(outcomes(&[record(5, 7, 3, 1), bare, first]), [Ok(1), Ok(0), Ok(1)]);
}

#[test]
fn refusals_in_their_order() {
    let calls = [
        record(5, 1, 1, 1),
        record(5, 0, 1, 0),
        record(6, 0, 1, 0),
        record(6, 0, 1, 2),
        record(6, 0, 1, 1),
        Report { id: 5, site: 1 },
        Report { id: 5, site: 8 },
        Report { id: 6, site: 0 },
        Question { id: 6 },
        Forget { id: 6 },
    ];
    let refused = [7, 18, 18, 19, 19, 19, 19, 19, 19].map(Err);
    assert_eq!(outcomes(&calls)[1..], refused);
}

#[test]
fn sixty_four_records() {
    let mut calls: Vec<RecordCall> = (0..64).map(|id| record(id, 1, 1, 1)).collect();
    calls.extend([record(64, 1, 1, 0), Forget { id: 7 }, record(64, 1, 1, 1)]);
    assert_eq!(outcomes(&calls)[63..], [Ok(64), Err(10), Ok(63), Ok(64)]);
}

#[test]
fn a_forgotten_record_has_no_reports() {
    let report = Report { id: 5, site: 0 };
    let calls = [record(5, 1, 1, 1), report, Forget { id: 5 }, record(5, 1, 1, 1)];
    assert_eq!(outcomes(&[&calls[..], &[Question { id: 5 }]].concat())[4], Ok(0));
}
