//! The verdict's way of deciding for all t, against a plain walk that knows no settled point.

mod common;

use common::*;
use oracle::convolution::{least_sum, Convolution};
use oracle::draft::{CurveDraft, Draft};
use oracle::gen::{small_draft, valid_draft};
use oracle::rng::Rng;
use oracle::sheet::read;
use oracle::verdict::{convolutions, gap, judge, verdict, Case};

/// F(0) to F(last), straight from the rule and apart from the library's curves.
fn plain_values(curve: &CurveDraft, period: usize, last: usize) -> Vec<u64> {
    let mut values = vec![0; last + 1];
    for x in 1..=last {
        values[x] = match curve.table.get(x - 1) {
            Some(&value) => value as u64,
            None => values[x - period] + curve.rate as u64,
        };
    }
    values
}

/// Every t up to the horizon, each by the definition.
fn walk(draft: &Draft, horizon: usize) -> Case {
    let period = draft.period as usize;
    let plain = |curve: &CurveDraft| plain_values(curve, period, horizon);
    let curves: Vec<(Vec<u64>, Vec<u64>)> = draft
        .sessions
        .iter()
        .map(|session| (plain(&session.envelope), plain(&session.service)))
        .collect();
    let (mut slack, mut slack_at) = (u64::MAX, 0);
    for t in 1..=horizon {
        let mut sum = 0;
        for (b, s) in &curves {
            sum += (0..=t)
                .map(|at| b[at] + s[t - at])
                .min()
                .expect("0 is there");
        }
        let sent = draft.capacity as u64 * t as u64;
        if sum > sent {
            return Case::Failed { at: t as u64 };
        }
        if sent - sum < slack {
            (slack, slack_at) = (sent - sum, t as u64);
        }
    }
    Case::Passed {
        slack,
        at: slack_at,
    }
}

#[test]
fn small_sheets_agree_with_a_walk() {
    let (mut passed, mut failed, mut late) = (0, 0, 0);
    for number in 0..3_000 {
        let draft = small_draft(&mut Rng::new(11, number));
        let case = verdict(&draft.bytes()).case;
        let horizon = match case {
            Case::Failed { at } => (at as usize).max(500),
            _ => 700,
        };
        assert_eq!(case, walk(&draft, horizon), "{draft:?}");
        match case {
            Case::Failed { at } if at > 40 => late += 1,
            Case::Failed { .. } => failed += 1,
            _ => passed += 1,
        }
    }
    assert!(
        passed > 500 && failed > 100 && late > 10,
        "{passed} {failed} {late}"
    );
}

#[test]
fn large_sheets_agree_with_a_shorter_walk() {
    for number in 0..150 {
        let draft = valid_draft(&mut Rng::new(12, number));
        let case = verdict(&draft.bytes()).case;
        match (case, walk(&draft, 1_000)) {
            (Case::Failed { at }, Case::Passed { .. }) => assert!(at > 1_000),
            (Case::Passed { at, .. }, walked) if at <= 1_000 => assert_eq!(case, walked),
            (Case::Passed { slack, .. }, Case::Passed { slack: walked, .. }) => {
                assert!(slack < walked)
            }
            (case, walked) => assert_eq!(case, walked),
        }
    }
}

/// Up to three periods past the settled point and at some far t the rise is the literal one.
#[test]
fn convolutions_keep_rising_as_they_are_said_to() {
    for number in 0..400 {
        let mut rng = Rng::new(13, number);
        let draft = valid_draft(&mut rng);
        let sheet = read(&draft.bytes()).expect("reads");
        for session in &sheet.sessions {
            let part = Convolution::of(session, sheet.period);
            let first = part.settled();
            let far = first + 4 * sheet.period + rng.between(0, 2_000) as usize;
            let (b, s) = (session.envelope.values(far), session.service.values(far));
            assert_eq!(part.at(far), least_sum(&b, &s, far));
            for t in first..first + 3 * sheet.period {
                assert_eq!(part.at(t), least_sum(&b, &s, t));
            }
        }
    }
}

/// A known fact about all sheets: one passes exactly if no t up to 8,112 fails and the lower
/// rates add up to c*P at most; and the slack's t lies no further.
#[test]
fn a_sheet_passes_by_its_first_8112_slot_counts_and_its_rates() {
    for number in 0..300 {
        let draft = valid_draft(&mut Rng::new(14, number));
        let sheet = read(&draft.bytes()).expect("reads");
        let parts = convolutions(&sheet);
        let early = (1..=8_112).all(|t| gap(&sheet, &parts, t) >= 0);
        let rise: u64 = parts.iter().map(Convolution::rise).sum();
        let fits = rise <= sheet.capacity * sheet.period as u64;
        match judge(&sheet) {
            Case::Passed { slack, at } => {
                assert!(early && fits && at <= 8_112 && slack <= sheet.capacity)
            }
            Case::Failed { at } => assert!(!(early && fits) && at <= 115_841),
            Case::Unreadable(_) => unreachable!("the sheet reads"),
        }
    }
}

/// Sheets that fail by their rates alone: the failing t is walked to from a period before.
#[test]
fn late_failures_are_the_first() {
    let zeros = [0; 64];
    for (capacity, period, rate) in [(1, 16, 17), (3, 7, 22), (2, 5, 11), (5, 1, 6)] {
        let draft = Draft::new(capacity, period, &[one((&zeros, rate), (&zeros, 256), 1)]);
        let case = verdict(&draft.bytes()).case;
        let at = match case {
            Case::Failed { at } => at,
            _ => panic!("{draft:?} must fail"),
        };
        assert!(at > 128);
        assert_eq!(case, walk(&draft, at as usize));
    }
}

/// The figure is the largest of D(b(x)) - x, where that is above 0, over the envelope's table.
#[test]
fn figures_agree_with_the_delay_look_up() {
    let mut largest = 0;
    for number in 0..400 {
        let draft = valid_draft(&mut Rng::new(15, number));
        let figures = verdict(&draft.bytes()).figures;
        let period = draft.period as usize;
        for (session, &figure) in draft.sessions.iter().zip(&figures) {
            let service = plain_values(&session.service, period, 8_200);
            let late = session.envelope.table.iter().enumerate().map(|(i, &b)| {
                let reached = service.iter().position(|&value| value >= b as u64);
                reached.expect("within 8,200").saturating_sub(i + 1)
            });
            assert_eq!(late.max(), Some(figure as usize));
            largest = largest.max(figure);
        }
        assert!(figures[draft.sessions.len()..].iter().all(|&one| one == 0));
    }
    assert!(largest > 1_000, "{largest}");
}
