//! Wrong cuts and wrong judges: each is told from the right one by a small log, and by some of the
//! random ones.

use model::cuts::{search, Cuts, WrongCut};
use model::judging::{explains, judge, refused, Verdict, MOST};
use model::log::{read, Log};
use model::logs::any_log;
use model::prng::Prng;
use model::wrong_judges::WrongJudge;

fn log(text: &str) -> Log {
    read(text.as_bytes()).expect("a log")
}

/// So many random logs.
fn logs(seed: u64, count: usize) -> impl Iterator<Item = Log> {
    let mut prng = Prng::new(seed);
    (0..count).map(move |_| any_log(&mut prng))
}

/// Each wrong cut with a log, and the order that the right cuts find; the wrong one finds none.
const TELLING_CUTS: [(WrongCut, &str, &[usize]); 6] = [
    (
        WrongCut::NothingChangedHere,
        "2 0\n0 1 5 7 added 0 1 2\n1 1 5 7 replaced 0 3 5\n2 1 5 9 replaced 0 4 6\n0 3 5 0 found 7 7 8",
        &[0, 2, 1, 3],
    ),
    (
        WrongCut::UnchangingFirst,
        "2 0\n0 1 5 7 added 0 1 3\n1 3 6 0 none 0 2 4",
        &[0, 1],
    ),
    (
        WrongCut::WithoutRealTime,
        "2 0\n0 3 5 0 none 0 3 4\n1 3 5 0 none 0 1 2",
        &[1, 0],
    ),
    (
        WrongCut::WithoutTables,
        "2 0\n0 1 5 7 added 0 1 2\n1 1 5 8 replaced 0 3 5\n2 1 5 9 replaced 0 4 6\n0 3 5 0 found 8 7 8",
        &[0, 2, 1, 3],
    ),
    (
        WrongCut::WithoutAnswers,
        "2 0\n0 1 5 7 added 0 2 4\n1 3 5 0 none 0 1 3",
        &[1, 0],
    ),
    (
        WrongCut::HigherPlaces,
        "2 0\n0 3 5 0 none 0 1 3\n1 3 5 0 none 0 2 4",
        &[0, 1],
    ),
];

#[test]
fn a_log_tells_each_wrong_cut() {
    assert!(TELLING_CUTS.map(|(wrong, ..)| wrong) == WrongCut::ALL);
    for (wrong, text, order) in TELLING_CUTS {
        let log = log(text);
        assert_eq!(
            search(&log, Cuts::BOTH).0.as_deref(),
            Some(order),
            "{wrong:?}"
        );
        assert_eq!(search(&log, Cuts::wrong(wrong)).0, None, "{wrong:?}");
    }
}

/// Cut 2's operations tried first are wrong with cut 1; without it they only change the order.
#[test]
fn unchanging_operations_tried_first_alone_change_the_order_only() {
    let cuts = Cuts {
        exchanged: false,
        ..Cuts::wrong(WrongCut::UnchangingFirst)
    };
    let mut others = 0;
    let short = |log: &Log| log.operations.len() <= 7 && refused(log, MOST).is_none();
    for log in logs(51, 6_000).filter(short) {
        let (own, found) = (search(&log, Cuts::BOTH).0, search(&log, cuts).0);
        assert_eq!(own.is_some(), found.is_some(), "{log}");
        others += usize::from(own != found);
        assert!(found.is_none_or(|order| explains(&log, &order)), "{log}");
    }
    assert!(others > 50, "{others}");
}

/// 13 deletes, one after the other.
const THIRTEEN: &str = "2 0
0 2 5 0 absent 0 1 2\n0 2 5 0 absent 0 3 4\n0 2 5 0 absent 0 5 6\n0 2 5 0 absent 0 7 8
0 2 5 0 absent 0 9 10\n0 2 5 0 absent 0 11 12\n0 2 5 0 absent 0 13 14\n0 2 5 0 absent 0 15 16
0 2 5 0 absent 0 17 18\n0 2 5 0 absent 0 19 20\n0 2 5 0 absent 0 21 22\n0 2 5 0 absent 0 23 24
0 2 5 0 absent 0 25 26";

/// Each wrong judge with a log, the room, what the right judge says and what the wrong one.
const TELLING_LOGS: [(WrongJudge, &str, usize, &str, &str); 16] = [
    (
        WrongJudge::NarrowBeforeBad,
        "2 0\n0 3 5 0 none 0 2 1",
        0,
        "refused 14",
        "refused 10",
    ),
    (
        WrongJudge::BadBeforeSettings,
        "1 0\n0 3 5 0 none 0 2 1",
        12,
        "refused 1",
        "refused 14",
    ),
    (
        WrongJudge::RealTimeByCalls,
        "2 0\n0 1 5 7 added 0 1 4\n1 3 5 0 none 0 2 3",
        12,
        "order 1 0",
        "no",
    ),
    (
        WrongJudge::NoRealTime,
        "2 0\n0 1 5 7 added 0 1 2\n1 3 5 0 none 0 3 4",
        12,
        "no",
        "order 1 0",
    ),
    (
        WrongJudge::PostedTotalIgnored,
        "2 0\n0 4 5 7 posted 8 1 2",
        12,
        "no",
        "order 0",
    ),
    (
        WrongJudge::AddedTotalCompared,
        "2 0\n0 1 5 7 added 0 1 2",
        12,
        "order 0",
        "no",
    ),
    (
        WrongJudge::ThirteenAccepted,
        THIRTEEN,
        13,
        "refused 14",
        "order 0 1 2 3 4 5 6 7 8 9 10 11 12",
    ),
    (
        WrongJudge::PositionsRepeat,
        "2 0\n0 1 5 7 added 0 1 2\n1 3 5 0 found 7 2 3",
        12,
        "refused 14",
        "order 0 1",
    ),
    (
        WrongJudge::NotEmptyAtFirst,
        "2 0\n0 3 0 0 none 0 1 2",
        12,
        "order 0",
        "no",
    ),
    (
        WrongJudge::FromPlaceOne,
        "2 0\n0 3 5 0 none 0 1 2",
        12,
        "order 0",
        "no",
    ),
    (
        WrongJudge::CrowdedByItself,
        "2 0\n0 1 5 7 added 0 1 2\n0 1 6 7 added 0 3 4",
        12,
        "order 0 1",
        "no",
    ),
    (
        WrongJudge::OverlapAccepted,
        "2 0\n0 1 5 7 added 0 1 3\n0 3 5 0 found 7 2 4",
        12,
        "refused 14",
        "order 0 1",
    ),
    (
        WrongJudge::CrowdedByNumber,
        "2 2\n0 1 5 7 added 0 1 2\n0 1 1009 7 added 0 3 4\n0 1 0 7 added 0 5 6",
        12,
        "order 0 1 2",
        "no",
    ),
    (
        WrongJudge::HighestPlaceFirst,
        "2 0\n0 3 5 0 none 0 1 3\n1 3 5 0 none 0 2 4",
        12,
        "order 0 1",
        "order 1 0",
    ),
    (
        WrongJudge::EarliestCallFirst,
        "2 0\n0 3 5 0 none 0 2 3\n1 3 5 0 none 0 1 4",
        12,
        "order 0 1",
        "order 1 0",
    ),
    (
        WrongJudge::EarliestEndFirst,
        "2 0\n0 3 5 0 none 0 1 4\n1 3 5 0 none 0 2 3",
        12,
        "order 0 1",
        "order 1 0",
    ),
];

#[test]
fn a_log_tells_each_wrong_judge() {
    assert!(TELLING_LOGS.map(|(wrong, ..)| wrong) == WrongJudge::ALL);
    for (wrong, text, room, right, told) in TELLING_LOGS {
        let log = log(text);
        assert_eq!(judge(&log, room).to_string(), right, "{wrong:?}");
        assert_eq!(wrong.judge(&log, room).to_string(), told, "{wrong:?}");
    }
}

/// In the logs that the command writes each of them shows, most of them often.
#[test]
fn random_logs_tell_the_wrong_judges_too() {
    let all: Vec<Log> = logs(61, 6_000).collect();
    for wrong in WrongJudge::ALL {
        let tells = |log: &&Log| {
            [0, MOST]
                .iter()
                .any(|room| judge(log, *room) != wrong.judge(log, *room))
        };
        let told = all.iter().filter(tells).count();
        assert!(told >= 10, "{wrong:?}: {told}");
    }
}

/// A contract that asks for some order that explains the log lets these through; the first order
/// tells them.
#[test]
fn another_order_explains_the_log_and_is_not_the_first() {
    for wrong in WrongJudge::OTHER_ORDERS {
        let mut others = 0;
        for log in logs(71, 6_000) {
            match (judge(&log, MOST), wrong.judge(&log, MOST)) {
                (Verdict::Order(first), Verdict::Order(shown)) => {
                    assert!(explains(&log, &shown) && first <= shown, "{wrong:?}\n{log}");
                    others += usize::from(first != shown);
                }
                (own, told) => assert_eq!(own, told, "{wrong:?}\n{log}"),
            }
        }
        assert!(others > 500, "{wrong:?}: {others}");
    }
}
