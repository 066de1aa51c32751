//! Places: the two ways are exact, and the table goes by places where document 02 says so, while
//! the listing goes by numbers. Orders that a machine which places by number fails.

mod placed;
mod session;
mod stored;

use model::fault::Fault;
use model::judge::{judge, Event, Internal};
use model::machine::{Machine, Stepped};
use model::places::{account_at as at, first_bits, place, FACTOR, FACTOR_BACK};
use model::plain::Plain;
use model::prng::Prng;
use model::records::{Answer, Kind, KIND_INSERT};
use model::settings::Settings;
use model::totals::Driver;
use model::wrong_places::WrongPlace;
use placed::placed;
use stored::{lines, output, stored};

fn session(pairs: &[(&str, &str)], checks: &[u8]) {
    session::session(Fault::None.into(), pairs, checks);
}

/// Both ways there and back.
fn is_exact(number: u32) -> bool {
    at(place(number)) == number && place(at(number)) == number
}

#[test]
fn the_way_back_is_exact_in_either_order() {
    assert_eq!(FACTOR.wrapping_mul(FACTOR_BACK), 1);
    let bits = (0..32).map(|bit| 1u32 << bit);
    let edges = bits.flat_map(|edge| [edge - 1, edge, edge + 1, !edge]);
    assert!(edges.chain([u32::MAX]).all(is_exact));
    assert!((0..100_000).all(is_exact));
    let mut prng = Prng::new(8);
    assert!((0..1_000_000).all(|_| is_exact(prng.draw() as u32)));
}

#[test]
fn the_places_of_some_accounts() {
    let wide = |account: u32| u64::from(account) * 2_654_435_761 % 4_294_967_296;
    let mut prng = Prng::new(9);
    for account in (0..2_000).chain((0..10_000).map(|_| prng.draw() as u32)) {
        assert_eq!(u64::from(place(account)), wide(account));
    }
    assert_eq!(
        [5, 6, 7].map(at),
        [1_220_013_205, 1_464_015_846, 1_708_018_487]
    );
    assert!((0..16).all(|k| at(k << 28) == k << 28));
    assert_eq!(at((1 << 31) + 1), 2_391_486_289);
    assert_eq!([1_000, 1_001].map(place), [145_972_072, 2_800_407_833]);
}

#[test]
fn texts_name_accounts_by_their_places() {
    assert_eq!(placed("I 0 5 50"), "I 0 5 50");
    assert_eq!(placed("D 0 @5"), "D 0 1220013205");
    let rows = "1220013205 50\n2147483648 -1\nend 2";
    assert_eq!(placed("@5 50\n@2147483648 -1\nend 2"), rows);
}

/// The plain table divides where the machine takes first bits.
#[test]
fn two_accounts_agree_as_their_first_bits_do() {
    let mut prng = Prng::new(10);
    let mut agreed = 0;
    for depth in 0..=8 {
        let plain = Plain::new(&Settings::new(1, 2, depth).expect("in range"));
        let bits = |account: u32| first_bits(place(account), depth as u32);
        for _ in 0..20_000 {
            let one = prng.draw() as u32;
            let other = at(place(one) ^ 1 << prng.below(32));
            let same = bits(one) == bits(other);
            assert_eq!(plain.agree(one, other), same, "{one} {other}");
            agreed += u64::from(same);
        }
    }
    assert!((100_000..170_000).contains(&agreed), "{agreed}");
}

/// By number 9 is in the right half, and by place in the left.
#[test]
fn the_listing_goes_by_numbers() {
    session(
        &[
            ("O 1 2 1", "ok"),
            ("I 0 @9 90", "ok"),
            ("S 0 99", "answered added 13"),
            ("I 0 @2147483648 80", "ok"),
            ("S 0 99", "answered added 13"),
            ("T", "@2147483648 80\n@9 90\nend 2"),
            ("I 0 @5 50", "ok"),
            ("S 0 99", "answered added 23"),
            ("T", "@5 50\n@2147483648 80\n@9 90\nend 3"),
        ],
        &[1, 1, 2],
    );
}

/// The numbers of places 5 and 9 have different first bits.
#[test]
fn crowding_that_only_places_see() {
    assert_ne!(first_bits(at(5), 1), first_bits(at(9), 1));
    session(
        &[
            ("O 1 2 1", "ok"),
            ("I 0 @5 50", "ok"),
            ("S 0 99", "answered added 13"),
            ("I 0 @9 90", "ok"),
            ("S 0 99", "answered added 13"),
            ("I 0 @7 70", "ok"),
            ("S 0 99", "answered crowded 23"),
            ("P 0 @8 80", "ok"),
            ("S 0 99", "answered crowded 13"),
            ("D 0 @9", "ok"),
            ("S 0 99", "answered removed 13"),
            ("I 0 @8 80", "ok"),
            ("S 0 99", "answered added 13"),
            ("T", "@5 50\n@8 80\nend 2"),
        ],
        &[1, 1, 2, 1, 1, 1],
    );
}

/// By number accounts from 1000 up agree in their first 22 bits, so that two would be all.
#[test]
fn crowding_that_only_numbers_would_see() {
    for (depth, last) in [(0, 1_001), (1, 1_003), (2, 1_005)] {
        let mut driver = Driver::default();
        assert_eq!(driver.answer(format!("O 1 2 {depth}").as_bytes()), "ok\n");
        let mut insert = |account: u32| {
            let called = driver.answer(format!("I 0 {account} 7").as_bytes());
            assert_eq!(called, "ok\n");
            driver.answer(b"S 0 99")
        };
        for account in 1_000..=last {
            let answer = insert(account);
            assert!(answer.starts_with("answered added "), "{account}: {answer}");
        }
        let next = insert(last + 1);
        assert!(next.starts_with("answered crowded "), "{next}");
    }
}

/// With three workers the fourth check answers after 69 steps; by number these orders end
/// elsewhere.
#[test]
fn the_fourth_check_is_reached_by_places() {
    let reached = |name: &str, fault: Fault| {
        let text = output(name, fault);
        let mut answered = text.lines().filter(|line| line.starts_with("answered "));
        answered.any(|line| line.ends_with(" 69"))
    };
    for name in [
        "crowded-after-own-split",
        "crowded-after-anothers-split",
        "one-directory-round",
        "from-1000-fourth-check",
    ] {
        assert!(reached(name, Fault::None), "{name}");
        assert!(!reached(name, Fault::Place(WrongPlace::ByNumber)), "{name}");
    }
}

/// The same order with accounts from 1000 up, step by step.
#[test]
fn accounts_with_the_same_first_bits_make_the_same_steps() {
    let events = |name: &str| -> Vec<(usize, Stepped, usize)> {
        let mut all = Internal::new(Fault::None);
        all.record = true;
        judge(&mut all, &lines(name)).expect("every assertion holds");
        let event = |e: &Event| (e.worker, e.report.stepped, e.moments.len());
        all.events.iter().map(event).collect()
    };
    let own = events("crowded-after-own-split");
    assert!(own.len() > 150);
    assert_eq!(events("from-1000-fourth-check"), own);
}

/// Document 01's cases with M 1 do not tell a machine that places by number from the true one.
#[test]
fn the_last_case_of_document_01_does_not_tell_places_from_numbers() {
    let by_number = Fault::Place(WrongPlace::ByNumber);
    assert_eq!(output("one-pass", by_number), stored("one-pass", "out"));
    assert_ne!(
        output("from-1000-up", by_number),
        stored("from-1000-up", "out")
    );
}

/// How many accounts from 1000 up are added before the first that is crowded.
fn fit(b: u64, m: u64) -> usize {
    let settings = Settings::new(1, b, m).expect("in range");
    let mut machine = Machine::fresh(settings);
    let mut plain = Plain::new(&settings);
    for account in 1_000.. {
        machine.call(0, KIND_INSERT, account, 7).expect("idle");
        let told = (0..23).find_map(|_| match machine.step(0).stepped {
            Stepped::Answered { answer, .. } => Some(answer),
            _ => None,
        });
        assert_eq!(told, Some(plain.apply(Kind::Insert, account, 7)));
        if told == Some(Answer::Crowded) {
            break;
        }
    }
    assert!(plain.lists_as(&machine.items()));
    plain.accounts.len()
}

/// With M 4, 5, 6, 7 and 8, of b times 16, 32, 64, 128 and 256 places. By number it would be b.
#[test]
fn how_many_accounts_from_1000_up_fit() {
    let depths = [4, 5, 6, 7, 8];
    assert_eq!(depths.map(|m| fit(8, m)), [123, 240, 467, 938, 1_742]);
    assert_eq!(depths.map(|m| fit(16, m)), [249, 493, 988, 1_925, 3_807]);
}
