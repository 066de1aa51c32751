//! The export: document 02's figures and both ends of the range as they are written; refusals and
//! sizes; that a reader finds the rows again, and every line has one row; and wrong exports.

use model::export::{export, file, in_units, Row};
use model::prng::Prng;
use model::reading;
use model::refusal::{NARROW, STRANGE};
use model::rows::{any_total, fixed_accounts, fixed_totals, rows, MOST};
use model::wrong_exports::WrongExport;
use std::collections::BTreeSet;

/// Totals as they are written.
const FIGURES: [(i64, &str); 20] = [
    (-1205, "-12.05"),
    (1205, "12.05"),
    (7, "0.07"),
    (-7, "-0.07"),
    (0, "0.00"),
    (1, "0.01"),
    (-1, "-0.01"),
    (10, "0.10"),
    (-10, "-0.10"),
    (99, "0.99"),
    (-99, "-0.99"),
    (100, "1.00"),
    (-100, "-1.00"),
    (101, "1.01"),
    (-110, "-1.10"),
    (1_000_000, "10000.00"),
    (i64::MAX, "92233720368547758.07"),
    (i64::MIN, "-92233720368547758.08"),
    (i64::MIN + 1, "-92233720368547758.07"),
    (i64::MIN + 8, "-92233720368547758.00"),
];

#[test]
fn figures() {
    for (total, text) in FIGURES {
        assert_eq!(in_units(total), text, "{total}");
    }
}

/// The bytes of a file, text by text.
#[test]
fn files() {
    assert_eq!(file(&[]), b"account,total\r\n");
    let rows = [(0, 7), (1000, -1205), (u32::MAX, i64::MIN)];
    let text = "account,total\r\n0,0.07\r\n1000,-12.05\r\n4294967295,-92233720368547758.08\r\n";
    assert_eq!(file(&rows), text.as_bytes());
    // what foreign words list: an account comes again
    let again = [(5, -100), (5, 0), (5, 0)];
    let text = "account,total\r\n5,-1.00\r\n5,0.00\r\n5,0.00\r\n";
    assert_eq!(file(&again), text.as_bytes());
}

/// Random totals, and before them the fixed ones.
fn totals(seed: u64) -> impl Iterator<Item = i64> {
    let mut prng = Prng::new(seed);
    let random = (0..300_000).map(move |_| any_total(&mut prng));
    fixed_totals().into_iter().chain(random)
}

#[test]
fn units_and_decimals_by_division() {
    for total in totals(1) {
        let (cents, sign) = (total.unsigned_abs(), if total < 0 { "-" } else { "" });
        let text = format!("{sign}{}.{:02}", cents / 100, cents % 100);
        assert_eq!(in_units(total), text, "{total}");
    }
}

const HEADER_SIZE: usize = 15;
const LONGEST_ROW: usize = 34;

/// An output that is as long as the file gets it, a longer one nothing more.
#[test]
fn nothing_is_written_past_the_file() {
    for count in [0, 1, 2, 50, MOST] {
        let rows = rows(2, count);
        let file = file(&rows);
        for more in [0, 1, 40] {
            let mut out = vec![b'?'; file.len() + more];
            assert_eq!(export(Some(&rows), &mut out), Ok(file.len()));
            assert_eq!(out, [&file[..], &vec![b'?'; more]].concat());
        }
    }
}

#[test]
fn every_shorter_output_is_narrow_and_stays() {
    let rows = rows(3, 20);
    let size = file(&rows).len();
    for length in 0..size {
        let mut out = vec![b'?'; length];
        assert_eq!(export(Some(&rows), &mut out), Err(NARROW), "{length}");
        assert_eq!(out, vec![b'?'; length]);
    }
}

#[test]
fn strange_memory_is_refused_first() {
    for length in [0, HEADER_SIZE - 1, HEADER_SIZE, 1000] {
        let mut out = vec![b'?'; length];
        assert_eq!(export(None, &mut out), Err(STRANGE));
        assert_eq!(out, vec![b'?'; length]);
    }
}

/// The longest rows are those of ten digits for the account and seventeen for the units below 0.
#[test]
fn sizes() {
    assert_eq!(file(&[]).len(), HEADER_SIZE);
    let size = |row: Row| file(&[row]).len() - HEADER_SIZE;
    for account in fixed_accounts() {
        for total in fixed_totals() {
            let is_longest = account >= 1_000_000_000 && total <= -1_000_000_000_000_000_000;
            let bytes = size((account, total));
            assert!(bytes <= LONGEST_ROW, "{account} {total}");
            assert_eq!(bytes == LONGEST_ROW, is_longest, "{account} {total}");
        }
    }
    assert_eq!(size((0, 0)), 8);
    assert_eq!(HEADER_SIZE + LONGEST_ROW * MOST, 139_279);
}

#[test]
fn a_reader_finds_the_rows() {
    for seed in 0..40 {
        let rows = rows(seed, MOST);
        assert_eq!(reading::rows(&file(&rows)), Some(rows), "seed {seed}");
    }
    assert_eq!(reading::rows(&file(&[])), Some(Vec::new()));
}

/// "Every exported line must determine its account and total": no two rows have one line.
#[test]
fn every_line_has_one_row() {
    let (accounts, totals) = (fixed_accounts(), fixed_totals());
    let row = |account: u32| totals.iter().map(move |total| (account, *total));
    let rows: Vec<Row> = accounts.iter().copied().flat_map(row).collect();
    let lines: BTreeSet<Vec<u8>> = rows.iter().map(|row| file(&[*row])).collect();
    assert_eq!(lines.len(), rows.len());
}

/// Texts of one line behind the header that the reader does not take.
const UNREAD: [&str; 27] = [
    "\r\n",
    "5\r\n",
    "5,\r\n",
    ",1.00\r\n",
    "5,1.00",
    "5,1.00\n",
    "5,1.00\r",
    "5,1.00\n\r",
    "5,1.00\r\n\r\n",
    "5;1.00\r\n",
    "5,1.00,\r\n",
    "5, 1.00\r\n",
    " 5,1.00\r\n",
    "05,1.00\r\n",
    "-5,1.00\r\n",
    "4294967296,1.00\r\n",
    "5,100\r\n",
    "5,1.0\r\n",
    "5,1.000\r\n",
    "5,.07\r\n",
    "5,-.07\r\n",
    "5,00.07\r\n",
    "5,-0.00\r\n",
    "5,+1.00\r\n",
    "5,\"1.00\"\r\n",
    "5,92233720368547758.08\r\n",
    "5,-92233720368547758.09\r\n",
];

#[test]
fn a_reader_takes_nothing_else() {
    for text in UNREAD {
        let file = format!("account,total\r\n{text}");
        assert_eq!(reading::rows(file.as_bytes()), None, "{text:?}");
    }
    let others = [
        "",
        "account,total",
        "account,total\n",
        "total,account\r\n",
        "5,1.00\r\n",
    ];
    for file in others {
        assert_eq!(reading::rows(file.as_bytes()), None, "{file:?}");
    }
}

/// A file with any byte changed, left out or put in twice has other rows or none.
#[test]
fn a_damaged_file_is_never_read_as_the_same_rows() {
    let rows = rows(4, 60);
    let file = file(&rows);
    let is_same = |damaged: &[&[u8]]| reading::rows(&damaged.concat()).as_ref() == Some(&rows);
    for at in 0..file.len() {
        let (front, back) = file.split_at(at);
        let (byte, behind) = (back[0], &back[1..]);
        let others = b"0123456789-.,\r\n\" a".iter().copied();
        for other in others.filter(|other| *other != byte) {
            assert!(!is_same(&[front, &[other], behind]), "{other} at {at}");
        }
        assert!(!is_same(&[front, behind]), "without {at}");
        assert!(!is_same(&[front, &[byte], back]), "twice {at}");
    }
}

/// A total that is written in a wrong way, and the one nearest to 0 that tells it from the right one.
const WRONG_TOTALS: [(WrongExport, i64); 6] = [
    (WrongExport::SignOfUnits, -1),
    (WrongExport::DividedDownward, -1),
    (WrongExport::OneDecimal, 0),
    (WrongExport::DecimalsNotPadded, 0),
    // 100 times 2^46, from which on a cent is less than the distance of two numbers, and 1
    (WrongExport::FloatingPoint, 7_036_874_417_766_401),
    (WrongExport::NegatedIn64Bits, i64::MIN),
];

/// Of the totals nearer to 0 all are tried to a million, and of greater ones the next and random ones.
#[test]
fn wrong_totals_show_from_theirs_on() {
    let shows = |wrong: WrongExport, total: i64| wrong.in_units(total) != in_units(total);
    for (wrong, nearest) in WRONG_TOTALS {
        assert!(shows(wrong, nearest), "{wrong:?}");
        let all = -1_000_000..1_000_000;
        let next = nearest.saturating_sub(nearest.signum());
        let others = all.chain(totals(5)).chain([next, next.saturating_neg()]);
        let mut nearer = others.filter(|total| total.unsigned_abs() < nearest.unsigned_abs());
        assert_eq!(nearer.find(|total| shows(wrong, *total)), None, "{wrong:?}");
    }
}

/// What words list, nothing where they are strange, and how long the output is.
type Case = (Option<&'static [Row]>, usize);

const EMPTY: Option<&[Row]> = Some(&[]);
const TWO: &[Row] = &[(1, 0), (2, 0)];

/// A file or a call that is wrong, and the first case that tells it from the right one: of strange
/// words, a table without accounts, and tables of one and of two accounts, each with outputs from the
/// shortest on.
const WRONG_FILES: [(WrongExport, Case); 9] = [
    // 14 bytes for the header, where there are to be 15
    (WrongExport::LineFeedAlone, (EMPTY, 14)),
    (WrongExport::LastLineNotEnded, (EMPTY, 13)),
    (WrongExport::NoHeader, (EMPTY, 0)),
    (WrongExport::ByPlace, (Some(TWO), 31)),
    (WrongExport::SizeWithoutHeader, (EMPTY, 0)),
    (WrongExport::ExactFitRefused, (EMPTY, 15)),
    (WrongExport::WrittenThoughShort, (EMPTY, 1)),
    (WrongExport::NarrowBeforeStrange, (None, 0)),
    (WrongExport::ZeroBehind, (EMPTY, 16)),
];

/// Whether a case tells a wrong export from the right one, by what it gives or by the output.
fn shows(wrong: WrongExport, listed: Option<&[Row]>, length: usize) -> bool {
    let mut outs = [vec![b'?'; length], vec![b'?'; length]];
    let right = export(listed, &mut outs[0]);
    wrong.export(listed, &mut outs[1]) != right || outs[0] != outs[1]
}

#[test]
fn wrong_files_show_in_their_case() {
    let one: [Option<&[Row]>; 3] = [Some(&[(0, 0)]), Some(&[(1, 0)]), Some(&[(2, 0)])];
    let two: [Option<&[Row]>; 3] = [Some(&[(0, 0), (1, 0)]), Some(&[(0, 0), (2, 0)]), Some(TWO)];
    let listed: Vec<_> = [None, EMPTY].into_iter().chain(one).chain(two).collect();
    for (wrong, (words, length)) in WRONG_FILES {
        let cases = listed
            .iter()
            .flat_map(|listed| (0..40).map(move |length| (*listed, length)));
        let first = cases
            .into_iter()
            .find(|(listed, length)| shows(wrong, *listed, *length));
        assert_eq!(first, Some((words, length)), "{wrong:?}");
    }
}

#[test]
fn every_wrong_export_has_its_total_or_its_case() {
    let totals = WRONG_TOTALS.map(|wrong| wrong.0).into_iter();
    let all = totals.chain(WRONG_FILES.map(|wrong| wrong.0));
    assert!(all.eq(WrongExport::ALL));
}

/// A wrong file is not read as the same rows either.
#[test]
fn wrong_exports_are_found_by_random_rows() {
    let mut listing = rows(6, 200);
    listing.sort_unstable();
    let (file, all) = (file(&listing), Some(&listing[..]));
    let size = file.len();
    let cases = [(None, 0), (all, size - 1), (all, size), (all, size + 1)];
    for wrong in WrongExport::ALL {
        let found = cases.iter().filter(|case| shows(wrong, case.0, case.1));
        assert!(found.count() > 0, "{wrong:?}");
        let wrong_file = wrong.file(&listing);
        let read = reading::rows(&wrong_file);
        assert_eq!(
            read.as_ref() == Some(&listing),
            wrong_file == file,
            "{wrong:?}"
        );
    }
}
