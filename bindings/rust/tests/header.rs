//! The constants and the figures of `include/totals.h` are those of the library and of the safe interface.

use std::path::{Path, PathBuf};
use std::{collections::BTreeMap, fs, process::Command};
use totals::{raw, rebate, Answer, Logged, Owned, Ran, Refusal, Settings, Table};

/// A file or a folder of the repository.
fn repository(path: &str) -> PathBuf {
    Path::new(env!("CARGO_MANIFEST_DIR")).join("../..").join(path)
}

/// The header's constants without their prefix. One of 64 bits is an argument of `UINT64_C`.
fn constants() -> BTreeMap<String, u64> {
    let text = fs::read_to_string(repository("include/totals.h")).expect("the header");
    let define = |line: &str| {
        let mut fields = line.strip_prefix("#define TOTALS_")?.split_whitespace();
        let (name, number) = (fields.next()?, fields.next()?);
        let wide = number.strip_prefix("UINT64_C(").and_then(|rest| rest.strip_suffix(')'));
        Some((name.to_string(), wide.unwrap_or(number).parse().ok()?))
    };
    text.lines().filter_map(define).collect()
}

/// The constants of `raw`, without their prefix.
fn raw_constants() -> BTreeMap<String, u64> {
    let define = |line: &str| {
        let (name, number) = line.strip_prefix("pub const TOTALS_")?.split_once(": u64 = ")?;
        Some((name.to_string(), number.replace(['_', ';'], "").parse().ok()?))
    };
    include_str!("../src/raw.rs").lines().filter_map(define).collect()
}

#[test]
fn constants_of_raw() {
    let (mut header, raw) = (constants(), raw_constants());
    assert_eq!(raw.len(), 35);
    header.retain(|name, _| raw.contains_key(name));
    assert_eq!(raw, header);
}

#[test]
fn refusals_and_limits() -> Result<(), Refusal> {
    let header = constants();
    let all = [Refusal::Settings, Refusal::Short, Refusal::Stranger, Refusal::Busy, Refusal::Idle].into_iter().chain([
        Refusal::Kind,
        Refusal::Spent,
        Refusal::Strange,
        Refusal::Narrow,
        Refusal::BadLog,
    ]);
    for refusal in all {
        assert_eq!(header[&refusal.word().to_uppercase().replace(' ', "_")], refusal.number());
    }
    assert_eq!(
        (header["LEAST_WORKERS"], header["GREATEST_WORKERS"]),
        (Settings::LEAST_WORKERS, Settings::GREATEST_WORKERS)
    );
    assert_eq!(
        (header["LEAST_CAPACITY"], header["GREATEST_CAPACITY"]),
        (Settings::LEAST_CAPACITY, Settings::GREATEST_CAPACITY)
    );
    assert_eq!((header["LEAST_DEPTH"], header["GREATEST_DEPTH"]), (Settings::LEAST_DEPTH, Settings::GREATEST_DEPTH));
    let needed = |which| {
        Settings::new(
            header[&format!("{which}_WORKERS")],
            header[&format!("{which}_CAPACITY")],
            header[&format!("{which}_DEPTH")],
        )
    };
    assert_eq!(header["LEAST_WORDS"], needed("LEAST")?.words_needed() as u64);
    assert_eq!(header["GREATEST_WORDS"], needed("GREATEST")?.words_needed() as u64);
    assert_eq!(header["GREATEST_COUNT"], Table::GREATEST_COUNT as u64);
    assert_eq!(
        (header["LOGGED_WORDS"], header["GREATEST_LOGGED"]),
        (Logged::WORDS as u64, Logged::GREATEST_COUNT as u64)
    );
    Ok(())
}

/// A file without rows has the first line alone, and one with the greatest account and the lowest total the longest
/// row's too.
#[test]
fn bytes_of_an_exported_file() -> Result<(), Refusal> {
    let header = constants();
    let (first, row) = (header["EXPORT_HEADER"], header["EXPORT_ROW"]);
    let mut owned = Owned::new(Settings::new(1, 2, 0)?)?;
    let mut table = owned.table();
    assert_eq!(table.export()?.len() as u64, first);
    table.insert(0, u32::MAX, i64::MIN)?;
    assert_eq!(table.run(0, 99)?, Ran::Answered { answer: Answer::Added, steps: 13, check: 1 });
    assert_eq!(table.export()?.len() as u64, first + row);
    assert_eq!(header["GREATEST_EXPORT"], first + row * header["GREATEST_COUNT"]);
    assert_eq!(header["GREATEST_EXPORT"], Table::GREATEST_EXPORT as u64);
    Ok(())
}

/// What `tests/c/steps.c` prints: numbers, a line for each number of workers.
fn figures() -> Vec<Vec<u64>> {
    let program = Path::new(env!("CARGO_TARGET_TMPDIR")).join("steps");
    let (source, include) = (repository("tests/c/steps.c"), repository("include"));
    let built = Command::new("cc").arg("-I").arg(include).arg(source).arg("-o").arg(&program).status();
    assert!(built.expect("a C compiler").success());
    let ran = Command::new(program).output().expect("the program was built");
    assert!(ran.status.success());
    let text = String::from_utf8(ran.stdout).expect("the output is text");
    let numbers = |line: &str| line.split(' ').map(|number| number.parse().expect("a number")).collect();
    text.lines().map(numbers).collect()
}

#[test]
fn steps() -> Result<(), Refusal> {
    let mut lines = Vec::new();
    for n in Settings::LEAST_WORKERS..=Settings::GREATEST_WORKERS {
        let settings = Settings::new(n, 2, 0)?;
        // the header has 0 where there is no such check
        let checks = (0..=Settings::GREATEST_CHECK + 1).map(|check| settings.steps_at_check(check).unwrap_or(0));
        lines.push([n, settings.greatest_steps()].into_iter().chain(checks).collect::<Vec<u64>>());
    }
    assert_eq!(figures(), lines);
    let header = constants();
    assert_eq!((header["LOOKUP_STEPS"], header["GREATEST_CHECK"]), (Settings::LOOKUP_STEPS, Settings::GREATEST_CHECK));
    Ok(())
}

#[test]
fn kinds_and_answers() {
    let header = constants();
    let mut words = [0; 162];
    assert_eq!(unsafe { raw::totals_open(words.as_mut_ptr(), words.len(), 1, 2, 0) }, header["OK"]);
    let mut answer = |kind: &str, account: u32, total: i64| {
        let mut report = [0; 3];
        let (w, length) = (words.as_mut_ptr(), words.len());
        let called = unsafe { raw::totals_call(w, length, 0, header[kind], account, total) };
        assert_eq!(called, header["OK"]);
        let number =
            unsafe { raw::totals_run(w, length, 0, header["GREATEST_RUN"], report.as_mut_ptr(), report.len()) };
        (number, report[1] as i64, report[2])
    };
    assert_eq!(answer("INSERT", 5, 70), (header["ADDED"], 0, 1));
    assert_eq!(answer("INSERT", 5, -50), (header["REPLACED"], 0, 1));
    assert_eq!(answer("LOOKUP", 5, 1), (header["FOUND"], -50, 0));
    assert_eq!(answer("LOOKUP", 6, 1), (header["NONE"], 0, 0));
    assert_eq!(answer("POST", 5, -10), (header["POSTED"], -60, 1));
    assert_eq!(answer("POST", 5, i64::MIN), (header["OVERRUN"], 0, 1));
    assert_eq!(answer("DELETE", 6, 1), (header["ABSENT"], 0, 1));
    assert_eq!(answer("DELETE", 5, 1), (header["REMOVED"], 0, 1));
    assert_eq!(answer("POST", 6, 7), (header["POSTED"], 7, 1));
    assert_eq!(answer("INSERT", 7, 1), (header["ADDED"], 0, 1));
    assert_eq!(answer("INSERT", 8, 1), (header["CROWDED"], 0, 1));
    assert_eq!(answer("POST", 8, 1), (header["CROWDED"], 0, 1));
    assert_eq!(answer("POST", 6, i64::MAX), (header["OVERRUN"], 0, 1));
    assert_eq!(answer("INSERT", 7, 2), (header["REPLACED"], 0, 1));
    assert_eq!(answer("DELETE", 8, 1), (header["ABSENT"], 0, 1));
    assert_eq!(answer("DELETE", 7, 1), (header["REMOVED"], 0, 1));
    assert_eq!(answer("POST", 8, 1), (header["POSTED"], 1, 1));
}

/// The lines of a text that have nothing but numbers, two at least, and what a comment or a table puts about them.
fn rows_of_numbers(text: &str) -> Vec<Vec<u64>> {
    let has_numbers = |line: &&str| line.chars().all(|c| c.is_ascii_digit() || " ,*/|".contains(c));
    let numbers = |line: &str| line.replace(',', "").split([' ', '*', '/', '|']).flat_map(str::parse).collect();
    text.lines().filter(has_numbers).map(numbers).filter(|row: &Vec<u64>| row.len() > 1).collect()
}

/// Start, end and rate of each band, as the header says them and as the crate's documentation does; the last has no
/// end. A rate in hundredths of a percent is what 10,000 cents inside the band come to.
#[test]
fn bands_of_the_rebate() {
    let header = fs::read_to_string(repository("include/totals.h")).expect("the header");
    let bands = rows_of_numbers(&header);
    assert_eq!(rows_of_numbers(include_str!("../src/rebate.rs")), bands);
    assert_eq!(bands.iter().map(Vec::len).collect::<Vec<_>>(), [3, 3, 3, 2]);
    let on = |total: u64| rebate(total as i64);
    for pair in bands.windows(2) {
        assert_eq!(pair[0][1], pair[1][0], "a band starts where the one before ends");
    }
    for band in bands {
        let (start, rate) = (band[0], band[band.len() - 1]);
        let end = if band.len() == 3 { band[1] } else { i64::MAX as u64 };
        assert_eq!([on(start + 10_000) - on(start), on(end) - on(end - 10_000)], [rate; 2], "{start}");
    }
}
