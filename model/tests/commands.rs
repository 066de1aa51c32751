//! The binary's commands: exit codes and output.

use std::io::Write;
use std::process::{Command, Output, Stdio};

fn run(arguments: &[&str], input: &[u8]) -> Output {
    let mut child = Command::new(env!("CARGO_BIN_EXE_model"))
        .args(arguments)
        .stdin(Stdio::piped())
        .stdout(Stdio::piped())
        .stderr(Stdio::piped())
        .spawn()
        .expect("the binary starts");
    let mut stdin = child.stdin.take().expect("piped");
    // A command that reads nothing may be gone before the input is written.
    let written = stdin.write_all(input);
    drop(stdin);
    assert!(written.is_ok() || input.is_empty());
    child.wait_with_output().expect("the binary ends")
}

fn text(bytes: &[u8]) -> String {
    String::from_utf8(bytes.to_vec()).expect("output is text")
}

#[test]
fn unknown_arguments_get_the_usage_and_exit_2() {
    let wrong: [&[&str]; 27] = [
        &[],
        &["help"],
        &["totals", "x"],
        &["totals", "--seed", "1"],
        &["search"],
        &["search", "--seed", "1"],
        &["search", "--seed", "x", "--steps", "5"],
        &["search", "--steps"],
        &["replay", "--fault", "unknown"],
        &["faults", "--external"],
        &["trace"],
        &["amounts", "1"],
        &["amounts", "1", "x"],
        &["amounts", "-1", "5"],
        &["rebates", "6000000"],
        &["rows", "1"],
        &["rows", "1", "x"],
        &["rows", "1", "4097"],
        &["export", "5 700"],
        &["logs"],
        &["logs", "1"],
        &["logs", "1", "x"],
        &["logs", "1", "--runs"],
        &["judge", "x"],
        &["verdicts", "x"],
        &["verdicts"],
        &["page"],
    ];
    for arguments in wrong {
        let output = run(arguments, b"");
        assert_eq!(output.status.code(), Some(2), "{arguments:?}");
        assert!(text(&output.stderr).starts_with("usage:"), "{arguments:?}");
        assert!(output.stdout.is_empty(), "{arguments:?}");
    }
}

#[test]
fn lines_writes_so_many_lines_and_no_last_feed_for_an_odd_seed() {
    for (seed, feeds) in [("8", 40), ("9", 39)] {
        let output = run(&["lines", seed, "40"], b"");
        assert_eq!(output.status.code(), Some(0));
        let found = output.stdout.iter().filter(|byte| **byte == b'\n').count();
        assert_eq!(found, feeds, "seed {seed}");
    }
    for wrong in [&["lines"][..], &["lines", "1"], &["lines", "1", "x"]] {
        assert_eq!(run(wrong, b"").status.code(), Some(2), "{wrong:?}");
    }
}

#[test]
fn totals_answers_standard_input() {
    let input = b"O 1 2 1\nI 0 5 700\nS 0 12\nS 0 9\nL 0 5\nS 0 2\nT";
    let output = run(&["totals"], input);
    assert_eq!(output.status.code(), Some(0));
    let expected = "ok\nok\nmoved 12\nanswered added 13\nok\nanswered found 700 2\n5 700\nend 1\n";
    assert_eq!(text(&output.stdout), expected);
}

#[test]
fn a_search_prints_its_counts_and_a_failing_one_an_order() {
    let good = run(&["search", "--seed", "3", "--steps", "2000"], b"");
    assert_eq!(good.status.code(), Some(0));
    assert!(text(&good.stdout).starts_with("seed 3\norders "));
    let search = ["search", "--seed", "3", "--steps", "2000"];
    let bad = run(&[&search[..], &["--fault", "always-added"]].concat(), b"");
    assert_eq!(bad.status.code(), Some(1));
    let shown = text(&bad.stdout);
    let order = shown.split("violation ").nth(1).expect("a violation");
    let lines = order.split_once('\n').expect("an order").1;
    let again = run(&["replay", "--fault", "always-added"], lines.as_bytes());
    assert_eq!(again.status.code(), Some(1));
    assert_eq!(run(&["replay"], lines.as_bytes()).status.code(), Some(0));
}

#[test]
fn faults_lists_every_name_once() {
    let output = run(&["faults"], b"");
    let names: Vec<String> = text(&output.stdout).lines().map(String::from).collect();
    let all = model::fault::Fault::ALL.map(|fault| fault.name().to_string());
    assert_eq!(names, all);
}

#[test]
fn amounts_writes_totals_and_rebates_their_rebates() {
    let written = run(&["amounts", "3", "2000"], b"");
    assert_eq!(written.status.code(), Some(0));
    let totals: Vec<i64> = model::cents::totals(3).take(2_000).collect();
    let lines = |line: &dyn Fn(&i64) -> String| -> String { totals.iter().map(line).collect() };
    assert_eq!(text(&written.stdout), lines(&|total| format!("{total}\n")));
    let read = run(&["rebates"], &written.stdout);
    assert_eq!(read.status.code(), Some(0));
    let rebate = |total: &i64| format!("{total} {}\n", model::rebate::rebate(*total));
    assert_eq!(text(&read.stdout), lines(&rebate));
}

#[test]
fn a_line_that_is_no_total_ends_the_rebates_with_1() {
    let output = run(&["rebates"], b"6000000\n1000034\n-5");
    assert_eq!(output.status.code(), Some(0));
    assert_eq!(text(&output.stdout), "6000000 85000\n1000034 1\n-5 0\n");
    for wrong in [
        "x",
        "",
        "1 2",
        "9223372036854775808",
        "-9223372036854775809",
    ] {
        let output = run(&["rebates"], format!("7\n{wrong}\n8\n").as_bytes());
        assert_eq!(output.status.code(), Some(1), "{wrong:?}");
        let error = format!("model: {wrong:?} is no total\n");
        assert_eq!(text(&output.stderr), error);
    }
}

#[test]
fn rows_writes_rows_and_export_their_file() {
    let written = run(&["rows", "3", "4096"], b"");
    assert_eq!(written.status.code(), Some(0));
    let mut rows = model::rows::rows(3, 4_096);
    let line = |(account, total): &(u32, i64)| format!("{account} {total}\n");
    let lines: String = rows.iter().map(line).collect();
    assert_eq!(text(&written.stdout), lines);
    let exported = run(&["export"], &written.stdout);
    assert_eq!(exported.status.code(), Some(0));
    rows.sort_unstable();
    assert_eq!(exported.stdout, model::export::file(&rows));
}

#[test]
fn export_writes_the_listing_of_a_table_that_holds_the_rows() {
    let output = run(&["export"], b"1001 7\n1000 -1205\n1001 -7\n0 0");
    assert_eq!(output.status.code(), Some(0));
    let file = "account,total\r\n0,0.00\r\n1000,-12.05\r\n1001,-0.07\r\n";
    assert_eq!(text(&output.stdout), file);
    assert_eq!(text(&run(&["export"], b"").stdout), "account,total\r\n");
}

#[test]
fn a_line_that_is_no_row_ends_the_export_with_1() {
    for wrong in [
        "",
        "5",
        "x 7",
        "5 x",
        "5 7 9",
        "-5 7",
        "4294967296 7",
        "5 9223372036854775808",
    ] {
        let output = run(&["export"], format!("7 8\n{wrong}\n8 9\n").as_bytes());
        assert_eq!(output.status.code(), Some(1), "{wrong:?}");
        assert_eq!(
            text(&output.stderr),
            format!("model: {wrong:?} is no row\n")
        );
        assert!(output.stdout.is_empty());
    }
}
