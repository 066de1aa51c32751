//! How Rust is made of Rattle sources.
#[path = "../as_rust.rs"]
#[allow(dead_code)]
mod as_rust;

use as_rust::{plain_lines, Crates};
use same::capi::capi_c as source;

const LIST: &str = "# NAME: the crates that it names\n\n# first\na:\nb: a # again\nc: b\nd: a io\ne staticlib: c\n";

#[test]
fn a_crate_rests_on_what_it_names_and_on_what_that_rests_on() {
    let crates = Crates::listed(LIST);
    assert_eq!(crates.beneath("c"), ["c", "b", "a"]);
    assert_eq!(crates.beneath("a"), ["a"]);
    assert_eq!(crates.beneath("e"), ["e", "c", "b", "a"]);
}

#[test]
fn libraries_of_the_toolchain_are_left_out() {
    let crates = Crates::listed(LIST);
    assert_eq!(crates.named_by("d"), ["a"]);
    assert_eq!(crates.beneath("d"), ["d", "a"]);
}

const SOURCE: &str = "#![tactic(auto)]
ghost use x.{y};
#[unsafe(no_mangle)]
pub fn f(a: u64) -> u64
    requires { p a }
    ensures left { record {
      left = result;
    } ≡ g a }
    ensures right { result ≡ h a }
{
    if a < 1 { a } else { 0 }
}
";

#[test]
fn contracts_are_left_out_and_nothing_else_is() {
    let kept = [
        "pub fn f(a: u64) -> u64",
        "{",
        "    if a < 1 { a } else { 0 }",
        "}",
    ];
    assert_eq!(plain_lines(SOURCE), kept);
}

#[test]
fn the_source_compiled_as_rust_answers() {
    let mut words = vec![0; source::same_totals_words_needed(1, 2, 1) as usize];
    assert_eq!(source::same_totals_open(&mut words, 1, 2, 1), 0);
    let mut answer = |kind, total| {
        let mut report = [0; 2];
        assert_eq!(source::same_totals_call(&mut words, 0, kind, 5, total), 0);
        let number = source::same_totals_run(&mut words, 0, 99, &mut report);
        (number, report)
    };
    // document 01: added, in 13 steps; document 02: posted, with the new total
    assert_eq!(answer(1, 700), (17, [13, 0]));
    assert_eq!(answer(4, 50), (23, [13, 750]));
    assert_eq!(source::same_totals_place(1000), 145_972_072);
    assert_eq!(source::same_totals_account_at(145_972_072), 1000);
}
