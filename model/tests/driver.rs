//! The line reader and the driver on good, bad and random input.

use model::fault::Fault;
use model::lines::{read_line, Line};
use model::prng::Prng;
use model::totals::{run, transcript};
use std::io::BufReader;

fn answers(input: &str) -> String {
    String::from_utf8(transcript(input.as_bytes(), Fault::None)).expect("output is text")
}

/// Lines that cannot be read.
const BAD: &[&str] = &[
    "",
    " ",
    "T ",
    " T",
    "T 1",
    "t",
    "TT",
    "T\r",
    "T\0",
    "O",
    "O 1 2",
    "O 1 2 1 ",
    "O 1 2 1 1",
    "O  1 2 1",
    "O\t1 2 1",
    "O 01 2 1",
    "O 1 2 00",
    "O 65536 2 1",
    "O 1 65536 1",
    "O 1 2 65536",
    "O -1 2 1",
    "O +1 2 1",
    "O 1 2 1.0",
    "O 1 2 0x1",
    "I 0 5",
    "I 0 5 7 7",
    "I 65536 5 7",
    "I 0 4294967296 7",
    "I 0 -5 7",
    "I 0 05 7",
    "I 0 5 -0",
    "I 0 5 -",
    "I 0 5 --1",
    "I 0 5 -01",
    "I 0 5 +1",
    "I 0 5 9223372036854775808",
    "I 0 5 -9223372036854775809",
    "I 0 5 18446744073709551616",
    "I 0 5 \u{0667}",
    "P",
    "P 0",
    "P 0 5",
    "P 0 5 ",
    "P 0  5 7",
    "P 0 5 7 ",
    "P 0 5 7 7",
    " P 0 5 7",
    "p 0 5 7",
    "P 65536 5 7",
    "P -1 5 7",
    "P 00 5 7",
    "P 0 4294967296 7",
    "P 0 -5 7",
    "P 0 05 7",
    "P 0 5 07",
    "P 0 5 -07",
    "P 0 5 00",
    "P 0 5 -0",
    "P 0 5 -",
    "P 0 5 --1",
    "P 0 5 +1",
    "P 0 5 7.0",
    "P 0 5 0x7",
    "P 0 5 9223372036854775808",
    "P 0 5 -9223372036854775809",
    "P 0 5 18446744073709551616",
    "P 0 5 \u{0667}",
    "P 0 5 7\r",
    "D 0",
    "D 0 5 7",
    "D 0 99999999999999999999999999",
    "L 0",
    "L 0 5 ",
    "S 0",
    "S 0 0",
    "S 0 10000",
    "S 0 01",
    "S 0 -1",
    "S 65536 1",
    "S 0 1 1",
    "X 0 1",
];

#[test]
fn bad_lines_are_unread() {
    for line in BAD {
        assert_eq!(read_line(line.as_bytes()), None, "{line:?}");
        assert_eq!(answers(&format!("{line}\n")), "unread\n", "{line:?}");
    }
}

#[test]
fn good_lines_are_read_and_printed_as_they_were() {
    let good = [
        "O 0 0 0",
        "O 65535 65535 65535",
        "I 65535 4294967295 -9223372036854775808",
        "I 0 0 9223372036854775807",
        "I 1 10 -1",
        "P 65535 4294967295 -9223372036854775808",
        "P 0 0 9223372036854775807",
        "P 1 10 -1",
        "P 0 0 0",
        "D 3 0",
        "L 0 4294967295",
        "S 0 1",
        "S 65535 9999",
        "T",
    ];
    for text in good {
        let line: Option<Line> = read_line(text.as_bytes());
        assert_eq!(line.map(|line| line.to_string()), Some(text.to_string()));
    }
}

#[test]
fn very_long_lines_are_unread_and_do_not_spill() {
    let digits = "1".repeat(100_000);
    let input = format!(
        "O {digits} 2 1\nT{}\nO 1 2 1\nI 0 5 {digits}\nT",
        " ".repeat(70_000)
    );
    assert_eq!(answers(&input), "unread\nunread\nok\nunread\nend 0\n");
}

#[test]
fn line_ends() {
    assert_eq!(answers(""), "");
    assert_eq!(answers("\n"), "unread\n");
    assert_eq!(answers("\n\n"), "unread\nunread\n");
    assert_eq!(answers("O 1 2 1"), "ok\n");
    assert_eq!(answers("O 1 2 1\n"), "ok\n");
    assert_eq!(answers("O 1 2 1\n\nT"), "ok\nunread\nend 0\n");
    assert_eq!(answers("O 1 2 1\r\nT\r\n"), "unread\nunread\n");
}

#[test]
fn memory_of_zeros_is_strange_whatever_else_is_wrong() {
    let input = "T\nS 9 1\nI 9 5 7\nP 9 5 7\nD 0 5\nL 0 5\nO 0 2 1\nT\nO 8 16 8\nS 0 1\nS 0 0\n";
    let output =
        "refused 8\nrefused 8\nrefused 8\nrefused 8\nrefused 8\nrefused 8\nrefused 1\nrefused 8\n\
                  refused 2\nrefused 8\nunread\n";
    assert_eq!(answers(input), output);
}

#[test]
fn a_refused_opening_changes_nothing_and_an_accepted_one_everything() {
    let input =
        "O 1 2 1\nI 0 5 -7\nS 0 12\nO 9 2 1\nO 8 16 8\nI 0 6 1\nS 0 99\nT\nO 2 2 1\nT\nS 0 1\n";
    let output = "ok\nok\nmoved 12\nrefused 1\nrefused 2\nrefused 4\nanswered added 13\n5 -7\n\
                  end 1\nok\nend 0\nrefused 5\n";
    assert_eq!(answers(input), output);
}

#[test]
fn a_post_is_read_exactly_where_an_insert_is() {
    let mut prng = Prng::new(8);
    let mut read = 0;
    for _ in 0..50_000 {
        let field = |prng: &mut Prng| {
            let length = prng.between(0, 20);
            let bytes = (0..length).map(|_| prng.one_of(b"0123456789-0000999 "));
            String::from_utf8(bytes.collect()).expect("text")
        };
        let number = prng.draw() as i64 >> prng.below(64);
        let rest = match prng.below(4) {
            0 => format!("0 {} {}", field(&mut prng), number),
            1 => format!("0 5 {}", field(&mut prng)),
            2 => format!("{} 5 {}", field(&mut prng), number),
            _ => format!("{} {} {number}", prng.below(70_000), prng.draw() >> 31),
        };
        let insert = read_line(format!("I {rest}").as_bytes());
        let post = read_line(format!("P {rest}").as_bytes());
        let shown = insert.map(|line| line.to_string().replace('I', "P"));
        assert_eq!(post.map(|line| line.to_string()), shown, "{rest:?}");
        read += u64::from(post.is_some());
    }
    assert!((5_000..45_000).contains(&read), "{read}");
}

/// Bytes that are often almost lines.
fn random_bytes(prng: &mut Prng, length: usize) -> Vec<u8> {
    const LIKELY: &[u8] = b"OIDLPST   001234569-\n\n\n\r\0\xff";
    let mut bytes = Vec::new();
    while bytes.len() < length {
        match prng.below(4) {
            0 => bytes.push(prng.draw() as u8),
            1 => bytes.extend_from_slice(format!("\nS {} 9\n", prng.below(3)).as_bytes()),
            2 => bytes.extend_from_slice(
                format!(
                    "\n{} {} {} {}\n",
                    prng.one_of(&['I', 'P']),
                    prng.below(3),
                    prng.draw() as u32,
                    prng.below(5)
                )
                .as_bytes(),
            ),
            _ => bytes.extend(prng.pick(LIKELY)),
        }
    }
    bytes
}

#[test]
fn random_bytes_get_one_answer_a_line() {
    let mut prng = Prng::new(5);
    for _ in 0..300 {
        let mut input = b"O 2 2 2\n".to_vec();
        input.extend(random_bytes(&mut prng, 3_000));
        input.push(b'\n');
        let lines = input.iter().filter(|byte| **byte == b'\n').count();
        let output = String::from_utf8(transcript(&input, Fault::None)).expect("text");
        let is_item = |line: &&str| line.starts_with(|c: char| c.is_ascii_digit());
        let items = output.lines().filter(is_item).count();
        assert_eq!(output.lines().count() - items, lines);
        assert!(output.starts_with("ok\n") && output.ends_with('\n'));
    }
}

#[test]
fn the_size_of_reads_makes_no_difference() {
    let mut prng = Prng::new(6);
    let input = random_bytes(&mut prng, 20_000);
    let whole = transcript(&input, Fault::None);
    let mut output = Vec::new();
    let single = BufReader::with_capacity(1, &input[..]);
    run(single, &mut output, Fault::None).expect("memory");
    assert_eq!(output, whole);
}
