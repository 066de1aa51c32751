//! The pages of `trace`: well-formed, self-contained, with every worker, operation, step and
//! moment of the run, no labels over each other; the pages of logs; and the examples in docs.

mod examples;
mod logs;
#[path = "../placed/mod.rs"]
mod placed;
mod reader;
mod run;

use model::fault::Fault;
use model::lines::Line;
use model::search::{one_order, one_variation, By};
use model::trace::page::page;
use model::trace::record::record;
use reader::{read, Element};
use run::Run;

/// A page, read strictly.
fn elements(input: &[u8]) -> Vec<Element> {
    let text = page("Trace", &record(input).expect("every assertion holds"));
    read(&text).expect("well-formed")
}

/// Random inputs: orders, variations of stored ones, and both with lines that are not accepted.
fn random_inputs() -> Vec<Vec<u8>> {
    let text = |lines: Vec<Line>| -> String { lines.iter().map(|l| format!("{l}\n")).collect() };
    let order = |seed, steps| text(one_order(By::AllAssertions, Fault::None, seed, steps).0);
    let mut all: Vec<String> = (1..=24).map(|seed| order(seed, 40 * seed)).collect();
    let varied = |seed| text(one_variation(By::AllAssertions, Fault::None, seed).0);
    all.extend((1..=10).map(varied));
    let odd = "T\nI 0 5 7\nS 0 0\n\n\0\nS 9 9\nO 9 1 9\n";
    all.push(format!("{odd}{}{odd}{odd}{}{odd}", order(7, 90), varied(9)));
    all.into_iter().map(String::into_bytes).collect()
}

/// The numbers of the lines of counts, summed over the page's lists, in the order of the line.
fn counts(elements: &[Element]) -> Vec<u64> {
    let mut sums = vec![0; 13];
    for line in elements.iter().filter(|e| e.has_class("counts")) {
        let digits = |c: char| !c.is_ascii_digit();
        let numbers: Vec<u64> = line.text.split(digits).flat_map(str::parse).collect();
        assert_eq!(numbers.len(), sums.len(), "{}", line.text);
        sums.iter_mut().zip(numbers).for_each(|(sum, n)| *sum += n);
    }
    sums
}

fn count(elements: &[Element], class: &str) -> u64 {
    elements.iter().filter(|e| e.has_class(class)).count() as u64
}

fn assert_page_is_the_run(input: &[u8]) {
    let elements = elements(input);
    let run = Run::of(input);
    let shown = [
        "worker",
        "operation",
        "step",
        "moment",
        "swap",
        "swap-failed",
        "directory-swap",
        "directory-swap-failed",
    ];
    let seen: Vec<u64> = shown.iter().map(|class| count(&elements, class)).collect();
    assert_eq!(seen, run.shown());
    assert_eq!(count(&elements, "effect"), run.moments.len() as u64);
    let said = counts(&elements);
    assert_eq!(said[..8], seen[..]);
    assert_eq!(said[8..10], [run.splits_in_force, run.splits]);
    assert_eq!(said[10..], run.others());
    let others = ["listing", "refused", "unread"].map(|class| count(&elements, class));
    assert_eq!(said[10..], others);
    assert_eq!(titles(&elements, "moment"), run.moments);
    assert_eq!(titles(&elements, "listing"), run.listings);
    let first = |title: String| title.lines().next().map(String::from);
    let mut steps: Vec<String> = titles(&elements, "step")
        .into_iter()
        .flat_map(first)
        .collect();
    steps.sort();
    assert_eq!(steps, run.steps);
    let mut answered: Vec<String> = titles(&elements, "operation");
    answered.retain(|title| !title.contains(": no answer, "));
    answered.sort();
    assert_eq!(answered, run.answered);
}

/// The hover texts of a class, in the order of the page.
fn titles(elements: &[Element], class: &str) -> Vec<String> {
    let of_class = |e: &&Element| e.parent.is_some_and(|at| elements[at].has_class(class));
    let all = elements.iter().filter(|e| e.name == "title");
    all.filter(of_class).map(|e| e.text.clone()).collect()
}

#[test]
fn the_reader_refuses_what_is_not_well_formed() {
    assert!(read("<p><g x=\"1\" y=\"&lt;\">a&amp;b</g></p>").is_ok());
    let wrong = [
        "",
        "text",
        "<p>",
        "</p>",
        "<p></p><p></p>",
        "<p><g></p></g>",
        "<p/>",
        "<circle></circle>",
        "<script></script>",
        "<p>a & b</p>",
        "<p>&nbsp;</p>",
        "<p>a > b</p>",
        "<p>\0</p>",
        "<p x=1></p>",
        "<p x=\"1\"y=\"2\"></p>",
        "<p x=\"1\" ></p>",
        "<p x=\"1\" x=\"2\"></p>",
        "<p x=\"<\"></p>",
        "<p x=\"1></p>",
    ];
    for page in wrong {
        assert!(read(page).is_err(), "{page:?}");
    }
}

#[test]
fn random_runs_are_shown_whole() {
    let inputs = random_inputs();
    assert!(inputs.len() > 30);
    for input in inputs {
        assert_page_is_the_run(&input);
    }
}

#[test]
fn a_page_refers_to_its_own_shapes_and_to_nothing_else() {
    for input in random_inputs() {
        assert_self_contained(&elements(&input));
    }
}

fn assert_self_contained(elements: &[Element]) {
    let ids: Vec<&str> = elements.iter().filter_map(|e| e.get("id")).collect();
    let mut once = ids.clone();
    once.sort_unstable();
    once.dedup();
    assert_eq!(once.len(), ids.len());
    for element in elements {
        if let Some(shape) = element.get("href") {
            let id = shape.strip_prefix('#').expect("of this page");
            assert!(ids.contains(&id), "{shape}");
        }
        assert!(element.get("src").is_none());
        let style = element.name == "style" || element.get("style").is_some();
        assert!(!style || !element.text.contains("url") && !element.text.contains('@'));
    }
}

/// The box that a text takes at most, in its picture: left, right and baseline.
fn text_box(element: &Element) -> (i32, i32, i32) {
    let wide = 7 * element.text.chars().count() as i32;
    let (x, y) = (element.number("x"), element.number("y"));
    let left = match element {
        e if e.has_class("end") || e.has_class("name") => x - wide,
        e if e.has_class("number") => x - wide / 2,
        _ => x,
    };
    (left, left + wide, y)
}

#[test]
fn no_label_stands_over_another_or_outside() {
    let mut compared = 0;
    for input in random_inputs() {
        let elements = elements(&input);
        let pictures = elements.iter().filter(|e| e.name == "svg");
        assert!(pictures.filter(|e| e.get("width").is_some()).count() > 2);
        compared += assert_labels_apart(&elements);
    }
    assert!(compared > 10_000);
}

/// No label stands over another or outside; answers how many pairs were compared.
fn assert_labels_apart(elements: &[Element]) -> usize {
    let mut boxes: Vec<(i32, i32, i32, i32)> = Vec::new();
    for element in elements.iter().filter(|e| e.name == "text") {
        let picture = picture_of(elements, element);
        let (left, right, y) = text_box(element);
        let wide = elements[picture as usize].number("width");
        let high = elements[picture as usize].number("height");
        assert!(
            0 <= left && right <= wide && 9 <= y && y + 2 <= high,
            "{element:?}"
        );
        boxes.push((picture, y, left, right));
    }
    let mut compared = 0;
    for (i, one) in boxes.iter().enumerate() {
        for other in &boxes[i + 1..] {
            let apart = one.0 != other.0
                || (one.1 - other.1).abs() >= 11
                || one.3 <= other.2
                || other.3 <= one.2;
            assert!(apart, "{one:?} {other:?}");
            compared += 1;
        }
    }
    compared
}

/// The picture that an element stands in.
fn picture_of(elements: &[Element], element: &Element) -> i32 {
    let mut at = element.parent.expect("in a picture");
    while elements[at].name != "svg" {
        at = elements[at].parent.expect("in a picture");
    }
    at as i32
}

/// A bar's right and left edge and its lower one, from its path.
fn edges(bar: &Element) -> [i32; 3] {
    let path = bar.get("d").unwrap_or("");
    let digits = |c: char| !c.is_ascii_digit();
    let numbers: Vec<i32> = path.split(digits).flat_map(str::parse).collect();
    [numbers[0], numbers[2], numbers[3]]
}

#[test]
fn a_moment_stands_on_a_bar() {
    for input in random_inputs() {
        assert_moments_on_bars(&elements(&input));
    }
}

/// Each moment stands on one bar.
fn assert_moments_on_bars(elements: &[Element]) {
    let bars: Vec<(i32, [i32; 3])> = elements
        .iter()
        .filter(|e| e.has_class("bar"))
        .map(|bar| (picture_of(elements, bar), edges(bar)))
        .collect();
    for mark in elements.iter().filter(|e| e.has_class("effect")) {
        let (x, y) = (mark.number("x"), mark.number("y"));
        let picture = picture_of(elements, mark);
        let under = |(p, [right, left, low]): &(i32, [i32; 3])| {
            *p == picture && *low == y && *left < x && x < *right
        };
        assert_eq!(bars.iter().filter(|bar| under(bar)).count(), 1, "{mark:?}");
    }
}

#[test]
fn text_is_escaped() {
    let input = b"<b>&amp;\"'\n\xff\x00\x1b \xc3\xa9\nO 1 2 1\n</title><script>\n";
    let text = page("a<b> & \"c\"", &record(input).expect("nothing to assert"));
    assert!(text.is_ascii());
    let elements = read(&text).expect("well-formed");
    let seen = titles(&elements, "unread");
    let expected = [
        "line 1: <b>&amp;\\\"\\'\nunread",
        "line 2: \\xff\\x00\\x1b \\xc3\\xa9\nunread",
        "line 4: </title><script>\nunread",
    ];
    assert_eq!(seen, expected);
    let heading = elements.iter().find(|e| e.name == "h1");
    assert_eq!(heading.map(|e| e.text.as_str()), Some("a<b> & \"c\""));
}

#[test]
fn very_long_lines_are_cut() {
    let long = "9".repeat(100_000);
    let text = page(
        "Trace",
        &record(long.as_bytes()).expect("nothing to assert"),
    );
    let elements = read(&text).expect("well-formed");
    let cut = format!("line 1: {} ...\nunread", "9".repeat(64));
    assert_eq!(titles(&elements, "unread"), [cut]);
}

#[test]
fn an_empty_input_has_a_page_without_charts() {
    let elements = elements(b"");
    assert_eq!(count(&elements, "chart"), 0);
    assert_eq!(elements.iter().filter(|e| e.name == "h1").count(), 1);
}
