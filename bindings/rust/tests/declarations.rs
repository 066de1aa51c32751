//! The functions that `crates/capi_c` exports, `include/totals.h` declares and `src/raw.rs` declares are the same ones,
//! in the same order: names, results, and every argument's name and kind. A slice of the source is a pointer and a
//! length.

use std::{fs, path::Path};

/// A function's result and arguments, each a name and a kind as Rust writes it.
#[derive(Debug, PartialEq)]
struct Function {
    name: String,
    arguments: Vec<(String, String)>,
    result: String,
}

/// A file of the repository, without comments.
fn text(path: &str) -> String {
    let file = Path::new(env!("CARGO_MANIFEST_DIR")).join("../..").join(path);
    let mut text = fs::read_to_string(file).expect("a file of the repository");
    while let Some(start) = text.find("/*") {
        let length = text[start..].find("*/").expect("the end of a comment") + 2;
        text.replace_range(start..start + length, " ");
    }
    text.lines().map(|line| line.split("//").next().unwrap_or("").to_string() + "\n").collect()
}

fn words(text: &str) -> String {
    text.split_whitespace().collect::<Vec<_>>().join(" ")
}

/// What stands between the parentheses that the text starts with, split at commas; and what follows them.
fn parentheses(text: &str) -> (Vec<String>, &str) {
    let (inside, after) =
        text.strip_prefix('(').and_then(|text| text.split_once(')')).expect("arguments in parentheses");
    (inside.split(',').map(words).filter(|argument| !argument.is_empty()).collect(), after)
}

/// The functions that start with these words, as Rust and Rattle write them; the result ends at one of these.
fn functions(text: &str, start: &str, end: &[char]) -> Vec<Function> {
    let declared = text.split(start).skip(1).map(|rest| {
        let (name, rest) = rest.split_at(rest.find('(').expect("arguments"));
        let (arguments, rest) = parentheses(rest);
        let result = rest.trim_start().strip_prefix("->").expect("a result").split(end).next().unwrap_or("");
        let pair = |argument: &String| {
            let (name, kind) = argument.split_once(": ").expect("a name and a kind");
            (name.to_string(), kind.to_string())
        };
        Function { name: words(name), arguments: arguments.iter().map(pair).collect(), result: words(result) }
    });
    declared.collect()
}

/// The functions of the source, each slice as a pointer and a length.
fn exported() -> Vec<Function> {
    let mut functions =
        functions(&text("crates/capi_c/src/lib.rt"), "#[unsafe(no_mangle)]\npub extern \"C\" fn ", &['\n', '{']);
    for function in &mut functions {
        function.arguments = function.arguments.drain(..).flat_map(flat).collect();
    }
    functions
}

/// The length of the words or of a log is called `length`, that of a list or a report by its name.
fn flat((name, kind): (String, String)) -> Vec<(String, String)> {
    let slice = |pointer: &str, rest: &str| {
        let item = rest.strip_suffix(']').expect("a slice");
        let length = if ["words", "log"].contains(&&*name) { "length".to_string() } else { format!("{name}_length") };
        vec![(name.clone(), format!("{pointer} {item}")), (length, "usize".to_string())]
    };
    match (kind.strip_prefix("&mut ["), kind.strip_prefix("&[")) {
        (Some(rest), _) => slice("*mut", rest),
        (_, Some(rest)) => slice("*const", rest),
        _ => vec![(name, kind)],
    }
}

/// A kind of C as Rust writes it.
fn kind(c: &str) -> &'static str {
    match c {
        "uint64_t" => "u64",
        "uint32_t" => "u32",
        "int64_t" => "i64",
        "size_t" => "usize",
        "uint64_t *" => "*mut u64",
        "uint32_t *" => "*mut u32",
        "uint8_t *" => "*mut u8",
        "int64_t *" => "*mut i64",
        "const uint64_t *" => "*const u64",
        other => panic!("{other} is no kind of the header"),
    }
}

/// What a declaration of C names, and its kind.
fn named(declaration: &str) -> (String, String) {
    let start = declaration.rfind([' ', '*']).expect("a kind and a name") + 1;
    let (c, name) = declaration.split_at(start);
    (name.to_string(), kind(c.trim_end()).to_string())
}

/// The text without its structs, whose layout `tests/c/logs.c` has.
fn without_structs(text: &str) -> String {
    let mut parts = text.split("struct ");
    let before = parts.next().unwrap_or("").to_string();
    before + &parts.map(|part| part.split_once("};").expect("the end of a struct").1).collect::<String>()
}

/// The functions that the header declares: all that stands between the two braces for C++ and is no directive and no
/// struct. A directive goes on after a backslash.
fn header() -> Vec<Function> {
    let text: String = text("include/totals.h")
        .replace("\\\n", " ")
        .lines()
        .filter(|line| !line.starts_with('#'))
        .map(|line| line.to_string() + "\n")
        .collect();
    let (before, declarations) = text.split_once("extern \"C\" {").expect("the opening brace for C++");
    let (declarations, after) = declarations.rsplit_once('}').expect("the closing brace for C++");
    assert_eq!((before.trim(), after.trim()), ("", ""), "declarations outside the braces");
    let declarations = without_structs(declarations);
    let declared =
        declarations.split(';').map(words).filter(|declaration| !declaration.is_empty()).map(|declaration| {
            let (before, arguments) = declaration.split_at(declaration.find('(').expect("a function"));
            let ((name, result), (arguments, after)) = (named(before), parentheses(arguments));
            assert_eq!(after, "");
            Function { name, arguments: arguments.iter().map(|argument| named(argument)).collect(), result }
        });
    declared.collect()
}

#[test]
fn header_and_source() {
    assert_eq!(exported().len(), 12);
    assert_eq!(header(), exported());
}

#[test]
fn raw_declarations_and_source() {
    assert_eq!(functions(&text("bindings/rust/src/raw.rs"), "pub fn ", &[';']), exported());
}
