//! Makes Rust of the Rattle crates that a static library rests on, for build scripts: a module for each crate inside
//! one for the library, the contracts left out. The library NAME is the crate NAME_c, which exports to C; which crates
//! it rests on stands in crates.txt.

use std::path::{Path, PathBuf};
use std::{env, fs};

/// The crates of the repository, each with those it names.
pub struct Crates(Vec<(String, Vec<String>)>);

impl Crates {
    /// From lines `NAME: NAME ...` and `NAME staticlib: NAME ...`; what follows a # is left out.
    pub fn listed(text: &str) -> Crates {
        let lines = text
            .lines()
            .filter_map(|line| line.split('#').next()?.split_once(':'));
        let words =
            |text: &str| -> Vec<String> { text.split_whitespace().map(str::to_string).collect() };
        Crates(
            lines
                .filter_map(|(name, named)| Some((words(name).into_iter().next()?, words(named))))
                .collect(),
        )
    }

    /// The crates that a crate names; libraries of the toolchain are left out.
    pub fn named_by(&self, name: &str) -> Vec<&str> {
        let (_, named) = self
            .0
            .iter()
            .find(|(own, _)| own == name)
            .unwrap_or_else(|| panic!("no crate {name}"));
        named
            .iter()
            .map(String::as_str)
            .filter(|other| self.0.iter().any(|(own, _)| own == other))
            .collect()
    }

    /// The crate and all that it rests on.
    pub fn beneath<'a>(&'a self, name: &'a str) -> Vec<&'a str> {
        let mut found = vec![name];
        let mut next = 0;
        while let Some(name) = found.get(next) {
            let new: Vec<&str> = self
                .named_by(name)
                .into_iter()
                .filter(|other| !found.contains(other))
                .collect();
            found.extend(new);
            next += 1;
        }
        found
    }
}

/// A source's lines without contracts, which may have names and go over lines, and without what is said to the prover
/// or the linker.
pub fn plain_lines(source: &str) -> Vec<&str> {
    let mut open = 0;
    let mut in_contract = |line: &&str| {
        let starts = ["requires ", "ensures "]
            .iter()
            .any(|word| line.trim_start().starts_with(word));
        let contract = starts || open > 0;
        if contract {
            open = open + line.matches('{').count() - line.matches('}').count();
        }
        contract
    };
    let unsaid = |line: &&str| {
        ["ghost use ", "#[unsafe(no_mangle)]", "#![tactic("]
            .iter()
            .any(|word| line.starts_with(word))
    };
    source
        .lines()
        .filter(|line| !in_contract(line))
        .filter(|line| !unsaid(line))
        .collect()
}

/// A crate's place: where its source is, how other crates are reached, and how its own files are.
struct Place {
    source: PathBuf,
    others: String,
    own: String,
}

impl Place {
    /// A file as Rust; a module that it names stands in place of the line that names it.
    fn rust_of(&self, file: &str) -> String {
        let path = self.source.join(format!("{file}.rt"));
        println!("cargo:rerun-if-changed={}", path.display());
        let source =
            fs::read_to_string(&path).unwrap_or_else(|e| panic!("{}: {e}", path.display()));
        let lines = plain_lines(&source).into_iter().map(|line| self.line(line));
        self.others.clone() + &lines.collect::<String>()
    }

    /// Exported functions are renamed, since the library beside which this is compiled has their names.
    fn line(&self, line: &str) -> String {
        let item = line.trim_start();
        let item = item.strip_prefix("pub ").unwrap_or(item);
        if let Some(name) = item
            .strip_prefix("mod ")
            .and_then(|rest| rest.strip_suffix(';'))
        {
            return format!("pub mod {name} {{\n{}}}\n", self.rust_of(name));
        }
        let line = line.replace("crate::", &format!("{}::", self.own));
        let line = line.replace("pub extern \"C\" fn ", "#[inline(never)]\npub fn same_");
        line + "\n"
    }
}

/// The module of a library. `top` is the path of the module that it stands in.
fn library(crates: &Crates, root: &Path, top: &str, library: &str) -> String {
    let mut text = String::new();
    for name in crates.beneath(&format!("{library}_c")) {
        let named = crates.named_by(name).join(", ");
        let place = Place {
            source: root.join("crates").join(name).join("src"),
            others: format!("use {top}::{library}::{{{named}}};\n"),
            own: format!("{top}::{library}::{name}"),
        };
        text += &format!("pub mod {name} {{\n{}}}\n", place.rust_of("lib"));
    }
    format!("#[allow(dead_code, unused_imports, unused_variables, clippy::all)]\npub mod {library} {{\n{text}}}\n")
}

/// Writes `same.rs` for these libraries. `root` leads from the package to the top of the repository; the file is to be
/// included in the module `top`.
pub fn write(libraries: &[&str], root: &str, top: &str) {
    let root = Path::new(&env::var("CARGO_MANIFEST_DIR").expect("cargo sets it")).join(root);
    let list = root.join("crates.txt");
    println!("cargo:rerun-if-changed={}", list.display());
    let crates = Crates::listed(&fs::read_to_string(list).expect("the list of crates"));
    let text: String = libraries
        .iter()
        .map(|name| library(&crates, &root, top, name))
        .collect();
    let folder = env::var("OUT_DIR").expect("cargo sets it");
    fs::write(Path::new(&folder).join("same.rs"), text).expect("the file is written");
}
