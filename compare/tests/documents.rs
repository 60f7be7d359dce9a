// SPDX-License-Identifier: Apache-2.0
//! What the documents say is so.
//!
//! * Every file that a page or a comment names exists; and every definition, function, theorem, edit and family of lists that
//!   a page names.
//! * docs/EDITS.md has every edit, with the rule that it breaks, and docs/TWINS.md every twin.
//! * D43 of docs/DECISIONS.md has every public enum, and the table of docs/READING.md every crate.
//! * Every decision that is named is written down, and no row of a table is too long to be read.
//! * What stands between quotation marks is in the papers (D219).

use compare::crates;
use compare::edits::{self, top};
use compare::points;
use compare::prose::{self, entries_of, Paragraph};
use compare::quotations::{self, Papers};
use std::collections::BTreeSet;
use std::fs;
use std::path::{Path, PathBuf};

/// The endings by which the name of a file is told from other words.
const FILES: [&str; 10] = ["antt", "bus", "c", "h", "md", "mjs", "py", "rs", "rt", "sh"];

/// Files that the guide has its reader write.
const OF_THE_READER: [&str; 2] = ["first.c", "lamp.c"];

/// Files that are the C compiler's.
const OF_C: [&str; 4] = ["stddef.h", "stdint.h", "stdio.h", "stdlib.h"];

fn text_of(path: &Path) -> Option<String> {
    fs::read_to_string(path).ok()
}

/// Whether a line of an antt file defines a name: `name :`, `record name`, `data name`, `ruleset name`.
fn defines(text: &str, name: &str) -> bool {
    text.lines().any(|line| {
        let words: Vec<&str> = line
            .split_whitespace()
            .filter(|word| !["pub", "abbrev", "unfoldable"].contains(word))
            .collect();
        match words[..] {
            [first, ":", ..] => first == name,
            ["record" | "data" | "ruleset", second, ..] => second == name,
            _ => false,
        }
    })
}

/// Whether a Rattle file has a function of a name, with or without lifetimes.
fn has_function(text: &str, name: &str) -> bool {
    ["(", "<"]
        .iter()
        .any(|next| text.contains(&format!("fn {name}{next}")))
}

/// Whether the second program has a family of lists.
fn is_family(family: &str) -> bool {
    let families = text_of(&top().join("second/src/generate/mod.rs")).unwrap();
    families.contains(&format!("| {family} |"))
}

fn is_edit(folder: PathBuf, label: &str) -> bool {
    folder.join(format!("{label}.edit")).is_file()
}

/// Whether a Rattle file declares a type of a name, or has something of a trait for one: `Verdict` of `Verdict::fmt`.
fn has_type(text: &str, name: &str) -> bool {
    let starts = ["pub struct ", "pub enum "].map(|kind| format!("{kind}{name}"));
    let of_trait = format!(" for {name} {{");
    text.lines().any(|line| {
        let declared = starts
            .iter()
            .find_map(|start| line.strip_prefix(start.as_str()));
        declared.is_some_and(|rest| rest.starts_with([' ', '<', ';']))
            || (line.starts_with("impl") && line.ends_with(&of_trait))
    })
}

/// Whether a crate has a place such as `bits` or `bits.pushed` in its code.
fn is_code(source: &Path, place: &str) -> bool {
    let (file, function) = place.split_once('.').unwrap_or((place, ""));
    let text = text_of(&source.join(format!("{file}.rt")));
    text.is_some_and(|text| {
        function.is_empty() || has_function(&text, function) || has_type(&text, function)
    })
}

/// Whether a folder of specs or proofs has a place such as `Clock` or `Clock.kept`.
fn is_stated(folder: &Path, place: &str) -> bool {
    let (file, definition) = place.split_once('.').unwrap_or((place, ""));
    let text = text_of(&folder.join(format!("{file}.antt")));
    text.is_some_and(|text| definition.is_empty() || defines(&text, definition))
}

/// Whether a path leads to a file or folder: from the top, from the crates, or from a folder around the file that names it.
fn leads_somewhere(path: &str, named_in: &Path) -> bool {
    let around = named_in.ancestors().skip(1).map(|it| top().join(it));
    let from = around.chain([top().join("crates")]);
    from.into_iter().any(|folder| folder.join(path).exists())
}

/// Whether a name is of no file of the tree: it stands for many, by a star, two points or a word in capitals; or it is made.
fn is_passed_over(name: &str) -> bool {
    let is_made = prose::NOT_OF_THE_TREE.contains(&name.split('/').next().unwrap());
    let is_many = |part: &str| {
        let is_capitals = part.chars().all(|letter| letter.is_ascii_uppercase());
        part.contains('*') || part == ".." || part.starts_with("FILE.") || is_capitals
    };
    let is_others = OF_C.contains(&name) || OF_THE_READER.contains(&name);
    is_made || is_others || name.split('/').any(is_many)
}

/// Whether there is what a name such as `wire/specs/Clock.kept` or `docs/IMAGE.md` says. A word whose first part is no
/// folder of the tree is no name, and is let pass.
fn is_there(name: &str, named_in: &Path) -> bool {
    let parts: Vec<&str> = name.split('/').collect();
    let crates = top().join("crates");
    leads_somewhere(name, named_in)
        || match parts[..] {
            ["second", family] => is_family(family),
            ["twins", label] => top().join("twins").join(format!("{label}.twin")).is_file(),
            ["edits", owner, label] => is_edit(top().join("edits").join(owner), label),
            [owner, "must-fail", label] => is_edit(crates.join(owner).join("must-fail"), label),
            [owner, "src", place] => is_code(&crates.join(owner).join("src"), place),
            [owner, folder @ ("specs" | "proofs"), ref inner @ .., place] => {
                let folder = crates.join(owner).join(folder);
                is_stated(&folder.join(inner.join("/")), place)
            }
            [first, ..] => !top().join(first).is_dir(),
            [] => true,
        }
}

fn is_file_name(word: &str) -> bool {
    FILES.contains(&prose::ending_of(Path::new(word)))
}

/// The words of a line that may be names, by a `/` in them or by their endings.
fn names_in(line: &str) -> Vec<&str> {
    let is_between = |letter: char| !(letter.is_alphanumeric() || "_-./*".contains(letter));
    let may_be_name = |word: &&str| word.contains('/') || is_file_name(word);
    line.split(is_between)
        .map(|word| word.trim_end_matches(['.', '-', '/', '*']))
        .filter(|word| !word.starts_with(['.', '/', '*']))
        .filter(may_be_name)
        .collect()
}

/// What people read in each line of a file, programs in Python and JavaScript too, whose strings are no quotations.
fn lines_of(file: &Path, text: &str) -> Vec<String> {
    match prose::ending_of(file) {
        "py" | "toml" => prose::lines_of(Path::new("as.sh"), text),
        "mjs" => prose::lines_of(Path::new("as.c"), text),
        "txt" if file.starts_with("crates.txt") => prose::lines_of(Path::new("as.sh"), text),
        _ => prose::lines_of(file, text),
    }
}

/// What is named in a file and is not there. A file may be named by the end of its path.
fn faults_in(file: &Path, files: &[PathBuf]) -> Vec<String> {
    let text = text_of(&top().join(file)).unwrap_or_default();
    let is_known = |name: &str| match is_file_name(name) {
        _ if is_passed_over(name) => true,
        true => files.iter().any(|file| file.ends_with(name)),
        false => is_there(name, file),
    };
    let mut faults = vec![];
    for (number, line) in (1..).zip(lines_of(file, &text)) {
        let gone = names_in(&line).into_iter().filter(|name| !is_known(name));
        let fault = |name| format!("{}:{number}: {name} is not there", file.display());
        faults.extend(gone.map(fault));
    }
    faults
}

/// A name and the file that it is said to be in: `Proved: NAME, FILE`, or `NAME in FILE` with the name in code marks.
fn placed<'a>(words: &[&'a str]) -> Option<(&'a str, &'a str)> {
    let [first, second, file] = *words else {
        return None;
    };
    let name = match second {
        "in" => first.strip_prefix('`')?.strip_suffix('`')?,
        _ if first.ends_with(':') => second.strip_suffix(',')?,
        _ => return None,
    };
    Some((name, file.trim_matches(['`', '.', ',', ';', ':', ')'])))
}

/// Whether a file of the crates has a name in it.
fn has_name(file: &str, name: &str) -> bool {
    let text = text_of(&top().join(file)).unwrap_or_default();
    match prose::ending_of(Path::new(file)) {
        _ if !file.starts_with("crates/") => true,
        "antt" => defines(&text, name),
        "rt" => has_function(&text, name),
        _ => true,
    }
}

/// All files but the notes of the landings, the archive and the page of the port, which name what there was on their day.
fn read_files() -> Vec<PathBuf> {
    let files = prose::files_of(&top());
    let is_of_its_day = |file: &PathBuf| {
        file.ends_with("LANDINGS.md")
            || file.starts_with("docs/archive")
            || prose::is_of_the_port(file)
    };
    files
        .into_iter()
        .filter(|file| !is_of_its_day(file))
        .collect()
}

#[test]
fn everything_that_is_named_exists() {
    let files = prose::files_of(&top());
    let read = read_files();
    let faults: Vec<String> = read
        .iter()
        .flat_map(|file| faults_in(file, &files))
        .collect();
    assert!(faults.is_empty(), "{}", faults.join("\n"));
}

/// The headers are the manual, and what they and the pages name is looked for as what the crates name is.
#[test]
fn headers_pages_firmware_and_packages_are_read() {
    let read = read_files();
    for (folder, ending) in [
        ("include", "h"),
        ("firmware", "c"),
        ("firmware", "h"),
        ("docs", "md"),
        ("python", "py"),
        ("web", "mjs"),
        ("rust", "rs"),
        ("tools", "sh"),
        ("", "md"),
    ] {
        let is_one = |file: &&PathBuf| file.starts_with(folder) && prose::ending_of(file) == ending;
        let texts = read.iter().filter(is_one).map(|file| {
            let text = text_of(&top().join(file)).unwrap();
            lines_of(file, &text).concat()
        });
        assert!(
            texts.into_iter().any(|text| !text.is_empty()),
            "{folder}: no {ending}"
        );
    }
    let header = PathBuf::from("include/fm3130.h");
    let text = text_of(&top().join(&header)).unwrap();
    let wrong = text.replacen("docs/IMAGE.md", "docs/NONE.md", 1);
    assert!(text != wrong, "the header does not name docs/IMAGE.md");
    let lines = lines_of(&header, &wrong);
    let is_named = |name: &str| lines.iter().any(|line| names_in(line).contains(&name));
    assert!(is_named("docs/NONE.md"));
}

/// What begins the names of the C interface.
const OF_THE_INTERFACE: [&str; 6] = [
    "fm3130_", "fm31_", "fm3164_", "fm31256_", "FM3130_", "FM31_",
];

/// Names that begin so and are none of it: what tests in Python are given, a definition of specs, and a variable of the environment.
const NOT_OF_C: [&str; 5] = [
    "fm3130_as_smbus2",
    "fm3130_bus",
    "fm3130_device",
    "fm3130_on",
    "FM3130_LIBRARY",
];

fn words_of(text: &str) -> Vec<&str> {
    let is_part = |letter: char| letter.is_alphanumeric() || letter == '_';
    text.split(|letter| !is_part(letter)).collect()
}

/// The words of a header outside its comments.
fn declared(header: &str) -> BTreeSet<String> {
    let code = header
        .split("/*")
        .map(|part| part.split_once("*/").map_or(part, |(_, code)| code));
    let words = code.flat_map(words_of);
    words.map(str::to_string).collect()
}

#[test]
fn names_of_the_c_interface_are_declared() {
    let headers = ["include/fm3130.h", "include/fm31.h"];
    let texts = headers.map(|header| text_of(&top().join(header)).unwrap());
    let declared: BTreeSet<String> = texts.iter().flat_map(|text| declared(text)).collect();
    assert!(declared.contains("fm3130_run") && !declared.contains("Proved"));
    let is_page = |file: &&PathBuf| {
        let is_manual = ["include", "firmware"]
            .iter()
            .any(|it| file.starts_with(it));
        is_manual || prose::ending_of(file) == "md"
    };
    let mut faults = vec![];
    for file in read_files().iter().filter(is_page) {
        let text = text_of(&top().join(file)).unwrap_or_default();
        let of_interface = |word: &&str| {
            let longer = |start: &&str| word.len() > start.len() && word.starts_with(*start);
            OF_THE_INTERFACE.iter().any(longer)
        };
        let named = words_of(&text).into_iter().filter(of_interface);
        let is_crate = |word: &str| top().join("crates").join(word).is_dir();
        let is_known = |word: &str| declared.contains(word) || NOT_OF_C.contains(&word);
        let named = named.filter(|word| !is_known(word) && !is_crate(word));
        faults.extend(named.map(|word| format!("{}: {word}", file.display())));
    }
    assert!(faults.is_empty(), "{}", faults.join("\n"));
}

#[test]
fn what_is_said_to_be_in_a_file_is_there() {
    let mut faults = vec![];
    for file in read_files() {
        let text = text_of(&top().join(&file)).unwrap_or_default();
        for paragraph in prose::paragraphs(&file, &text) {
            let words: Vec<&str> = paragraph.text.split_whitespace().collect();
            let placed = words.windows(3).filter_map(placed);
            let gone = placed.filter(|(name, file)| !has_name(file, name));
            let fault = |(name, file)| format!("{}: {name} is not in {file}", paragraph.place);
            faults.extend(gone.map(fault));
        }
    }
    assert!(faults.is_empty(), "{}", faults.join("\n"));
}

/// Which enums are answers: D43 of docs/DECISIONS.md, up to the next part.
fn answers() -> String {
    let text = text_of(&top().join("docs/DECISIONS.md")).unwrap();
    let (_, part) = text
        .split_once("\n### D43. ")
        .expect("docs/DECISIONS.md has no D43");
    part[..part.find("\n## ").unwrap_or(part.len())].to_string()
}

/// A merge can leave an old point beside the new one.
#[test]
fn each_form_and_each_enum_has_one_point() {
    let text = text_of(&top().join("docs/DECISIONS.md")).unwrap();
    let points = points::points_of(&text);
    let of = |label: &str| {
        let has = |point: &&points::Point| point.lines.contains_key(label);
        let abouts: Vec<&str> = points
            .iter()
            .filter(has)
            .map(|it| it.about.as_str())
            .collect();
        let different: BTreeSet<&str> = abouts.iter().copied().collect();
        assert_eq!(abouts.len(), different.len(), "{abouts:?}");
        abouts.len()
    };
    let numbers = [of("form"), of("case by case")];
    assert_eq!(numbers[0], 9, "01 names nine forms");
    assert!(numbers[1] > 9, "{} enums are few", numbers[1]);
}

/// The forms of D35 and the enums of D43 were rows of tables once; as points they are as many, and no two are of one thing.
#[test]
fn each_form_and_each_enum_has_one_row() {
    let text = text_of(&top().join("docs/DECISIONS.md")).unwrap();
    let is_one = |point: &&points::Point| {
        ["form", "case by case"]
            .iter()
            .any(|label| point.lines.contains_key(*label))
    };
    let points = points::points_of(&text);
    let mut seen = BTreeSet::new();
    for point in points.iter().filter(is_one) {
        let first = point.about.as_str();
        assert!(seen.insert(first), "two points begin with {first}");
    }
    assert!(seen.len() > 18, "{} points are few", seen.len());
}

#[test]
fn every_enum_is_said_to_be_an_answer_or_none() {
    let answers = answers();
    let named: BTreeSet<&str> = answers.split('`').skip(1).step_by(2).collect();
    let mut enums = 0;
    for owner in entries_of(&top().join("crates")) {
        for file in entries_of(&owner.join("src")) {
            let text = text_of(&file).unwrap();
            for line in text
                .lines()
                .filter_map(|line| line.strip_prefix("pub enum "))
            {
                let name = line.trim_end_matches(" {");
                assert!(
                    named.contains(name),
                    "D43 lacks {name} of {}",
                    file.display()
                );
                enums += 1;
            }
        }
    }
    assert!(enums > 15, "{enums} enums are few");
}

#[test]
fn every_crate_stands_in_the_table_of_crates() {
    let page = text_of(&top().join("docs/READING.md")).unwrap();
    let (_, part) = page.split_once("\n## The crates\n").unwrap();
    let rows: Vec<&str> = part.lines().filter(|line| line.starts_with("| ")).collect();
    let crates = crates::all(&top());
    assert!(crates.len() > 60, "{} crates are few", crates.len());
    for name in crates.iter().map(|each| &each.name) {
        let is_named = rows.iter().any(|row| row.contains(&format!("`{name}`")));
        assert!(is_named, "docs/READING.md: The crates: {name} is missing");
    }
}

/// How long a row of a table may be.
const LONGEST_ROW: usize = 200;

/// The rows of a page that are too long to be read.
fn long_rows(page: &str) -> Vec<(usize, usize)> {
    let rows = (1..)
        .zip(page.lines())
        .filter(|(_, line)| line.trim_start().starts_with('|'));
    let lengths = rows.map(|(number, line)| (number, line.chars().count()));
    lengths
        .filter(|(_, length)| *length > LONGEST_ROW)
        .collect()
}

#[test]
fn no_row_of_a_table_is_too_long() {
    let mut pages = 0;
    for file in prose::files_of(&top()) {
        let is_apart = file.starts_with("docs/archive") || prose::is_of_the_port(&file);
        if prose::ending_of(&file) != "md" || is_apart {
            continue;
        }
        let rows = long_rows(&text_of(&top().join(&file)).unwrap());
        assert!(rows.is_empty(), "{}: {rows:?}", file.display());
        pages += 1;
    }
    assert!(pages > 18, "{pages} pages are few");
    let row = format!("|{}|", "x".repeat(LONGEST_ROW - 2));
    assert_eq!(
        long_rows(&format!("{row}\n  {row}x")),
        [(2, LONGEST_ROW + 3)]
    );
}

/// The numbers of decisions in a line: `D` and a number without a further letter, so that D0h and D1h are none.
fn decisions_in(line: &str) -> Vec<u32> {
    let is_part = |letter: char| letter.is_alphanumeric() || letter == '_';
    let words = line.split(|letter| !is_part(letter));
    let numbers = words.filter_map(|word| word.strip_prefix('D')?.parse().ok());
    numbers.filter(|number| *number > 0).collect()
}

#[test]
fn every_decision_that_is_named_is_written_down() {
    let pages = ["docs/DECISIONS.md", "docs/archive/DECISIONS.md"];
    let written: BTreeSet<u32> = pages
        .iter()
        .flat_map(|page| {
            let text = text_of(&top().join(page)).unwrap();
            let titles: Vec<String> = text
                .lines()
                .filter(|line| line.starts_with("##"))
                .filter_map(|line| Some(line.split_once(". ")?.0.to_string()))
                .collect();
            titles.into_iter().flat_map(|title| decisions_in(&title))
        })
        .collect();
    assert!(written.len() > 200, "{} decisions are few", written.len());
    let mut faults = vec![];
    for file in read_files() {
        let text = text_of(&top().join(&file)).unwrap_or_default();
        for (number, line) in (1..).zip(prose::lines_of(&file, &text)) {
            let named = decisions_in(&line).into_iter();
            let gone = named.filter(|decision| !written.contains(decision));
            faults.extend(gone.map(|decision| format!("{}:{number}: D{decision}", file.display())));
        }
    }
    assert!(faults.is_empty(), "{}", faults.join("\n"));
    assert_eq!(
        decisions_in("(D7, D12 to D15) D0h D1h D0 AD3 D3x"),
        [7, 12, 15]
    );
}

#[test]
fn a_name_that_is_gone_is_noticed() {
    for name in [
        "wire/specs/Clock.kep",
        "wire/specs/Clok",
        "bus/specs/Code/Outcome.Redy",
        "wire/src/bits.pus",
        "c_judge/src/lib.Verdic",
        "wire/must-fail/none",
        "edits/wire/none",
        "twins/none",
        "second/none",
        "fm3130_list/proofs/Runs.none",
        "docs/NONE.md",
        "crates/wire/specs/Clok.antt",
    ] {
        assert!(!is_there(name, Path::new("README.md")), "{name}");
    }
}

#[test]
fn names_are_told_from_other_words() {
    let line = "See `wire/specs/Clock.kept`, docs/IMAGE.md and [the guide](GUIDE.md); read/write in main.rs.";
    let names = names_in(line);
    let told = [
        "wire/specs/Clock.kept",
        "docs/IMAGE.md",
        "GUIDE.md",
        "read/write",
        "main.rs",
    ];
    assert_eq!(names, told);
    assert!(is_there("read/write", Path::new("README.md")));
}

#[test]
fn every_edit_is_listed_with_its_rule() {
    let page = text_of(&top().join("docs/EDITS.md")).unwrap();
    let listed: Vec<(String, String)> = edits::rows(&page)
        .into_iter()
        .map(|row| (row.edit, row.rule))
        .collect();
    let there: Vec<(String, String)> = edits::all(&top())
        .iter()
        .map(|edit| (edit.path(), edit.rule.clone()))
        .collect();
    assert!(there.len() > 70, "{} edits are few", there.len());
    assert_eq!(listed, there, "`rt must-fail`, then `make edits`");
}

#[test]
fn every_twin_is_listed() {
    let page = text_of(&top().join("docs/TWINS.md")).unwrap();
    let listed: BTreeSet<&str> = page
        .lines()
        .filter_map(|line| line.strip_prefix("- `twins/")?.split('`').next())
        .collect();
    let files = fs::read_dir(top().join("twins")).unwrap();
    let there: Vec<PathBuf> = files.map(|file| file.unwrap().path()).collect();
    let there: BTreeSet<&str> = there
        .iter()
        .map(|path| path.file_stem().unwrap().to_str().unwrap())
        .collect();
    assert!(there.len() > 50, "{} twins are few", there.len());
    assert_eq!(listed, there, "`tools/twins.py --page`");
}

/// The least and the greatest time of a call in docs/SPEED.md's table of catching up, in nanoseconds.
fn times_of_catching_up() -> (u64, u64) {
    let page = text_of(&top().join("docs/SPEED.md")).unwrap();
    let (_, table) = page.split_once("| alarm | proved, ns a call |").unwrap();
    let rows = table.split("\n\n").next().unwrap().lines().skip(2);
    let times = rows.map(|row| row.split('|').nth(2).unwrap().trim().parse().unwrap());
    let times: BTreeSet<u64> = times.collect();
    (*times.first().unwrap(), *times.last().unwrap())
}

#[test]
fn the_time_of_catching_up_is_that_of_the_table() {
    let (least, most) = times_of_catching_up();
    let told = format!("{least} to {most} ns");
    for file in [
        "include/fm3130.h",
        "docs/GUIDE.md",
        "rust/fm3130/src/device.rs",
    ] {
        let text = text_of(&top().join(file)).unwrap();
        assert!(text.contains(&told), "{file} does not say {told}");
    }
}

#[test]
fn what_people_read_is_told_from_code() {
    for (file, text) in [
        (
            "a.md",
            "One\ntwo.\n\n```\ncode\n```\n\n    code\n\nThree\n    four.\n",
        ),
        ("a.md", "One two.\n\n    code\n\nThree four.\n"),
        (
            "a.antt",
            "-- One\n-- two.\ncode = code\ncode -- Three four.\n",
        ),
        (
            "a.h",
            "/* One\n * two. */\ncode;\ncode; /* Three four. */\n",
        ),
        ("a.rs", "//! One\n//! two.\n\"code\"\n    /// Three four.\n"),
        ("a.rt", "// One two.\ncode\n    // Three\n    // four.\n"),
        ("a.sh", "# One two.\n${code#code}\n# Three four.\n"),
    ] {
        let read = prose::paragraphs(Path::new(file), text);
        let read: Vec<&str> = read.iter().map(|it| it.text.as_str()).collect();
        assert_eq!(read, ["One two.", "Three four."], "{file}: {text}");
    }
}

/// A paragraph of a page.
fn paragraph(text: &str) -> Paragraph {
    let page = Path::new("page.md");
    prose::paragraphs(page, text).remove(0)
}

/// Whether the papers that say these words have the quotations of a text.
fn quotes_them(text: &str) -> bool {
    let said = "One byte an event. Bit 0 is the line: for a Clock,\nlow if the master or the device pulls it low.";
    let papers = Papers::of(&[said]);
    let quotations = quotations::quotations_in(&paragraph(text)).unwrap();
    quotations.iter().all(|quotation| papers.have(quotation))
}

#[test]
fn quotations_are_the_words_of_the_papers() {
    for right in [
        "01: \"Bit 0 is the line\"; \"low if the master\".",
        "01: \"Bit 0\nis the line: for a Clock, low if\".",
        "\"One byte .. is the line .. pulls it low.\"",
        "\"bit 0\" and \"For a Clock\", but `\"code\"` is none",
    ] {
        assert!(quotes_them(right), "{right}");
    }
    for wrong in [
        "01: \"Bit 0 is the line, read at this moment\".",
        "\"is the line .. One byte\"",
        "\"it is the line\"",
        "\"the lin\"",
        "\"the Line\"",
        "\" .. \"",
    ] {
        assert!(!quotes_them(wrong), "{wrong}");
    }
    let unpaired = quotations::quotations_in(&paragraph("a mark \" alone"));
    assert!(unpaired.is_err());
}

/// The papers are not in the tree. Where they are not at hand either, the list of sums stands for them.
#[test]
fn every_quotation_is_in_a_paper() {
    let (quotations, mut faults) = quotations::all(&top());
    assert!(quotations.len() > 1000, "{} are few", quotations.len());
    if let Some(papers) = Papers::in_folder(&top().join("../shared")) {
        faults.extend(papers.faults(&quotations));
    }
    let list = text_of(&top().join(quotations::LIST)).unwrap();
    faults.extend(quotations::unlisted(&list, &quotations));
    assert!(faults.is_empty(), "{}", faults.join("\n"));
    let is_up_to_date = list == quotations::list_of(&quotations);
    assert!(
        is_up_to_date,
        "`make quotations` writes {}",
        quotations::LIST
    );
}
