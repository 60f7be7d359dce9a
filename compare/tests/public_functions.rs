// SPDX-License-Identifier: Apache-2.0
//! What docs/STATEMENTS.md says of the public functions' contracts, and of what is assumed, is so.
//!
//! * Its tables have every public function, as an entry or as another, and every `requires` of one.
//! * The table of the other public functions has the form of each contract: equations, a record of equations, or another.
//! * Those of another form are in a list of their own.
//! * The crates that rest on axioms are the programs that use the C library.

use compare::crates;
use compare::edits::top;
use compare::points;
use compare::prose::entries_of;
use compare::public::{self, Code, Public};
use std::collections::{BTreeMap, BTreeSet};
use std::fs;
use std::path::{Path, PathBuf};

const OTHERS: &str = "The other public functions";
const NO_EQUATIONS: &str = "Contracts that are no equations";

/// How the table calls a contract that says by equations all that is returned and left.
const EQUATIONS: &str = "equations";

/// How it calls one that is in the list of the others.
const OTHER_FORM: &str = "another, below";

/// Whose definitions are the kit's, and no file of the tree: no record of ours.
const STANDARD: &str = "std";

/// The definitions that a file brings in, each with its crate and the file of its crate's specs.
type Uses = BTreeMap<String, (String, String)>;

fn text_of(path: &Path) -> String {
    fs::read_to_string(path).unwrap_or_else(|error| panic!("{}: {error}", path.display()))
}

// ---- contracts

/// The definitions of `ghost use Rattle.CRATE.specs.FILE.{NAME, ..};`.
fn uses_in(text: &str) -> Uses {
    let mut uses = Uses::new();
    for line in text.lines() {
        let Some(path) = line.trim().strip_prefix("ghost use Rattle.") else {
            continue;
        };
        let Some((place, names)) = path.split_once(".{") else {
            continue;
        };
        let Some((owner, file)) = place.split_once(".specs.") else {
            continue;
        };
        let file = file.replace('.', "/");
        for name in names.trim_end_matches("};").split(", ") {
            uses.insert(name.to_string(), (owner.to_string(), file.clone()));
        }
    }
    uses
}

/// The parts of a statement that `×` joins, outside all parentheses.
fn conjuncts(statement: &str) -> Vec<&str> {
    let mut depth = 0;
    let mut parts = vec![];
    let mut start = 0;
    for (at, letter) in statement.char_indices() {
        match letter {
            '(' => depth += 1,
            ')' => depth -= 1,
            '×' if depth == 0 => {
                parts.push(statement[start..at].trim());
                start = at + letter.len_utf8();
            }
            _ => {}
        }
    }
    parts.push(statement[start..].trim());
    parts
}

/// A statement without parentheses around it, and without the lists of bytes that it holds for whatever they are.
fn bare(statement: &str) -> &str {
    let inner = statement
        .strip_prefix('(')
        .and_then(|rest| rest.strip_suffix(')'))
        .unwrap_or(statement);
    match inner.split_once(" : List ℕ) → ") {
        Some((names, rest)) if !names.contains([':', ')']) => rest,
        _ => inner,
    }
}

fn is_equation(statement: &str) -> bool {
    statement.contains(" ≡ ") && !statement.contains('→')
}

fn is_bound(statement: &str) -> bool {
    [" ≤ ", " < "].iter().any(|sign| statement.contains(sign)) && !statement.contains('→')
}

/// Whether a record of a file of specs has fields, all of them equations.
fn is_of_equations(specs: &str, record: &str) -> bool {
    let start = format!("pub record {record} ");
    let fields: Vec<&str> = specs
        .lines()
        .skip_while(|line| !line.starts_with(&start))
        .skip_while(|line| !line.ends_with(" where"))
        .skip(1)
        .take_while(|line| line.starts_with("  pub "))
        .collect();
    !fields.is_empty() && fields.iter().all(|field| is_equation(field))
}

/// What a definition is a value of, by a line such as `RanThrough .. = list.RanThrough ..`: a crate, a file and a name.
fn general<'a>(specs: &'a str, name: &str) -> Option<(&'a str, &'a str, &'a str)> {
    let start = format!("{name} ");
    let line = specs.lines().find(|line| line.starts_with(&start))?;
    let (alias, words) = line.split_once(" = ")?.1.split_once('.')?;
    let end = format!(" as {alias}");
    let place = specs
        .lines()
        .find_map(|line| line.strip_prefix("use Rattle.")?.strip_suffix(&end))?;
    let (owner, file) = place.split_once(".specs.")?;
    Some((owner, file, words.split(' ').next()?))
}

/// The record of equations that a statement names, or whose value it names, as the documents write it.
fn record_named(statement: &str, uses: &Uses) -> Option<String> {
    let specs_of =
        |owner: &str, file: &str| text_of(&top().join(format!("crates/{owner}/specs/{file}.antt")));
    let name = statement.split(' ').next()?;
    let (owner, file) = uses.get(name)?;
    if owner == STANDARD {
        return None;
    }
    let specs = specs_of(owner, file);
    if is_of_equations(&specs, name) {
        return Some(format!("`{owner}/specs/{file}.{name}`"));
    }
    let (owner, file, record) = general(&specs, name)?;
    is_of_equations(&specs_of(owner, file), record)
        .then(|| format!("`{owner}/specs/{file}.{record}`"))
}

/// Whether a contract speaks of what is returned and of each buffer that is lent to be written.
fn speaks_of_all(function: &Public) -> bool {
    let all = function.ensures.join(" ");
    let lent = function.signature.split(": &mut ").collect::<Vec<_>>();
    let buffers = lent[..lent.len() - 1]
        .iter()
        .map(|before| before.rsplit([' ', '(']).next().unwrap());
    let words: BTreeSet<&str> = all.split([' ', '(', ')', '{', '}']).collect();
    let is_result = |word: &&str| *word == "result" || word.starts_with("result.");
    let is_returned = !function.signature.contains(" -> ") || words.iter().any(is_result);
    is_returned
        && buffers
            .into_iter()
            .all(|name| words.contains(format!("{name}.new").as_str()))
}

/// The form of a contract, as the table has it.
fn form_of(function: &Public, uses: &Uses) -> String {
    let statements = function.ensures.iter().flat_map(|clause| conjuncts(clause));
    let mut form = EQUATIONS.to_string();
    let mut is_told = false;
    for statement in statements.map(bare) {
        if let Some(record) = record_named(statement, uses) {
            form = record;
            is_told = true;
        } else if is_equation(statement) {
            is_told = true;
        } else if !is_bound(statement) {
            return OTHER_FORM.to_string();
        }
    }
    match is_told && speaks_of_all(function) {
        true => form,
        false => OTHER_FORM.to_string(),
    }
}

/// All public functions, crate by crate, each with the form of its contract.
fn contracts() -> Vec<(Public, String)> {
    let mut found = vec![];
    for code in code() {
        let uses = uses_in(&code.text);
        for function in code.public_functions() {
            let form = form_of(&function, &uses);
            found.push((function, form));
        }
    }
    found
}

// ---- the tables

/// How long a row of a table may be.
const LONGEST_ROW: usize = 200;

fn page() -> String {
    text_of(&top().join("docs/STATEMENTS.md"))
}

/// What the points below a heading of docs/STATEMENTS.md are about.
fn abouts_below(heading: &str) -> BTreeSet<String> {
    let points = points::points_of(&page());
    let below = points.iter().filter(|point| point.title == heading);
    let names = below.flat_map(|point| points::names_in(&point.about));
    names.map(str::to_string).collect()
}

/// The rows of the table in the part of docs/STATEMENTS.md below a heading, without the two that name its columns.
fn rows_below(heading: &str) -> Vec<String> {
    let text = page();
    let (_, below) = text
        .split_once(&format!("# {heading}\n"))
        .unwrap_or_else(|| panic!("docs/STATEMENTS.md has no part {heading}"));
    let part = below.split("\n#").next().unwrap();
    part.lines()
        .filter(|line| line.starts_with("| `"))
        .map(str::to_string)
        .collect()
}

/// The names in one column of such rows.
fn names_in(rows: &[String], column: usize) -> BTreeSet<String> {
    rows.iter()
        .filter_map(|row| row.split('|').nth(column))
        .flat_map(|cell| cell.split('`').skip(1).step_by(2))
        .map(str::to_string)
        .collect()
}

/// The crates of crates.txt in its order.
fn crates() -> Vec<String> {
    crates::all(&top())
        .into_iter()
        .map(|each| each.name)
        .collect()
}

/// The thin static libraries, each with the library that it hands on to C.
fn handed_on() -> BTreeMap<String, String> {
    let pair = |each: crates::Crate| Some((each.name.clone(), each.handed_on()?.to_string()));
    crates::all(&top()).into_iter().filter_map(pair).collect()
}

/// The code of all crates but the thin static libraries, whose functions are those of the libraries.
fn code() -> Vec<Code> {
    let thin = handed_on();
    let mut code = public::code();
    code.retain(|each| !thin.contains_key(&each.owner));
    code
}

/// A function's file and its own name.
fn parts_of(function: &Public) -> (&str, &str) {
    function.name.rsplit_once('.').unwrap()
}

/// Rows for functions of one file and one form, as many to a row as it holds.
fn rows_for(file: &str, names: &[&str], form: &str) -> Vec<String> {
    let row = |names: &[&str]| {
        let names: Vec<String> = names.iter().map(|name| format!("`{name}`")).collect();
        format!("| `{file}` | {} | {form} |", names.join(", "))
    };
    let mut rows = vec![];
    let mut rest = names;
    while !rest.is_empty() {
        let fits = |many: &usize| row(&rest[..*many]).chars().count() <= LONGEST_ROW;
        let many = (1..=rest.len()).rev().find(fits).unwrap_or(1);
        rows.push(row(&rest[..many]));
        rest = &rest[many..];
    }
    rows
}

/// The rows that the table of the other public functions must have: of each crate, by form, one or more for each file.
fn rows_of(contracts: &[(Public, String)]) -> Vec<String> {
    let mut rows = vec![];
    for owner in crates() {
        let of_crate = || contracts.iter().filter(|(each, _)| each.owner == owner);
        let forms: BTreeSet<&String> = of_crate().map(|(_, form)| form).collect();
        for form in forms.into_iter().rev() {
            let of_form = of_crate().filter(|(_, its)| its == form);
            let parts: Vec<(&str, &str)> = of_form.map(|(each, _)| parts_of(each)).collect();
            for of_file in parts.chunk_by(|one, next| one.0 == next.0) {
                let names: Vec<&str> = of_file.iter().map(|(_, name)| *name).collect();
                rows.extend(rows_for(of_file[0].0, &names, form));
            }
        }
    }
    rows
}

fn other_contracts() -> Vec<(Public, String)> {
    let entries = abouts_below("The entries");
    contracts()
        .into_iter()
        .filter(|(function, _)| !entries.contains(&function.name))
        .collect()
}

/// The functions that the points below a heading of docs/STATEMENTS.md are about.
fn listed_below(heading: &str) -> BTreeSet<String> {
    let mut names = abouts_below(heading);
    names.retain(|name| name.contains("/src/"));
    names
}

/// The functions in the table of the others: the file in its first column, the names in its second.
fn others_listed() -> BTreeSet<String> {
    let rows = rows_below(OTHERS);
    let functions = rows.iter().flat_map(|row| {
        let row = std::slice::from_ref(row);
        let file = names_in(row, 1).pop_first().unwrap_or_default();
        let names = names_in(row, 2).into_iter();
        names.map(move |name| format!("{file}.{name}"))
    });
    functions.collect()
}

fn public_functions() -> Vec<Public> {
    code().iter().flat_map(Code::public_functions).collect()
}

fn names_of<'a>(functions: impl Iterator<Item = &'a Public>) -> BTreeSet<String> {
    functions.map(|function| function.name.clone()).collect()
}

#[test]
fn every_public_function_is_listed_once() {
    let entries = listed_below("The entries");
    let others = others_listed();
    let both: Vec<&String> = entries.intersection(&others).collect();
    assert!(both.is_empty(), "listed twice: {both:?}");
    let listed: BTreeSet<String> = entries.union(&others).cloned().collect();
    let public = names_of(public_functions().iter());
    let unlisted: Vec<&String> = public.difference(&listed).collect();
    assert!(unlisted.is_empty(), "public and not listed: {unlisted:?}");
    let gone: Vec<&String> = listed.difference(&public).collect();
    assert!(gone.is_empty(), "listed and not public: {gone:?}");
}

/// A public function's head behind its name: parameters, result and clauses; and what is exported.
fn heads_of(code: &[Code], owner: &str) -> BTreeMap<String, String> {
    let texts = code.iter().filter(|each| each.owner == owner);
    let mut heads = BTreeMap::new();
    for each in texts {
        for part in each
            .text
            .split("#[unsafe(no_mangle)]\npub extern \"C\" fn ")
            .skip(1)
        {
            let (head, _) = part.split_once("\n{\n").unwrap();
            let (name, rest) = head.split_once('(').unwrap();
            heads.insert(
                name.to_string(),
                rest.split_whitespace().collect::<Vec<_>>().join(" "),
            );
        }
    }
    heads
}

#[test]
fn what_a_thin_static_library_exports_is_the_librarys_by_the_same_clauses() {
    let code = public::code();
    let thin = handed_on();
    assert!(thin.len() > 5, "{} are few", thin.len());
    for (name, library) in thin {
        let (exported, own) = (heads_of(&code, &name), heads_of(&code, &library));
        assert!(!own.is_empty(), "{library} exports nothing");
        assert_eq!(exported, own, "{name}");
        let texts = code.iter().filter(|each| each.owner == name);
        let text: String = texts.map(|each| each.text.as_str()).collect();
        for function in own.keys() {
            let calls = text.matches(&format!("::{function}(")).count();
            assert_eq!(
                calls, 1,
                "{name}: {function} is to be one call of {library}'s"
            );
        }
    }
}

#[test]
fn every_requires_of_a_public_function_is_explained_and_no_entry_has_one() {
    let functions = public_functions();
    let asking = names_of(functions.iter().filter(|function| function.asks));
    assert_eq!(asking, listed_below("What a `requires` asks"));
    let entries = listed_below("The entries");
    let at_entries: Vec<&String> = asking.intersection(&entries).collect();
    assert!(at_entries.is_empty(), "{at_entries:?}");
}

#[test]
fn public_functions_are_told_from_others() {
    let text = "fn a() {}\npub(crate) fn b()\n{\npub fn c<'a>(\n    x: &'a [u8],\n) -> u8\n    requires { p }\n{\n}\n\
                impl X {\n    pub fn d()\n    {\n    }\n    fn e()\n        requires { p }\n";
    let code = Code {
        owner: "x".to_string(),
        file: "y".to_string(),
        text: text.to_string(),
    };
    let found = code.public_functions();
    let told: Vec<(&str, bool)> = found
        .iter()
        .map(|each| (each.name.as_str(), each.asks))
        .collect();
    assert_eq!(told, [("x/src/y.c", true), ("x/src/y.d", false)]);
}

/// What a trait declares and what a type has of a trait is public too, with its clauses.
#[test]
fn functions_of_traits_are_public() {
    let text = "// A part.\nuse a::serve::Desk;\n\npub trait Part: Copy {\n    fn a(self)\n        requires { p }\n        ensures { q };\n\n    \
                fn b(self) -> u8;\n}\n\nfn c() {\n}\n\nimpl From<A> for B {\n    ghost from_gives = { λ a b. b ≡ f a.b b };\n\n    \
                #[tactic(auto)]\n    fn from(a: A) -> B {\n        x(B { c: 1 })\n    }\n}\n\nimpl TryFrom<A> for u8 {\n    \
                ghost try_from_gives = { Given };\n\n    fn try_from(a: A) -> u8 {\n    }\n}\n\nimpl Desk for B {\n    \
                fn load(self) -> u8\n        requires { p }\n    {\n    }\n}\n\nstruct Own;\n\nimpl fmt::Display for Own {\n    \
                fn fmt(&self) {\n    }\n}\n\npub fn d<F: Fn(u8) -> bool>(test: F) -> bool\n    ensures {\n        result ≡ g\n    }\n{\n}\n";
    let code = Code {
        owner: "x".to_string(),
        file: "y".to_string(),
        text: text.to_string(),
    };
    let found = code.public_functions();
    let told: Vec<(&str, bool, &[String])> = found
        .iter()
        .map(|each| (each.name.as_str(), each.asks, &each.ensures[..]))
        .collect();
    let of = |clauses: &[&str]| -> Vec<String> {
        clauses.iter().map(|clause| clause.to_string()).collect()
    };
    assert_eq!(
        told,
        [
            ("x/src/y.a", true, &of(&["q"])[..]),
            ("x/src/y.b", false, &[]),
            ("x/src/y.B::from", false, &of(&["result ≡ f a.b result"])),
            ("x/src/y.u8::try_from", false, &of(&["Given a result"])),
            ("x/src/y.load", true, &[]),
            ("x/src/y.d", false, &of(&["result ≡ g"])),
        ]
    );
}

#[test]
fn the_form_of_every_contract_is_listed() {
    let must_be = rows_of(&other_contracts());
    assert!(must_be.len() > 40, "{} rows are few", must_be.len());
    assert!(
        rows_below(OTHERS) == must_be,
        "docs/STATEMENTS.md, {OTHERS}: the rows must be\n{}",
        must_be.join("\n")
    );
}

#[test]
fn every_contract_that_is_no_equation_is_explained() {
    let without: BTreeSet<String> = other_contracts()
        .into_iter()
        .filter(|(_, form)| form == OTHER_FORM)
        .map(|(function, _)| function.name)
        .collect();
    assert_eq!(listed_below(NO_EQUATIONS), without);
}

#[test]
fn forms_of_contracts_are_told() {
    let uses = uses_in("ghost use Rattle.wire_clocks.specs.Code.Laid.{Laid};\nghost use Rattle.calendar_days.specs.Code.Places.{StandsIn};\n");
    let form = |signature: &str, ensures: &str| {
        let head = format!("pub fn f({signature} ensures {{ {ensures} }}");
        form_of(&public::public_of("x", "y", &head), &uses)
    };
    let laid = "Laid b.old 0 [] result b.new";
    for (signature, ensures, must_be) in [
        ("x: u8) -> u8", "result ≡ x + 1", EQUATIONS),
        ("x: u8) -> u8", "(result ≡ x) × (result ≤ 7)", EQUATIONS),
        ("x: u8) -> u8", "((m : List ℕ) → result ≡ g m)", EQUATIONS),
        ("b: &mut [u8])", "b.new ≡ []", EQUATIONS),
        (
            "b: &mut [u8]) -> u8",
            laid,
            "`wire_clocks/specs/Code/Laid.Laid`",
        ),
        ("b: &mut [u8]) -> u8", "result ≡ 1", OTHER_FORM),
        ("b: &mut [u8]) -> u8", "b.new ≡ []", OTHER_FORM),
        ("x: u8) -> u8", "result ≤ 7", OTHER_FORM),
        (
            "x: u8) -> u8",
            "((s : State) → g s → result ≡ h s)",
            OTHER_FORM,
        ),
        ("x: u8) -> Place", "StandsIn x result", OTHER_FORM),
    ] {
        assert_eq!(form(signature, ensures), must_be, "{signature}: {ensures}");
    }
}

// ---- axioms

const ASSUMED: &str = "What is assumed";

/// Whether a file of a crate assumes something by itself: an axiom, or the contract of a function of C.
fn assumes(path: &Path) -> bool {
    let is_assumption =
        |line: &str| line.starts_with("axiom ") || line.starts_with("extern \"C\" {");
    text_of(path).lines().map(str::trim).any(is_assumption)
}

/// All files below a folder.
fn files_below(folder: &Path) -> Vec<PathBuf> {
    let (folders, mut files): (Vec<PathBuf>, Vec<PathBuf>) = entries_of(folder)
        .into_iter()
        .partition(|path| path.is_dir());
    files.extend(folders.iter().flat_map(|folder| files_below(folder)));
    files
}

#[test]
fn the_programs_with_axioms_are_the_crates_that_use_the_c_library() {
    let is_program = |owner: &String| {
        top()
            .join("crates")
            .join(owner)
            .join("src/main.rt")
            .is_file()
    };
    let programs: BTreeSet<String> = crates().into_iter().filter(is_program).collect();
    assert_eq!(names_in(&rows_below(ASSUMED), 1), programs);
}

#[test]
fn no_crate_declares_an_axiom() {
    let folders = crates().into_iter().flat_map(|owner| {
        ["src", "specs", "proofs"].map(|part| top().join("crates").join(&owner).join(part))
    });
    let files: Vec<PathBuf> = folders.flat_map(|folder| files_below(&folder)).collect();
    assert!(files.len() > 1000, "{} files are few", files.len());
    let assuming: Vec<&PathBuf> = files.iter().filter(|path| assumes(path)).collect();
    assert!(assuming.is_empty(), "{assuming:?}");
}

/// One axiom for each function of the C library that a program calls; std calls it where the program reads, prints or keeps
/// something on the heap.
#[test]
fn the_axioms_are_those_of_the_functions_called() {
    for row in rows_below(ASSUMED) {
        let number = row.split('|').nth(2).unwrap().trim().to_string();
        let called = names_in(&[row.clone()], 3);
        assert_eq!(number, called.len().to_string(), "{row}");
        for owner in names_in(&[row], 1) {
            let program = text_of(&top().join("crates").join(&owner).join("src/main.rt"));
            for (handles, function) in [
                (["impl Read", "rt.reader()"], "read"),
                (["impl Print", "println!(rt;"], "write"),
                (["rt.alloc()", "alloc: Global"], "rattle_alloc"),
            ] {
                assert_eq!(
                    handles.iter().any(|handle| program.contains(handle)),
                    called.contains(function),
                    "{owner}"
                );
            }
        }
    }
}
