//! The documents against the repository: every link leads somewhere, every name stands in the file that is said to have it,
//! and every entry in the archive's header; every public function is among the promises of its crate, has a contract, and has no
//! condition on its caller; those that give an end are among those that are said to keep its ranges; and a frame is written
//! where the caller wants it, and nowhere before.

mod sources;

use sources::{repository, text};
use std::collections::BTreeSet;
use std::fs;
use std::path::{Path, PathBuf};

/// The files below a folder with an extension, but for what the prover leaves in the `out` of a crate.
fn files(folder: &Path, extension: &str) -> Vec<PathBuf> {
    let mut found = Vec::new();
    for entry in fs::read_dir(folder).expect("a folder can be listed") {
        let path = entry.expect("an entry can be read").path();
        if path.is_dir() {
            if !(path.ends_with("out") && folder.join("src").is_dir()) {
                found.extend(files(&path, extension));
            }
        } else if path.extension().is_some_and(|e| e == extension) {
            found.push(path);
        }
    }
    found
}

fn documents() -> Vec<PathBuf> {
    let mut all = files(&repository().join("docs"), "md");
    all.push(repository().join("README.md"));
    all
}

/// The targets of a text's links, each with the text before it.
fn links(text: &str) -> Vec<(&str, &str)> {
    let mut found = Vec::new();
    let mut from = 0;
    while let Some(at) = text[from..].find("](").map(|n| from + n) {
        let end = at + text[at..].find(')').expect("a link is closed");
        found.push((&text[..at], &text[at + 2..end]));
        from = end;
    }
    found
}

/// The names that are said to stand in a linked file: those in backquotes right before `in [`, joined by commas or `and`.
fn names_before(before: &str) -> Vec<&str> {
    let Some(open) = before.rfind('[') else {
        return Vec::new();
    };
    let mut names = Vec::new();
    let mut rest = before[..open].strip_suffix(" in ").unwrap_or("");
    while let Some(inner) = rest.strip_suffix('`') {
        let Some(start) = inner.rfind('`') else { break };
        names.push(&inner[start + 1..]);
        rest = &inner[..start];
        rest = rest
            .strip_suffix(" and ")
            .or(rest.strip_suffix(", "))
            .unwrap_or("");
    }
    names
}

/// Whether a name stands in a text as a whole, and not as a part of another name.
fn stands_in(text: &str, name: &str) -> bool {
    let of_a_name = |c: char| c.is_alphanumeric() || matches!(c, '_' | '-' | '\'');
    text.match_indices(name).any(|(at, _)| {
        let before = text[..at].chars().next_back();
        let after = text[at + name.len()..].chars().next();
        !before.is_some_and(of_a_name) && !after.is_some_and(of_a_name)
    })
}

#[test]
fn every_link_leads_to_what_it_says() {
    let mut checked = 0;
    for document in documents() {
        let folder = document.parent().expect("a document stands in a folder");
        let written = text(&document);
        for (before, target) in links(&written) {
            if target.starts_with("http") || target.starts_with('#') {
                continue;
            }
            let path = folder.join(target);
            assert!(path.exists(), "{}: no {target}", document.display());
            for name in names_before(before) {
                let has = stands_in(&text(&path), name) || stands_in(target, name);
                assert!(
                    has,
                    "{}: `{name}` does not stand in {target}",
                    document.display()
                );
                checked += 1;
            }
        }
    }
    assert!(checked > 30, "only {checked} names were found to look for");
}

/// A public function: its name, its parameters in their brackets, its result's type, and the clauses of its contract.
struct Public {
    name: String,
    parameters: String,
    result: String,
    clauses: Vec<String>,
}

impl Public {
    fn has(&self, clause: &str) -> bool {
        self.clauses.iter().any(|c| c == clause)
    }
}

/// A source text without its comments.
fn code(written: &str) -> String {
    let before = |line: &str| line.split("//").next().unwrap_or("").to_string();
    let lines: Vec<String> = written.lines().map(before).collect();
    lines.join("\n")
}

/// The text behind the bracket that closes the one with which it begins.
fn behind_bracket(text: &str) -> &str {
    let mut depth = 0;
    for (at, c) in text.char_indices() {
        match c {
            '(' | '{' => depth += 1,
            ')' | '}' => depth -= 1,
            _ => {}
        }
        if depth == 0 {
            return &text[at + c.len_utf8()..];
        }
    }
    panic!("a bracket is not closed: {text}");
}

/// The name of the type of an `impl`, by what stands behind that word and before its bracket.
fn implementor(head: &str) -> &str {
    let mut depth = 0;
    let in_brackets = |c: &char| {
        depth += i32::from(*c == '<') - i32::from(*c == '>');
        depth > 0 || *c == '>'
    };
    let generics: usize = head
        .chars()
        .take_while(in_brackets)
        .map(char::len_utf8)
        .sum();
    let named = head.split(" for ").last().filter(|last| *last != head);
    let mut found = words(named.unwrap_or(&head[generics..])).filter(|word| !word.is_empty());
    found.next().unwrap_or("Self")
}

/// A code text in which `Self` in an `impl`, and `self` where it is lent to be written to, is the name of its type.
fn self_named(code: &str) -> String {
    let mut named = String::new();
    let mut rest = code;
    while let Some(at) = rest.find("\nimpl").map(|at| at + 1) {
        let Some(open) = rest[at..].find('{').map(|n| at + n) else {
            break;
        };
        let own = implementor(&rest[at + "impl".len()..open]);
        let end = rest.len() - behind_bracket(&rest[open..]).len();
        named.push_str(&rest[..open]);
        let block: Vec<&str> = rest[open..end].split("Self").collect();
        let block = block.join(own);
        named.push_str(&block.replace("mut self", &format!("mut {own}")));
        rest = &rest[end..];
    }
    named + rest
}

/// Where the functions of the public traits of a code text begin: they are public without the word.
fn trait_functions(code: &str) -> Vec<usize> {
    let mut starts = Vec::new();
    for (at, _) in code.match_indices("pub trait ") {
        let Some(open) = code[at..].find('{').map(|n| at + n) else {
            continue;
        };
        let block = &code[open..code.len() - behind_bracket(&code[open..]).len()];
        let found = block.match_indices(" fn ").map(|(n, f)| open + n + f.len());
        starts.extend(found);
    }
    starts
}

/// The public functions of a source text.
fn public_functions(written: &str) -> Vec<Public> {
    let code = self_named(&code(written));
    let marks = [
        "pub fn ",
        "pub const fn ",
        "pub extern \"C\" fn ",
        "pub const extern \"C\" fn ",
    ];
    let starts = marks.iter().flat_map(|mark| {
        let found = code.match_indices(mark);
        found.map(|(at, mark)| at + mark.len())
    });
    let mut starts: Vec<usize> = starts.collect();
    starts.extend(trait_functions(&code));
    starts.sort_unstable();
    starts.iter().map(|&at| public_at(&code[at..])).collect()
}

/// The kind of the clause whose bracket comes next, and what stands before it: `ensures`, `requires` or, of a contract's ghost
/// value, `ghost`. A clause may have a name, and a star behind its kind.
fn clause_at_end(before: &str) -> Option<(&'static str, &str)> {
    let (rest, last) = last_word(before);
    let (first, second) = last_word(rest);
    for kind in ["requires", "ensures"] {
        if last.trim_end_matches('*') == kind {
            return Some((kind, rest));
        }
        if second.trim_end_matches('*') == kind {
            return Some((kind, first));
        }
    }
    (second == "ghost" && last.ends_with(':')).then_some(("ghost", first))
}

/// The last word of a text, and what stands before it.
fn last_word(text: &str) -> (&str, &str) {
    let text = text.trim_end();
    text.split_at(text.rfind(char::is_whitespace).map_or(0, |at| at + 1))
}

/// Where a text has its first `{`, or the semicolon that ends a function without a body: one that stands in no brackets.
fn body_or_end(text: &str) -> usize {
    let mut depth = 0;
    for (at, c) in text.char_indices() {
        match c {
            '[' => depth += 1,
            ']' => depth -= 1,
            '{' => return at,
            ';' if depth == 0 => return at,
            _ => {}
        }
    }
    panic!("a function has a body or an end: {text}");
}

/// The function whose name begins a text. Its contract ends where its body begins, with the first bracket that no clause
/// has opened, or with a semicolon where it has none.
fn public_at(text: &str) -> Public {
    let open = text.find('(').expect("a function has parameters");
    let mut rest = behind_bracket(&text[open..]);
    let parameters = &text[open..text.len() - rest.len()];
    let mut result = None;
    let mut clauses = Vec::new();
    loop {
        // A ghost clause ends with a semicolon of its own, and so does each clause of a trait's function.
        rest = rest.trim_start().trim_start_matches(';');
        // A law of a trait may be all that stands behind its last function.
        if rest.trim_start().starts_with('}') {
            break;
        }
        let brace = body_or_end(rest);
        let clause = clause_at_end(&rest[..brace]).filter(|_| rest[brace..].starts_with('{'));
        let before = clause.map_or(&rest[..brace], |(_, before)| before);
        result.get_or_insert_with(|| before.trim().trim_start_matches("-> ").to_string());
        let Some((clause, _)) = clause else { break };
        if clause != "ghost" {
            clauses.push(clause.to_string());
        }
        rest = behind_bracket(&rest[brace..]);
    }
    let name = text[..open].split('<').next().unwrap_or("");
    Public {
        name: name.to_string(),
        parameters: parameters.to_string(),
        result: result.unwrap_or_default(),
        clauses,
    }
}

/// The crates with the public functions of each.
fn all_public_functions() -> Vec<(String, Vec<Public>)> {
    let crates = fs::read_dir(repository().join("crates")).expect("the crates can be listed");
    let found: Vec<(String, Vec<Public>)> = crates
        .map(|entry| {
            let folder = entry.expect("an entry can be read");
            let name = folder.file_name().to_string_lossy().into_owned();
            let sources = files(&folder.path(), "rt");
            let each = sources.iter().flat_map(|s| public_functions(&text(s)));
            (name, each.collect())
        })
        .collect();
    let count: usize = found.iter().map(|(_, functions)| functions.len()).sum();
    assert!(count > 100, "only {count} public functions were found");
    found
}

/// What is wrong with the contracts of some functions.
fn contract_faults(functions: &[Public]) -> Vec<String> {
    let conditions = functions.iter().filter(|f| f.has("requires"));
    let silences = functions.iter().filter(|f| !f.has("ensures"));
    conditions
        .map(|f| format!("{} has a condition on its caller", f.name))
        .chain(silences.map(|f| format!("{} promises nothing", f.name)))
        .collect()
}

#[test]
fn no_public_function_has_a_condition() {
    for (_, functions) in all_public_functions() {
        assert_eq!(contract_faults(&functions), Vec::<String>::new());
    }
}

/// The part of a document under a heading.
fn section<'a>(document: &'a str, heading: &str) -> &'a str {
    let line = format!("\n## {heading}\n");
    let Some(start) = document.find(&line) else {
        return "";
    };
    let under = &document[start + line.len()..];
    under.split("\n## ").next().unwrap_or(under)
}

/// The functions that a text names: the head of each of its code spans, as `octet` of `Role::octet` and `event_step` of
/// `event_step(body, at)`. What stands in the brackets is no function's mention.
fn functions_named(text: &str) -> Vec<&str> {
    let spans = text.split('`').skip(1).step_by(2);
    spans
        .map(|span| {
            let head = span.split('(').next().unwrap_or(span);
            head.rsplit("::").next().unwrap_or(head)
        })
        .collect()
}

/// The first cells of the tables of a text.
fn first_column(text: &str) -> String {
    let rows = text.lines().filter_map(|line| line.strip_prefix('|'));
    let cells: Vec<&str> = rows.filter_map(|row| row.split('|').next()).collect();
    cells.join("\n")
}

/// Those of some functions that a text does not name.
fn not_named<'a>(text: &str, functions: &'a [Public]) -> Vec<&'a str> {
    let named = functions_named(text);
    let names = functions.iter().map(|f| f.name.as_str());
    names.filter(|name| !named.contains(name)).collect()
}

#[test]
fn every_public_function_is_among_the_promises() {
    let promises = text(&repository().join("docs/PROMISES.md"));
    for (name, functions) in all_public_functions() {
        let missing = not_named(&first_column(section(&promises, &name)), &functions);
        assert!(
            missing.is_empty(),
            "docs/PROMISES.md does not name {missing:?} of {name}"
        );
    }
}

/// The names without ending of the files in a folder; none where there is no such folder.
fn stems(folder: &Path) -> Vec<String> {
    let Ok(entries) = fs::read_dir(folder) else {
        return Vec::new();
    };
    entries
        .filter_map(|entry| {
            let path = entry.expect("an entry can be read").path();
            Some(path.file_stem()?.to_string_lossy().into_owned())
        })
        .collect()
}

/// What the last cells of a document's tables with a column "Tried" name.
fn tried(document: &str) -> Vec<&str> {
    let mut found = Vec::new();
    let mut in_column = false;
    for line in document.lines() {
        let last = line.trim_end_matches('|').rsplit('|').next().unwrap_or("");
        if !line.starts_with('|') {
            in_column = false;
        } else if last.trim() == "Tried" {
            in_column = true;
        } else if in_column {
            found.extend(functions_named(last));
        }
    }
    found
}

/// Those of some names that are no edit, no comparison of tests/, and no crate.
fn not_tried<'a>(named: &[&'a str]) -> Vec<&'a str> {
    let crates = stems(&repository().join("crates"));
    let edits = crates
        .iter()
        .flat_map(|name| stems(&repository().join("crates").join(name).join("must-fail")));
    let mut known: Vec<String> = edits.collect();
    known.extend(stems(&repository().join("tests/definitions")));
    known.extend(crates);
    let comparisons = [
        "captures", "lister", "log", "machine", "pair", "reading", "writers",
    ];
    known.extend(comparisons.map(String::from));
    let unknown = named.iter().filter(|n| !known.iter().any(|k| k == *n));
    unknown.copied().collect()
}

#[test]
fn what_is_said_to_be_tried_is_there() {
    let promises = text(&repository().join("docs/PROMISES.md"));
    let named = tried(&promises);
    assert!(named.len() > 50, "only {} were found", named.len());
    assert_eq!(not_tried(&named), Vec::<&str>::new());
    let made_up = "| A | Tried |\n|---|---|\n| `x` | `no_such_edit`, tests `log` |\n";
    assert_eq!(not_tried(&tried(made_up)), ["no_such_edit"]);
}

/// A line of code with every name, path and number made one letter, and without brackets.
fn shape(line: &str) -> String {
    let in_name = |c: char| c.is_alphanumeric() || matches!(c, '_' | ':');
    let mut shape = String::new();
    let mut named = false;
    for c in line.chars().filter(|c| !matches!(c, '(' | ')')) {
        if !in_name(c) {
            shape.push(c);
        } else if !named {
            shape.push('n');
        }
        named = in_name(c);
    }
    shape
}

/// What stands in the brackets with which a text begins, behind the first comma that stands in no others.
fn behind_comma(text: &str) -> Option<&str> {
    let inside = &text[1..text.len() - behind_bracket(text).len() - 1];
    let mut depth = 0;
    let comma = inside.find(|c| {
        depth += i32::from(matches!(c, '(' | '{' | '['));
        depth -= i32::from(matches!(c, ')' | '}' | ']'));
        c == ',' && depth == 0
    });
    comma.map(|at| &inside[at + 1..])
}

/// The patterns of a line of code, each with what stands before it and behind it: left of `=>`, and in `matches!(..)` behind its
/// value. The condition of an arm is none of it.
fn patterns(line: &str) -> Vec<[&str; 3]> {
    let arm = line.find("=>").map(|end| (0, end));
    let tests = line.match_indices("matches!(").filter_map(|(at, mark)| {
        let open = at + mark.len() - 1;
        let end = line.len() - behind_bracket(&line[open..]).len() - 1;
        let pattern = behind_comma(&line[open..])?;
        Some((end - pattern.len(), end))
    });
    let places = arm.into_iter().chain(tests);
    let parted = places.map(|(start, end)| {
        let condition = line[start..end].find(" if ");
        let end = condition.map_or(end, |n| start + n);
        [&line[..start], &line[start..end], &line[end..]]
    });
    parted.collect()
}

/// The variants of a pattern.
fn variants(pattern: &str) -> Vec<&str> {
    pattern.split('|').map(str::trim).collect()
}

/// Whether a line is the old one with one variant more in a pattern, and nothing else changed.
fn has_one_variant_more(old: &str, new: &str) -> bool {
    let mut both = patterns(old).into_iter().zip(patterns(new));
    both.any(|(was, is)| {
        let (had, has) = (variants(was[1]), variants(is[1]));
        let less = |i: usize| [&has[..i], &has[i + 1..]].concat();
        let more = |i: usize| shape(has[i]) == "n" && less(i) == had;
        was[0] == is[0] && was[2] == is[2] && (0..has.len()).any(more)
    })
}

/// Whether a line is the old one with statements put before it, none of which branches.
fn has_statements_before(old: &str, new: &str) -> bool {
    let before = new.trim().strip_suffix(old.trim()).map(str::trim_end);
    let branches = ["if", "else", "match", "for", "while", "loop"];
    before.is_some_and(|it| it.ends_with(';') && !words(it).any(|word| branches.contains(&word)))
}

/// The lines of an edit of a source that differ in more than names and numbers, and are neither the old line with statements put
/// before it nor the old line with one variant more in a pattern. (What the same edit renames in a proof is not looked at.)
fn misshapen(edit: &str) -> Vec<&str> {
    let mut of_source = false;
    let (mut old, mut new) = (Vec::new(), Vec::new());
    for line in edit.lines() {
        if let Some(path) = line.strip_prefix("file: ") {
            of_source = path.starts_with("src/");
        } else if of_source {
            old.extend(line.strip_prefix("old: "));
            new.extend(line.strip_prefix("new: "));
        }
    }
    assert_eq!(old.len(), new.len(), "an edit has as many new lines as old");
    let pairs = old.into_iter().zip(new);
    let stays = |(old, new): &(&str, &str)| {
        shape(old) == shape(new)
            || has_statements_before(old, new)
            || has_one_variant_more(old, new)
    };
    let changed = pairs.filter(|pair| !stays(pair));
    changed.map(|(_, new)| new).collect()
}

/// How many edits there are. An edit that comes is counted here: so one that goes is seen.
const EDITS: usize = 119;

#[test]
fn an_edit_that_must_be_refused_keeps_the_shape_of_the_code() {
    let mut edits = 0;
    for edit in files(&repository().join("crates"), "edit") {
        let written = text(&edit);
        let wrong = misshapen(&written);
        assert_eq!(wrong, Vec::<&str>::new(), "{}", edit.display());
        edits += 1;
    }
    assert_eq!(
        edits, EDITS,
        "an edit went, or one that came is not counted"
    );
    let one = "file: src/a.rt\nold: if n < octets::MOST {\nnew: if n < 59 {\n";
    assert_eq!(misshapen(one), Vec::<&str>::new());
    let other = "file: src/a.rt\nold: if n < most {\nnew: if n < most - 2 {\n";
    assert_eq!(misshapen(other), ["if n < most - 2 {"]);
    let operand = "file: src/a.rt\nold: let n = a | b;\nnew: let n = a;\n";
    assert_eq!(misshapen(operand), ["let n = a;"]);
    let with_proof =
        format!("{one}file: proofs/a/f/Answers.antt\nold: n-lt-MOST : x\nnew: n-lt-59 y\n");
    assert_eq!(misshapen(&with_proof), Vec::<&str>::new());
}

/// Whether an edit of one line of a source is misshapen.
fn is_misshapen(old: &str, new: &str) -> bool {
    let edit = format!("file: src/a.rt\nold: {old}\nnew: {new}\n");
    !misshapen(&edit).is_empty()
}

#[test]
fn an_edit_may_have_one_variant_more_in_a_pattern() {
    for (old, new) in [
        ("A::B => n,", "A::B | A::C => n,"),
        ("A::B => n | m,", "A::C | A::B => n | m,"),
        ("A::B | A::D => n,", "A::B | A::C | A::D => n,"),
        ("A::B if a | b => n,", "A::B | A::C if a | b => n,"),
        ("!matches!(a, A::B(0))", "!matches!(a, A::B(0) | A::C)"),
        ("matches!(f(a, b), A::B)", "matches!(f(a, b), A::C | A::B)"),
        (
            "A::B => matches!(a, A::B)",
            "A::B => matches!(a, A::B | A::C)",
        ),
    ] {
        assert!(!is_misshapen(old, new), "{old} {new}");
    }
    for (old, new) in [
        // a variant that is dropped
        ("A::B | A::C => n,", "A::B => n,"),
        ("matches!(a, A::B | A::C)", "matches!(a, A::B)"),
        // an operand that is dropped, or one more
        ("A::B => a | b,", "A::B => a,"),
        ("A::B => a,", "A::B => a | b,"),
        ("A::B if a | b => n,", "A::B if a => n,"),
        ("A::B if a => n,", "A::B if a | b => n,"),
        ("matches!(a | b, A::B)", "matches!(a, A::B)"),
        ("matches!(f(a, b), A::B)", "matches!(f(a, b | c), A::B)"),
        ("matches!(a, A::B) == b", "matches!(a, A::B) == b | c"),
        // two variants more, or one beside another change
        ("A::B => n,", "A::B | A::C | A::D => n,"),
        ("A::B => n,", "A::B | A::C => m,"),
        ("A::B => n,", "A::C | A::D => n,"),
        ("A::B => n,", "A::B | A::C(d, e) => n,"),
    ] {
        assert!(is_misshapen(old, new), "{old} {new}");
    }
}

#[test]
fn an_edit_may_have_statements_before_the_line() {
    for (old, new) in [
        ("let n = f(m)?;", "m.g(n); let n = f(m)?;"),
        ("self.n", "return f(); self.n"),
        ("f(m)", "let m: &[u8] = &[0; 2]; f(m)"),
        ("f(m)", "let k = m; let m = N { n: 0 }; f(m)"),
    ] {
        assert!(!is_misshapen(old, new), "{old} {new}");
    }
    for (old, new) in [
        // a part of a statement, or none
        ("f(m)?;", "let n = f(m)?;"),
        ("f(m)", "let n = 2; k + f(m)"),
        // one that branches
        ("f(m)", "if n { return m; } f(m)"),
        ("f(m)", "if n { return m; }; f(m)"),
        ("f(m)", "let Some(m) = g(n) else { return k; }; f(m)"),
        ("f(m)", "while n { m.g(n); } k(n); f(m)"),
        ("f(m)", "let m = match n { A::B => m, _ => n }; f(m)"),
        // another change beside it, or the statement behind the line
        ("f(m)", "m.g(n); f(n)?"),
        ("f(m);", "f(m); m.g(n);"),
    ] {
        assert!(is_misshapen(old, new), "{old} {new}");
    }
}

/// The words of a code text, as names are written.
fn words(code: &str) -> impl Iterator<Item = &str> {
    code.split(|c: char| !c.is_alphanumeric() && c != '_')
}

/// The names in a text that are the archive's, as far as they begin like one, and that a header does not have. What the tests
/// take from their caller is named so too, and so are the crates of its wing.
fn not_in_header<'a>(text: &'a str, header: &str, crates: &str) -> BTreeSet<&'a str> {
    let known = words(header)
        .chain(words(crates))
        .chain(["OAM_ARCHIVE_DIR"]);
    let known: BTreeSet<&str> = known.collect();
    words(text)
        .filter(|word| word.starts_with("oam_") || word.starts_with("OAM_"))
        .filter(|word| !known.contains(word))
        .collect()
}

#[test]
fn every_entry_that_is_named_is_in_the_header() {
    let header = text(&repository().join("include/oam.h"));
    let crates = text(&repository().join("crates.txt"));
    for document in documents() {
        let written = text(&document);
        let missing = not_in_header(&written, &header, &crates);
        let document = document.display();
        assert!(missing.is_empty(), "{document}: oam.h has no {missing:?}");
    }
    let made_up = "`oam_tick(state)`, `oam_tock` and `OAM_TOCK` of `oam_clock`; OAM_ARCHIVE_DIR=x";
    assert_eq!(
        not_in_header(made_up, "uint64_t oam_tick(void);", "oam_clock: octets"),
        BTreeSet::from(["OAM_TOCK", "oam_tock"])
    );
}

/// The types that are an end or hold one, themselves or by another type, among those that a code text declares.
fn holding_an_end(code: &str) -> BTreeSet<&str> {
    let declared = ["struct ", "enum "].iter().flat_map(|mark| {
        let found = code.match_indices(mark);
        found.map(|(at, mark)| &code[at + mark.len()..])
    });
    // (In braces, or as a tuple; a type without parts holds nothing.)
    let declared: Vec<(&str, &str)> = declared
        .filter_map(|rest| {
            let name = words(rest).next()?;
            let open = rest.find(['{', '(', ';'])?;
            if rest[open..].starts_with(';') {
                return None;
            }
            let length = rest.len() - behind_bracket(&rest[open..]).len();
            Some((name, &rest[open..length]))
        })
        .collect();
    let mut holding = BTreeSet::from(["End"]);
    loop {
        let holds = |(_, parts): &&(&str, &str)| words(parts).any(|w| holding.contains(w));
        let more: BTreeSet<&str> = declared
            .iter()
            .filter(holds)
            .map(|(name, _)| *name)
            .collect();
        if more.is_subset(&holding) {
            return holding;
        }
        holding.extend(more);
    }
}

/// What the parameters of a function lend it to write to.
fn lent_to_write(parameters: &str) -> impl Iterator<Item = &str> {
    parameters.split('&').skip(1).filter_map(|lent| {
        let lent = lent.trim_start();
        let named = lent.starts_with('\'').then(|| lent.split_once(' '));
        let lent = named.flatten().map_or(lent, |(_, rest)| rest);
        lent.strip_prefix("mut ")
    })
}

/// The public functions of a source text that give an end: their result is or holds one, or they are lent one to step.
fn giving_an_end(written: &str) -> Vec<Public> {
    let code = code(written);
    let holding = holding_an_end(&code);
    let holds = |text: &str| words(text).any(|word| holding.contains(word));
    let gives = |f: &Public| holds(&f.result) || lent_to_write(&f.parameters).any(holds);
    public_functions(written)
        .into_iter()
        .filter(gives)
        .collect()
}

/// The paragraph of a text that starts so; empty where none does.
fn paragraph<'a>(text: &'a str, start: &str) -> &'a str {
    let mut paragraphs = text.split("\n\n").map(str::trim);
    paragraphs.find(|p| p.starts_with(start)).unwrap_or("")
}

#[test]
fn every_function_that_gives_an_end_is_said_to_keep_the_ranges() {
    let sources = files(&repository().join("crates/link_end"), "rt");
    let sources: Vec<String> = sources.iter().map(|s| text(s)).collect();
    let functions = giving_an_end(&sources.join("\n"));
    assert!(functions.len() > 4, "only {} were found", functions.len());
    let promises = text(&repository().join("docs/PROMISES.md"));
    let start = "Every function that gives an end gives a ranged one for a ranged one";
    let missing = not_named(paragraph(section(&promises, "link_end"), start), &functions);
    assert!(
        missing.is_empty(),
        "under \"## link_end\" of docs/PROMISES.md the paragraph \"{start}\" does not name {missing:?}"
    );
    let theorems = text(&repository().join("crates/theorems_reach/proofs/Guarding.antt"));
    for function in &functions {
        let theorem = format!("{}_guarded", function.name);
        assert!(
            stands_in(&theorems, &theorem),
            "no {theorem} in Guarding.antt"
        );
    }
}

#[test]
fn what_holds_an_end_is_seen() {
    let source = "\
pub struct End {
    n: u8,
}
pub struct Taken {
    pub end: End,
}
enum Answer {
    No(u8),
    Is(Taken),
}
pub struct Ending {
    n: u8,
}
pub fn a(e: End) -> Answer
    ensures { x }
{
}
pub fn b(e: End) -> Ending
    ensures { x }
{
}
pub fn c() -> End {
}
pub struct Pair(End, u8);
pub struct Mark;
impl End {
    pub fn d(self) -> Self {
    }
    pub fn e(self) -> u8 {
    }
    pub fn h(&mut self) -> u8 {
    }
    pub fn i(&self, n: &mut u8) {
    }
}
impl From<End> for Pair {
    pub fn f(end: End) -> Self {
    }
}
pub fn g(e: End) -> Result<End, Mark> {
}
pub fn j(n: u8, ends: &'a mut [Pair]) {
}
pub fn k(n: &mut u8, e: &End) {
}
";
    let functions = giving_an_end(source);
    let names: Vec<&str> = functions.iter().map(|f| f.name.as_str()).collect();
    assert_eq!(names, ["a", "c", "d", "h", "f", "g", "j"]);
    let document = "\n## end\nFirst `a`.\n\nSo says `c(n)`,\nnot `a_not`.\n\nThen `a`.\n";
    let told = paragraph(section(document, "end"), "So says");
    assert_eq!(not_named(told, &functions), ["a", "d", "h", "f", "g", "j"]);
    assert_eq!(paragraph(document, "None"), "");
}

/// What the arrays of a source text are made of: what stands before the semicolon of a type or of a value that is repeated.
fn elements(written: &str) -> Vec<String> {
    let code = code(written);
    let in_brackets = code.split('[').skip(1);
    in_brackets
        .filter_map(|rest| rest.split(']').next()?.split_once(';'))
        .map(|(element, _)| element.to_string())
        .collect()
}

/// The types of std that hold their parts on the heap, as far as a source text names them.
fn on_the_heap(written: &str) -> BTreeSet<String> {
    let code = code(written);
    let kinds = ["Vec", "VecDeque", "String", "Box", "vec"];
    let found = words(&code).filter(|word| kinds.contains(word));
    found.map(String::from).collect()
}

/// Whether a frame comes through the functions of a crate, from an entry to its octets.
fn makes_frames(name: &str) -> bool {
    name == "frame_writer" || name.split('_').next() == Some("link")
}

/// Whether the one thing that a function may write to is the output.
fn writes_to_the_output_alone(function: &Public) -> bool {
    let lent: Vec<&str> = function.parameters.split("mut ").collect();
    let named = |before: &str| {
        let before = before.trim_end().rsplit_once('&').map_or("", |(b, _)| b);
        before.trim_end().ends_with("out:")
    };
    lent.len() == 2 && named(lent[0]) && lent[1].starts_with("[u8]")
}

/// A frame is put together in the output that is lent, and nowhere else: where it is made no array holds octets, nothing lies on
/// the heap, and the one thing that a writer may write to is the output.
#[test]
fn a_frame_is_written_straight_to_the_output() {
    let crates = repository().join("crates");
    let mut making = stems(&crates);
    making.retain(|name| makes_frames(name));
    assert!(making.len() > 8, "only {making:?} were found");
    for source in making.iter().flat_map(|n| files(&crates.join(n), "rt")) {
        let written = text(&source);
        assert_eq!(
            on_the_heap(&written),
            BTreeSet::new(),
            "{}",
            source.display()
        );
        let mut others = elements(&written);
        others.retain(|element| !["usize", "u64"].contains(&element.as_str()));
        let source = source.display();
        assert!(others.is_empty(), "{source}: arrays of {others:?}");
    }
    let functions = all_public_functions().into_iter();
    let functions = functions.filter(|(name, _)| makes_frames(name));
    let mut writers: Vec<Public> = functions.flat_map(|(_, each)| each).collect();
    writers.retain(|function| function.name.starts_with("write_"));
    assert!(writers.len() > 6, "only {} were found", writers.len());
    for writer in writers {
        assert!(writes_to_the_output_alone(&writer), "{}", writer.name);
    }
}

#[test]
fn a_frame_that_is_written_elsewhere_is_seen() {
    let source = "\
pub fn a(out: &mut [u8], n: u8) -> Result<usize, Refusal> {
    let mut frame: [u8; 60] = [0u8; 60];
    let other = [0; 60]; // [u8; 9]
    let widths: [usize; 2] = [6, 6];
}
pub fn b(
    n: &[u8],
    out: &mut [u8],
    room: &mut [u8],
) -> Written {
}
pub fn c(frame: &mut Frame) {
}
";
    assert_eq!(elements(source), ["u8", "0u8", "0", "usize"]);
    let functions = public_functions(source);
    let alone: Vec<bool> = functions.iter().map(writes_to_the_output_alone).collect();
    assert_eq!(alone, [true, false, false]);
    let lived = public_functions("pub fn d<'a>(out: &'a mut [u8]) -> &'a [u8] {\n}\n");
    assert!(writes_to_the_output_alone(&lived[0]));
    let held = "fn e(v: &mut Vec<u8>) {\n}\n// Box\n";
    assert_eq!(on_the_heap(held), BTreeSet::from(["Vec".to_string()]));
}

const MADE_UP: &str = "\
pub fn a(n: u8)
    requires { x }
    ensures { λ r. ⌜ r ≡ {n} ⌝ }
{
}
fn b() {
}
// pub fn told(n: u8) {
pub fn silent(n: u8) -> Option<u8> {
    n
}
pub extern \"C\" fn c(
    n: u8,
) -> u8
    ensures { y }
{
}
    pub fn lines(
        self,
    ) {
    }
pub fn d()
    ensures { z }
{
}
pub fn named<T: Ord>(n: T) -> [u8; 2]
    ghost k: { ℕ };
    requires* low { ⌜ x ⌝ }
    ensures high { result ≡ n }
    ensures low { y }
{
}
pub trait Counts {
    ghost laws: { Laws };
    fn told(&self) -> u8
        ensures same { result ≡ 1 };
    fn mute(&self) -> [u8; 4];
}
";

#[test]
fn a_condition_and_a_silence_are_seen() {
    let found = public_functions(MADE_UP);
    let told = |p: &Public| (p.name.clone(), p.result.clone(), p.clauses.join(" "));
    let told: Vec<(String, String, String)> = found.iter().map(told).collect();
    let expected = [
        ("a", "", "requires ensures"),
        ("silent", "Option<u8>", ""),
        ("c", "u8", "ensures"),
        ("lines", "", ""),
        ("d", "", "ensures"),
        ("named", "[u8; 2]", "requires ensures ensures"),
        ("told", "u8", "ensures"),
        ("mute", "[u8; 4]", ""),
    ];
    let expected = expected.map(|(a, b, c)| (a.to_string(), b.to_string(), c.to_string()));
    assert_eq!(told, expected);
    let faults = [
        "a has a condition on its caller",
        "named has a condition on its caller",
        "silent promises nothing",
        "lines promises nothing",
        "mute promises nothing",
    ];
    assert_eq!(contract_faults(&found), faults);
}

#[test]
fn a_part_of_another_name_is_no_mention() {
    assert!(stands_in("`role_stays` and Role", "role_stays"));
    assert!(stands_in("must-fail/role_stays.edit", "role_stays"));
    for text in ["role_stays_not", "a_role_stays", "role_stays-not", "stays"] {
        assert!(!stands_in(text, "role_stays"), "{text}");
    }
    let document = "\n## other\n`a`\n## crate\n`oam_a(c)`, `silent_d`, `Type::lines`, `c(d)`, a\n## last\n`d`\n";
    let functions = public_functions(MADE_UP);
    let missing = not_named(section(document, "crate"), &functions);
    assert_eq!(missing, ["a", "silent", "d", "named", "told", "mute"]);
    assert_eq!(section(document, "cra"), "");
}
