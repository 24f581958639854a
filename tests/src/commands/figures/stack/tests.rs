//! The archive takes no more stack than docs/PERFORMANCE.md says.

use super::super::SEED;
use super::*;
use std::collections::BTreeSet;
use std::fs;
use std::path::Path;
use std::sync::OnceLock;

/// What `figures` measures.
fn measured() -> &'static BTreeMap<&'static str, Deepest> {
    static MEASURED: OnceLock<BTreeMap<&'static str, Deepest>> = OnceLock::new();
    MEASURED.get_or_init(|| {
        let depths = measure(SEED).expect("the archive's machine is the paper's");
        depths.deepest
    })
}

fn file(path: &str) -> String {
    let path = Path::new(env!("CARGO_MANIFEST_DIR")).join("..").join(path);
    fs::read_to_string(&path).unwrap_or_else(|error| panic!("{}: {error}", path.display()))
}

/// The entries that the archive's header declares.
fn declared(header: &str) -> BTreeSet<&str> {
    let lines = header.lines();
    lines
        .filter_map(|line| line.strip_prefix("uint64_t ")?.split('(').next())
        .collect()
}

/// The entries in the table under "Stack" of a document, and their octets.
fn told(document: &str) -> BTreeMap<&str, usize> {
    let sections = document.split("\n## ");
    let section = sections.skip(1).find(|text| text.starts_with("Stack\n"));
    section.unwrap_or("").lines().filter_map(row).collect()
}

/// The entry and the octets of a table's row.
fn row(line: &str) -> Option<(&str, usize)> {
    let mut cells = line.strip_prefix("| `")?.split('|').map(str::trim);
    let entry = cells.next()?.strip_suffix('`')?;
    let octets = cells.next()?.replace(',', "");
    Some((entry, octets.parse().ok()?))
}

/// What is wrong with a table of entries and octets.
fn faults(told: &BTreeMap<&str, usize>) -> Vec<String> {
    let mut faults = Vec::new();
    for (entry, deepest) in measured() {
        match (told.get(entry), deepest.octets) {
            (None, octets) => faults.push(format!("{entry} has no row: {octets}")),
            (Some(&row), octets) if octets > row => {
                faults.push(format!("{entry} takes {octets}, its row says {row}"));
            }
            _ => {}
        }
    }
    let unknown = told.keys().filter(|entry| !measured().contains_key(*entry));
    faults.extend(unknown.map(|entry| format!("{entry} is no entry")));
    faults
}

/// The octets of the caller's own in a measured call are those of a release build.
#[cfg_attr(debug_assertions, ignore = "for a release build")]
#[test]
fn no_entry_takes_more_stack_than_its_row_says() {
    let document = file("docs/PERFORMANCE.md");
    let faults = faults(&told(&document));
    assert!(
        faults.is_empty(),
        "docs/PERFORMANCE.md, Stack (`figures` prints the table): {faults:#?}"
    );
}

#[test]
fn a_row_too_low_missing_or_of_no_entry_is_told() {
    let rows: BTreeMap<&str, usize> = measured().iter().map(|(n, d)| (*n, d.octets)).collect();
    assert_eq!(faults(&rows), Vec::<String>::new());
    for (&entry, &octets) in &rows {
        let mut lower = rows.clone();
        lower.insert(entry, octets - 8);
        let fault = format!("{entry} takes {octets}, its row says {}", octets - 8);
        assert_eq!(faults(&lower), [fault]);
        let mut higher = rows.clone();
        higher.insert(entry, octets + 8);
        assert_eq!(faults(&higher), Vec::<String>::new());
    }
    let mut other = rows.clone();
    other.remove("oam_tick");
    other.insert("oam_tock", 1);
    let found = faults(&other);
    assert_eq!(found.len(), 2);
    assert!(found[0].starts_with("oam_tick has no row"));
    assert_eq!(found[1], "oam_tock is no entry");
}

#[test]
fn every_entry_is_met_often_and_some_take_more_than_others() {
    let measured = measured();
    let header = file("include/oam.h");
    let entries: BTreeSet<&str> = measured.keys().copied().collect();
    assert_eq!(entries, declared(&header));
    assert!(
        measured.values().all(|entry| entry.calls >= 300),
        "{measured:?}"
    );
    assert!(measured["oam_receive"].octets > measured["oam_write_loopback"].octets);
}

#[test]
fn a_table_is_read_from_its_section() {
    let document = "# Figures\n\n## The machine\n\n| `oam_a` | 1 | 2 |\n\n## Stack\n\n\
        | Entry | Octets of stack | Calls tried |\n|---|---|---|\n| `oam_b` | 1,496 | 1,188 |\n\
        | `oam_c` | 48 | 10 |\n\n`oam_d` is none.\n\n## Size\n\n| `oam_e` | 3 | 4 |\n";
    let rows = BTreeMap::from([("oam_b", 1496), ("oam_c", 48)]);
    assert_eq!(told(document), rows);
    assert_eq!(told("# Stack\n"), BTreeMap::new());
    let header = "/* uint64_t oam_x(void); */\nuint64_t oam_a(uint8_t *state,\n    size_t n);\n\
        static inline uint64_t oam_y(void)\n";
    assert_eq!(declared(header), BTreeSet::from(["oam_a"]));
}
