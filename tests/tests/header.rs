//! The archive's header and the Rattle sources, held together: the octets of a state, the places of the numbers that `oam_show`
//! stores, the lengths of frames, the most of what a response and a notification hold, the bounds of windows; the header and the
//! independent implementation: the length of a log line, the places of a watch's numbers, the numbers of events that arise, those
//! of a frame's header and of a row, and the bits of an outcome; and the header's version, which every change request raises.

mod sources;

use oam_tests::library::machine::{Outcome, ARISEN, RECEIVED, SHOWN_NUMBERS};
use oam_tests::library::{HEADER, HEADER_SKIPPED, ROW, ROW_PART, ROW_SKIPPED};
use oam_tests::paper;
use oam_tests::paper::machine::END_NUMBERS;
use oam_tests::paper::windows::{WatchNumbers, WATCH_NUMBERS};
use sources::{repository, text};
use std::collections::BTreeMap;
use std::fs;

/// The numbers that a header names, by `#define NAME NUMBER` or by `NAME = NUMBER` in an enum.
fn named_in_header(header: &str) -> BTreeMap<&str, u64> {
    let mut named = BTreeMap::new();
    for line in header.lines() {
        let code = line.split("/*").next().unwrap_or("");
        let pairs = match code.strip_prefix("#define ") {
            Some(rest) => rest.split_once(' ').into_iter().collect(),
            None => code
                .split(['{', ',', '}'])
                .filter_map(|part| part.split_once('='))
                .collect::<Vec<_>>(),
        };
        for (name, number) in pairs {
            if let Some(number) = number_in(number.trim()) {
                named.insert(name.trim(), number);
            }
        }
    }
    named
}

/// A number in decimal or, behind `0x`, in hexadecimal digits, which may be grouped by `_`.
fn number_in(text: &str) -> Option<u64> {
    let text = text.replace('_', "");
    match text.strip_prefix("0x") {
        Some(digits) => u64::from_str_radix(digits, 16).ok(),
        None => text.parse().ok(),
    }
}

/// The constants of a Rattle source, each a sum of numbers and of names: its own, or those of another module as `module::NAME` or
/// `crate::module::NAME`.
fn constants(source: &str) -> BTreeMap<String, String> {
    let mut constants = BTreeMap::new();
    for line in source.lines() {
        let Some((_, rest)) = line.split_once("const ") else {
            continue;
        };
        let kinds = [": usize = ", ": u8 = ", ": u64 = "];
        let Some((name, rest)) = kinds.iter().find_map(|kind| rest.split_once(kind)) else {
            continue;
        };
        constants.insert(name.to_string(), rest.trim_end_matches(';').to_string());
    }
    constants
}

/// The number of a constant of a module, by the sources of all modules; the module of `lib.rt` is "".
fn number_of(modules: &BTreeMap<String, String>, module: &str, name: &str) -> u64 {
    let sum = constants(&modules[module])
        .remove(name)
        .unwrap_or_else(|| panic!("no constant {name} in the module `{module}`"));
    let terms = sum
        .split('+')
        .map(|term| term.trim().trim_start_matches("crate::"));
    let values = terms.map(|term| match (number_in(term), term.split_once("::")) {
        (Some(number), _) => number,
        (_, Some((other, name))) => number_of(modules, other, name),
        (_, None) => number_of(modules, module, term),
    });
    values.sum()
}

/// The sources of a crate by their modules.
fn modules(name: &str) -> BTreeMap<String, String> {
    let folder = repository().join("crates").join(name).join("src");
    let files = fs::read_dir(&folder).unwrap_or_else(|e| panic!("{}: {e}", folder.display()));
    let paths = files.map(|file| file.expect("a folder that can be read").path());
    let sources = paths.filter(|path| path.is_file()).map(|path| {
        let stem = path.file_stem().expect("a file's name").to_string_lossy();
        let module = if stem == "lib" { "".into() } else { stem };
        (module.to_string(), text(&path))
    });
    sources.collect()
}

/// The numbers that an end is shown as, in the order of the array that `numbers_of` makes.
fn shown_numbers(source: &str) -> Vec<String> {
    let (_, body) = source
        .split_once("fn numbers_of(")
        .expect("the function that gives an end's numbers");
    let (_, array) = body.split_once("    [\n").expect("its array");
    let (array, _) = array.split_once("\n    ]").expect("the array's end");
    let numbers = array.lines().map(|line| {
        let line = line.trim().trim_end_matches(',');
        let widened = line.strip_prefix("u64::from(");
        let widened = widened.and_then(|line| line.strip_suffix(')'));
        let line = widened.unwrap_or(line).trim_end_matches(".into()");
        line.trim_end_matches(" as u64").to_string()
    });
    numbers.collect()
}

/// The places that `oam.h` gives them. A record's seven numbers begin at the first of them.
const PLACES: [(&str, &str); 21] = [
    ("OAM_NUMBER_CONFIGURATION", "settings.configuration"),
    ("OAM_NUMBER_SIZE", "settings.size"),
    ("OAM_NUMBER_OUI", "settings.oui"),
    ("OAM_NUMBER_VENDOR", "settings.vendor"),
    ("OAM_NUMBER_SOURCE", "settings.source"),
    ("OAM_NUMBER_REQUIRED", "settings.required"),
    ("OAM_NUMBER_LINK_UP", "link.up"),
    ("OAM_NUMBER_LOST_LINK_COUNT", "link.lost"),
    ("OAM_NUMBER_KEPT_FIELD", "peer.kept"),
    ("OAM_NUMBER_RECORD_HELD", "peer.held.is_some()"),
    ("OAM_NUMBER_RECORD", "says.version"),
    ("OAM_NUMBER_LAST_HELD", "is_known(peer.last)"),
    ("OAM_NUMBER_LAST", "last_number(peer.last)"),
    ("OAM_NUMBER_ROLE", "end.role().number()"),
    ("OAM_NUMBER_TICKS", "meter.ticks()"),
    ("OAM_NUMBER_FRAMES_WRITTEN", "meter.written_frames()"),
    ("OAM_NUMBER_REVISION", "own.revision"),
    ("OAM_NUMBER_NEXT_EVENT", "own.number"),
    ("OAM_NUMBER_DYING_GASP", "own.gasp"),
    ("OAM_NUMBER_CRITICAL_EVENT", "own.critical"),
    ("OAM_NUMBER_OWED", "own.owed"),
];

/// One of a watch's numbers.
type OfWatch = fn(&WatchNumbers) -> u64;

/// The places that `oam.h` gives them, behind the end's.
const WATCH_PLACES: [(&str, OfWatch); WATCH_NUMBERS] = [
    ("OAM_NUMBER_FRAME_WINDOW", |watch| watch.frames.length),
    ("OAM_NUMBER_FRAME_THRESHOLD", |watch| watch.frames.threshold),
    ("OAM_NUMBER_SECONDS_WINDOW", |watch| watch.seconds.length),
    ("OAM_NUMBER_SECONDS_THRESHOLD", |watch| {
        watch.seconds.threshold
    }),
    ("OAM_NUMBER_FRAME_TICKS", |watch| watch.frames.at),
    ("OAM_NUMBER_FRAME_ERRORS", |watch| watch.frames.errors),
    ("OAM_NUMBER_FRAME_ERROR_TOTAL", |watch| watch.frames.total),
    ("OAM_NUMBER_FRAME_EVENT_TOTAL", |watch| watch.frames.events),
    ("OAM_NUMBER_SECONDS_TICKS", |watch| watch.seconds.at),
    ("OAM_NUMBER_SECONDS_ERRORS", |watch| watch.seconds.errors),
    ("OAM_NUMBER_SECONDS_ERROR_TOTAL", |watch| {
        watch.seconds.total
    }),
    ("OAM_NUMBER_SECONDS_EVENT_TOTAL", |watch| {
        watch.seconds.events
    }),
    ("OAM_NUMBER_STAMP", |watch| watch.stamp),
    ("OAM_NUMBER_SECOND_BAD", |watch| watch.bad),
];

/// The names of a watch's numbers whose place in the header is not where the independent implementation shows them.
fn misplaced_of_watch(header: &str) -> Vec<&'static str> {
    let named = named_in_header(header);
    let watch = WatchNumbers::from_packed(&std::array::from_fn(|place| 100 + place as u64));
    let shown = watch.shown();
    let stands = |name: &str, number: u64| {
        let place = named.get(name)?.checked_sub(END_NUMBERS as u64)?;
        Some(*shown.get(place as usize)? == number)
    };
    let wrong = WATCH_PLACES
        .into_iter()
        .filter(|(name, number)| stands(name, number(&watch)) != Some(true));
    wrong.map(|(name, _)| name).collect()
}

/// A record's numbers are those of an Information TLV.
const RECORD: [(&str, &str); 7] = [
    ("OAM_INFORMATION_VERSION", "says.version"),
    ("OAM_INFORMATION_REVISION", "says.revision"),
    ("OAM_INFORMATION_STATE", "says.state"),
    ("OAM_INFORMATION_CONFIGURATION", "says.configuration"),
    ("OAM_INFORMATION_OAMPDU_CONFIGURATION", "says.oampdu"),
    ("OAM_INFORMATION_OUI", "says.oui"),
    ("OAM_INFORMATION_VENDOR", "says.vendor"),
];

/// The names whose place in the header is not where their number stands.
fn misplaced(header: &str, source: &str) -> Vec<String> {
    let named = named_in_header(header);
    let numbers = shown_numbers(source);
    let from = named.get("OAM_NUMBER_RECORD").copied();
    let records = RECORD.map(|(name, number)| {
        let place = named.get(name).zip(from).map(|(place, from)| from + place);
        (name, number, place)
    });
    let places = PLACES.map(|(name, number)| (name, number, named.get(name).copied()));
    let stands = |number: &str, place: Option<u64>| {
        place.and_then(|place| numbers.get(place as usize)) == Some(&number.to_string())
    };
    let wrong = places.iter().chain(&records);
    let wrong = wrong.filter(|(_, number, place)| !stands(number, *place));
    wrong.map(|(name, _, _)| name.to_string()).collect()
}

#[test]
fn the_numbers_of_an_end_stand_where_the_header_says() {
    let header = text(&repository().join("include/oam.h"));
    let source = text(&repository().join("crates/oam_numbers/src/lib.rt"));
    assert_eq!(misplaced(&header, &source), Vec::<String>::new());

    let named = named_in_header(&header);
    let count = shown_numbers(&source).len() as u64;
    assert_eq!(named["OAM_NUMBER_DISCOVERY"], count);
    assert_eq!(named["OAM_NUMBER_INTERVALS"], count + 1);
    assert_eq!(END_NUMBERS as u64, count + 2);
    assert_eq!(count as usize, PLACES.len() + RECORD.len() - 1);
    let places = named.keys().filter(|name| name.starts_with("OAM_NUMBER_"));
    let known = PLACES.len() + 2 + WATCH_PLACES.len();
    assert_eq!(places.count(), known, "a place has no number");
}

#[test]
fn the_numbers_of_a_watch_stand_where_the_header_says() {
    let header = text(&repository().join("include/oam.h"));
    assert_eq!(misplaced_of_watch(&header), Vec::<&str>::new());
    let named = named_in_header(&header);
    assert_eq!(named["OAM_SHOWN_NUMBERS"], SHOWN_NUMBERS as u64);
    assert_eq!(named["OAM_ARISEN_NUMBERS"], ARISEN as u64);
    assert_eq!(named["OAM_ARISEN_NUMBERS"], 2 * named["OAM_EVENT_NUMBERS"]);
}

#[test]
fn a_frames_header_and_a_row_are_as_the_header_says() {
    let header = text(&repository().join("include/oam.h"));
    let named = named_in_header(&header);
    for (name, own) in [
        ("OAM_HEADER_NUMBERS", HEADER),
        ("OAM_HEADER_NUMBERS", RECEIVED),
        ("OAM_HEADER_SKIPPED", HEADER_SKIPPED),
        ("OAM_ROW_NUMBERS", ROW),
        ("OAM_ROW_SKIPPED", ROW_SKIPPED),
        ("OAM_ROW_PART", ROW_PART),
    ] {
        assert_eq!(named.get(name), Some(&(own as u64)), "{name}");
    }
}

/// Where a function of the header takes its number from an outcome: the lowest bit, and the mask above it.
fn bits_taken(header: &str, function: &str) -> Option<(u32, u64)> {
    let (_, body) = header.split_once(&format!(" {function}(uint64_t outcome)\n{{\n"))?;
    let line = body.lines().next()?.trim();
    let (_, taken) = line.split_once("(outcome >> ")?;
    let (shift, mask) = taken.trim_end_matches([';', ')']).split_once(") & ")?;
    Some((shift.parse().ok()?, number_in(mask)?))
}

#[test]
fn an_outcome_is_taken_apart_as_the_header_says() {
    let header = text(&repository().join("include/oam.h"));
    type Taken = fn(&Outcome) -> u64;
    let parts: [(&str, Taken); 3] = [
        ("oam_state_octet", |outcome| outcome.octet.into()),
        ("oam_shown", |outcome| outcome.shown.into()),
        ("oam_arisen", |outcome| outcome.arisen as u64),
    ];
    for (function, own) in parts {
        let (shift, mask) = bits_taken(&header, function).expect(function);
        for bit in 0..64 {
            let number = 1 << bit;
            let taken = number >> shift & mask;
            assert_eq!(taken, own(&Outcome::of(number)), "{function}, bit {bit}");
        }
    }
    assert_eq!(bits_taken(&header, "oam_arisen"), Some((50, 3)));
    assert_eq!(Outcome::of(u64::MAX).above, u64::MAX >> 52);
    let changed = header.replace("(outcome >> 50)", "(outcome >> 51)");
    assert_eq!(bits_taken(&changed, "oam_arisen"), Some((51, 3)));
    assert_eq!(bits_taken(&header, "oam_risen"), None);
}

#[test]
fn a_place_that_is_another_is_seen() {
    let header = text(&repository().join("include/oam.h"));
    let source = text(&repository().join("crates/oam_numbers/src/lib.rt"));
    let changed = header.replace("OAM_NUMBER_OUI = 2", "OAM_NUMBER_OUI = 3");
    assert_eq!(misplaced(&changed, &source), ["OAM_NUMBER_OUI"]);
    let changed = source.replace("says.revision", "says.state");
    assert_eq!(misplaced(&header, &changed), ["OAM_INFORMATION_REVISION"]);
    let changed = header.replace("OAM_NUMBER_STAMP = 41", "OAM_NUMBER_STAMP = 40");
    assert_eq!(misplaced_of_watch(&changed), ["OAM_NUMBER_STAMP"]);
    let changed = header.replace("OAM_NUMBER_SECOND_BAD", "OAM_NUMBER_BAD");
    assert_eq!(misplaced_of_watch(&changed), ["OAM_NUMBER_SECOND_BAD"]);
}

#[test]
fn a_state_and_a_frame_are_as_long_as_the_header_says() {
    let header = text(&repository().join("include/oam.h"));
    let named = named_in_header(&header);
    let packing = modules("oam_packing");
    let octets = named["OAM_STATE_OCTETS"];
    assert_eq!(number_of(&packing, "", "STATE_LENGTH"), octets);
    assert_eq!(oam_tests::library::machine::STATE_OCTETS as u64, octets);

    let layout = modules("octets");
    let frames = [
        ("OAM_SHORTEST_FRAME", "SHORTEST_FRAME"),
        ("OAM_LEAST_OUT", "SHORTEST_FRAME"),
        ("OAM_LONGEST_FRAME", "LONGEST_FRAME"),
        ("OAM_ORGANIZATION_AT", "DATA_START"),
    ];
    for (name, constant) in frames {
        assert_eq!(named[name], number_of(&layout, "", constant), "{name}");
    }
}

/// In the header, in the sources of `frame_variables`, and in the independent implementation.
#[test]
fn a_response_holds_what_the_header_says() {
    let header = text(&repository().join("include/oam.h"));
    let named = named_in_header(&header);
    let variables = modules("frame_variables");
    for (name, constant, own) in [
        (
            "OAM_MOST_ATTRIBUTES",
            "MOST_ATTRIBUTES",
            paper::MOST_ATTRIBUTES as u64,
        ),
        ("OAM_MOST_ASKED", "MOST_ASKED", paper::MOST_ASKED as u64),
        (
            "OAM_NOT_SUPPORTED",
            "NOT_SUPPORTED",
            paper::NOT_SUPPORTED.into(),
        ),
    ] {
        assert_eq!(named.get(name), Some(&own), "{name}");
        assert_eq!(number_of(&variables, "", constant), own, "{constant}");
    }
}

/// In the header, in the source of `frame_writer`, and in the independent implementation.
#[test]
fn a_notification_and_a_log_line_are_as_the_header_says() {
    let header = text(&repository().join("include/oam.h"));
    let named = named_in_header(&header);
    let most = paper::PLAIN_EVENTS as u64;
    assert_eq!(named["OAM_MOST_EVENTS"], most);
    assert_eq!(number_of(&modules("frame_writer"), "", "MOST_EVENTS"), most);
    assert_eq!(named["OAM_LONGEST_LINE"], paper::log::LONGEST_LINE as u64);
}

/// The bounds of the four settings of a watch. The least thresholds are 1 and have no constant in the sources.
#[test]
fn windows_and_thresholds_are_within_what_the_header_says() {
    let header = text(&repository().join("include/oam.h"));
    let named = named_in_header(&header);
    let windows = modules("link_windows");
    for constant in [
        "LEAST_FRAME_WINDOW",
        "MOST_FRAME_WINDOW",
        "MOST_FRAME_THRESHOLD",
        "LEAST_SECONDS_WINDOW",
        "MOST_SECONDS_WINDOW",
        "MOST_SECONDS_THRESHOLD",
    ] {
        let bound = number_of(&windows, "ranges", constant);
        assert_eq!(
            named[format!("OAM_{constant}").as_str()],
            bound,
            "{constant}"
        );
    }
    assert_eq!(named["OAM_LEAST_FRAME_THRESHOLD"], 1);
    assert_eq!(named["OAM_LEAST_SECONDS_THRESHOLD"], 1);
}

#[test]
fn numbers_are_read_in_decimal_and_in_hexadecimal_digits() {
    let header =
        "#define A 64 /* of them */\nenum { B = 0xA1, C = 7 };\n    D = 0x0060\n#define E f(1)\n";
    let named = named_in_header(header);
    assert_eq!(
        named,
        BTreeMap::from([("A", 64), ("B", 0xA1), ("C", 7), ("D", 0x60)])
    );
    let source = "pub const A: u8 = 0xa1;\npub const B: usize = 60 + A;\nconst C: u16 = 1;\n";
    let modules = BTreeMap::from([(String::new(), source.to_string())]);
    assert_eq!(number_of(&modules, "", "A"), 0xA1);
    assert_eq!(number_of(&modules, "", "B"), 60 + 0xA1);
    assert!(!constants(source).contains_key("C"));
}

#[test]
fn a_part_that_grows_makes_the_state_longer() {
    let mut packing = modules("oam_packing");
    let before = number_of(&packing, "", "STATE_LENGTH");
    let own = packing.get_mut("own").expect("the module of own numbers");
    *own = own.replace("const LENGTH: usize = 7;", "const LENGTH: usize = 9;");
    assert_eq!(number_of(&packing, "", "STATE_LENGTH"), before + 2);
}

#[test]
fn the_version_is_raised_by_every_change_request() {
    let header = text(&repository().join("include/oam.h"));
    let named = named_in_header(&header);
    let folder = repository().join("docs/changes");
    let notes = fs::read_dir(&folder).expect("the notes of changes");
    let notes = notes.filter(|note| {
        let name = note.as_ref().expect("a note").file_name();
        name != "README.md"
    });
    assert_eq!(named["OAM_VERSION"], 1 + notes.count() as u64);
}
