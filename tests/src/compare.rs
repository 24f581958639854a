//! Comparing two listings row by row, and showing where they differ; text for
//! those who read it.

/// A row in which two listings differ; a listing that has ended has no row.
#[derive(Debug, PartialEq, Eq)]
pub struct Difference<'a> {
    /// The number of the input's line or record; 0 is the listing's header.
    pub line: usize,
    pub expected: Option<&'a [u8]>,
    pub found: Option<&'a [u8]>,
}

/// The rows that differ, newlines included, so that none goes unseen.
pub fn differences<'a>(
    expected: &'a [u8],
    found: &'a [u8],
) -> impl Iterator<Item = Difference<'a>> {
    let mut expected_rows = rows(expected);
    let mut found_rows = rows(found);
    let mut line = 0;
    std::iter::from_fn(move || loop {
        let difference = Difference {
            line,
            expected: expected_rows.next(),
            found: found_rows.next(),
        };
        line += 1;
        if difference.expected != difference.found {
            return Some(difference);
        }
        difference.expected?;
    })
}

/// Octets as text on one line, with its middle left out where it is long.
pub fn shortened(octets: &[u8]) -> String {
    const HEAD: usize = 100;
    const TAIL: usize = 20;
    if octets.len() <= HEAD + TAIL {
        return octets.escape_ascii().to_string();
    }
    let (head, tail) = (&octets[..HEAD], &octets[octets.len() - TAIL..]);
    format!(
        "{} ... {} ({} characters)",
        head.escape_ascii(),
        tail.escape_ascii(),
        octets.len()
    )
}

/// Two texts, each from shortly before the place where they differ first.
pub fn from_difference(expected: &str, found: &str) -> [String; 2] {
    const BEFORE: usize = 40;
    let mut pairs = expected.bytes().zip(found.bytes());
    let place = pairs.position(|(expected, found)| expected != found);
    let shorter = expected.len().min(found.len());
    let start = place.unwrap_or(shorter).saturating_sub(BEFORE);
    [expected, found].map(|text| {
        let left_out = if start > 0 { "... " } else { "" };
        format!("{left_out}{}", shortened(&text.as_bytes()[start..]))
    })
}

/// The last of many lines, equal ones that follow each other as one.
pub fn last_lines(lines: impl Iterator<Item = String>) -> Vec<String> {
    const SHOWN: usize = 60;
    let mut merged: Vec<(String, usize)> = Vec::new();
    for line in lines {
        match merged.last_mut() {
            Some((last, times)) if *last == line => *times += 1,
            _ => merged.push((line, 1)),
        }
    }
    let left_out = merged.len().saturating_sub(SHOWN);
    let mut shown = Vec::new();
    if left_out > 0 {
        shown.push(format!("... {left_out} lines left out"));
    }
    shown.extend(merged.drain(left_out..).map(|(line, times)| match times {
        1 => line,
        _ => format!("{line} ({times} times)"),
    }));
    shown
}

/// Octets as a line of the lister's input.
pub fn hex(octets: &[u8]) -> String {
    const DIGITS: &[u8; 16] = b"0123456789abcdef";
    let mut text = String::with_capacity(2 * octets.len());
    for octet in octets {
        text.push(DIGITS[usize::from(octet >> 4)].into());
        text.push(DIGITS[usize::from(octet & 15)].into());
    }
    text
}

/// A number with its thousands parted, as the paper writes them.
pub fn grouped(number: usize) -> String {
    let digits = number.to_string();
    let groups: Vec<&str> = digits
        .as_bytes()
        .rchunks(3)
        .rev()
        .map(|group| std::str::from_utf8(group).expect("digits are text"))
        .collect();
    groups.join(",")
}

fn rows(listing: &[u8]) -> impl Iterator<Item = &[u8]> {
    listing.split_inclusive(|&octet| octet == b'\n')
}

#[cfg(test)]
mod tests {
    use super::*;

    fn lines_that_differ(expected: &str, found: &str) -> Vec<usize> {
        differences(expected.as_bytes(), found.as_bytes())
            .map(|difference| difference.line)
            .collect()
    }

    #[test]
    fn equal_listings_have_no_difference() {
        assert_eq!(lines_that_differ("head\n1\n2\n", "head\n1\n2\n"), []);
        assert_eq!(lines_that_differ("", ""), []);
    }

    #[test]
    fn each_differing_row_is_named_by_its_line() {
        assert_eq!(
            lines_that_differ("head\n1\n2\n3\n", "head\nx\n2\ny\n"),
            [1, 3]
        );
        assert_eq!(lines_that_differ("head\n", "Head\n"), [0]);
    }

    #[test]
    fn missing_and_extra_rows_are_found() {
        let missing = differences(b"head\n1\n2\n", b"head\n1\n").next();
        assert_eq!(
            missing,
            Some(Difference {
                line: 2,
                expected: Some(b"2\n"),
                found: None
            })
        );
        assert_eq!(lines_that_differ("head\n1\n", "head\n1\n2\n3\n"), [2, 3]);
    }

    #[test]
    fn a_missing_last_newline_is_found() {
        assert_eq!(lines_that_differ("head\n1\n", "head\n1"), [1]);
    }

    #[test]
    fn texts_are_shown_from_their_difference() {
        let long = "a".repeat(500);
        let [expected, found] = from_difference(&format!("{long}bc"), &format!("{long}bd"));
        assert!(expected.starts_with("... aaaa") && expected.ends_with("aabc"));
        assert!(found.ends_with("aabd") && found.len() < 50);
        assert_eq!(from_difference("ab", "a"), ["ab", "a"]);
        assert_eq!(from_difference("", "a"), ["", "a"]);
    }

    #[test]
    fn equal_lines_are_one_and_only_the_last_are_shown() {
        let lines = |words: &[&str]| last_lines(words.iter().map(|word| word.to_string()));
        assert_eq!(lines(&["a", "b", "b", "a"]), ["a", "b (2 times)", "a"]);
        assert!(lines(&[]).is_empty());
        let many = last_lines((0..100).map(|number| number.to_string()));
        assert_eq!((many.len(), &many[0][..]), (61, "... 40 lines left out"));
        assert_eq!((&many[1][..], &many[60][..]), ("40", "99"));
    }

    #[test]
    fn octets_are_two_digits_each() {
        assert_eq!(hex(&[0x01, 0x80, 0xC2]), "0180c2");
    }

    #[test]
    fn thousands_are_parted() {
        let shown = [0, 999, 1_000, 200_000, 1_234_567].map(grouped);
        assert_eq!(shown, ["0", "999", "1,000", "200,000", "1,234,567"]);
    }

    #[test]
    fn long_lines_are_shown_by_their_ends() {
        assert_eq!(shortened(b"ab\r\0"), "ab\\r\\x00");
        let shown = shortened(&[b"a".repeat(5000), b"g".to_vec()].concat());
        assert!(shown.starts_with("aaaa") && shown.ends_with("aaag (5001 characters)"));
        assert!(shown.len() < 200);
    }
}
