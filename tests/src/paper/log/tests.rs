//! Log lines written by hand, and each way in which a line is none.

use super::*;

/// A line of each event type and its values.
const LINES: [(&str, [u64; 9]); 4] = [
    (
        "0\t1\t1\t10\t125000000\t1\t3\t4294967296\t7\n",
        [0, 1, 1, 10, 125_000_000, 1, 3, 4_294_967_296, 7],
    ),
    (
        "65535\t2\t2\t4660\t10\t1\t5\t256\t2\n",
        [65_535, 2, 2, 4660, 10, 1, 5, 256, 2],
    ),
    (
        "18\t3\t3\t65535\t1488095\t10\t16777216\t18446744073709551615\t2147483648\n",
        [
            18,
            3,
            3,
            65_535,
            1_488_095,
            10,
            16_777_216,
            u64::MAX,
            2_147_483_648,
        ],
    ),
    (
        "1000\t4\t4\t0\t600\t1\t60\t256\t4294967295\n",
        [1000, 4, 4, 0, 600, 1, 60, 256, 4_294_967_295],
    ),
];

fn written(fields: &[u64]) -> Result<Vec<u8>, u8> {
    let mut out = [0xEE; 200];
    let answer = write(fields[0], fields[1], &fields[2..], &mut out);
    let length = answer.unwrap_or(0);
    assert!(out[length..].iter().all(|&octet| octet == 0xEE));
    answer.map(|length| out[..length].to_vec())
}

#[test]
fn a_line_of_every_type_is_written_and_read() {
    for (line, fields) in LINES {
        assert_eq!(written(&fields), Ok(line.as_bytes().to_vec()));
        assert_eq!(read(line.as_bytes()), Ok(fields));
    }
}

#[test]
fn the_longest_line_has_112_octets() {
    let (two, four) = (u64::from(u16::MAX), u64::from(u32::MAX));
    let most = u64::MAX;
    for (position, octets) in [(9, 111), (10, 112), (16, 112)] {
        let longest = [two, position, 1, two, most, most, most, most, four];
        let line = written(&longest).expect("in range");
        assert_eq!(line.len(), octets, "position {position}");
        assert_eq!(read(&line), Ok(longest));
    }
    assert_eq!(LONGEST_LINE, 112);
}

/// The good fields with one of them changed.
fn with(field: usize, value: u64) -> [u64; 9] {
    let mut fields = [7, 1, 4, 1, 2, 3, 4, 5, 6];
    fields[field] = value;
    fields
}

/// Whether the fields can be written; whatever cannot is not read either.
fn in_range(fields: [u64; 9]) -> bool {
    let line = fields.map(|field| field.to_string()).join("\t") + "\n";
    let answer = written(&fields);
    match answer {
        Ok(ref text) => assert_eq!((text.as_slice(), read(text)), (line.as_bytes(), Ok(fields))),
        Err(answer) => assert_eq!((answer, read(line.as_bytes())), (10, Err(14))),
    }
    answer.is_ok()
}

#[test]
fn numbers_have_sixteen_bits() {
    assert!(in_range(with(0, 65_535)));
    assert!(!in_range(with(0, 65_536)));
    assert!(!in_range(with(0, u64::MAX)));
}

#[test]
fn positions_are_1_to_16() {
    for position in (0..40).chain([257, u64::MAX]) {
        assert_eq!(in_range(with(1, position)), (1..=16).contains(&position));
    }
}

/// Change request (vi): "Old log lines read as before".
#[test]
fn the_old_build_reads_positions_up_to_4_to_the_same_values() {
    for position in 1..=16 {
        let fields = with(1, position);
        let line = written(&fields).expect("in range");
        let old = if position <= 4 { Ok(fields) } else { Err(14) };
        assert_eq!(read_up_to(OLD_LAST_POSITION, &line), old, "{position}");
        assert_eq!(read(&line), Ok(fields));
    }
}

#[test]
fn types_are_1_to_4() {
    for kind in (0..20).chain([257, u64::MAX]) {
        assert_eq!(in_range(with(2, kind)), (1..=4).contains(&kind));
    }
}

#[test]
fn values_are_within_their_width() {
    // Type 4: two octets each, four for the totals.
    for field in 3..7 {
        assert!(in_range(with(field, 65_535)));
        assert!(!in_range(with(field, 65_536)));
    }
    for field in 7..9 {
        assert!(in_range(with(field, 4_294_967_295)));
        assert!(!in_range(with(field, 4_294_967_296)));
    }
}

#[test]
fn an_event_of_other_than_seven_numbers_is_10() {
    for count in (0..20).filter(|&count| count != 7) {
        assert_eq!(write(7, 1, &vec![1; count], &mut [0; 200]), Err(10));
    }
}

#[test]
fn an_output_shorter_than_the_line_is_9_and_10_comes_first() {
    let (line, fields) = LINES[0];
    for room in 0..line.len() {
        let mut out = vec![0xEE; room];
        assert_eq!(write(fields[0], fields[1], &fields[2..], &mut out), Err(9));
        assert!(out.iter().all(|&octet| octet == 0xEE));
        assert_eq!(write(fields[0], 0, &fields[2..], &mut out), Err(10));
    }
    let mut out = vec![0xEE; line.len()];
    let answer = write(fields[0], fields[1], &fields[2..], &mut out);
    assert_eq!(answer, Ok(line.len()));
}

#[test]
fn what_is_not_one_line_is_14() {
    for text in [
        "",
        "\n",
        "7\t1\t4\t1\t2\t3\t4\t5\t6",
        "7\t1\t4\t1\t2\t3\t4\t5\t6\n\n",
        "7\t1\t4\t1\t2\t3\t4\t5\t6\r\n",
        "7\t1\t4\t1\t2\t3\t4\t5\t6\n7\t1\t4\t1\t2\t3\t4\t5\t6\n",
        "\n7\t1\t4\t1\t2\t3\t4\t5\t6\n",
        "7\t1\t4\t1\t2\n3\t4\t5\t6\n",
    ] {
        assert_eq!(read(text.as_bytes()), Err(14), "{text:?}");
    }
}

#[test]
fn what_is_not_nine_decimal_fields_is_14() {
    for text in [
        "7\t1\t4\t1\t2\t3\t4\t5\n",
        "7\t1\t4\t1\t2\t3\t4\t5\t6\t7\n",
        "7\t1\t4\t1\t2\t3\t4\t5\t\n",
        "7\t1\t4\t1\t2\t3\t4\t5\t6\t\n",
        "\t7\t1\t4\t1\t2\t3\t4\t5\t6\n",
        "7\t1\t4\t\t1\t2\t3\t4\t5\t6\n",
        "7\t1\t4\t\t2\t3\t4\t5\t6\n",
        "\t1\t4\t1\t2\t3\t4\t5\t6\n",
        "07\t1\t4\t1\t2\t3\t4\t5\t6\n",
        "7\t1\t4\t00\t2\t3\t4\t5\t6\n",
        "7\t01\t4\t1\t2\t3\t4\t5\t6\n",
        "7\t016\t4\t1\t2\t3\t4\t5\t6\n",
        "7\t1 6\t4\t1\t2\t3\t4\t5\t6\n",
        "+7\t1\t4\t1\t2\t3\t4\t5\t6\n",
        "-7\t1\t4\t1\t2\t3\t4\t5\t6\n",
        "7\t1\t4\t1\t-0\t3\t4\t5\t6\n",
        " 7\t1\t4\t1\t2\t3\t4\t5\t6\n",
        "7 \t1\t4\t1\t2\t3\t4\t5\t6\n",
        "7 1 4 1 2 3 4 5 6\n",
        "7\t1\t4\t1\t2\t3\t4\t5\ta\n",
        "7\t1\t4\t1\t2\t3\t4\t5\t6\0\n",
    ] {
        assert_eq!(read(text.as_bytes()), Err(14), "{text:?}");
    }
    assert!(read(b"7\t1\t4\t1\t2\t3\t4\t5\t6\n").is_ok());
    assert!(read(b"0\t1\t4\t0\t0\t0\t0\t0\t0\n").is_ok());
}

#[test]
fn values_beyond_64_bits_do_not_come_round() {
    for beyond in [
        "18446744073709551616",
        "18446744073709551621",
        "99999999999999999999999999",
    ] {
        let line = format!("7\t1\t1\t1\t{beyond}\t3\t4\t5\t6\n");
        assert_eq!(read(line.as_bytes()), Err(14));
    }
    assert!(read(b"7\t1\t1\t1\t18446744073709551615\t3\t4\t5\t6\n").is_ok());
}
