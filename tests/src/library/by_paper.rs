//! The library as this package's reading of the paper has it.

use super::{kind, Library, HEADER, ROW, ROW_PART, ROW_SKIPPED};
use crate::paper::{
    answer, asked, joined, list, log, read, write, Body, Draft, Listed, Message, Part, Standing,
};

pub struct ByPaper;

impl Library for ByPaper {
    fn write(&self, draft: &Draft, out: &mut [u8]) -> u64 {
        outcome(write(draft, out))
    }

    fn log_write(&self, number: u64, position: u64, event: &[u64], out: &mut [u8]) -> u64 {
        outcome(log::write(number, position, event, out))
    }

    fn log_read(&self, text: &[u8], values: &mut [u64]) -> u64 {
        match values.get_mut(..log::FIELDS) {
            None => answer::OUTPUT.into(),
            Some(room) => stored(log::read(text), room),
        }
    }

    fn read(&self, frame: &[u8], header: &mut [u64]) -> u64 {
        match header.get_mut(..HEADER) {
            None => answer::OUTPUT.into(),
            Some(room) => stored(read(frame).map(|message| header_of(&message)), room),
        }
    }

    fn read_all(&self, frame: &[u8], first: usize, header: &mut [u64], rows: &mut [u64]) -> u64 {
        let Some(header) = header.get_mut(..HEADER) else {
            return answer::OUTPUT.into();
        };
        let message = match read(frame) {
            Ok(message) => message,
            Err(answer) => return answer.into(),
        };
        header.copy_from_slice(&header_of(&message));
        let list = list(message.body.code(), frame);
        let all: Vec<[u64; ROW]> = list.iter().filter_map(row).collect();
        let stored = all.iter().skip(first).zip(rows.chunks_exact_mut(ROW));
        stored.for_each(|(row, room)| room.copy_from_slice(row));
        outcome(Ok(all.len()))
    }

    fn descriptors(&self, frame: &[u8], descriptors: &mut [u32]) -> u64 {
        outcome(stored_descriptors(frame, descriptors))
    }
}

/// How many descriptors are stored.
fn stored_descriptors(frame: &[u8], room: &mut [u32]) -> Result<usize, u8> {
    let asked = asked(frame)?;
    let room = room.get_mut(..asked.len()).ok_or(answer::OUTPUT)?;
    for (place, descriptor) in room.iter_mut().zip(&asked) {
        *place = descriptor.number();
    }
    Ok(asked.len())
}

/// What was written is told by its length, what was read by its count.
fn outcome(done: Result<usize, u8>) -> u64 {
    match done {
        Ok(length) => (length as u64) << 8 | u64::from(answer::ACCEPTED),
        Err(answer) => answer.into(),
    }
}

/// Stores what was read; a refusal stores nothing.
pub(super) fn stored<const N: usize>(read: Result<[u64; N], u8>, room: &mut [u64]) -> u64 {
    match read {
        Ok(values) => {
            room.copy_from_slice(&values);
            answer::ACCEPTED.into()
        }
        Err(answer) => answer.into(),
    }
}

pub(super) fn header_of(message: &Message) -> [u64; HEADER] {
    let fixed = match &message.body {
        Body::Notification { number, .. } => (*number).into(),
        Body::Loopback { command } => (*command).into(),
        Body::Organization { oui, .. } => joined(oui),
        Body::Information(_) | Body::Request(_) | Body::Response(_) => 0,
    };
    let source = joined(&message.source);
    [
        source,
        message.flags.into(),
        message.body.code().into(),
        fixed,
        message.skipped.total as u64,
    ]
}

/// The row of a part; a TLV that is skipped has none.
fn row(standing: &Standing) -> Option<[u64; ROW]> {
    let (kind, numbers) = match standing.part {
        Listed::Skipped => return None,
        Listed::Information(part @ Part::Local(_)) => {
            (kind::LOCAL, part.fields().numbers().to_vec())
        }
        Listed::Information(part @ Part::Remote(_)) => {
            (kind::REMOTE, part.fields().numbers().to_vec())
        }
        Listed::Event(event) => (kind::EVENT, event.numbers().to_vec()),
        Listed::Descriptor(descriptor) => (kind::DESCRIPTOR, vec![descriptor.number().into()]),
        Listed::Value {
            descriptor,
            at,
            width,
        } => {
            let descriptor = descriptor.number().into();
            (kind::VALUE, vec![descriptor, at as u64, width as u64])
        }
        Listed::Indication { descriptor, width } => {
            let descriptor = descriptor.number().into();
            (kind::INDICATION, vec![descriptor, width.into()])
        }
    };
    let mut row = [0; ROW];
    row[0] = kind;
    row[1] = standing.next as u64;
    row[ROW_SKIPPED] = standing.skipped as u64;
    row[ROW_PART..][..numbers.len()].copy_from_slice(&numbers);
    Some(row)
}

#[cfg(test)]
mod tests {
    use super::*;
    use crate::paper::DraftBody;

    /// Flags 0050, the code and body given, zeros up to 60 octets.
    fn frame(code: u8, body: &[u8]) -> Vec<u8> {
        let header = [
            1, 0x80, 0xC2, 0, 0, 2, 2, 0, 0, 0, 0, 1, 0x88, 9, 3, 0, 0x50,
        ];
        let mut frame = [&header[..], &[code], body].concat();
        frame.resize(frame.len().max(60), 0);
        frame
    }

    const SOURCE: u64 = 0x0200_0000_0001;
    const OLD: u64 = 77;

    /// What is stored in room for `N` numbers, and the outcome.
    fn read_into<const N: usize>(frame: &[u8]) -> (u64, [u64; N]) {
        let mut header = [OLD; N];
        (ByPaper.read(frame, &mut header), header)
    }

    /// The outcome with room for `N` numbers of rows, and what is stored there.
    fn rows_into<const N: usize>(frame: &[u8], first: usize) -> (u64, [u64; N]) {
        let (mut header, mut rows) = ([OLD; HEADER + 1], [OLD; N]);
        let outcome = ByPaper.read_all(frame, first, &mut header, &mut rows);
        let mut expected = [OLD; HEADER + 1];
        ByPaper.read(frame, &mut expected);
        assert_eq!(header, expected);
        (outcome, rows)
    }

    #[test]
    fn an_outcome_has_the_length_above_the_answer() {
        let body = DraftBody::Loopback { command: 1 };
        let (source, flags) = (SOURCE, 0x50);
        let mut draft = Draft {
            source,
            flags,
            body,
        };
        assert_eq!(ByPaper.write(&draft, &mut [0; 60]), 60 * 256);
        assert_eq!(ByPaper.write(&draft, &mut [0; 59]), 9);
        draft.flags = 0x80;
        assert_eq!(ByPaper.write(&draft, &mut [0; 59]), 10);
        let event = [4, 1, 2, 3, 4, 5, 6];
        assert_eq!(ByPaper.log_write(7, 1, &event, &mut [0; 50]), 18 * 256);
        assert_eq!(ByPaper.log_write(7, 1, &event, &mut [0; 17]), 9);
        assert_eq!(ByPaper.log_write(7, 0, &event, &mut [0; 17]), 10);
    }

    #[test]
    fn a_header_is_source_flags_code_the_fixed_number_and_what_is_skipped() {
        for (code, body, fixed) in [
            (0, &[][..], 0),
            (1, &[0x12, 0x34], 0x1234),
            (2, &[7, 0, 2], 0),
            (3, &[7, 0, 2, 0xA1], 0),
            (4, &[2], 2),
            (0xFE, &[0xAA, 0xBB, 0xCC], 0xAA_BBCC),
        ] {
            let stored = [SOURCE, 0x50, code.into(), fixed, 0, OLD];
            assert_eq!(read_into(&frame(code, body)), (0, stored));
        }
        for (code, body, fixed, skipped) in [
            (0, &[3, 2, 4, 2, 0, 5, 2][..], 0, 2),
            (1, &[0x12, 0x34, 0xFE, 2], 0x1234, 1),
        ] {
            let stored = [SOURCE, 0x50, code.into(), fixed, skipped, OLD];
            assert_eq!(read_into(&frame(code, body)), (0, stored));
        }
    }

    #[test]
    fn a_refusal_stores_nothing_and_9_comes_first() {
        assert_eq!(read_into(&frame(4, &[3])), (8, [OLD; 5]));
        assert_eq!(read_into(&frame(4, &[3])), (9, [OLD; 4]));
        assert_eq!(read_into(&frame(0, &[3, 2, 4, 1])), (6, [OLD; 5]));
        assert_eq!(read_into(&frame(4, &[1])), (9, [OLD; 0]));
        let mut values = [OLD; 10];
        assert_eq!(ByPaper.log_read(b"7", &mut values), 14);
        assert_eq!(ByPaper.log_read(b"7", &mut values[..8]), 9);
        let line = b"7\t1\t4\t1\t2\t3\t4\t5\t6\n";
        assert_eq!(ByPaper.log_read(line, &mut values[..8]), 9);
        assert_eq!(values, [OLD; 10]);
        assert_eq!(ByPaper.log_read(line, &mut values), 0);
        assert_eq!(values, [7, 1, 4, 1, 2, 3, 4, 5, 6, OLD]);
    }

    /// Rows of a kind, the next octet, how many are skipped, and numbers; old values
    /// behind them.
    fn rows<const N: usize>(parts: &[(u64, &[u64])]) -> [u64; N] {
        let mut rows = [OLD; N];
        for (row, (kind, numbers)) in rows.chunks_mut(ROW).zip(parts) {
            row.fill(0);
            row[0] = *kind;
            row[1..=numbers.len()].copy_from_slice(numbers);
        }
        rows
    }

    #[test]
    fn a_row_is_a_kind_the_octet_after_the_part_and_its_numbers() {
        let local = [
            1, 16, 1, 0, 42, 5, 0x1D, 5, 0xEE, 0, 0x1B, 0x21, 0xDE, 0xAD, 0xBE, 0xEF,
        ];
        let remote = [&[2], &local[1..]].concat();
        let information = frame(0, &[&local[..], &[9, 3, 0], &remote].concat());
        let with = |next, skipped| [next, skipped, 1, 42, 5, 0x1D, 0x05EE, 0x1B21, 0xDEAD_BEEF];
        let (first, second) = (with(34, 0), with(53, 1));
        let expected = rows(&[(32, &first), (33, &second)]);
        assert_eq!(rows_into::<30>(&information, 0), (2 * 256, expected));
        let expected = rows(&[(33, &second)]);
        assert_eq!(rows_into::<10>(&information, 1), (2 * 256, expected));

        let seconds = [4, 18, 0, 1, 0, 2, 0, 3, 0, 4, 0, 0, 0, 5, 0, 0, 0, 6];
        let notification = frame(1, &[&[0, 0], &seconds[..]].concat());
        let expected = rows(&[(34, &[38, 0, 4, 1, 2, 3, 4, 5, 6])]);
        assert_eq!(rows_into::<11>(&notification, 0), (256, expected));

        let request = frame(2, &[7, 1, 2, 0, 5]);
        let expected = rows(&[(35, &[21, 0, 0x07_0102])]);
        assert_eq!(rows_into::<10>(&request, 0), (256, expected));

        let response = frame(3, &[7, 1, 2, 2, 0xAA, 0xBB, 7, 1, 3, 0xA1]);
        let value = [24, 0, 0x07_0102, 22, 2];
        let expected = rows(&[(36, &value), (37, &[28, 0, 0x07_0103, 0xA1])]);
        assert_eq!(rows_into::<20>(&response, 0), (2 * 256, expected));
    }

    #[test]
    fn rows_are_stored_whole_from_the_first_that_is_asked_for() {
        let request = frame(2, &[1, 0, 1, 2, 0, 2, 3, 0, 3]);
        let [one, two, three] = [[21, 0, 0x01_0001], [24, 0, 0x02_0002], [27, 0, 0x03_0003]];
        let count = 3 * 256;
        let expected = rows(&[(35, &one)]);
        assert_eq!(rows_into::<19>(&request, 0), (count, expected));
        let expected = rows(&[(35, &two), (35, &three)]);
        assert_eq!(rows_into::<22>(&request, 1), (count, expected));
        let expected = rows(&[(35, &three)]);
        assert_eq!(rows_into::<100>(&request, 2), (count, expected));
        assert_eq!(rows_into(&request, 3), (count, [OLD; 100]));
        assert_eq!(rows_into(&request, usize::MAX), (count, [OLD; 100]));
        assert_eq!(rows_into(&request, 0), (count, [OLD; ROW - 1]));
        assert_eq!(rows_into(&request, 0), (count, [OLD; 0]));
    }

    #[test]
    fn descriptors_are_stored_all_or_none() {
        let request = frame(2, &[7, 0, 2, 0xFF, 0xFF, 0xFF, 0, 5]);
        let stored = |frame: &[u8], room: usize| {
            let mut descriptors = [77; 4];
            let outcome = ByPaper.descriptors(frame, &mut descriptors[..room]);
            (outcome, descriptors)
        };
        let both = [0x07_0002, 0xFF_FFFF, 77, 77];
        assert_eq!(stored(&request, 2), (2 * 256, both));
        assert_eq!(stored(&request, 4), (2 * 256, both));
        assert_eq!(stored(&request, 1), (9, [77; 4]));
        assert_eq!(stored(&request, 0), (9, [77; 4]));
        assert_eq!(stored(&frame(2, &[]), 0), (0, [77; 4]));
        assert_eq!(stored(&frame(3, &[7, 0, 2, 0xA1]), 0), (10, [77; 4]));
        assert_eq!(stored(&frame(3, &[7, 0, 2, 0x7F]), 0), (6, [77; 4]));
        assert_eq!(stored(&frame(5, &[7, 0, 2]), 4), (5, [77; 4]));
        assert_eq!(stored(&request[..59], 4), (1, [77; 4]));
    }

    #[test]
    fn there_is_no_row_without_a_list_and_an_accepted_frame() {
        assert_eq!(rows_into(&frame(4, &[1]), 0), (0, [OLD; ROW]));
        assert_eq!(rows_into(&frame(0xFE, &[1, 2, 3]), 0), (0, [OLD; ROW]));
        assert_eq!(rows_into(&frame(2, &[]), 0), (0, [OLD; ROW]));
        assert_eq!(rows_into(&frame(5, &[]), 0), (5, [OLD; ROW]));
        assert_eq!(rows_into(&frame(0, &[3, 1]), 0), (6, [OLD; ROW]));
        assert_eq!(rows_into(&frame(2, &[7, 1, 2])[..59], 0), (1, [OLD; ROW]));
        let (mut header, mut rows) = ([OLD; HEADER - 1], [OLD; ROW]);
        let short = ByPaper.read_all(&frame(5, &[]), 0, &mut header, &mut rows);
        assert_eq!((short, header, rows), (9, [OLD; HEADER - 1], [OLD; ROW]));
    }
}
