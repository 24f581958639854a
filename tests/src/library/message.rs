//! A whole message, read through a library's functions alone.

use super::{answer_of, kind, length_of, Library, HEADER, ROW, ROW_PART, ROW_SKIPPED};
use crate::paper::{
    answer, code, parted, Body, Container, Content, Descriptor, Event, Information, Message, Part,
    Skipped, MOST_PARTS, NUMBERS,
};
use std::borrow::Cow;

/// Why there is no message.
#[derive(Clone, Debug, PartialEq, Eq)]
pub enum Unread {
    /// The frame was answered with this number.
    Refused(u8),
    /// The library contradicts itself, or gives numbers that no frame holds.
    Senseless(String),
}

/// Reads a frame, its header and all its parts, by one call.
pub fn message<'a>(library: &dyn Library, frame: &'a [u8]) -> Result<Message<'a>, Unread> {
    let (mut header, mut rows) = ([0; HEADER], [0; ROW * MOST_PARTS]);
    let outcome = library.read_all(frame, 0, &mut header, &mut rows);
    match answer_of(outcome) {
        answer::ACCEPTED => {}
        refusal => return Err(Unread::Refused(refusal)),
    }
    let count = length_of(outcome);
    if count > MOST_PARTS {
        return senseless(format!("a frame has {count} parts"));
    }
    let [source, flags, code, fixed, total] = header;
    let list = list(frame, &rows[..ROW * count])?;
    let body = body(fit(code)?, fixed, frame, &list)?;
    Ok(Message {
        source: octets(source)?,
        flags: fit(flags)?,
        skipped: skipped(&body, total, &list)?,
        body,
    })
}

/// A part: its kind, the TLVs skipped before it, and its own numbers.
struct Given {
    kind: u64,
    skipped: u64,
    numbers: [u64; ROW - ROW_PART],
}

/// The parts of rows. Each ends behind the one before it and in the frame.
fn list(frame: &[u8], rows: &[u64]) -> Result<Vec<Given>, Unread> {
    let (mut parts, mut at) = (Vec::new(), 0);
    for row in rows.chunks_exact(ROW) {
        let next: usize = fit(row[1])?;
        if next <= at || next > frame.len() {
            return senseless(format!("behind octet {at} a part ends at {next}"));
        }
        at = next;
        parts.push(Given {
            kind: row[0],
            skipped: row[ROW_SKIPPED],
            numbers: *row.last_chunk().expect("a row has more numbers"),
        });
    }
    Ok(parts)
}

fn body<'a>(code: u8, fixed: u64, frame: &'a [u8], list: &[Given]) -> Result<Body<'a>, Unread> {
    let parts = list.iter();
    if let (code::LOOPBACK | code::ORGANIZATION, [part, ..]) = (code, list) {
        return part.foreign();
    }
    Ok(match code {
        code::INFORMATION => Body::Information(parts.map(information).collect::<Result<_, _>>()?),
        code::NOTIFICATION => Body::Notification {
            number: fit(fixed)?,
            events: parts.map(event).collect::<Result<_, _>>()?,
        },
        code::REQUEST => Body::Request(parts.map(named).collect::<Result<_, _>>()?),
        code::RESPONSE => {
            let containers = parts.map(|part| container(part, frame));
            Body::Response(containers.collect::<Result<_, _>>()?)
        }
        code::LOOPBACK => Body::Loopback {
            command: fit(fixed)?,
        },
        code::ORGANIZATION => Body::Organization {
            oui: octets(fixed)?,
            data: Cow::Borrowed(frame.get(21..).unwrap_or_default()),
        },
        other => return senseless(format!("a frame of code {other:02x} is accepted")),
    })
}

/// What the walk over a body of TLVs skipped; in another body there is none.
fn skipped(body: &Body, total: u64, list: &[Given]) -> Result<Skipped, Unread> {
    let before = list.iter().map(|part| fit(part.skipped));
    let skipped = Skipped {
        before: before.collect::<Result<_, _>>()?,
        total: fit(total)?,
    };
    match body {
        Body::Information(_) | Body::Notification { .. } => Ok(skipped),
        _ if skipped.total > 0 || skipped.before.iter().any(|&before| before > 0) => {
            senseless(format!("{skipped:?} in a body without TLVs"))
        }
        _ => Ok(Skipped::default()),
    }
}

fn information(part: &Given) -> Result<Part, Unread> {
    let fields = Information::from_numbers(part.seven()).ok_or_else(|| part.beyond())?;
    match part.kind {
        kind::LOCAL => Ok(Part::Local(fields)),
        kind::REMOTE => Ok(Part::Remote(fields)),
        _ => part.foreign(),
    }
}

fn event(part: &Given) -> Result<Event, Unread> {
    match part.kind {
        kind::EVENT => Event::from_numbers(part.seven()).ok_or_else(|| part.beyond()),
        _ => part.foreign(),
    }
}

fn named(part: &Given) -> Result<Descriptor, Unread> {
    match part.kind {
        kind::DESCRIPTOR => part.descriptor(),
        _ => part.foreign(),
    }
}

fn container<'a>(part: &Given, frame: &'a [u8]) -> Result<Container<'a>, Unread> {
    let [_, second, third, ..] = part.numbers;
    let content = match part.kind {
        kind::VALUE => {
            let (start, width): (usize, usize) = (fit(second)?, fit(third)?);
            let behind = frame.get(start..).unwrap_or_default();
            let value = behind.get(..width).ok_or_else(|| part.beyond())?;
            Content::Value(Cow::Borrowed(value))
        }
        kind::INDICATION => Content::Indication(fit(second)?),
        _ => return part.foreign(),
    };
    Ok(Container {
        descriptor: part.descriptor()?,
        content,
    })
}

impl Given {
    fn seven(&self) -> &[u64; NUMBERS] {
        &self.numbers
    }

    fn descriptor(&self) -> Result<Descriptor, Unread> {
        Descriptor::from_number(self.numbers[0]).ok_or_else(|| self.beyond())
    }

    fn beyond(&self) -> Unread {
        Unread::Senseless(format!(
            "a number is beyond its field in {:?}",
            self.numbers
        ))
    }

    fn foreign<T>(&self) -> Result<T, Unread> {
        senseless(format!("a part of kind {} in another list", self.kind))
    }
}

fn senseless<T>(reason: String) -> Result<T, Unread> {
    Err(Unread::Senseless(reason))
}

fn fit<T: TryFrom<u64>>(number: u64) -> Result<T, Unread> {
    let fitting = T::try_from(number).ok();
    fitting.ok_or_else(|| Unread::Senseless(format!("{number} is beyond its field")))
}

fn octets<const N: usize>(number: u64) -> Result<[u8; N], Unread> {
    parted(number).ok_or_else(|| Unread::Senseless(format!("{number} is beyond its field")))
}

#[cfg(test)]
mod tests {
    use super::*;
    use crate::generate::any_frame;
    use crate::library::ByPaper;
    use crate::paper::{read, Draft};
    use crate::random::Random;

    #[test]
    fn the_papers_library_gives_the_papers_message() {
        let mut random = Random::new(3);
        for _ in 0..20_000 {
            let frame = any_frame(&mut random).frame;
            let expected = read(&frame).map_err(Unread::Refused);
            assert_eq!(message(&ByPaper, &frame), expected);
        }
    }

    /// Answers with a header of some code and one row, and leaves the rest to the
    /// paper's library.
    struct Always {
        code: u8,
        total: u64,
        row: [u64; ROW],
        count: u64,
    }

    impl Library for Always {
        fn write(&self, draft: &Draft, out: &mut [u8]) -> u64 {
            ByPaper.write(draft, out)
        }

        fn log_write(&self, number: u64, position: u64, event: &[u64], out: &mut [u8]) -> u64 {
            ByPaper.log_write(number, position, event, out)
        }

        fn log_read(&self, text: &[u8], values: &mut [u64]) -> u64 {
            ByPaper.log_read(text, values)
        }

        fn read(&self, frame: &[u8], header: &mut [u64]) -> u64 {
            ByPaper.read(frame, header)
        }

        fn read_all(&self, _: &[u8], _: usize, header: &mut [u64], rows: &mut [u64]) -> u64 {
            header.copy_from_slice(&[0, 0, self.code.into(), 0, self.total]);
            for row in rows.chunks_exact_mut(ROW) {
                row.copy_from_slice(&self.row);
            }
            self.count << 8
        }

        fn descriptors(&self, frame: &[u8], descriptors: &mut [u32]) -> u64 {
            ByPaper.descriptors(frame, descriptors)
        }
    }

    /// What is read by a library that always answers so.
    fn always(
        code: u8,
        total: u64,
        row: [u64; ROW],
        count: u64,
    ) -> Result<Message<'static>, Unread> {
        let library = Always {
            code,
            total,
            row,
            count,
        };
        message(&library, &[0; 60])
    }

    #[test]
    fn a_senseless_list_is_no_message() {
        let beyond = |kind| [kind, 40, 0, 1 << 40, 1 << 40, 1 << 40, 0, 0, 0, 0];
        let descriptor = |next| [kind::DESCRIPTOR, next, 0, 0x07_0102, 0, 0, 0, 0, 0, 0];
        let most = MOST_PARTS as u64;
        for (code, row, count) in [
            (code::INFORMATION, beyond(kind::LOCAL), 1),
            (code::INFORMATION, descriptor(40), 1),
            (code::NOTIFICATION, beyond(kind::EVENT), 1),
            (code::REQUEST, beyond(kind::DESCRIPTOR), 1),
            (code::REQUEST, descriptor(0), 1),
            (code::REQUEST, descriptor(61), 1),
            (code::REQUEST, descriptor(40), 2),
            (code::REQUEST, descriptor(40), most + 1),
            (code::REQUEST, beyond(0), 1),
            (code::RESPONSE, beyond(kind::VALUE), 1),
            (code::RESPONSE, beyond(kind::INDICATION), 1),
            (code::LOOPBACK, descriptor(40), 1),
            (code::ORGANIZATION, descriptor(40), 1),
            (5, descriptor(40), 1),
        ] {
            let found = always(code, 0, row, count);
            assert!(matches!(found, Err(Unread::Senseless(_))), "{found:?}");
        }
        assert!(always(code::REQUEST, 0, descriptor(40), 1).is_ok());
    }

    #[test]
    fn only_a_body_of_tlvs_has_some_that_are_skipped() {
        let row = |kind, skipped| [kind, 40, skipped, 1, 0, 0, 0, 0, 0, 0];
        let found = always(code::INFORMATION, 7, row(kind::LOCAL, 3), 1);
        let (before, total) = (vec![3], 7);
        assert_eq!(
            found.map(|message| message.skipped),
            Ok(Skipped { before, total })
        );
        let descriptor = |skipped| row(kind::DESCRIPTOR, skipped);
        assert!(always(code::REQUEST, 0, descriptor(0), 1).is_ok());
        for (code, total, skipped, count) in [
            (code::REQUEST, 1, 0, 1),
            (code::REQUEST, 0, 1, 1),
            (code::LOOPBACK, 1, 0, 0),
        ] {
            let found = always(code, total, descriptor(skipped), count);
            assert!(matches!(found, Err(Unread::Senseless(_))), "{found:?}");
        }
    }
}
