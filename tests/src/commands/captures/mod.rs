//! `captures`: compares a capture lister's whole output with the paper's listing, byte for
//! byte, over many records, over files with every edge, and over several ways of feeding it.

mod memory;
mod rows;

#[cfg(test)]
mod tests;

use super::arguments::Arguments;
use super::process::Program;
use super::trial::Trial;
use super::{counted, Outcome};
use oam_tests::compare::{grouped, hex, shortened};
use oam_tests::generate::{any_record, capture, every_edge, mixed_records, Edge, MadeRecord};
use oam_tests::paper::capture::{listing, listing_so_far, records, Order, FILE_HEADER};
use oam_tests::random::{seed_from_clock, Random};

const RECORDS: u64 = 200_000;
/// How often each row must come in each of the long files, however few records it has.
const LEAST: usize = 1_000;
/// Records that are fed octet by octet, and the longest of them.
const FEW_RECORDS: usize = 300;
const FEW_OCTETS: usize = 3_000;
/// More than a pipe holds.
const MANY_OCTETS: usize = 300_000;

pub fn run(arguments: &Arguments) -> Outcome {
    let program = arguments.program()?;
    let seed = arguments.number("--seed").unwrap_or_else(seed_from_clock);
    let count = arguments.number("--records").unwrap_or(RECORDS) as usize;
    println!("seed {seed}");
    let mut random = Random::new(seed);
    let many = mixed_records(&mut random, count, LEAST);
    let few = few_records(&mut random);
    let edges = every_edge(&mut random);
    check_claims(&many, &edges)?;
    check_claims(&few, &[])?;
    counted(&rows::reached(&many, LEAST), &format!("seed {seed}"))?;
    let trial = trial(program, seed);
    for order in Order::BOTH {
        println!("{order:?}-endian:");
        whole_file(&trial, &capture(&mut random, order, &many), &mut random)?;
        trial.octet_by_octet(&capture(&mut random, order, &few))?;
    }
    let named = edges.iter().map(|edge| (edge.name.clone(), &edge.file[..]));
    trial.each("files with an edge", named)?;
    memory::long_records(&trial.program)?;
    live(&trial, &few, &mut random)?;
    failing(&trial, &few, &mut random)?;
    trial.unwritable()?;
    println!("no difference");
    Ok(())
}

fn trial(program: Program, seed: u64) -> Trial {
    Trial {
        program,
        seed,
        listing,
        listed,
    }
}

/// Short records of all kinds.
fn few_records(random: &mut Random) -> Vec<MadeRecord> {
    let any = std::iter::repeat_with(|| any_record(random));
    let short = |record: &MadeRecord| record.octets.len() <= FEW_OCTETS;
    any.filter(short).take(FEW_RECORDS).collect()
}

/// The generators and the reader of this package must agree before anything is said about
/// the program.
fn check_claims(records: &[MadeRecord], edges: &[Edge]) -> Outcome {
    if let Some(record) = records.iter().find(|record| !record.holds()) {
        return Err(format!("this package errs: {record:?} does not read so").into());
    }
    match edges.iter().find(|edge| !edge.holds()) {
        Some(edge) => Err(format!("this package errs: {} has other rows", edge.name).into()),
        None => Ok(()),
    }
}

/// A long file: from a file, by one write, and in pieces of odd sizes.
fn whole_file(trial: &Trial, file: &[u8], random: &mut Random) -> Outcome {
    let ran = trial.on_file("from a file", file)?;
    let count = rows::as_in_lines(file, &ran.output)?;
    println!("lists {} frames as their lines would be", grouped(count));
    trial.by_one_write(file)?;
    trial.in_pieces("in pieces", file, random)
}

/// The header is written before anything is read, a record's row before the next record is
/// asked for, and row 16 at once; what comes behind it is still taken.
fn live(trial: &Trial, few: &[MadeRecord], random: &mut Random) -> Outcome {
    for order in Order::BOTH {
        let header = capture(random, order, &[]);
        let records: Vec<Vec<u8>> = few.iter().map(|record| record.in_file(order)).collect();
        let mut pieces = vec![&header[..]];
        pieces.extend(records.iter().map(Vec::as_slice));
        trial.live(&pieces, listing_so_far)?;

        let other = vec![0xA1; FILE_HEADER];
        let ignored = random.octets(MANY_OCTETS);
        trial.live(&[&other, &header, &ignored, &ignored], listing_so_far)?;
    }
    println!("lists a live input as it comes");
    Ok(())
}

/// No row 16 for a header, and no row 18 for a record, of which reading fails.
fn failing(trial: &Trial, few: &[MadeRecord], random: &mut Random) -> Outcome {
    let file = capture(random, Order::Little, &few[..2]);
    let first = FILE_HEADER + few[0].in_file(Order::Little).len();
    let lengths = [
        0,
        1,
        FILE_HEADER - 1,
        FILE_HEADER,
        first,
        first + 1,
        file.len() - 1,
    ];
    trial.failing(&lengths.map(|length| &file[..length]), listing_so_far)
}

/// The record of a row, for people.
fn listed(file: &[u8], number: usize) -> String {
    let Ok(mut records) = records(file) else {
        return format!("no capture: {}", shortened(hex(file).as_bytes()));
    };
    match records.nth(number - 1) {
        None => String::from("(no record)"),
        Some(Err(answer)) => format!("the end, inside a record: {answer}"),
        Some(Ok(record)) => {
            let (stored, octets) = (record.octets.len(), hex(record.octets));
            let octets = shortened(octets.as_bytes());
            format!("stored {stored}, original {}: {octets}", record.original)
        }
    }
}
