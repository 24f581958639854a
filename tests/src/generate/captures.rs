//! Capture files: records behind a file header.

use super::MadeRecord;
use crate::paper::capture::{Order, ETHERNET, MAGIC};
use crate::random::Random;

/// The octets of a file header. Version, zone, accuracy and snap length, its second to
/// fifth number, say nothing to a lister.
pub fn file_header(order: Order, magic: u32, unread: [u32; 4], link_type: u32) -> Vec<u8> {
    let [version, zone, accuracy, snap_length] = unread;
    [magic, version, zone, accuracy, snap_length, link_type]
        .map(|number| order.octets(number))
        .concat()
}

/// The octets of a record's header.
pub fn record_header(order: Order, times: [u32; 2], stored: u32, original: u32) -> Vec<u8> {
    let [seconds, parts] = times;
    [seconds, parts, stored, original]
        .map(|number| order.octets(number))
        .concat()
}

/// A file without records as programs of Wireshark's kind write it: of version 2.4, and
/// lowest octets first.
pub fn usual_header() -> Vec<u8> {
    const VERSION: u32 = 2 | 4 << 16;
    const SNAP_LENGTH: u32 = 65_535;
    file_header(Order::Little, MAGIC, [VERSION, 0, 0, SNAP_LENGTH], ETHERNET)
}

/// A frame's record in such a file, at time 0.
pub fn usual_record(frame: &[u8]) -> Vec<u8> {
    let length = frame.len() as u32;
    let header = record_header(Order::Little, [0, 0], length, length);
    [&header[..], frame].concat()
}

/// A file of these records; what says nothing is at random.
pub fn capture(random: &mut Random, order: Order, records: &[MadeRecord]) -> Vec<u8> {
    let mut file = any_header(random, order, MAGIC, ETHERNET);
    for record in records {
        file.extend(record.in_file(order));
    }
    file
}

/// A file header in which what says nothing is at random.
pub fn any_header(random: &mut Random, order: Order, magic: u32, link_type: u32) -> Vec<u8> {
    let unread = [(); 4].map(|()| random.value(4) as u32);
    file_header(order, magic, unread, link_type)
}
