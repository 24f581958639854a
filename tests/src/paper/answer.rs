//! The answer numbers (the paper's section of that name): of a reading, a writing
//! or a line of text, 11 to 13 and 15 of the machine alone, and 16 to 18 of captures
//! alone (change request (vii)).

/// The listing's number for an accepted frame.
pub const ACCEPTED: u8 = 0;
/// The frame is not 60 to 1,514 octets.
pub const LENGTH: u8 = 1;
/// The destination is not 01-80-C2-00-00-02.
pub const DESTINATION: u8 = 2;
/// Length/Type is not 88-09.
pub const TYPE: u8 = 3;
/// The subtype is not 3.
pub const SUBTYPE: u8 = 4;
/// The code is 05 to FD, or FF.
pub const CODE: u8 = 5;
/// A TLV, descriptor or container is broken.
pub const BROKEN: u8 = 6;
/// A second Local, or second Remote, Information TLV.
pub const SECOND: u8 = 7;
/// The loopback command is not 1 or 2.
pub const COMMAND: u8 = 8;
/// The lent output is shorter than the frame or log line to be written, or in
/// receive, tick and report than 60 octets.
pub const OUTPUT: u8 = 9;
/// A value is out of range, what is to be written has no plain form, or a frame
/// whose descriptors are asked for is no Variable Request.
pub const VALUES: u8 = 10;
/// A request while discovery is not in SEND_ANY.
pub const NOT_SEND_ANY: u8 = 11;
/// The request's frame, plus 4, exceeds the smaller of the two maximum sizes.
pub const SIZE: u8 = 12;
/// Ten frames were written in the present and ten preceding intervals.
pub const LIMIT: u8 = 13;
/// The text line is not in its stated form.
pub const TEXT: u8 = 14;
/// Role, mode or the peer's capability forbids.
pub const FORBIDDEN: u8 = 15;
/// A capture's file header is short, or of another magic number or link type.
pub const FILE_HEADER: u8 = 16;
/// A capture's record is cut short: its stored length is below its original length.
pub const CUT_SHORT: u8 = 17;
/// A capture ends inside a record or its header.
pub const FILE_END: u8 = 18;

/// Every answer that a line of the listing can show.
pub const ALL: [u8; 10] = [
    ACCEPTED,
    LENGTH,
    DESTINATION,
    TYPE,
    SUBTYPE,
    CODE,
    BROKEN,
    SECOND,
    COMMAND,
    TEXT,
];
