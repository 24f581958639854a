//! The product's archive, called as a C program would.

use super::Library;
use crate::paper::{Draft, DraftBody};

pub struct Archive;

// A slice passes as a pointer and a number of elements.
extern "C" {
    fn oam_write_information(
        source: u64,
        flags: u16,
        local: *const u64,
        local_len: usize,
        remote: *const u64,
        remote_len: usize,
        out: *mut u8,
        out_len: usize,
    ) -> u64;

    fn oam_write_notification(
        source: u64,
        flags: u16,
        number: u16,
        events: *const u64,
        events_len: usize,
        out: *mut u8,
        out_len: usize,
    ) -> u64;

    fn oam_write_request(
        source: u64,
        flags: u16,
        descriptors: *const u32,
        descriptors_len: usize,
        out: *mut u8,
        out_len: usize,
    ) -> u64;

    fn oam_write_response(
        source: u64,
        flags: u16,
        containers: *const u8,
        containers_len: usize,
        out: *mut u8,
        out_len: usize,
    ) -> u64;

    fn oam_write_loopback(
        source: u64,
        flags: u16,
        command: u8,
        out: *mut u8,
        out_len: usize,
    ) -> u64;

    fn oam_write_organization(
        source: u64,
        flags: u16,
        oui: u32,
        data: *const u8,
        data_len: usize,
        out: *mut u8,
        out_len: usize,
    ) -> u64;

    fn oam_log_write(
        number: u64,
        position: u64,
        event: *const u64,
        event_len: usize,
        out: *mut u8,
        out_len: usize,
    ) -> u64;

    fn oam_log_read(text: *const u8, text_len: usize, values: *mut u64, values_len: usize) -> u64;

    fn oam_read(frame: *const u8, frame_len: usize, header: *mut u64, header_len: usize) -> u64;

    fn oam_read_all(
        frame: *const u8,
        frame_len: usize,
        first: usize,
        header: *mut u64,
        header_len: usize,
        rows: *mut u64,
        rows_len: usize,
    ) -> u64;

    fn oam_descriptors(
        frame: *const u8,
        frame_len: usize,
        descriptors: *mut u32,
        descriptors_len: usize,
    ) -> u64;
}

// SAFETY, of every call below: each pointer comes from a slice that lives through
// the call, with that slice's own length behind it, and what is written to is
// lent to this call alone.
//
// They are inlined, so that nothing of this package stands between a measured call
// and the entry.

impl Library for Archive {
    #[inline(always)]
    fn write(&self, draft: &Draft, out: &mut [u8]) -> u64 {
        let (source, flags) = (draft.source, draft.flags);
        let (out, out_len) = (out.as_mut_ptr(), out.len());
        match &draft.body {
            DraftBody::Information { local, remote } => unsafe {
                oam_write_information(
                    source,
                    flags,
                    local.as_ptr(),
                    local.len(),
                    remote.as_ptr(),
                    remote.len(),
                    out,
                    out_len,
                )
            },
            DraftBody::Notification { number, events } => unsafe {
                let (events, events_len) = (events.as_ptr(), events.len());
                oam_write_notification(source, flags, *number, events, events_len, out, out_len)
            },
            DraftBody::Request { descriptors } => unsafe {
                let (descriptors, count) = (descriptors.as_ptr(), descriptors.len());
                oam_write_request(source, flags, descriptors, count, out, out_len)
            },
            DraftBody::Response { containers } => unsafe {
                let (containers, count) = (containers.as_ptr(), containers.len());
                oam_write_response(source, flags, containers, count, out, out_len)
            },
            DraftBody::Loopback { command } => unsafe {
                oam_write_loopback(source, flags, *command, out, out_len)
            },
            DraftBody::Organization { oui, data } => unsafe {
                let (data, data_len) = (data.as_ptr(), data.len());
                oam_write_organization(source, flags, *oui, data, data_len, out, out_len)
            },
        }
    }

    #[inline(always)]
    fn log_write(&self, number: u64, position: u64, event: &[u64], out: &mut [u8]) -> u64 {
        let (event, event_len) = (event.as_ptr(), event.len());
        let (out, out_len) = (out.as_mut_ptr(), out.len());
        unsafe { oam_log_write(number, position, event, event_len, out, out_len) }
    }

    #[inline(always)]
    fn log_read(&self, text: &[u8], values: &mut [u64]) -> u64 {
        let (values, values_len) = (values.as_mut_ptr(), values.len());
        unsafe { oam_log_read(text.as_ptr(), text.len(), values, values_len) }
    }

    #[inline(always)]
    fn read(&self, frame: &[u8], header: &mut [u64]) -> u64 {
        let (header, header_len) = (header.as_mut_ptr(), header.len());
        unsafe { oam_read(frame.as_ptr(), frame.len(), header, header_len) }
    }

    #[inline(always)]
    fn read_all(&self, frame: &[u8], first: usize, header: &mut [u64], rows: &mut [u64]) -> u64 {
        let (frame, frame_len) = (frame.as_ptr(), frame.len());
        let (header, header_len) = (header.as_mut_ptr(), header.len());
        let (rows, rows_len) = (rows.as_mut_ptr(), rows.len());
        unsafe { oam_read_all(frame, frame_len, first, header, header_len, rows, rows_len) }
    }

    #[inline(always)]
    fn descriptors(&self, frame: &[u8], descriptors: &mut [u32]) -> u64 {
        let (descriptors, count) = (descriptors.as_mut_ptr(), descriptors.len());
        unsafe { oam_descriptors(frame.as_ptr(), frame.len(), descriptors, count) }
    }
}
