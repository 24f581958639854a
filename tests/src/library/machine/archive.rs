//! The archive's link machine, called as a C program would.

use super::{Call, Machine, Response, Setup};
use crate::library::Archive;
use crate::paper::machine::Settings;
use crate::paper::windows::Windows;

// A slice passes as a pointer and a number of elements.
extern "C" {
    fn oam_fresh(
        configuration: u8,
        size: u16,
        oui: u32,
        vendor: u32,
        source: u64,
        required: u8,
        frame_window: u64,
        frame_threshold: u64,
        seconds_window: u64,
        seconds_threshold: u64,
        state: *mut u8,
        state_len: usize,
    ) -> u64;

    fn oam_tick(
        bad_frames: u64,
        events: *mut u64,
        events_len: usize,
        state: *mut u8,
        state_len: usize,
        out: *mut u8,
        out_len: usize,
    ) -> u64;

    fn oam_report(
        report: u8,
        state: *mut u8,
        state_len: usize,
        out: *mut u8,
        out_len: usize,
    ) -> u64;

    fn oam_receive(
        frame: *const u8,
        frame_len: usize,
        header: *mut u64,
        header_len: usize,
        state: *mut u8,
        state_len: usize,
        out: *mut u8,
        out_len: usize,
    ) -> u64;

    fn oam_start(state: *mut u8, state_len: usize, out: *mut u8, out_len: usize) -> u64;

    fn oam_stop(state: *mut u8, state_len: usize, out: *mut u8, out_len: usize) -> u64;

    fn oam_request(
        descriptors: *const u32,
        descriptors_len: usize,
        state: *mut u8,
        state_len: usize,
        out: *mut u8,
        out_len: usize,
    ) -> u64;

    fn oam_notify(
        events: *const u64,
        events_len: usize,
        state: *mut u8,
        state_len: usize,
        out: *mut u8,
        out_len: usize,
    ) -> u64;

    fn oam_organization(
        oui: u32,
        octets: *const u8,
        octets_len: usize,
        state: *mut u8,
        state_len: usize,
        out: *mut u8,
        out_len: usize,
    ) -> u64;

    fn oam_respond(
        attributes: *const u32,
        attributes_len: usize,
        values: *const u8,
        values_len: usize,
        descriptors: *const u32,
        descriptors_len: usize,
        state: *mut u8,
        state_len: usize,
        out: *mut u8,
        out_len: usize,
    ) -> u64;

    fn oam_show(state: *const u8, state_len: usize, numbers: *mut u64, numbers_len: usize) -> u64;
}

// SAFETY, of every call below: each pointer comes from a slice that lives through
// the call, with that slice's own length behind it, and what is written to is
// lent to this call alone.
//
// They are inlined, so that nothing of this package stands between a measured call
// and the entry.

impl Machine for Archive {
    #[inline(always)]
    fn fresh(&self, setup: &Setup, state: &mut [u8]) -> u64 {
        let Settings {
            configuration,
            size,
            oui,
            vendor,
            source,
            required,
        } = setup.settings;
        let Windows {
            frame_window,
            frame_threshold,
            seconds_window,
            seconds_threshold,
        } = setup.windows;
        let (state, length) = (state.as_mut_ptr(), state.len());
        unsafe {
            oam_fresh(
                configuration,
                size,
                oui,
                vendor,
                source,
                required,
                frame_window,
                frame_threshold,
                seconds_window,
                seconds_threshold,
                state,
                length,
            )
        }
    }

    #[inline(always)]
    fn call(&self, call: &Call, numbers: &mut [u64], kept: &mut [u8], output: &mut [u8]) -> u64 {
        let (values, count) = (numbers.as_mut_ptr(), numbers.len());
        let (state, length) = (kept.as_mut_ptr(), kept.len());
        let (out, room) = (output.as_mut_ptr(), output.len());
        match call {
            Call::Tick(bad) => unsafe { oam_tick(*bad, values, count, state, length, out, room) },
            Call::Report(report) => unsafe { oam_report(*report, state, length, out, room) },
            Call::Receive(frame) => unsafe {
                let (frame, octets) = (frame.as_ptr(), frame.len());
                oam_receive(frame, octets, values, count, state, length, out, room)
            },
            Call::Start => unsafe { oam_start(state, length, out, room) },
            Call::Stop => unsafe { oam_stop(state, length, out, room) },
            Call::Request(descriptors) => unsafe {
                let (descriptors, count) = (descriptors.as_ptr(), descriptors.len());
                oam_request(descriptors, count, state, length, out, room)
            },
            Call::Notify(events) => unsafe {
                oam_notify(events.as_ptr(), events.len(), state, length, out, room)
            },
            Call::Organization { oui, octets } => unsafe {
                let (octets, count) = (octets.as_ptr(), octets.len());
                oam_organization(*oui, octets, count, state, length, out, room)
            },
            Call::Respond(given) => respond_apart(given, kept, output),
        }
    }

    #[inline(always)]
    fn show(&self, state: &[u8], numbers: &mut [u64]) -> u64 {
        let (numbers, count) = (numbers.as_mut_ptr(), numbers.len());
        unsafe { oam_show(state.as_ptr(), state.len(), numbers, count) }
    }
}

impl Archive {
    /// A response. It has a function of its own for those who measure the stack.
    #[inline(always)]
    pub fn respond(&self, given: &Response, state: &mut [u8], out: &mut [u8]) -> u64 {
        unsafe {
            oam_respond(
                given.attributes.as_ptr(),
                given.attributes.len(),
                given.values.as_ptr(),
                given.values.len(),
                given.descriptors.as_ptr(),
                given.descriptors.len(),
                state.as_mut_ptr(),
                state.len(),
                out.as_mut_ptr(),
                out.len(),
            )
        }
    }
}

/// Not inlined as the others are: four of its arguments pass on the stack, and would
/// stand in the frame of whoever calls any entry.
#[inline(never)]
fn respond_apart(given: &Response, state: &mut [u8], out: &mut [u8]) -> u64 {
    Archive.respond(given, state, out)
}
