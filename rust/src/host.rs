//! The exported functions, called from safe Rust.
//!
//! Nothing checks the declarations below against the proved source: the test `compare` does, by calling.

use crate::Config;

extern "C" {
    fn mbrb_open(
        n: u8,
        t: u8,
        d: u8,
        own: u8,
        day: u32,
        quorum: u32,
        records: *mut u8,
        records_len: usize,
    ) -> u32;
    fn mbrb_broadcast(
        n: u8,
        t: u8,
        d: u8,
        own: u8,
        day: u32,
        quorum: u32,
        payload: *const u8,
        payload_len: usize,
        records: *mut u8,
        records_len: usize,
        out: *mut u8,
        out_len: usize,
    ) -> u32;
    fn mbrb_receive(
        n: u8,
        t: u8,
        d: u8,
        own: u8,
        day: u32,
        quorum: u32,
        bundle: *const u8,
        bundle_len: usize,
        records: *mut u8,
        records_len: usize,
        out: *mut u8,
        out_len: usize,
    ) -> u32;
    fn mbrb_preview(
        n: u8,
        t: u8,
        d: u8,
        own: u8,
        day: u32,
        quorum: u32,
        bundle: *const u8,
        bundle_len: usize,
        records: *const u8,
        records_len: usize,
        out: *mut u8,
        out_len: usize,
    ) -> u32;
    fn mbrb_setpoint(
        n: u8,
        t: u8,
        d: u8,
        own: u8,
        day: u32,
        quorum: u32,
        records: *const u8,
        records_len: usize,
    ) -> u32;
    fn mbrb_equivocators(
        n: u8,
        t: u8,
        d: u8,
        own: u8,
        day: u32,
        quorum: u32,
        other: u8,
        first: *const u8,
        first_len: usize,
        second: *const u8,
        second_len: usize,
    ) -> u64;
    fn mbrb_check_equivocators(
        n: u8,
        t: u8,
        d: u8,
        own: u8,
        day: u32,
        quorum: u32,
        other: u8,
        first: *const u8,
        first_len: usize,
        second: *const u8,
        second_len: usize,
    ) -> u32;
}

/// Opens a day: the host's code of the answer.
#[inline]
pub fn open(config: &Config, records: &mut [u8]) -> u32 {
    // SAFETY: each pointer comes with the length of its slice, and the borrows keep the slices apart and lent for the call. The function
    // asks for nothing else: its contract has no `requires`.
    unsafe {
        mbrb_open(
            config.n,
            config.t,
            config.d,
            config.own,
            config.day,
            config.q,
            records.as_mut_ptr(),
            records.len(),
        )
    }
}

/// Announces a payload: the host's code of the answer.
#[inline]
pub fn broadcast(config: &Config, payload: &[u8], records: &mut [u8], out: &mut [u8]) -> u32 {
    // SAFETY: as for `open`.
    unsafe {
        mbrb_broadcast(
            config.n,
            config.t,
            config.d,
            config.own,
            config.day,
            config.q,
            payload.as_ptr(),
            payload.len(),
            records.as_mut_ptr(),
            records.len(),
            out.as_mut_ptr(),
            out.len(),
        )
    }
}

/// Takes a bundle: the host's code of the answer.
#[inline]
pub fn receive(config: &Config, bundle: &[u8], records: &mut [u8], out: &mut [u8]) -> u32 {
    // SAFETY: as for `open`.
    unsafe {
        mbrb_receive(
            config.n,
            config.t,
            config.d,
            config.own,
            config.day,
            config.q,
            bundle.as_ptr(),
            bundle.len(),
            records.as_mut_ptr(),
            records.len(),
            out.as_mut_ptr(),
            out.len(),
        )
    }
}

/// Previews a bundle: the code that taking it would give.
#[inline]
pub fn preview(config: &Config, bundle: &[u8], records: &[u8], out: &mut [u8]) -> u32 {
    // SAFETY: as for `open`. The function does not write the records, so a shared slice is enough.
    unsafe {
        mbrb_preview(
            config.n,
            config.t,
            config.d,
            config.own,
            config.day,
            config.q,
            bundle.as_ptr(),
            bundle.len(),
            records.as_ptr(),
            records.len(),
            out.as_mut_ptr(),
            out.len(),
        )
    }
}

/// One setpoint from many: the host's code of the answer.
#[inline]
pub fn setpoint(config: &Config, records: &[u8]) -> u32 {
    // SAFETY: as for `preview`.
    unsafe {
        mbrb_setpoint(
            config.n,
            config.t,
            config.d,
            config.own,
            config.day,
            config.q,
            records.as_ptr(),
            records.len(),
        )
    }
}

/// The nodes that have signed two payloads in one slot, from two nodes' records: a word of signer bits, 0 where it is refused.
#[inline]
pub fn equivocators(config: &Config, other: u8, first: &[u8], second: &[u8]) -> u64 {
    // SAFETY: as for `preview`. Both slices are shared, so they may overlap.
    unsafe {
        mbrb_equivocators(
            config.n,
            config.t,
            config.d,
            config.own,
            config.day,
            config.q,
            other,
            first.as_ptr(),
            first.len(),
            second.as_ptr(),
            second.len(),
        )
    }
}

/// Why `equivocators` refuses: the refusal's number, or 0.
#[inline]
pub fn check_equivocators(config: &Config, other: u8, first: &[u8], second: &[u8]) -> u32 {
    // SAFETY: as for `equivocators`.
    unsafe {
        mbrb_check_equivocators(
            config.n,
            config.t,
            config.d,
            config.own,
            config.day,
            config.q,
            other,
            first.as_ptr(),
            first.len(),
            second.as_ptr(),
            second.len(),
        )
    }
}
