//! What C calls but for the station: the shapes of include/kamvezhor.h and of the crate `measure`.
#![allow(unsafe_code)]

use crate::message::{Fours, Numbers, Refusal};
use crate::{frame, message, rewrite, writer};
use core::slice::{from_raw_parts as slice, from_raw_parts_mut as slice_mut};

const REFUSED: u64 = 1000;

#[repr(C)]
pub struct FrameReadAnswer {
    refusal: u32,
    octets: u32,
}

#[repr(C)]
pub struct FrameWriteAnswer {
    refusal: u32,
    bits: u32,
}

#[repr(C)]
#[derive(Default)]
pub struct MessageAnswer {
    refusal: u32,
    kind: u32,
    revision: u32,
    codes: u32,
    ns_at: u32,
    ns_length: u32,
}

#[no_mangle]
pub unsafe extern "C" fn plain_read_frame(
    run: *const u8,
    run_size: usize,
    bits: usize,
    out: *mut u8,
    out_size: usize,
) -> FrameReadAnswer {
    match frame::read(slice(run, run_size), bits, slice_mut(out, out_size)) {
        Ok(octets) => FrameReadAnswer {
            refusal: 0,
            octets: octets as u32,
        },
        Err(refusal) => FrameReadAnswer {
            refusal: refusal as u32,
            octets: 0,
        },
    }
}

#[no_mangle]
pub unsafe extern "C" fn plain_write_frame(
    information: *const u8,
    size: usize,
    opening: usize,
    closing: usize,
    out: *mut u8,
    out_size: usize,
) -> FrameWriteAnswer {
    match frame::write(
        slice(information, size),
        opening,
        closing,
        slice_mut(out, out_size),
    ) {
        Ok(bits) => FrameWriteAnswer {
            refusal: 0,
            bits: bits as u32,
        },
        Err(refusal) => FrameWriteAnswer {
            refusal: refusal as u32,
            bits: 0,
        },
    }
}

#[no_mangle]
pub unsafe extern "C" fn plain_read_message(
    message: *const u8,
    size: usize,
    list: *mut u8,
    list_size: usize,
) -> MessageAnswer {
    let refused = |refusal| MessageAnswer {
        refusal: refusal as u32,
        ..MessageAnswer::default()
    };
    let mut fours = match Fours::new(slice_mut(list, list_size)) {
        Some(fours) => fours,
        None => return refused(Refusal::BadLent),
    };
    match message::read(slice(message, size), &mut fours) {
        Ok(read) => MessageAnswer {
            refusal: 0,
            kind: read.kind.into(),
            revision: read.revision.into(),
            codes: fours.count() as u32,
            ns_at: read.ns_at as u32,
            ns_length: read.ns_length as u32,
        },
        Err(refusal) => refused(refusal),
    }
}

#[no_mangle]
pub unsafe extern "C" fn plain_measure_read(
    message: *const u8,
    size: usize,
    list: *mut u32,
    list_size: usize,
) -> u64 {
    let mut numbers = match Numbers::new(slice_mut(list, list_size)) {
        Some(numbers) => numbers,
        None => return REFUSED + Refusal::BadLent as u64,
    };
    match message::read(slice(message, size), &mut numbers) {
        Ok(_) => numbers.count() as u64,
        Err(refusal) => REFUSED + refusal as u64,
    }
}

#[no_mangle]
pub unsafe extern "C" fn plain_measure_write(
    kind: u8,
    revision: u8,
    list: *const u32,
    list_size: usize,
    ns: *const u8,
    ns_size: usize,
    out: *mut u8,
    out_size: usize,
) -> u64 {
    match writer::write(
        kind,
        revision,
        slice(list, list_size),
        slice(ns, ns_size),
        slice_mut(out, out_size),
    ) {
        Ok(size) => size as u64,
        Err(refusal) => REFUSED + refusal as u64,
    }
}

#[no_mangle]
pub unsafe extern "C" fn plain_measure_strike(
    message: *const u8,
    size: usize,
    out: *mut u8,
    out_size: usize,
) -> u64 {
    match rewrite::strike(slice(message, size), slice_mut(out, out_size)) {
        Ok(size) => size as u64,
        Err(refusal) => REFUSED + refusal as u64,
    }
}
