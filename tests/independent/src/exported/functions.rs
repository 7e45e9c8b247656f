//! The functions as the header declares them, and one call of each.

use super::lent::Lent;

#[repr(C)]
struct FrameReadAnswer {
    refusal: u32,
    octets: u32,
}

#[repr(C)]
struct FrameWriteAnswer {
    refusal: u32,
    bits: u32,
}

#[repr(C)]
struct MessageAnswer {
    refusal: u32,
    kind: u32,
    revision: u32,
    codes: u32,
    ns_at: u32,
    ns_length: u32,
}

#[link(name = "kamvezhor", kind = "static")]
extern "C" {
    fn kamvezhor_read_frame(
        run: *const u8,
        run_size: usize,
        bits: usize,
        out: *mut u8,
        out_size: usize,
    ) -> FrameReadAnswer;

    fn kamvezhor_write_frame(
        information: *const u8,
        information_size: usize,
        opening: usize,
        closing: usize,
        out: *mut u8,
        out_size: usize,
    ) -> FrameWriteAnswer;

    fn kamvezhor_read_message(
        message: *const u8,
        message_size: usize,
        list: *mut u8,
        list_size: usize,
    ) -> MessageAnswer;
}

/// What comes back: the numbers of the answer in their order, the buffer that
/// was lent to be written, and whether all else is as it was.
#[derive(Debug, PartialEq)]
pub struct Returned {
    pub numbers: Vec<u32>,
    pub buffer: Vec<u8>,
    pub rest_untouched: bool,
}

/// Lends the octets to be read and the buffer to be written.
fn with_both(
    octets: &[u8],
    buffer: &[u8],
    call: impl FnOnce(&mut Lent, &mut Lent) -> Vec<u32>,
) -> Returned {
    let (mut read, mut written) = (Lent::of(octets), Lent::of(buffer));
    let numbers = call(&mut read, &mut written);
    let guarded = read.is_guarded() && written.is_guarded();
    Returned {
        numbers,
        rest_untouched: guarded && read.content() == octets,
        buffer: written.content().to_vec(),
    }
}

pub fn read_frame(run: &[u8], bits: usize, out: &[u8]) -> Returned {
    with_both(run, out, |run, out| {
        let (run, run_size) = (run.pointer(), run.length());
        let (out, out_size) = (out.pointer(), out.length());
        // SAFETY: both point to so many octets, which do not overlap.
        let answer = unsafe { kamvezhor_read_frame(run, run_size, bits, out, out_size) };
        vec![answer.refusal, answer.octets]
    })
}

pub fn write_frame(information: &[u8], opening: usize, closing: usize, out: &[u8]) -> Returned {
    with_both(information, out, |information, out| {
        let (information, size) = (information.pointer(), information.length());
        let (out, out_size) = (out.pointer(), out.length());
        // SAFETY: both point to so many octets, which do not overlap.
        let answer =
            unsafe { kamvezhor_write_frame(information, size, opening, closing, out, out_size) };
        vec![answer.refusal, answer.bits]
    })
}

pub fn read_message(message: &[u8], list: &[u8]) -> Returned {
    with_both(message, list, |message, list| {
        let (message, size) = (message.pointer(), message.length());
        let (list, list_size) = (list.pointer(), list.length());
        // SAFETY: both point to so many octets, which do not overlap.
        let answer = unsafe { kamvezhor_read_message(message, size, list, list_size) };
        vec![
            answer.refusal,
            answer.kind,
            answer.revision,
            answer.codes,
            answer.ns_at,
            answer.ns_length,
        ]
    })
}
