//! What the library is measured against: the same operations in plain Rust, written for speed and for a small chip. No allocation,
//! every refusal of the rules in its order, and `unsafe` at the border to C alone.
#![no_std]
#![deny(unsafe_code)]

mod border;
mod choice;
mod fcs;
mod frame;
mod message;
mod names;
mod rewrite;
mod station;
mod station_border;
mod tree;
mod writer;

#[panic_handler]
fn panic(_: &core::panic::PanicInfo) -> ! {
    loop {}
}
