//! Compares the functions that the static library libkamvezhor.a gives to C with
//! an implementation written apart from them.
//!
//! `exported` takes no arguments. It stands behind a feature, since it can
//! only be linked where the library is. With the library at
//! target/dist/libkamvezhor.a under the root, where tools/dist puts it, and
//! from this package's folder:
//!
//! ```text
//! RUSTFLAGS="-L native=$(realpath ../../target/dist)" cargo build --release --offline \
//!     --features exported --bin exported --target-dir ../../target/exported
//! ../../target/exported/release/exported
//! ```
//!
//! The target folder is one of its own, because other flags would have the
//! other programs built again.

use std::process::ExitCode;

fn main() -> ExitCode {
    if compare::compare_exported() {
        ExitCode::SUCCESS
    } else {
        ExitCode::FAILURE
    }
}
