//! The standard input.

use crate::faults::Fault;
use nix::errno::Errno;
use nix::fcntl::{FcntlArg, fcntl};
use std::io::{self, Read};
use std::sync::atomic::{AtomicBool, Ordering};

static IS_CLOSED: AtomicBool = AtomicBool::new(false);

// Rust's start puts the null device into the place of a standard input that is closed, where nothing could be told of it any more. So it
// is looked at before that: who runs a program without an input doesn't want to write an empty file.
#[used]
// SAFETY: what stands there is called before main, once, with any arguments, and takes none of them. It asks the kernel for the flags of
// a descriptor, which changes nothing, and writes a static number.
#[unsafe(link_section = ".init_array")]
static LOOK: extern "C" fn() = look;

extern "C" fn look() {
    IS_CLOSED.store(fcntl(0, FcntlArg::F_GETFD) == Err(Errno::EBADF), Ordering::SeqCst);
}

/// All that the standard input has.
pub fn read_input() -> Result<Vec<u8>, Fault> {
    if IS_CLOSED.load(Ordering::SeqCst) {
        return Err(Fault::NoInput);
    }
    let mut content = Vec::new();
    io::stdin().read_to_end(&mut content).map_err(|error| Fault::Stream("the standard input", error))?;
    Ok(content)
}
