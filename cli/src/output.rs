//! What the system says of standard output: whether it was open at the start, and how wide its terminal is.

use std::io::{self, IsTerminal};
use std::os::raw::{c_int, c_ulong, c_ushort};
use std::sync::atomic::{AtomicBool, Ordering};

const STDOUT: c_int = 1;
const GET_FLAGS: c_int = 1;
const GET_WINDOW_SIZE: c_ulong = 0x5413;

extern "C" {
    fn fcntl(file: c_int, command: c_int, ...) -> c_int;
    fn ioctl(file: c_int, request: c_ulong, ...) -> c_int;
}

static WAS_CLOSED: AtomicBool = AtomicBool::new(false);

extern "C" fn look() {
    // SAFETY: it takes two numbers.
    WAS_CLOSED.store(unsafe { fcntl(STDOUT, GET_FLAGS) } < 0, Ordering::Relaxed);
}

/// Before it runs `main`, Rust opens /dev/null in the place of a standard output that is closed, and then nothing shows
/// that. The C library calls this earlier.
#[used]
#[link_section = ".init_array"]
static LOOK: extern "C" fn() = look;

/// Whether standard output was closed when the command started.
pub fn was_closed() -> bool {
    WAS_CLOSED.load(Ordering::Relaxed)
}

/// The size of a terminal, as `ioctl` tells it.
#[repr(C)]
struct WindowSize {
    rows: c_ushort,
    columns: c_ushort,
    pixels: [c_ushort; 2],
}

/// How many columns the terminal has that standard output is, if it is one and says so.
pub fn terminal_width() -> Option<usize> {
    let mut size = WindowSize { rows: 0, columns: 0, pixels: [0; 2] };
    // SAFETY: the request fills such a structure, which is there during the call.
    let answer = unsafe { ioctl(STDOUT, GET_WINDOW_SIZE, &mut size) };
    (io::stdout().is_terminal() && answer == 0 && size.columns > 0).then_some(size.columns.into())
}
