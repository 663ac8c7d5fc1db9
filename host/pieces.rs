//! A program that is fed through a pipe, so many bytes at a time: each piece is written when the
//! one before has been read, so that no read gets more than one.

use std::ffi::{c_int, c_ulong};
use std::io::{self, ErrorKind, Write};
use std::os::fd::AsRawFd;
use std::process::{ChildStdin, Command, Output, Stdio};
use std::thread::sleep;
use std::time::{Duration, Instant};

extern "C" {
    fn ioctl(descriptor: c_int, request: c_ulong, ...) -> c_int;
}

/// Linux's number for: how many bytes can be read.
const FIONREAD: c_ulong = 0x541B;

/// The bytes that were written to the pipe and not read yet.
fn unread(pipe: &ChildStdin) -> io::Result<c_int> {
    let mut count: c_int = 0;
    // SAFETY: the descriptor is open, and the request writes one number.
    match unsafe { ioctl(pipe.as_raw_fd(), FIONREAD, &mut count) } {
        0 => Ok(count),
        _ => Err(io::Error::last_os_error()),
    }
}

/// Waits until all is read; some seconds are enough for whoever reads at all.
fn drained(pipe: &ChildStdin) -> io::Result<()> {
    let start = Instant::now();
    while unread(pipe)? > 0 {
        if start.elapsed() > Duration::from_secs(20) {
            return Err(io::Error::new(ErrorKind::TimedOut, "a piece was not read"));
        }
        sleep(Duration::from_micros(20));
    }
    Ok(())
}

/// What the program does with the bytes. Those after the most that count need not be read.
pub fn fed(program: &str, bytes: &[u8], size: usize) -> io::Result<Output> {
    let mut command = Command::new(program);
    command.stdin(Stdio::piped()).stdout(Stdio::piped());
    let mut child = command.stderr(Stdio::piped()).spawn()?;
    let mut pipe = child.stdin.take().ok_or(ErrorKind::BrokenPipe)?;
    let (counted, rest) = bytes.split_at(bytes.len().min(crate::listing::MOST_BYTES));
    for piece in counted.chunks(size) {
        pipe.write_all(piece)?;
        drained(&pipe)?;
    }
    match pipe.write_all(rest) {
        Err(error) if error.kind() != ErrorKind::BrokenPipe => return Err(error),
        _ => drop(pipe),
    }
    child.wait_with_output()
}
