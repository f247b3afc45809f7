//! Runs the program of its argument with what it reads itself as one packet: the program's standard input is a
//! socket that hands a packet over whole and drops what a shorter read leaves of it.

use std::env;
use std::io::{self, Read};
use std::os::fd::OwnedFd;
use std::os::unix::net::UnixDatagram;
use std::process::{Command, ExitCode};

fn main() -> io::Result<ExitCode> {
    let program = env::args_os().nth(1).ok_or(io::ErrorKind::InvalidInput)?;
    let mut bytes = Vec::new();
    io::stdin().read_to_end(&mut bytes)?;
    let (sender, receiver) = UnixDatagram::pair()?;
    sender.send(&bytes)?;
    // an empty packet reads as the end
    sender.send(&[])?;
    let status = Command::new(program)
        .stdin(OwnedFd::from(receiver))
        .status()?;
    Ok(if status.success() {
        ExitCode::SUCCESS
    } else {
        ExitCode::FAILURE
    })
}
