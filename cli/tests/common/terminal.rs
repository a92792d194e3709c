//! A terminal for the program under test.

use std::ffi::{c_char, c_int, c_void};
use std::fs::File;
use std::io::Read;
use std::os::fd::{FromRawFd, OwnedFd};
use std::process::Command;
use std::ptr;

extern "C" {
    fn openpty(ours: *mut c_int, theirs: *mut c_int, name: *mut c_char, modes: *const c_void, size: *const c_void) -> c_int;
}

/// Runs a command whose output and messages go to a terminal. Answers its status and what a person would see.
pub fn on_a_terminal(command: &mut Command) -> (i32, String) {
    let (mut ours, mut theirs) = (0, 0);
    let opened = unsafe { openpty(&mut ours, &mut theirs, ptr::null_mut(), ptr::null(), ptr::null()) };
    assert_eq!(opened, 0);
    let (mut ours, theirs) = unsafe { (File::from_raw_fd(ours), OwnedFd::from_raw_fd(theirs)) };
    let mut child = command.stdout(theirs.try_clone().unwrap()).stderr(theirs).spawn().unwrap();
    // The command keeps copies of the terminal until it is dropped or given others.
    command.stdout(std::process::Stdio::null()).stderr(std::process::Stdio::null());
    let mut seen = Vec::new();
    let mut part = [0; 4096];
    // At the end of the program the terminal is an error to read from.
    while let Ok(count @ 1..) = ours.read(&mut part) {
        seen.extend(&part[..count]);
    }
    let status = child.wait().unwrap().code().unwrap();
    (status, String::from_utf8_lossy(&seen).replace("\r\n", "\n"))
}
