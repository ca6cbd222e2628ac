//! The command `pmn`: it reads arguments and files, asks the proved library, and prints. No answer of a call is made here.
pub mod arguments;
pub mod boxes;
pub mod chance;
pub mod commands;
pub mod comparison;
pub mod date;
pub mod edges;
pub mod failure;
pub mod files;
pub mod help;
pub mod numbers;
pub mod output;
pub mod picture;
pub mod progress;
pub mod script;
pub mod search;
pub mod sheet;
pub mod solver;
pub mod temporary;
pub mod text;

use output::Output;
use std::ffi::OsString;

/// Runs the command with its arguments, the program's name left out, and gives the status for the shell.
pub fn run(arguments: Vec<OsString>) -> u8 {
    let mut out = Output::new();
    let ended = commands::run(&arguments, &mut out).and_then(|status| out.flush().map(|()| status));
    match ended {
        Ok(status) => status.number(),
        Err(failure) => {
            out.complain(&failure);
            failure.status().number()
        }
    }
}
