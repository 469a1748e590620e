//! A program that judges: its arguments, and its status.

use std::process::ExitCode;

/// Status 0 where nothing is different, 1 where something is, 2 with a message where it could not
/// be run.
pub fn main(run: fn(&[&str]) -> Result<bool, String>) -> ExitCode {
    let arguments: Vec<String> = std::env::args().skip(1).collect();
    let arguments: Vec<&str> = arguments.iter().map(String::as_str).collect();
    match ssr::on_large_stack(|| run(&arguments)) {
        Ok(true) => ExitCode::SUCCESS,
        Ok(false) => ExitCode::FAILURE,
        Err(message) => {
            eprintln!("{message}");
            ExitCode::from(2)
        }
    }
}
