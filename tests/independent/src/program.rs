//! Runs a program on some input.

use std::io::{Error, ErrorKind, Write};
use std::path::Path;
use std::process::{Command, Output, Stdio};
use std::thread;

/// What a program did.
pub struct Ran {
    /// On standard output.
    pub printed: String,
    /// On standard error.
    pub message: String,
    /// It ended with status 0.
    pub succeeded: bool,
}

/// What the program prints on standard output, and whether it ends with status 0.
pub fn run(program: &str, input: &[u8]) -> Result<(String, bool), String> {
    let ran = run_in(Path::new("."), program, input)?;
    Ok((ran.printed, ran.succeeded))
}

/// Runs the program in a folder.
pub fn run_in(folder: &Path, program: &str, input: &[u8]) -> Result<Ran, String> {
    let output = output(folder, program, input);
    let output = output.map_err(|error| format!("{program} does not run: {error}"))?;
    let text = |bytes: &[u8]| String::from_utf8_lossy(bytes).into_owned();
    Ok(Ran {
        printed: text(&output.stdout),
        message: text(&output.stderr),
        succeeded: output.status.success(),
    })
}

fn output(folder: &Path, program: &str, input: &[u8]) -> Result<Output, Error> {
    let mut process = Command::new(program)
        .current_dir(folder)
        .stdin(Stdio::piped())
        .stdout(Stdio::piped())
        .stderr(Stdio::piped())
        .spawn()?;
    let mut pipe = process.stdin.take().expect("a pipe");
    thread::scope(|scope| {
        // The program may print more than a pipe holds before it has read all.
        let writing = scope.spawn(move || pipe.write_all(input));
        let output = process.wait_with_output()?;
        match writing.join().expect("a thread ends") {
            // It may end before it has read all.
            Err(error) if error.kind() != ErrorKind::BrokenPipe => Err(error),
            _ => Ok(output),
        }
    })
}
