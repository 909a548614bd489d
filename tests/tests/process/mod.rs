//! Programs run by a test, each with a limit of time.

use std::io::Read;
use std::process::{Child, ChildStdin, Command, ExitStatus, Output};
use std::thread::{self, JoinHandle};
use std::time::{Duration, Instant};

/// How often a test looks whether the program has ended.
const LOOK: Duration = Duration::from_millis(2);

/// Runs a command to its end and gives what it printed; fails where that takes too long.
///
/// `feed` gets the standard input, where it is a pipe, and writes it in a thread of its own.
pub fn run(
    command: &mut Command,
    limit: Duration,
    feed: impl FnOnce(Option<ChildStdin>) + Send + 'static,
) -> Output {
    let mut child = command
        .spawn()
        .unwrap_or_else(|error| panic!("cannot run {command:?}: {error}"));
    let stdin = child.stdin.take();
    let feeder = thread::spawn(move || feed(stdin));
    let stdout = collect(child.stdout.take());
    let stderr = collect(child.stderr.take());
    let status = wait(&mut child, limit);
    feeder.join().expect("the input was written");
    Output {
        status: status.unwrap_or_else(|| panic!("{command:?} takes longer than {limit:?}")),
        stdout: stdout.join().expect("the output was read"),
        stderr: stderr.join().expect("the errors were read"),
    }
}

/// Waits for the end of a program; one that takes too long is ended, and has no status.
fn wait(child: &mut Child, limit: Duration) -> Option<ExitStatus> {
    let start = Instant::now();
    loop {
        if let Some(status) = child.try_wait().expect("the program is ours") {
            return Some(status);
        }
        if start.elapsed() > limit {
            child.kill().expect("the program is ours");
            child.wait().expect("the program is ours");
            return None;
        }
        thread::sleep(LOOK);
    }
}

/// Reads a pipe to its end in a thread; nothing where there is none.
fn collect(pipe: Option<impl Read + Send + 'static>) -> JoinHandle<Vec<u8>> {
    thread::spawn(move || {
        let mut bytes = Vec::new();
        if let Some(mut pipe) = pipe {
            pipe.read_to_end(&mut bytes).expect("a pipe can be read");
        }
        bytes
    })
}
