//! Instructions of `draw`, which valgrind (callgrind) counts: they are the same in every run.

use std::env;
use std::io::ErrorKind;
use std::process::Command;

/// Millions of instructions in all calls of `draw` when this program is run with arguments, if valgrind
/// is there.
pub fn millions(arguments: &[&str]) -> Option<f64> {
    let program = env::current_exe().expect("the path of this program");
    let mut valgrind = Command::new("valgrind");
    valgrind.args(["--tool=callgrind", "--toggle-collect=strip_draw"]);
    valgrind.arg("--callgrind-out-file=/dev/null");
    let output = match valgrind.arg(program).args(arguments).output() {
        Err(error) if error.kind() == ErrorKind::NotFound => return None,
        output => output.expect("valgrind runs"),
    };
    let said = String::from_utf8_lossy(&output.stderr);
    assert!(output.status.success(), "{said}");
    let collected = said.split("Collected :").nth(1);
    let count = collected.and_then(|rest| rest.split_whitespace().next());
    let count = count.and_then(|count| count.parse::<f64>().ok());
    Some(count.expect("valgrind says what it has collected") / 1e6)
}
