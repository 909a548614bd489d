//! The program `place`, run on good, damaged and endless inputs that come in every way, and with
//! inputs that cannot be read and outputs that cannot be written. It prints what the second
//! implementation computes, whole or, where the output takes no more, a front of it; and one line
//! on standard error where something failed.

mod process;

use std::collections::HashMap;
use std::fs::{self, File, OpenOptions};
use std::io::{ErrorKind, Read, Seek, Write};
use std::os::unix::fs::OpenOptionsExt;
use std::os::unix::process::ExitStatusExt;
use std::path::{Path, PathBuf};
use std::process::{Command, Output, Stdio};
use std::thread;
use std::time::Duration;

use process::run;
use second::printed::printed;
use strip_tests::damage::DAMAGES;
use strip_tests::document::{self, NO_DRAWING, REFUSED};
use strip_tests::examples::examples;
use strip_tests::generate::{good, largest, LONGEST};
use strip_tests::planted::{planted, Plan};
use strip_tests::random::Random;

/// How long one run may take.
const LIMIT: Duration = Duration::from_secs(20);
/// The pause between two pieces of an input, long enough for the program to wait for the second.
const PAUSE: Duration = Duration::from_millis(2);
/// How many bytes `place` reads at most.
const READ: usize = 5122;
/// KiB of stack that are enough for `place`, with so many KiB of arguments and environment.
const STACK: usize = 72;
const SURROUNDINGS: usize = 3;
/// KiB of stack in which `place` never runs, whatever surrounds it.
const SHORT_STACK: usize = 56;
/// Linux's signal for an access that is not allowed.
const SIGSEGV: i32 = 11;
/// Linux's flag for a file that refuses what it cannot take at once.
const O_NONBLOCK: i32 = 0o4000;

/// A file of the repository.
fn stored(path: &str) -> PathBuf {
    Path::new(env!("CARGO_MANIFEST_DIR")).join("..").join(path)
}

/// The program.
fn place() -> PathBuf {
    let path = stored("target/bin/place");
    assert!(path.exists(), "place is missing; make it with: make");
    path
}

/// A file for the tests' own use.
fn scratch(name: &str) -> PathBuf {
    Path::new(env!("CARGO_TARGET_TMPDIR")).join(name)
}

/// A command with pipes for input, output and errors.
fn with_pipes(mut command: Command) -> Command {
    command.stdin(Stdio::piped());
    command.stdout(Stdio::piped()).stderr(Stdio::piped());
    command
}

/// The program with pipes.
fn piped() -> Command {
    with_pipes(Command::new(place()))
}

/// A shell that does these things with its files and then becomes the program.
fn shell(script: &str) -> Command {
    let mut command = Command::new("sh");
    command.arg("-c").arg(script).arg(place());
    with_pipes(command)
}

/// The program in this many KiB of stack. Its environment, a variable, takes with its one argument, its
/// name, as much as it may: the bytes of each, one for its end and eight for its address.
fn on_stack(kib: usize) -> Command {
    let taken = |text: &str| text.len() + 1 + 8;
    let name = place().display().to_string();
    let rest = SURROUNDINGS * 1024 - taken(&name) - taken("FILLING=");
    let mut command =
        shell(r#"exec env -i FILLING="$2" "$(command -v prlimit)" --core=0 --stack="$1" "$0""#);
    command.arg((kib * 1024).to_string()).arg("x".repeat(rest));
    command
}

/// Runs a command with an input, where it is a pipe, in pieces of this size and a pause behind each.
fn run_in_pieces(command: &mut Command, input: &[u8], size: usize, pause: Duration) -> Output {
    let pieces: Vec<Vec<u8>> = input.chunks(size).map(<[u8]>::to_vec).collect();
    run(command, LIMIT, move |stdin| {
        let Some(mut stdin) = stdin else {
            return assert!(pieces.is_empty());
        };
        for piece in pieces {
            match stdin.write_all(&piece) {
                Err(error) if error.kind() == ErrorKind::BrokenPipe => return,
                result => result.expect("the input can be written"),
            }
            thread::sleep(pause);
        }
    })
}

/// Runs a command with an input at once.
fn run_at_once(command: &mut Command, input: &[u8]) -> Output {
    let found = run_in_pieces(command, input, usize::MAX, Duration::ZERO);
    assert!(found.status.success(), "{:?}", found.status);
    found
}

/// Runs a command with an input at once and gives what it prints; nothing fails.
fn output(command: &mut Command, input: &[u8]) -> String {
    let found = run_at_once(command, input);
    assert_eq!(line_of_error(&found), "");
    String::from_utf8(found.stdout).expect("the output is text")
}

/// Runs a command with an input at once; it prints nothing and says in one line what failed.
fn failure(command: &mut Command, input: &[u8]) -> String {
    let found = run_at_once(command, input);
    assert_eq!(found.stdout, b"");
    line_of_error(&found)
}

/// What a program said on standard error: nothing or one line.
fn line_of_error(found: &Output) -> String {
    let said = String::from_utf8(found.stderr.clone()).expect("the errors are text");
    assert!(
        said.lines().count() <= 1 && (said.is_empty() || said.ends_with('\n')),
        "{said}"
    );
    said
}

/// Checks what the program prints for an input.
fn check(input: &[u8]) {
    let shown = &input[..input.len().min(64)];
    assert_eq!(output(&mut piped(), input), printed(input), "{shown:02x?}");
}

/// A sheet of full size that has a drawing.
fn large(seed: u64) -> Vec<u8> {
    planted(&mut Random::new(seed), &Plan::FULL_LOOSE).bytes()
}

#[test]
fn examples_print_their_stored_texts() {
    for (name, _) in examples() {
        let read = |ending| fs::read(stored(&format!("examples/{name}.{ending}"))).expect(name);
        let text = String::from_utf8(read("txt")).expect(name);
        assert_eq!(output(&mut piped(), &read("sheet")), text, "{name}");
    }
}

#[test]
fn sheets_and_refusals_of_the_document_are_printed() {
    for (_, draft) in document::sheets() {
        check(&draft.bytes());
    }
    for (_, bytes) in REFUSED {
        check(bytes);
    }
    check(&NO_DRAWING);
    assert_eq!(output(&mut piped(), &NO_DRAWING), "refused 8 at 0\n");
}

#[test]
fn parallel_edges_count_once() {
    let lower = "2 1 0\n2 2 1\n2 3 2\n";
    let upper = ["1 1 0\n", "1 1 0\n", "1 1 2\n"];
    for (traced, upper) in document::traced().iter().zip(upper) {
        let text = format!("total 2\n{upper}{lower}");
        assert_eq!(output(&mut piped(), &traced.draft.bytes()), text);
    }
}

#[test]
fn sheets_of_full_size_are_printed() {
    for seed in 0..5 {
        let input = large(seed);
        assert!(printed(&input).starts_with("total "));
        check(&input);
    }
}

#[test]
fn random_and_damaged_sheets_are_printed() {
    let mut random = Random::new(41);
    for (_, damage) in DAMAGES.iter().cycle().take(240) {
        let bytes = good(&mut random).bytes();
        check(&damage(&mut random, &bytes));
        check(&bytes);
    }
}

#[test]
fn a_small_stack_is_enough() {
    let sheets = [large(8), largest().bytes(), document::first().bytes()];
    for input in sheets.iter().chain([&NO_DRAWING.to_vec(), &Vec::new()]) {
        let expected = printed(input);
        for _ in 0..40 {
            assert_eq!(output(&mut on_stack(STACK), input), expected);
        }
    }
    // in much less the program does not run, so the limit is one
    let found = run_in_pieces(&mut on_stack(SHORT_STACK), &large(8), 512, Duration::ZERO);
    assert_eq!(found.status.signal(), Some(SIGSEGV));
}

#[test]
fn the_page_tells_the_stack_that_is_enough() {
    let page = fs::read_to_string(stored("docs/PERFORMANCE.md")).expect("the page");
    let page = page.replace('\n', " ");
    let stack = format!(" A stack of {STACK} KiB (`ulimit -s {STACK}`) is enough ");
    let with = format!("with up to {SURROUNDINGS} KiB of arguments and environment");
    assert!(page.contains(&(stack + &with)));
}

#[test]
fn an_input_without_bytes_ends() {
    assert_eq!(output(&mut piped(), &[]), "refused 1 at 0\n");
    check(&[]);
}

#[test]
fn ten_million_zeros_are_not_a_sheet() {
    let zeros = vec![0; 10_000_000];
    assert_eq!(output(&mut piped(), &zeros), "refused 2 at 0\n");
    check(&zeros);
}

#[test]
fn inputs_longer_than_the_longest_sheet_are_refused() {
    let mut input = largest().bytes();
    assert_eq!(input.len(), LONGEST);
    check(&input);
    for length in [LONGEST + 1, READ - 1, READ, READ + 1, 1_000_000] {
        for filling in [0x00, 0x01, 0x80] {
            input.resize(LONGEST, 0);
            input.resize(length, filling);
            let expected = format!("refused 6 at {LONGEST}\n");
            assert_eq!(output(&mut piped(), &input), expected, "{length}");
            check(&input);
        }
    }
}

#[test]
fn bytes_that_come_one_by_one_make_a_sheet() {
    let examples = examples();
    for (name, draft) in &examples[..3] {
        let input = draft.bytes();
        let found = run_in_pieces(&mut piped(), &input, 1, PAUSE);
        assert_eq!(found.stdout, printed(&input).as_bytes(), "{name}");
    }
}

#[test]
fn pieces_of_every_size_make_a_sheet() {
    let (_, wall) = &examples()[3];
    let sheets = [wall.bytes(), large(7), largest().bytes()];
    for input in sheets {
        for size in [100, 299, 512, input.len() - 1] {
            let found = run_in_pieces(&mut piped(), &input, size, 10 * PAUSE);
            assert_eq!(found.stdout, printed(&input).as_bytes(), "{size}");
        }
    }
}

#[test]
fn arguments_get_the_usage_and_nothing_is_read() {
    for arguments in [vec!["--version"], vec!["-h"], vec![""], vec!["a", "b"]] {
        let mut input = File::open(stored("examples/first.sheet")).expect("an example");
        let shared = input.try_clone().expect("a file can be shared");
        let said = failure(piped().args(&arguments).stdin(shared), &[]);
        let start = format!("place {}: ", strip::VERSION);
        assert!(said.starts_with(&start), "{said}");
        assert!(said.contains("usage: place"), "{said}");
        assert_eq!(input.stream_position().expect("a position"), 0);
    }
}

#[test]
fn a_closed_input_cannot_be_read() {
    let said = failure(&mut shell(r#"exec "$0" <&-"#), &[]);
    assert_eq!(said, "place: standard input: Bad file descriptor\n");
}

#[test]
fn a_folder_cannot_be_read() {
    let folder = File::open(stored("examples")).expect("a folder can be opened");
    let said = failure(piped().stdin(folder), &[]);
    assert_eq!(said, "place: standard input: Is a directory\n");
}

#[test]
fn a_closed_output_cannot_be_written() {
    for input in [large(1), NO_DRAWING.to_vec(), Vec::new()] {
        let said = failure(&mut shell(r#"exec "$0" >&-"#), &input);
        assert_eq!(said, "place: standard output: Bad file descriptor\n");
    }
}

#[test]
fn all_files_closed_end_the_program() {
    assert_eq!(failure(&mut shell(r#"exec "$0" <&- >&- 2>&-"#), &[]), "");
}

#[test]
fn a_full_disk_cannot_be_written() {
    for input in [large(2), NO_DRAWING.to_vec(), Vec::new()] {
        let full = File::create("/dev/full").expect("/dev/full can be opened");
        let said = failure(piped().stdout(full), &input);
        assert_eq!(said, "place: standard output: No space left on device\n");
    }
}

#[test]
fn a_disk_that_becomes_full_has_the_front_of_the_text() {
    let (_, wall) = &examples()[3];
    for (name, input) in [("wall", wall.bytes()), ("none", NO_DRAWING.to_vec())] {
        let path = scratch(&format!("cut-{name}.txt"));
        let expected = printed(&input);
        for limit in 0..expected.len() + 2 {
            let script = r#"trap "" XFSZ; exec prlimit --fsize="$1" "$0" >"$2""#;
            let mut limited = shell(script);
            let said = failure(limited.arg(limit.to_string()).arg(&path), &input);
            let found = fs::read(&path).expect("the output was written");
            let room = expected.len().min(limit);
            assert_eq!(found, &expected.as_bytes()[..room], "{name} {limit}");
            let whole = room == expected.len();
            let failed = "place: standard output: File too large\n";
            assert_eq!(said, if whole { "" } else { failed }, "{name} {limit}");
        }
    }
}

#[test]
fn a_full_pipe_that_does_not_block_takes_nothing() {
    for (name, input) in [("large", large(5)), ("none", NO_DRAWING.to_vec())] {
        let mut pipe = full_pipe(&scratch(&format!("full-{name}.pipe")));
        let shared = pipe.try_clone().expect("a file can be shared");
        let said = failure(piped().stdout(shared), &input);
        assert!(said.starts_with("place: standard output: "), "{said}");
        let mut bytes = Vec::new();
        let end = pipe
            .read_to_end(&mut bytes)
            .expect_err("the pipe stays open");
        assert_eq!(end.kind(), ErrorKind::WouldBlock);
        assert!(!bytes.is_empty() && bytes.iter().all(|&byte| byte == FILLING));
    }
}

#[test]
fn two_thousand_runs_append_whole_texts_to_one_file() {
    const THREADS: usize = 8;
    const RUNS: usize = 250;
    let path = scratch("together.txt");
    fs::write(&path, "").expect("the output can be made");
    let inputs = [many(), NO_DRAWING.to_vec()];
    let append = || OpenOptions::new().append(true).open(&path);
    thread::scope(|scope| {
        for thread in 0..THREADS {
            let input = &inputs[thread % inputs.len()];
            scope.spawn(move || {
                for _ in 0..RUNS {
                    let file = append().expect("the output can be opened");
                    assert_eq!(failure(piped().stdout(file), input), "");
                }
            });
        }
    });
    let found = fs::read_to_string(&path).expect("the output is text");
    let mut counts = HashMap::new();
    for text in texts(&found) {
        *counts.entry(text).or_insert(0) += 1;
    }
    let each = THREADS * RUNS / inputs.len();
    let expected = inputs.map(|input| (printed(&input), each));
    assert_eq!(counts, HashMap::from(expected));
}

#[test]
fn an_output_that_nobody_reads_ends_the_program() {
    let mut command = Command::new(place());
    command.stdin(Stdio::piped()).stdout(closed_pipe());
    run_in_pieces(&mut command, &large(4), usize::MAX, Duration::ZERO);
}

#[test]
#[should_panic(expected = "takes longer")]
fn a_program_that_hangs_fails_its_test() {
    run(Command::new("sleep").arg("60"), 10 * PAUSE, |_| ());
}

/// The byte that fills a pipe.
const FILLING: u8 = b'#';

/// A pipe that is open for reading and writing, does not block and is full.
fn full_pipe(path: &Path) -> File {
    let _ = fs::remove_file(path);
    let made = Command::new("mkfifo").arg(path).status();
    assert!(made.expect("mkfifo can be run").success());
    let mut options = OpenOptions::new();
    options.read(true).write(true).custom_flags(O_NONBLOCK);
    let mut pipe = options.open(path).expect("a pipe can be opened");
    while pipe.write(&[FILLING]).is_ok() {}
    pipe
}

/// A sheet of as many nodes as may be, drawn at once.
fn many() -> Vec<u8> {
    let mut random = Random::new(6);
    planted(
        &mut random,
        &Plan {
            edges: 0,
            ..Plan::FULL_LOOSE
        },
    )
    .bytes()
}

/// The texts that stand one behind the other, each from its first line to the next one's.
fn texts(all: &str) -> Vec<String> {
    let mut texts: Vec<String> = Vec::new();
    for line in all.split_inclusive('\n') {
        let first = line.starts_with("total ") || line.starts_with("refused ");
        match texts.last_mut() {
            Some(text) if !first => text.push_str(line),
            _ => texts.push(line.to_string()),
        }
    }
    texts
}

/// The writing end of a pipe whose reading end is closed.
fn closed_pipe() -> Stdio {
    let mut child = Command::new("true")
        .stdin(Stdio::piped())
        .spawn()
        .expect("true can be run");
    let end = child.stdin.take().expect("the input is a pipe");
    child.wait().expect("true ends");
    end.into()
}
