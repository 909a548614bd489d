//! The peer: LEMON's network simplex in a program of its own, `peer.cpp`, which is compiled where LEMON is
//! installed.

use std::io::{Read, Write};
use std::path::{Path, PathBuf};
use std::process::{Child, Command, Stdio};

use second::drawing::Sheet;
use second::network::{arcs, Arc, UNLIMITED};

/// The peer's process, which waits for networks and ends with its input.
pub struct Peer {
    process: Child,
}

/// The network of a sheet, as the peer takes it.
pub struct Network(Vec<u8>);

impl Network {
    /// The network of a sheet, the arcs of the layers first; arcs that carry no flow are left out.
    pub fn new(sheet: &Sheet) -> Network {
        let mut arcs = arcs(sheet);
        arcs.rotate_left(sheet.edges.len());
        arcs.retain(|arc| arc.greatest > 0);
        let head = [sheet.node_count() + 1, arcs.len()].map(|count| count as i32);
        let numbers = head.into_iter().chain(arcs.iter().flat_map(arc_numbers));
        Network(numbers.flat_map(i32::to_ne_bytes).collect())
    }
}

/// The numbers of an arc.
fn arc_numbers(arc: &Arc) -> [i32; 5] {
    let limit = |flow: i64| match flow {
        UNLIMITED => i32::MAX,
        flow if flow == -UNLIMITED => -i32::MAX,
        flow => flow as i32,
    };
    [
        arc.tail as i32,
        arc.head as i32,
        limit(arc.least),
        limit(arc.greatest),
        arc.cost as i32,
    ]
}

impl Peer {
    /// Compiles the peer and starts it in both forms, the plain one first, if g++ and LEMON are there.
    pub fn start() -> Option<[Peer; 2]> {
        let mut probe = Command::new("g++");
        probe.args(["-E", "-include", "lemon/network_simplex.h", "-x", "c++"]);
        probe.arg("/dev/null").stdout(Stdio::null());
        let is_there = probe.stderr(Stdio::null()).status();
        if !is_there.is_ok_and(|status| status.success()) {
            return None;
        }
        let path = compiled();
        Some(["plain", "fast"].map(|form| Peer::of_form(&path, form)))
    }

    /// Starts the peer in a form.
    fn of_form(path: &Path, form: &str) -> Peer {
        let mut peer = Command::new(path);
        peer.arg(form).stdin(Stdio::piped()).stdout(Stdio::piped());
        let process = peer.spawn().expect("the peer starts");
        Peer { process }
    }

    /// The microseconds that the peer takes for a network, and the greatest bound, which is the total.
    pub fn solve(&mut self, network: &Network) -> (f64, i64) {
        let networks = self.process.stdin.as_mut().expect("a pipe");
        networks.write_all(&network.0).expect("the peer reads");
        let answers = self.process.stdout.as_mut().expect("a pipe");
        let mut number = || {
            let mut bytes = [0; 8];
            answers.read_exact(&mut bytes).expect("an answer");
            i64::from_ne_bytes(bytes)
        };
        let (nanoseconds, cost) = (number(), number());
        (nanoseconds as f64 / 1e3, -cost)
    }
}

impl Drop for Peer {
    /// Closes the input and waits for the end.
    fn drop(&mut self) {
        let _ = self.process.wait();
    }
}

/// The path of the peer, compiled.
fn compiled() -> PathBuf {
    let source = Path::new(env!("CARGO_MANIFEST_DIR")).join("benches/draw/peer.cpp");
    let path = Path::new(env!("CARGO_TARGET_TMPDIR")).join("peer");
    let mut compiler = Command::new("g++");
    compiler.args(["-std=c++11", "-O3"]);
    let status = compiler.arg(source).arg("-o").arg(&path).status();
    assert!(status.is_ok_and(|status| status.success()), "{compiler:?}");
    path
}
