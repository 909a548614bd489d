//! A small repository with the gate and its test of tools, in which every command that they need only
//! talks. No other command is on the PATH but a few of the system's own.

use std::env;
use std::fs;
use std::os::unix::fs::{symlink, PermissionsExt};
use std::path::{Path, PathBuf};
use std::process::Command;

use crate::tools::{folder, root, run_in};

/// The commands that the gate needs beside the kit, with their packages in Debian 12.
pub const NEEDED: [(&str, &str); 18] = [
    ("make", "make"),
    ("cc", "gcc libc6-dev"),
    ("ar", "binutils"),
    ("c++", "g++"),
    ("cargo", "cargo-web"),
    ("clang", "clang"),
    ("clang++", "clang"),
    ("cmake", "cmake"),
    ("g++", "g++"),
    ("gcc", "gcc libc6-dev"),
    ("mkfifo", "coreutils"),
    ("nm", "binutils"),
    ("pkg-config", "pkg-config"),
    ("prlimit", "util-linux"),
    ("python3", "python3"),
    ("readelf", "binutils"),
    ("rustc", "rustc-web"),
    ("valgrind", "valgrind"),
];

/// The system's own commands that the scripts use, and those of these tests.
const SYSTEM: [&str; 24] = [
    "awk", "bash", "cat", "cmp", "cp", "dirname", "getconf", "grep", "id", "mkdir", "mktemp", "mv",
    "nproc", "paste", "rm", "sed", "sh", "sort", "tail", "tee", "touch", "tr", "true", "uname",
];

/// The scripts, and what they read.
const FILES: [&str; 3] = [".ci/run", ".ci/needs", ".ci/kit"];

/// What a command does that is there and works: rustc and cargo say their version.
const WORKS: &str = "[ \"$1\" != --version ] || echo \"${0##*/} 1.78.0\"\n";

/// Where a command of the system is.
fn of_system(name: &str) -> PathBuf {
    let path = env::var_os("PATH").expect("a PATH");
    let mut files = env::split_paths(&path).map(|folder| folder.join(name));
    files.find(|file| file.exists()).expect(name)
}

/// A small repository.
pub struct Repository {
    pub folder: PathBuf,
}

impl Repository {
    /// One in which nothing is missing and the kit is the right one, on Debian 12 as a user.
    pub fn new(name: &str) -> Repository {
        let folder = folder(name);
        let repository = Repository { folder };
        for file in FILES {
            let text = fs::read_to_string(root().join(file)).expect(file);
            repository.program(file, &text);
        }
        repository.command("rt", "cat .ci/kit\n");
        for name in SYSTEM {
            repository.link(name, &of_system(name));
        }
        repository.program("works", &format!("#!/bin/sh\n{WORKS}"));
        for (name, _) in NEEDED {
            repository.link(name, &repository.path("works"));
        }
        repository.user(1000);
        repository.system("debian", "12");
        fs::create_dir(repository.path("tmp")).expect("a folder can be made");
        fs::create_dir(repository.path("hidden")).expect("a folder can be made");
        repository
    }

    /// The path of a file here.
    pub fn path(&self, file: &str) -> PathBuf {
        self.folder.join(file)
    }

    /// Writes a file that can be run, and the folders that it is in.
    pub fn program(&self, file: &str, text: &str) {
        let path = self.path(file);
        fs::create_dir_all(path.parent().expect("a folder")).expect("folders can be made");
        let _ = fs::remove_file(&path); // what a link leads to stays
        fs::write(&path, text).expect(file);
        fs::set_permissions(&path, PermissionsExt::from_mode(0o755)).expect(file);
    }

    /// Makes a command that does this.
    pub fn command(&self, name: &str, text: &str) {
        self.program(&format!("tools/{name}"), &format!("#!/bin/sh\n{text}"));
    }

    /// Makes a command that is a link to a file.
    fn link(&self, name: &str, file: &Path) {
        symlink(file, self.path("tools").join(name)).expect(name);
    }

    /// Makes a command that only talked the system's own.
    #[allow(dead_code)]
    pub fn system_command(&self, name: &str) {
        self.hide(name);
        self.link(name, &of_system(name));
    }

    /// Takes a command off the PATH.
    pub fn hide(&self, name: &str) {
        let [from, to] = ["tools", "hidden"].map(|folder| self.path(folder).join(name));
        fs::rename(from, to).expect(name);
    }

    /// Sets who runs the scripts.
    pub fn user(&self, number: u32) {
        self.command("id", &format!("echo {number}\n"));
    }

    /// Sets the system.
    pub fn system(&self, name: &str, version: &str) {
        let text = format!("NAME=\"any\"\nID={name}\nVERSION_ID=\"{version}\"\n");
        fs::write(self.path("os-release"), text).expect("a file");
    }

    /// Runs a script with the commands here alone: whether it ends well, and what it says on its
    /// standard output and on its standard error.
    pub fn run(
        &self,
        script: &str,
        arguments: &[&str],
        set: &[(&str, &str)],
    ) -> (bool, [String; 2]) {
        let mut command = Command::new(self.path(script));
        command.args(arguments).env_remove("SETUP").env_remove("RT");
        command.env("PATH", self.path("tools"));
        command.env("TMPDIR", self.path("tmp"));
        command.env("OS_RELEASE", self.path("os-release"));
        let output = run_in(Path::new("/"), command.envs(set.iter().copied()));
        let said = [output.stdout, output.stderr].map(|said| String::from_utf8_lossy(&said).into());
        (output.status.success(), said)
    }

    /// What was asked of the commands that write it down.
    pub fn asked(&self) -> String {
        fs::read_to_string(self.path("asked")).unwrap_or_default()
    }

    /// Checks that no file is left in the temporary folder.
    pub fn check_nothing_left(&self) {
        let left = fs::read_dir(self.path("tmp")).expect("a folder");
        assert_eq!(left.count(), 0, "files are left in the temporary folder");
    }
}
