//! `make install` puts every file in place, programs can be built with them, and `make uninstall`
//! takes them away.

mod tools;

use std::collections::BTreeMap;
use std::fs;
use std::os::unix::fs::PermissionsExt;
use std::path::{Path, PathBuf};
use std::process::Command;

use tools::{compiler, folder, functions, make, output, root, shared_library};

/// Where the files go, below the folder of the test.
const PREFIX: &str = "/prefix";
/// The files with their modes; a link has none.
const FILES: [(&str, Option<u32>); 12] = [
    ("bin/place", Some(0o755)),
    ("include/strip.h", Some(0o644)),
    ("lib/cmake/strip/strip-config-version.cmake", Some(0o644)),
    ("lib/cmake/strip/strip-config.cmake", Some(0o644)),
    ("lib/libstrip.a", Some(0o644)),
    ("lib/libstrip.so", None),
    ("lib/libstrip.so.0", Some(0o755)),
    ("lib/pkgconfig/strip.pc", Some(0o644)),
    ("share/doc/strip/FORMAT.md", Some(0o644)),
    ("share/doc/strip/LIBRARY.md", Some(0o644)),
    ("share/doc/strip/LICENSE", Some(0o644)),
    ("share/doc/strip/REFUSALS.md", Some(0o644)),
];

/// Where a file goes, with a folder as the root of the file system.
fn place(folder: &Path, name: &str) -> PathBuf {
    PathBuf::from(format!("{}{PREFIX}/{name}", folder.display()))
}

/// Runs make with the files going below a folder.
fn make_below(folder: &Path, target: &str) {
    let mut make = make();
    make.arg(target).arg(format!("PREFIX={PREFIX}"));
    output(make.arg(format!("DESTDIR={}", folder.display())));
}

/// The files below a folder with their modes.
fn files(folder: &Path) -> BTreeMap<PathBuf, Option<u32>> {
    let mut found = BTreeMap::new();
    for entry in fs::read_dir(folder).expect("a folder") {
        let path = entry.expect("an entry").path();
        let data = fs::symlink_metadata(&path).expect("what kind of file it is");
        if data.is_dir() {
            found.extend(files(&path));
        } else {
            let mode = data.permissions().mode() & 0o7777;
            found.insert(path, (!data.is_symlink()).then_some(mode));
        }
    }
    found
}

/// The files that there should be below a folder.
fn expected(folder: &Path) -> BTreeMap<PathBuf, Option<u32>> {
    FILES.map(|(name, mode)| (place(folder, name), mode)).into()
}

/// What a compiler takes, as strip.pc says, with the files below a folder.
fn flags(folder: &Path) -> String {
    let path = place(folder, "lib/pkgconfig/strip.pc");
    let text = fs::read_to_string(path).expect("strip.pc");
    let field = |name: &str| {
        let value = text.lines().find_map(|line| line.strip_prefix(name));
        value.unwrap_or_else(|| panic!("strip.pc has no {name}"))
    };
    assert_eq!(field("prefix="), PREFIX);
    assert_eq!(field("Version: "), strip::VERSION);
    let below = |name| format!("{}{}", folder.display(), field(name));
    format!("{} {}", field("Cflags: "), field("Libs: "))
        .replace("${includedir}", &below("includedir="))
        .replace("${libdir}", &below("libdir="))
}

/// The same, as pkg-config says.
fn pkg_config_flags(folder: &Path) -> String {
    let mut command = Command::new("pkg-config");
    command.args(["--cflags", "--libs", "strip"]);
    command.env("PKG_CONFIG_LIBDIR", place(folder, "lib/pkgconfig"));
    let flags = output(command.env("PKG_CONFIG_SYSROOT_DIR", folder));
    flags.trim().to_string()
}

/// The names that a shared library exports.
fn exports(library: &Path) -> Vec<String> {
    let mut nm = Command::new("nm");
    let names = output(nm.args(["-D", "--defined-only"]).arg(library));
    let name = |line: &str| line.rsplit(' ').next().unwrap_or("").to_string();
    names.lines().map(name).collect()
}

/// Checks that the C example, compiled with these flags, draws.
fn check_draws(program: &Path, flags: &[&str], libraries: &Path) {
    let mut compiler = compiler("gcc", "c99");
    compiler.arg("examples/draw.c").args(flags);
    output(compiler.arg("-o").arg(program));
    check_program(program, libraries);
}

/// Checks that a program draws, with the folder of the shared library.
fn check_program(program: &Path, libraries: &Path) {
    let drawing = fs::read_to_string(root().join("examples/first.txt")).expect("a stored drawing");
    let mut command = Command::new(program);
    command.arg("examples/first.sheet");
    let printed = output(command.env("LD_LIBRARY_PATH", libraries));
    assert_eq!(printed, drawing);
}

/// Whether a program loads the shared library when it starts.
fn is_shared(program: &Path) -> bool {
    let needed = output(Command::new("readelf").arg("-d").arg(program));
    needed.contains("[libstrip.so.0]")
}

/// Checks that a program can be built with the shared library, as strip.pc says.
fn check_shared(folder: &Path) {
    let flags = flags(folder);
    assert_eq!(pkg_config_flags(folder), flags);
    let flags: Vec<&str> = flags.split(' ').collect();
    let program = folder.with_file_name("shared");
    check_draws(&program, &flags, &place(folder, "lib"));
    assert!(is_shared(&program));
}

/// Checks that a program can be built with the static library.
fn check_static(folder: &Path) {
    let header = format!("-I{}", place(folder, "include").display());
    let library = place(folder, "lib/libstrip.a").display().to_string();
    let program = folder.with_file_name("static");
    check_draws(&program, &[&header, &library], Path::new(""));
    assert!(!is_shared(&program));
}

/// The command cmake for a folder with its CMakeLists.txt, with the files below another folder.
fn cmake(source: &Path, build: &Path, folder: &Path) -> Command {
    let mut command = Command::new("cmake");
    command.arg("-S").arg(source).arg("-B").arg(build);
    let prefix = place(folder, "").display().to_string();
    command.arg(format!("-DCMAKE_PREFIX_PATH={prefix}"));
    command
}

/// Checks that CMake builds the example with both libraries.
fn check_cmake(folder: &Path) {
    let build = folder.with_file_name("cmake");
    output(&mut cmake(Path::new("examples"), &build, folder));
    output(Command::new("cmake").arg("--build").arg(&build));
    for (name, shared) in [("draw", true), ("draw_static", false)] {
        let program = build.join(name);
        check_program(&program, Path::new(""));
        assert_eq!(is_shared(&program), shared, "{name}");
    }
}

/// Checks which versions CMake takes this one for: the same MAJOR.MINOR and no later PATCH.
fn check_versions(folder: &Path) {
    let numbers: Vec<u32> = strip::VERSION
        .split('.')
        .map(|number| number.parse().expect("a number"))
        .collect();
    let [major, minor, patch] = numbers[..] else {
        panic!("{numbers:?}");
    };
    let asked = [
        (String::new(), 1),
        (format!("{major}.{minor}"), 1),
        (format!("{major}.{minor}.{patch}"), 1),
        (format!("{major}.{minor}.{patch} EXACT"), 1),
        (format!("{major}.{minor}.{}", patch + 1), 0),
        (format!("{major}.{}", minor + 1), 0),
        (format!("{major}.{}", minor.wrapping_sub(1)), 0),
        (format!("{}.{minor}", major + 1), 0),
    ];
    let mut text = "cmake_minimum_required(VERSION 3.13)\nproject(versions C)\n".to_string();
    let mut expected = Vec::new();
    for (version, found) in asked {
        text += &format!("unset(strip_DIR CACHE)\nfind_package(strip {version} QUIET)\n");
        text += &format!("message(STATUS \"found '{version}': ${{strip_FOUND}}\")\n");
        expected.push(format!("-- found '{version}': {found}"));
    }
    let source = folder.with_file_name("versions");
    fs::create_dir(&source).expect("a folder can be made");
    fs::write(source.join("CMakeLists.txt"), text).expect("a file can be written");
    let printed = output(&mut cmake(&source, &source.join("build"), folder));
    let lines = printed
        .lines()
        .filter(|line| line.starts_with("-- found '"));
    assert_eq!(lines.collect::<Vec<_>>(), expected);
}

#[test]
fn installed_files_serve_and_go_again() {
    shared_library();
    let folder = folder("install").join("installed");
    make_below(&folder, "install");
    assert_eq!(files(&folder), expected(&folder));
    let link = fs::read_link(place(&folder, "lib/libstrip.so")).expect("a link");
    assert_eq!(link, Path::new("libstrip.so.0"));
    let names = exports(&place(&folder, "lib/libstrip.so.0"));
    assert_eq!(names, functions());
    check_shared(&folder);
    check_static(&folder);
    check_cmake(&folder);
    check_versions(&folder);
    make_below(&folder, "uninstall");
    assert_eq!(files(&folder), BTreeMap::new());
    for name in ["lib/cmake/strip", "share/doc/strip"] {
        assert!(!place(&folder, name).exists(), "{name}");
    }
}
