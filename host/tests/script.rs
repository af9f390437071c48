//! The script `hamrisk` at the repository's root: what it installs is used as a C or C++ programmer would, and what it says where
//! something is missing.

mod compiler;
mod runner;

use std::fs;
use std::os::unix::fs::symlink;
use std::path::{Path, PathBuf};
use std::process::{Command, Output};

fn root() -> &'static Path {
    Path::new(env!("CARGO_MANIFEST_DIR")).parent().expect("the crate stands in the repository")
}

/// A folder of a test's own, removed at its end. It stands outside the repository, in which `rt ci` refuses links.
struct Folder(PathBuf);

impl Folder {
    fn new(name: &str) -> Folder {
        let path = std::env::temp_dir().join(format!("hamrisk-{name}-{}", std::process::id()));
        let _ = fs::remove_dir_all(&path);
        fs::create_dir_all(&path).expect("a folder can be made");
        Folder(path)
    }
}

impl Drop for Folder {
    fn drop(&mut self) {
        let _ = fs::remove_dir_all(&self.0);
    }
}

fn said(output: &Output) -> String {
    format!("{}{}", String::from_utf8_lossy(&output.stdout), String::from_utf8_lossy(&output.stderr))
}

/// README's example in C, and a `main` that has a row of zeros converted and marked, its fourth byte lost.
fn example() -> String {
    let readme = fs::read_to_string(root().join("README.md")).expect("README is there");
    let code =
        readme.split("```c\n").nth(1).and_then(|rest| rest.split("```").next()).expect("README has an example in C");
    let main = "
#include <stdio.h>

int main(void) {
    static uint8_t raw[1280], lost[1280], out[1280], doubtful[640];
    size_t count = 0;
    lost[3] = 1;
    uint32_t refused = depths(raw, lost, sizeof raw, out, doubtful, &count);
    printf(\"%u %zu\\n\", (unsigned)refused, count);
    return 0;
}
";
    code.to_string() + main
}

#[test]
fn what_is_installed_serves_c_cpp_and_a_shell() {
    let folder = Folder::new("install");
    let here = &folder.0;
    let prefix = here.join("prefix");
    let install = Command::new(root().join("hamrisk")).arg("install").arg(&prefix).output().expect("the script runs");
    assert!(install.status.success(), "{}", said(&install));
    for file in
        ["bin/hamrisk", "include/hamrisk.h", "lib/libhamrisk.a", "lib/libhamrisk.so", "lib/pkgconfig/hamrisk.pc"]
    {
        assert!(prefix.join(file).exists(), "{file} was not installed");
    }
    fs::write(here.join("example.c"), example()).expect("a file can be written");
    let flags = Command::new("pkg-config")
        .args(["--cflags", "--libs", "hamrisk"])
        .env("PKG_CONFIG_PATH", prefix.join("lib/pkgconfig"))
        .output()
        .expect("pkg-config is on the path");
    assert!(flags.status.success(), "{}", said(&flags));
    let flags = String::from_utf8(flags.stdout).expect("flags are text");
    for (variable, usual, language) in [("CC", "gcc", "c"), ("CXX", "g++", "c++")] {
        let program = here.join(format!("example-{language}"));
        let compiled = compiler::compiler(variable, usual)
            .args(["-x", language, "example.c", "-x", "none", "-o"])
            .arg(&program)
            .args(flags.split_whitespace())
            .current_dir(here)
            .output()
            .expect("the compiler is on the path");
        assert!(compiled.status.success(), "{}", said(&compiled));
        let run =
            runner::program(&program).env("LD_LIBRARY_PATH", prefix.join("lib")).output().expect("the program runs");
        assert_eq!(said(&run), "0 639\n", "{language}");
    }
    for words in [&["wrap", "example.c", "wrapped.tif", "--w=9", "--h=9"][..], &["samples", "wrapped.tif", "planes"]] {
        let command = prefix.join("bin/hamrisk");
        let run = runner::program(command).args(words).current_dir(here).output().expect("the command runs");
        assert_eq!(said(&run), "", "{words:?}");
    }
    assert_eq!(fs::read(here.join("planes")).expect("planes are written"), example().as_bytes()[..81]);
}

/// The script in a folder where nothing is built, with these tools alone on its path.
fn bare(name: &str, tools: &[&str]) -> Output {
    let folder = Folder::new(name);
    let here = &folder.0;
    let path = here.join("bin");
    fs::create_dir_all(here.join("tools")).expect("a folder can be made");
    fs::create_dir_all(&path).expect("a folder can be made");
    for file in ["hamrisk", "tools/machine"] {
        fs::copy(root().join(file), here.join(file)).expect("a file can be copied");
    }
    // On another machine than the library's own, tools are looked for by their whole names, which no path hides.
    let machine = fs::read_to_string(root().join("tools/machine")).expect("tools/machine is there");
    let machine = machine.replace("/usr/bin", path.to_str().expect("the folder's name is text"));
    fs::write(here.join("tools/machine"), machine).expect("a file can be written");
    for tool in ["sh", "dirname", "uname", "find", "head", "id"].iter().chain(tools) {
        let found = std::env::split_paths(&std::env::var_os("PATH").expect("there is a path"))
            .map(|p| p.join(tool))
            .find(|p| p.exists());
        symlink(found.unwrap_or_else(|| panic!("{tool} is not on the path")), path.join(tool))
            .expect("a link can be made");
    }
    Command::new(here.join("hamrisk"))
        .arg("demo")
        .env("PATH", &path)
        .env("HOME", here)
        .output()
        .expect("the script runs")
}

#[test]
fn without_the_toolchain_it_says_so() {
    let output = bare("no-rt", &[]);
    assert_eq!(output.status.code(), Some(69));
    assert_eq!(
        said(&output),
        "hamrisk: rt is missing (it proves and compiles the library): put the Rattle toolchain's bin folder on the path\n"
    );
}

#[test]
fn without_apt_it_says_what_to_install() {
    let output = bare("no-apt", &["rt"]);
    assert_eq!(output.status.code(), Some(69), "{}", said(&output));
    let words = said(&output);
    assert!(
        words.contains("cargo is missing (it compiles the command), and there is no apt-get to install it with"),
        "{words}"
    );
    assert_eq!(words.lines().count(), 1, "{words}");
}
