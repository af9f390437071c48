//! The C program `c/check.c`, compiled against the header and the archive and run.

mod compiler;
mod runner;

use std::path::Path;

#[test]
fn the_c_program_finds_no_difference() {
    let program = Path::new(env!("CARGO_TARGET_TMPDIR")).join("check");
    let source = Path::new(env!("CARGO_MANIFEST_DIR")).join("c/check.c");
    let mut compiler = compiler::compiler("CC", "gcc");
    compiler
        .args(["-std=c99", "-Wall", "-Wextra", "-Werror", "-I", env!("HAMRISK_INCLUDE"), "-o"])
        .args([&program, &source])
        .arg(env!("HAMRISK_ARCHIVE"));
    let compiled = compiler.output().unwrap_or_else(|error| panic!("{compiler:?}: {error}"));
    assert!(compiled.status.success(), "{}", String::from_utf8_lossy(&compiled.stderr));
    let run = runner::program(&program).output().expect("the program runs");
    assert_eq!(String::from_utf8_lossy(&run.stdout), "86 checks, 0 differ\n");
    assert!(run.status.success());
}
