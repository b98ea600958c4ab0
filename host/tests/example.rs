//! The C example: compiled against the header and the static library, and run.

use std::path::Path;
use std::process::Command;

#[test]
fn the_c_example_runs() {
    let root = Path::new(env!("CARGO_MANIFEST_DIR")).parent().unwrap();
    let program = Path::new(env!("CARGO_TARGET_TMPDIR")).join("line");
    let compiled = Command::new("cc")
        .args(["-std=c11", "-Wall", "-Wextra", "-Werror", "-pedantic"])
        .arg("-I")
        .arg(root.join("include"))
        .arg(root.join("examples/line.c"))
        .arg(root.join("target/staticlib/libcapi.a"))
        .arg("-o")
        .arg(&program)
        .output()
        .expect("there is a C compiler");
    assert!(compiled.status.success(), "{}", String::from_utf8_lossy(&compiled.stderr));
    let run = Command::new(&program).output().unwrap();
    assert!(run.status.success());
    let text = "built: rule 0, 149 bytes, 1 transit\n\
        audit: rule 0\n\
        time 0 to 2: 16 seconds by 2 roads, far, 1 pairs\n\
        way 0 to 2: 0 1 2\n\
        times from 0 to 2, 1, 0: 16 7 0, roads 2 1 0\n\
        times from 1 to 2, 1, 0: 9 0 7, roads 1 0 1\n\
        list of 0: 10 bytes from 121 on\n\
        too few words: rule 14\n\
        far 2 to 0: 16 seconds by 2 roads; 0 to 1: rule 13\n";
    assert_eq!(String::from_utf8_lossy(&run.stdout), text);
}

/// The header compiles as C++ too.
#[test]
fn the_header_is_for_cpp_too() {
    let root = Path::new(env!("CARGO_MANIFEST_DIR")).parent().unwrap();
    let compiled = Command::new("c++")
        .args(["-std=c++17", "-Wall", "-Wextra", "-Werror", "-fsyntax-only", "-x", "c++"])
        .arg(root.join("include/jukesogbi.h"))
        .output()
        .expect("there is a C++ compiler");
    assert!(compiled.status.success(), "{}", String::from_utf8_lossy(&compiled.stderr));
}
