//! Our side: the bench program that `rt check framebench` builds.

use std::io::Write;
use std::path::Path;
use std::process::{Command, ExitStatus, Stdio};
use std::thread;

/// What it prints with the script on its standard input, and how it ends.
pub fn printed(script: &[u8]) -> (Vec<u8>, ExitStatus) {
    let path = Path::new(env!("CARGO_MANIFEST_DIR")).join("../../target/bin/framebench");
    let mut child = Command::new(&path)
        .stdin(Stdio::piped())
        .stdout(Stdio::piped())
        .spawn()
        .unwrap_or_else(|error| panic!("{}: {error}", path.display()));
    let mut input = child.stdin.take().expect("a pipe");
    thread::scope(|scope| {
        // A program that ends before it has read all is told by what it printed.
        scope.spawn(move || drop(input.write_all(script)));
        let output = child.wait_with_output().expect("its output");
        (output.stdout, output.status)
    })
}
