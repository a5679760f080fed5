//! What `record` writes of the Rust is what `replay` writes of the port, but for the whole buffers.
use nyotmelang::emulated::command;
use std::io::Write;
use std::process::Stdio;

const SCRIPT: &str = "case one\nxdpage 1\nxd 07\nopen\nbegin 1\nwrite 1 3\nflush 1\nwrite 3 4\nflush 3\ncuts rollback\nread 1\nflush 4294967295\nopen
case two\nxdmeta 6 2 0 2\nxcmagic\nxc 0004\nxlmagic\nxlcommit 5 9\nopen\nalloctx\nmktx 0 9 3\ninstall 0\nwrite 3 1\ncutgo 2 commit\nopen\ntable 9
case three\nxdmeta 9 8 7 3\nxdcut 36\nxlmagic\nxlimg 1 7\nopen\nopen
case four\nlapp begin 5\ncopen\ncrec 5 C 9\ncload\n";

fn recorded(script: &str) -> (Option<i32>, String) {
    let mut child = command(env!("CARGO_BIN_EXE_record"))
        .stdin(Stdio::piped())
        .stdout(Stdio::piped())
        .stderr(Stdio::null())
        .spawn()
        .expect("record runs");
    child.stdin.take().expect("a pipe").write_all(script.as_bytes()).expect("a script is taken");
    let done = child.wait_with_output().expect("record ends");
    (done.status.code(), String::from_utf8_lossy(&done.stdout).into_owned())
}

#[test]
fn both_transcripts_are_the_same() {
    let port = nyotmelang::executor::run_script(SCRIPT).expect("a script");
    let port: String = port.lines().filter(|line| !line.starts_with("P ")).map(|line| format!("{line}\n")).collect();
    assert_eq!(recorded(SCRIPT), (Some(0), port));
}

#[test]
fn a_malformed_script_is_refused() {
    let (status, transcript) = recorded("open\nopen 1\n");
    assert_eq!((status, transcript.lines().count()), (Some(1), 3));
}

#[test]
fn where_the_rust_cannot_follow_it_has_no_lines() {
    for line in ["poke next 4", "read 4294967294"] {
        let (status, transcript) = recorded(&format!("case a\nopen\n{line}\nalloctx\ncase b\nopen\n"));
        assert_eq!((status, transcript.lines().filter(|line| line.starts_with("R ")).count()), (Some(0), 2));
    }
}
