//! The comparison holds where nothing is wrong, and fails under each deliberate mistake.
use beside::foretell::MISREAD;
use beside::wrong::WRONGS;
use nyotmelang::emulated::command;
use std::process::Output;

fn compare(words: &[&str]) -> Output {
    command(env!("CARGO_BIN_EXE_compare")).args(words).output().expect("compare runs")
}

fn text(output: &Output) -> String {
    String::from_utf8_lossy(&output.stdout).into_owned()
}

#[test]
fn nothing_is_found_where_nothing_is_wrong() {
    let done = compare(&["--cases", "300"]);
    assert_eq!(done.status.code(), Some(0), "{}", text(&done));
}

#[test]
fn a_case_is_the_same_whichever_comes_first() {
    let counts = |words: &[&str]| text(&compare(words)).lines().skip(1).map(str::to_string).collect::<Vec<_>>();
    assert_eq!(
        counts(&["--cases", "50", "--from", "70"]),
        counts(&["--cases", "50", "--from", "70", "--seed", "20261115"])
    );
    assert_ne!(counts(&["--cases", "50", "--from", "70"]), counts(&["--cases", "50", "--from", "120"]));
}

#[test]
fn each_mistake_is_found_and_made_small() {
    for (name, _) in WRONGS {
        let done = compare(&["--cases", "300", "--wrong", name]);
        let said = text(&done);
        assert_eq!(done.status.code(), Some(1), "{name}: {said}");
        let script = said.split("script:\n").nth(1).and_then(|rest| rest.split("\n\n").next()).expect("a script");
        assert!(script.lines().count() <= 8, "{name}: {script}");
        nyotmelang::executor::run_script(script).unwrap_or_else(|why| panic!("{name}: replay cannot read it: {why}"));
    }
}

// A port that refuses wrongly in one point, or does not refuse, answers as document 01 read wrongly there: the numbers that are foretold show it.
#[test]
fn each_wrong_refusal_is_found_and_made_small() {
    for name in MISREAD {
        let done = compare(&["--cases", "2000", "--misread", name]);
        let said = text(&done);
        assert_eq!(done.status.code(), Some(1), "{name}: {said}");
        assert!(said.contains(", document 01 says "), "{name}: {said}");
    }
}

// Limits that the port has and the Rust has not.
#[test]
fn asked_beyond_the_limits_the_rust_differs() {
    for number in ["1", "4", "5", "6", "8", "9", "10", "13", "14"] {
        let done = compare(&["--cases", "2000", "--beyond", number]);
        let said = text(&done);
        assert!(said.contains(&format!("the port answers {number}, the Rust 0")), "{number}: {said}");
    }
}

#[test]
fn wrong_arguments_are_refused() {
    let wrong =
        [&["--wrong", "nothing"][..], &["--misread", "nothing"], &["--cases"], &["--more", "1"], &["--cases", "many"]];
    for words in wrong {
        assert_eq!(compare(words).status.code(), Some(2), "{words:?}");
    }
}
