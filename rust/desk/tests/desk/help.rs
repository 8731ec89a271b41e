//! `--help` and `--version`.

use crate::run::run;

/// How the command is used names every command and every option that there is.
#[test]
fn help() {
    let names = [
        "report",
        "map",
        "json",
        "explain",
        "--help",
        "--version",
        "--userland",
        "--magazines",
        "--now",
        "--svg",
    ];
    let long = run(&["--help"]);
    for name in names {
        assert!(long.stdout_text().contains(name), "{name} is missing");
    }
    assert_eq!((long.stderr_text(), long.status), (String::new(), Some(0)));
    let short = run(&["-h"]);
    assert_eq!(short.stdout_text(), long.stdout_text());
    assert_eq!(
        (short.stderr_text(), short.status),
        (String::new(), Some(0))
    );
}

#[test]
fn version() {
    for argument in ["--version", "-V"] {
        let ran = run(&[argument]);
        let text = ran.stdout_text();
        assert!(text.contains(env!("CARGO_PKG_VERSION")), "{text}");
        assert_eq!(text.lines().count(), 1, "{text}");
        assert_eq!((ran.stderr_text(), ran.status), (String::new(), Some(0)));
    }
}
