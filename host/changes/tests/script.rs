//! host/landing tells plainly what is wrong with its arguments.

use std::path::Path;
use std::process::Command;

/// The exit status, and what was said.
fn landing(arguments: &[&str]) -> (Option<i32>, String, String) {
    let script = Path::new(env!("CARGO_MANIFEST_DIR")).join("../landing");
    let output = Command::new(script).args(arguments).output().unwrap();
    let text = |bytes| String::from_utf8_lossy(bytes).into_owned();
    (output.status.code(), text(&output.stdout), text(&output.stderr))
}

#[test]
fn wrong_arguments_are_told() {
    let wrong = [
        (
            &[][..],
            "no commit is named: host/landing [--quick | --text] BASE (host/landing --help)",
        ),
        (
            &["--text"],
            "no commit is named: host/landing [--quick | --text] BASE (host/landing --help)",
        ),
        (&["nowhere"], "there is no commit nowhere in this repository"),
        (&["--fast", "HEAD"], "there is no option --fast (host/landing --help)"),
        (&["one", "two"], "one commit is asked for, and two are named: one and two"),
    ];
    for (arguments, said) in wrong {
        assert_eq!(landing(arguments), (Some(2), String::new(), format!("landing: {said}\n")));
    }
}

#[test]
fn help_says_what_it_does_and_how_long_it_takes() {
    let (status, out, _) = landing(&["--help"]);
    assert_eq!(status, Some(0));
    assert!(
        out.starts_with("host/landing [--quick | --text] BASE\n") && out.contains("takes minutes"),
        "{out}"
    );
}
