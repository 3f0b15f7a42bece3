//! The examples print what stands in hosts/expected, as those in C do (hosts/run).

use std::env;
use std::process::Command;

/// What an example prints. `cargo test` builds the examples beside the tests.
fn printed(name: &str) -> String {
    let test = env::current_exe().expect("a test has a file");
    let built = test
        .ancestors()
        .nth(2)
        .expect("it is in a folder of its profile");
    let example = built.join("examples").join(name);
    let output = Command::new(&example).output().unwrap_or_else(|error| {
        panic!(
            "{}: {error}; run `cargo test` without --test, which builds it",
            example.display()
        )
    });
    assert!(output.status.success(), "{name}: {output:?}");
    String::from_utf8(output.stdout).expect("it prints text")
}

#[test]
fn two_channels() {
    assert_eq!(
        printed("two_channels"),
        include_str!("../../expected/two_channels.txt")
    );
}

#[test]
fn extract() {
    assert_eq!(
        printed("extract"),
        include_str!("../../expected/extract.txt")
    );
}
