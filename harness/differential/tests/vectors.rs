//! The vectors of the folder `vectors`, replayed: they stand in where the original is not there. The
//! programs `replay_check`, `replay_edit` and `replay_improve` read the same.
use differential::{
    call::Call,
    checking, editing, improving,
    vectors::{self, Format},
};
use std::{fs, path::Path};

fn replay(name: &str, format: Format, ours: fn(&Call) -> Call) {
    let read = |path: String| {
        let path = Path::new(env!("CARGO_MANIFEST_DIR")).join(path);
        fs::read_to_string(path).unwrap()
    };
    let text = read(format!("vectors/{name}.words"));
    let count = vectors::replay(format, &text, ours).unwrap();
    println!("{name}: {count} vectors");
    assert!(count > 0);
    assert!(text == read(format!("../../crates/replay_{name}/stdin")));
}

#[test]
fn of_checking() {
    replay("check", vectors::CHECK, checking::ours);
}

#[test]
fn of_editing() {
    replay("edit", vectors::EDIT, editing::ours);
}

#[test]
fn of_improving() {
    replay("improve", vectors::IMPROVE, improving::ours);
}
