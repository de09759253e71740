//! Writes samples of the original's answers, and of the models' where the original has none, as
//! vectors: `cargo run -p differential --bin vectors -- FOLDER`.
use differential::{
    call::Call,
    checking, editing, improving,
    random::Random,
    vectors::{self, Format},
};
use std::{collections::BTreeMap, env, fs, path::Path};

/// The most points, and the most triangles, of a vector's surface.
const MOST: usize = 32;

/// How many vectors a refusal has, for each number.
const REFUSED: usize = 2;

/// A line for each of the first calls that are small: so many that are accepted, and a few for
/// each number of a refusal.
fn sample(
    format: Format,
    accepted: usize,
    call: fn(&mut Random) -> Call,
    model: impl Fn(&Call) -> Option<Call>,
) -> String {
    let mut counts = BTreeMap::new();
    let mut text = String::new();
    for seed in 1..=3_000 {
        let before = call(&mut Random::new(seed));
        let small = before.surface.point_count() <= MOST && before.surface.triangle_count() <= MOST;
        if !small || before.rounds > 6 {
            continue;
        }
        let after = model(&before).expect("vectors are made where the original is there");
        let most = if after.number == 0 { accepted } else { REFUSED };
        let count = counts.entry(after.number).or_insert(0);
        if *count < most {
            *count += 1;
            text += &vectors::line(format, &before, &after);
        }
    }
    text
}

fn main() {
    let folder = env::args().nth(1).expect("a folder to write to");
    let write = |name: &str, text: String| {
        println!(
            "{name}: {} vectors, {} bytes",
            text.lines().count(),
            text.len()
        );
        fs::write(Path::new(&folder).join(name), text).unwrap();
    };
    let check = |before: &Call| {
        let after = checking::model(before);
        checking::compare_with_original(&after).unwrap();
        Some(after)
    };
    write(
        "check.words",
        sample(vectors::CHECK, 24, checking::random_call, check),
    );
    let edit = |before: &Call| Some(editing::model(before));
    write(
        "edit.words",
        sample(vectors::EDIT, 40, editing::random_call, edit),
    );
    let improve = |before: &Call| Some(improving::model(before)?.0);
    write(
        "improve.words",
        sample(vectors::IMPROVE, 40, improving::random_call, improve),
    );
}
