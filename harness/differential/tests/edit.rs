//! Editing beside the model of the history: verdict words, journal, every list.
use differential::{
    cases,
    closed::closed,
    editing, report,
    surfaces::{Surface, octahedron, pillow, tetrahedron},
};
use lanovishel::{Edited, Refusal};

#[test]
fn random_runs() {
    let (mut numbers, mut words) = (Vec::new(), Vec::new());
    let runs = cases(5_000, |random| {
        let call = editing::random_call(random);
        let wanted = editing::model(&call);
        numbers.push(wanted.number);
        if wanted.number == 0 {
            words.extend(&wanted.verdicts);
        }
        editing::ours(&call).difference(&wanted)
    });
    println!("{runs} runs of editing, {} entries", words.len());
    report(
        "number",
        &[0, 1, 2, 3, 4, 5, 9, 10, 11, 12, 15, 31, 32, 33],
        &numbers,
        runs / 1000,
    );
    report(
        "verdict word",
        &[0, 21, 22, 23, 24, 25, 26, 27],
        &words,
        runs / 5,
    );
}

/// Runs entries on a surface, which it changes, and gives the answer and the verdict words.
fn edit(
    surface: &mut Surface,
    entries: &[[u32; 3]],
    journal_words: usize,
) -> (Result<Edited, Refusal>, Vec<u32>) {
    let mut work = vec![1; surface.work_words()];
    let mut verdicts = vec![99; entries.len()];
    let mut journal = vec![99; journal_words];
    let answer = lanovishel::edit(
        &surface.points,
        &mut surface.corners,
        &mut surface.labels,
        &mut work,
        &entries.concat(),
        &mut verdicts,
        &mut journal,
    );
    (answer, verdicts)
}

/// The verdict words of entries on the octahedron, with room in the journal, and what they leave.
fn on_octahedron(entries: &[[u32; 3]]) -> (Vec<u32>, Vec<[u32; 3]>) {
    let mut surface = octahedron();
    let (answer, verdicts) = edit(&mut surface, entries, 120);
    let mut triangles = surface.triangles();
    triangles.truncate(answer.unwrap().triangles as usize);
    (verdicts, triangles)
}

#[test]
fn starred_refusals() {
    assert_eq!(edit(&mut pillow(), &[], 0).0, Err(Refusal::SameCorners));
    let mut mixed = tetrahedron();
    mixed.labels[1] = 1;
    assert_eq!(edit(&mut mixed, &[], 0).0, Err(Refusal::OpposedLabels));
}

#[test]
fn starred_flips() {
    let (verdicts, triangles) = on_octahedron(&[[1, 0, 2], [1, 4, 0]]);
    assert_eq!(verdicts, [0, 25]);
    assert_eq!([triangles[0], triangles[4]], [[4, 5, 2], [5, 4, 0]]);
}

#[test]
fn starred_collapses() {
    let kept = [
        [0, 1, 4],
        [1, 3, 4],
        [3, 0, 4],
        [1, 0, 5],
        [3, 1, 5],
        [0, 3, 5],
    ];
    let (verdicts, triangles) = on_octahedron(&[[2, 0, 2], [2, 0, 1]]);
    assert_eq!((verdicts, &triangles[..]), (vec![0, 25], &kept[..]));

    let mut entries = vec![[2, 0, 2], [2, 4, 0]];
    for (keep, remove) in [(1, 3), (1, 4), (1, 5), (3, 4), (3, 5), (4, 5)] {
        entries.extend([[2, keep, remove], [2, remove, keep]]);
    }
    let (verdicts, triangles) = on_octahedron(&entries);
    assert_eq!(verdicts[..2], [0, 0]);
    assert_eq!(verdicts[2..], [25; 12]);
    assert!(triangles.len() == 4 && closed(&triangles));
}

#[test]
fn takings_back() {
    assert_eq!(
        on_octahedron(&[[3, 1, 0], [3, 0, 0], [1, 0, 0]]).0,
        [26, 0, 22]
    );
    // The two places of a flip do not come out exchanged.
    let (verdicts, triangles) = on_octahedron(&[[1, 0, 2], [3, 1, 0]]);
    assert_eq!(
        (verdicts, triangles),
        (vec![0, 0], octahedron().triangles())
    );
}

/// Both counts, each by itself: a flip is an edit and leaves all eight triangles, a collapse takes two.
#[test]
fn counts() {
    for (entries, triangles, in_force) in [
        (&[][..], 8, 0),
        (&[[1, 0, 2]], 8, 1),
        (&[[2, 0, 2]], 6, 1),
        (&[[2, 0, 2], [2, 4, 0]], 4, 2),
        (&[[1, 0, 2], [1, 4, 5], [1, 0, 2]], 8, 3),
        (&[[2, 0, 2], [2, 4, 0], [3, 1, 0]], 6, 1),
        (&[[2, 0, 2], [3, 1, 0]], 8, 0),
    ] {
        let wanted = Edited {
            triangles,
            in_force,
        };
        assert_eq!(edit(&mut octahedron(), entries, 120).0, Ok(wanted));
    }
}

#[test]
fn a_full_journal() {
    assert_eq!(edit(&mut octahedron(), &[[1, 0, 2]], 11).1, [27]);
    // A place given back is used again; and 27 is said only of what all else allows.
    let entries = [[1, 0, 2], [1, 1, 4], [1, 0, 0], [3, 1, 0], [1, 1, 4]];
    assert_eq!(edit(&mut octahedron(), &entries, 12).1, [0, 27, 22, 0, 0]);
}
