//! Improving beside the original's rounds: points to the bit, every list, the flips.
use differential::{
    call::Call,
    cases, checking,
    field::told,
    improving, note_absence, report,
    surfaces::{Surface, octahedron},
};
use lanovishel::{Field, Improved, Refusal};

#[test]
fn random_calls() {
    note_absence();
    let (mut numbers, mut stories) = (Vec::new(), Vec::new());
    let runs = cases(2_000, |random| {
        let call = improving::random_call(random);
        let Some((wanted, story)) = improving::model(&call) else {
            return Ok(());
        };
        improving::compare_with_original(&call, &wanted, story)?;
        numbers.push(wanted.number);
        stories.push(story);
        improving::ours(&call).difference(&wanted)
    });
    let [collapses, flips] = [
        stories.iter().map(|story| story.collapses).sum::<usize>(),
        stories.iter().map(|story| story.flips).sum(),
    ];
    let outside = stories.iter().filter(|story| story.piece_of_four).count();
    let folded = stories.iter().filter(|story| story.skipped > 0).count();
    println!("{runs} calls of improving, {collapses} collapses, {flips} flips");
    println!("{outside} calls met a piece of four corners; the original folds one in {folded}");
    report(
        "number",
        &[0, 1, 2, 3, 4, 5, 9, 10, 11, 12, 13, 14, 31, 32, 33],
        &numbers,
        runs / 2000,
    );
}

#[test]
fn the_most_rounds() {
    let run = |rounds| {
        let mut surface = octahedron();
        let mut work = vec![1; surface.work_words()];
        let field = Field {
            coefficients: &[1.0],
            powers: &[2, 0, 0],
            levels: [0.0, 1.0],
            bounds: [-2.0, -2.0, -2.0, 2.0, 2.0, 2.0],
        };
        let (points, corners, labels) = (
            &mut surface.points,
            &mut surface.corners,
            &mut surface.labels,
        );
        lanovishel::improve(points, corners, labels, &mut work, &field, rounds)
    };
    let unchanged = Improved {
        points: 6,
        triangles: 8,
        flips: 0,
    };
    assert_eq!(run(0), Ok(unchanged));
    assert!(run(1_000).is_ok());
    assert_eq!(run(1_001), Err(Refusal::TooManyRounds));
}

/// The smallest input of docs/DIFFERENCES.md: the original folds a tetrahedron flat.
#[test]
fn a_tetrahedron_with_a_short_side() {
    let surface = Surface {
        points: vec![0., 0., 0., 0.25, 0., 0., 0., 1., 0., 0., 0., 1.],
        corners: vec![0, 2, 1, 0, 1, 3, 0, 3, 2, 1, 2, 3],
        labels: vec![0; 4],
    };
    let mut call = Call::new(surface, 192);
    (call.coefficients, call.powers) = (vec![1.0], vec![1, 0, 0]);
    (call.levels, call.bounds) = ([0.0, 1.0], [-2., -2., -2., 2., 2., 2.]);
    call.rounds = 1;
    let after = improving::ours(&call);
    assert_eq!((after.number, after.answer), (0, [4, 4, 0]));
    assert_eq!(after.surface.corners, [0, 1, 2, 0, 2, 3, 0, 3, 1, 2, 1, 3]);
    let mut theirs = checking::mesh(&call.surface);
    if let Some(flips) = original::improve(&mut theirs, &told(&call), 1) {
        assert_eq!(flips, Ok(0));
        assert_eq!(theirs.faces, [[0, 1, 2], [0, 2, 1]]);
    }
}

/// Smallest inputs of docs/DIFFERENCES.md that the original takes and ours refuses.
#[test]
fn taken_by_the_original_alone() {
    let call = |change: fn(&mut Call)| {
        let surface = octahedron();
        let words = surface.work_words();
        let mut call = Call::new(surface, words);
        (call.coefficients, call.powers) = (vec![1.0], vec![2, 0, 0]);
        (call.levels, call.bounds) = ([0.0, 1.0], [-2., -2., -2., 2., 2., 2.]);
        call.rounds = 1;
        change(&mut call);
        call
    };
    let open_without_rounds = call(|call| {
        call.surface = Surface {
            points: vec![0., 0., 0., 1., 0., 0., 0., 1., 0.],
            corners: vec![0, 1, 2],
            labels: vec![0],
        };
        call.rounds = 0;
    });
    let coefficient_not_finite =
        call(|call| (call.coefficients, call.powers) = (vec![f64::INFINITY], vec![0, 0, 0]));
    let box_too_far =
        call(|call| call.bounds = [0., 0., 0., 1., 1., 2f64.powi(20) + 2f64.powi(-32)]);
    let box_too_thin =
        call(|call| call.bounds = [0., 0., 0., 1., 1., 2f64.powi(-20) - 2f64.powi(-73)]);
    assert_eq!(improving::ours(&call(|_| ())).number, 0);
    for (call, number) in [
        (open_without_rounds, 32),
        (coefficient_not_finite, 13),
        (box_too_far, 13),
        (box_too_thin, 13),
    ] {
        assert_eq!(improving::ours(&call).number, number);
        let mut theirs = checking::mesh(&call.surface);
        let rounds = call.rounds as usize;
        if let Some(flips) = original::improve(&mut theirs, &told(&call), rounds) {
            assert!(flips.is_ok(), "{number}: {flips:?}");
        }
    }
}
