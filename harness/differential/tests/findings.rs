//! Open surfaces through all three calls: the number and the place are the finder's, every list is
//! as it must be, and the order of the triangles changes nothing.
use differential::{
    call::{Call, filling},
    cases, checking, damage, editing, improving,
    random::Random,
    report, surfaces,
};

const FINDINGS: [u32; 3] = [31, 32, 33];

/// A surface with one to five injuries, and what each of the three functions takes besides.
fn call(random: &mut Random) -> Call {
    let most = random.pick(&[8, 24, 60, 100]);
    let mut surface = surfaces::any(random, most);
    if random.one_in(2_000) {
        surface = surfaces::torus(100, 100);
    }
    editing::label(&mut surface, random);
    damage::injure(&mut surface, random);
    // No three points lie in line: whether a triangle is degenerate may else depend on where it begins.
    surface.jitter(random, 0.01);
    surface.relist(random);
    surface.renumber(random, 3);
    let words = surface.work_words() + random.below(3);
    Call {
        entries: vec![1, 0, 1],
        verdicts: filling(1),
        journal: filling(12),
        coefficients: vec![1.0],
        powers: vec![1, 0, 0],
        levels: [0.0, 1.0],
        bounds: [-1.0, -1.0, -1.0, 1.0, 1.0, 1.0],
        rounds: 1,
        ..Call::new(surface, words)
    }
}

/// What a call must lead to, where that is known; or how two models differ.
type Wanted = Result<Option<Call>, String>;

/// Holds `ours` to `model`, and again with the triangles in another order.
fn compare(what: &str, model: fn(&Call) -> Wanted, ours: fn(&Call) -> Call) {
    let mut numbers = Vec::new();
    let runs = cases(20_000, |random| {
        let mut call = call(random);
        let Some(wanted) = model(&call)? else {
            return Ok(());
        };
        numbers.push(wanted.number);
        ours(&call).difference(&wanted)?;
        call.surface.relist(random);
        let relisted = ours(&call);
        let [found, again] = [&wanted, &relisted].map(|call| (call.number, call.place));
        if FINDINGS.contains(&found.0) && found != again {
            return Err(format!("relisted: {again:?}, not {found:?}"));
        }
        Ok(())
    });
    println!("{runs} calls of {what}");
    report("number", &FINDINGS, &numbers, runs / 10);
}

#[test]
fn through_checking() {
    let model = |call: &Call| {
        let wanted = checking::model(call);
        checking::compare_with_original(&wanted)?;
        Ok(Some(wanted))
    };
    compare("checking", model, checking::ours);
}

#[test]
fn through_editing() {
    let model = |call: &Call| Ok(Some(editing::model(call)));
    compare("editing", model, editing::ours);
}

#[test]
fn through_improving() {
    let model = |call: &Call| Ok(improving::model(call).map(|(wanted, _)| wanted));
    compare("improving", model, improving::ours);
}
