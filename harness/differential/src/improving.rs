//! Improving: random calls, the original round by round, and ours.
use crate::{
    call::Call,
    checking::{mesh, some_work_words},
    editing::{label, scramble, set_then_0, spoil},
    field::{self, Term, some_terms, told},
    questions::{self, No, ask},
    random::Random,
    surfaces::{self, Surface},
};
use lanovishel::raw;
use original::Mesh;

/// What happened in the rounds of a call.
#[derive(Clone, Copy, Debug, Default)]
pub struct Story {
    /// Collapses, over all rounds.
    pub collapses: usize,
    /// Flips, over all rounds.
    pub flips: usize,
    /// Whether some round began with a piece of just four corners.
    pub piece_of_four: bool,
    /// Sides of such pieces that the original would have collapsed.
    pub skipped: usize,
}

/// The call as it must end, by the questions and by the original with the skip added, and what
/// happened in it. `None` where it takes the original and its source was not there.
pub fn model(before: &Call) -> Option<(Call, Story)> {
    let mut after = before.clone();
    let mut story = Story::default();
    let asked = questions(before);
    after.end(asked);
    after.answer = [0; 3];
    if asked.is_err() {
        return Some((after, story));
    }
    let mut left = mesh(&before.surface);
    let band = told(before);
    for _ in 0..before.rounds {
        let triangles = left.faces.len();
        story.piece_of_four |= original::has_piece_of_four(&left.faces);
        story.flips += original::improve_skipping(&mut left, &band, 1)?.expect("a round");
        story.collapses += (triangles - left.faces.len()) / 2;
    }
    story.skipped = original::skipped();
    put(&left, &mut after.surface);
    after.answer = [left.points.len(), left.faces.len(), story.flips].map(|n| n as u32);
    Some((after, story))
}

/// Holds the rounds with the skip to the original's own `improve`, in one call, where it would
/// have collapsed no side of a piece of four corners.
pub fn compare_with_original(before: &Call, wanted: &Call, story: Story) -> Result<(), String> {
    if wanted.number != 0 || story.skipped > 0 {
        return Ok(());
    }
    let mut left = mesh(&before.surface);
    let rounds = before.rounds as usize;
    let Some(flips) = original::improve(&mut left, &told(before), rounds) else {
        return Ok(());
    };
    let mut theirs = wanted.clone();
    put(&left, &mut theirs.surface);
    theirs.answer = [left.points.len(), left.faces.len(), flips?].map(|n| n as u32);
    theirs
        .difference(wanted)
        .map_err(|d| format!("the original differs from its rounds: {d}"))
}

fn put(left: &Mesh, surface: &mut Surface) {
    let corners: Vec<u32> = left
        .faces
        .concat()
        .iter()
        .map(|&corner| corner as u32)
        .collect();
    set_then_0(&mut surface.points, &left.points.concat());
    set_then_0(&mut surface.corners, &corners);
    set_then_0(&mut surface.labels, &left.labels);
}

fn questions(call: &Call) -> Result<(), No> {
    questions::editing(&call.surface, call.work.len())?;
    field::asked(call)?;
    ask(call.rounds <= 1000, 14)
}

/// The call as ours leaves it.
pub fn ours(before: &Call) -> Call {
    let mut after = before.clone();
    let Surface {
        points,
        corners,
        labels,
    } = &mut after.surface;
    // SAFETY: the lists are whole vectors and arrays, apart from one another.
    after.number = unsafe {
        raw::lanovishel_improve(
            points.as_mut_ptr(),
            points.len(),
            corners.as_mut_ptr(),
            corners.len(),
            labels.as_mut_ptr(),
            labels.len(),
            after.work.as_mut_ptr(),
            after.work.len(),
            after.coefficients.as_ptr(),
            after.coefficients.len(),
            after.powers.as_ptr(),
            after.powers.len(),
            &after.levels,
            &after.bounds,
            after.rounds,
            &mut after.answer,
            &mut after.place,
        )
    };
    after
}

/// A random call: an uneven surface with a field, and 0 to 6 rounds; once in five one that may be
/// refused.
pub fn random_call(random: &mut Random) -> Call {
    let mut surface = uneven(random);
    let fit = !random.one_in(5);
    if !fit && !random.one_in(3) {
        spoil(&mut surface, random);
    }
    let mut words = surface.work_words() + random.pick(&[0, 1, 50]);
    if !fit {
        words = some_work_words(&surface, random);
    }
    let mut call = Call::new(surface, words);
    some_field(&mut call, random);
    call.rounds = random.below(7) as u32;
    if call.surface.triangle_count() < 20 && random.one_in(20) {
        call.rounds = 1000;
    }
    if !fit {
        spoil_field(&mut call, random);
    }
    call
}

/// A labelled surface with short sides and bad triangles, sometimes of a size whose squared
/// lengths underflow or overflow.
fn uneven(random: &mut Random) -> Surface {
    let most = random.pick(&[8, 32, 128, 500]);
    let mut surface = surfaces::any(random, most);
    label(&mut surface, random);
    if random.one_in(3) {
        scramble(&mut surface, random);
    }
    if random.one_in(2) {
        let most = random.pick(&[1e-3, 0.05, 0.2]);
        surface.jitter(random, most);
    }
    let pinched = random.below(surface.triangle_count() / 4 + 2);
    (0..pinched).for_each(|_| pinch(&mut surface, random));
    if random.one_in(6) {
        surface.scale([1.0, 1.0, random.pick(&[0.02, 0.2, 5.0])]);
    }
    if random.one_in(12) {
        let exponent = random.pick(&[-1000, -545, -530, 500, 511, 512, 1000]);
        surface.scale([2f64.powi(exponent); 3]);
    }
    surface.relist(random);
    surface.renumber(random, 2);
    surface
}

/// Moves a corner towards the next one of a triangle, or onto it, so that their side is short.
pub fn pinch(surface: &mut Surface, random: &mut Random) {
    let place = 3 * random.below(surface.triangle_count());
    let [from, to] = [0, 1].map(|j| 3 * surface.corners[place + j] as usize);
    let left = random.pick(&[0.0, 0.02, 0.1, 0.1, 0.3, 0.3]);
    for axis in 0..3 {
        let (a, b) = (surface.points[from + axis], surface.points[to + axis]);
        surface.points[from + axis] = b + left * (a - b);
    }
}

/// A field: round, slanting, random, with slopes that overflow, or none at all.
fn some_field(call: &mut Call, random: &mut Random) {
    let terms: Vec<Term> = match random.below(8) {
        0..4 => field::BALL.to_vec(),
        4 => (0..3)
            .map(|axis| (random.signed(), [0, 1, 2].map(|k| u32::from(k == axis))))
            .collect(),
        5 => any_terms(random, 1.0),
        6 => any_terms(random, f64::MAX),
        _ => Vec::new(),
    };
    field::lend(call, &terms);
    call.levels = random.pick(&[[-1.0, 1.0], [f64::NEG_INFINITY, 0.5], [0.25, 1e300]]);
    call.bounds = random.pick(&[
        [-2.0, -2.0, -2.0, 2.0, 2.0, 2.0],
        [
            -1_048_576.0,
            0.0,
            1.0,
            1_048_576.0,
            9.5e-7_f64.max(2f64.powi(-20)),
            3.0,
        ],
    ]);
}

fn any_terms(random: &mut Random, size: f64) -> Vec<Term> {
    let count = random.pick(&[1, 2, 5, 64]);
    some_terms(random, count, size)
}

/// A field sheet, levels, a box or rounds that may be refused.
fn spoil_field(call: &mut Call, random: &mut Random) {
    match random.below(10) {
        rule @ 0..field::RULES => field::break_a_rule(call, rule, random),
        _ => call.rounds = random.pick(&[1000, 1001, u32::MAX]),
    }
    if call.rounds == 1000 && call.surface.triangle_count() > 40 {
        call.rounds = 1001;
    }
}
