//! The judgement of closedness: what a check takes on a closed surface, less what it takes where the
//! last triangle is degenerate, a call that does all the same but the judgement.
use crate::table::{leasts, means, once};
use differential::{
    random::Random,
    surfaces::{Surface, bipyramid, sphere, tetrahedron, torus},
};

const CALLS: u32 = 100;

/// Checks a surface and gives the number.
type Check = fn(&Surface, &mut [u32]) -> u32;

/// Tori, and bipyramids, which have two corners of half the triangles each.
pub fn table() {
    println!(
        "| closing | whole check, µs | without the judgement, µs | the judgement, µs | ns a triangle |"
    );
    println!("|---|---|---|---|---|");
    for [around, across] in [[32, 32], [64, 64], [128, 128]] {
        measure("torus", &torus(around, across));
    }
    for around in [1_024, 4_096, 16_384] {
        measure("bipyramid", &bipyramid(around));
    }
    #[cfg(before)]
    before::table();
    open_table();
}

fn measure(name: &str, surface: &Surface) {
    let damaged = damaged(surface);
    let [whole, without] = means(CALLS, time(surface, ours), time(&damaged, ours));
    let triangles = surface.triangle_count();
    let judgement = whole - without;
    println!(
        "| {name}, {triangles} triangles | {whole:.0} | {without:.0} | {judgement:.0} | {:.1} |",
        judgement * 1000.0 / triangles as f64
    );
}

/// The surface with its last triangle degenerate.
fn damaged(surface: &Surface) -> Surface {
    let mut damaged = surface.clone();
    let last = damaged.corners.len() - 1;
    damaged.corners[last] = damaged.corners[last - 1];
    damaged
}

fn time(surface: &Surface, check: Check) -> impl Fn() -> f64 {
    once(
        || vec![1; surface.work_words()],
        move |work| check(surface, work),
    )
}

fn ours(surface: &Surface, work: &mut [u32]) -> u32 {
    let Surface {
        points,
        corners,
        labels,
    } = surface;
    match lanovishel::check(points, corners, labels, work) {
        Ok(_) => 0,
        Err(refusal) => refusal.number().get(),
    }
}

/// The judgement of a closed surface, and what the answers 31, 32 and 33 take in its place; then a
/// whole run of editing without entries, and one that is refused. The least of so many calls, in turn.
fn open_table() {
    let mut shuffled = torus(128, 127);
    shuffled.relist(&mut Random::new(1));
    shuffled.renumber(&mut Random::new(1), 0);
    let surfaces = [
        ("torus", torus(128, 127)),
        ("worst listing", shuffled),
        ("sphere", sphere(5)),
        ("bipyramid", bipyramid(16_382)),
    ];
    for (what, times) in [
        ("the judgement", judgements as Times),
        ("an edit run", edits),
    ] {
        println!();
        println!("| {what} | closed, µs | 31, µs | ratio | 32, µs | ratio | 33, µs | ratio |");
        println!("|---|---|---|---|---|---|---|---|");
        for (name, surface) in &surfaces {
            let last = surface.triangle_count();
            measure_open(name, "first", joined(&piece(), surface, 0), times);
            measure_open(name, "last", joined(surface, &piece(), last), times);
        }
    }
}

/// A closed surface, and the same with the findings 31, 32 and 33.
type Subjects = [Surface; 4];

/// What each of them takes.
type Times = fn(&Subjects) -> [f64; 4];

/// A tetrahedron, to stand before a surface or behind it; then its first triangle is turned round or
/// gone, or the two pieces touch at a corner.
fn piece() -> Surface {
    let mut piece = tetrahedron();
    piece.shift([9.0; 3]);
    piece
}

/// Two pieces, the first triangle of the tetrahedron among them at a place of the list.
fn joined(first: &Surface, second: &Surface, triangle: usize) -> Subjects {
    let mut closed = first.clone();
    closed.join(second);
    let [mut turned, mut gone, mut touching] = [0; 3].map(|_| closed.clone());
    turned.corners.swap(3 * triangle, 3 * triangle + 1);
    gone.remove(triangle);
    let corner = first.point_count() as u32;
    touching.rename(corner, corner - 1);
    [closed, turned, gone, touching]
}

fn judgements(subjects: &Subjects) -> [f64; 4] {
    let damaged = damaged(&subjects[0]);
    let without = time(&damaged, ours);
    let [closed, turned, gone, touching] = subjects.each_ref().map(|surface| time(surface, ours));
    let [without, times @ ..] = leasts(CALLS, [&without, &closed, &turned, &gone, &touching]);
    times.map(|time| time - without)
}

fn edits(subjects: &Subjects) -> [f64; 4] {
    let calls = subjects.each_ref().map(|surface| {
        once(
            || (surface.clone(), vec![1; surface.work_words()]),
            |(surface, work)| {
                let Surface {
                    points,
                    corners,
                    labels,
                } = surface;
                lanovishel::edit(points, corners, labels, work, &[], &mut [], &mut [])
            },
        )
    });
    leasts(CALLS, calls.each_ref().map(|call| call as _))
}

fn measure_open(name: &str, end: &str, subjects: Subjects, times: Times) {
    for (surface, number) in subjects.iter().zip([0, 31, 32, 33]) {
        let mut work = vec![1; surface.work_words()];
        assert_eq!(ours(surface, &mut work), number);
    }
    let triangles = subjects[0].triangle_count();
    let [closed, open @ ..] = times(&subjects);
    let cells = open.map(|open| format!("{open:.0} | {:.2}", open / closed));
    println!(
        "| {name}, {triangles} triangles, open at its {end} corners | {closed:.0} | {} |",
        cells.join(" | ")
    );
}

/// The judgement of an earlier archive.
#[cfg(before)]
mod before {
    use super::{CALLS, damaged, ours, time};
    use crate::table::{head, leasts, row};
    use differential::surfaces::{Surface, bipyramid, torus};

    unsafe extern "C" {
        fn check_before(
            points: *const f64,
            point_values: usize,
            corners: *const u32,
            corner_numbers: usize,
            labels: *const u8,
            label_count: usize,
            work: *mut u32,
            work_words: usize,
            numbers: *mut [f64; 2],
        ) -> u32;
    }

    /// Ours beside the earlier one: the least of so many calls, in turn.
    pub fn table() {
        println!();
        head("the judgement", "ours, µs", "before, µs");
        for side in [32, 64, 128] {
            measure("torus", &torus(side, side));
        }
        measure("bipyramid", &bipyramid(16_384));
    }

    fn measure(name: &str, surface: &Surface) {
        let damaged = damaged(surface);
        let [whole, without, whole_before, without_before] = leasts(
            CALLS,
            [
                &time(surface, ours),
                &time(&damaged, ours),
                &time(surface, theirs),
                &time(&damaged, theirs),
            ],
        );
        let what = format!("{name}, {} triangles", surface.triangle_count());
        row(&what, [whole - without, whole_before - without_before]);
    }

    fn theirs(surface: &Surface, work: &mut [u32]) -> u32 {
        let Surface {
            points,
            corners,
            labels,
        } = surface;
        let mut numbers = [0.0; 2];
        // SAFETY: each pointer comes with its own slice's length, and what is written is borrowed
        // alone.
        unsafe {
            check_before(
                points.as_ptr(),
                points.len(),
                corners.as_ptr(),
                corners.len(),
                labels.as_ptr(),
                labels.len(),
                work.as_mut_ptr(),
                work.len(),
                &mut numbers,
            )
        }
    }
}
