//! Checking: random calls, a model from document 01, the original's answer, and ours.
use crate::{
    call::Call,
    damage,
    questions::{self, No, ask},
    random::Random,
    surfaces::{self, Surface},
};
use lanovishel::{Measured, Refusal, raw};

/// The call as the model leaves it.
pub fn model(before: &Call) -> Call {
    let verdict = measured(&before.surface, before.work.len());
    let mut after = before.clone();
    after.end(verdict.map(|_| ()));
    after.numbers = verdict.unwrap_or([0.0; 2]);
    after
}

/// Quality and volume, or the refusal.
pub fn measured(surface: &Surface, work_words: usize) -> Result<[f64; 2], No> {
    questions::first(surface, work_words)?;
    let (points, triangles) = (surface.points(), surface.triangles());
    if triangles.is_empty() {
        return Ok([0.0, 0.0]);
    }
    let (mut smallest, mut volume) = (1.0f64, 0.0f64);
    for triangle in &triangles {
        questions::on_the_list(surface, triangle)?;
        let measured = triangle.map(|corner| minus(points[corner as usize], points[0]));
        let [a, b, c] = measured;
        let quality = quality(measured);
        ask(quality.is_finite() && quality > 0.0, 6)?;
        smallest = if quality < smallest {
            quality
        } else {
            smallest
        };
        volume += dot(a, cross(b, c)) / 6.0;
    }
    questions::sides_and_rings(surface)?;
    ask(volume.is_finite() && volume > 0.0, 8)?;
    Ok([smallest, volume])
}

/// The quality of a triangle, its points measured from point 0.
pub fn quality([a, b, c]: [[f64; 3]; 3]) -> f64 {
    let [ab, ac, bc, ca] = [minus(b, a), minus(c, a), minus(c, b), minus(a, c)];
    let normal = cross(ab, ac);
    let squares = (dot(ab, ab) + dot(bc, bc)) + dot(ca, ca);
    (2.0 * 3f64.sqrt()) * dot(normal, normal).sqrt() / squares
}

fn minus(a: [f64; 3], b: [f64; 3]) -> [f64; 3] {
    [a[0] - b[0], a[1] - b[1], a[2] - b[2]]
}

fn dot(a: [f64; 3], b: [f64; 3]) -> f64 {
    (a[0] * b[0] + a[1] * b[1]) + a[2] * b[2]
}

fn cross(a: [f64; 3], b: [f64; 3]) -> [f64; 3] {
    [
        a[1] * b[2] - a[2] * b[1],
        a[2] * b[0] - a[0] * b[2],
        a[0] * b[1] - a[1] * b[0],
    ]
}

/// The surface as the original takes it.
pub fn mesh(surface: &Surface) -> original::Mesh {
    original::Mesh {
        points: surface.points(),
        faces: surface
            .triangles()
            .into_iter()
            .map(|t| t.map(|v| v as usize))
            .collect(),
        labels: surface.labels.clone(),
    }
}

/// Holds the model to the original where the original has an answer: it knows neither lists that
/// are not in threes nor limits nor work words, and panics where there are triangles and no points.
/// Its one answer to an open surface is what 31, 32 and 33 mean together.
pub fn compare_with_original(wanted: &Call) -> Result<(), String> {
    let surface = &wanted.surface;
    let panics = surface.points.is_empty() && !surface.corners.is_empty();
    if (1..=3).contains(&wanted.number) || panics {
        return Ok(());
    }
    let Some(answer) = original::validate(&mesh(surface)) else {
        return Ok(());
    };
    let theirs = match answer {
        Ok((quality, volume)) => Ok([quality, volume].map(f64::to_bits)),
        Err(message) => Err(number_of(&message)),
    };
    let model = match wanted.number {
        0 => Ok(wanted.numbers.map(f64::to_bits)),
        31..=33 => Err(7),
        number => Err(number),
    };
    if theirs == model {
        return Ok(());
    }
    Err(format!(
        "the model has {model:x?} and the original {theirs:x?}"
    ))
}

fn number_of(message: &str) -> u32 {
    match message {
        "Invalid surface arrays" => 4,
        "Invalid triangle index" => 5,
        "Degenerate surface triangle" => 6,
        "Surface is not a closed oriented two-manifold" => 7,
        "Nonpositive surface volume" => 8,
        other => panic!("the original says: {other}"),
    }
}

/// The call as ours leaves it.
pub fn ours(before: &Call) -> Call {
    let mut after = before.clone();
    let Surface {
        points,
        corners,
        labels,
    } = &mut after.surface;
    // SAFETY: the lists are whole vectors, apart from one another.
    after.number = unsafe {
        raw::lanovishel_check(
            points.as_ptr(),
            points.len(),
            corners.as_ptr(),
            corners.len(),
            labels.as_ptr(),
            labels.len(),
            after.work.as_mut_ptr(),
            after.work.len(),
            &mut after.numbers,
            &mut after.place,
        )
    };
    after
}

/// What the safe function says of a surface.
pub fn check(surface: &Surface) -> Result<Measured, Refusal> {
    let mut work = vec![1; surface.work_words()];
    lanovishel::check(
        &surface.points,
        &surface.corners,
        &surface.labels,
        &mut work,
    )
}

/// A random call: any surface, altered, often damaged, with enough work words or not.
pub fn random_call(random: &mut Random) -> Call {
    let most = random.pick(&[8, 24, 100, 400]);
    let mut surface = surfaces::any(random, most);
    if random.one_in(500) {
        surface = surfaces::torus(128, 128);
    }
    alter(&mut surface, random);
    if random.one_in(20) {
        surface = Surface {
            points: surface.points,
            ..Surface::default()
        };
    } else {
        let times = random.pick(&[0, 0, 1, 1, 1, 2]);
        damage::some(&mut surface, random, times);
    }
    if random.one_in(80) {
        damage::grow_to_the_limit(&mut surface, random);
    }
    let words = some_work_words(&surface, random);
    Call::new(surface, words)
}

/// Mostly enough work words, and often a few more; sometimes too few.
pub fn some_work_words(surface: &Surface, random: &mut Random) -> usize {
    let needed = surface.work_words();
    match random.below(12) {
        0 => needed.saturating_sub(random.pick(&[1, 1, 2, 16, 32])),
        1 => random.below(needed + 1),
        2..6 => needed,
        _ => needed + random.within(1, 40),
    }
}

/// Jitter, stretching, scaling to the ends of the range, another place, another order.
fn alter(surface: &mut Surface, random: &mut Random) {
    if random.one_in(2) {
        let most = random.pick(&[1e-12, 1e-3, 0.1, 0.5]);
        surface.jitter(random, most);
    }
    if random.one_in(4) {
        surface.scale([0; 3].map(|_| 2f64.powf(4.0 * random.signed())));
    }
    if random.one_in(4) {
        surface.shift([0; 3].map(|_| random.signed() * random.pick(&[1.0, 1e3, 1e9])));
    }
    if random.one_in(4) {
        let exponent = match random.below(3) {
            0 => random.within(0, 1200) as i32 - 600,
            1 => 256 - random.below(16) as i32,
            _ => random.below(24) as i32 - 275,
        };
        let half = 2f64.powi(exponent / 2);
        surface.scale([half; 3]);
        surface.scale([half * 2f64.powi(exponent % 2); 3]);
    }
    if random.one_in(8) {
        // A mirror image, turned round: among its coordinates is -0.
        surface.scale([-1.0; 3]);
        surface.reverse();
    }
    if random.one_in(2) {
        surface.relist(random);
    }
    if random.one_in(2) {
        surface.renumber(random, 3);
    }
    if random.one_in(4) {
        surface
            .labels
            .iter_mut()
            .for_each(|label| *label = random.bits() as u8);
    }
}
