//! Editing: random runs, the model of the history, and ours.
use crate::{
    call::{Call, filling},
    checking::some_work_words,
    damage,
    history::{History, Pair},
    questions::{self, No, ask},
    random::Random,
    surfaces::{self, Surface},
};
use lanovishel::raw;

/// The call as the model leaves it.
pub fn model(before: &Call) -> Call {
    let mut after = before.clone();
    let asked = questions(before);
    after.end(asked);
    after.edited = [0; 2];
    if asked.is_err() {
        return after;
    }
    let mut history = History::new(pair(&before.surface), before.journal.len() / 12);
    let entries = before.entries.chunks_exact(3);
    after.verdicts = entries.map(|e| history.entry([e[0], e[1], e[2]])).collect();
    let last = history.last();
    set_then_0(&mut after.surface.corners, &last.triangles.concat());
    set_then_0(&mut after.surface.labels, &last.labels);
    set_then_0(&mut after.journal, &history.records().concat());
    after.edited = [last.triangles.len(), history.in_force()].map(|n| n as u64);
    after
}

fn questions(call: &Call) -> Result<(), No> {
    questions::editing(&call.surface, call.work.len())?;
    ask(call.entries.len() == 3 * call.verdicts.len(), 15)
}

fn pair(surface: &Surface) -> Pair {
    Pair {
        triangles: surface.triangles(),
        labels: surface.labels.clone(),
    }
}

/// Puts `front` into a list and 0 behind it.
pub fn set_then_0<T: Copy + Default>(list: &mut [T], front: &[T]) {
    list[..front.len()].copy_from_slice(front);
    list[front.len()..].fill(T::default());
}

/// The call as ours leaves it.
pub fn ours(before: &Call) -> Call {
    let mut after = before.clone();
    let Surface {
        points,
        corners,
        labels,
    } = &mut after.surface;
    // SAFETY: the lists are whole vectors, apart from one another.
    after.number = unsafe {
        raw::lanovishel_edit(
            points.as_ptr(),
            points.len(),
            corners.as_mut_ptr(),
            corners.len(),
            labels.as_mut_ptr(),
            labels.len(),
            after.work.as_mut_ptr(),
            after.work.len(),
            after.entries.as_ptr(),
            after.entries.len(),
            after.verdicts.as_mut_ptr(),
            after.verdicts.len(),
            after.journal.as_mut_ptr(),
            after.journal.len(),
            &mut after.edited,
            &mut after.place,
        )
    };
    after
}

/// A random run on a surface that passes the questions, or, once in eight, on one that may not.
pub fn random_call(random: &mut Random) -> Call {
    let most = random.pick(&[4, 8, 16, 16, 40, 40, 40, 200]);
    let mut surface = surfaces::any(random, most);
    label(&mut surface, random);
    scramble(&mut surface, random);
    surface.relist(random);
    surface.renumber(random, 2);
    let capacity = random.pick(&[0, 1, 2, 3, 5, 40]);
    let entries = entries(&surface, capacity, random);
    let fit = !random.one_in(8);
    if !fit {
        spoil(&mut surface, random);
    }
    let mut words = surface.work_words() + random.pick(&[0, 1, 50]);
    if !fit {
        words = some_work_words(&surface, random);
    }
    let mut call = Call::new(surface, words);
    let odd = if fit { 0 } else { random.below(8) };
    call.verdicts = filling(entries.len() / 3 + usize::from(odd == 1));
    call.entries = entries;
    if odd == 2 {
        call.entries.push(1);
    }
    call.journal = filling(12 * capacity + random.below(12));
    call
}

/// Labels that no corner excludes: as they are, at random, or by regions.
pub fn label(surface: &mut Surface, random: &mut Random) {
    let mut allowed: Vec<u8> = (0..4)
        .map(|pair| 2 * pair + random.below(2) as u8)
        .collect();
    random.shuffle(&mut allowed);
    allowed.truncate(random.within(1, 4));
    let regions = match random.below(3) {
        0 => return,
        1 => false,
        _ => true,
    };
    let limit = random.signed();
    let mut labels = std::mem::take(&mut surface.labels);
    for (label, triangle) in labels.iter_mut().zip(surface.triangles()) {
        let first = 3 * triangle[0] as usize;
        *label = match regions {
            true => allowed[usize::from(surface.points[first] > limit) % allowed.len()],
            false => random.pick(&allowed),
        };
    }
    surface.labels = labels;
}

/// Makes the connectivity irregular by flips and collapses.
pub fn scramble(surface: &mut Surface, random: &mut Random) {
    let edits = random.below(surface.triangle_count() + 1);
    let mut history = History::new(pair(surface), edits);
    for _ in 0..edits {
        let [a, b] = some_side(history.last(), random);
        history.entry([if random.one_in(6) { 2 } else { 1 }, a, b]);
    }
    surface.corners = history.last().triangles.concat();
    surface.labels = history.last().labels.clone();
}

fn some_side(pair: &Pair, random: &mut Random) -> [u32; 2] {
    let triangle = random.pick(&pair.triangles);
    let start = random.below(3);
    let mut side = [triangle[start], triangle[(start + 1) % 3]];
    random.shuffle(&mut side);
    side
}

/// Entries made beside the history, so that many of them meet sides that are there.
fn entries(surface: &Surface, capacity: usize, random: &mut Random) -> Vec<u32> {
    let mut history = History::new(pair(surface), capacity);
    let mut entries = Vec::new();
    for _ in 0..random.below(40) {
        let entry = some_entry(&history, surface.point_count() as u32, random);
        history.entry(entry);
        entries.extend(entry);
    }
    entries
}

fn some_entry(history: &History, points: u32, random: &mut Random) -> [u32; 3] {
    let hostile = random.pick(&[points, points + 1, 1 << 16, 1 << 31, u32::MAX]);
    let corner = random.below(points as usize) as u32;
    let [a, b] = some_side(history.last(), random);
    let in_force = history.in_force() as u32;
    match random.below(16) {
        0..6 => [1, a, b],
        6..9 => [2, a, b],
        9 => [random.pick(&[1, 2]), a, corner],
        10 => [
            random.pick(&[1, 2]),
            corner,
            random.pick(&[corner, a, b, hostile]),
        ],
        11 => [random.pick(&[1, 2]), hostile, random.pick(&[a, hostile])],
        12 => [
            3,
            random.pick(&[0, 1, 1, in_force, in_force + 1, u32::MAX, corner]),
            0,
        ],
        13 => [3, random.pick(&[1, 1, 1, 2, in_force / 2]), 0],
        14 => [
            3,
            random.pick(&[0, 1, in_force]),
            random.pick(&[1, a, u32::MAX]),
        ],
        _ => [random.pick(&[0, 4, 5, 255, 257, 1 << 16, u32::MAX]), a, b],
    }
}

/// Damage of any kind, those among it that only these questions look for.
pub fn spoil(surface: &mut Surface, random: &mut Random) {
    let triangle = random.below(surface.triangle_count());
    match random.below(9) {
        0 => surface.labels[triangle] = random.pick(&[8, 9, 128, 255]),
        1 => surface.labels[triangle] ^= 1,
        2 => surface.join(&surfaces::pillow()),
        3 => damage::grow_to_the_limit(surface, random),
        4 => {}
        5 => damage::injure(surface, random),
        _ => damage::some(surface, random, 2),
    }
}
