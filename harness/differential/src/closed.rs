//! Document 01's rules (a) to (d), read off the definitions.

/// (a): the corners of a triangle differ.
pub fn corners_differ(&[a, b, c]: &[u32; 3]) -> bool {
    a != b && b != c && c != a
}

/// (b) and (c): every directed side occurs once and its reverse occurs once, and around each
/// corner in use the triangles form one ring.
pub fn sides_and_rings(triangles: &[[u32; 3]]) -> bool {
    let mut sides: Vec<_> = (0..3 * triangles.len())
        .map(|place| {
            (
                (corner(triangles, place), corner(triangles, next(place))),
                place,
            )
        })
        .collect();
    sides.sort_unstable();
    if sides.windows(2).any(|w| w[0].0 == w[1].0) {
        return false;
    }
    let mut rings = Rings::new(3 * triangles.len());
    for &((a, b), place) in &sides {
        let Ok(found) = sides.binary_search_by_key(&(b, a), |side| side.0) else {
            return false;
        };
        // Across a side lies the next triangle around either of its corners.
        rings.join(place, next(sides[found].1));
    }
    let mut used: Vec<u32> = triangles.concat();
    used.sort_unstable();
    used.dedup();
    rings.count == used.len()
}

/// (d): no two triangles have the same three corners.
pub fn no_two_alike(triangles: &[[u32; 3]]) -> bool {
    let mut sets = triangles.to_vec();
    sets.iter_mut().for_each(|set| set.sort_unstable());
    sets.sort_unstable();
    sets.windows(2).all(|w| w[0] != w[1])
}

/// (a) to (d).
pub fn closed(triangles: &[[u32; 3]]) -> bool {
    triangles.iter().all(corners_differ) && sides_and_rings(triangles) && no_two_alike(triangles)
}

fn corner(triangles: &[[u32; 3]], place: usize) -> u32 {
    triangles[place / 3][place % 3]
}

/// The place that follows in the same triangle.
fn next(place: usize) -> usize {
    if place % 3 == 2 { place - 2 } else { place + 1 }
}

/// Places that are joined around their corner; each class is a ring.
struct Rings {
    parent: Vec<usize>,
    count: usize,
}

impl Rings {
    fn new(places: usize) -> Self {
        Self {
            parent: (0..places).collect(),
            count: places,
        }
    }

    fn first(&mut self, mut place: usize) -> usize {
        while self.parent[place] != place {
            self.parent[place] = self.parent[self.parent[place]];
            place = self.parent[place];
        }
        place
    }

    fn join(&mut self, a: usize, b: usize) {
        let (a, b) = (self.first(a), self.first(b));
        if a != b {
            self.parent[a] = b;
            self.count -= 1;
        }
    }
}
