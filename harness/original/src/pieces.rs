//! Pieces of just four corners, which the original may fold flat and we skip.
use std::cell::Cell;

thread_local! {
    static SKIPPED: Cell<usize> = const { Cell::new(0) };
}

/// How many sides the skipping `improve` skipped in this thread since the last question.
pub fn skipped() -> usize {
    SKIPPED.take()
}

/// Whether the side of `corner` belongs to a piece of just four corners, and is skipped.
pub(crate) fn skips(faces: &[[usize; 3]], removed: &[bool], corner: usize) -> bool {
    let left = faces.iter().zip(removed).filter(|(_, r)| !**r);
    let pieces = Pieces::of(left.map(|(face, _)| *face));
    let skip = pieces.size(corner) == 4;
    SKIPPED.set(SKIPPED.get() + usize::from(skip));
    skip
}

/// Whether some piece has just four corners.
pub fn has_piece_of_four(faces: &[[usize; 3]]) -> bool {
    let pieces = Pieces::of(faces.iter().copied());
    faces.iter().any(|face| pieces.size(face[0]) == 4)
}

/// The corners in use as a forest: a tree for each piece, with its size at the root.
struct Pieces {
    parent: Vec<usize>,
    size: Vec<usize>,
}

impl Pieces {
    fn of(faces: impl Iterator<Item = [usize; 3]> + Clone) -> Self {
        let corners = faces.clone().flatten().max().map_or(0, |corner| corner + 1);
        let mut pieces = Self {
            parent: (0..corners).collect(),
            size: vec![1; corners],
        };
        for [a, b, c] in faces {
            pieces.join(a, b);
            pieces.join(b, c);
        }
        pieces
    }

    fn join(&mut self, a: usize, b: usize) {
        let (a, b) = (self.root(a), self.root(b));
        if a == b {
            return;
        }
        let (small, large) = if self.size[a] < self.size[b] {
            (a, b)
        } else {
            (b, a)
        };
        self.parent[small] = large;
        self.size[large] += self.size[small];
    }

    fn root(&self, mut corner: usize) -> usize {
        while self.parent[corner] != corner {
            corner = self.parent[corner];
        }
        corner
    }

    fn size(&self, corner: usize) -> usize {
        self.size[self.root(corner)]
    }
}
