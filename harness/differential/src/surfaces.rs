//! Closed surfaces to begin with, and ways to alter them that keep them closed.
use crate::random::Random;
use std::collections::HashMap;
use std::f64::consts::TAU;

/// The three lists of a surface, as they are lent.
#[derive(Clone, Debug, Default, PartialEq)]
pub struct Surface {
    /// Three values a point.
    pub points: Vec<f64>,
    /// Three corner numbers a triangle, in turning order.
    pub corners: Vec<u32>,
    /// One label a triangle.
    pub labels: Vec<u8>,
}

impl Surface {
    /// A surface of whole points and triangles, all with label 0.
    pub fn new(points: &[[f64; 3]], triangles: &[[u32; 3]]) -> Self {
        Self {
            points: points.concat(),
            corners: triangles.concat(),
            labels: vec![0; triangles.len()],
        }
    }

    /// How many whole points are listed.
    pub fn point_count(&self) -> usize {
        self.points.len() / 3
    }

    /// How many whole triangles are listed.
    pub fn triangle_count(&self) -> usize {
        self.corners.len() / 3
    }

    /// The whole points.
    pub fn points(&self) -> Vec<[f64; 3]> {
        self.points
            .chunks_exact(3)
            .map(|p| [p[0], p[1], p[2]])
            .collect()
    }

    /// The whole triangles.
    pub fn triangles(&self) -> Vec<[u32; 3]> {
        self.corners
            .chunks_exact(3)
            .map(|t| [t[0], t[1], t[2]])
            .collect()
    }

    /// The work words that a call needs: 32 a triangle and 16 a point.
    pub fn work_words(&self) -> usize {
        32 * self.triangle_count() + 16 * self.point_count()
    }

    /// Adds `other` as a further piece.
    pub fn join(&mut self, other: &Surface) {
        let first = self.point_count() as u32;
        self.points.extend(&other.points);
        self.corners
            .extend(other.corners.iter().map(|corner| corner + first));
        self.labels.extend(&other.labels);
    }

    /// Takes a triangle out.
    pub fn remove(&mut self, triangle: usize) {
        self.corners.drain(3 * triangle..3 * triangle + 3);
        self.labels.remove(triangle);
    }

    /// Lists a triangle once more, at the end.
    pub fn double(&mut self, triangle: usize) {
        self.corners
            .extend_from_within(3 * triangle..3 * triangle + 3);
        self.labels.push(self.labels[triangle]);
    }

    /// Puts the corner `to` in the place of `from` wherever a triangle names that.
    pub fn rename(&mut self, from: u32, to: u32) {
        self.corners
            .iter_mut()
            .filter(|corner| **corner == from)
            .for_each(|corner| *corner = to);
    }

    /// Turns every triangle round.
    pub fn reverse(&mut self) {
        self.corners.chunks_exact_mut(3).for_each(|t| t.swap(1, 2));
    }

    /// Multiplies the coordinates, axis by axis.
    pub fn scale(&mut self, factors: [f64; 3]) {
        for point in self.points.chunks_exact_mut(3) {
            (0..3).for_each(|axis| point[axis] *= factors[axis]);
        }
    }

    /// Moves every point by the same step.
    pub fn shift(&mut self, step: [f64; 3]) {
        for point in self.points.chunks_exact_mut(3) {
            (0..3).for_each(|axis| point[axis] += step[axis]);
        }
    }

    /// Moves every coordinate by up to `most`.
    pub fn jitter(&mut self, random: &mut Random, most: f64) {
        self.points
            .iter_mut()
            .for_each(|x| *x += most * random.signed());
    }

    /// Lists the triangles in any order, each beginning at any of its corners.
    pub fn relist(&mut self, random: &mut Random) {
        let mut listed: Vec<_> = self
            .triangles()
            .into_iter()
            .zip(self.labels.clone())
            .collect();
        random.shuffle(&mut listed);
        for (place, (mut triangle, label)) in listed.into_iter().enumerate() {
            triangle.rotate_left(random.below(3));
            self.corners[3 * place..][..3].copy_from_slice(&triangle);
            self.labels[place] = label;
        }
    }

    /// Numbers the points in any order, up to `unused` unused ones among them.
    pub fn renumber(&mut self, random: &mut Random, unused: usize) {
        let unused: Vec<[f64; 3]> = (0..random.within(0, unused))
            .map(|_| [random.signed(); 3])
            .collect();
        self.renumber_with(random, &unused);
    }

    /// Numbers the points in any order, the `unused` ones among them.
    pub fn renumber_with(&mut self, random: &mut Random, unused: &[[f64; 3]]) {
        let mut points = self.points();
        points.extend(unused);
        let mut order: Vec<usize> = (0..points.len()).collect();
        random.shuffle(&mut order);
        let mut number = vec![0; points.len()];
        order
            .iter()
            .enumerate()
            .for_each(|(new, &old)| number[old] = new as u32);
        self.points = order.iter().flat_map(|&old| points[old]).collect();
        self.corners
            .iter_mut()
            .for_each(|corner| *corner = number[*corner as usize]);
    }
}

/// The first sheet of document 01.
pub fn tetrahedron() -> Surface {
    Surface::new(
        &[[0., 0., 0.], [1., 0., 0.], [0., 1., 0.], [0., 0., 1.]],
        &[[0, 2, 1], [0, 1, 3], [0, 3, 2], [1, 2, 3]],
    )
}

/// Two tetrahedra that share corner 0 and nothing else.
pub fn touching() -> Surface {
    let mut surface = tetrahedron();
    let mut mirrored = tetrahedron();
    mirrored.scale([-1.0; 3]);
    mirrored.reverse();
    surface.join(&mirrored);
    surface.rename(4, 0);
    surface
}

/// The octahedron of document 01.
pub fn octahedron() -> Surface {
    Surface::new(
        &[
            [1., 0., 0.],
            [-1., 0., 0.],
            [0., 1., 0.],
            [0., -1., 0.],
            [0., 0., 1.],
            [0., 0., -1.],
        ],
        &[
            [0, 2, 4],
            [2, 1, 4],
            [1, 3, 4],
            [3, 0, 4],
            [2, 0, 5],
            [1, 2, 5],
            [3, 1, 5],
            [0, 3, 5],
        ],
    )
}

/// The octahedron with each triangle cut in four, `times` times, its points on the unit sphere:
/// 8·4^times triangles.
pub fn sphere(times: usize) -> Surface {
    let start = octahedron();
    let (mut points, mut triangles) = (start.points(), start.triangles());
    for _ in 0..times {
        let mut middles = HashMap::new();
        let mut middle = |a: u32, b: u32| {
            *middles.entry((a.min(b), a.max(b))).or_insert_with(|| {
                let (p, q) = (points[a as usize], points[b as usize]);
                let sum: [f64; 3] = std::array::from_fn(|k| p[k] + q[k]);
                let length = sum.iter().map(|x| x * x).sum::<f64>().sqrt();
                points.push(sum.map(|x| x / length));
                points.len() as u32 - 1
            })
        };
        let cut = |[a, b, c]: [u32; 3]| {
            let (x, y, z) = (middle(a, b), middle(b, c), middle(c, a));
            [[a, x, z], [x, b, y], [z, y, c], [x, y, z]]
        };
        triangles = triangles.into_iter().flat_map(cut).collect();
    }
    Surface::new(&points, &triangles)
}

/// A torus of `around` times `across` points, each at least 3: twice as many triangles.
pub fn torus(around: usize, across: usize) -> Surface {
    let mut points = Vec::new();
    let mut triangles = Vec::new();
    let number = |i: usize, j: usize| (i % around * across + j % across) as u32;
    for i in 0..around {
        for j in 0..across {
            let (u, v) = (
                TAU * i as f64 / around as f64,
                TAU * j as f64 / across as f64,
            );
            let far = 2.0 + v.cos();
            points.push([far * u.cos(), far * u.sin(), v.sin()]);
            let [a, b] = [number(i, j), number(i + 1, j)];
            let [c, d] = [number(i + 1, j + 1), number(i, j + 1)];
            triangles.extend([[a, b, c], [a, c, d]]);
        }
    }
    Surface::new(&points, &triangles)
}

/// A box from -1 to 1 whose walls have the labels 2 to 7, `cells` squares to a side of a wall:
/// 12·cells² triangles.
pub fn walled_box(cells: usize) -> Surface {
    let mut points = Vec::new();
    let mut numbers = HashMap::new();
    let mut triangles = Vec::new();
    let mut labels = Vec::new();
    let mut number = |node: [usize; 3]| {
        *numbers.entry(node).or_insert_with(|| {
            points.push(node.map(|n| 2.0 * n as f64 / cells as f64 - 1.0));
            points.len() as u32 - 1
        })
    };
    for wall in 0..6 {
        let (axis, upper) = (wall / 2, wall % 2 == 1);
        let (across, up) = ((axis + 1) % 3, (axis + 2) % 3);
        for (i, j) in (0..cells * cells).map(|square| (square / cells, square % cells)) {
            let mut node = |i: usize, j: usize| {
                let mut node = [if upper { cells } else { 0 }; 3];
                (node[across], node[up]) = (i, j);
                number(node)
            };
            let [a, b] = [node(i, j), node(i + 1, j)];
            let [c, d] = [node(i + 1, j + 1), node(i, j + 1)];
            let square = if upper {
                [[a, b, c], [a, c, d]]
            } else {
                [[a, c, b], [a, d, c]]
            };
            triangles.extend(square);
            labels.extend([2 + wall as u8; 2]);
        }
    }
    Surface {
        labels,
        ..Surface::new(&points, &triangles)
    }
}

/// Two corners, each with a triangle on every side of a ring of `around` corners.
pub fn bipyramid(around: usize) -> Surface {
    let ring = around as u32;
    let mut points: Vec<[f64; 3]> = (0..around)
        .map(|i| TAU * i as f64 / around as f64)
        .map(|turn| [turn.cos(), turn.sin(), 0.0])
        .collect();
    points.extend([[0., 0., 1.], [0., 0., -1.]]);
    let both = |i: u32| [[i, (i + 1) % ring, ring], [(i + 1) % ring, i, ring + 1]];
    Surface::new(&points, &(0..ring).flat_map(both).collect::<Vec<_>>())
}

/// Two triangles with the same corners, back to back: closed but for rule (d).
pub fn pillow() -> Surface {
    Surface::new(
        &[[0., 0., 0.], [1., 0., 0.], [0., 1., 0.]],
        &[[0, 1, 2], [0, 2, 1]],
    )
}

/// Any of the closed surfaces above with up to about `most` triangles, or several of them side by side.
pub fn any(random: &mut Random, most: usize) -> Surface {
    let mut surface = one(random, most);
    while random.one_in(4) {
        let mut piece = one(random, most);
        piece.scale([random.pick(&[0.1, 0.5, 1.0]); 3]);
        piece.shift([6.0 * random.signed(), 6.0 * random.signed(), 6.0]);
        surface.join(&piece);
    }
    surface
}

fn one(random: &mut Random, most: usize) -> Surface {
    let root = |n: usize| (n as f64).sqrt() as usize;
    match random.below(8) {
        0 => tetrahedron(),
        1 => octahedron(),
        2 => sphere(random.below(most.max(32).ilog2() as usize / 2)),
        3 => bipyramid(random.within(3, (most / 2).max(4))),
        4 | 5 => {
            let widest = root(most / 2).max(3);
            torus(random.within(3, widest), random.within(3, widest))
        }
        _ => walled_box(random.within(1, root(most / 12).max(1))),
    }
}
