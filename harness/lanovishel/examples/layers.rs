//! Draws a standing torus by the outlines of its layers, as a picture in SVG:
//! `cargo run -p lanovishel --example layers > ../docs/layers.svg`.
use lanovishel::{Outlines, outlines, work_words};
use std::{f64::consts::TAU, fmt::Write};

/// How many points the torus has around its axis, and around its tube.
const POINTS: [usize; 2] = [32, 16];

/// The radii of the torus and of its tube, in units of 1/1024.
const RADII: [f64; 2] = [740.0, 260.0];

const LAYERS: i32 = 16;

/// A point, in units.
type Point = [f64; 3];

fn main() {
    print!("{}", picture());
}

/// The points of the torus, whole numbers of units, and its triangles. It is around the y axis, and
/// is numbered from its lowest point up on the right, so that loop 0 of a layer is there.
fn torus() -> (Vec<Point>, Vec<[u32; 3]>) {
    let [around, across] = POINTS;
    let number = |i: usize, j: usize| (i % around * across + j % across) as u32;
    let (mut points, mut triangles) = (Vec::new(), Vec::new());
    for (i, j) in (0..around * across).map(|n| (n / across, n % across)) {
        let turn = |n: usize, of: usize| (TAU * n as f64 / of as f64).sin_cos();
        let ((sin_u, cos_u), (sin_v, cos_v)) = (turn(i, around), turn(j, across));
        let far = RADII[0] + RADII[1] * cos_v;
        points.push([far * sin_u, RADII[1] * sin_v, -far * cos_u].map(f64::round));
        let [a, b] = [number(i, j), number(i, j + 1)];
        let [c, d] = [number(i + 1, j + 1), number(i + 1, j)];
        triangles.extend([[a, b, c], [a, c, d]]);
    }
    (points, triangles)
}

/// Each loop of the layer, by the points where the plane meets its sides.
fn layer(points: &[Point], triangles: &[[u32; 3]], height: i32) -> Vec<Vec<Point>> {
    let lent: Vec<f64> = points.concat().iter().map(|x| x / 1024.0).collect();
    let (corners, labels) = (triangles.concat(), vec![0; triangles.len()]);
    let mut work = vec![0; work_words(points.len(), triangles.len())];
    // No more sides are crossed than there are triangles.
    let mut outline = vec![0; 3 * triangles.len()];
    let found = outlines(&lent, &corners, &labels, &mut work, height, &mut outline);
    let Outlines { places, loops } = found.expect("a closed surface on whole units");

    let mut loops = vec![Vec::new(); loops as usize];
    for place in outline.chunks_exact(3).take(places as usize) {
        let [a, b] = [place[0], place[1]].map(|corner| points[corner as usize]);
        let part = (f64::from(height) + 0.5 - a[2]) / (b[2] - a[2]);
        let met = [0, 1, 2].map(|axis| a[axis] + part * (b[axis] - a[axis]));
        loops[place[2] as usize].push(met);
    }
    loops
}

/// Where a point is seen from the front, a little from the side and from above, in tenths of a pixel.
fn seen([x, y, z]: Point) -> [i64; 2] {
    let (side, up) = (TAU / 9.0, TAU / 13.0);
    let right = x * side.cos() - y * side.sin();
    let near = x * side.sin() + y * side.cos();
    let down = near * up.sin() - z * up.cos();
    [2_400.0 + 2.2 * right, 2_200.0 + 2.2 * down].map(|x| x.round() as i64)
}

/// The layers from the lowest up, which hide what is below them; a colour for each loop of a layer.
fn picture() -> String {
    let (points, triangles) = torus();
    let highest = (RADII[0] + RADII[1]) as i32;
    let mut svg = String::from(
        "<svg xmlns=\"http://www.w3.org/2000/svg\" width=\"480\" viewBox=\"0 0 4800 4400\" \
         fill=\"#fff\" fill-opacity=\".8\" stroke-width=\"12\" stroke-linejoin=\"round\">\n",
    );
    for n in 0..LAYERS {
        let height = highest * (2 * n + 1 - LAYERS) / LAYERS;
        let loops = layer(&points, &triangles, height);
        let colours = ["#0a6c8f", "#c4501b"].iter().cycle();
        for (outline, colour) in loops.into_iter().zip(colours) {
            let outline: Vec<[i64; 2]> = outline.into_iter().map(seen).collect();
            let [x, y] = outline[0];
            write!(svg, "<path stroke=\"{colour}\" d=\"M{x} {y}l").unwrap();
            for step in outline.windows(2) {
                let [x, y] = [0, 1].map(|axis| step[1][axis] - step[0][axis]);
                write!(svg, " {x} {y}").unwrap();
            }
            svg += "z\"/>\n";
        }
    }
    svg + "</svg>\n"
}

#[test]
fn as_in_docs() {
    assert_eq!(picture(), include_str!("../../../docs/layers.svg"));
}
