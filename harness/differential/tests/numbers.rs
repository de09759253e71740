//! Refusals by their names: docs/NUMBERS.md beside the Rust crate, and small open surfaces whose
//! place is seen by looking.
use differential::surfaces::{Surface, pillow, tetrahedron, touching};
use lanovishel::{Edition, Field, Refusal, Tariff};

const NUMBERS: &str = include_str!("../../../docs/NUMBERS.md");

fn check(surface: Surface) -> Refusal {
    let mut work = vec![1; surface.work_words()];
    check_with(&mut work, surface)
}

/// Why checking refuses a surface, and pricing too; up to 5, so does probing.
fn check_with(work: &mut [u32], surface: Surface) -> Refusal {
    let Surface {
        points,
        corners,
        labels,
    } = &surface;
    let refusal = lanovishel::check(points, corners, labels, work).unwrap_err();
    assert_eq!(price_with(work, &surface, &[1]), refusal);
    if refusal.number().get() <= 5 {
        assert_eq!(nearest_with(work, &surface, &[]), refusal);
    }
    refusal
}

fn price(surface: Surface, prices: &[u64]) -> Refusal {
    let mut work = vec![1; surface.work_words()];
    price_with(&mut work, &surface, prices)
}

fn price_with(work: &mut [u32], surface: &Surface, prices: &[u64]) -> Refusal {
    let tariff = Tariff {
        uppers: &[],
        prices,
    };
    let Surface {
        points,
        corners,
        labels,
    } = surface;
    lanovishel::price(points, corners, labels, work, &tariff).unwrap_err()
}

fn nearest(surface: Surface, probes: &[f64]) -> Refusal {
    let mut work = vec![1; surface.work_words()];
    nearest_with(&mut work, &surface, probes)
}

fn nearest_with(work: &mut [u32], surface: &Surface, probes: &[f64]) -> Refusal {
    let Surface {
        points,
        corners,
        labels,
    } = surface;
    lanovishel::nearest(points, corners, labels, work, probes, &mut [1; 2]).unwrap_err()
}

/// Why outlining refuses a surface or a height, with two places.
fn outlines(surface: &Surface, height: i32) -> Refusal {
    let mut work = vec![1; surface.work_words()];
    let Surface {
        points,
        corners,
        labels,
    } = surface;
    lanovishel::outlines(points, corners, labels, &mut work, height, &mut [1; 8]).unwrap_err()
}

/// Why editing refuses a surface, and outlining too; or why it refuses entries.
fn edit(mut surface: Surface, entries: &[u32]) -> Refusal {
    let mut work = vec![1; surface.work_words()];
    let (corners, labels) = (&mut surface.corners, &mut surface.labels);
    let points = &surface.points;
    let verdicts = &mut [];
    let refusal = lanovishel::edit(
        points,
        corners,
        labels,
        &mut work,
        entries,
        verdicts,
        &mut [],
    )
    .unwrap_err();
    if entries.is_empty() {
        assert_eq!(outlines(&surface, 0), refusal);
    }
    refusal
}

fn improve(mut surface: Surface, powers: &[u32], rounds: u32) -> Refusal {
    let mut work = vec![1; surface.work_words()];
    let field = Field {
        coefficients: &[1.0],
        powers,
        levels: [0.0, 1.0],
        bounds: [-1.0, -1.0, -1.0, 1.0, 1.0, 1.0],
    };
    let (corners, labels) = (&mut surface.corners, &mut surface.labels);
    let points = &mut surface.points;
    lanovishel::improve(points, corners, labels, &mut work, &field, rounds).unwrap_err()
}

/// A sheet of the second edition, one of whose coordinates is no multiple of 64.
const FINE: &[u8] = b"edition points triangles\n2 1 1\nx y z\n0 0 1\na b c label\n0 0 0 0\n";

/// Why reading refuses a text, with so many places in each list.
fn read_sheet(text: &[u8], places: usize) -> Refusal {
    let (mut points, mut corners) = (vec![1.0; places], vec![1; places]);
    let mut labels = vec![1; places];
    lanovishel::read_sheet(text, &mut points, &mut corners, &mut labels).unwrap_err()
}

/// Why writing refuses points of the first edition, with so many places.
fn write_sheet(coordinates: &[i32], places: usize) -> Refusal {
    let mut written = vec![1; places];
    lanovishel::write_sheet(Edition::First, coordinates, &[], &[], &mut written).unwrap_err()
}

/// Why converting refuses a text, with so many places.
fn convert_sheet(text: &[u8], edition: Edition, places: usize) -> Refusal {
    let mut written = vec![1; places];
    lanovishel::convert_sheet(text, edition, &mut written).unwrap_err()
}

/// Why sampling refuses q·x or cells, and cutting too, with so many places in each list.
fn sample(coefficient: f64, powers: &[u32], cells: u32, places: usize) -> Refusal {
    let field = Field {
        coefficients: &[coefficient],
        powers,
        levels: [0.0, 1.0],
        bounds: [-1.0, -1.0, -1.0, 2.0, 1.0, 1.0],
    };
    let (mut grid, mut values) = (vec![1.0; places], vec![1.0; places]);
    let mut edges = vec![1; places];
    let refusal =
        lanovishel::sample_into(&field, cells, &mut grid, &mut values, &mut edges).unwrap_err();
    assert_eq!(cut(&field, cells, places, places), refusal);
    refusal
}

/// Why cutting refuses a field or cells, with so many places in each list, and so many for cuts.
fn cut(field: &Field, cells: u32, places: usize, cut_places: usize) -> Refusal {
    let (mut grid, mut values) = (vec![1.0; places], vec![1.0; places]);
    let (mut edges, mut cuts) = (vec![1; places], vec![1.0; cut_places]);
    let (grid, values) = (&mut grid, &mut values);
    lanovishel::cut_into(field, cells, grid, values, &mut edges, &mut cuts).unwrap_err()
}

/// Why cutting refuses, with so many places for cuts, a field that is further from the level at a node
/// than there are numbers.
fn cut_far_apart(cut_places: usize) -> Refusal {
    let field = Field {
        coefficients: &[f64::MAX; 2],
        powers: &[3, 0, 0, 0, 3, 0],
        levels: [f64::NEG_INFINITY, f64::MAX / 2.0],
        bounds: [-1.0, 0.0, 0.0, 0.0, 1.0, 1.0],
    };
    cut(&field, 4, 1_000, cut_places)
}

/// Holds what several functions say to one refusal.
fn all_alike(refusals: &[Refusal]) -> Refusal {
    assert!(refusals.iter().all(|refusal| *refusal == refusals[0]));
    refusals[0]
}

fn altered(mut surface: Surface, alter: impl Fn(&mut Surface)) -> Surface {
    alter(&mut surface);
    surface
}

/// Every row of the table has a call that is refused so.
#[test]
fn each_has_its_name() {
    let but = |alter: fn(&mut Surface)| altered(tetrahedron(), alter);
    let refusals = [
        check(but(|s| s.labels.truncate(3))),
        check(but(|s| s.points.resize(3 * 32_769, 0.0))),
        check_with(&mut [1; 191], tetrahedron()),
        check(but(|s| s.points[0] = f64::NAN)),
        check(but(|s| s.corners[0] = 4)),
        check(but(|s| s.corners[0] = 1)),
        check(but(Surface::reverse)),
        edit(but(|s| s.labels[0] = 8), &[]),
        edit(but(|s| s.corners[0] = 1), &[]),
        edit(but(|s| s.labels[0] = 1), &[]),
        edit(pillow(), &[]),
        all_alike(&[improve(tetrahedron(), &[], 1), sample(1.0, &[], 4, 0)]),
        improve(tetrahedron(), &[1, 0, 0], 1_001),
        edit(tetrahedron(), &[1]),
        all_alike(&[
            read_sheet(&FINE[1..], 9),
            write_sheet(&[32_769, 0, 0], 99),
            convert_sheet(&FINE[1..], Edition::First, 99),
        ]),
        check(but(|s| s.double(0))),
        check(but(|s| s.remove(3))),
        check(touching()),
        sample(1.0, &[1, 0, 0], 3, 0),
        all_alike(&[
            read_sheet(FINE, 2),
            write_sheet(&[32_768, 0, 0], 9),
            convert_sheet(FINE, Edition::Second, 9),
            // A grid of 125 nodes has 375 values.
            sample(1.0, &[1, 0, 0], 4, 374),
            cut_far_apart(2),
        ]),
        sample(f64::MAX, &[1, 0, 0], 4, 375),
        cut_far_apart(1_000),
        convert_sheet(FINE, Edition::First, 9),
        outlines(&tetrahedron(), 32_768),
        outlines(&tetrahedron(), 0),
        nearest(tetrahedron(), &[0.1; 3]),
        price(tetrahedron(), &[]),
    ];
    let rows: Vec<&str> = NUMBERS
        .lines()
        .filter(|line| line.starts_with("| ") && !line.starts_with("| number"))
        .collect();
    assert_eq!(rows.len(), refusals.len());
    for (row, refusal) in rows.into_iter().zip(refusals) {
        // `Lone { from: 1, to: 3 }` is named Lone.
        let said = format!("{refusal:?}");
        let name = said.split(' ').next().unwrap();
        let start = format!("| {} | `{name}", refusal.number());
        assert!(row.starts_with(&start), "{refusal} is not: {row}");
    }
}

/// Holds what each of the five functions that ask for a closed surface says to one refusal.
fn assert_all(surface: Surface, refusal: Refusal) {
    assert_eq!(check(surface.clone()), refusal);
    assert_eq!(price(surface.clone(), &[1]), refusal);
    assert_eq!(edit(surface.clone(), &[]), refusal);
    assert_eq!(improve(surface, &[1, 0, 0], 1), refusal);
}

#[test]
fn places() {
    let repeated = altered(tetrahedron(), |s| s.double(0));
    assert_all(repeated, Refusal::Repeated { from: 0, to: 2 });
    let lone = altered(tetrahedron(), |s| s.remove(3));
    assert_all(lone, Refusal::Lone { from: 1, to: 3 });
    assert_all(touching(), Refusal::Split { corner: 0 });
}

#[test]
fn in_turn() {
    // The side from 0 to 1 is lone as well, and the triangles around 0 are no ring.
    let repeated = altered(touching(), |s| {
        s.double(3);
        s.remove(0);
    });
    assert_all(repeated, Refusal::Repeated { from: 1, to: 2 });
    // The triangles around 0 are two rings as well.
    let lone = altered(touching(), |s| s.remove(3));
    assert_all(lone, Refusal::Lone { from: 1, to: 3 });
}
