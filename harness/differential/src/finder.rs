//! Where a surface is open, read off request F-1.
use crate::questions::No;
use std::collections::BTreeMap;

/// The most triangles for which every side is held against every other.
const FEW: usize = 150;

/// 31 for a directed side that occurs more than once, 32 for one whose reverse does not occur, each
/// with the smallest pair of corners in running order, 33 for the smallest corner whose triangles
/// are more than one ring; in this turn. Of a large surface it is read from sorted sides, which
/// must say the same of every small one.
pub fn finding(triangles: &[[u32; 3]]) -> Result<(), No> {
    let sorted = by_order(triangles);
    if triangles.len() > FEW {
        return sorted;
    }
    let plain = plainly(triangles);
    assert_eq!(plain, sorted);
    plain
}

/// A triangle as each of its corners begins it.
fn turns(&[a, b, c]: &[u32; 3]) -> [[u32; 3]; 3] {
    [[a, b, c], [b, c, a], [c, a, b]]
}

/// Every side against every side, every corner with every triangle.
fn plainly(triangles: &[[u32; 3]]) -> Result<(), No> {
    let turns: Vec<[u32; 3]> = triangles.iter().flat_map(turns).collect();
    let sides: Vec<[u32; 2]> = turns.iter().map(|&[u, v, _]| [u, v]).collect();
    let times = |side: [u32; 2]| sides.iter().filter(|&&other| other == side).count();
    let repeated = sides.iter().filter(|&&side| times(side) > 1).min();
    if let Some(&place) = repeated {
        return Err(No { number: 31, place });
    }
    let lone = sides.iter().filter(|&&[u, v]| times([v, u]) == 0).min();
    if let Some(&place) = lone {
        return Err(No { number: 32, place });
    }
    let split = |corner: u32| {
        // From the corner after it to the one before it.
        let around = turns.iter().filter(|turn| turn[0] == corner);
        !one_ring(&around.map(|&[_, v, w]| (v, w)).collect())
    };
    let corners = turns.iter().map(|turn| turn[0]);
    match corners.filter(|&corner| split(corner)).min() {
        None => Ok(()),
        Some(corner) => Err(No {
            number: 33,
            place: [corner, 0],
        }),
    }
}

/// The sides in rising order, then the corners in rising order.
fn by_order(triangles: &[[u32; 3]]) -> Result<(), No> {
    let mut times = BTreeMap::new();
    let mut around: BTreeMap<u32, BTreeMap<u32, u32>> = BTreeMap::new();
    for [u, v, w] in triangles.iter().flat_map(turns) {
        *times.entry([u, v]).or_insert(0) += 1;
        around.entry(u).or_default().insert(v, w);
    }
    let repeated = times.iter().find(|&(_, &times)| times > 1);
    let lone = times.keys().find(|&&[u, v]| !times.contains_key(&[v, u]));
    if let Some((&place, _)) = repeated {
        return Err(No { number: 31, place });
    }
    if let Some(&place) = lone {
        return Err(No { number: 32, place });
    }
    match around.iter().find(|(_, steps)| !one_ring(steps)) {
        None => Ok(()),
        Some((&corner, _)) => Err(No {
            number: 33,
            place: [corner, 0],
        }),
    }
}

/// Whether the steps lead from any of them through all of them and back.
fn one_ring(steps: &BTreeMap<u32, u32>) -> bool {
    let (&first, &second) = steps.iter().next().expect("a corner in use");
    let (mut at, mut met) = (second, 1);
    while at != first {
        (at, met) = (steps[&at], met + 1);
    }
    met == steps.len()
}
