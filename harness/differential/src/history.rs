//! A model of document 01's history, written from that document alone: every pair of lists is
//! kept, and every list that an entry would make is judged whole.
use crate::closed::closed;

/// A triangle list and its label list.
#[derive(Clone, Debug, PartialEq)]
pub struct Pair {
    /// The triangles.
    pub triangles: Vec<[u32; 3]>,
    /// Their labels.
    pub labels: Vec<u8>,
}

/// The pairs, the first being the pair lent, and a journal record for each pair after it.
pub struct History {
    pairs: Vec<Pair>,
    records: Vec<[u32; 12]>,
    capacity: usize,
}

/// The two triangles of a side: p1 is the earlier one and runs u to v.
struct Side {
    places: [usize; 2],
    starts: [usize; 2],
    u: u32,
    v: u32,
    c: u32,
    d: u32,
}

impl History {
    /// The history before the first entry.
    pub fn new(first: Pair, capacity: usize) -> Self {
        Self {
            pairs: vec![first],
            records: Vec::new(),
            capacity,
        }
    }

    /// The last pair.
    pub fn last(&self) -> &Pair {
        &self.pairs[self.records.len()]
    }

    /// The edits in force.
    pub fn in_force(&self) -> usize {
        self.records.len()
    }

    /// The journal records of the edits in force.
    pub fn records(&self) -> &[[u32; 12]] {
        &self.records
    }

    /// Meets an entry and gives its verdict word.
    pub fn entry(&mut self, [kind, a, b]: [u32; 3]) -> u32 {
        match kind {
            1 | 2 => self.edit(kind, a, b).err().unwrap_or(0),
            3 if b == 0 => self.take_back(a),
            _ => 21,
        }
    }

    fn take_back(&mut self, edits: u32) -> u32 {
        if edits as usize > self.in_force() {
            return 26;
        }
        let left = self.in_force() - edits as usize;
        self.records.truncate(left);
        self.pairs.truncate(left + 1);
        0
    }

    fn edit(&mut self, kind: u32, a: u32, b: u32) -> Result<(), u32> {
        let pair = self.last();
        let side = pair.side(a, b).ok_or(22u32)?;
        let [l1, l2] = side.places.map(|place| pair.labels[place]);
        if kind == 1 && l1 != l2 {
            return Err(23);
        }
        if kind == 2 && pair.carried(b) & !pair.carried(a) != 0 {
            return Err(24);
        }
        let made = if kind == 1 {
            pair.flipped(&side)
        } else {
            pair.collapsed(&side, a, b)
        };
        if !closed(&made.triangles) {
            return Err(25);
        }
        if self.in_force() >= self.capacity {
            return Err(27);
        }
        let [p1, p2] = side.places.map(|place| place as u32);
        let [start1, start2] = side.starts.map(|start| start as u32);
        let forward = u32::from(side.u == a);
        let labels = [l1, l2].map(u32::from);
        let head = [kind, a, b, side.c, side.d, p1, p2, start1, start2];
        let record = [&head[..], &labels, &[forward]].concat();
        self.records.push(record.try_into().unwrap());
        self.pairs.push(made);
        Ok(())
    }
}

impl Pair {
    /// The two triangles that have the side, in either direction.
    fn side(&self, a: u32, b: u32) -> Option<Side> {
        let mut found = Vec::new();
        for (place, triangle) in self.triangles.iter().enumerate() {
            for start in 0..3 {
                let ends = [triangle[start], triangle[(start + 1) % 3]];
                if ends == [a, b] || ends == [b, a] {
                    found.push((place, start));
                }
            }
        }
        let [(p1, s1), (p2, s2)] = found[..] else {
            assert!(
                found.is_empty(),
                "a side of a closed list has two triangles"
            );
            return None;
        };
        let [t1, t2] = [self.triangles[p1], self.triangles[p2]];
        Some(Side {
            places: [p1, p2],
            starts: [s1, s2],
            u: t1[s1],
            v: t1[(s1 + 1) % 3],
            c: t1[(s1 + 2) % 3],
            d: t2[(s2 + 2) % 3],
        })
    }

    /// The labels that a corner carries, a bit each.
    fn carried(&self, corner: u32) -> u8 {
        let here = self
            .triangles
            .iter()
            .zip(&self.labels)
            .filter(|(t, _)| t.contains(&corner));
        here.fold(0, |set, (_, label)| set | 1 << label)
    }

    fn flipped(&self, side: &Side) -> Pair {
        let mut made = self.clone();
        made.triangles[side.places[0]] = [side.c, side.d, side.v];
        made.triangles[side.places[1]] = [side.d, side.c, side.u];
        made
    }

    fn collapsed(&self, side: &Side, a: u32, b: u32) -> Pair {
        let mut made = self.clone();
        for place in [side.places[1], side.places[0]] {
            made.triangles.remove(place);
            made.labels.remove(place);
        }
        let corners = made.triangles.iter_mut().flatten();
        corners
            .filter(|corner| **corner == b)
            .for_each(|corner| *corner = a);
        made
    }
}
