//! Reported volumes beside exact ones, on whole units: each within m·m/2^33, and two listings of one
//! surface within twice that.
use differential::{
    call::Call,
    checking::{self, check},
    random::Random,
    seeded_cases,
    surfaces::{Surface, tetrahedron},
    volume::{self, MOST, Part, Point, range_corners, six, six_from_three, units},
    whole,
};

/// The rows of the table: how many triangles, and the most of them.
const CLASSES: [(&str, usize); 5] = [
    ("4 to 15", 15),
    ("16 to 127", 127),
    ("128 to 1,023", 1_023),
    ("1,024 to 8,191", 8_191),
    ("8,192 to 32,768", 32_768),
];

/// The largest parts of the bounds among so many surfaces.
#[derive(Clone, Copy)]
struct Row {
    surfaces: u64,
    error: Part,
    difference: Part,
    error_of_m: Part,
}

/// What the cases met.
struct Table {
    rows: [Row; 5],
    error: Nearest,
    difference: Nearest,
    error_of_m: Nearest,
    again: u64,
}

/// The largest part of a bound, and what repeats it.
struct Nearest(Part, String);

impl Nearest {
    fn raise(&mut self, part: Part, input: impl FnOnce() -> String) {
        if part.is_above(self.0) {
            *self = Self(part, input());
        }
    }
}

impl Table {
    fn new() -> Self {
        let row = Row {
            surfaces: 0,
            error: Part::NONE,
            difference: Part::NONE,
            error_of_m: Part::NONE,
        };
        let none = || Nearest(Part::NONE, String::new());
        Self {
            rows: [row; 5],
            error: none(),
            difference: none(),
            error_of_m: none(),
            again: 0,
        }
    }

    fn row(&mut self, surface: &Surface) -> &mut Row {
        let triangles = surface.triangle_count();
        let class = CLASSES.iter().position(|&(_, most)| triangles <= most);
        &mut self.rows[class.unwrap()]
    }

    /// Holds the error of a listing to its bound and enters it.
    fn error(&mut self, name: &str, listed: &Listed) -> Result<(), String> {
        let triangles = listed.surface.triangle_count();
        let error = volume::error(listed.volume, listed.six, triangles)?;
        hold("error", error)?;
        let of_m = Part {
            of: triangles as u128,
            ..error
        };
        let row = self.row(listed.surface);
        row.error.raise(error);
        row.error_of_m.raise(of_m);
        let input = || format!("{name}, {}", listed.describe());
        self.error.raise(error, input);
        self.error_of_m.raise(of_m, input);
        Ok(())
    }

    /// Holds the difference of two listings to its bound and enters it.
    fn difference(&mut self, name: &str, a: &Listed, b: &Listed) -> Result<(), String> {
        let triangles = a.surface.triangle_count();
        let difference = volume::difference(a.volume, b.volume, triangles)?;
        hold("difference", difference)?;
        self.row(a.surface).difference.raise(difference);
        self.difference.raise(difference, || {
            format!("{name}, {}; and {}", a.describe(), b.describe())
        });
        Ok(())
    }

    fn print(&self) {
        println!(
            "| triangles | surfaces | largest error, of m·m/2^33 | largest difference, of 2·m·m/2^33 | largest error, of m/2^33 |"
        );
        println!("|---|---|---|---|---|");
        for ((name, _), row) in CLASSES.iter().zip(&self.rows) {
            println!(
                "| {name} | {} | {} | {} | {} |",
                row.surfaces, row.error, row.difference, row.error_of_m
            );
        }
        let Nearest(part, input) = &self.error;
        println!("nearest error, {part} of m·m/2^33: {input}");
        let Nearest(part, input) = &self.difference;
        println!("nearest difference, {part} of 2·m·m/2^33: {input}");
        let Nearest(part, input) = &self.error_of_m;
        println!("largest error of m/2^33, {part}: {input}");
    }
}

/// A surface as it is listed, six times its exact volume, and the volume that is reported.
struct Listed<'a> {
    surface: &'a Surface,
    six: i128,
    volume: f64,
}

impl<'a> Listed<'a> {
    /// Holds the listing to be accepted. Where 0 is within the bound of the volume it need not be; no
    /// case has met that.
    fn new(surface: &'a Surface, six: i128) -> Result<Self, String> {
        let volume = check(surface)
            .map_err(|refusal| format!("{refusal}; six is {six}"))?
            .volume;
        Ok(Self {
            surface,
            six,
            volume,
        })
    }

    /// What repeats it; a small surface in full, in units.
    fn describe(&self) -> String {
        let triangles = self.surface.triangles();
        let (count, six, bits) = (triangles.len(), self.six, self.volume.to_bits());
        let mut text = format!("{count} triangles, six {six}, volume {bits:016x}");
        if count <= 16 {
            let points = units(&self.surface.points).unwrap();
            text += &format!(", points {points:?}, triangles {triangles:?}");
        }
        text
    }
}

fn hold(what: &str, part: Part) -> Result<(), String> {
    if part.fits() {
        return Ok(());
    }
    Err(format!("the {what} is {part} of its bound"))
}

#[test]
fn random_surfaces() {
    let mut table = Table::new();
    let runs = seeded_cases(2_000, |seed, random| case(seed, random, &mut table));
    println!("{runs} surfaces, {} times drawn again", table.again);
    table.print();
    assert!(table.rows.iter().all(|row| row.surfaces >= runs / 20));
}

/// Compares two listings of a surface with the exact volume and with one another.
fn case(seed: u64, random: &mut Random, table: &mut Table) -> Result<(), String> {
    let (surface, again) = whole::any(random);
    table.again += again;
    table.row(&surface).surfaces += 1;
    let anew = whole::listed_anew(&surface, random);
    let six = six_from_three(&surface, random)?;
    let six_anew = six_from_three(&anew, random)?;
    if six != six_anew {
        return Err(format!("six is {six}, and {six_anew} listed anew"));
    }
    let [first, second] = [Listed::new(&surface, six)?, Listed::new(&anew, six)?];
    let name = format!("seed {seed}");
    table.error(&name, &first)?;
    table.error(&format!("{name}, listed anew"), &second)?;
    table.difference(&name, &first, &second)
}

/// What checking answers, as the model and the original have it.
fn answered(surface: Surface) -> Call {
    let work_words = surface.work_words();
    let call = Call::new(surface, work_words);
    let wanted = checking::model(&call);
    checking::compare_with_original(&wanted).unwrap();
    checking::ours(&call).difference(&wanted).unwrap();
    wanted
}

/// The nearest to the bound that a search among tetrahedra came upon: a 64th of it.
#[test]
fn a_64th_of_the_bound() {
    let points = [
        [-30_726, 28_869, 32_768],
        [31_490, 32_768, 30_945],
        [-31_545, 32_768, -32_614],
        [30_379, -23_964, -30_751],
        [-22_980, -32_768, 31_921],
    ];
    let triangles = [[2, 3, 4], [1, 4, 3], [1, 3, 2], [1, 2, 4]];
    let six = six(&points, &triangles, points[0]);
    let surface = Surface::new(&whole::lent(&points), &triangles);
    let [_, volume] = answered(surface).numbers;
    let error = volume::error(volume, six, 4).unwrap();
    assert_eq!(error.to_string(), "0.015625000");
}

/// A flat surface has the exact volume 0. Whether what is reported is above 0 depends on the
/// listing: so does whether it is accepted.
#[test]
fn a_flat_surface() {
    let mut surface = whole::flat();
    let points = units(&surface.points).unwrap();
    assert_eq!(six(&points, &surface.triangles(), points[0]), 0);
    let first = answered(surface.clone());
    let error = volume::error(first.numbers[1], 0, 4).unwrap();
    assert!(first.number == 0 && error.size > 0 && error.fits());
    // The last two triangles exchanged.
    surface.corners[6..].rotate_left(3);
    assert_eq!(answered(surface).number, 8);
}

/// The corners of the range, its middle, and others.
fn origins() -> impl Iterator<Item = Point> {
    range_corners().chain([[0; 3], [1, -2, 3], [-17_001, 32_767, 4_099]])
}

#[test]
fn a_corner_of_the_unit_cube() {
    let mut surface = tetrahedron();
    let points = units(&surface.points).unwrap();
    assert_eq!(points[1], [1024, 0, 0]);
    for origin in origins() {
        assert_eq!(six(&points, &surface.triangles(), origin), 1 << 30);
    }
    surface.reverse();
    for origin in origins() {
        assert_eq!(six(&points, &surface.triangles(), origin), -(1 << 30));
    }
}

#[test]
fn boxes() {
    let boxes = [
        ([0, 0, 0], [1, 1, 1], 1),
        ([5, -7, 9], [3, 50, 1_001], 1),
        ([-1_000, 20, 300], [15, 35, 1_005], 5),
        ([-MOST; 3], [2 * MOST; 3], 1),
        ([-MOST; 3], [2 * MOST; 3], 16),
    ];
    for (low, sides, cells) in boxes {
        let surface = whole::boxed(low, sides, cells);
        let points = units(&surface.points).unwrap();
        let mut triangles = surface.triangles();
        let wanted = 6 * i128::from(sides[0] * sides[1] * sides[2]);
        for origin in origins() {
            assert_eq!(six(&points, &triangles, origin), wanted);
        }
        triangles.iter_mut().for_each(|t| t.swap(0, 1));
        assert_eq!(six(&points, &triangles, low), -wanted);
    }
}

#[test]
fn whole_units() {
    let edge = units(&[32.0, -32.0, -0.0, 1.0 / 1024.0, -1.5, 31.0]);
    assert_eq!(edge, Some(vec![[MOST, -MOST, 0], [1, -1_536, 31_744]]));
    let just_above = 32.0 + 1.0 / 1024.0;
    let others = [
        just_above,
        -just_above,
        0.5 / 1024.0,
        1e-300,
        1e300,
        f64::NAN,
        f64::NEG_INFINITY,
    ];
    for x in others {
        assert_eq!(units(&[0.0, x, 0.0]), None);
    }
}

/// A unit cube of 12 triangles: the last number within the bound of its volume, and the next.
#[test]
fn the_bound_to_the_bit() {
    let within = |volume: f64| volume::error(volume, 6 << 30, 12).unwrap().fits();
    let bound = 144.0 / 2f64.powi(33);
    let [above, below] = [1.0 + bound, 1.0 - bound];
    assert!(within(1.0) && within(above) && within(below));
    assert!(!within(above.next_up()) && !within(below.next_down()));
    let apart = |a: f64, b: f64| volume::difference(a, b, 12).unwrap().fits();
    assert!(apart(above, below) && apart(below, above));
    assert!(!apart(above.next_up(), below) && !apart(below.next_down(), above));
}

/// A corner of the unit cube, of 4 triangles: the f64 nearest to a sixth is below it.
#[test]
fn the_bound_of_a_sixth() {
    let within = |volume: f64| volume::error(volume, 1 << 30, 4).unwrap().fits();
    let (nearest, bound) = (1.0 / 6.0, 16.0 / 2f64.powi(33));
    assert!(within(nearest) && within(nearest + bound));
    assert!(!within((nearest + bound).next_up()) && !within(nearest - bound));
    assert!(within((nearest - bound).next_up()));
}

#[test]
fn volumes_that_are_counted() {
    let last = 2f64.powi(-85);
    let counted = [
        0.0,
        -0.0,
        last,
        -last,
        1.0 + f64::EPSILON,
        2f64.powi(34).next_down(),
    ];
    let size = |volume: f64| volume::error(volume, 0, 4).map(|part| part.size);
    assert_eq!(
        counted.map(|volume| size(volume).unwrap()),
        [
            0,
            0,
            6,
            6,
            6 * ((1 << 85) + (1 << 33)),
            6 * ((1 << 119) - (1 << 66))
        ]
    );
    let refused = [
        last / 2.0,
        1.5 * last,
        f64::MIN_POSITIVE,
        5e-324,
        2f64.powi(34),
        f64::INFINITY,
        f64::NAN,
    ];
    assert!(refused.iter().all(|&volume| size(volume).is_err()));
}
