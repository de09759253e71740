//! Reading, writing and converting sheets beside the model: the number, every list. And sheets that
//! need no model.
use differential::{
    call::Call,
    cases,
    checking::measured,
    random::Random,
    report,
    sheets::{
        self, Content, EDITIONS, Edition, FIRST, Kind, MOST_POINTS, MOST_TRIANGLES, NO_EDITIONS,
        SECOND, in_the_second, lent_to_convert, lent_to_read, lent_to_write,
        malformed_in_the_second, read,
    },
    surfaces::Surface,
};
use std::{fs, path::Path};

/// Document 01's sheet.
const TETRAHEDRON: &[u8] = b"points triangles
4 4
x y z
0 0 0
1024 0 0
0 1024 0
0 0 1024
a b c label
0 2 1 0
0 1 3 0
0 3 2 0
1 2 3 0
";

/// The same in the second edition.
const FINE_TETRAHEDRON: &[u8] = b"edition points triangles
2 4 4
x y z
0 0 0
65536 0 0
0 65536 0
0 0 65536
a b c label
0 2 1 0
0 1 3 0
0 3 2 0
1 2 3 0
";

/// More bytes than any sheet has.
const ROOM: usize = 13_000;

/// What the random calls met.
#[derive(Default)]
struct Met {
    numbers: Vec<u32>,
    /// Of accepted calls the edition of the sheet; of a conversion first that which is asked for.
    accepted: Vec<u32>,
    /// Accepted calls whose lists are just long enough.
    full: u64,
    /// Accepted calls with as many points as there may be, and with as many triangles.
    most: [u64; 2],
}

impl Met {
    fn enter(&mut self, kind: Kind, call: &Call) {
        self.numbers.push(call.number);
        if call.number != 0 {
            return;
        }
        let (sheet, asked_for) = match kind {
            Kind::Read => (&call.sheet, 0),
            Kind::Write => (&call.written[..call.length[0] as usize].to_vec(), 0),
            Kind::Convert => (&call.sheet, 10 * call.edition),
        };
        let (edition, content) = read(sheet).unwrap();
        let (points, triangles) = (content.points.len(), content.triangles.len());
        self.accepted.push(asked_for + edition.number);
        let surface = &call.surface;
        let room = [
            surface.points.len(),
            surface.corners.len(),
            surface.labels.len(),
        ];
        self.full += u64::from(match kind {
            Kind::Read => room == [3 * points, 3 * triangles, triangles],
            _ => call.written.len() as u64 == call.length[0],
        });
        self.most[0] += u64::from(points == MOST_POINTS);
        self.most[1] += u64::from(triangles == MOST_TRIANGLES);
    }

    /// Prints what was met, each often enough in so many calls.
    fn report(&self, numbers: &[u32], accepted: &[u32], runs: u64) {
        report("number", numbers, &self.numbers, runs / 50);
        report("edition", accepted, &self.accepted, runs / 20);
        println!("lists without a place more: {}", self.full);
        println!("128 points, 256 triangles: {:?}", self.most);
        assert!(self.full >= runs / 100);
        assert!(*self.most.iter().min().unwrap() >= runs / 1_000);
    }
}

/// Takes random calls of a kind.
fn random_calls(kind: Kind, case: fn(&mut Random) -> Call) -> (Met, u64) {
    let mut met = Met::default();
    let runs = cases(20_000, |random| {
        let after = compared(kind, &case(random))?;
        met.enter(kind, &after);
        Ok(())
    });
    println!("{runs} calls of {kind:?}");
    (met, runs)
}

#[test]
fn random_reads() {
    let (met, runs) = random_calls(Kind::Read, sheets::random_read);
    met.report(&[0, 16, 35], &[1, 2], runs);
}

#[test]
fn random_writes() {
    let (met, runs) = random_calls(Kind::Write, sheets::random_write);
    met.report(&[0, 16, 35], &[1, 2], runs);
}

/// Both ways, and from each edition to itself.
#[test]
fn random_conversions() {
    let (met, runs) = random_calls(Kind::Convert, sheets::random_convert);
    met.report(&[0, 16, 35, 38], &[11, 12, 21, 22], runs);
}

/// The call as ours leaves it, which must be as the model does.
fn compared(kind: Kind, call: &Call) -> Result<Call, String> {
    let after = sheets::ours(kind, call);
    after.difference(&sheets::model(kind, call))?;
    Ok(after)
}

fn answered(kind: Kind, call: &Call) -> Call {
    compared(kind, call).unwrap_or_else(|difference| {
        let sheet = String::from_utf8_lossy(&call.sheet);
        panic!("{kind:?} {} {sheet:?}: {difference}", call.edition)
    })
}

/// The three lists of a sheet, or the number that refuses it.
fn surface(text: &[u8]) -> Result<Surface, u32> {
    // A value takes two bytes at least.
    let lengths = [text.len() / 2; 3];
    let mut after = answered(Kind::Read, &lent_to_read(text, lengths));
    if after.number != 0 {
        return Err(after.number);
    }
    let [points, triangles] = after.counts.map(|count| count as usize);
    after.surface.points.truncate(3 * points);
    after.surface.corners.truncate(3 * triangles);
    after.surface.labels.truncate(triangles);
    Ok(after.surface)
}

/// The text that is written, or the number that refuses it.
fn written(kind: Kind, call: &Call) -> Result<Vec<u8>, u32> {
    let after = answered(kind, call);
    match after.number {
        0 => Ok(after.written[..after.length[0] as usize].to_vec()),
        number => Err(number),
    }
}

fn write(content: &Content, edition: &Edition) -> Result<Vec<u8>, u32> {
    written(Kind::Write, &lent_to_write(content, edition.number, ROOM))
}

fn convert(text: &[u8], edition: &Edition) -> Result<Vec<u8>, u32> {
    // A coordinate becomes longer by two bytes, and the head by ten.
    let room = 2 * text.len() + 10;
    written(Kind::Convert, &lent_to_convert(text, edition.number, room))
}

/// Holds a text to be refused, to be read and to be converted to either edition.
fn is_no_sheet(text: &[u8]) {
    assert_eq!(surface(text), Err(16));
    for edition in EDITIONS {
        assert_eq!(convert(text, edition), Err(16));
    }
}

/// So many points at 0, and so many triangles.
fn zeros(points: usize, triangles: usize) -> Content {
    Content {
        points: vec![[0; 3]; points],
        triangles: vec![[0; 4]; triangles],
    }
}

/// A sheet of one point.
fn one_point(point: [i128; 3]) -> Content {
    Content {
        points: vec![point],
        triangles: Vec::new(),
    }
}

/// A text with something else in the place of a part that it has once.
fn with(text: &[u8], part: &str, other: &str) -> Vec<u8> {
    let text = str::from_utf8(text).unwrap();
    assert_eq!(text.matches(part).count(), 1, "{part}");
    text.replace(part, other).into_bytes()
}

#[test]
fn tetrahedron_by_hand() {
    let points = vec![0., 0., 0., 1., 0., 0., 0., 1., 0., 0., 0., 1.];
    let corners = vec![0, 2, 1, 0, 1, 3, 0, 3, 2, 1, 2, 3];
    let wanted = Surface {
        points,
        corners: corners.clone(),
        labels: vec![0; 4],
    };
    for (text, unit, edition) in [
        (TETRAHEDRON, 1_024, &FIRST),
        (FINE_TETRAHEDRON, 65_536, &SECOND),
    ] {
        assert_eq!(surface(text).as_ref(), Ok(&wanted));
        assert_eq!(convert(text, &FIRST).unwrap(), TETRAHEDRON);
        assert_eq!(convert(text, &SECOND).unwrap(), FINE_TETRAHEDRON);
        let mut call = lent_to_write(&zeros(0, 0), edition.number, ROOM);
        call.coordinates = vec![0, 0, 0, unit, 0, 0, 0, unit, 0, 0, 0, unit];
        call.surface.corners = corners.clone();
        call.surface.labels = vec![0; 4];
        assert_eq!(written(Kind::Write, &call).unwrap(), text);
    }
}

/// Every place of a sheet has a number of its own.
#[test]
fn every_place_by_hand() {
    let text = b"edition points triangles
2 2 3
x y z
-1 2 -3
2097152 -2097152 64
a b c label
4294967295 5 6 7
8 2147483648 10 255
11 12 13 100
";
    let wanted = Surface {
        points: vec![
            -1.0 / 65_536.0,
            2.0 / 65_536.0,
            -3.0 / 65_536.0,
            32.0,
            -32.0,
            1.0 / 1_024.0,
        ],
        corners: vec![4_294_967_295, 5, 6, 8, 2_147_483_648, 10, 11, 12, 13],
        labels: vec![7, 255, 100],
    };
    assert_eq!(surface(text).as_ref(), Ok(&wanted));
    assert_eq!(convert(text, &SECOND).unwrap(), text);
    assert_eq!(convert(text, &FIRST), Err(38));
    let mut call = lent_to_write(&zeros(0, 0), 2, ROOM);
    call.coordinates = vec![-1, 2, -3, 2_097_152, -2_097_152, 64];
    call.surface.corners = wanted.corners;
    call.surface.labels = wanted.labels;
    assert_eq!(written(Kind::Write, &call).unwrap(), text);
    call.edition = 1;
    assert_eq!(written(Kind::Write, &call), Err(16));
}

/// In the longest sheet every number is as long as it can be.
#[test]
fn nothing_and_the_longest() {
    let nothing = [
        "points triangles\n0 0\nx y z\na b c label\n",
        "edition points triangles\n2 0 0\nx y z\na b c label\n",
    ];
    for (edition, nothing) in EDITIONS.into_iter().zip(nothing) {
        assert_eq!(surface(nothing.as_bytes()), Ok(Surface::default()));
        assert_eq!(write(&zeros(0, 0), edition).unwrap(), nothing.as_bytes());
        let longest = Content {
            points: vec![[-i128::from(edition.most); 3]; MOST_POINTS],
            triangles: vec![[4_294_967_295, 4_294_967_295, 4_294_967_295, 255]; MOST_TRIANGLES],
        };
        let text = write(&longest, edition).unwrap();
        assert_eq!(text.len(), edition.longest);
        assert_eq!(surface(&text), Ok(longest.surface(edition)));
        let [first, second] = EDITIONS.map(|to| convert(&text, to).unwrap().len());
        assert_eq!((first, second), (12_203, 12_981));
    }
}

/// The files of a folder of sheets, by name.
fn folder(name: &str) -> Vec<Vec<u8>> {
    let folder = Path::new(env!("CARGO_MANIFEST_DIR"))
        .join("sheets")
        .join(name);
    let files = fs::read_dir(folder)
        .unwrap()
        .map(|file| file.unwrap().path());
    let sheets = files.filter(|file| file.extension().is_some_and(|kind| kind == "sheet"));
    sheets.map(|sheet| fs::read(sheet).unwrap()).collect()
}

/// Each file of the folder 16, in both editions.
#[test]
fn malformed() {
    // What is well formed stays so.
    assert!(surface(&malformed_in_the_second(TETRAHEDRON)).is_ok());
    let files = folder("16");
    assert!(files.len() >= 60);
    for text in files {
        is_no_sheet(&text);
        is_no_sheet(&malformed_in_the_second(&text));
    }
}

/// What the head of either edition may not be. The coordinates are within the range of both.
#[test]
fn malformed_heads() {
    let fine = with(
        TETRAHEDRON,
        "points triangles\n4 4",
        "edition points triangles\n2 4 4",
    );
    let fine = &fine[..];
    assert!(surface(fine).is_ok());
    let names = [
        "points triangles",
        "edition",
        "edition points",
        "edition triangles",
        "edition triangles points",
        "points edition triangles",
        "points triangles edition",
        "edition edition points triangles",
        "edition points triangles label",
        "Edition points triangles",
        "EDITION POINTS TRIANGLES",
        "editions points triangles",
        "editio points triangles",
        "edition: points triangles",
        "edition 2 points triangles",
        "2 points triangles",
        "edition  points triangles",
        "edition\tpoints triangles",
        "edition,points triangles",
        "editionpoints triangles",
        " edition points triangles",
        "edition points triangles ",
        "edition points triangles\r",
        "\u{feff}edition points triangles",
        "edition\npoints triangles",
        "edition points\ntriangles",
        "",
    ];
    for names in names {
        is_no_sheet(&with(fine, "edition points triangles", names));
    }
    let values = [
        "4 4",
        "1 4 4",
        "0 4 4",
        "3 4 4",
        "4 4 4",
        "20 4 4",
        "22 4 4",
        "02 4 4",
        "-2 4 4",
        "+2 4 4",
        "2.0 4 4",
        "2e0 4 4",
        "0x2 4 4",
        "two 4 4",
        "258 4 4",
        "65538 4 4",
        "4294967298 4 4",
        "18446744073709551618 4 4",
        "2 2 4 4",
        "4 4 2",
        "4 2 4",
        "2 4",
        "2",
        "",
        "2 4 4 ",
        " 2 4 4",
        "2  4 4",
        "2 4  4",
        "2\t4 4",
        "2\n4 4",
        "2 4\n4",
        "2 04 4",
        "2 4 04",
        "2 -4 4",
        "2 4 -4",
        "2 +4 4",
        "2 4 4\r",
        "2 4 4 4",
        "2,4,4",
        "2 129 4",
        "2 4 257",
        "2 5 4",
        "2 3 4",
        "2 4 5",
        "2 4 3",
        "edition 4 4",
    ];
    for values in values {
        is_no_sheet(&with(fine, "2 4 4", values));
    }
    for names in [
        "points",
        "triangles",
        "triangles points",
        "Points triangles",
        "edition",
    ] {
        is_no_sheet(&with(TETRAHEDRON, "points triangles", names));
    }
    for values in ["1 4 4", "2 4 4", "4 4 1", "4 4 2", "4", "1", "2", ""] {
        is_no_sheet(&with(TETRAHEDRON, "4 4", values));
    }
}

/// A line of names is asked for in full, in either edition.
#[test]
fn malformed_names() {
    for text in [TETRAHEDRON, FINE_TETRAHEDRON] {
        for names in ["x y", "x z y", "X y z", "x y z w", "x  y z", "xyz", ""] {
            is_no_sheet(&with(text, "x y z", names));
        }
        for names in ["a b c", "a b c labels", "b a c label", "A b c label", ""] {
            is_no_sheet(&with(text, "a b c label", names));
        }
    }
}

/// A sheet of each edition with numbers of either sign, of one digit and of more.
fn two_small_sheets() -> [Vec<u8>; 2] {
    let first = Content {
        points: vec![[0, -1, 10], [-32_768, 32_768, 7]],
        triangles: vec![[0, 10, 4_294_967_295, 20]],
    };
    let first = first.text(&FIRST);
    [first.clone(), in_the_second(&first)]
}

fn read_and_converted(text: &[u8]) {
    let _ = surface(text);
    for edition in EDITIONS {
        let _ = convert(text, edition);
    }
}

/// Every text that differs from a sheet in one byte, by any other, by one more or by one less; every
/// beginning of it and every end.
#[test]
fn one_byte_from_a_sheet() {
    for text in two_small_sheets() {
        for place in 0..text.len() {
            let [mut other, mut more, mut less] = [(); 3].map(|()| text.clone());
            more.insert(place, 0);
            for byte in 0..=u8::MAX {
                other[place] = byte;
                read_and_converted(&other);
                more[place] = byte;
                read_and_converted(&more);
            }
            less.remove(place);
            read_and_converted(&less);
            is_no_sheet(&text[..place]);
            read_and_converted(&text[place + 1..]);
        }
        for byte in 0..=u8::MAX {
            is_no_sheet(&[&text[..], &[byte]].concat());
        }
        is_no_sheet(&text.repeat(2));
    }
}

/// Numbers as no sheet spells them, in each place of a sheet.
#[test]
fn spellings() {
    let spellings = [
        "",
        "-",
        "+",
        "-0",
        "+0",
        "00",
        "000",
        "01",
        "-01",
        "+1",
        "--1",
        "-+1",
        "1-",
        "1.",
        "1.0",
        "1e0",
        "0x1",
        "1_0",
        "1,0",
        "1'0",
        "one",
        "\u{661}",
        "\u{2212}1",
        "1 ",
        " 1",
        "1\0",
    ];
    for text in [TETRAHEDRON, FINE_TETRAHEDRON] {
        let text = str::from_utf8(text).unwrap();
        let lines: Vec<Vec<&str>> = text.lines().map(|line| line.split(' ').collect()).collect();
        for (row, line) in lines.iter().enumerate() {
            for column in 0..line.len() {
                for spelling in spellings {
                    let mut altered = lines.clone();
                    altered[row][column] = spelling;
                    let altered: Vec<String> =
                        altered.iter().map(|line| line.join(" ") + "\n").collect();
                    is_no_sheet(altered.concat().as_bytes());
                }
            }
        }
    }
}

/// Numbers at the ends of what a sheet has, and beyond, in each place of a line.
#[test]
fn ends_of_the_ranges() {
    for edition in EDITIONS {
        let most = i128::from(edition.most);
        let beyond: [i128; 8] = [
            most + 1,
            10 * most,
            1 << 31,
            1 << 32,
            (1 << 32) + 1,
            1 << 63,
            1 << 64,
            (1 << 64) + 1,
        ];
        for axis in 0..3 {
            for x in [most, most - 1, 64, 1, 0] {
                for x in [x, -x] {
                    let mut point = [5; 3];
                    point[axis] = x;
                    let content = one_point(point);
                    let text = content.text(edition);
                    assert_eq!(surface(&text), Ok(content.surface(edition)));
                    assert_eq!(write(&content, edition).as_ref(), Ok(&text));
                    assert_eq!(convert(&text, edition).as_ref(), Ok(&text));
                }
            }
            for x in beyond.into_iter().flat_map(|x| [x, -x]) {
                let mut point = [5; 3];
                point[axis] = x;
                is_no_sheet(&one_point(point).text(edition));
                if i32::try_from(x).is_ok() {
                    assert_eq!(write(&one_point(point), edition), Err(16));
                }
            }
        }
        let highest = (1 << 32) - 1;
        for place in 0..4 {
            let (last, least) = if place < 3 { (highest, 0) } else { (255, 0) };
            for x in [least, last] {
                let mut content = zeros(0, 2);
                content.triangles[1][place] = x;
                let text = content.text(edition);
                assert_eq!(surface(&text), Ok(content.surface(edition)));
                assert_eq!(write(&content, edition).as_ref(), Ok(&text));
            }
            for x in [-1, last + 1, last + 2, 10 * last, 1 << 63, 1 << 64] {
                let mut content = zeros(0, 2);
                content.triangles[1][place] = x;
                is_no_sheet(&content.text(edition));
            }
        }
    }
}

/// In each place of a full list of coordinates.
#[test]
fn one_coordinate_beyond() {
    for edition in EDITIONS {
        let most = edition.most as i32;
        let mut call = lent_to_write(&zeros(MOST_POINTS, 0), edition.number, ROOM);
        for place in 0..3 * MOST_POINTS {
            for x in [most + 1, -most - 1, i32::MAX, i32::MIN] {
                call.coordinates[place] = x;
                assert_eq!(written(Kind::Write, &call), Err(16));
            }
            call.coordinates[place] = if place % 2 == 0 { most } else { -most };
        }
        assert!(written(Kind::Write, &call).is_ok());
    }
}

/// Every label, and every number of points and of triangles, up to more than there may be.
#[test]
fn every_count() {
    for edition in EDITIONS {
        let labels = Content {
            points: Vec::new(),
            triangles: (0..256)
                .map(|label| [255 - label, label, 0, label])
                .collect(),
        };
        let text = labels.text(edition);
        assert_eq!(surface(&text), Ok(labels.surface(edition)));
        assert_eq!(write(&labels, edition), Ok(text));
        let points = (0..=MOST_POINTS + 2).map(|points| zeros(points, 1));
        let triangles = (0..=MOST_TRIANGLES + 2).map(|triangles| zeros(1, triangles));
        for content in points.chain(triangles) {
            let text = content.text(edition);
            let most = [content.points.len() <= 128, content.triangles.len() <= 256];
            if most == [true; 2] {
                assert_eq!(surface(&text), Ok(content.surface(edition)));
                assert_eq!(write(&content, edition), Ok(text));
            } else {
                is_no_sheet(&text);
                assert_eq!(write(&content, edition), Err(16));
            }
        }
    }
}

/// However many coordinates, corners and labels: points are three coordinates, and triangles three
/// corners and a label.
#[test]
fn lists_that_no_sheet_has() {
    for edition in EDITIONS {
        let call = |lengths: [usize; 3]| {
            let mut call = lent_to_write(&zeros(0, 0), edition.number, ROOM);
            call.coordinates = vec![5; lengths[0]];
            call.surface.corners = vec![6; lengths[1]];
            call.surface.labels = vec![7; lengths[2]];
            call
        };
        for coordinates in 0..400 {
            let after = answered(Kind::Write, &call([coordinates, 0, 0]));
            let fits = coordinates % 3 == 0 && coordinates <= 3 * 128;
            assert_eq!(after.number, if fits { 0 } else { 16 }, "{coordinates}");
        }
        for labels in [0, 1, 2, 3, 85, 86, 255, 256, 257] {
            let all: usize = 3 * labels;
            let corners = (0..20).chain(all.saturating_sub(4)..all + 5);
            for corners in corners.chain([labels, 768, 769, 771]) {
                let after = answered(Kind::Write, &call([0, corners, labels]));
                let fits = corners == 3 * labels && labels <= 256;
                assert_eq!(
                    after.number,
                    if fits { 0 } else { 16 },
                    "{corners} {labels}"
                );
            }
        }
    }
}

/// Every coordinate of the first edition is, in the second, 64 times as many units, and the same f64.
#[test]
fn every_coordinate_of_the_first() {
    let all: Vec<i32> = (-32_768..=32_768).collect();
    // The last points have zeros at the end.
    for some in all.chunks(3 * MOST_POINTS) {
        let mut coordinates = some.to_vec();
        coordinates.resize(some.len().next_multiple_of(3), 0);
        let mut call = lent_to_write(&zeros(0, 0), 1, ROOM);
        call.coordinates = coordinates.clone();
        let coarse = written(Kind::Write, &call).unwrap();
        call.edition = 2;
        call.coordinates.iter_mut().for_each(|x| *x *= 64);
        let fine = written(Kind::Write, &call).unwrap();
        assert_eq!(convert(&coarse, &SECOND).as_ref(), Ok(&fine));
        assert_eq!(convert(&fine, &FIRST).as_ref(), Ok(&coarse));
        let places: Vec<u64> = coordinates
            .iter()
            .map(|&x| (f64::from(x) * 2f64.powi(-10)).to_bits())
            .collect();
        for text in [coarse, fine] {
            let points = surface(&text).unwrap().points.into_iter();
            assert_eq!(points.map(f64::to_bits).collect::<Vec<_>>(), places);
        }
    }
}

/// From one end of the second edition's range to the other, and all that are near its ends and near 0.
#[test]
fn coordinates_of_the_second() {
    let far = (-2_097_152..=2_097_152).step_by(601);
    let near = [-2_097_152, -200, 2_097_152 - 300].map(|low| low..low + 301);
    for x in far.chain(near.into_iter().flatten()) {
        let content = one_point([x, 0, -x]);
        let text = content.text(&SECOND);
        assert_eq!(write(&content, &SECOND).as_ref(), Ok(&text));
        let place = x as f64 * 2f64.powi(-16);
        let points = surface(&text).unwrap().points.into_iter();
        let zero_or_less = if x == 0 { 0.0 } else { -place };
        assert_eq!(
            points.map(f64::to_bits).collect::<Vec<_>>(),
            [place, 0.0, zero_or_less].map(f64::to_bits)
        );
        let coarse = if x % 64 == 0 {
            Ok(one_point([x / 64, 0, -x / 64]).text(&FIRST))
        } else {
            Err(38)
        };
        assert_eq!(convert(&text, &FIRST), coarse);
    }
}

/// Every remainder by 64, on either side of 0 and in each coordinate of several points.
#[test]
fn between_the_units() {
    for place in 0..12 {
        for size in (0..=192).chain(2_097_152 - 130..=2_097_152) {
            for x in [size, -size] {
                let mut content = zeros(4, 1);
                content.points[place / 3][place % 3] = x;
                let fine = content.text(&SECOND);
                assert_eq!(convert(&fine, &SECOND).as_ref(), Ok(&fine));
                content.points[place / 3][place % 3] = x / 64;
                let coarse = content.text(&FIRST);
                let wanted = if x % 64 == 0 { Ok(&coarse) } else { Err(&38) };
                assert_eq!(convert(&fine, &FIRST).as_ref(), wanted);
            }
        }
    }
}

/// Sheets of the first edition that are sheets: those of the folders, and random ones.
fn coarse_sheets() -> Vec<Vec<u8>> {
    let folders = ["0", "5", "6", "8", "31", "32", "33"];
    let mut sheets: Vec<Vec<u8>> = folders.into_iter().flat_map(folder).collect();
    assert!(sheets.len() >= 27);
    for seed in 0..1_000 {
        let text = sheets::random_convert(&mut Random::new(seed)).sheet;
        if read(&text).is_some_and(|(edition, _)| edition == &FIRST) {
            sheets.push(text);
        }
    }
    assert!(sheets.len() >= 300);
    sheets
}

/// A sheet and its conversion have the very same points, corners and labels; there and back is the
/// sheet one had; and what is read, in units, is written as the sheet.
#[test]
fn there_and_back() {
    for coarse in coarse_sheets() {
        let fine = convert(&coarse, &SECOND).unwrap();
        assert_eq!(fine, in_the_second(&coarse));
        assert_eq!(convert(&fine, &FIRST).as_ref(), Ok(&coarse));
        assert_eq!(convert(&coarse, &FIRST).as_ref(), Ok(&coarse));
        assert_eq!(convert(&fine, &SECOND).as_ref(), Ok(&fine));
        let [one, other] = [&coarse, &fine].map(|text| surface(text).unwrap());
        let bits = |surface: &Surface| -> Vec<u64> {
            surface.points.iter().map(|x| x.to_bits()).collect()
        };
        assert_eq!(bits(&one), bits(&other));
        assert_eq!((&one.corners, &one.labels), (&other.corners, &other.labels));
        for (text, edition) in [(coarse, &FIRST), (fine, &SECOND)] {
            let unit = edition.unit as f64;
            let mut call = lent_to_write(&zeros(0, 0), edition.number, text.len());
            call.coordinates = one.points.iter().map(|x| (x * unit) as i32).collect();
            call.surface.corners = one.corners.clone();
            call.surface.labels = one.labels.clone();
            assert_eq!(written(Kind::Write, &call), Ok(text));
        }
    }
}

/// What checking says of a sheet it says of its conversion, to the last bit.
#[test]
fn checked_before_and_after() {
    let mut accepted = 0;
    for coarse in coarse_sheets() {
        let fine = convert(&coarse, &SECOND).unwrap();
        let verdicts = [&coarse, &fine].map(|text| {
            let surface = surface(text).unwrap();
            let Surface {
                points,
                corners,
                labels,
            } = &surface;
            let mut work = vec![1; surface.work_words()];
            let verdict = lanovishel::check(points, corners, labels, &mut work);
            let bits = |measured: lanovishel::Measured| {
                [measured.quality, measured.volume].map(f64::to_bits)
            };
            let verdict = verdict.map(bits).map_err(|refusal| refusal.number().get());
            let wanted = measured(&surface, work.len());
            let wanted = wanted.map(|numbers| numbers.map(f64::to_bits));
            assert_eq!(verdict, wanted.map_err(|no| no.number));
            verdict
        });
        assert_eq!(verdicts[0], verdicts[1]);
        accepted += u32::from(verdicts[0].is_ok_and(|numbers| numbers != [0; 2]));
    }
    assert!(accepted >= 8);
}

/// Numbers of editions that there are and that there are not.
#[test]
fn every_edition() {
    let content = read(TETRAHEDRON).unwrap().1;
    for edition in (0..=5).chain(NO_EDITIONS) {
        let known = [1, 2].contains(&edition);
        for room in [0, 50, ROOM] {
            let wanted = match (known, room) {
                (false, _) => 16,
                (true, ROOM) => 0,
                (true, _) => 35,
            };
            for text in [TETRAHEDRON, FINE_TETRAHEDRON] {
                let call = lent_to_convert(text, edition, room);
                assert_eq!(answered(Kind::Convert, &call).number, wanted, "{edition}");
            }
            let call = lent_to_write(&content, edition, room);
            assert_eq!(answered(Kind::Write, &call).number, wanted, "{edition}");
        }
    }
}

/// Sheets to be lent lists of every length.
fn small_contents() -> [Content; 5] {
    let content = read(TETRAHEDRON).unwrap().1;
    let points = Content {
        triangles: Vec::new(),
        ..content.clone()
    };
    let triangles = Content {
        points: Vec::new(),
        ..content.clone()
    };
    [zeros(0, 0), zeros(1, 2), points, triangles, content]
}

/// Where each of the three lists is long enough, what is behind is 0; else all of them are.
#[test]
fn any_lengths_of_what_is_read() {
    for edition in EDITIONS {
        for content in small_contents() {
            let text = content.text(edition);
            let wanted = content.surface(edition);
            let (points, triangles) = (content.points.len(), content.triangles.len());
            let needed = [3 * points, 3 * triangles, triangles];
            for list in 0..3 {
                for length in (0..needed[list] + 9).chain([400, 1_001]) {
                    for spare in [0, 1, 2, 50] {
                        let mut lengths = needed.map(|needed| needed + spare);
                        lengths[list] = length;
                        let after = answered(Kind::Read, &lent_to_read(&text, lengths));
                        let fits = length >= needed[list];
                        let (number, front) = if fits {
                            (0, wanted.clone())
                        } else {
                            (35, Surface::default())
                        };
                        assert_eq!(after.number, number);
                        let counts = if fits { [points, triangles] } else { [0; 2] };
                        assert_eq!(after.counts, counts.map(|count| count as u32));
                        then_0(&after.surface.points, &front.points);
                        then_0(&after.surface.corners, &front.corners);
                        then_0(&after.surface.labels, &front.labels);
                    }
                }
            }
        }
    }
}

/// Holds a list to have something in front, and 0 behind it.
fn then_0<T: PartialEq + Default + std::fmt::Debug>(list: &[T], front: &[T]) {
    assert_eq!(&list[..front.len()], front);
    assert!(list[front.len()..].iter().all(|x| *x == T::default()));
}

/// As many lists too short as there are, at once.
#[test]
fn several_short_lists() {
    let content = read(TETRAHEDRON).unwrap().1;
    for edition in EDITIONS {
        let text = content.text(edition);
        for points in [0, 11, 12, 13] {
            for corners in [0, 11, 12, 13] {
                for labels in [0, 3, 4, 5] {
                    let lengths = [points, corners, labels];
                    let after = answered(Kind::Read, &lent_to_read(&text, lengths));
                    let fits = points >= 12 && corners >= 12 && labels >= 4;
                    assert_eq!(after.number, if fits { 0 } else { 35 });
                }
            }
        }
    }
}

/// Where the list is long enough for the sheet, the bytes behind it are 0; else all are.
#[test]
fn any_length_of_what_is_written() {
    let hold = |kind: Kind, call: &Call, text: &[u8]| {
        let most = text.len() + 9;
        for room in (0..most).chain([10 * most, ROOM]) {
            let mut call = call.clone();
            call.written.resize(room, 77);
            let after = answered(kind, &call);
            let (number, front) = if room >= text.len() {
                (0, text)
            } else {
                (35, &[][..])
            };
            assert_eq!((after.number, after.length), (number, [front.len() as u64]));
            then_0(&after.written, front);
        }
    };
    for to in EDITIONS {
        for content in small_contents() {
            let text = content.text(to);
            hold(Kind::Write, &lent_to_write(&content, to.number, 0), &text);
            for from in EDITIONS {
                let sheet = content.converted(&FIRST, from);
                let sheet = sheet.unwrap().text(from);
                let text = content.converted(&FIRST, to).unwrap().text(to);
                hold(Kind::Convert, &lent_to_convert(&sheet, to.number, 0), &text);
            }
        }
    }
}

type Alter = fn(&mut Call);

/// What 16 asks of writing, each broken.
const UNWRITABLE: [Alter; 7] = [
    |call| call.edition = 3,
    |call| call.coordinates.push(0),
    |call| call.coordinates.resize(3 * 129, 0),
    |call| {
        call.surface.labels.resize(257, 0);
        call.surface.corners.resize(3 * 257, 0);
    },
    |call| call.surface.corners.push(0),
    |call| call.surface.labels.truncate(3),
    |call| call.coordinates[11] = 2_097_153,
];

/// 16 comes before 38 and that before 35; after each, the lists are 0.
#[test]
fn in_turn() {
    let content = read(TETRAHEDRON).unwrap().1;
    for edition in EDITIONS {
        for room in [0, 1, 103, ROOM] {
            for alter in UNWRITABLE {
                let mut call = lent_to_write(&content, edition.number, room);
                alter(&mut call);
                refused(Kind::Write, &call, 16);
            }
        }
    }
    let between = with(FINE_TETRAHEDRON, "0 65536 0", "0 65537 0");
    for room in [0, 1, 103, 104, 110, 118, 119, ROOM] {
        refused(Kind::Convert, &lent_to_convert(&between, 1, room), 38);
        for (behind, edition) in [("x", 1), ("x", 2), ("", 3), ("", 0)] {
            let text = [&between[..], behind.as_bytes()].concat();
            refused(Kind::Convert, &lent_to_convert(&text, edition, room), 16);
        }
    }
    for text in [TETRAHEDRON, FINE_TETRAHEDRON] {
        for lengths in [[0, 0, 0], [11, 12, 4], [12, 11, 4], [12, 12, 3]] {
            refused(Kind::Read, &lent_to_read(text, lengths), 35);
            // The last byte, the last line, and one byte too many.
            let ends = [&text[..text.len() - 1], &text[..text.len() - 8]];
            for altered in ends
                .map(<[u8]>::to_vec)
                .into_iter()
                .chain([[text, b" "].concat()])
            {
                refused(Kind::Read, &lent_to_read(&altered, lengths), 16);
                refused(Kind::Read, &lent_to_read(&altered, [50; 3]), 16);
            }
        }
    }
}

/// Holds a call to be refused so, and every list that is lent for answers to be 0.
fn refused(kind: Kind, call: &Call, number: u32) {
    let after = answered(kind, call);
    assert_eq!(after.number, number);
    if kind == Kind::Read {
        assert_eq!(after.counts, [0, 0]);
        then_0(&after.surface.points, &[]);
        then_0(&after.surface.corners, &[]);
        then_0(&after.surface.labels, &[]);
    } else {
        assert_eq!(after.length, [0]);
        then_0(&after.written, &[]);
    }
}

/// From Rust: what an edition says of itself, and what the safe functions answer.
#[test]
fn safe_functions() {
    let editions = [lanovishel::Edition::First, lanovishel::Edition::Second];
    let mut written = vec![1; ROOM];
    for (edition, wanted) in editions.into_iter().zip(EDITIONS) {
        assert_eq!(edition.number(), wanted.number);
        assert_eq!(i64::from(edition.unit()), wanted.unit);
        assert_eq!(i64::from(edition.range()), wanted.most);
        assert_eq!(edition.longest(), wanted.longest);
        let text = [TETRAHEDRON, FINE_TETRAHEDRON][edition as usize];
        for from in [TETRAHEDRON, FINE_TETRAHEDRON] {
            let count = lanovishel::convert_sheet(from, edition, &mut written).unwrap();
            assert_eq!(&written[..count], text);
        }
        let (mut points, mut corners, mut labels) = ([1.0; 12], [1; 12], [1; 4]);
        let sheet = lanovishel::read_sheet(text, &mut points, &mut corners, &mut labels);
        let counts = lanovishel::Sheet {
            points: 4,
            triangles: 4,
        };
        assert_eq!(sheet, Ok(counts));
        let coordinates = points.map(|x| x as i32 * edition.unit());
        let count = lanovishel::write_sheet(edition, &coordinates, &corners, &labels, &mut written);
        assert_eq!(count, Ok(text.len()));
        assert_eq!(&written[..text.len()], text);
    }
    assert_eq!(lanovishel::Sheet::MOST_POINTS, MOST_POINTS);
    assert_eq!(lanovishel::Sheet::MOST_TRIANGLES, MOST_TRIANGLES);
}
