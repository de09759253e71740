//! Sheets of both editions: a writer and a reader of our own, random calls, a model from document 01
//! and request F-8, and ours.
use crate::{
    call::{Call, filling},
    editing::set_then_0,
    questions::{No, ask},
    random::Random,
    surfaces::Surface,
};
use lanovishel::raw;
use std::str;

/// The most points of a sheet.
pub const MOST_POINTS: usize = 128;

/// The most triangles of a sheet.
pub const MOST_TRIANGLES: usize = 256;

/// An edition of sheets.
#[derive(Debug, PartialEq, Eq)]
pub struct Edition {
    /// As calls name it.
    pub number: u32,
    /// How many units 1 has.
    pub unit: i64,
    /// The largest coordinate, in units.
    pub most: i64,
    /// The first line.
    pub names: &'static str,
    /// What the second line has before the two counts.
    pub value: &'static str,
    /// How many bytes the longest sheet has.
    pub longest: usize,
}

/// Document 01's.
pub const FIRST: Edition = Edition {
    number: 1,
    unit: 1_024,
    most: 32_768,
    names: "points triangles",
    value: "",
    longest: 12_203,
};

/// Request F-8's.
pub const SECOND: Edition = Edition {
    number: 2,
    unit: 65_536,
    most: 2_097_152,
    names: "edition points triangles",
    value: "2 ",
    longest: 12_981,
};

/// Both.
pub const EDITIONS: [&Edition; 2] = [&FIRST, &SECOND];

/// What a sheet says, or would say if it could: numbers of any size.
#[derive(Clone, Debug, Default, PartialEq, Eq)]
pub struct Content {
    /// The coordinates of the points, in units.
    pub points: Vec<[i128; 3]>,
    /// The corners of the triangles, and their labels.
    pub triangles: Vec<[i128; 4]>,
}

impl Content {
    /// Whether a sheet of the edition can say it.
    pub fn fits(&self, edition: &Edition) -> bool {
        let most = i128::from(edition.most);
        let in_range = |x: &i128| (-most..=most).contains(x);
        let is_triangle = |&[a, b, c, label]: &[i128; 4]| {
            [a, b, c].iter().all(|corner| (0..1 << 32).contains(corner))
                && (0..256).contains(&label)
        };
        self.points.len() <= MOST_POINTS
            && self.triangles.len() <= MOST_TRIANGLES
            && self.points.as_flattened().iter().all(in_range)
            && self.triangles.iter().all(is_triangle)
    }

    /// The lines that say it.
    pub fn text(&self, edition: &Edition) -> Vec<u8> {
        let counts = format!("{} {}", self.points.len(), self.triangles.len());
        let mut lines = vec![
            edition.names.to_string(),
            format!("{}{counts}", edition.value),
            "x y z".to_string(),
        ];
        lines.extend(self.points.iter().map(|[x, y, z]| format!("{x} {y} {z}")));
        lines.push("a b c label".to_string());
        let triangles = self.triangles.iter();
        lines.extend(triangles.map(|[a, b, c, label]| format!("{a} {b} {c} {label}")));
        lines.push(String::new());
        lines.join("\n").into_bytes()
    }

    /// The same in the unit of another edition, where that has whole numbers for it.
    pub fn converted(&self, from: &Edition, to: &Edition) -> Option<Content> {
        let [from, to] = [from.unit, to.unit].map(i128::from);
        let whole = |x: i128| ((x * to) % from == 0).then_some(x * to / from);
        let point = |&[x, y, z]: &[i128; 3]| Some([whole(x)?, whole(y)?, whole(z)?]);
        Some(Content {
            points: self.points.iter().map(point).collect::<Option<_>>()?,
            triangles: self.triangles.clone(),
        })
    }

    /// The lists that a reader is answered.
    pub fn surface(&self, edition: &Edition) -> Surface {
        let place = |&x: &i128| x as f64 / edition.unit as f64;
        let corners = |&[a, b, c, _]: &[i128; 4]| [a, b, c].map(|corner| corner as u32);
        Surface {
            points: self.points.as_flattened().iter().map(place).collect(),
            corners: self.triangles.iter().flat_map(corners).collect(),
            labels: self.triangles.iter().map(|t| t[3] as u8).collect(),
        }
    }

    /// The coordinates as they are lent to be written.
    pub fn coordinates(&self) -> Vec<i32> {
        let points = self.points.as_flattened().iter();
        points.map(|&x| x.try_into().unwrap()).collect()
    }
}

/// The edition of a text and what it says, where it is a sheet.
pub fn read(text: &[u8]) -> Option<(&'static Edition, Content)> {
    EDITIONS
        .into_iter()
        .find_map(|edition| Some((edition, content(text, edition)?)))
}

/// Lines and fields are taken as they can be read at all; then the text must be just what is written
/// of them.
fn content(text: &[u8], edition: &Edition) -> Option<Content> {
    let lines: Vec<&str> = str::from_utf8(text).ok()?.lines().collect();
    let counts: Vec<&str> = lines.get(1)?.split(' ').collect();
    let count: usize = counts.iter().nth_back(1)?.parse().ok()?;
    let points = lines.get(3..)?.get(..count)?;
    let triangles = lines.get(4 + count..)?;
    let content = Content {
        points: points
            .iter()
            .map(|line| fields(line))
            .collect::<Option<_>>()?,
        triangles: triangles
            .iter()
            .map(|line| fields(line))
            .collect::<Option<_>>()?,
    };
    (content.fits(edition) && content.text(edition) == text).then_some(content)
}

/// The fields of a line, where they are so many numbers.
fn fields<const COUNT: usize>(line: &str) -> Option<[i128; COUNT]> {
    let numbers: Option<Vec<i128>> = line.split(' ').map(|field| field.parse().ok()).collect();
    numbers?.try_into().ok()
}

/// The text of the first edition's sheet in the second: its value, and coordinates 64 times as large.
pub fn in_the_second(sheet: &[u8]) -> Vec<u8> {
    let (edition, content) = read(sheet).unwrap();
    assert_eq!(edition, &FIRST);
    content.converted(&FIRST, &SECOND).unwrap().text(&SECOND)
}

/// A text that is no sheet of the first edition, with the second's head as far as it has a head, and
/// beyond the second's range where it is beyond the first's.
pub fn malformed_in_the_second(text: &[u8]) -> Vec<u8> {
    let lines = text.split(|&byte| byte == b'\n');
    let mut lines: Vec<Vec<u8>> = lines.map(<[u8]>::to_vec).collect();
    if let Some(names) = lines[0].iter().position(u8::is_ascii_alphabetic) {
        lines[0].splice(names..names, *b"edition ");
    }
    let begins_a_number = |byte: &u8| b"-0123456789".contains(byte);
    let counts = |line: &&mut Vec<u8>| line.first().is_some_and(begins_a_number);
    if let Some(counts) = lines.iter_mut().find(counts) {
        counts.splice(..0, *b"2 ");
    }
    for line in &mut lines {
        if let Some(beyond) = line.windows(5).position(|field| field == b"32769") {
            line.splice(beyond..beyond + 5, *b"2097153");
        }
    }
    lines.join(&b'\n')
}

/// Which of the three calls.
#[derive(Clone, Copy, Debug, PartialEq, Eq)]
pub enum Kind {
    /// Takes `sheet`; answers `surface` and `counts`.
    Read,
    /// Takes `edition`, `coordinates`, and corners and labels of `surface`; answers `written` and
    /// `length`.
    Write,
    /// Takes `sheet` and `edition`; answers `written` and `length`.
    Convert,
}

/// The call as the model leaves it.
pub fn model(kind: Kind, before: &Call) -> Call {
    match kind {
        Kind::Read => as_read(before, told(before)),
        Kind::Write => as_written(before, to_write(before)),
        Kind::Convert => as_written(before, in_another(before)),
    }
}

fn as_read(before: &Call, found: Result<Surface, No>) -> Call {
    let mut after = before.clone();
    after.number = found.as_ref().map_or_else(|no| no.number, |_| 0);
    let surface = found.unwrap_or_default();
    set_then_0(&mut after.surface.points, &surface.points);
    set_then_0(&mut after.surface.corners, &surface.corners);
    set_then_0(&mut after.surface.labels, &surface.labels);
    let counts = [surface.point_count(), surface.triangle_count()];
    after.counts = counts.map(|count| count as u32);
    after
}

fn as_written(before: &Call, found: Result<Vec<u8>, No>) -> Call {
    let mut after = before.clone();
    after.number = found.as_ref().map_or_else(|no| no.number, |_| 0);
    let text = found.unwrap_or_default();
    set_then_0(&mut after.written, &text);
    after.length = [text.len() as u64];
    after
}

/// The three lists that a sheet tells of, or the refusal.
fn told(call: &Call) -> Result<Surface, No> {
    let sheet = read(&call.sheet);
    ask(sheet.is_some(), 16)?;
    let (edition, content) = sheet.unwrap();
    let (points, triangles) = (content.points.len(), content.triangles.len());
    ask(3 * points <= call.surface.points.len(), 35)?;
    ask(3 * triangles <= call.surface.corners.len(), 35)?;
    ask(triangles <= call.surface.labels.len(), 35)?;
    Ok(content.surface(edition))
}

/// The text of the lists, or the refusal.
fn to_write(call: &Call) -> Result<Vec<u8>, No> {
    let edition = asked_for(call)?;
    let Surface {
        corners, labels, ..
    } = &call.surface;
    let (points, no_point) = call.coordinates.as_chunks();
    let (triangles, no_triangle) = corners.as_chunks();
    ask(no_point.is_empty() && no_triangle.is_empty(), 16)?;
    ask(triangles.len() == labels.len(), 16)?;
    let triangle = |(&corners, &label): (&[u32; 3], &u8)| {
        let [a, b, c] = corners.map(i128::from);
        [a, b, c, label.into()]
    };
    let content = Content {
        points: points
            .iter()
            .map(|&point: &[i32; 3]| point.map(i128::from))
            .collect(),
        triangles: triangles.iter().zip(labels).map(triangle).collect(),
    };
    ask(content.fits(edition), 16)?;
    with_room(content.text(edition), call)
}

/// The text of the sheet in the edition that is asked for, or the refusal.
fn in_another(call: &Call) -> Result<Vec<u8>, No> {
    let to = asked_for(call)?;
    let sheet = read(&call.sheet);
    ask(sheet.is_some(), 16)?;
    let (from, content) = sheet.unwrap();
    let converted = content.converted(from, to);
    ask(converted.is_some(), 38)?;
    with_room(converted.unwrap().text(to), call)
}

/// The text, where the list is long enough for it.
fn with_room(text: Vec<u8>, call: &Call) -> Result<Vec<u8>, No> {
    ask(text.len() <= call.written.len(), 35)?;
    Ok(text)
}

/// The edition that is asked for, where there is one.
fn asked_for(call: &Call) -> Result<&'static Edition, No> {
    let edition = EDITIONS
        .into_iter()
        .find(|edition| edition.number == call.edition);
    ask(edition.is_some(), 16)?;
    Ok(edition.unwrap())
}

/// The call as ours leaves it.
pub fn ours(kind: Kind, before: &Call) -> Call {
    let mut after = before.clone();
    let Surface {
        points,
        corners,
        labels,
    } = &mut after.surface;
    // SAFETY: the lists are whole vectors, apart from one another.
    after.number = unsafe {
        match kind {
            Kind::Read => raw::lanovishel_read_sheet(
                after.sheet.as_ptr(),
                after.sheet.len(),
                points.as_mut_ptr(),
                points.len(),
                corners.as_mut_ptr(),
                corners.len(),
                labels.as_mut_ptr(),
                labels.len(),
                &mut after.counts,
            ),
            Kind::Write => raw::lanovishel_write_sheet(
                after.edition,
                after.coordinates.as_ptr(),
                after.coordinates.len(),
                corners.as_ptr(),
                corners.len(),
                labels.as_ptr(),
                labels.len(),
                after.written.as_mut_ptr(),
                after.written.len(),
                &mut after.length,
            ),
            Kind::Convert => raw::lanovishel_convert_sheet(
                after.sheet.as_ptr(),
                after.sheet.len(),
                after.edition,
                after.written.as_mut_ptr(),
                after.written.len(),
                &mut after.length,
            ),
        }
    };
    after
}

/// A call that reads a text into lists of such lengths, with something in them.
pub fn lent_to_read(text: &[u8], [points, corners, labels]: [usize; 3]) -> Call {
    let surface = Surface {
        points: filling(points).into_iter().map(f64::from).collect(),
        corners: filling(corners),
        labels: bytes(labels),
    };
    Call {
        sheet: text.to_vec(),
        ..Call::new(surface, 0)
    }
}

/// A call that writes what a sheet of the edition is to say, into so many bytes with something in
/// them.
pub fn lent_to_write(content: &Content, edition: u32, room: usize) -> Call {
    let surface = Surface {
        points: Vec::new(),
        ..content.surface(&FIRST)
    };
    Call {
        coordinates: content.coordinates(),
        edition,
        written: bytes(room),
        ..Call::new(surface, 0)
    }
}

/// A call that converts a text, into so many bytes with something in them.
pub fn lent_to_convert(text: &[u8], edition: u32, room: usize) -> Call {
    Call {
        sheet: text.to_vec(),
        edition,
        written: bytes(room),
        ..Call::new(Surface::default(), 0)
    }
}

/// Bytes to lend a list with, none of them 0.
fn bytes(count: usize) -> Vec<u8> {
    (1..=u8::MAX).cycle().take(count).collect()
}

/// A random call that reads: a sheet of either edition, one in three damaged, with lists that are
/// long enough or not.
pub fn random_read(random: &mut Random) -> Call {
    let (edition, content) = some_sheet(random);
    let mut text = content.text(edition);
    if random.one_in(3) {
        damage(&mut text, random);
    }
    let (points, triangles) = (content.points.len(), content.triangles.len());
    let lengths = [3 * points, 3 * triangles, triangles].map(|needed| some_length(random, needed));
    lent_to_read(&text, lengths)
}

/// A random call that writes: one in four has an edition or lists that no sheet has.
pub fn random_write(random: &mut Random) -> Call {
    let (edition, content) = some_sheet(random);
    let room = some_length(random, content.text(edition).len());
    let mut call = lent_to_write(&content, edition.number, room);
    if random.one_in(4) {
        break_a_rule(&mut call, edition, random);
    }
    call
}

/// A random call that converts: one sheet in six is damaged, and one edition in twelve is none.
pub fn random_convert(random: &mut Random) -> Call {
    let (from, content) = some_sheet(random);
    let to = random.pick(&EDITIONS);
    let mut text = content.text(from);
    let converted = content.converted(from, to);
    let needed = converted.map_or(text.len(), |content| content.text(to).len());
    if random.one_in(6) {
        damage(&mut text, random);
    }
    let edition = if random.one_in(12) {
        random.pick(&NO_EDITIONS)
    } else {
        to.number
    };
    lent_to_convert(&text, edition, some_length(random, needed))
}

/// Numbers of no edition; of some the lower byte, or the lower half, is that of one.
pub const NO_EDITIONS: [u32; 10] = [
    0,
    3,
    4,
    5,
    0x101,
    0x102,
    0x1_0001,
    0x1_0002,
    1 << 31,
    u32::MAX,
];

/// As long as is needed, or longer; at times shorter.
fn some_length(random: &mut Random, needed: usize) -> usize {
    match random.below(16) {
        0 => needed.saturating_sub(random.pick(&[1, 1, 2, 3, needed])),
        1..6 => needed,
        _ => needed + random.pick(&[1, 2, 3, 60]),
    }
}

/// A sheet of either edition.
fn some_sheet(random: &mut Random) -> (&'static Edition, Content) {
    let edition = random.pick(&EDITIONS);
    let content = some_content(random, edition);
    (edition, content)
}

/// Few points and triangles, at times many, none, or as many as there may be.
fn some_content(random: &mut Random, edition: &Edition) -> Content {
    let mut count = |most: usize| match random.below(64) {
        0 => most,
        1 => random.within(0, most),
        2..10 => 0,
        _ => random.within(1, 7),
    };
    let (points, triangles) = (count(MOST_POINTS), count(MOST_TRIANGLES));
    // Half of the sheets are in whole 1/1024, or all of their coordinates are but one.
    let step = random.pick(&[1, edition.unit / FIRST.unit]);
    let mut point = || [0; 3].map(|_| some_coordinate(random, edition, step).into());
    let mut points: Vec<[i128; 3]> = (0..points).map(|_| point()).collect();
    if !points.is_empty() && random.one_in(6) {
        let [point, axis] = [points.len(), 3].map(|count| random.below(count));
        let x = points[point][axis];
        let any = some_coordinate(random, edition, 1).into();
        points[point][axis] = random.pick(&[any, x - x.signum()]);
    }
    let triangle = |_| {
        let [a, b, c] = [0; 3].map(|_| some_corner(random).into());
        [a, b, c, i128::from(random.bits() as u8)]
    };
    Content {
        points,
        triangles: (0..triangles).map(triangle).collect(),
    }
}

/// A coordinate in steps of so many units: at an end of the range or near it, around 0, or anywhere.
fn some_coordinate(random: &mut Random, edition: &Edition, step: i64) -> i64 {
    let most = edition.most / step;
    let size = match random.below(8) {
        0 => most - random.below(3) as i64,
        1 | 2 => random.below(3) as i64,
        3 => random.below(200) as i64,
        _ => random.within(0, most as usize) as i64,
    };
    step * size * random.pick(&[-1, 1])
}

fn some_corner(random: &mut Random) -> u32 {
    let (few, any) = (random.below(8) as u32, random.bits() as u32);
    let of_any_length = any >> random.below(32);
    random.pick(&[few, few, few, any, of_any_length, 1 << 31, u32::MAX])
}

/// Breaks what 16 asks of what is to be written, where it has what that takes.
fn break_a_rule(call: &mut Call, edition: &Edition, random: &mut Random) {
    let Surface {
        corners, labels, ..
    } = &mut call.surface;
    let values = call.coordinates.len();
    match random.below(8) {
        0 => call.edition = random.pick(&NO_EDITIONS),
        1 => call.coordinates.extend(vec![0; random.within(1, 2)]),
        2 => {
            let points = MOST_POINTS + random.within(1, 3);
            call.coordinates.resize(3 * points, 0);
        }
        3 => {
            labels.resize(MOST_TRIANGLES + random.within(1, 3), 0);
            corners.resize(3 * labels.len(), 0);
        }
        4 => corners.extend(vec![0; random.within(1, 3)]),
        5 => labels.push(0),
        _ if values > 0 => {
            let most = edition.most as i32;
            let beyond = [most + 1, -most - 1, 2 * most, i32::MAX, i32::MIN];
            call.coordinates[random.below(values)] = random.pick(&beyond);
        }
        _ => labels.push(0),
    }
}

/// Bytes that a damaged text may have.
const BYTES: &[u8] = b"0123456789-+ \n\r\t\0.,xe\xff";

/// Fields that a damaged text may have.
const FIELDS: [&str; 32] = [
    "",
    "0",
    "-0",
    "00",
    "01",
    "+1",
    "-1",
    "--1",
    "-",
    "1.0",
    "1e3",
    "0x1",
    "2",
    "02",
    "127",
    "128",
    "129",
    "255",
    "256",
    "257",
    "-32768",
    "32768",
    "32769",
    "-32769",
    "-2097152",
    "2097152",
    "2097153",
    "-2097153",
    "4294967295",
    "4294967296",
    "18446744073709551616",
    "340282366920938463463374607431768211456",
];

/// Damages a text: a byte, a field, a line, or an end. It may be a sheet still, or another one.
fn damage(text: &mut Vec<u8>, random: &mut Random) {
    let (any, likely) = (random.bits() as u8, random.pick(BYTES));
    let byte = random.pick(&[any, likely, likely]);
    let place = random.below(text.len());
    let next = (place + 1) % text.len();
    match random.below(12) {
        0 => text[place] = byte,
        1 => drop(text.remove(place)),
        2 => text.insert(place, byte),
        3 => text.swap(place, next),
        4 => text.truncate(place),
        5 => text.push(byte),
        6 => text.extend_from_within(place..),
        7..10 => {
            let field = random.pick(&FIELDS);
            replace(text, random, b' ', field.as_bytes());
        }
        10 => {
            let line = random.pick(&["", FIRST.names, SECOND.names, "x y z", "2 0 0", "0 0 0 0"]);
            replace(text, random, b'\n', line.as_bytes());
        }
        _ => {
            let mut lines: Vec<&[u8]> = text.split(|&byte| byte == b'\n').collect();
            let [a, b] = [0; 2].map(|_| random.below(lines.len()));
            match random.below(3) {
                0 => lines.swap(a, b),
                1 => lines.insert(a, lines[b]),
                _ => drop(lines.remove(a)),
            }
            *text = lines.join(&b'\n');
        }
    }
}

/// Puts something else in the place of what is between two of the bytes `end`, or between such and a
/// line feed.
fn replace(text: &mut Vec<u8>, random: &mut Random, end: u8, by: &[u8]) {
    let ends = |byte: &u8| *byte == end || *byte == b'\n';
    let place = random.below(text.len());
    let first = text[..place].iter().rposition(ends).map_or(0, |at| at + 1);
    let length = text[first..].iter().position(ends);
    let last = length.map_or(text.len(), |length| first + length);
    text.splice(first..last, by.iter().copied());
}
