//! Vectors: calls with the answers that they must have, as a text that any program can replay.
//!
//! A vector is a line of words. A word is eight hexadecimal digits and one further byte: a space
//! or, behind the last word of a vector, a line feed. So word k of the text begins at byte 9·k.
//! A list is its length and then its elements; an f64 is two words, the high one first, and any
//! other number is one.
use crate::call::{Call, filling};

/// What the words of a vector are: first those of the call, then those of its outcome. Each
/// function visits the fields in their order, to write them or to read them.
#[derive(Clone, Copy)]
pub struct Format {
    inputs: fn(&mut Words, &mut Call),
    outcome: fn(&mut Words, &mut Call),
}

/// Points, corners, labels, how many work words; then number, place, quality, volume.
pub const CHECK: Format = Format {
    inputs: |words, call| words.surface_and_work(call),
    outcome: |words, call| {
        words.number_and_place(call);
        call.numbers.iter_mut().for_each(|x| words.float(x));
    },
};

/// Points, corners, labels, how many work words, entries, how many verdict words, how many
/// journal words; then number, place, corners, labels, verdict words, journal, triangles left, edits
/// in force.
pub const EDIT: Format = Format {
    inputs: |words, call| {
        words.surface_and_work(call);
        words.list(&mut call.entries, Words::word);
        words.length(&mut call.verdicts);
        words.length(&mut call.journal);
    },
    outcome: |words, call| {
        words.number_and_place(call);
        words.list(&mut call.surface.corners, Words::word);
        words.list(&mut call.surface.labels, Words::byte);
        words.list(&mut call.verdicts, Words::word);
        words.list(&mut call.journal, Words::word);
        call.edited.iter_mut().for_each(|x| words.count(x));
    },
};

/// Points, corners, labels, how many work words, coefficients, powers, the two levels, the six
/// bounds, rounds; then number, place, points, corners, labels, points left, triangles left, flips.
pub const IMPROVE: Format = Format {
    inputs: |words, call| {
        words.surface_and_work(call);
        words.list(&mut call.coefficients, Words::float);
        words.list(&mut call.powers, Words::word);
        call.levels.iter_mut().for_each(|x| words.float(x));
        call.bounds.iter_mut().for_each(|x| words.float(x));
        words.word(&mut call.rounds);
    },
    outcome: |words, call| {
        words.number_and_place(call);
        words.list(&mut call.surface.points, Words::float);
        words.list(&mut call.surface.corners, Words::word);
        words.list(&mut call.surface.labels, Words::byte);
        call.answer.iter_mut().for_each(|x| words.word(x));
    },
};

/// The words of a vector while they are written, or while they are read.
enum Words<'a> {
    Writing(&'a mut Vec<u32>),
    Reading(&'a [u32]),
}

impl Words<'_> {
    fn word(&mut self, x: &mut u32) {
        match self {
            Self::Writing(words) => words.push(*x),
            Self::Reading(words) => (*x, *words) = (words[0], &words[1..]),
        }
    }

    /// A count that one word holds.
    fn count(&mut self, x: &mut u64) {
        let mut word = 0;
        if let Self::Writing(_) = self {
            word = u32::try_from(*x).expect("a count of less than 2^32");
        }
        self.word(&mut word);
        *x = word.into();
    }

    fn byte(&mut self, x: &mut u8) {
        let mut word = u32::from(*x);
        self.word(&mut word);
        *x = word as u8;
    }

    fn float(&mut self, x: &mut f64) {
        let bits = x.to_bits();
        let [mut high, mut low] = [(bits >> 32) as u32, bits as u32];
        self.word(&mut high);
        self.word(&mut low);
        *x = f64::from_bits(u64::from(high) << 32 | u64::from(low));
    }

    fn list<T: Clone + Default>(&mut self, list: &mut Vec<T>, each: fn(&mut Self, &mut T)) {
        let mut length = list.len() as u32;
        self.word(&mut length);
        list.resize(length as usize, T::default());
        list.iter_mut().for_each(|x| each(self, x));
    }

    /// A list that is lent for answers: only its length.
    fn length(&mut self, list: &mut Vec<u32>) {
        let mut length = list.len() as u32;
        self.word(&mut length);
        *list = filling(length as usize);
    }

    fn surface_and_work(&mut self, call: &mut Call) {
        self.list(&mut call.surface.points, Self::float);
        self.list(&mut call.surface.corners, Self::word);
        self.list(&mut call.surface.labels, Self::byte);
        self.length(&mut call.work);
    }

    fn number_and_place(&mut self, call: &mut Call) {
        self.word(&mut call.number);
        call.place.iter_mut().for_each(|x| self.word(x));
    }
}

/// The line of a vector.
pub fn line(format: Format, before: &Call, after: &Call) -> String {
    let mut list = Vec::new();
    let mut words = Words::Writing(&mut list);
    (format.inputs)(&mut words, &mut before.clone());
    (format.outcome)(&mut words, &mut after.clone());
    let text: Vec<String> = list.iter().map(|word| format!("{word:08x}")).collect();
    text.join(" ") + "\n"
}

/// Runs every vector of a text, and says how many there were.
pub fn replay(format: Format, text: &str, ours: fn(&Call) -> Call) -> Result<usize, String> {
    for (number, line) in text.lines().enumerate() {
        let word = |digits| u32::from_str_radix(digits, 16).expect("a word of a vector");
        let list: Vec<u32> = line.split(' ').map(word).collect();
        let mut words = Words::Reading(&list);
        let mut before = Call::new(Default::default(), 0);
        (format.inputs)(&mut words, &mut before);
        let mut wanted = before.clone();
        (format.outcome)(&mut words, &mut wanted);
        wanted.work = before.work.clone();
        wanted.clear_work();
        ours(&before)
            .difference(&wanted)
            .map_err(|d| format!("vector {number}: {d}"))?;
    }
    Ok(text.lines().count())
}
