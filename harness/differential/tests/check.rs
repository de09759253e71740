//! Checking beside the model and the original: verdicts, both numbers' bits, every list.
use differential::{
    cases,
    checking::{self, check},
    note_absence, report,
    surfaces::{Surface, tetrahedron, touching},
};
use lanovishel::{Measured, Refusal};

#[test]
fn random_calls() {
    note_absence();
    let mut numbers = Vec::new();
    let runs = cases(20_000, |random| {
        let call = checking::random_call(random);
        let wanted = checking::model(&call);
        checking::compare_with_original(&wanted)?;
        numbers.push(wanted.number);
        checking::ours(&call).difference(&wanted)
    });
    println!("{runs} calls of checking");
    let all = [0, 1, 2, 3, 4, 5, 6, 8, 31, 32, 33];
    report("number", &all, &numbers, runs / 500);
}

#[test]
fn starred_cases() {
    let accepted = check(&tetrahedron()).unwrap();
    assert_eq!(accepted.quality.to_bits(), 0x3feb_b67a_e858_4caa);
    assert_eq!(accepted.volume.to_bits(), 0x3fc5_5555_5555_5555);

    let mut open = tetrahedron();
    open.remove(3);
    assert_eq!(check(&open), Err(Refusal::Lone { from: 1, to: 3 }));

    let mut turned = tetrahedron();
    turned.reverse();
    assert_eq!(check(&turned), Err(Refusal::NoVolume));

    let nothing = Measured {
        quality: 0.0,
        volume: 0.0,
    };
    assert_eq!(check(&Surface::default()), Ok(nothing));

    assert_eq!(check(&touching()), Err(Refusal::Split { corner: 0 }));
}
