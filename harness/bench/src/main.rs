//! Prints the tables of docs/FIGURES.md:
//! `cargo run --release -p bench -- [root] [check] [closing] [edit] [improve] [price] [nearest]
//! [outlines] [sample] [cut]`.
//! Each table sets ours and theirs side by side, measured in this one run; where the original's
//! source was not there, its times are those of doing nothing.
mod check;
mod closing;
mod cut;
mod edit;
mod improve;
mod nearest;
mod outlines;
mod price;
mod root;
mod sample;
mod table;

/// A table's name and what prints it.
const TABLES: [(&str, fn()); 10] = [
    ("root", root::table),
    ("check", check::table),
    ("closing", closing::table),
    ("edit", edit::table),
    ("improve", improve::table),
    ("price", price::table),
    ("nearest", nearest::table),
    ("outlines", outlines::table),
    ("sample", sample::table),
    ("cut", cut::table),
];

fn main() {
    let wanted: Vec<String> = std::env::args().skip(1).collect();
    for (name, print) in TABLES {
        if wanted.is_empty() || wanted.iter().any(|w| w == name) {
            print();
            println!();
        }
    }
}
