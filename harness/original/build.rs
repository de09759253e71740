//! Takes the original's source from the folder that `LANOVISHEL_ORIGINAL` names, or from
//! ../shared/docs/src beside the project, and makes document 01's edits and those that hand out
//! what `extract` samples and solves. Each edit must match exactly once. Where no source is there,
//! the cfg `original` is not set.
use std::{
    env, fs,
    path::{Path, PathBuf},
};

const BESIDE: &str = "../../../shared/docs/src/crates/meshers-core/src";

/// The improver's rounds end without the two passes of smoothing.
const NO_SMOOTHING: [&str; 2] = [
    "        smooth_impl(mesh, band, 2, true)?;",
    "        smooth_impl(mesh, band, 0, true)?;",
];

/// A side of a piece of just four corners is not collapsed.
const SKIP: [&str; 2] = [
    "        if let Some((keep, remove, _)) = best {",
    "        if best.is_some() && crate::skips(&mesh.faces, &removed, a) {
            continue;
        }
        if let Some((keep, remove, _)) = best {",
];

/// `extract` ends where it has its keys, and hands out what it has then.
const SAMPLES: [&str; 2] = [
    "pub fn extract<F: ScalarField>(band: &Band<'_, F>, cells: usize) -> Result<TriangleMesh> {",
    "pub fn extract<F: ScalarField>(band: &Band<'_, F>, cells: usize) -> Result<crate::Samples> {",
];

/// What follows the keys, and the end that stands for it and for all that is behind.
const KEYS: [&str; 2] = [
    "    let roots = lattice\n",
    "    Ok(crate::Samples {
        grid: lattice.grid,
        values: lattice.values,
        keys: lattice.keys,
    })
}
",
];

/// `extract` ends where it has its roots, and hands out what it has then.
const SOLVES: [&str; 2] = [
    SAMPLES[0],
    "pub fn extract<F: ScalarField>(band: &Band<'_, F>, cells: usize) -> Result<crate::Solved<Vec<Root>>> {",
];

/// What follows the roots, and the end that stands for it and for all that is behind.
const ROOTS: [&str; 2] = [
    "    // Nodes become vertices when a cap keeps them",
    "    Ok(crate::Solved {
        samples: crate::Samples {
            grid: lattice.grid,
            values: lattice.values,
            keys: lattice.keys,
        },
        roots,
    })
}
",
];

/// A root can be looked at.
const ROOT: [&str; 2] = ["\nenum Root {", "\npub enum Root {"];

/// Every edge has its own root or error, and how many values of the field that took.
const EACH: [[&str; 2]; 3] = [
    [
        "-> Result<crate::Solved<Vec<Root>>> {",
        "-> Result<crate::Solved<Vec<(Result<Root>, u64)>>> {",
    ],
    [
        "        .map(|&(a, d, label)| lattice.solve(a, a + offsets[d as usize], label))",
        "        .map(|&(a, d, label)| {
            crate::field::counted(|| lattice.solve(a, a + offsets[d as usize], label))
        })",
    ],
    [
        "        .collect::<Result<Vec<_>>>()?;
    band.field.check().map_err(MeshingError::GenerationFailed)?;
    Ok(crate::Solved {",
        "        .collect::<Vec<_>>();
    Ok(crate::Solved {",
    ],
];

fn main() {
    println!("cargo::rustc-check-cfg=cfg(original)");
    println!("cargo::rerun-if-env-changed=LANOVISHEL_ORIGINAL");
    let named = env::var_os("LANOVISHEL_ORIGINAL").map(PathBuf::from);
    let beside = Path::new(env!("CARGO_MANIFEST_DIR")).join(BESIDE);
    let source = named.clone().unwrap_or(beside);
    println!("cargo::rerun-if-changed={}", source.display());
    if named.is_none() && !source.is_dir() {
        println!("cargo::warning=no source of the original: the vectors stand in for it");
        return;
    }
    let [error, quads, triangles] = ["error.rs", "quads.rs", "triangles.rs"].map(|name| {
        let path = source.join(name);
        fs::read_to_string(&path).unwrap_or_else(|e| panic!("{}: {e}", path.display()))
    });
    let oracle = edited(&triangles, NO_SMOOTHING);
    let skipping = edited(&oracle, SKIP);
    let sampling = ended(&edited(&triangles, SAMPLES), KEYS);
    let solving = ended(&edited(&edited(&triangles, SOLVES), ROOT), ROOTS);
    let cutting = EACH
        .into_iter()
        .fold(solving.clone(), |text, edit| edited(&text, edit));
    let texts = [error, quads, oracle, skipping, sampling, solving, cutting];
    let folder = PathBuf::from(env::var_os("OUT_DIR").unwrap());
    let mut modules = String::new();
    let names = [
        "error", "quads", "oracle", "skipping", "sampling", "solving", "cutting",
    ];
    for (name, text) in names.iter().zip(texts) {
        let path = folder.join(format!("{name}.rs"));
        fs::write(&path, text).unwrap();
        modules += &format!("#[allow(warnings, clippy::all)]\n#[path = {path:?}]\nmod {name};\n");
    }
    fs::write(folder.join("modules.rs"), modules).unwrap();
    println!("cargo::rustc-cfg=original");
}

fn edited(text: &str, [from, to]: [&str; 2]) -> String {
    let (before, behind) = around(text, from);
    [before, to, behind].concat()
}

fn ended(text: &str, [from, end]: [&str; 2]) -> String {
    let (before, _) = around(text, from);
    [before, end].concat()
}

/// What is before and behind the only match of an edit.
fn around<'a>(text: &'a str, from: &str) -> (&'a str, &'a str) {
    let found = text.matches(from).count();
    assert!(
        found == 1,
        "an edit must match once and matches {found} times:\n{from}"
    );
    text.split_once(from).unwrap()
}
