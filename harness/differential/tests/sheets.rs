//! The programs `check_sheet` and `convert_sheet`, run on each sheet of the folder `sheets` in both
//! editions: a folder for each verdict, and beside an accepted sheet the output that it must have.
use differential::sheets::{FIRST, SECOND, in_the_second, malformed_in_the_second, read};
use std::{
    env,
    ffi::OsStr,
    fs::{self, File},
    path::{Path, PathBuf},
    process::{Command, Stdio},
    sync::LazyLock,
};

/// A program with the variable that may name it.
type Named = (&'static str, &'static str);

const CHECK: Named = ("check_sheet", "LANOVISHEL_CHECK_SHEET");
const CONVERT: Named = ("convert_sheet", "LANOVISHEL_CONVERT_SHEET");

/// The two programs: one is built after the other.
static PROGRAMS: LazyLock<[PathBuf; 2]> = LazyLock::new(|| [CHECK, CONVERT].map(program));

/// The program that the variable names, or else proved and built by `tools/build`.
fn program((name, variable): Named) -> PathBuf {
    if let Some(ready) = env::var_os(variable) {
        return ready.into();
    }
    let project = Path::new(env!("CARGO_MANIFEST_DIR")).join("../..");
    let proved = Command::new(project.join("tools/build"))
        .arg(name)
        .output()
        .expect("tools/build is in the project");
    let said = String::from_utf8_lossy(&proved.stderr);
    assert!(
        proved.status.success(),
        "{}",
        said.lines().last().unwrap_or_default()
    );
    project.join("target/bin").join(name)
}

/// What `check_sheet` writes of a text.
fn check(text: &[u8]) -> String {
    String::from_utf8(run(&PROGRAMS[0], &[], text)).unwrap()
}

/// What `convert_sheet` writes of a text.
fn convert(text: &[u8], arguments: &[&str]) -> Vec<u8> {
    run(&PROGRAMS[1], arguments, text)
}

/// What a program writes, with the text as its standard input.
fn run(program: &Path, arguments: &[&str], text: &[u8]) -> Vec<u8> {
    let input = input(text);
    let mut command = Command::new(program);
    let output = command.args(arguments).stdin(input).output().unwrap();
    let shown = || String::from_utf8_lossy(text);
    assert!(output.status.success(), "{}", shown());
    assert!(output.stderr.is_empty(), "{}", shown());
    output.stdout
}

/// A file with the text, which has no name any more.
fn input(text: &[u8]) -> Stdio {
    let thread = std::thread::current().id();
    let name = format!("{}-{thread:?}.sheet", std::process::id());
    let path = Path::new(env!("CARGO_TARGET_TMPDIR")).join(name);
    fs::write(&path, text).unwrap();
    let file = File::open(&path).unwrap();
    fs::remove_file(&path).unwrap();
    file.into()
}

/// The output of `check_sheet` for a verdict other than 0.
fn refused(verdict: &str) -> String {
    let zeros = "0".repeat(16);
    format!("verdict quality volume\n{verdict} {zeros} {zeros}\n")
}

fn wanted_output(sheet: &Path, verdict: &str) -> String {
    match verdict {
        "0" => fs::read_to_string(sheet.with_extension("out")).unwrap(),
        _ => refused(verdict),
    }
}

fn files(folder: &Path) -> impl Iterator<Item = PathBuf> {
    fs::read_dir(folder)
        .unwrap()
        .map(|entry| entry.unwrap().path())
}

/// A sheet of the folder.
struct Sheet {
    file: PathBuf,
    verdict: String,
    /// In the first edition and in the second.
    texts: [Vec<u8>; 2],
}

/// Every sheet of the folder.
fn sheets() -> Vec<Sheet> {
    let mut sheets = Vec::new();
    for folder in files(&Path::new(env!("CARGO_MANIFEST_DIR")).join("sheets")) {
        let verdict = folder.file_name().unwrap().to_str().unwrap();
        for file in files(&folder).filter(|file| file.extension() == Some(OsStr::new("sheet"))) {
            let first = fs::read(&file).unwrap();
            let second = match verdict {
                "16" => malformed_in_the_second(&first),
                _ => in_the_second(&first),
            };
            sheets.push(Sheet {
                file,
                verdict: verdict.to_string(),
                texts: [first, second],
            });
        }
    }
    println!("{} sheets", sheets.len());
    assert!(!sheets.is_empty());
    sheets
}

#[test]
fn each_sheet_has_its_output() {
    for sheet in sheets() {
        let wanted = wanted_output(&sheet.file, &sheet.verdict);
        for text in &sheet.texts {
            assert_eq!(check(text), wanted, "{}", sheet.file.display());
        }
    }
}

/// From either edition to either: a sheet becomes its other text, or stays as it is; what is no sheet
/// is told to be none.
#[test]
fn each_sheet_is_converted() {
    for sheet in sheets() {
        let [first, second] = &sheet.texts;
        let wanted = match &sheet.verdict[..] {
            "16" => [&b"16\n"[..]; 2],
            _ => [&first[..], second],
        };
        for text in [first, second] {
            for (edition, wanted) in ["1", "2"].into_iter().zip(wanted) {
                let written = convert(text, &[edition]);
                assert!(written == wanted, "{edition}: {}", sheet.file.display());
            }
        }
    }
}

/// The tetrahedron of document 01 with legs of 1 unit of the second edition, 2^-16: its quality is the
/// same, and its volume 2^-48 times that of the other.
const FINEST: &[u8] = b"edition points triangles
2 4 4
x y z
0 0 0
1 0 0
0 1 0
0 0 1
a b c label
0 2 1 0
0 1 3 0
0 3 2 0
1 2 3 0
";

#[test]
fn finer_than_the_first() {
    assert_eq!(
        check(FINEST),
        "verdict quality volume\n0 3febb67ae8584caa 3cc5555555555555\n"
    );
    assert_eq!(convert(FINEST, &["1"]), b"38\n");
    assert_eq!(convert(FINEST, &["2"]), FINEST);
    let [behind, cut] = [[FINEST, b"\n"].concat(), FINEST[..30].to_vec()];
    for text in [behind, cut] {
        assert_eq!(check(&text), refused("16"));
        assert_eq!(convert(&text, &["1"]), b"16\n");
    }
}

/// The longest sheet of each edition, and one byte more.
#[test]
fn the_longest() {
    let longest = Path::new(env!("CARGO_MANIFEST_DIR")).join("sheets/5/longest.sheet");
    let first = fs::read(longest).unwrap();
    let second = in_the_second(&first);
    assert_eq!([first.len(), second.len()], [12_203, 12_981]);
    for text in [&first, &second] {
        assert_eq!(check(text), refused("5"));
        assert_eq!(convert(text, &["1"]), first);
        assert_eq!(convert(text, &["2"]), second);
        for behind in [&b"0"[..], b"\n", b"\0", &[b'0'; 20_000]] {
            let text = [&text[..], behind].concat();
            assert_eq!(check(&text), refused("16"));
            for edition in ["1", "2"] {
                assert_eq!(convert(&text, &[edition]), b"16\n");
            }
        }
    }
}

/// Whatever is neither 1 nor 2 is no edition, and so is nothing.
#[test]
fn arguments() {
    let sheets = [FINEST.to_vec(), fs::read(example("octahedron")).unwrap()];
    let no_editions = [
        "",
        "0",
        "3",
        "4",
        "10",
        "11",
        "12",
        "20",
        "21",
        "22",
        "01",
        "02",
        "+1",
        "-1",
        "1 ",
        " 1",
        "1.",
        "2\n",
        "1\t",
        "x",
        "one",
        "first",
        "edition",
        "\u{661}",
        "257",
        "4294967297",
        "18446744073709551617",
    ];
    for text in &sheets {
        assert!(read(text).is_some());
        assert_eq!(convert(text, &[]), b"16\n");
        for argument in no_editions {
            assert_eq!(convert(text, &[argument]), b"16\n", "{argument:?}");
        }
    }
}

fn example(name: &str) -> PathBuf {
    let examples = Path::new(env!("CARGO_MANIFEST_DIR")).join("../../examples");
    examples.join(name).with_extension("sheet")
}

/// The octahedron among the examples, in both editions.
#[test]
fn examples() {
    let [first, second] =
        ["octahedron", "fine_octahedron"].map(|name| fs::read(example(name)).unwrap());
    assert_eq!(read(&first).unwrap().0, &FIRST);
    assert_eq!(read(&second).unwrap().0, &SECOND);
    assert_eq!(convert(&first, &["2"]), second);
    assert_eq!(convert(&second, &["1"]), first);
    let sheet = Path::new(env!("CARGO_MANIFEST_DIR")).join("sheets/0/octahedron.sheet");
    let wanted = wanted_output(&sheet, "0");
    assert_eq!([first, second].map(|text| check(&text)), [&wanted[..]; 2]);
}
