//! Cuts the items that cut.txt lists out of verifier.rs, unchanged, into `cut.rs` of the build's own folder.

use std::path::{Path, PathBuf};
use std::process::Command;
use std::{env, fs};

const VERIFIER: &str = "lang/crates/vo-common-core/src/verifier.rs";

struct Item<'a> {
    first: usize,
    last: usize,
    name: &'a str,
    unit: bool,
}

fn main() {
    let here = PathBuf::from(env::var_os("CARGO_MANIFEST_DIR").unwrap());
    let out = PathBuf::from(env::var_os("OUT_DIR").unwrap());
    let source = find(here.parent().unwrap());
    println!("cargo:rerun-if-env-changed=VOLANG_SRC");
    println!("cargo:rerun-if-changed=cut.txt");
    println!("cargo:rerun-if-changed={}", source.display());
    let manifest = fs::read_to_string(here.join("cut.txt")).unwrap();
    let (wanted, items) = read(&manifest);
    let found = sha256(&source);
    assert!(found == wanted, "{} is refused: its sha256 is {found}, cut.txt wants {wanted}", source.display());
    let text = fs::read_to_string(&source).unwrap();
    let lines: Vec<&str> = text.split_inclusive('\n').collect();
    let all: String = items.iter().map(|item| cut(&lines, item)).collect();
    let units: String = items.iter().filter(|item| item.unit).map(|item| cut(&lines, item)).collect();
    fs::write(out.join("cut.rs"), all).unwrap();
    fs::write(out.join("units.rs"), units).unwrap();
}

/// Where VOLANG_SRC says, at docs/src of the repository, and at ../shared/docs/src.
fn find(repository: &Path) -> PathBuf {
    let named = env::var_os("VOLANG_SRC").map(PathBuf::from);
    let places = named.into_iter().chain([repository.join("docs/src"), repository.join("../shared/docs/src")]);
    let mut files = places.map(|place| place.join(VERIFIER));
    files.find(|file| file.is_file()).expect("verifier.rs is in none of $VOLANG_SRC, docs/src, ../shared/docs/src")
}

fn read(manifest: &str) -> (&str, Vec<Item<'_>>) {
    let mut lines = manifest.lines().filter(|line| !line.starts_with('#'));
    let wanted = lines.next().and_then(|line| line.strip_prefix("sha256 ")).expect("cut.txt begins with the sha256");
    (wanted, lines.map(item).collect())
}

fn item(line: &str) -> Item<'_> {
    let (line, unit) = line.strip_suffix(" unit").map_or((line, false), |rest| (rest, true));
    let mut words = line.splitn(3, ' ');
    let mut number = || words.next().unwrap().parse().expect("a line number");
    let (first, last) = (number(), number());
    Item { first, last, name: words.next().unwrap(), unit }
}

fn cut(lines: &[&str], item: &Item<'_>) -> String {
    let text = lines[item.first - 1..item.last].concat();
    let defined = text.lines().any(|line| line.starts_with(item.name));
    assert!(defined, "lines {} to {} do not define {}", item.first, item.last, item.name);
    text
}

fn sha256(file: &Path) -> String {
    let sum = Command::new("sha256sum").arg(file).output().expect("sha256sum runs");
    assert!(sum.status.success(), "sha256sum failed on {}", file.display());
    String::from_utf8(sum.stdout).unwrap().split(' ').next().unwrap().to_string()
}
