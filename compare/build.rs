//! Slices the named items out of the Rust's orbit.rs, writes them once more with another tolerance, and names our static library to the linker.
//!
//! ORBIT_SOURCE is the folder that holds src/orbit.rs, ORBIT_LIBRARY the path of our library.

use std::path::{Path, PathBuf};
use std::{env, fs};

/// The header lines of the items that are taken whole, each at the start of a line.
const ITEMS: [&str; 12] = [
    "pub struct Sp3Coordinate {",
    "pub struct SatelliteOrbit {",
    "impl SatelliteOrbit {",
    "pub struct ChebyshevOrbit {",
    "impl ChebyshevOrbit {",
    "fn invert_matrix_10(",
    "fn evaluate_chebyshev(",
    "pub fn estimate_slant_range(",
    "pub fn downsample_data(",
    "pub fn estimate_measured_pca_time(",
    "pub fn find_pca_time(",
    "pub fn fit_satellite(",
];

/// Where an even window is told from an uneven one: the only line of the text that is another in the second.
const TOLERANCE: [&str; 2] = [
    "            if (tk1 - tk - dt_expected).abs() > 1.0 {\n",
    "            if (tk1 - tk - dt_expected).abs() > tolerance_in_use() {\n",
];

/// The words that are struck out of the attributes above an item.
const STRUCK_OUT: [&str; 2] = [", serde::Serialize", ", serde::Deserialize"];

fn main() {
    let source = path_in("ORBIT_SOURCE").join("src/orbit.rs");
    println!("cargo::rerun-if-changed={}", source.display());
    let text = fs::read_to_string(&source)
        .unwrap_or_else(|error| panic!("cannot read {}: {error}", source.display()));
    let whole: String = ITEMS.iter().map(|header| slice(&text, header)).collect();
    let sliced = whole + &orbit_model(&text) + &steepest_slope(&text) + &parse_sp3_file(&text);
    write("orbit_sliced.rs", &sliced);
    write("orbit_by_tolerance.rs", &by_tolerance(&sliced));
    link(&path_in("ORBIT_LIBRARY"));
}

/// Writes a file for the build.
fn write(name: &str, text: &str) {
    let output = path_in("OUT_DIR").join(name);
    fs::write(&output, text)
        .unwrap_or_else(|error| panic!("cannot write {}: {error}", output.display()));
}

/// The path that an environment variable holds.
fn path_in(name: &str) -> PathBuf {
    println!("cargo::rerun-if-env-changed={name}");
    PathBuf::from(env::var_os(name).unwrap_or_else(|| panic!("{name} is not set; use compare/run")))
}

/// Links our library into the judge alone: the program that writes the cases never sees it.
fn link(library: &Path) {
    println!("cargo::rerun-if-changed={}", library.display());
    println!("cargo::rustc-link-arg-bin=compare={}", library.display());
}

/// One item with the attributes above it, from its header to the brace that closes it.
fn slice(text: &str, header: &str) -> String {
    let start = only_line_starting_with(text, header);
    let end = start + length_to_closing_brace(&text[start..], header);
    assert!(
        text[..end].ends_with("\n}"),
        "`{header}` is not closed at the start of a line"
    );
    format!(
        "{}{}\n\n",
        attributes_above(&text[..start]),
        &text[start..end]
    )
}

/// The orbit model with the arm of the tabulated orbit alone, and of its methods the one that propagates.
fn orbit_model(text: &str) -> String {
    let model = slice(text, "pub enum OrbitModel {");
    let methods = slice(text, "impl OrbitModel {");
    let propagation = part(&methods, "    pub fn propagate_ecef(");
    format!(
        "{}impl OrbitModel {{\n{}\n}}\n\n",
        without_arm(&model, "    Sgp4 {"),
        without_arm(
            propagation,
            "            OrbitModel::Sgp4 { elements, constants } => {"
        )
    )
}

/// The block that works out the steepest slope, made a function of the samples.
fn steepest_slope(text: &str) -> String {
    let block = part(text, "        let mut min_slope = 0.0;");
    format!("fn min_slope(data: &[(DateTime<Utc>, f64)]) -> f64 {{\n{block}\n    min_slope\n}}\n")
}

/// The reader of orbit files, made to read a lent slice instead of the file of a path.
fn parse_sp3_file(text: &str) -> String {
    let reader = slice(text, "pub fn parse_sp3_file(");
    let changes = [
        ["path: &str", "bytes: &[u8]"],
        ["    use std::fs::File;\n", ""],
        ["File::open(path)?", "bytes"],
    ];
    changes.iter().fold(reader, |reader, [words, instead]| {
        replaced(&reader, words, instead)
    })
}

/// The sliced text in which the model's tolerance is the one in use; nothing else is another.
fn by_tolerance(sliced: &str) -> String {
    let [words, instead] = TOLERANCE;
    let model = part(sliced, "    pub fn get_chebyshev_model(");
    replaced(sliced, model, &replaced(model, words, instead))
}

/// The text with these words, which must stand in it exactly once, replaced.
fn replaced(text: &str, words: &str, instead: &str) -> String {
    let count = text.matches(words).count();
    assert!(count == 1, "`{words}` stands {count} times in the text");
    text.replace(words, instead)
}

/// The text from the one line that starts with the header to the brace that closes the first one after it.
fn part<'a>(text: &'a str, header: &str) -> &'a str {
    let start = only_line_starting_with(text, header);
    let rest = &text[start..];
    &rest[..length_to_closing_brace(rest, header)]
}

/// The text without the arm whose first line starts with the header, which ends in the arm's opening brace.
fn without_arm(text: &str, header: &str) -> String {
    let start = only_line_starting_with(text, header);
    let brace = start + header.len() - 1;
    let end = brace + length_to_closing_brace(&text[brace..], header);
    let rest = text[end..].trim_start_matches(',');
    format!("{}{}", &text[..start], rest.trim_start_matches('\n'))
}

/// Where the one line begins that starts with the header.
fn only_line_starting_with(text: &str, header: &str) -> usize {
    let mut places = text
        .match_indices(header)
        .map(|(place, _)| place)
        .filter(|&place| place == 0 || text[..place].ends_with('\n'));
    let place = places
        .next()
        .unwrap_or_else(|| panic!("`{header}` is not in orbit.rs"));
    assert!(
        places.next().is_none(),
        "`{header}` stands twice in orbit.rs"
    );
    place
}

/// The bytes up to and with the brace that closes the first one; strings and line comments are passed over.
fn length_to_closing_brace(text: &str, header: &str) -> usize {
    let bytes = text.as_bytes();
    let mut depth = 0;
    let mut at = 0;
    while at < bytes.len() {
        match bytes[at] {
            b'"' => at += string_length(&bytes[at..]) - 1,
            b'/' if bytes[at..].starts_with(b"//") => at += line_length(&bytes[at..]) - 1,
            b'{' => depth += 1,
            b'}' if depth == 1 => return at + 1,
            b'}' => depth -= 1,
            _ => {}
        }
        at += 1;
    }
    panic!("`{header}` is never closed");
}

/// The length of the string literal that begins here, both quotes counted.
fn string_length(bytes: &[u8]) -> usize {
    let mut at = 1;
    while bytes[at] != b'"' {
        at += if bytes[at] == b'\\' { 2 } else { 1 };
    }
    at + 1
}

/// The length of the rest of the line, without its line feed.
fn line_length(bytes: &[u8]) -> usize {
    bytes
        .iter()
        .position(|&byte| byte == b'\n')
        .unwrap_or(bytes.len())
}

/// The attribute lines that stand directly above an item, with the words of serde struck out.
fn attributes_above(text: &str) -> String {
    let above: Vec<&str> = text
        .lines()
        .rev()
        .take_while(|line| line.starts_with("#["))
        .collect();
    above
        .iter()
        .rev()
        .map(|line| strike_out(line) + "\n")
        .collect()
}

/// The line without the words that are struck out.
fn strike_out(line: &str) -> String {
    STRUCK_OUT
        .iter()
        .fold(line.to_string(), |line, word| line.replace(word, ""))
}
