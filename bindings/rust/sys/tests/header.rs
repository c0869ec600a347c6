//! Compares the text of the declarations, and the version of the crates, with the header in `include` at the root
//! of the repository, next to the library, or where `./install` puts it; and the layouts that the crate asserts with
//! `packaging/abi`.

use std::fs;
use std::path::Path;

const OURS: &str = concat!(include_str!("../src/lib.rs"), include_str!("../src/types.rs"));

/// The text of each header that exists, without its comments.
fn headers() -> Vec<String> {
    let include = Path::new(env!("CARGO_MANIFEST_DIR")).join("../../../include");
    let library = Path::new(env!("SYNICBOARD_LIB_DIR"));
    let folders = [include, library.to_path_buf(), library.join("../include")];
    let texts = folders.each_ref().map(|folder| fs::read_to_string(folder.join("synicboard.h")).ok());
    let found: Vec<_> = texts.iter().flatten().map(|text| without_comments(text)).collect();
    assert!(!found.is_empty(), "there is no synicboard.h in any of {folders:?}");
    found
}

fn without_comments(text: &str) -> String {
    let behind = |part: &'_ str| part.split_once("*/").map_or("", |(_, rest)| rest).to_string();
    let mut parts = text.split("/*");
    let first = parts.next().unwrap_or_default().to_string();
    parts.fold(first, |kept, part| kept + &behind(part))
}

/// The text between each `open` and the next `close`, with white space collapsed.
fn between(text: &str, open: &str, close: &str) -> Vec<String> {
    let parts = text.split(open).skip(1).filter_map(|part| part.split_once(close));
    parts.map(|(part, _)| part.split_whitespace().collect::<Vec<_>>().join(" ")).collect()
}

/// The items of a list that ends with its separator or does not.
fn items(list: &str, separator: char) -> impl Iterator<Item = &str> {
    list.split(separator).map(str::trim).filter(|item| !item.is_empty())
}

/// A name and its list, in the form in which both texts are compared.
fn listed(name: &str, list: impl Iterator<Item = String>) -> String {
    format!("{name} {}", list.collect::<Vec<_>>().join(", "))
}

/// Translates `const uint8_t *bytes` to Rust: `bytes: *const u8`.
fn translated(declaration: &str) -> String {
    let (front, array) = declaration.split_once('[').unwrap_or((declaration, ""));
    let written = front.trim_end_matches(|letter: char| letter.is_alphanumeric() || letter == '_');
    let name = &front[written.len()..];
    let outer = if written.contains("*const ") { "*const " } else { "*mut " };
    let word = written.trim_start_matches("const ").replace("*const", "");
    let word = word.trim_end_matches([' ', '*']);
    let number = word.strip_prefix("uint").and_then(|word| word.strip_suffix("_t"));
    let word = match word {
        "void" => "c_void".to_string(),
        "char" => "c_char".to_string(),
        "size_t" => "usize".to_string(),
        word => number.map_or(word.to_string(), |bits| format!("u{bits}")),
    };
    let pointer = if written.starts_with("const ") { "*const " } else { "*mut " };
    let kind = match written.matches('*').count() {
        0 if array.is_empty() => word,
        0 => format!("[{word}; {array}"),
        1 => format!("{pointer}{word}"),
        _ => format!("{outer}{pointer}{word}"),
    };
    format!("{name}: {kind}")
}

/// Each `NAME number` of a header, sorted.
fn constants_of_header(text: &str) -> Vec<String> {
    let lists = between(text, "\nenum ", "}");
    let named: Vec<_> = lists.iter().filter_map(|list| Some(list.split_once('{')?.1)).collect();
    let named = named.join(",").replace(" = ", " ");
    let defined = between(text, "#define ", "\n");
    let is_number = |item: &&String| item.ends_with(|last: char| last.is_ascii_digit());
    let defined = defined.iter().filter(is_number).map(String::as_str);
    let mut found: Vec<_> = items(&named, ',').chain(defined).map(str::to_string).collect();
    found.sort();
    found
}

fn constants_of_ours() -> Vec<String> {
    let found = between(OURS, "pub const ", ";");
    let parted = found.iter().filter_map(|item| Some((item.split_once(':')?.0, item.split_once(" = ")?.1)));
    let numbers = parted.filter(|(_, value)| !value.contains('{'));
    let mut found: Vec<_> = numbers.map(|(name, value)| format!("{name} {value}")).collect();
    found.sort();
    found
}

/// Each struct of a header and its fields, in order.
fn structs_of_header(text: &str) -> Vec<String> {
    let found = between(text, "typedef struct ", "} ");
    let parted = found.iter().filter_map(|item| item.split_once(" {"));
    parted.map(|(name, fields)| listed(name, items(fields, ';').map(translated))).collect()
}

fn structs_of_ours(ours: &str) -> Vec<String> {
    let found = between(ours, "pub struct ", "}");
    let parted = found.iter().filter_map(|item| item.split_once(" {"));
    let own = |field: &str| field.trim_start_matches("pub ").to_string();
    parted.map(|(name, fields)| listed(name, items(fields, ',').map(own))).collect()
}

/// Each call of a header, which must be on one line, with its result and parameters.
fn calls_of_header(text: &str) -> Vec<String> {
    let found = text.lines().filter_map(|line| line.strip_suffix(");")?.split_once('('));
    let answer = |front| translated(front).replace(": c_void", "");
    let parameters = |taken| items(taken, ',').filter(|item| *item != "void").map(translated);
    found.map(|(front, taken)| listed(&answer(front), parameters(taken))).collect()
}

fn calls_of_ours(ours: &str) -> Vec<String> {
    let found = between(ours, "pub fn ", ";");
    let parted = found.iter().filter_map(|item| {
        let (name, rest) = item.split_once('(')?;
        let (taken, answer) = rest.split_once(')')?;
        Some((name.to_string() + &answer.replace(" -> ", ": "), taken))
    });
    parted.map(|(front, taken)| listed(&front, items(taken, ',').map(str::to_string))).collect()
}

/// Each struct of `packaging/abi`, which the C compiler wrote: its size, its alignment, and the offset of each
/// field.
fn layouts_of_c(text: &str) -> Vec<String> {
    let mut found: Vec<String> = Vec::new();
    for line in text.lines() {
        match *line.split(' ').collect::<Vec<_>>().as_slice() {
            ["struct", name, "size", size, "alignment", alignment] => {
                found.push(format!("{name}: {size}, {alignment} {{"));
            }
            ["field", field, _, "offset", at] => {
                let (_, name) = field.split_once('.').unwrap();
                *found.last_mut().unwrap() += &format!(" {name}: {at},");
            }
            _ => {}
        }
    }
    found
}

fn layouts_of_ours() -> Vec<String> {
    let list = include_str!("../src/layout.rs").split_once("layouts! {").unwrap().1;
    let structs = list.split('}').map(|item| item.split_whitespace().collect::<Vec<_>>().join(" "));
    structs.filter(|item| !item.is_empty()).map(|item| item.trim_end_matches(',').to_string() + ",").collect()
}

#[test]
fn both_crates_have_the_version_of_the_header() {
    let manifests = [include_str!("../Cargo.toml"), include_str!("../../Cargo.toml")];
    for header in headers() {
        let numbers = ["MAJOR", "MINOR", "PATCH"].map(|part| {
            let found = between(&header, &format!("#define SYNICBOARD_VERSION_{part}"), "\n");
            assert_eq!(found.len(), 1, "{part}");
            found[0].clone()
        });
        for manifest in manifests {
            assert_eq!(between(manifest, "\nversion = \"", "\""), [numbers.join(".")]);
        }
    }
}

#[test]
fn each_declaration_is_that_of_the_header() {
    let is_code = |line: &&str| !line.trim_start().starts_with("//");
    let ours = OURS.lines().filter(is_code).collect::<Vec<_>>().join("\n");
    let (constants, structs, calls) = (constants_of_ours(), structs_of_ours(&ours), calls_of_ours(&ours));
    assert!(constants.len() > 60 && structs.len() > 7 && calls.len() > 30);
    for header in headers() {
        assert_eq!(constants_of_header(&header), constants);
        assert_eq!(structs_of_header(&header), structs);
        assert_eq!(calls_of_header(&header), calls);
    }
}

#[test]
fn each_struct_has_the_layout_of_c() {
    let stored = Path::new(env!("CARGO_MANIFEST_DIR")).join("../../../packaging/abi");
    // The package has no such file. What the crate asserts is the same there.
    let Ok(stored) = fs::read_to_string(stored) else { return };
    assert!(layouts_of_ours().len() > 7);
    assert_eq!(layouts_of_c(&stored), layouts_of_ours());
}
