//! The Rattle source, the header for C and the declarations for Rust name the same functions, with the same parameters.

use ramikohy::Refusal;
use std::collections::BTreeMap;
use std::path::Path;

/// A function's parameters, a word for each, and its result, in one notation for the three languages: `x: f64`,
/// `a: const f64 3` for an array of three, `list: const u32` and `list_len: usize` for a slice.
type Surface = BTreeMap<String, Vec<String>>;

fn read(file: &str) -> String {
    std::fs::read_to_string(Path::new(env!("CARGO_MANIFEST_DIR")).join("..").join(file)).unwrap()
}

/// Each part of `text` between `head` and the first `end` after it.
fn parts<'a>(text: &'a str, head: &'a str, end: &'a str) -> impl Iterator<Item = &'a str> {
    text.split(head).skip(1).map(move |part| part.split(end).next().unwrap())
}

/// Takes `NAME(PARAMETERS)REST` apart.
fn taken_apart(text: &str) -> (String, Vec<String>, String) {
    let (name, rest) = text.split_once('(').unwrap();
    let (parameters, rest) = rest.rsplit_once(')').unwrap();
    let parameters = parameters.split(',').map(|p| p.trim().to_string()).filter(|p| !p.is_empty()).collect();
    (name.trim().to_string(), parameters, rest.trim().to_string())
}

/// A parameter of Rattle or Rust, `NAME: TYPE`, by C's parameters.
fn by_c(parameter: &str) -> Vec<String> {
    let (name, of) = parameter.split_once(':').unwrap();
    let (name, of) = (name.trim(), of.trim());
    for (start, access) in [("&mut ", "mut"), ("*mut ", "mut"), ("*const ", "const"), ("&", "const")] {
        let Some(behind) = of.strip_prefix(start) else { continue };
        let Some(list) = behind.strip_prefix('[') else { return vec![format!("{name}: {access} {behind}")] };
        return match list.trim_end_matches(']').split_once(';') {
            Some((element, count)) => vec![format!("{name}: {access} {element} {}", count.trim())],
            None => vec![format!("{name}: {access} {}", list.trim_end_matches(']')), format!("{name}_len: usize")],
        };
    }
    vec![format!("{name}: {of}")]
}

/// The functions of a text in the manner of Rust, each after `head`.
fn like_rust(text: &str, head: &str, end: &str) -> Surface {
    let mut surface = Surface::new();
    for part in parts(text, head, end) {
        let (name, parameters, rest) = taken_apart(&part.replace("<'a>", "").replace("&'a ", "&"));
        let mut words: Vec<String> = parameters.iter().flat_map(|p| by_c(p)).collect();
        words.push(rest.trim_start_matches("->").trim().to_string());
        surface.insert(name, words);
    }
    surface
}

fn rust_type(of: &str) -> &str {
    match of {
        "double" => "f64",
        "uint8_t" => "u8",
        "uint32_t" => "u32",
        "int64_t" => "i64",
        "size_t" => "usize",
        "void" => "",
        other => panic!("a type that the header has not had yet: {other}"),
    }
}

/// A parameter of C: `double x`, `int64_t *whole`, `const double a[3]`.
fn c_parameter(parameter: &str) -> String {
    let is_const = parameter.starts_with("const ");
    let (of, name) = parameter.trim_start_matches("const ").split_once(' ').unwrap();
    let access = if is_const { "const" } else { "mut" };
    let of = rust_type(of);
    if let Some(name) = name.strip_prefix('*') {
        return format!("{name}: {access} {of}");
    }
    match name.split_once('[') {
        Some((name, count)) => format!("{name}: {access} {of} {}", count.trim_end_matches(']')),
        None => format!("{name}: {of}"),
    }
}

fn header() -> Surface {
    let text = read("include/ramikohy.h");
    let mut surface = Surface::new();
    for line in text.split(';') {
        let Some(at) = line.find(" ramikohy_") else { continue };
        let (before, from) = line.split_at(at);
        let result = before.split_whitespace().last().unwrap();
        let (name, parameters, _) = taken_apart(from);
        let mut words: Vec<String> = parameters.iter().map(|p| c_parameter(&p.replace('\n', " "))).collect();
        words.push(rust_type(result).to_string());
        surface.insert(name, words);
    }
    surface
}

#[test]
fn the_three_languages_name_the_same_functions() {
    let files = ["lib", "strokes", "meshes", "files", "sheets", "reader"];
    let source = files.map(|file| read(&format!("crates/ramikohy/src/{file}.rt"))).concat();
    let rattle = like_rust(&source, "pub extern \"C\" fn ", "\n    ensures");
    let rust = like_rust(&read("rust/src/c.rs"), "pub fn ", ";\n");
    assert_eq!(rattle.len(), source.matches("#[unsafe(no_mangle)]").count());
    assert_eq!(rattle, rust);
    assert_eq!(rattle, header());
}

#[test]
fn the_three_languages_have_the_same_status_for_none() {
    assert!(read("crates/ramikohy/src/lib.rt").contains("pub const NONE: u32 = 255;"));
    assert!(read("include/ramikohy.h").contains("#define RAMIKOHY_NONE 255\n"));
    assert_eq!(ramikohy::c::NONE, 255);
}

/// The numbers that the header defines by these names.
fn defined(name: &str) -> String {
    let text = read("include/ramikohy.h");
    let head = format!("#define RAMIKOHY_{name} ");
    let lines: Vec<&str> = text.lines().filter_map(|line| line.strip_prefix(&head)).collect();
    let [line] = lines[..] else { panic!("{name} is not defined once") };
    line.split("/*").next().unwrap().trim().to_string()
}

/// A name of the enums as the header writes it: `NoLength` is `NO_LENGTH`.
fn in_capitals(name: &str) -> String {
    let parted = |(at, c): (usize, char)| if at > 0 && c.is_uppercase() { vec!['_', c] } else { vec![c] };
    name.char_indices().flat_map(parted).collect::<String>().to_uppercase()
}

#[test]
fn the_three_languages_have_the_same_refusals() {
    let source = read("crates/refusal/src/lib.rt");
    let arms = parts(&source, "Refusal::", ",").filter_map(|arm| arm.split_once(" => "));
    let numbered: Vec<(&str, u32)> = arms.filter_map(|(name, number)| Some((name, number.parse().ok()?))).collect();
    assert_eq!(numbered.len(), 11);
    for (name, number) in numbered {
        let (name, carries) = name.strip_suffix("(_)").map_or((name, false), |name| (name, true));
        assert_eq!(defined(&in_capitals(name)), number.to_string());
        let refusal = Refusal::of(number, Some(12)).unwrap();
        assert_eq!(format!("{refusal:?}").split(' ').next(), Some(name));
        assert_eq!(refusal.face(), carries.then_some(12), "{name}");
    }
}

#[test]
fn the_header_has_the_limits() {
    let source = read("crates/refusal/src/lib.rt");
    let limits: Vec<&str> = parts(&source, "const MOST_", ";").collect();
    assert_eq!(limits.len(), 5);
    for limit in limits {
        let (name, number) = limit.split_once('=').unwrap();
        let name = name.split(':').next().unwrap();
        assert_eq!(defined(&format!("MOST_{name}")), number.trim(), "{name}");
    }
    // one bound of numbers in the header is three in the source: of coordinates, of matrix entries, of steps and sizes
    let source = read("crates/path/src/lib.rt");
    let bounds: Vec<&str> = parts(&source, "const MOST_", ";").collect();
    assert_eq!(bounds.len(), 3);
    for bound in bounds {
        assert_eq!(defined("MOST_NUMBER"), bound.split_once('=').unwrap().1.trim(), "{bound}");
    }
}
