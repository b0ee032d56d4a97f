//! Holds the declarations for Rust and C against the functions that the Rattle source exports: names, parameters, sizes and
//! results. A planted drift of each kind is found.
use koyandefa::Refusal;
use std::collections::BTreeMap;
use std::fs;
use std::path::Path;

type Signatures = BTreeMap<String, String>;
/// Names, each with the number that it stands for.
type Numbers = BTreeMap<String, String>;

fn text(path: &str) -> String {
    let path = Path::new(env!("CARGO_MANIFEST_DIR")).join(path);
    fs::read_to_string(&path).unwrap_or_else(|e| panic!("{}: {e}", path.display()))
}

fn rattle_source() -> String {
    let folders = ["telegrams", "strict", "stations", "diagnostics", "settings", "link", "guarded"]
        .map(|name| Path::new(env!("CARGO_MANIFEST_DIR")).join(format!("../../crates/exports_{name}_c/src")));
    let files = folders.iter().flat_map(|f| fs::read_dir(f).unwrap_or_else(|e| panic!("{}: {e}", f.display())));
    files.map(|file| fs::read_to_string(file.unwrap().path()).unwrap()).collect()
}

fn words(s: &str) -> String {
    s.split_whitespace().collect::<Vec<_>>().join(" ")
}

/// Each declaration as (name, what stands in its brackets, what follows up to the end).
fn declarations<'a>(source: &'a str, start: &str, end: char) -> Vec<(&'a str, Vec<String>, String)> {
    let mut found = Vec::new();
    for (at, _) in source.match_indices(start) {
        let rest = &source[at + start.len()..];
        let (name, rest) = rest.split_once('(').unwrap();
        let (inside, rest) = rest.split_once(')').unwrap();
        let parameters = inside.split(',').map(words).filter(|p| !p.is_empty()).collect();
        found.push((name, parameters, words(rest.split(end).next().unwrap())));
    }
    found
}

/// A pointer and its length make one slice: `x: SLICE`, `x_len: usize`.
fn joined(parameters: Vec<(String, String)>) -> String {
    let mut out: Vec<String> = Vec::new();
    let mut open: Option<String> = None;
    for (name, kind) in parameters {
        match open.take() {
            Some(slice) if name == format!("{slice}_len") && kind == "usize" => continue,
            Some(slice) => out.push(format!("a length after {slice} is missing")),
            None => {}
        }
        if kind.ends_with("[u8]") {
            open = Some(name.clone());
        }
        out.push(format!("{name}: {kind}"));
    }
    if let Some(slice) = open {
        out.push(format!("a length after {slice} is missing"));
    }
    out.join(", ")
}

fn rattle(source: &str) -> Signatures {
    let mut all = Signatures::new();
    for (name, parameters, rest) in declarations(source, "pub extern \"C\" fn ", '\u{0}') {
        let result = rest.split(" ensures").next().unwrap().trim_start_matches("-> ").to_string();
        let result = if rest.starts_with("->") { result } else { "()".to_string() };
        all.insert(name.to_string(), format!("{} -> {result}", parameters.join(", ")));
    }
    all
}

fn rust(source: &str) -> Signatures {
    let mut all = Signatures::new();
    for (name, parameters, rest) in declarations(source, "pub fn ", ';') {
        let parameters = parameters.iter().map(|p| {
            let (name, kind) = p.split_once(": ").unwrap();
            let kind = match kind {
                "*const u8" => "&[u8]".to_string(),
                "*mut u8" => "&mut [u8]".to_string(),
                other => other.replace("*const ", "&").replace("*mut ", "&mut "),
            };
            (name.to_string(), kind)
        });
        let result = rest.strip_prefix("-> ").unwrap_or("()");
        all.insert(name.to_string(), format!("{} -> {result}", joined(parameters.collect())));
    }
    all
}

fn number_type(c: &str) -> &str {
    match c {
        "uint8_t" => "u8",
        "size_t" => "usize",
        "void" => "()",
        other => other,
    }
}

/// A size is a number, or a name that the header defines as one; `static` before it says the same.
fn c_parameter(p: &str, named: &Numbers) -> (String, String) {
    let (constant, p) = p.strip_prefix("const ").map_or(("&mut ", p), |p| ("&", p));
    let (kind, name) = p.split_once(' ').unwrap_or((p, ""));
    let kind = number_type(kind);
    if let Some(name) = name.strip_prefix('*') {
        return (name.to_string(), format!("{constant}[{kind}]"));
    }
    if let Some((name, size)) = name.split_once('[') {
        let size = words(size.trim_end_matches(']'));
        let size = size.strip_prefix("static ").unwrap_or(&size);
        let size = named.get(size).map_or(size, |number| number);
        return (name.to_string(), format!("{constant}[{kind}; {size}]"));
    }
    (name.to_string(), kind.to_string())
}

/// The header's plain declarations, each without its semicolon: what ends at one, outside of any braces. Comments, lines for the
/// preprocessor, structs and functions with a body are passed over, and so is what is `static`, `inline` or a `typedef`.
fn c_declarations(header: &str) -> Vec<String> {
    let plain = words(&without_preprocessor(&bare(header))).replace("extern \"C\" {", "");
    let (mut all, mut now, mut depth) = (Vec::new(), String::new(), 0usize);
    for c in plain.chars() {
        match c {
            '{' => depth += 1,
            '}' => {
                depth = depth.saturating_sub(1);
                // What follows a struct's body is its name; what stands before a function's is no plain declaration.
                now = if now.contains("typedef") { "typedef ".to_string() } else { String::new() };
            }
            _ if depth > 0 => {}
            ';' => all.push(words(&std::mem::take(&mut now))),
            c => now.push(c),
        }
    }
    all.retain(|d| !d.split(' ').any(|word| ["static", "inline", "typedef"].contains(&word)));
    all
}

/// The calls among them: a result, a name that begins with `koy_`, and parameters. What else stands before the result or behind the
/// brackets, as an attribute, is not looked at.
fn c(header: &str) -> Signatures {
    let named = numbers(&bare(header), "#define ", " ");
    let mut all = Signatures::new();
    for declaration in c_declarations(header) {
        let (before, inside) = match declaration.split_once("(").filter(|(before, _)| before.contains(" koy_")) {
            Some(parts) => parts,
            None => continue,
        };
        let mut last = before.trim_end().rsplit(' ');
        let (name, result) = (last.next().unwrap(), last.next().unwrap());
        let inside = inside.split(')').next().unwrap();
        let parameters = inside.split(',').map(|p| c_parameter(p.trim(), &named));
        all.insert(name.to_string(), format!("{} -> {}", joined(parameters.collect()), number_type(result)));
    }
    all
}

/// A C text without its comments.
fn bare(header: &str) -> String {
    let mut out = String::new();
    let mut rest = header;
    loop {
        let line = rest.find("//");
        match rest.find("/*") {
            Some(at) if line.map_or(true, |line| at < line) => {
                out += &rest[..at];
                rest = rest[at..].split_once("*/").expect("a comment ends").1;
            }
            _ => match line {
                Some(at) => {
                    out += &rest[..at];
                    rest = &rest[at..][rest[at..].find('\n').unwrap_or(rest[at..].len())..];
                }
                None => return out + rest,
            },
        }
    }
}

/// A C text without the lines that begin with `#`, each with those that a backslash joins to it.
fn without_preprocessor(text: &str) -> String {
    let (mut out, mut inside) = (String::new(), false);
    for line in text.lines() {
        let directive = inside || line.trim_start().starts_with('#');
        inside = directive && line.ends_with('\\');
        if !directive {
            out += line;
        }
        out.push('\n');
    }
    out
}

fn numbers(source: &str, start: &str, separator: &str) -> Numbers {
    let lines = source.lines().filter_map(|line| line.strip_prefix(start));
    lines
        .filter_map(|line| line.split_once(separator))
        .map(|(name, value)| {
            let name = name.split(':').next().unwrap();
            (name.to_string(), value.trim().trim_end_matches(';').to_string())
        })
        .collect()
}

fn differences(one: &Signatures, other: &Signatures) -> Vec<String> {
    let names = one.keys().chain(other.keys());
    let mut all: Vec<_> = names
        .filter(|&n| one.get(n) != other.get(n))
        .map(|n| format!("{n}: {:?} / {:?}", one.get(n), other.get(n)))
        .collect();
    all.dedup();
    all
}

fn header() -> String {
    text("../c/koyandefa.h")
}

#[test]
fn rust_declares_what_is_exported() {
    let source = rattle(&rattle_source());
    assert_eq!(source.len(), 35, "so many functions are exported");
    assert_eq!(differences(&source, &rust(&text("src/ffi.rs"))), Vec::<String>::new());
}

#[test]
fn c_declares_what_is_exported() {
    assert_eq!(differences(&rattle(&rattle_source()), &c(&header())), Vec::<String>::new());
}

#[test]
fn the_numbers_agree() {
    let rust = numbers(&text("src/ffi.rs"), "pub const ", " = ");
    let c = numbers(&bare(&header()), "#define ", " ");
    assert_eq!(rust.len(), 14);
    for (name, value) in rust {
        assert_eq!(c.get(&name), Some(&value), "{name}");
    }
}

/// A refusal's name as C writes it.
fn c_name(refusal: Refusal) -> String {
    let letters = |c: char| if c.is_uppercase() { vec!['_', c] } else { vec![c.to_ascii_uppercase()] };
    format!("KOY{}", format!("{refusal:?}").chars().flat_map(letters).collect::<String>())
}

/// In number, and in the words that the C text of a code has.
#[test]
fn the_refusals_agree() {
    let c = numbers(&bare(&header()), "#define ", " ");
    let named = text("../c/koyandefa_named.h");
    let refusals: Vec<Refusal> = (0..=255).filter_map(Refusal::of).collect();
    assert_eq!(refusals.len(), 24);
    for refusal in refusals {
        let (name, number) = (c_name(refusal), refusal.number().to_string());
        assert_eq!(c.get(&name), Some(&number), "{refusal:?}");
        let told = refusal.to_string();
        let words = told.split_once(": ").unwrap().1;
        assert!(named.contains(&format!("case {name}: return \"{words}\";")), "{name}: {words}");
    }
}

#[test]
fn planted_drifts_are_found() {
    let source = rattle_source();
    let plain = rattle(&source);
    let drifts = [
        ("own: u8", "own: usize"),
        ("[usize; 9]", "[usize; 8]"),
        ("koy_stations_claim", "koy_stations_take"),
        ("pdu: &[u8]", "pdu: &mut [u8]"),
        ("sa: u8, da: u8)", "da: u8, sa: u8)"),
        (") -> bool", ") -> u8"),
        ("last: &mut [usize; 1]", "last: &mut [usize; 2]"),
    ];
    for (old, new) in drifts {
        let drifted = source.replace(old, new);
        assert_ne!(drifted, source, "{old} stands in the source");
        assert!(!differences(&rattle(&drifted), &rust(&text("src/ffi.rs"))).is_empty(), "{old} to {new}");
        assert!(!differences(&rattle(&drifted), &c(&header())).is_empty(), "{old} to {new}");
    }
    // Planted into the declarations as they are understood, so that the header may name its sizes.
    let declared: String = c(&header()).iter().map(|(name, signature)| c_text(name, signature)).collect();
    assert_eq!(differences(&plain, &c(&declared)), Vec::<String>::new());
    let c_drifts = [
        ("size_t told[9]", "size_t told[2]"),
        ("const uint8_t *heard", "uint8_t *heard"),
        ("uint8_t state[252]", "uint8_t state[250]"),
        (", size_t buf_len", ""),
        ("size_t guard[2]", "size_t guard[1]"),
        ("size_t received, size_t moment", "size_t moment, size_t received"),
    ];
    for (old, new) in c_drifts {
        let drifted = declared.replace(old, new);
        assert_ne!(drifted, declared, "{old} stands in the header");
        assert!(!differences(&plain, &c(&drifted)).is_empty(), "{old} to {new}");
    }
}

/// A signature as C writes it.
fn c_text(name: &str, signature: &str) -> String {
    let c_type = |kind: &str| match kind {
        "u8" => "uint8_t".to_string(),
        "usize" => "size_t".to_string(),
        "()" => "void".to_string(),
        other => other.to_string(),
    };
    let (parameters, result) = signature.rsplit_once(" -> ").unwrap();
    let parameters: Vec<String> = parameters
        .split(", ")
        .map(|p| {
            let (name, kind) = p.split_once(": ").unwrap();
            let (constant, kind) = match kind.strip_prefix("&mut ") {
                Some(kind) => ("", kind),
                None => kind.strip_prefix('&').map_or(("", kind), |kind| ("const ", kind)),
            };
            match kind.trim_matches(|c| c == '[' || c == ']').split_once("; ") {
                Some((kind, size)) => format!("{constant}{} {name}[{size}]", c_type(kind)),
                None if kind == "[u8]" => format!("{constant}uint8_t *{name}, size_t {name}_len"),
                None => format!("{} {name}", c_type(kind)),
            }
        })
        .collect();
    format!("{} {name}({});\n", c_type(result), parameters.join(", "))
}

/// What a header may hold beside the declarations: macros, structs, inline functions, attributes, names for sizes.
#[test]
fn other_contents_of_the_header_are_passed_over() {
    let before = "#define KOY_WRAPPED(x) \\\n    uint8_t koy_wrapped(x); \\\n    size_t koy_more(x);\n\
        typedef struct { size_t told[9]; uint8_t koy_field(void); } koy_telegram;\n\
        struct koy_plain { uint8_t state[132]; };\n\
        typedef uint8_t koy_code;\n\
        // uint8_t koy_commented(void);\n\
        static inline size_t koy_length(const koy_telegram *t);\n\
        static inline size_t koy_length(const koy_telegram *t) { if (t) { return t->told[1]; } return 0; }\n\
        inline uint8_t koy_other(uint8_t a)\n{\n    uint8_t koy_local(uint8_t b);\n    return a;\n}\n";
    let header = header();
    assert_eq!(c(&format!("{before}{header}")), c(&header));
    assert_eq!(c(&format!("{header}{before}")), c(&header));
    let plain = "uint8_t koy_x(uint8_t state[132], size_t told[2]);";
    for same in [
        "KOY_MUST_USE uint8_t koy_x(uint8_t state[132], size_t told[2]);",
        "uint8_t koy_x(uint8_t state[132], size_t told[2]) KOY_NONNULL(1);",
        "uint8_t koy_x(uint8_t state[static 132],\n    size_t told[2]);",
        "#define KOY_STATIONS_SIZE 132\nuint8_t koy_x(uint8_t state[KOY_STATIONS_SIZE], size_t told[2]);",
    ] {
        assert_eq!(c(same), c(plain), "{same}");
    }
    assert_eq!(c(plain).len(), 1);
    assert!(c(&format!("{plain}{before}")).contains_key("koy_x"));
}
