//! Holds the declarations for Rust to those for C and to the functions that are proved: names, parameters in their
//! order, types, the fields of structs, and the numbers of refusals. All are read from the sources, so that none can be
//! changed alone. In a copy of this crate outside of the repository there is nothing to hold them to.
use fractal_heap_sys::{
    FRACTAL_HEAP_HEADER_NUMBERS, FRACTAL_HEAP_PLAN_ALIGNMENT, FRACTAL_HEAP_PLAN_SIZE, OpenPlan,
    OpenedPlan, Planner, State,
};
use std::collections::{BTreeMap, BTreeSet};
use std::fs;
use std::mem::{align_of, offset_of, size_of};
use std::path::{Path, PathBuf};

/// Functions, each in one line as Rust declares it: `name(parameter: type, ..) -> type`.
type Functions = BTreeSet<String>;

/// Structs by their names in Rust, each with its fields in their order, as Rust declares them: `name: type`.
type Structs = BTreeMap<String, Vec<String>>;

/// The structs that a function here lends or hands back: the name in C, that in Rust and Rattle, and the crate that is
/// proved and has it.
const STRUCTS: [(&str, &str, &str); 4] = [
    ("fractal_heap_state", "State", "planner"),
    ("fractal_heap_planner", "Planner", "planner"),
    ("fractal_heap_plan", "OpenPlan", "open_plan"),
    ("fractal_heap_opened_plan", "OpenedPlan", "fractal_heap_c"),
];

/// The repository, if this crate's folder is in it.
fn repository() -> Option<PathBuf> {
    let root = Path::new(env!("CARGO_MANIFEST_DIR")).join("../../..");
    root.join("crates.txt").exists().then_some(root)
}

fn text(root: &Path, name: &str) -> String {
    fs::read_to_string(root.join(name)).unwrap_or_else(|error| panic!("{name}: {error}"))
}

/// What this crate declares.
fn rust(root: &Path, name: &str) -> String {
    text(
        root,
        &format!("loader/fractal_heap/fractal_heap_sys/src/{name}.rs"),
    )
}

/// The sources of a crate that is proved, those of its submodules, too.
fn proved(folder: &Path) -> String {
    let entries = fs::read_dir(folder).unwrap_or_else(|error| panic!("{folder:?}: {error}"));
    let mut all = String::new();
    for path in entries.map(|entry| entry.unwrap().path()) {
        if path.is_dir() {
            all += &proved(&path);
        } else if path.extension().is_some_and(|ending| ending == "rt") {
            all += &fs::read_to_string(path).unwrap();
        }
    }
    all
}

fn declared(name: &str, parameters: &[(String, String)], answer: &str) -> String {
    let parameters: Vec<String> = parameters
        .iter()
        .map(|(name, kind)| format!("{name}: {kind}"))
        .collect();
    format!("{name}({}) -> {answer}", parameters.join(", "))
}

/// Text without what follows two slashes in a line.
fn without_line_comments(text: &str) -> String {
    let code = |line: &str| line.split("//").next().unwrap_or_default().to_owned();
    text.lines().map(code).collect::<Vec<_>>().join("\n")
}

/// A slice is a pointer and a length for C, and one struct that is lent a pointer.
fn pointer_and_length(name: &str, kind: &str) -> Vec<(String, String)> {
    let pointer = match kind {
        "&[u8]" => "*const u8",
        "&[u64]" => "*const u64",
        "&mut [u8]" => "*mut u8",
        "&mut [u32]" => "*mut u32",
        "&mut [u64]" => "*mut u64",
        "&OpenPlan" => return vec![(name.into(), "*const OpenPlan".into())],
        "&mut OpenPlan" => return vec![(name.into(), "*mut OpenPlan".into())],
        _ => return vec![(name.into(), kind.into())],
    };
    vec![
        (name.into(), pointer.into()),
        (format!("{name}_len"), "usize".into()),
    ]
}

/// The functions of Rust's or Rattle's that begin with these words.
fn functions_after(words: &str, text: &str) -> Functions {
    let text = without_line_comments(text);
    let function = |rest: &str| {
        let (name, rest) = rest.split_once('(').expect("parameters");
        let (parameters, rest) = rest.split_once(')').expect("an end of the parameters");
        let answer = rest.trim_start().strip_prefix("->").expect("an answer");
        let answer = answer
            .split([';', ' ', '\n'])
            .find(|word| !word.is_empty())
            .unwrap();
        let parameters: Vec<(String, String)> = parameters
            .split(',')
            .filter_map(|parameter| parameter.trim().split_once(": "))
            .flat_map(|(name, kind)| pointer_and_length(name, kind))
            .collect();
        declared(name.trim(), &parameters, answer)
    };
    text.split(words).skip(1).map(function).collect()
}

fn rust_functions(text: &str) -> Functions {
    functions_after("pub fn ", text)
}

fn proved_functions(text: &str) -> Functions {
    functions_after("pub extern \"C\" fn ", text)
}

/// The structs of these names that Rust's or Rattle's text lays out as C does. A ghost field is no field of what is
/// compiled.
fn structs_of(text: &str, names: &[&str]) -> Structs {
    let text = without_line_comments(text);
    let one = |name: &&str| {
        let (before, rest) = text.split_once(&format!("pub struct {name} {{"))?;
        let laid_out = before.trim_end().ends_with("#[repr(C)]");
        // The braces of a field's proposition are within its line.
        let (body, _) = rest.split_once("\n}")?;
        let fields = body.lines().filter_map(|line| {
            let field = line.trim().strip_prefix("pub ")?.strip_suffix(',')?;
            (!field.starts_with("ghost ")).then(|| field.to_owned())
        });
        laid_out.then(|| (name.to_string(), fields.collect()))
    };
    names.iter().filter_map(one).collect()
}

fn rust_structs(text: &str) -> Structs {
    structs_of(text, &STRUCTS.map(|(_, name, _)| name))
}

/// Each from the crate that has it.
fn proved_structs(root: &Path) -> Structs {
    let one = |(_, name, of): (&str, &str, &str)| {
        structs_of(&proved(&root.join(format!("crates/{of}/src"))), &[name])
    };
    STRUCTS.into_iter().flat_map(one).collect()
}

/// C's text without comments and lines for the preprocessor.
fn c_code(text: &str) -> String {
    let mut code = String::new();
    let mut rest = text;
    while let Some((before, comment)) = rest.split_once("/*") {
        code += before;
        rest = comment.split_once("*/").expect("an end of a comment").1;
    }
    code += rest;
    let lines = code
        .lines()
        .filter(|line| !line.trim_start().starts_with('#'));
    lines.collect::<Vec<_>>().join("\n")
}

fn one_line(text: &str) -> String {
    text.split_whitespace().collect::<Vec<_>>().join(" ")
}

/// C without what is in braces; a brace ends a statement.
fn c_statements(text: &str) -> Vec<String> {
    let mut outside = String::new();
    let mut depth = 0;
    for c in c_code(text).replace("extern \"C\" {", "").chars() {
        match c {
            '{' => depth += 1,
            '}' if depth > 0 => {
                depth -= 1;
                outside.push(';');
            }
            '}' => {} // that of extern "C"
            _ if depth == 0 => outside.push(c),
            _ => {}
        }
    }
    outside.split(';').map(one_line).collect()
}

/// The structs that a function here lends or hands back, as C's text lays them out. What C++ alone has in them are
/// functions.
fn c_structs(text: &str) -> Structs {
    let code = c_code(text);
    let one = |(c_struct, name, _): (&str, &str, &str)| {
        let (_, rest) = code.split_once(&format!("struct {c_struct} {{"))?;
        let (body, _) = rest.split_once('}')?;
        let fields = body.split(';').map(one_line);
        let fields = fields
            .filter(|field| !field.is_empty() && !field.contains('('))
            .map(|field| {
                let (name, kind) = c_name(&field);
                format!("{name}: {kind}")
            });
        Some((name.to_owned(), fields.collect()))
    };
    STRUCTS.into_iter().filter_map(one).collect()
}

/// A type of C's as Rust has it.
fn c_type(kind: &str) -> String {
    let (kind, pointer) = match kind.trim().strip_suffix('*') {
        Some(to) => match to.trim().strip_prefix("const ") {
            Some(to) => (to, "*const "),
            None => (to.trim(), "*mut "),
        },
        None => (kind.trim(), ""),
    };
    if let Some(name) = kind.strip_prefix("struct ") {
        let is_it = |known: &&(&str, &str, &str)| known.0 == name;
        let known = STRUCTS.iter().find(is_it);
        return format!("{pointer}{}", known.expect("a struct of ours").1);
    }
    let kind = match kind {
        "uint8_t" => "u8",
        "uint16_t" => "u16",
        "uint32_t" => "u32",
        "uint64_t" => "u64",
        "size_t" => "usize",
        _ => panic!("{kind:?} is no type that a function here has"),
    };
    format!("{pointer}{kind}")
}

/// A parameter's or a function's type and name.
fn c_name(words: &str) -> (String, String) {
    let name = words.trim().rsplit([' ', '*']).next().unwrap_or_default();
    let kind = words.trim().strip_suffix(name).unwrap_or_default();
    (name.into(), c_type(kind))
}

/// The functions that C's text declares and does not define.
fn c_functions(text: &str) -> Functions {
    let is_ours = |statement: &&String| {
        !statement.starts_with("static ")
            && (statement.contains(" fractal_heap_") || statement.contains(" tools_"))
            && statement.ends_with(')')
    };
    let function = |statement: &String| {
        let (head, parameters) = statement.split_once('(').expect("parameters");
        let (name, answer) = c_name(head);
        let parameters: Vec<(String, String)> = parameters
            .trim_end_matches(')')
            .split(',')
            .map(c_name)
            .collect();
        declared(&name, &parameters, &answer)
    };
    c_statements(text)
        .iter()
        .filter(is_ours)
        .map(function)
        .collect()
}

/// A refusal's name and number, if the line has them: `pub const NAME: u32 = 1;` in Rust, `NAME = 1,` in C's enum.
fn number(line: &str) -> Option<(String, u32)> {
    let line = line.trim();
    let (name, rest) = line
        .strip_prefix("pub const ")
        .unwrap_or(line)
        .split_once(" = ")?;
    let name = name.strip_suffix(": u32").unwrap_or(name);
    let digits = rest.split([',', ';', ' ']).next()?;
    let is_name = name.starts_with("FRACTAL_HEAP_") && !name.contains(' ');
    is_name.then_some((name.to_owned(), digits.parse().ok()?))
}

fn numbers(text: &str) -> BTreeMap<String, u32> {
    text.lines().filter_map(number).collect()
}

#[test]
fn the_header_declares_what_rust_is_declared() {
    let Some(root) = repository() else { return };
    let (header, rust) = (text(&root, "loader/fractal_heap.h"), rust(&root, "lib"));
    assert_eq!(c_functions(&header), rust_functions(&rust));
    assert_eq!(rust_functions(&rust).len(), 11);
    assert_eq!(numbers(&header), numbers(&rust));
    assert_eq!(numbers(&rust).len(), 21 + 5);
    assert_eq!(c_structs(&header), rust_structs(&rust));
    let fields: usize = rust_structs(&rust).values().map(Vec::len).sum();
    assert_eq!((rust_structs(&rust).len(), fields), (4, 7 + 2 + 2 + 2));
}

/// The names of the fields of a struct of Rust's or Rattle's, those of the doubling table in its place.
fn fields_of(text: &str, name: &str) -> Vec<String> {
    let (_, rest) = text.split_once(&format!("pub struct {name} {{")).unwrap();
    let (body, _) = rest.split_once("\n}").unwrap();
    let field = |line: &str| {
        let (name, _) = line.trim().strip_prefix("pub ")?.split_once(':')?;
        Some(name.to_owned())
    };
    body.lines().filter_map(field).collect()
}

/// The places of a header's fields in the list that C gets are in the order of the fields of the proved header, and of
/// the crate's.
#[test]
fn the_fields_of_a_header_have_their_places() {
    let Some(root) = repository() else { return };
    let header = c_code(&text(&root, "loader/fractal_heap.h"));
    let (_, rest) = header.split_once("enum fractal_heap_field {").unwrap();
    let (body, _) = rest.split_once('}').unwrap();
    let place = |word: &str| {
        let name = word.trim().strip_prefix("FRACTAL_HEAP_")?;
        Some(name.to_lowercase())
    };
    let places: Vec<String> = body.split(',').filter_map(place).collect();
    assert_eq!(places.len(), FRACTAL_HEAP_HEADER_NUMBERS as usize);
    let rust = text(&root, "loader/fractal_heap/src/header.rs");
    assert_eq!(places, fields_of(&rust, "Header"));
    let proved = |of: &str, name| fields_of(&proved(&root.join(format!("crates/{of}/src"))), name);
    let mut due = proved("fractal_heap", "FractalHeapHeader");
    let table = due.iter().position(|name| name == "table").unwrap();
    due.splice(table..=table, proved("reading", "DoublingTable"));
    assert_eq!(places, due);
}

/// By the C ABI: eight numbers of 64 bits, the byte before them, and what aligns it. That the compiled library has them
/// at these places, loader/example.c looks for in a plan whose numbers differ.
#[test]
fn an_open_plan_has_the_size_and_the_alignment_that_the_header_says() {
    assert_eq!(size_of::<OpenPlan>(), FRACTAL_HEAP_PLAN_SIZE as usize);
    assert_eq!(align_of::<OpenPlan>(), FRACTAL_HEAP_PLAN_ALIGNMENT as usize);
    assert_eq!((size_of::<State>(), align_of::<State>()), (56, 8));
    assert_eq!((size_of::<Planner>(), align_of::<Planner>()), (64, 8));
    assert_eq!((size_of::<OpenedPlan>(), align_of::<OpenedPlan>()), (80, 8));
    assert_eq!(offset_of!(Planner, state), 8);
    assert_eq!(offset_of!(OpenPlan, objects), 64);
    assert_eq!(offset_of!(OpenedPlan, plan), 8);
}

#[test]
fn the_structs_of_the_proved_crates_are_those_declared() {
    let Some(root) = repository() else { return };
    assert_eq!(proved_structs(&root), rust_structs(&rust(&root, "lib")));
}

#[test]
fn the_functions_of_fractal_heap_c_are_those_declared() {
    let Some(root) = repository() else { return };
    let sources = proved(&root.join("crates/fractal_heap_c/src"));
    assert_eq!(
        proved_functions(&sources),
        rust_functions(&rust(&root, "lib"))
    );
}

#[test]
fn the_functions_of_tools_c_are_those_declared() {
    let Some(root) = repository() else { return };
    let sources = proved(&root.join("crates/tools_c/src"));
    assert_eq!(
        proved_functions(&sources),
        rust_functions(&rust(&root, "tools"))
    );
}

#[test]
fn what_a_c_program_declares_of_tools_c_is_declared_here() {
    let Some(root) = repository() else { return };
    let program = c_functions(&text(&root, "loader/write_region.c"));
    let rust = rust_functions(&rust(&root, "tools"));
    assert_eq!(program.len(), 2);
    assert_eq!(program.difference(&rust).collect::<Vec<_>>(), [""; 0]);
}

/// What is changed on one side alone is seen, or the tests above would say nothing.
#[test]
fn a_change_of_one_side_is_seen() {
    let Some(root) = repository() else { return };
    let (header, rust) = (text(&root, "loader/fractal_heap.h"), rust(&root, "lib"));
    let sources = ["planner", "open_plan", "fractal_heap_c"]
        .map(|name| proved(&root.join(format!("crates/{name}/src"))))
        .concat();
    let same = |header: &str, rust: &str, sources: &str| {
        c_functions(header) == rust_functions(rust)
            && proved_functions(sources) == rust_functions(rust)
            && numbers(header) == numbers(rust)
            && c_structs(header) == rust_structs(rust)
            && rust_structs(rust) == rust_structs(sources)
    };
    let changed = |text: &str, from: &str, to: &str| {
        assert!(text.contains(from), "{from}");
        text.replace(from, to)
    };
    assert!(same(&header, &rust, &sources));
    for (from, to) in [
        ("uint64_t at", "uint32_t at"),
        ("const uint8_t *id", "uint8_t *id"),
        ("size_t id_len", "uint64_t id_len"),
        (
            "uint8_t offset_size, uint8_t length_size",
            "uint8_t length_size, uint8_t offset_size",
        ),
        ("uint8_t *slot, size_t slot_len", "uint8_t *slot"),
        (
            "uint64_t heap_header_address",
            "uint32_t heap_header_address",
        ),
        (
            "fractal_heap_read_managed_object_unchecked(const",
            "fractal_heap_read_managed_object_untested(const",
        ),
        (
            "uint32_t fractal_heap_checksum",
            "uint64_t fractal_heap_checksum",
        ),
        ("fractal_heap_checksum(const", "fractal_heap_sum(const"),
        ("SLICE_TOO_SHORT = 13", "SLICE_TOO_SHORT = 12"),
        ("FRACTAL_HEAP_DEPTH_EXCEEDED", "FRACTAL_HEAP_DEPTH"),
        ("FRACTAL_HEAP_PLAN_SIZE = 72", "FRACTAL_HEAP_PLAN_SIZE = 64"),
        (
            "const struct fractal_heap_plan *",
            "struct fractal_heap_plan *",
        ),
        ("uint64_t *totals", "uint32_t *totals"),
        (
            "uint64_t size, uint8_t *id",
            "uint64_t size, const uint8_t *id",
        ),
        (
            "length_size,\n                                   uint64_t *fields",
            "length_size,\n                                   const uint64_t *fields",
        ),
        ("const uint64_t *fields, size_t", "uint64_t *fields, size_t"),
        (
            "uint8_t *bytes, size_t bytes_len,\n",
            "const uint8_t *bytes, size_t bytes_len,\n",
        ),
        ("HEADER_FIELDS = 23", "HEADER_FIELDS = 22"),
        ("HEADER_NUMBERS = 26", "HEADER_NUMBERS = 23"),
        ("uint64_t fill;", "uint32_t fill;"),
        ("uint64_t indirect;", ""),
        ("uint64_t objects;", "uint64_t objects; uint64_t bytes;"),
        (
            "uint8_t offset_size;                /* bytes of an address */\n    struct fractal_heap_state state;",
            "struct fractal_heap_state state;\n    uint8_t offset_size;",
        ),
        (
            "struct fractal_heap_opened_plan fractal_heap_open_plan",
            "struct fractal_heap_plan fractal_heap_open_plan",
        ),
    ] {
        assert!(
            !same(&changed(&header, from, to), &rust, &sources),
            "{from}"
        );
    }
    for (from, to) in [
        ("at: u64", "at: u32"),
        ("id: *const u8", "id: *mut u8"),
        ("id_len: usize", "id_len: u64"),
        ("heap_header_address: u64,", ""),
        ("bytes_len: usize) -> u32", "bytes_len: usize) -> u64"),
        ("SLICE_TOO_SHORT: u32 = 13", "SLICE_TOO_SHORT: u32 = 14"),
        ("pub const FRACTAL_HEAP_OK: u32 = 0;", ""),
        ("plan: *const OpenPlan", "plan: *mut OpenPlan"),
        ("pub count: u64,", "pub count: u32,"),
        ("#[repr(C)]\npub struct Planner", "pub struct Planner"),
    ] {
        assert!(
            !same(&header, &changed(&rust, from, to), &sources),
            "{from}"
        );
    }
    for (from, to) in [
        ("id: &[u8]", "id: &mut [u8]"),
        ("at: u64", "at: u32"),
        ("heap_header_address: u64", "heap_header_address: u32"),
        ("fractal_heap_checksum", "checksum_of"),
        ("plan: &OpenPlan", "plan: &mut OpenPlan"),
        ("#[repr(C)]\npub struct State", "pub struct State"),
        (
            "pub allocated: u64,\n    pub used: u64,",
            "pub used: u64,\n    pub allocated: u64,",
        ),
        ("pub ghost reached", "pub reached"),
    ] {
        assert!(
            !same(&header, &rust, &changed(&sources, from, to)),
            "{from}"
        );
    }
}
