//! Three texts declare the same seven functions and one struct: the proved source
//! `crates/kneukelboom_c/src/lib.rt`, the C header `include/kneukelboom.h`, and this crate's `src/ffi.rs` and
//! `src/lent.rs`. Each is read here into an `Interface` in C's words, and any difference in a name, an order or a
//! type fails. The self-test alters each text in every way that matters and demands that it is found out.

use std::fmt;
use std::fs;
use std::path::PathBuf;

use kneukelboom::{lent, Refusal};

/// A parameter or a field: its name, and its type as C has it.
#[derive(Clone, PartialEq, Eq, Debug)]
struct Named {
    name: String,
    of: String,
}

/// A function: the name that people call, and its symbol in the archive, which ends in the version.
#[derive(Clone, PartialEq, Eq, Debug)]
struct Function {
    name: String,
    symbol: String,
    parameters: Vec<Named>,
}

/// What a text declares. Functions stand in the order of their names: only the order inside them matters.
#[derive(Clone, PartialEq, Eq, Debug)]
struct Interface {
    reply: Vec<Named>,
    functions: Vec<Function>,
}

impl fmt::Display for Interface {
    fn fmt(&self, f: &mut fmt::Formatter) -> fmt::Result {
        let list = |named: &[Named]| -> String {
            let each: Vec<String> = named
                .iter()
                .map(|n| format!("{} {}", n.of, n.name))
                .collect();
            each.join(", ")
        };
        writeln!(f, "reply {{ {} }}", list(&self.reply))?;
        for function in &self.functions {
            let Function { name, symbol, .. } = function;
            writeln!(f, "{name}, {symbol}({})", list(&function.parameters))?;
        }
        Ok(())
    }
}

type Read = Result<Interface, String>;

// ---- the texts

fn text(path: &str) -> String {
    let path = PathBuf::from(env!("CARGO_MANIFEST_DIR"))
        .join("..")
        .join(path);
    fs::read_to_string(&path).unwrap_or_else(|error| panic!("{}: {error}", path.display()))
}

fn rattle_text() -> String {
    text("crates/kneukelboom_c/src/lib.rt")
}

fn header_text() -> String {
    text("include/kneukelboom.h")
}

fn rust_text() -> String {
    text("rust/src/ffi.rs") + &text("rust/src/lent.rs")
}

/// The text without `//` and `/* */` comments.
fn without_comments(text: &str) -> String {
    let mut kept = String::new();
    let mut rest = text;
    while let Some(at) = rest.find("//").into_iter().chain(rest.find("/*")).min() {
        kept.push_str(&rest[..at]);
        kept.push(' ');
        let end = if rest[at..].starts_with("//") {
            rest[at..].find('\n')
        } else {
            rest[at..].find("*/").map(|end| end + 2)
        };
        rest = &rest[at + end.unwrap_or(rest.len() - at)..];
    }
    kept + rest
}

/// The parts of a list that is parted by commas; a last comma may follow.
fn parts(list: &str) -> Vec<&str> {
    let mut parts: Vec<&str> = list.split(',').map(str::trim).collect();
    if parts.last() == Some(&"") {
        parts.pop();
    }
    parts
}

/// What stands between the next `open` and the first `close` after it, and what follows.
fn between(text: &str, open: char, close: char) -> Result<(&str, &str), String> {
    let from = text.find(open).ok_or(format!("no {open} in: {text:.60}"))?;
    let length = text[from..]
        .find(close)
        .ok_or(format!("no {close} in: {text:.60}"))?;
    Ok((&text[from + 1..from + length], &text[from + length + 1..]))
}

fn interface(reply: Vec<Named>, mut functions: Vec<Function>) -> Read {
    functions.sort_by(|f, g| f.name.cmp(&g.name));
    if let Some(twice) = functions.windows(2).find(|w| w[0].name == w[1].name) {
        return Err(format!("{} is declared twice", twice[0].name));
    }
    Ok(Interface { reply, functions })
}

// ---- Rattle and Rust

/// A type of Rattle or Rust in C's words; a slice is a pointer and a length. C++ keeps `new` for itself: what Rattle
/// calls so is `wide`.
fn in_c(name: &str, of: &str) -> Result<Vec<Named>, String> {
    let name = if name == "new" { "wide" } else { name };
    let named = |name: &str, of: &str| Named {
        name: name.to_string(),
        of: of.to_string(),
    };
    let slice = |pointer| {
        let length = named(&format!("{name}_len"), "size_t");
        Ok(vec![named(name, pointer), length])
    };
    let of = of.split_whitespace().collect::<Vec<_>>().join(" ");
    let one = match of.as_str() {
        "u32" => "uint32_t",
        "u64" => "uint64_t",
        "i64" => "int64_t",
        "usize" => "size_t",
        "*const i32" => "const int32_t *",
        "*const i64" => "const int64_t *",
        "*mut i64" => "int64_t *",
        "&[i32]" => return slice("const int32_t *"),
        "&[i64]" => return slice("const int64_t *"),
        "&mut [i64]" => return slice("int64_t *"),
        _ => {
            return Err(format!(
                "{name} has a type that C's header has no word for: {of}"
            ))
        }
    };
    Ok(vec![named(name, one)])
}

/// `name: type, name: type`, each with `pub` before it or not.
fn colon_list(list: &str) -> Result<Vec<Named>, String> {
    let mut all = Vec::new();
    for part in parts(list) {
        let part = part.strip_prefix("pub ").unwrap_or(part);
        let (name, of) = part.split_once(':').ok_or(format!("no type: {part}"))?;
        all.extend(in_c(name.trim(), of.trim())?);
    }
    Ok(all)
}

/// The one struct that is marked `#[repr(C)]`: its name and its fields.
fn repr_c_struct(text: &str) -> Result<(String, Vec<Named>), String> {
    let marked: Vec<&str> = text.split("#[repr(C)]").skip(1).collect();
    let [after] = marked[..] else {
        return Err(format!("{} structs are marked #[repr(C)]", marked.len()));
    };
    let (_, after) = after
        .split_once("pub struct ")
        .ok_or("no pub struct after #[repr(C)]")?;
    let name = after
        .split(|c: char| !c.is_alphanumeric() && c != '_')
        .next()
        .unwrap_or("");
    let (fields, _) = between(after, '{', '}')?;
    Ok((name.to_string(), colon_list(fields)?))
}

/// A function from its name on, and what follows its result type.
fn function<'a>(text: &'a str, reply: &str) -> Result<(Function, &'a str), String> {
    let name = text.split('(').next().unwrap_or("").trim();
    let (list, after) = between(text, '(', ')')?;
    let result = after
        .trim_start()
        .strip_prefix("->")
        .unwrap_or("")
        .trim_start();
    let rest = result
        .strip_prefix(reply)
        .ok_or(format!("{name} does not return {reply}"))?;
    let function = Function {
        name: name.to_string(),
        symbol: name.to_string(),
        parameters: colon_list(list)?,
    };
    Ok((function, rest))
}

/// What the Rattle source exports. A function that is marked by halves, or that asks something of its caller, is an
/// error: the header promises that whatever is passed is answered.
fn rattle(text: &str) -> Read {
    let text = without_comments(text);
    let (name, reply) = repr_c_struct(&text)?;
    let mut functions = Vec::new();
    let exports = text
        .matches("extern \"C\"")
        .count()
        .max(text.matches("#[unsafe(no_mangle)]").count());
    for after in text.split("#[unsafe(no_mangle)]").skip(1) {
        let marked = after.trim_start().strip_prefix("pub extern \"C\" fn ");
        let (mut function, rest) = function(
            marked.ok_or("#[unsafe(no_mangle)] without pub extern \"C\" fn")?,
            &name,
        )?;
        let own = rest.split("fn ").next().unwrap_or("");
        if own.contains("requires") {
            return Err(format!("{} has a requires", function.name));
        }
        let (name, _) = function.name.rsplit_once("_v").ok_or("no version")?;
        function.name = name.to_string();
        functions.push(function);
    }
    if functions.len() != exports {
        return Err("an extern \"C\" fn is not marked #[unsafe(no_mangle)]".to_string());
    }
    interface(reply, functions)
}

/// What this crate declares of the archive.
fn rust(text: &str) -> Read {
    let text = without_comments(text);
    let (name, reply) = repr_c_struct(&text)?;
    let (_, block) = text.split_once("extern \"C\" {").ok_or("no extern block")?;
    let (block, _) = block.split_once('}').ok_or("no end of the extern block")?;
    let mut functions = Vec::new();
    for declared in block.split("#[link_name").skip(1) {
        let (named, declared) = declared
            .split_once("fn ")
            .ok_or("no fn after #[link_name")?;
        let mut function = function(declared, &name)?.0;
        function.symbol = named.split('"').nth(1).unwrap_or("").to_string();
        functions.push(function);
    }
    interface(reply, functions)
}

// ---- C

/// `type name`, the type with `const` and `*` as C has them.
fn c_named(declared: &str) -> Result<Named, String> {
    let spaced = declared.replace('*', " * ");
    let mut words: Vec<&str> = spaced.split_whitespace().collect();
    let name = words.pop().filter(|_| !words.is_empty());
    Ok(Named {
        name: name
            .ok_or(format!("no type and name: {declared}"))?
            .to_string(),
        of: words.join(" "),
    })
}

fn c_list(list: &str, mark: char) -> Result<Vec<Named>, String> {
    let parts = list
        .split(mark)
        .map(str::trim)
        .filter(|part| !part.is_empty());
    parts.map(c_named).collect()
}

/// What the header declares, its enums left out.
fn header(text: &str) -> Read {
    let text = without_comments(text);
    let version = number_of(&text, "KNEUKELBOOM_VERSION");
    let versioned = |call: &str| {
        let of = format!("KNEUKELBOOM_SYMBOL({call}_v, KNEUKELBOOM_VERSION)");
        text.contains(&format!("#define {call} {of}\n"))
    };
    let mut spliced = text.replace("\\\n", " ");
    spliced = spliced
        .lines()
        .filter(|line| !line.trim_start().starts_with('#'))
        .collect::<Vec<_>>()
        .join("\n");
    let start = spliced.find("typedef struct").ok_or("no typedef struct")?;
    let (fields, after) = between(&spliced[start..], '{', '}')?;
    let (name, after) = after.split_once(';').ok_or("the typedef has no end")?;
    let reply = c_list(fields, ';')?;
    let name = name.trim();
    let mut functions = Vec::new();
    // What closes `extern "C" {` is left at the end.
    let mut rest = after.trim().trim_end_matches('}').trim();
    while !rest.is_empty() {
        let (declared, after) = rest.split_once(';').ok_or(format!("no end: {rest:.60}"))?;
        let result = declared.trim().strip_prefix(name);
        let own = result.ok_or(format!("does not return {name}: {declared:.60}"))?;
        let (list, left) = between(own, '(', ')')?;
        if !left.trim().is_empty() {
            return Err(format!("not understood: {left}"));
        }
        let name = own.split('(').next().unwrap_or("").trim();
        if !versioned(name) {
            return Err(format!("the symbol of {name} has no version"));
        }
        functions.push(Function {
            name: name.to_string(),
            symbol: format!("{name}_v{version}"),
            parameters: c_list(list, ',')?,
        });
        rest = after.trim();
    }
    interface(reply, functions)
}

/// The numbers that the header gives to its names.
fn header_number(name: &str) -> u64 {
    number_of(&without_comments(&header_text()), name)
}

fn number_of(text: &str, name: &str) -> u64 {
    let mut words = text
        .split(|c: char| !c.is_alphanumeric() && c != '_')
        .filter(|w| !w.is_empty());
    words
        .find(|&word| word == name)
        .unwrap_or_else(|| panic!("the header has no {name}"));
    let number = words.next().unwrap_or("");
    number
        .parse()
        .unwrap_or_else(|_| panic!("{name} is {number}"))
}

/// The number that a constant of the proved source has.
fn constant(text: &str, name: &str) -> u64 {
    let declared = format!("pub const {name}:");
    let at = text
        .find(&declared)
        .unwrap_or_else(|| panic!("the source has no {name}"));
    let (_, rest) = text[at..].split_once('=').unwrap();
    let (number, _) = rest.split_once(';').unwrap();
    number
        .trim()
        .parse()
        .unwrap_or_else(|_| panic!("{name} is {number}"))
}

// ---- the tests

#[test]
fn header_is_the_rattle_source() {
    let (proved, declared) = (
        rattle(&rattle_text()).unwrap(),
        header(&header_text()).unwrap(),
    );
    assert_eq!(
        proved, declared,
        "\nproved:\n{proved}\nthe header:\n{declared}"
    );
}

#[test]
fn rust_is_the_rattle_source() {
    let (proved, declared) = (rattle(&rattle_text()).unwrap(), rust(&rust_text()).unwrap());
    assert_eq!(proved, declared, "\nproved:\n{proved}\nRust:\n{declared}");
}

#[test]
fn rust_is_the_header() {
    let (c, own) = (header(&header_text()).unwrap(), rust(&rust_text()).unwrap());
    assert_eq!(c, own, "\nthe header:\n{c}\nRust:\n{own}");
    let names: Vec<&str> = own.functions.iter().map(|f| f.name.as_str()).collect();
    let seven = ["agree", "build", "check", "inside", "meet", "near", "widen"];
    assert_eq!(names, seven.map(|name| format!("kneukelboom_{name}")));
}

#[test]
fn numbers_are_the_headers() {
    use kneukelboom::lent::{line, word};
    for (name, number) in [
        ("BUILT", word::BUILT),
        ("ACCEPTED", word::ACCEPTED),
        ("YES", word::YES),
        ("NO", word::NO),
        ("INSIDE", word::INSIDE),
        ("OUTSIDE", word::OUTSIDE),
        ("ON", word::ON),
        ("UNDECIDED", word::UNDECIDED),
        ("REFUSED", word::REFUSED),
        ("NO_LINE", line::NO_LINE),
        ("LINE_A", line::LINE_A),
        ("LINE_B", line::LINE_B),
        ("REFUSED_ODD_LENGTH", Refusal::ODD_LENGTH),
        ("REFUSED_TOO_FEW_POINTS", Refusal::TOO_FEW_POINTS),
        ("REFUSED_TOO_MANY_POINTS", Refusal::TOO_MANY_POINTS),
        ("REFUSED_POINT_OFF_SHEET", Refusal::POINT_OFF_SHEET),
        ("REFUSED_EQUAL_NEIGHBOURS", Refusal::EQUAL_NEIGHBOURS),
        ("REFUSED_SHORT_TABLE", Refusal::SHORT_TABLE),
        ("REFUSED_DISTANCE", Refusal::DISTANCE),
        ("REFUSED_ASKED_OFF_SHEET", Refusal::ASKED_OFF_SHEET),
        ("REFUSED_NO_RING", Refusal::NO_RING),
        ("REFUSED_BAD_ROW", Refusal::BAD_ROW),
        ("REFUSED_ROW_NOT_GOOD", Refusal::ROW_NOT_GOOD),
        ("REFUSED_POINT_LEFT_OUT", Refusal::POINT_LEFT_OUT),
    ] {
        assert_eq!(
            header_number(&format!("KNEUKELBOOM_{name}")),
            u64::from(number),
            "{name}"
        );
    }
}

#[test]
fn limits_are_the_proved_sources() {
    let limits = without_comments(&text("crates/limits/src/lib.rt"));
    let columns = without_comments(&text("crates/limits/src/column.rt"));
    for (proved, name, own) in [
        (
            constant(&limits, "FEWEST"),
            "FEWEST_POINTS",
            kneukelboom::FEWEST_POINTS,
        ),
        (
            constant(&limits, "MOST"),
            "MOST_POINTS",
            kneukelboom::MOST_POINTS,
        ),
        (
            constant(&limits, "LIMIT"),
            "SHEET",
            kneukelboom::SHEET as usize,
        ),
        (
            constant(&limits, "FARTHEST"),
            "FARTHEST",
            kneukelboom::FARTHEST as usize,
        ),
        (
            constant(&columns, "YMAX") + 1,
            "ROW_WIDTH",
            kneukelboom::ROW_WIDTH,
        ),
    ] {
        assert_eq!(proved, own as u64, "{name}");
        assert_eq!(
            header_number(&format!("KNEUKELBOOM_{name}")),
            proved,
            "{name}"
        );
    }
    assert!(limits.contains("pub const WIDTH: usize = column::YMAX + 1;"));
    let lengths = "((points_len) < 4 ? 0 : KNEUKELBOOM_ROW_WIDTH * ((points_len) - 3))";
    assert!(header_text().contains(lengths));
    let rows = [0, 1, 3, 2 * (kneukelboom::MOST_POINTS - 1) - 1];
    let numbers = [3, 4, 6, 2 * kneukelboom::MOST_POINTS];
    assert_eq!(
        numbers.map(lent::table_len),
        rows.map(|rows| kneukelboom::ROW_WIDTH * rows)
    );
}

/// The source as it should be, for the self-test: so it does not depend on the layout of the real one.
const RATTLE: &str = r#"
// pub extern "C" fn kneukelboom_gone() is only spoken of
ghost use mathlib.Core.Path.{_≡_};

#[repr(C)]
pub struct Reply {
    pub word: u32, // which
    pub visits: u32,
    pub number: u32,
    pub line: u32,
    pub place: u64,
}

#[unsafe(no_mangle)]
pub extern "C" fn kneukelboom_build_v2(points: &[i64], table: &mut [i64]) -> Reply
    ensures { λ r. ⌜ r ≡ said (now (points .entry)) ⌝ }
{
    told(points, table)
}

fn told(points: &[i64]) -> Reply
    requires { ⌜ 1 ≤ 2 ⌝ }
{
    Reply { word: 0, visits: 0, number: 0, line: 0, place: 0 }
}

#[unsafe(no_mangle)]
pub extern "C" fn kneukelboom_widen_v2(old: &[i32], new: &mut [i64]) -> Reply {
    told(old, new)
}

#[unsafe(no_mangle)]
pub extern "C" fn kneukelboom_check_v2(points: &[i64], table: &[i64]) -> Reply { told(points) }

#[unsafe(no_mangle)]
pub extern "C" fn kneukelboom_near_v2(
    points: &[i64], table: &[i64], x: i64, y: i64, distance: i64, allowance: u32) -> Reply {
    told(points, table)
}

#[unsafe(no_mangle)]
pub extern "C" fn kneukelboom_inside_v2(
    points: &[i64], table: &[i64], x: i64, y: i64, allowance: u32) -> Reply { told(points) }

#[unsafe(no_mangle)]
pub extern "C" fn kneukelboom_meet_v2(
    points_a: &[i64],
    table_a: &[i64],
    points_b: &[i64],
    table_b: &[i64],
    allowance: u32,
) -> Reply {
    told(points_a)
}

#[unsafe(no_mangle)]
pub extern "C" fn kneukelboom_agree_v2(
    points_a: &[i64],
    table_a: &[i64],
    points_b: &[i64],
    table_b: &[i64],
    distance: i64,
    allowance: u32,
) -> Reply {
    told(points_a)
}
"#;

/// Each alteration must make a text unreadable or different from the header.
fn each_is_found_out(text: &str, read: fn(&str) -> Read, alterations: &[(&str, &str)]) {
    let right = header(&header_text());
    assert_eq!(read(text), right, "the text itself is right");
    for (old, new) in alterations {
        let altered = text.replacen(old, new, 1);
        assert!(altered != text, "there is no {old:?} to alter");
        assert!(
            read(&altered) != right,
            "{old:?} became {new:?} and was not found out"
        );
    }
}

#[test]
fn altered_rattle_is_found_out() {
    each_is_found_out(
        RATTLE,
        rattle,
        &[
            ("x: i64, y: i64", "y: i64, x: i64"),
            ("x: i64", "x: u64"),
            ("allowance: u32", "allowance: u64"),
            ("table: &mut [i64]", "table: &[i64]"),
            ("table: &[i64]", "table: &mut [i64]"),
            ("points: &[i64], table", "points: &[u32], table"),
            ("old: &[i32]", "old: &[i64]"),
            ("new: &mut [i64]", "new: &[i64]"),
            ("new: &mut [i64]", "more: &mut [i64]"),
            (
                "old: &[i32], new: &mut [i64]",
                "new: &mut [i64], old: &[i32]",
            ),
            (
                "check_v2(points: &[i64], table: &[i64])",
                "check_v2(points: &[i64], table: &mut [i64])",
            ),
            (
                "check_v2(points: &[i64], table: &[i64])",
                "check_v2(points: &[i64], table: &[i64], allowance: u32)",
            ),
            ("distance: i64, ", ""),
            ("kneukelboom_meet_v2", "kneukelboom_meets_v2"),
            ("kneukelboom_meet_v2", "kneukelboom_meet_v3"),
            ("kneukelboom_meet_v2", "kneukelboom_meet"),
            ("#[unsafe(no_mangle)]\n", ""),
            (
                "#[unsafe(no_mangle)]\npub extern",
                "#[unsafe(no_mangle)]\nextern",
            ),
            ("    ensures {", "    requires { ⌜ 1 ≤ 2 ⌝ }\n    ensures {"),
            (
                "    pub visits: u32,\n    pub number: u32,",
                "    pub number: u32,\n    pub visits: u32,",
            ),
            ("    pub line: u32,\n", ""),
            ("pub place: u64", "pub place: u32"),
            ("pub place: u64,", "pub place: u64,\n    pub more: u64,"),
            ("#[repr(C)]", ""),
            (") -> Reply {", ") -> u32 {"),
            (
                "    points_b: &[i64],\n    table_b: &[i64],",
                "    table_b: &[i64],\n    points_b: &[i64],",
            ),
        ],
    );
}

#[test]
fn altered_header_is_found_out() {
    each_is_found_out(
        &header_text(),
        header,
        &[
            (
                "kneukelboom_reply kneukelboom_meet(",
                "kneukelboom_reply kneukelboom_meets(",
            ),
            (
                "kneukelboom_reply kneukelboom_meet(",
                "uint32_t kneukelboom_meet(",
            ),
            (
                "#define KNEUKELBOOM_VERSION 2",
                "#define KNEUKELBOOM_VERSION 3",
            ),
            ("#define kneukelboom_meet ", "#define kneukelboom_meets "),
            (
                "KNEUKELBOOM_SYMBOL(kneukelboom_meet_v,",
                "KNEUKELBOOM_SYMBOL(kneukelboom_near_v,",
            ),
            ("int64_t x, int64_t y,", "uint64_t x, int64_t y,"),
            (
                "int64_t y, int64_t distance,",
                "int64_t distance, int64_t y,",
            ),
            (
                "int64_t y, uint32_t allowance",
                "int32_t y, uint32_t allowance",
            ),
            ("int64_t *table,", "const int64_t *table,"),
            ("const int64_t *table,", "int64_t *table,"),
            (
                "const int64_t *points, size_t points_len",
                "size_t points_len, const int64_t *points",
            ),
            ("size_t points_len", "uint32_t points_len"),
            ("const int32_t *old,", "const int64_t *old,"),
            ("const int32_t *old,", "int32_t *old,"),
            ("int64_t *wide,", "int32_t *wide,"),
            ("int64_t *wide,", "const int64_t *wide,"),
            (
                "#define kneukelboom_check KNEUKELBOOM_SYMBOL(kneukelboom_check_v,",
                "#define kneukelboom_check KNEUKELBOOM_SYMBOL(kneukelboom_build_v,",
            ),
            ("    uint32_t line; ", "    uint64_t line; "),
            ("    uint64_t place; ", "    /* gone */ "),
            ("    uint32_t word; ", "    uint32_t first; uint32_t word; "),
            (
                "kneukelboom_reply kneukelboom_build(",
                "// kneukelboom_reply kneukelboom_build(",
            ),
            (
                "kneukelboom_reply kneukelboom_build(",
                "kneukelboom_reply kneukelboom_more(void);\nkneukelboom_reply kneukelboom_build(",
            ),
        ],
    );
}

#[test]
fn altered_rust_is_found_out() {
    each_is_found_out(
        &rust_text(),
        rust,
        &[
            ("x: i64,\n        y: i64,", "y: i64,\n        x: i64,"),
            ("x: i64", "x: u64"),
            ("table: *mut i64", "table: *const i64"),
            ("old: *const i32", "old: *const i64"),
            ("wide: *mut i64", "wide: *const i64"),
            (
                "points: *const i64,\n        points_len: usize,",
                "points_len: usize,\n        points: *const i64,",
            ),
            (
                "points_len: usize,\n        table",
                "points_len: u32,\n        table",
            ),
            ("\"kneukelboom_check_v2\"", "\"kneukelboom_build_v2\""),
            ("fn kneukelboom_meet(", "fn kneukelboom_meets("),
            ("\"kneukelboom_meet_v2\"", "\"kneukelboom_meet_v3\""),
            ("\"kneukelboom_meet_v2\"", "\"kneukelboom_near_v2\""),
            ("    pub visits: u32,", "    pub visits: u64,"),
            ("#[repr(C)]", ""),
        ],
    );
}
