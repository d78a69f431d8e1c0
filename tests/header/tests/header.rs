//! include/winder.h and include/rust declare what crate winder_c exports, and a
//! header that is changed in any one way is found.

use header::{declared, differences, exported, imported, wrapper_differences, Function};
use std::fs;
use std::path::{Path, PathBuf};

fn path(of: &str) -> PathBuf {
    Path::new(env!("CARGO_MANIFEST_DIR")).join("../..").join(of)
}

fn text(of: &str) -> String {
    fs::read_to_string(path(of)).expect("a file of the repository")
}

fn header() -> String {
    text("include/winder.h")
}

/// The functions that the crate's files export.
fn exports() -> Vec<Function> {
    let mut functions = Vec::new();
    for entry in fs::read_dir(path("crates/winder_c/src")).expect("the crate's folder") {
        let path = entry.expect("a file of the crate").path();
        let source = fs::read_to_string(&path).expect("a file of the crate");
        functions.extend(exported(&source).unwrap_or_else(|error| panic!("{path:?}: {error}")));
    }
    functions
}

/// The prototype of a function in the header, from its result to its
/// semicolon.
fn prototype(name: &str) -> String {
    let header = header();
    let results = ["uint32_t", "uint8_t"];
    let mut starts = results.iter().map(|result| format!("\n{result} {name}("));
    let start = starts.find_map(|start| header.find(&start));
    let from = &header[start.expect("a prototype") + 1..];
    let end = from.find(';').expect("the prototype's end");
    from[..=end].to_string()
}

/// What is found in the header with another text for a function's prototype.
fn found_with(name: &str, new: &str) -> Vec<String> {
    let header = header().replace(&prototype(name), new);
    differences(
        &exports(),
        &declared(&header).expect("prototypes").functions,
    )
}

/// Changes a function's prototype, and expects that to be all that is found.
fn is_found(name: &str, old: &str, new: &str) {
    let prototype = prototype(name);
    assert_eq!(prototype.matches(old).count(), 1, "'{old}' in {name}");
    let found = found_with(name, &prototype.replace(old, new));
    assert_eq!(found.len(), 1, "{found:#?}");
    assert!(found[0].starts_with(name), "{found:#?}");
}

#[test]
fn the_header_declares_what_the_crate_exports() {
    let exports = exports();
    assert_eq!(exports.len(), 22);
    let declared = declared(&header()).expect("prototypes");
    assert_eq!(
        differences(&exports, &declared.functions),
        Vec::<String>::new()
    );
    assert_eq!(wrapper_differences(&declared), Vec::<String>::new());
    assert_eq!(declared.wrappers.len(), 3);
}

/// What stands before a function's body, of each function that begins so: its
/// name, parameters, result and clauses, however they are laid out.
fn heads(source: &str, begin: &str) -> Vec<String> {
    let head = |rest: &str| {
        let head = rest.split("\n{\n").next().expect("a body");
        let words: Vec<&str> = head.split_whitespace().collect();
        words.join(" ").replace("( ", "(").replace(", )", ")")
    };
    source.split(begin).skip(1).map(head).collect()
}

#[test]
fn each_export_has_the_clauses_of_the_function_that_it_calls() {
    let mut count = 0;
    for entry in fs::read_dir(path("crates/winder_c/src")).expect("the crate's folder") {
        let name = entry.expect("a file of the crate").file_name();
        let name = name.to_str().expect("a name").to_string();
        if name == "lib.rt" {
            continue;
        }
        let exports = text(&format!("crates/winder_c/src/{name}"));
        let called = text(&format!("crates/winder/src/{name}"));
        let exported = heads(&exports, "\n#[unsafe(no_mangle)]\npub extern \"C\" fn ");
        let public = heads(&called, "\npub fn ");
        assert_eq!(exported, public, "{name}");
        count += exported.len();
    }
    assert_eq!(count, exports().len());
}

#[test]
fn the_declarations_for_rust_are_what_the_crate_exports() {
    let imports = imported(&text("include/rust/src/declarations.rs")).expect("a block");
    assert_eq!(differences(&exports(), &imports), Vec::<String>::new());
}

/// Where each constant stands in the crates; `#` is its number. The kind of a
/// missing reading stands nowhere: it is any but the two others.
const CONSTANTS: [(&str, &str, &str); 39] = [
    ("WINDER_VERSION", "winder/src/version.rt", "{\n    #\n}"),
    ("WINDER_STATES_MAX", "frame/src/lib.rt", "in_range(n, #)"),
    ("WINDER_READINGS_MAX", "frame/src/lib.rt", "in_range(m, #)"),
    ("WINDER_COMMANDS_MAX", "frame/src/lib.rt", "in_range(p, #)"),
    (
        "WINDER_COEFFICIENT_MAX",
        "law/src/ranges.rt",
        "..=#).contains(&coefficient)",
    ),
    (
        "WINDER_FRAME_AREA",
        "frame/src/lengths.rt",
        "LONGEST_FRAME: usize = #;",
    ),
    (
        "WINDER_COMMAND_AREA",
        "frame/src/lengths.rt",
        "LONGEST_COMMAND: usize = #;",
    ),
    (
        "WINDER_ENTRY_WORDS",
        "pages/src/entries.rt",
        "WORDS: usize = #;",
    ),
    (
        "WINDER_PAGE_LINES",
        "pages/src/lines.rt",
        "MOST: usize = #;",
    ),
    ("WINDER_PAGE_AREA", "pages/src/lines.rt", "PAGE: usize = #;"),
    (
        "WINDER_RECORD",
        "records/src/lengths.rt",
        "RECORD: usize = #;",
    ),
    (
        "WINDER_MISSED_MAX",
        "records/src/returning.rt",
        "MOST_MISSED: u32 = #;",
    ),
    (
        "WINDER_TICKETED",
        "ticketed/src/lengths.rt",
        "TICKETED: usize = #;",
    ),
    (
        "WINDER_IGNORED",
        "winder/src/answers.rt",
        "Answer::Ignored => #,",
    ),
    (
        "WINDER_MISSING",
        "transmitters/src/numbers.rt",
        "_ => Reading::Missing,",
    ),
    (
        "WINDER_COUNT",
        "transmitters/src/numbers.rt",
        "# => Reading::Count(",
    ),
    (
        "WINDER_SINGLE",
        "transmitters/src/numbers.rt",
        "# => Reading::Newtons(",
    ),
    ("WINDER_PROPOSE", "frame/src/kinds.rt", "PROPOSE: u8 = #;"),
    ("WINDER_ACK", "frame/src/kinds.rt", "ACK: u8 = #;"),
    ("WINDER_DECIDE", "frame/src/kinds.rt", "DECIDE: u8 = #;"),
    ("WINDER_ESTIMATE", "frame/src/kinds.rt", "ESTIMATE: u8 = #;"),
    (
        "WINDER_REFUSED_GROUP",
        "refusal/src/lib.rt",
        "Refusal::Group => #,",
    ),
    (
        "WINDER_REFUSED_SIZES",
        "refusal/src/lib.rt",
        "Refusal::Sizes => #,",
    ),
    (
        "WINDER_REFUSED_COEFFICIENT",
        "refusal/src/lib.rt",
        "Refusal::Coefficient => #,",
    ),
    (
        "WINDER_REFUSED_LIMITS",
        "refusal/src/lib.rt",
        "Refusal::Limits => #,",
    ),
    (
        "WINDER_REFUSED_AREA",
        "refusal/src/lib.rt",
        "Refusal::Area => #,",
    ),
    (
        "WINDER_REFUSED_LAST_PERIOD",
        "refusal/src/lib.rt",
        "Refusal::LastPeriod => #,",
    ),
    (
        "WINDER_REFUSED_MARK",
        "refusal/src/lib.rt",
        "Refusal::Mark => #,",
    ),
    (
        "WINDER_REFUSED_FRAME",
        "refusal/src/lib.rt",
        "Refusal::Frame => #,",
    ),
    (
        "WINDER_REFUSED_SENDER",
        "refusal/src/lib.rt",
        "Refusal::Sender => #,",
    ),
    (
        "WINDER_REFUSED_PLACE",
        "refusal/src/lib.rt",
        "Refusal::Place => #,",
    ),
    (
        "WINDER_REFUSED_BASE",
        "refusal/src/lib.rt",
        "Refusal::Base => #,",
    ),
    (
        "WINDER_REFUSED_LAST_VIEW",
        "refusal/src/lib.rt",
        "Refusal::LastView => #,",
    ),
    (
        "WINDER_REFUSED_PAGE_AREA",
        "refusal/src/lib.rt",
        "Refusal::PageArea => #,",
    ),
    (
        "WINDER_REFUSED_PERIODS",
        "refusal/src/lib.rt",
        "Refusal::Page => #,",
    ),
    (
        "WINDER_REFUSED_RECORD",
        "refusal/src/lib.rt",
        "Refusal::Record => #,",
    ),
    (
        "WINDER_REFUSED_MISSED",
        "refusal/src/lib.rt",
        "Refusal::Missed => #,",
    ),
    (
        "WINDER_REFUSED_TICKET",
        "refusal/src/lib.rt",
        "Refusal::Ticket => #,",
    ),
    (
        "WINDER_REFUSED_QUORUMS",
        "refusal/src/lib.rt",
        "Refusal::Quorums => #,",
    ),
];

#[test]
fn each_constant_is_what_the_crates_have() {
    let constants = declared(&header()).expect("constants").constants;
    let names: Vec<&str> = constants
        .iter()
        .map(|constant| constant.name.as_str())
        .collect();
    assert_eq!(names, CONSTANTS.map(|(name, ..)| name));
    for (constant, (name, file, place)) in constants.iter().zip(CONSTANTS) {
        let place = place.replace('#', &constant.value.to_string());
        assert!(
            text(&format!("crates/{file}")).contains(&place),
            "{name}: {place}"
        );
    }
}

/// The number of a constant of the header.
fn constant(name: &str) -> usize {
    let constants = declared(&header()).expect("constants").constants;
    let found = constants.iter().find(|constant| constant.name == name);
    found.expect("a constant of the header").value
}

#[test]
fn a_missing_reading_has_a_kind_of_its_own() {
    let missing = constant("WINDER_MISSING");
    let others = ["WINDER_COUNT", "WINDER_SINGLE"].map(constant);
    assert!(!others.contains(&missing));
}

#[test]
fn the_constants_for_rust_are_those_of_the_header() {
    let source = text("include/rust/src/lib.rs");
    for (name, number) in [
        ("VERSION", "u32"),
        ("ENTRY_WORDS", "usize"),
        ("PAGE_AREA", "usize"),
        ("RECORD", "usize"),
        ("MISSED_MAX", "u32"),
        ("TICKETED", "usize"),
        ("IGNORED", "u32"),
    ] {
        let value = constant(&format!("WINDER_{name}"));
        let place = format!("pub const {name}: {number} = {value};\n");
        assert!(source.contains(&place), "{place}");
    }
}

#[test]
fn the_version_is_the_same_wherever_it_stands() {
    let version = constant("WINDER_VERSION");
    let (major, minor) = (version / 100, version % 100);
    let places = [
        (
            "include/winder.h",
            format!("WINDER_VERSION_TEXT \"{major}.{minor}\"\n"),
        ),
        (
            "include/rust/Cargo.toml",
            format!("version = \"{major}.{minor}.0\"\n"),
        ),
    ];
    for (file, place) in places {
        assert!(text(file).contains(&place), "{file}: {place}");
    }
}

#[test]
fn a_wrong_wrapper_is_found() {
    for (old, new) in [
        ("settings->low,", "settings->high,"),
        (
            "settings->c,\n        settings->k,",
            "settings->k,\n        settings->c,",
        ),
        ("settings->p,", ""),
        ("int32_t k[24];", "int32_t k[36];"),
        ("size_t m;", "uint32_t m;"),
        (
            "values,\n        state,\n        limited);",
            "state,\n        values,\n        limited);",
        ),
        ("commands,\n        limited);", "commands);"),
        ("return winder_command(", "return winder_update("),
        ("winder_update_with", "winder_updated_with"),
        (
            "start,\n        boxes,\n        own,",
            "start,\n        own,\n        boxes,",
        ),
        (
            "own,\n        to_decide,\n        to_propose,",
            "own,\n        to_propose,\n        to_decide,",
        ),
        (
            "settings->high,\n        start,",
            "start,\n        settings->high,",
        ),
    ] {
        let changed = header().replacen(old, new, 1);
        let found = wrapper_differences(&declared(&changed).expect("wrappers"));
        assert!(!found.is_empty(), "{new}");
    }
}

#[test]
fn exchanged_parameters_are_found() {
    let (limits, exchanged) = (
        "low[4],\n    const int32_t high[4]",
        "high[4],\n    const int32_t low[4]",
    );
    is_found("winder_update", limits, exchanged);
    let (sizes, exchanged) = ("size_t n,\n    size_t m", "size_t m,\n    size_t n");
    is_found("winder_read_frame", sizes, exchanged);
    let (bytes, exchanged) = (
        "const uint8_t *bytes,\n    size_t bytes_length",
        "size_t bytes_length,\n    const uint8_t *bytes",
    );
    is_found("winder_read_frame", bytes, exchanged);
    let (conversion, exchanged) = (
        "uint32_t bits, int32_t *value",
        "int32_t *value, uint32_t bits",
    );
    is_found("winder_convert_single", conversion, exchanged);
    let (numbers, exchanged) = ("boxes,\n    uint8_t own", "own,\n    uint8_t boxes");
    is_found("winder_make", numbers, exchanged);
    let (quorums, exchanged) = (
        "to_decide,\n    uint8_t to_propose",
        "to_propose,\n    uint8_t to_decide",
    );
    is_found("winder_make", quorums, exchanged);
    let (readings, exchanged) = (
        "const uint8_t kinds[4],\n    const uint32_t bits[4]",
        "const uint32_t bits[4],\n    const uint8_t kinds[4]",
    );
    is_found("winder_tick", readings, exchanged);
    let (areas, exchanged) = (
        "*frame,\n    size_t frame_length,\n    uint8_t *command,\n    size_t command_length",
        "*command,\n    size_t command_length,\n    uint8_t *frame,\n    size_t frame_length",
    );
    is_found("winder_give_up", areas, exchanged);
    let (areas, exchanged) = (
        "*area,\n    size_t area_length,\n    uint8_t *frame,\n    size_t frame_length",
        "*frame,\n    size_t frame_length,\n    uint8_t *area,\n    size_t area_length",
    );
    is_found("winder_ask_arrive", areas, exchanged);
}

#[test]
fn another_name_is_found() {
    is_found("winder_command", "commands[4]", "command[4]");
    let renamed = prototype("winder_command").replace("winder_command", "winder_commands");
    let found = found_with("winder_command", &renamed);
    let expected = [
        "winder_command is not declared",
        "winder_commands is not exported",
    ];
    assert_eq!(found, expected);
}

#[test]
fn another_size_is_found() {
    is_found("winder_update", "a[36]", "a[24]");
    is_found("winder_command", "state[6]", "state[7]");
    is_found(
        "winder_read_frame",
        "kind_and_sender[2]",
        "*kind_and_sender",
    );
    is_found("winder_write_frame", "*length", "length[1]");
    is_found("winder_convert_single", "*value", "value[4]");
    is_found("winder_make", "start[6]", "start[4]");
    is_found("winder_arrive", "lengths[2]", "*lengths");
    is_found("winder_ask_tick", "ticket[1]", "*ticket");
    is_found("winder_read_command", "*limited", "limited[1]");
}

#[test]
fn a_missing_const_is_found() {
    is_found("winder_update", "const int32_t values", "int32_t values");
    is_found(
        "winder_read_frame",
        "const uint8_t *bytes",
        "uint8_t *bytes",
    );
    is_found("winder_return", "const uint8_t *stored", "uint8_t *stored");
    is_found("winder_tickets", "const uint8_t *", "uint8_t *");
}

#[test]
fn an_added_const_is_found() {
    is_found("winder_read_frame", "int32_t state", "const int32_t state");
    is_found("winder_write_frame", "uint8_t *area", "const uint8_t *area");
    is_found("winder_convert_single", "int32_t *v", "const int32_t *v");
    is_found("winder_tick", "uint8_t *replica", "const uint8_t *replica");
    is_found("winder_record", "uint8_t *area", "const uint8_t *area");
    is_found("winder_update", "uint8_t *l", "const uint8_t *l");
}

#[test]
fn another_type_is_found() {
    is_found("winder_read_frame", "uint32_t counters", "int32_t counters");
    is_found("winder_read_frame", "size_t n", "uint32_t n");
    is_found("winder_update", "uint32_t winder", "int32_t winder");
    is_found("winder_convert_single", "uint8_t winder", "uint32_t winder");
    is_found("winder_convert_single", "uint32_t bits", "int32_t bits");
    is_found("winder_return", "uint32_t missed", "size_t missed");
    is_found("winder_make", "uint8_t own", "size_t own");
    is_found("winder_commit", "uint64_t ticket", "uint32_t ticket");
    is_found("winder_ask_tick", "uint64_t ticket", "int64_t ticket");
    is_found("winder_command", "uint8_t *limited", "uint32_t *limited");
}

#[test]
fn a_missing_parameter_is_found() {
    is_found("winder_command", "    size_t p,\n", "");
    for name in ["winder_update", "winder_command", "winder_read_command"] {
        is_found(name, ",\n    uint8_t *limited", "");
    }
}

#[test]
fn a_missing_function_is_found() {
    let missing = ["winder_command is not declared"];
    assert_eq!(found_with("winder_command", ""), missing);
    let comment = format!("/* {} */", prototype("winder_command"));
    assert_eq!(found_with("winder_command", &comment), missing);
}

#[test]
fn an_additional_function_is_found() {
    let prototype = prototype("winder_command");
    let more = format!("{prototype}\nuint32_t winder_reset(size_t n);");
    let additional = ["winder_reset is not exported"];
    assert_eq!(found_with("winder_command", &more), additional);
    let twice = format!("{prototype}\n{prototype}");
    let doubled = ["winder_command is declared 2 times"];
    assert_eq!(found_with("winder_command", &twice), doubled);
}

#[test]
fn what_is_no_prototype_is_refused() {
    for text in [
        "#define int32_t int64_t\n",
        "#if 0\n",
        "typedef int int32_t;",
        "static uint32_t f(size_t n) { return 0; }",
        "uint32_t f(size_t n)",
        "uint32_t f();",
        "enum e { A, B = 1 };",
        "struct s { size_t n; };",
        "#define WINDER_TWO 1 + 1\n",
        "uint32_t f(const size_t n);",
        "uint32_t f(int32_t a[]);",
        "} uint32_t f(size_t n);",
    ] {
        assert!(declared(text).is_err(), "{text}");
    }
}

#[test]
fn what_is_no_export_is_refused() {
    for text in [
        "pub extern \"C\" fn f(n: usize) -> u32 { 0 }",
        "#[unsafe(no_mangle)] fn f(n: usize) -> u32 { 0 }",
        "#[unsafe(no_mangle)] pub extern \"C\" fn f(n: usize) { }",
        "#[unsafe(no_mangle)] pub extern \"C\" fn f(n: bool) -> u32 { 0 }",
        "#[unsafe(no_mangle)] pub extern \"C\" fn f(s: Settings) -> u32 { 0 }",
    ] {
        assert!(exported(text).is_err(), "{text}");
    }
    let comment = "// #[unsafe(no_mangle)]\nfn f(n: usize) -> u32 { 0 }";
    assert_eq!(exported(comment), Ok(Vec::new()));
}
