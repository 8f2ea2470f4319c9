//! The package against the header: the same constants, texts, fields and functions.

use dzyunagor::*;
use std::collections::BTreeMap;

const HEADER: &str = include_str!("../../include/dzyunagor.h");
const DECLARED: &str = include_str!("../src/c.rs");
const ANSWERS: &str = include_str!("../src/answers.rs");

/// The value of a constant of the header.
fn defined(name: &str) -> u64 {
    let start = format!("#define {name} ");
    let line = HEADER.lines().find_map(|line| line.strip_prefix(&start));
    line.and_then(|value| value.parse().ok()).unwrap_or_else(|| panic!("{name} is not in the header"))
}

/// What stands between two marks, for each place where the first one is.
fn between<'a>(text: &'a str, first: &'a str, last: &'a str) -> Vec<&'a str> {
    text.split(first).skip(1).filter_map(|rest| rest.split_once(last).map(|(part, _)| part)).collect()
}

/// A C declaration `type name` as Rust writes it, `name: type`.
fn as_rust(declared: &str) -> String {
    let cut = declared.rfind([' ', '*']).expect("a type, then a name") + 1;
    let (kind, name) = (declared[..cut].trim(), &declared[cut..]);
    let (base, pointer) = match (kind.strip_suffix('*'), kind.starts_with("const ")) {
        (None, _) => (kind, ""),
        (Some(base), true) => (base.trim_start_matches("const "), "*const "),
        (Some(base), false) => (base, "*mut "),
    };
    format!("{name}: {pointer}{}", rust_type(base.trim()))
}

fn rust_type(c: &str) -> String {
    match c {
        "size_t" => "usize".to_string(),
        "uint8_t" => "u8".to_string(),
        "uint16_t" => "u16".to_string(),
        "uint32_t" => "u32".to_string(),
        "uint64_t" => "u64".to_string(),
        answer => {
            let name = answer.strip_prefix("dzy_").expect("a type of the header");
            name[..1].to_uppercase() + &name[1..]
        }
    }
}

fn words(text: &str) -> String {
    text.split_whitespace().collect::<Vec<_>>().join(" ")
}

#[test]
fn constants_agree() {
    assert_eq!(defined("DZY_MOST_FACTS"), MOST_FACTS as u64);
    assert_eq!(defined("DZY_MOST_BUNDLE"), MOST_BUNDLE as u64);
    assert_eq!(defined("DZY_MOST_THING"), MOST_THING);
    assert_eq!(defined("DZY_NO_PARTNER"), u64::from(NO_PARTNER));
    assert_eq!(defined("DZY_NO_ITEM"), u64::from(c::NO_ITEM));
    for (name, mark) in [("KEPT", Mark::Kept), ("ALONE", Mark::Alone), ("DISPUTED", Mark::Disputed)] {
        assert_eq!(defined(&format!("DZY_{name}")), mark as u64);
    }
    for (name, side) in [("RULES", Side::Rules), ("BUNDLE", Side::Bundle), ("CALL", Side::Call)] {
        assert_eq!(defined(&format!("DZY_{name}")), side as u64);
    }
}

#[test]
fn refusals_agree() {
    let cases = between(HEADER, "    case DZY_", "\";\n");
    let texts: Vec<(u64, &str)> = cases
        .iter()
        .map(|case| case.split_once(": return \"").expect("a text"))
        .map(|(name, text)| (defined(&format!("DZY_{name}")), text))
        .collect();
    let due: Vec<(u64, &str)> = RefusalNumber::ALL.iter().map(|&number| (number as u64, number.text())).collect();
    assert_eq!(texts, due);
}

#[test]
fn structs_agree() {
    let plain = |body: &str| -> Vec<String> {
        let fields = body.lines().filter_map(|line| line.split_once(';'));
        fields.map(|(field, _)| as_rust(field.trim())).collect()
    };
    let rust = |body: &str| -> Vec<String> {
        let lines = body.lines().map(|line| line.trim().trim_start_matches("pub "));
        let fields = lines.filter(|line| line.ends_with(',') && !line.starts_with("//"));
        fields.map(|field| field.trim_end_matches(',').to_string()).collect()
    };
    let due: BTreeMap<_, _> = between(HEADER, "typedef struct dzy_", "} dzy_")
        .iter()
        .map(|part| part.split_once(" {").expect("a body"))
        .map(|(name, body)| (rust_type(&format!("dzy_{name}")), plain(body)))
        .collect();
    let written = [between(ANSWERS, "struct ", "\n}"), between(DECLARED, "struct ", "\n}")].concat();
    let declared: BTreeMap<_, _> = written
        .iter()
        .map(|part| part.split_once(" {").expect("a body"))
        .map(|(name, body)| (name.to_string(), rust(body)))
        .collect();
    assert_eq!(declared, due);
    assert_eq!(declared.len(), 9);
}

#[test]
fn functions_agree() {
    let due: Vec<String> = between(HEADER, "\ndzy_", ");")
        .iter()
        .map(|part| part.split_once('(').expect("arguments"))
        .map(|(head, arguments)| {
            let (answer, name) = head.split_once(' ').expect("an answer, then a name");
            let arguments: Vec<String> = arguments.split(',').map(|one| as_rust(&words(one))).collect();
            format!("{name}({}) -> {}", arguments.join(", "), rust_type(&format!("dzy_{answer}")))
        })
        .collect();
    let block = between(DECLARED, "extern \"C\" {", "\n}")[0];
    let declared: Vec<String> =
        between(block, "    fn ", ";").iter().map(|one| words(one).replace("( ", "(").replace(", )", ")")).collect();
    assert_eq!(declared, due);
    assert_eq!(declared.len(), 12);
}
