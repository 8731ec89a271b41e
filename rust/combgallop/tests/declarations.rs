//! The C functions are declared in Rust as the header declares them. Linking would not
//! show a difference.

use std::collections::BTreeMap;

const HEADER: &str = include_str!("../../../include/combgallop.h");
const DECLARATIONS: &str = include_str!("../src/ffi.rs");

/// The functions' names, and the parameters of each as Rust writes them.
type Functions = BTreeMap<String, Vec<String>>;

/// The functions that are declared between a start and an end like these.
fn functions(text: &str, start: &str, end: &str, parameter: fn(&str) -> String) -> Functions {
    let declared = text.split(start).skip(1).map(|rest| {
        let (name, rest) = rest.split_once('(').expect("parameters");
        let (parameters, rest) = rest.split_once(')').expect("the parameters' end");
        assert!(
            rest.starts_with(end),
            "{name} is not declared as the others"
        );
        let parameters = parameters.split(',').map(str::trim);
        let parameters = parameters.filter(|text| !text.is_empty());
        (name.to_string(), parameters.map(parameter).collect())
    });
    declared.collect()
}

/// A parameter of the header: its type, then its name.
fn from_c(parameter: &str) -> String {
    let name_at = parameter.rfind([' ', '*']).expect("a type and a name") + 1;
    let (c_type, name) = parameter.split_at(name_at);
    let rust_type = match c_type.trim() {
        "const uint8_t *" => "*const u8",
        "uint8_t *" => "*mut u8",
        "const uint32_t *" => "*const u32",
        "uint32_t *" => "*mut u32",
        "size_t" => "usize",
        "uint32_t" => "u32",
        "bool" => "bool",
        other => panic!("{other} has no Rust type here"),
    };
    format!("{name}: {rust_type}")
}

#[test]
fn declared_as_in_the_header() {
    let of_header = functions(HEADER, "uint64_t cg_", ";", from_c);
    let of_rust = functions(DECLARATIONS, "pub fn cg_", " -> u64;", str::to_string);
    assert!(of_header.contains_key("report"), "{of_header:?}");
    assert_eq!(of_rust, of_header);
}
