//! The command's modules use each other one way only, as the list at the top of its main.rs says.

use std::fs;
use std::path::Path;

/// The modules that a source names after `crate::`, alone or in braces.
fn used(source: &str) -> Vec<&str> {
    let is_name = |c: char| c.is_alphanumeric() || c == '_';
    let after = source.split("crate::").skip(1);
    let named = after.flat_map(|rest| match rest.strip_prefix('{') {
        Some(list) => list.split('}').next().unwrap().split(',').map(str::trim).collect(),
        None => vec![rest],
    });
    named.filter_map(|path| path.split(|c| !is_name(c)).next()).filter(|name| !name.is_empty()).collect()
}

#[test]
fn each_module_uses_only_those_further_down() {
    let folder = Path::new(env!("CARGO_MANIFEST_DIR")).join("src/bin/hamrisk");
    let source = |name: &str| fs::read_to_string(folder.join(name)).unwrap();
    let main = source("main.rs");
    let lines: Vec<&str> = main.lines().filter_map(|line| line.strip_prefix("//! - ")).collect();
    let level = |module: &str| {
        let place = lines.iter().position(|line| line.contains(&format!("`{module}`")));
        place.unwrap_or_else(|| panic!("main.rs does not list {module}"))
    };
    let mut arrows = 0;
    for entry in fs::read_dir(&folder).unwrap() {
        let name = entry.unwrap().file_name().into_string().unwrap();
        let (module, text) = (name.trim_end_matches(".rs"), source(&name));
        for other in used(&text) {
            assert!(level(module) < level(other), "{module} uses {other}");
            arrows += 1;
        }
    }
    assert!(arrows > 15, "only {arrows} arrows are seen: the sources are read wrongly");
}
