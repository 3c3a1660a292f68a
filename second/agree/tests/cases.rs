//! The further bench cases, as the kit's own program prints them.

use std::fs;
use std::path::Path;

#[test]
fn same_text_as_the_kit() {
    let file = Path::new(env!("CARGO_MANIFEST_DIR")).join("../../crates/cases/stdout");
    let kit = fs::read_to_string(&file).expect("crates/cases/stdout");
    let oracle = cases::all();
    for (kit, oracle) in kit.lines().zip(oracle.lines()) {
        assert_eq!(kit, oracle);
    }
    assert_eq!(kit, oracle);
}
