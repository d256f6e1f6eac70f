//! The stored cases and the examples: `report` in each folder, compared byte by byte by
//! tests/cases/check.
use std::path::Path;
use std::process::Command;

#[test]
fn report_prints_what_is_stored() {
    let script = Path::new(env!("CARGO_MANIFEST_DIR")).join("../cases/check");
    let output = Command::new("bash")
        .arg(script)
        .output()
        .expect("bash runs");
    let printed = String::from_utf8_lossy(&output.stdout).into_owned();
    let last = printed.lines().last().unwrap_or_default();
    let passed: usize = last
        .split(' ')
        .next()
        .and_then(|n| n.parse().ok())
        .unwrap_or(0);
    assert!(
        output.status.success() && last.ends_with(" passed, 0 failed"),
        "{printed}"
    );
    // 5 examples, the stored cases, and the sizes made by the script
    assert!(passed >= 85, "only {passed} cases ran");
}
