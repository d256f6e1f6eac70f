//! What the program `report` prints, byte by byte.

use evaluator::listing::{CYCLE, PRINTED, RULES};
use evaluator::report;

fn printed(rules: &str, cycle: &str) -> String {
    bytes(Some(rules.into()), Some(cycle.into()))
}

fn bytes(rules: Option<Vec<u8>>, cycle: Option<Vec<u8>>) -> String {
    String::from_utf8(report(rules, cycle)).expect("printed bytes are ASCII")
}

#[test]
fn the_listing() {
    assert_eq!(printed(RULES, CYCLE), PRINTED);
}

#[test]
fn no_rules_print_nothing_and_no_events_only_totals() {
    assert_eq!(printed("", ""), "");
    assert_eq!(printed("", CYCLE), "");
    let totals = "total\t1\t0\t0\t0\ntotal\t2\t0\t0\t0\n";
    assert_eq!(printed(RULES, ""), totals);
}

#[test]
fn a_violation_of_a_negative_names_its_target() {
    // Not response in 0 to 11: position 1 at time 0 is violated by position 3 at
    // time 10; after position 4 no target comes.
    let rules = "9\t1\t2\t0\t11\t-\t-\n";
    let cycle = "0\t1\t-\t-\t-\t-\n5\t9\t-\t-\t-\t-\n10\t2\t-\t-\t-\t-\n20\t1\t-\t-\t-\t-\n";
    let expected = "1\t1\tV\t3\n1\t4\tF\t0\ntotal\t1\t2\t1\t1\n";
    assert_eq!(printed(rules, cycle), expected);
}

#[test]
fn positions_of_three_digits_and_rule_16() {
    let rules = "5\t2\t1\t0\t-\t-\t-\n".repeat(16);
    let cycle = "0\t9\t-\t-\t-\t-\n".repeat(254) + "0\t1\t-\t-\t-\t-\n0\t2\t-\t-\t-\t-\n";
    let expected: String = (1..=16)
        .map(|rule| format!("{rule}\t256\tF\t255\ntotal\t{rule}\t1\t1\t0\n"))
        .collect();
    assert_eq!(printed(&rules, &cycle), expected);
}

#[test]
fn refused_texts() {
    assert_eq!(printed("x", ""), "refused\trules\t12\t1\n");
    assert_eq!(printed("\n", ""), "refused\trules\t1\t1\n");
    let seventeen = "2\t1\t2\t0\t-\t-\t-\n".repeat(17);
    assert_eq!(printed(&seventeen, ""), "refused\trules\t8\t17\n");
    let five = RULES.replace("1=@1:0", "1=@1:0,1=5,1=5,1=5,1=5");
    assert_eq!(printed(&five, CYCLE), "refused\trules\t17\t2\n");
    let returned = CYCLE.replace("1500\t2\t7\t-\t-\t-", "1500\t2\t7\t-\t-\t-\r");
    assert_eq!(printed(RULES, &returned), "refused\tcycle\t2\t6\n");
    let unended = CYCLE.trim_end();
    assert_eq!(printed(RULES, unended), "refused\tcycle\t12\t6\n");
    let long = "0\t9\t-\t-\t-\t-\n".repeat(257);
    assert_eq!(printed(RULES, &long), "refused\tcycle\t8\t257\n");
}

#[test]
fn an_absent_file_is_13_with_line_0() {
    let good = || Some(RULES.as_bytes().to_vec());
    assert_eq!(bytes(None, None), "refused\trules\t13\t0\n");
    let cycle = Some(CYCLE.as_bytes().to_vec());
    assert_eq!(bytes(None, cycle), "refused\trules\t13\t0\n");
    assert_eq!(bytes(good(), None), "refused\tcycle\t13\t0\n");
    assert_eq!(bytes(Some(vec![]), None), "refused\tcycle\t13\t0\n");
}

#[test]
fn the_rules_are_refused_before_the_cycle_file_is_opened() {
    let bad = || Some(b"x\n".to_vec());
    assert_eq!(bytes(bad(), None), "refused\trules\t1\t1\n");
    let large = Some(vec![b'\n'; 32_769]);
    assert_eq!(bytes(bad(), large), "refused\trules\t1\t1\n");
    assert_eq!(bytes(bad(), bad()), "refused\trules\t1\t1\n");
}

#[test]
fn a_file_has_at_most_32768_bytes() {
    // A file of empty lines; its first line has one field.
    let lines = |count| Some(vec![b'\n'; count]);
    let empty = || Some(vec![]);
    assert_eq!(bytes(lines(32_768), None), "refused\trules\t1\t1\n");
    assert_eq!(bytes(lines(32_769), None), "refused\trules\t13\t0\n");
    assert_eq!(bytes(empty(), lines(32_768)), "refused\tcycle\t1\t1\n");
    assert_eq!(bytes(empty(), lines(32_769)), "refused\tcycle\t13\t0\n");
    // 13 precedes 12 and 8 of the same file.
    assert_eq!(
        bytes(empty(), Some(vec![b'0'; 32_768])),
        "refused\tcycle\t12\t1\n"
    );
    assert_eq!(
        bytes(empty(), Some(vec![b'0'; 32_769])),
        "refused\tcycle\t13\t0\n"
    );
}

#[test]
fn a_number_may_fill_a_whole_file() {
    // Six fields, the last of them a reading of very many digits.
    let head = "0\t1\t-\t-\t-\t";
    let with_digits = |count| format!("{head}{}\n", "9".repeat(count));
    let fitting = 32_768 - head.len() - 1;
    assert_eq!(printed("", &with_digits(fitting)), "refused\tcycle\t3\t1\n");
    assert_eq!(
        printed("", &with_digits(fitting + 1)),
        "refused\tcycle\t13\t0\n"
    );
}
