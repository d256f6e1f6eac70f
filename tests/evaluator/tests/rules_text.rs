//! The reader of the rules text: fields, numbers, ranges and lines.

use evaluator::Operator::{Equal, Greater, GreaterOrEqual, Less, LessOrEqual, NotEqual};
use evaluator::{read_rules, Comparison, Refusal, Rule};

const GOOD: [&str; 7] = ["2", "1", "2", "0", "500", "-", "-"];
const GOOD_LINE: &str = "2\t1\t2\t0\t500\t-\t-\n";
/// A condition with one comparison too many.
const FIVE: &str = "1=0,1=0,1=0,1=0,1=0";

/// A good line with some fields replaced (fields count from 1).
fn line(changes: &[(usize, &str)]) -> String {
    let mut fields = GOOD;
    for (number, content) in changes {
        fields[number - 1] = content;
    }
    fields.join("\t") + "\n"
}

/// The number and line of a refusal.
fn refused(text: impl AsRef<[u8]>) -> (u8, usize) {
    let text = text.as_ref();
    let refusal = read_rules(text).expect_err("a refusal");
    (refusal.number, refusal.line.expect("a line"))
}

fn refused_field(number: usize, content: &str) -> u8 {
    let (refusal, line) = refused(line(&[(number, content)]));
    assert_eq!(line, 1);
    refusal
}

fn only_rule(text: impl AsRef<[u8]>) -> Rule {
    let rules = read_rules(text.as_ref()).expect("a valid text");
    assert_eq!(rules.len(), 1);
    rules[0].clone()
}

#[test]
fn an_empty_text_has_no_rules() {
    assert_eq!(read_rules(b""), Ok(vec![]));
}

#[test]
fn the_fields_are_read_in_their_order() {
    assert_eq!(only_rule(GOOD_LINE), Rule::new(2, 1, 2, 0, Some(500)));
    let expected = Rule::new(12, 64, 1, 3, Some(4))
        .with_activation_condition(vec![Comparison::with_constant(4, Less, 6)])
        .with_correlation(vec![Comparison::with_activation(3, Greater, 2, 5)]);
    assert_eq!(only_rule("12\t64\t1\t3\t4\t4<6\t3>@2:5\n"), expected);
}

#[test]
fn comparisons_keep_their_order_and_their_operators() {
    let expected = Rule::new(1, 1, 1, 0, None)
        .with_activation_condition(vec![
            Comparison::with_constant(4, Equal, 0),
            Comparison::with_constant(1, NotEqual, -2_147_483_648),
            Comparison::with_constant(3, Less, 2_147_483_647),
        ])
        .with_correlation(vec![
            Comparison::with_activation(2, LessOrEqual, 1, 10),
            Comparison::with_activation(1, Greater, 4, -1),
            Comparison::with_constant(4, GreaterOrEqual, 99),
        ]);
    let text = "1\t1\t1\t0\t-\t4=0,1!-2147483648,3<2147483647\t2l@1:10,1>@4:-1,4g99\n";
    assert_eq!(only_rule(text), expected);
}

#[test]
fn a_line_has_7_fields() {
    for line in [
        "\n",
        "2\n",
        "2\t1\t2\t0\t500\t-\n",
        "2\t1\t2\t0\t500\t-\t-\t\n",
        "\t2\t1\t2\t0\t500\t-\t-\n",
        "2\t1\t2\t0\t500\t-\t-\t-\n",
        "2 1 2 0 500 - -\n",
        "\t\t\t\t\t\n",
        "\t\t\t\t\t\t\t\n",
        "\r\n",
        "x\tx\n",
    ] {
        assert_eq!(refused(line), (1, 1), "{line:?}");
    }
    // Seven empty fields: the first is not of the number form.
    assert_eq!(refused("\t\t\t\t\t\t\n"), (2, 1));
}

/// Contents that no field for a number without a sign may have.
const NO_NUMBERS: [&str; 24] = [
    "",
    "+1",
    "-1",
    "-0",
    "--1",
    "00",
    "01",
    "007",
    " 1",
    "1 ",
    "1\r",
    "1.0",
    "1e1",
    "0x1",
    "1_0",
    "1,0",
    "x",
    "1x",
    "\u{661}",
    "\u{ff11}",
    "1\0",
    "-4294967296",
    "0-",
    "1-",
];

#[test]
fn numbers_have_no_sign_and_no_leading_zero() {
    for field in 1..=5 {
        for content in NO_NUMBERS {
            assert_eq!(refused_field(field, content), 2, "{field} {content:?}");
        }
    }
}

#[test]
fn a_dash_is_allowed_for_b_and_the_conditions_alone() {
    for field in 1..=4 {
        assert_eq!(refused_field(field, "-"), 2, "{field}");
    }
    let rule = only_rule(line(&[(5, "-"), (6, "-"), (7, "-")]));
    assert_eq!(rule, Rule::new(2, 1, 2, 0, None));
    for field in 1..=5 {
        assert_eq!(refused_field(field, "--"), 2, "{field}");
    }
    for field in [6, 7] {
        assert_eq!(refused_field(field, "--"), 4, "{field}");
    }
}

#[test]
fn bytes_outside_ascii_are_in_no_number_and_no_comparison() {
    for byte in [0x00, 0x0b, 0x80, 0xb9, 0xff] {
        let number = [b"2\t1\t2\t0\t50", &[byte][..], b"\t-\t-\n"].concat();
        assert_eq!(refused(number), (2, 1), "{byte}");
        let condition = [b"2\t1\t2\t0\t50\t1=", &[byte][..], b"\t-\n"].concat();
        assert_eq!(refused(condition), (4, 1), "{byte}");
    }
}

#[test]
fn a_return_is_a_byte_of_its_field() {
    assert_eq!(refused("2\t1\t2\t0\t500\t-\t-\r\n"), (4, 1));
    assert_eq!(refused("2\t1\t2\t0\t500\t-\t1=0\r\n"), (4, 1));
    assert_eq!(refused("\r2\t1\t2\t0\t500\t-\t-\n"), (2, 1));
}

#[test]
fn codes_and_activities_have_their_ranges() {
    let thousands = "9".repeat(5000);
    for content in ["0", "17", "255", "256", "257", "4294967297", &thousands] {
        assert_eq!(refused_field(1, content), 3, "{content}");
    }
    for field in [2, 3] {
        for content in ["0", "65", "255", "256", "257", "4294967297", &thousands] {
            assert_eq!(refused_field(field, content), 3, "{content}");
        }
    }
    for (code, activation, target) in [(1, 64, 1), (12, 1, 64), (9, 10, 60), (16, 2, 1)] {
        let [c, x, y] = [code, activation, target].map(|n: u8| n.to_string());
        let text = line(&[(1, &c), (2, &x), (3, &y)]);
        let expected = Rule::new(code, activation, target, 0, Some(500));
        assert_eq!(only_rule(text), expected);
    }
}

#[test]
fn a_and_b_have_their_ranges() {
    let long = "1".to_string() + &"0".repeat(4000);
    for field in [4, 5] {
        for content in ["4294967296", "10000000000", "18446744073709551616", &long] {
            assert_eq!(refused_field(field, content), 3, "{content}");
        }
    }
    let rule = only_rule(line(&[(4, "4294967294"), (5, "4294967295")]));
    assert_eq!((rule.a, rule.b), (4_294_967_294, Some(4_294_967_295)));
    let rule = only_rule(line(&[(4, "4294967295"), (5, "-")]));
    assert_eq!((rule.a, rule.b), (4_294_967_295, None));
    let rule = only_rule(line(&[(4, "0"), (5, "1")]));
    assert_eq!((rule.a, rule.b), (0, Some(1)));
}

#[test]
fn a_b_of_0_is_outside_its_range() {
    assert_eq!(refused_field(5, "0"), 3);
    assert_eq!(refused(line(&[(4, "7"), (5, "0")])), (3, 1));
}

#[test]
fn b_is_above_a() {
    for (a, b) in [
        ("500", "500"),
        ("501", "500"),
        ("1", "1"),
        ("4294967295", "4294967295"),
        ("4294967295", "1"),
    ] {
        assert_eq!(refused(line(&[(4, a), (5, b)])), (6, 1), "{a} {b}");
    }
    // As text "9" is above "10", as a number it is not.
    assert_eq!(only_rule(line(&[(4, "9"), (5, "10")])).b, Some(10));
    assert_eq!(refused(line(&[(4, "10"), (5, "9")])), (6, 1));
}

#[test]
fn a_text_has_at_most_16_rules() {
    let rules = read_rules(GOOD_LINE.repeat(16).as_bytes()).expect("16 rules");
    assert_eq!(rules, vec![Rule::new(2, 1, 2, 0, Some(500)); 16]);
    assert_eq!(refused(GOOD_LINE.repeat(17)), (8, 17));
    assert_eq!(refused(GOOD_LINE.repeat(300)), (8, 17));
}

#[test]
fn the_last_line_ends_with_lf() {
    for text in ["2\t1\t2\t0\t500\t-\t-", "x", "\t", " ", "-", "\r", "0\t\t"] {
        assert_eq!(refused(text), (12, 1), "{text:?}");
        let second = format!("{GOOD_LINE}{text}");
        assert_eq!(refused(&second), (12, 2), "{text:?}");
        let seventeenth = GOOD_LINE.repeat(16) + text;
        assert_eq!(refused(&seventeenth), (12, 17), "{text:?}");
    }
}

#[test]
fn the_first_line_refused_ends_the_reading() {
    let bad = line(&[(1, "x")]);
    let far = line(&[(1, "17")]);
    assert_eq!(refused(format!("{GOOD_LINE}{bad}{far}")), (2, 2));
    assert_eq!(refused(format!("{GOOD_LINE}{GOOD_LINE}{far}{bad}")), (3, 3));
    // An earlier line comes before a last line without LF and before a 17th.
    assert_eq!(refused(format!("{bad}x")), (2, 1));
    assert_eq!(refused(format!("\n{GOOD_LINE}x")), (1, 1));
    assert_eq!(refused(bad + &GOOD_LINE.repeat(20)), (2, 1));
    assert_eq!(refused(GOOD_LINE.repeat(17) + "x"), (8, 17));
}

#[test]
fn empty_lines_are_lines_without_fields_enough() {
    assert_eq!(refused("\n"), (1, 1));
    assert_eq!(refused(format!("{GOOD_LINE}\n")), (1, 2));
    assert_eq!(refused(format!("{GOOD_LINE}\n{GOOD_LINE}")), (1, 2));
    assert_eq!(refused(GOOD_LINE.repeat(16) + "\n"), (1, 17));
}

#[test]
fn every_refusal_of_the_17th_line_precedes_8() {
    let head = GOOD_LINE.repeat(16);
    for (changes, number) in [
        (&[(1, "x")][..], 2),
        (&[(1, "17")], 3),
        (&[(6, "x")], 4),
        (&[(7, FIVE)], 17),
        (&[(4, "500")], 6),
        (&[(1, "15"), (3, "1")], 16),
        (&[(1, "13"), (7, "1=0")], 16),
        (&[], 8),
    ] {
        let text = head.clone() + &line(changes);
        assert_eq!(refused(&text), (number, 17));
    }
    assert_eq!(refused(head + "2\t1\n"), (1, 17));
}

#[test]
fn fields_are_judged_one_by_one() {
    // Each line has a fault of a later field that would give another number.
    for (changes, number) in [
        (&[(1, "0"), (2, "x")][..], 3),
        (&[(1, "x"), (2, "0")], 2),
        (&[(2, "65"), (3, "")], 3),
        (&[(3, "+1"), (4, "4294967296")], 2),
        (&[(4, "4294967296"), (5, "x")], 3),
        (&[(5, "01"), (6, "x")], 2),
        (&[(5, "0"), (6, "x")], 3),
        (&[(6, "x"), (7, "1=2147483648")], 4),
        (&[(6, "1=2147483648"), (7, "x")], 3),
        (&[(6, FIVE), (7, "x")], 17),
        (&[(6, "x"), (7, FIVE)], 4),
        (&[(4, "500"), (6, "x")], 4),
        (&[(4, "500"), (7, "1=2147483648")], 3),
        (&[(4, "500"), (7, FIVE)], 17),
    ] {
        assert_eq!(refused(line(changes)), (number, 1), "{changes:?}");
    }
    // 12 precedes 1, and 1 precedes the fields.
    assert_eq!(refused("x\tx"), (12, 1));
    assert_eq!(refused("x\tx\n"), (1, 1));
}

/// A line of an exclusive choice, or of another code, with some fields replaced.
fn overall_line(code: &str, changes: &[(usize, &str)]) -> String {
    let changes = [&[(1, code)][..], changes].concat();
    line(&changes)
}

/// "16, equal activities under 15 or 16, or a correlation under 13 to 16"
#[test]
fn rules_about_the_cycle_fit_their_template() {
    for (code, number) in [(13, 13), (14, 14), (15, 15), (16, 16)] {
        let code = code.to_string();
        let rule = only_rule(overall_line(&code, &[(6, "1g5")]));
        let condition = vec![Comparison::with_constant(1, GreaterOrEqual, 5)];
        let expected = Rule::new(number, 1, 2, 0, Some(500)).with_activation_condition(condition);
        assert_eq!(rule, expected);
        for correlation in ["1=0", "2g@1:0", "1=0,2=0"] {
            let text = overall_line(&code, &[(7, correlation)]);
            assert_eq!(refused(text), (16, 1), "{code} {correlation}");
        }
        let equal = overall_line(&code, &[(2, "7"), (3, "7")]);
        match number {
            13 | 14 => assert_eq!(only_rule(equal), Rule::new(number, 7, 7, 0, Some(500))),
            _ => assert_eq!(refused(equal), (16, 1), "{code}"),
        }
    }
    // The other templates may have both.
    for code in ["1", "12"] {
        let rule = only_rule(overall_line(code, &[(3, "1"), (7, "1=0")]));
        assert_eq!((rule.target, rule.correlation.len()), (1, 1));
    }
}

/// "it follows 6": the fields and the window come before it, and a later line
/// after it.
#[test]
fn a_misfit_follows_the_fields_and_the_window() {
    for (changes, number) in [
        (&[(3, "x")][..], 2),
        (&[(3, "65")], 3),
        (&[(6, "1=@1:0")], 4),
        (&[(7, "x")], 4),
        (&[(7, "1=2147483648")], 3),
        (&[(7, FIVE)], 17),
        (&[(4, "500")], 6),
        (&[(4, "500"), (7, "1=0")], 6),
        (&[], 16),
    ] {
        let changes = [&[(2, "2")][..], changes].concat();
        let text = overall_line("16", &changes);
        assert_eq!(refused(&text), (number, 1), "{changes:?}");
        let second = format!("{GOOD_LINE}{text}x");
        assert_eq!(refused(second), (number, 2), "{changes:?}");
    }
    // 12 and 1 come before all of them.
    let unended = overall_line("16", &[(2, "2")]);
    assert_eq!(refused(unended.trim_end()), (12, 1));
    assert_eq!(refused("16\t2\t2\t0\t-\t-\n"), (1, 1));
}

#[test]
fn a_refusal_has_number_and_line() {
    let read = read_rules(b"x\n");
    assert_eq!(read, Err(Refusal::at(1, 1)));
}
