//! The reader of conditions. "A k not of the number form is 4, one outside its
//! range 3." In a condition the order is 4, 3, 17, comparison by comparison.

use evaluator::read_rules;

/// The refusal of a line with this condition, or 0 if it is accepted.
fn judged(activation: &str, correlation: &str) -> u8 {
    let text = format!("2\t1\t2\t0\t500\t{activation}\t{correlation}\n");
    match read_rules(text.as_bytes()) {
        Ok(rules) => {
            assert_eq!(rules.len(), 1);
            0
        }
        Err(refusal) => {
            assert_eq!(refusal.line, Some(1));
            refusal.number
        }
    }
}

/// Each condition gives the number in either place.
fn both(number: u8, conditions: &[&str]) {
    for condition in conditions {
        assert_eq!(judged(condition, "-"), number, "activation {condition:?}");
        assert_eq!(judged("-", condition), number, "correlation {condition:?}");
    }
}

/// Each condition gives 4 as an activation condition and the number as a
/// correlation.
fn with_reference(number: u8, conditions: &[&str]) {
    for condition in conditions {
        assert_eq!(judged(condition, "-"), 4, "activation {condition:?}");
        assert_eq!(judged("-", condition), number, "correlation {condition:?}");
    }
}

#[test]
fn accepted_conditions() {
    both(0, &["-", "1=0", "2!1", "3<-1", "4l10", "1>99", "2g-99"]);
    both(0, &["1=2147483647", "1=-2147483648", "4g-1"]);
    both(0, &["1=0,2=0", "4=0,3=0,2=0,1=0", "2<5,1!-5,4g0"]);
    with_reference(0, &["1=@1:0", "1!@4:-1", "4g@2:2147483647"]);
    with_reference(0, &["1l@1:-2147483648", "1=@1:0,2=0", "2=0,1=@1:0"]);
    with_reference(0, &["1=@1:0,2=@1:0,3=@1:0,4=@1:0"]);
    // Any readings, once or more often, in one condition and in both.
    both(0, &["1g200,1l300", "1=0,1=0", "4=0,2=0,4=0", "1=0,2=0,2=1"]);
    both(0, &["1>5,1<7,1!6", "1=0,1=0,1=0,1=0", "3!1,4!1,4!2,3!2"]);
    with_reference(0, &["1=@1:0,1=0", "1=0,1=@1:0", "1g@1:-5,1l@1:5"]);
    with_reference(0, &["1=@1:0,1=@2:0,1=@3:0,1=@4:0"]);
    assert_eq!(judged("1=0,2=0", "2=0,1=@1:0"), 0);
    assert_eq!(judged("1g0,1l9,1!5,1!6", "1g@1:0,1l@1:9,1!5,1!6"), 0);
}

#[test]
fn a_comparison_begins_with_a_digit_1_to_4() {
    both(
        4,
        &["0=1", "5=1", "9=1", "11=1", "-1=1", "=1", "x=1", " 1=1"],
    );
    both(4, &["@1:0", "@1=0", "\u{661}=1"]);
}

#[test]
fn one_byte_of_six_is_the_operator() {
    both(4, &["1", "1==1", "1<=1", "1>=1", "1!=1", "1<>1", "1=<1"]);
    both(
        4,
        &[
            "1L1",
            "1G1",
            "1~1",
            "1-1",
            "111",
            "1:1",
            "1 =1",
            "1\u{2264}1",
        ],
    );
    both(4, &["1@1:1", "1,1"]);
}

#[test]
fn a_k_not_of_the_number_form_is_4() {
    both(
        4,
        &[
            "1=", "1=-", "1=-0", "1=+1", "1=01", "1=00", "1=-01", "1=--1",
        ],
    );
    both(
        4,
        &[
            "1= 1",
            "1=1 ",
            "1=1\r",
            "1=1.0",
            "1=0x1",
            "1=1-",
            "1=\u{661}",
        ],
    );
    both(4, &["1=@1:", "1=@1:-", "1=@1:-0", "1=@1:+1", "1=@1:01"]);
    both(
        4,
        &["1=@1: 1", "1=@1:1 ", "1=@1:1\r", "1=@1:@1:1", "1=@1:1:1"],
    );
}

#[test]
fn a_k_outside_its_range_is_3() {
    both(3, &["1=2147483648", "1=-2147483649", "1=4294967296"]);
    both(3, &["1=99999999999999999999", "1=-99999999999999999999"]);
    with_reference(3, &["1=@1:2147483648", "1=@1:-2147483649"]);
    with_reference(3, &["1=@4:18446744073709551616"]);
}

#[test]
fn a_k_of_thousands_of_digits_is_3_and_with_a_letter_4() {
    let digits = "7".repeat(4000);
    both(3, &[&format!("1={digits}"), &format!("1=-{digits}")]);
    both(4, &[&format!("1={digits}x"), &format!("1=0{digits}")]);
    with_reference(3, &[&format!("1=@1:{digits}")]);
}

#[test]
fn a_reference_names_a_reading_1_to_4() {
    both(4, &["1=@", "1=@1", "1=@:1", "1=@0:1", "1=@5:1", "1=@9:1"]);
    both(
        4,
        &[
            "1=@11:1", "1=@-1:1", "1=@x:1", "1=@1;1", "1=@1=1", "1=@@1:1",
        ],
    );
    both(4, &["1=1@1:1", "1= @1:1", "1=-@1:1", "1=@ 1:1"]);
    // A wrong reading precedes a k outside its range.
    both(4, &["1=@5:2147483648", "1=@0:-2147483649"]);
}

#[test]
fn a_reference_in_an_activation_condition_is_4_whatever_its_k() {
    for k in ["0", "2147483648", "-2147483649", "x", ""] {
        assert_eq!(judged(&format!("1=@1:{k}"), "-"), 4, "{k}");
        assert_eq!(judged(&format!("2=0,1=@1:{k}"), "-"), 4, "{k}");
    }
}

#[test]
fn commas_part_comparisons_and_nothing_else() {
    both(4, &["", ",", "1=0,", ",1=0", "1=0,,2=0", "1=0, 2=0"]);
    both(4, &["1=0;2=0", "1=0 2=0"]);
    // `-` means an empty condition only alone.
    both(4, &["--", "- ", "-,1=0", "1=0,-", "-,-"]);
}

#[test]
fn a_fifth_comparison_is_17() {
    both(17, &["1=0,2=0,3=0,4=0,1=0", "1=0,1=0,1=0,1=0,1=0"]);
    both(17, &["4!1,4!2,4!3,4!4,4!5", "1=0,2=0,3=0,4=0,4=0,4=0"]);
    with_reference(17, &["1=@1:0,1=0,1=0,1=0,1=0", "1=0,2=0,3=0,4=0,1=@1:0"]);
    let hundred = vec!["1=0"; 100].join(",");
    both(17, &[&hundred]);
    // The two conditions are counted each for itself.
    assert_eq!(judged("1=0,2=0,3=0,4=0", "1=0,2=0,3=0,4=0"), 0);
    assert_eq!(judged("1=0,1=0,1=0,1=0", "1=0,1=0,1=0,1=0,1=0"), 17);
}

#[test]
fn comparisons_are_judged_one_by_one() {
    // In one comparison 4 precedes 3, and 3 precedes 17.
    both(4, &["1=0,1=x", "1=0,1=", "1=0,2=0,3=0,4=0,5=0"]);
    both(
        4,
        &[
            "1=0,2=0,3=0,4=0,",
            "1=0,2=0,3=0,4=0,1=x",
            "1=0,1=0,1=0,1=0,-",
        ],
    );
    both(3, &["1=0,1=2147483648", "1=0,2=0,1=-2147483649"]);
    both(
        3,
        &[
            "1=0,2=0,3=0,4=0,1=2147483648",
            "1=0,1=0,1=0,1=0,1=-2147483649",
        ],
    );
    // Every fault of a comparison precedes those of the next one.
    both(
        3,
        &["1=2147483648,x", "1=0,2=2147483648,1=0", "1=2147483648,1=0"],
    );
    both(4, &["x,1=2147483648", "1=0,x,1=0", "x,x"]);
    both(4, &["1=0,x,1=0,1=0,1=0", "1=0,1=0,1=0,x,1=0,1=0"]);
    both(
        3,
        &[
            "1=0,1=0,1=0,1=2147483648,1=0",
            "1=2147483648,1=0,1=0,1=0,1=0,x",
        ],
    );
    with_reference(3, &["2=@1:2147483648,1=@5:0"]);
    assert_eq!(judged("1=0,1=0,1=0,1=0,1=@1:0", "-"), 4);
    assert_eq!(judged("1=2147483648,1=@1:0", "-"), 3);
}

#[test]
fn a_fifth_comparison_precedes_a_sixth_and_the_second_condition() {
    // A sixth is not looked at.
    both(17, &["1=0,1=0,1=0,1=0,1=0,x", "1=0,2=0,3=0,4=0,1=0,"]);
    both(
        17,
        &["1=0,1=0,1=0,1=0,1=0,2=2147483648", "1=0,1=0,1=0,1=0,1=0,,"],
    );
    with_reference(17, &["2=0,2=0,2=0,2=0,2=@1:0,1=@1:2147483648"]);
    assert_eq!(judged("1=0,1=0,1=0,1=0,1=0,1=@1:0", "-"), 17);
    // The first condition is read before the second.
    assert_eq!(judged("1=0,1=0,1=0,1=0,1=0", "x"), 17);
    assert_eq!(judged("x", "1=0,1=0,1=0,1=0,1=0"), 4);
    assert_eq!(judged("1=2147483648", "1=0,1=0,1=0,1=0,1=0"), 3);
}
