//! The reader of the cycle text.

use evaluator::{read_cycle, Event, Refusal};

const GOOD_LINE: &str = "5\t1\t7\t-\t-\t-\n";

/// A good line with some fields replaced (fields count from 1).
fn line(changes: &[(usize, &str)]) -> String {
    let mut fields = ["5", "1", "7", "-", "-", "-"];
    for (number, content) in changes {
        fields[number - 1] = content;
    }
    fields.join("\t") + "\n"
}

fn refused(text: impl AsRef<[u8]>) -> (u8, usize) {
    let refusal = read_cycle(text.as_ref()).expect_err("a refusal");
    (refusal.number, refusal.line.expect("a line"))
}

fn refused_field(number: usize, content: &str) -> u8 {
    let (refusal, line) = refused(line(&[(number, content)]));
    assert_eq!(line, 1);
    refusal
}

fn only_event(text: impl AsRef<[u8]>) -> Event {
    let events = read_cycle(text.as_ref()).expect("a valid text");
    assert_eq!(events.len(), 1);
    events[0]
}

#[test]
fn an_empty_text_has_no_events() {
    assert_eq!(read_cycle(b""), Ok(vec![]));
}

#[test]
fn the_fields_are_read_in_their_order() {
    assert_eq!(only_event(GOOD_LINE), Event::new(5, 1).with_reading(1, 7));
    let expected = Event {
        time: 4_294_967_295,
        activity: 64,
        readings: [Some(-2_147_483_648), Some(2_147_483_647), Some(0), Some(-1)],
    };
    let text = "4294967295\t64\t-2147483648\t2147483647\t0\t-1\n";
    assert_eq!(only_event(text), expected);
    let expected = Event::new(0, 2).with_reading(2, 10).with_reading(4, -10);
    assert_eq!(only_event("0\t2\t-\t10\t-\t-10\n"), expected);
}

#[test]
fn a_line_has_6_fields() {
    for line in [
        "\n",
        "5\n",
        "5\t1\t7\t-\t-\n",
        "5\t1\t7\t-\t-\t-\t\n",
        "5\t1\t7\t-\t-\t-\t-\n",
        "\t5\t1\t7\t-\t-\t-\n",
        "5 1 7 - - -\n",
        "\t\t\t\t\n",
        "\r\n",
    ] {
        assert_eq!(refused(line), (1, 1), "{line:?}");
    }
    assert_eq!(refused("\t\t\t\t\t\n"), (2, 1));
}

#[test]
fn time_and_activity_have_no_sign_and_are_never_blank() {
    for field in [1, 2] {
        for content in [
            "", "-", "+1", "-1", "-0", "00", "01", " 1", "1 ", "1\r", "x",
        ] {
            assert_eq!(refused_field(field, content), 2, "{field} {content:?}");
        }
    }
}

#[test]
fn readings_are_numbers_with_one_sign_or_blank() {
    for field in 3..=6 {
        for content in [
            "",
            "+1",
            "-0",
            "00",
            "01",
            "-01",
            "--1",
            "--",
            " 1",
            "1 ",
            "-\r",
            "1\r",
            "- 1",
            "1-",
            "x",
            "-x",
            "1.5",
            "\u{2212}1",
        ] {
            assert_eq!(refused_field(field, content), 2, "{field} {content:?}");
        }
        for (content, value) in [("-", None), ("0", Some(0)), ("-1", Some(-1))] {
            let event = only_event(line(&[(field, content)]));
            assert_eq!(event.readings[field - 3], value);
        }
    }
}

#[test]
fn numbers_have_their_ranges() {
    let digits = "3".repeat(6000);
    for content in ["4294967296", "10000000000", "18446744073709551621", &digits] {
        assert_eq!(refused_field(1, content), 3, "{content}");
    }
    for content in ["0", "65", "256", "257", "4294967297", &digits] {
        assert_eq!(refused_field(2, content), 3, "{content}");
    }
    let below = format!("-{digits}");
    let outside = ["2147483648", "-2147483649", "4294967295", &digits, &below];
    for field in 3..=6 {
        for content in outside {
            assert_eq!(refused_field(field, content), 3, "{content}");
        }
    }
    // A sign makes a time malformed, not small.
    assert_eq!(refused_field(1, &below), 2);
}

#[test]
fn times_repeat_but_do_not_fall() {
    let times = |times: &[&str]| {
        let lines: Vec<String> = times.iter().map(|time| line(&[(1, time)])).collect();
        lines.concat()
    };
    let events = read_cycle(times(&["0", "0", "9", "10", "10"]).as_bytes()).expect("a cycle");
    let read: Vec<u32> = events.iter().map(|event| event.time).collect();
    assert_eq!(read, [0, 0, 9, 10, 10]);
    assert_eq!(refused(times(&["10", "9"])), (7, 2));
    assert_eq!(refused(times(&["0", "10", "20", "19", "0"])), (7, 4));
    assert_eq!(refused(times(&["4294967295", "0"])), (7, 2));
}

#[test]
fn a_text_has_at_most_256_events() {
    let events = read_cycle(GOOD_LINE.repeat(256).as_bytes()).expect("256 events");
    assert_eq!(events, vec![Event::new(5, 1).with_reading(1, 7); 256]);
    assert_eq!(refused(GOOD_LINE.repeat(257)), (8, 257));
    assert_eq!(refused(GOOD_LINE.repeat(400)), (8, 257));
}

#[test]
fn the_last_line_ends_with_lf() {
    for text in ["5\t1\t7\t-\t-\t-", "x", "\t", "0\t1\t7\t-\t-\t-", "-", "\r"] {
        assert_eq!(refused(text), (12, 1), "{text:?}");
        assert_eq!(refused(format!("{GOOD_LINE}{text}")), (12, 2), "{text:?}");
        let last = GOOD_LINE.repeat(256) + text;
        assert_eq!(refused(&last), (12, 257), "{text:?}");
    }
}

#[test]
fn every_refusal_of_the_257th_line_precedes_8() {
    let head = GOOD_LINE.repeat(256);
    for (changes, number) in [
        (&[(1, "x")][..], 2),
        (&[(2, "0")], 3),
        (&[(1, "4")], 7),
        (&[], 8),
    ] {
        let text = head.clone() + &line(changes);
        assert_eq!(refused(&text), (number, 257));
    }
    assert_eq!(refused(head + "\n"), (1, 257));
}

#[test]
fn fields_are_judged_one_by_one_and_7_after_them() {
    for (changes, number) in [
        (&[(1, "4294967296"), (2, "x")][..], 3),
        (&[(1, "x"), (2, "0")], 2),
        (&[(2, "65"), (3, "x")], 3),
        (&[(2, "x"), (6, "2147483648")], 2),
        (&[(3, "2147483648"), (4, "x")], 3),
        (&[(5, "x"), (6, "2147483648")], 2),
        (&[(1, "4"), (6, "x")], 2),
        (&[(1, "4"), (2, "0")], 3),
        (&[(1, "4")], 7),
    ] {
        let text = format!("{GOOD_LINE}{}", line(changes));
        assert_eq!(refused(text), (number, 2), "{changes:?}");
    }
    assert_eq!(refused("x\tx"), (12, 1));
    assert_eq!(refused("x\tx\n"), (1, 1));
}

#[test]
fn the_first_line_refused_ends_the_reading() {
    let bad = line(&[(2, "x")]);
    let far = line(&[(2, "65")]);
    assert_eq!(refused(format!("{GOOD_LINE}{bad}{far}")), (2, 2));
    assert_eq!(refused(format!("{far}{bad}{GOOD_LINE}")), (3, 1));
    assert_eq!(refused(format!("{bad}x")), (2, 1));
    assert_eq!(refused(GOOD_LINE.repeat(257) + "x"), (8, 257));
    assert_eq!(refused(format!("{GOOD_LINE}\n{GOOD_LINE}")), (1, 2));
}

#[test]
fn a_refusal_has_number_and_line() {
    assert_eq!(read_cycle(b"\n"), Err(Refusal::at(1, 1)));
}
