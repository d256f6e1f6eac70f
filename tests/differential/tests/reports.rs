//! The program `report`: what it prints, byte for byte, with nothing on standard
//! error, and that it says there if it could not print in full.

use differential::cases::crowded::crowd;
use differential::cases::overall::table_and_cycle;
use differential::cases::reports::{compare, files, texts_of, File};
use differential::folder::Folder;
use differential::report::Report;
use evaluator::listing::{CYCLE, PRINTED, RULES};
use evaluator::random::Random;
use evaluator::{report, write_cycle, write_rules};
use std::fs;
use std::process::Command;
use std::time::Duration;

fn text(text: &str) -> File {
    File::Bytes(text.as_bytes().to_vec())
}

fn agree(program: &Report, seed: u64, rules: &File, cycle: &File) {
    let compared = compare(program, seed, rules, cycle);
    compared.unwrap_or_else(|difference| panic!("{difference}"));
}

#[test]
fn the_listing() {
    let printed = report(text(RULES).bytes(), text(CYCLE).bytes());
    assert_eq!(printed, PRINTED.as_bytes());
    agree(&Report::find(), 0, &text(RULES), &text(CYCLE));
}

/// How many of the pairs print verdicts, a refusal of the rules, of the cycle,
/// and a refusal with 13.
fn kinds(pairs: &[(File, File)]) -> [usize; 4] {
    let mut kinds = [0; 4];
    for (rules, cycle) in pairs {
        let printed = String::from_utf8(report(rules.bytes(), cycle.bytes())).expect("ASCII");
        let kind = match printed.strip_prefix("refused\t") {
            Some(rest) if rest.starts_with("rules") => 1,
            Some(_) => 2,
            None => 0,
        };
        kinds[kind] += 1;
        kinds[3] += usize::from(kind > 0 && printed.ends_with("\t13\t0\n"));
    }
    kinds
}

#[test]
fn random_files() {
    let program = Report::find();
    let pairs: Vec<(File, File)> = (8_000_000..8_000_400).map(files).collect();
    let found = kinds(&pairs);
    assert!(found.iter().all(|count| *count >= 40), "{found:?}");
    for (seed, (rules, cycle)) in (8_000_000..).zip(&pairs) {
        agree(&program, seed, rules, cycle);
    }
}

#[test]
fn random_texts() {
    let program = Report::find();
    let pairs: Vec<(File, File)> = (8_100_000..8_100_200).map(texts_of).collect();
    let found = kinds(&pairs);
    assert!(found[..3].iter().all(|count| *count >= 20), "{found:?}");
    for (seed, (rules, cycle)) in (8_100_000..).zip(&pairs) {
        agree(&program, seed, rules, cycle);
    }
}

#[test]
fn crowded_texts() {
    let program = Report::find();
    for seed in 8_300_000..8_300_100 {
        let (rules, events) = crowd(seed);
        let rules = File::Bytes(write_rules(&rules));
        let cycle = File::Bytes(write_cycle(&events));
        agree(&program, seed, &rules, &cycle);
    }
}

/// Rules about the cycle, also with no events, are printed as position 0.
#[test]
fn texts_of_rules_about_the_cycle() {
    let program = Report::find();
    let mut lines = 0;
    for seed in 8_400_000..8_400_100 {
        let (rules, events) = table_and_cycle(&mut Random::new(seed));
        let rules = File::Bytes(write_rules(&rules));
        let cycle = File::Bytes(write_cycle(&events));
        let printed = String::from_utf8(report(rules.bytes(), cycle.bytes())).expect("ASCII");
        lines += printed
            .lines()
            .filter(|line| line.contains("\t0\t"))
            .count();
        agree(&program, seed, &rules, &cycle);
    }
    assert!(lines >= 200, "{lines}");
}

/// Every pair of: absent, a folder, a lost link, empty, valid, of 32768 bytes, of
/// 32769 bytes.
#[test]
fn files_that_are_none_and_files_at_the_limit() {
    let program = Report::find();
    let sized = |count| File::Bytes(vec![b'\n'; count]);
    let digits = |head: &str, count: usize| {
        let digits = "9".repeat(count - head.len() - 1);
        text(&format!("{head}{digits}\n"))
    };
    let kinds = [File::Absent, File::Folder, File::LostLink, text("")];
    let sizes = [32_767, 32_768, 32_769, 65_536, 200_000];
    let mut rules = kinds.to_vec();
    let mut cycles = kinds.to_vec();
    rules.extend([text(RULES), File::Link(RULES.into()), text("x")]);
    cycles.extend([text(CYCLE), File::Link(CYCLE.into()), text("x")]);
    for size in sizes {
        rules.extend([sized(size), digits("2\t1\t2\t0\t-\t-\t1=", size)]);
        cycles.extend([sized(size), digits("0\t1\t-\t-\t-\t", size)]);
    }
    let mut number = 0;
    for rules in &rules {
        for cycle in &cycles {
            agree(&program, number, rules, cycle);
            number += 1;
        }
    }
    assert_eq!(number, 17 * 17);
}

#[test]
fn no_rules_no_events_and_the_largest_output() {
    let program = Report::find();
    agree(&program, 1, &text(""), &text(""));
    agree(&program, 2, &text(""), &text(CYCLE));
    agree(&program, 3, &text(RULES), &text(""));
    // Every event is an activation of every rule; verdicts name late targets.
    let cycle = "0\t1\t-\t-\t-\t-\n".repeat(256);
    for (rule, letter) in [
        ("2\t1\t1\t0\t-\t-\t-\n", 'F'),
        ("9\t1\t1\t0\t-\t-\t-\n", 'V'),
    ] {
        let rules = rule.repeat(16);
        let printed = report(text(&rules).bytes(), text(&cycle).bytes());
        let lines = printed.split(|byte| *byte == b'\n').count();
        assert_eq!(lines, 16 * 257 + 1);
        let last = format!("16\t256\t{letter}\t256\n");
        let at = printed
            .windows(last.len())
            .position(|part| part == last.as_bytes());
        assert!(at.is_some());
        agree(&program, 4, &text(&rules), &text(&cycle));
    }
}

/// The longest valid lines, of 16 rules and 256 events.
#[test]
fn the_longest_valid_texts() {
    let condition: Vec<String> = (1..=4).map(|n| format!("{n}g-2147483648")).collect();
    let condition = condition.join(",");
    let correlation: Vec<String> = (1..=4).map(|n| format!("{n}g@{n}:-2147483648")).collect();
    let correlation = correlation.join(",");
    let rule = format!("12\t64\t64\t4294967294\t4294967295\t{condition}\t{correlation}\n");
    let reading = "\t-2147483648".repeat(4);
    let cycle = format!("4294967295\t64{reading}\n").repeat(256);
    let rules = text(&rule.repeat(16));
    let printed = report(rules.bytes(), text(&cycle).bytes());
    assert!(printed.starts_with(b"1\t1\tF\t0\n"));
    agree(&Report::find(), 0, &rules, &text(&cycle));
}

/// "The cycle file is opened after the rules are accepted": a pipe that nobody
/// writes to stands in its place, and who opens it waits.
#[test]
fn the_cycle_is_not_touched_when_the_rules_are_refused() {
    let program = Report::find();
    let mut random = Random::new(8_200_000);
    let refused = (0..).map(|_| evaluator::damage::damaged_rules_text(&mut random));
    let refused = refused.filter(|text| evaluator::read_rules(text).is_err());
    let mut rules: Vec<File> = refused.take(20).map(File::Bytes).collect();
    rules.extend([File::Absent, File::Folder, File::LostLink, text("x")]);
    for rules in &rules {
        let folder = Folder::new();
        rules.put(&folder.path, "rules.tsv");
        let pipe = folder.path.join("cycle.tsv");
        let made = Command::new("mkfifo").arg(&pipe).status();
        assert!(made.expect("the program mkfifo").success());
        let found = program.printed_within(&folder.path, Duration::from_secs(20));
        assert_eq!(found, Ok(report(rules.bytes(), None)), "{rules:?}");
        folder.remove();
    }
}

/// A folder with two texts.
fn folder_with(rules: &str, cycle: &str) -> Folder {
    let folder = Folder::new();
    text(rules).put(&folder.path, "rules.tsv");
    text(cycle).put(&folder.path, "cycle.tsv");
    folder
}

/// Two texts with verdicts of a few lines, with the most lines, and with a
/// refused line.
fn texts_that_print() -> [(String, String); 3] {
    let (rules, cycle) = ("2\t1\t1\t0\t-\t-\t-\n", "0\t1\t-\t-\t-\t-\n");
    [
        (RULES.to_string(), CYCLE.to_string()),
        (rules.repeat(16), cycle.repeat(256)),
        ("x".to_string(), CYCLE.to_string()),
    ]
}

/// /dev/full takes no byte. Where nothing is printed, nothing is lost.
#[test]
fn a_full_device_is_complained_of() {
    let program = Report::find();
    let full = || fs::OpenOptions::new().write(true).open("/dev/full");
    let said = |rules: &str, cycle: &str| {
        let folder = folder_with(rules, cycle);
        let said = program.said(&folder.path, full().expect("the device"));
        folder.remove();
        said.expect("an end without a signal")
    };
    for (rules, cycle) in texts_that_print() {
        assert!(!said(&rules, &cycle).is_empty(), "{rules:?}");
    }
    assert_eq!(said("", CYCLE), b"");
}

/// A pipe that nobody reads, with the signal ignored that it gives.
#[test]
fn a_pipe_without_a_reader_is_complained_of() {
    let program = Report::find();
    for (rules, cycle) in texts_that_print() {
        let (reader, writer) = std::io::pipe().expect("a pipe");
        drop(reader);
        let folder = folder_with(&rules, &cycle);
        let said = program.said_after("trap '' PIPE", &folder.path, writer);
        assert!(said.is_ok_and(|said| !said.is_empty()), "{rules:?}");
        folder.remove();
    }
}

/// A file that may have 1024 bytes takes the first of what is printed, and only
/// what does not fit is complained of.
#[test]
fn a_file_that_takes_a_part_is_complained_of() {
    let program = Report::find();
    let limit = "ulimit -f 1; trap '' XFSZ";
    for (rules, cycle) in texts_that_print() {
        let folder = folder_with(&rules, &cycle);
        let path = folder.path.join("printed");
        let file = fs::File::create(&path).expect("a file");
        let said = program.said_after(limit, &folder.path, file);
        let said = said.expect("an end without a signal");
        let expected = report(text(&rules).bytes(), text(&cycle).bytes());
        let taken = fs::read(&path).expect("what was printed");
        assert_eq!(taken, expected[..expected.len().min(1024)]);
        assert_eq!(said.is_empty(), expected.len() <= 1024, "{rules:?}");
        folder.remove();
    }
}
