//! A cycle grown by takes and the notebook on its texts. `probe` is needed with
//! the command N.

use differential::cases::notebook::{case, full_case};
use differential::compare::agree;
use differential::probe::Probe;

#[test]
fn grown_cycles_and_the_notebook_agree() {
    let counts = agree(&Probe::find(), (5_000_000..5_001_500).map(case));
    assert_eq!(counts.answered('N', 0), 1500);
    assert_eq!(counts.numbers('N'), [0]);
    assert!(counts.answered('e', 0) >= 12_000);
    assert!(counts.answered('e', 3) > 0 && counts.answered('e', 7) > 0);
    assert!(counts.standings() >= 100_000);
}

#[test]
fn full_cycles_and_the_notebook_agree() {
    let counts = agree(&Probe::find(), (5_100_000..5_100_006).map(full_case));
    assert_eq!(counts.answered('e', 0), 6 * 256);
    assert_eq!(counts.answered('N', 0), 6);
}
