//! The commands of `probe` and their bytes, as PROBE.md has them.

use evaluator::{Comparison, Event, Operator, Reference, Standing, Tally};
use std::fmt;

/// A command has 32 bytes; the texts follow it.
pub const COMMAND_BYTES: usize = 32;

/// "A text is at most 65,536 bytes"; a script never has a larger one.
pub const LARGEST_TEXT: usize = 65_536;

/// "A buffer is at most 65,536 bytes".
pub const LARGEST_BUFFER: usize = 65_536;

/// The buffer of a writing command before the call: "a larger n is cut to 65,536. Each
/// of its bytes is 165".
pub fn buffer_of(n: u64) -> Vec<u8> {
    vec![165; n.min(LARGEST_BUFFER as u64) as usize]
}

/// The cell that `S` sets for position 0 of a rule, 1 to 16: "p from 4096 to 4111:
/// position 0 of rule p − 4095".
pub fn cell_at_0(rule: u32) -> u32 {
    4095 + rule
}

/// One command. Slots, places and cells count from 0, rules and the positions of
/// events from 1.
#[derive(Debug, Clone, PartialEq, Eq)]
pub enum Command {
    NewTable {
        count: u64,
    },
    SetRule {
        slot: u8,
        code: u8,
        activation: u8,
        target: u8,
        a: u32,
        end: Option<u32>,
    },
    SetComparisonCount {
        slot: u8,
        correlation: bool,
        count: u8,
    },
    SetComparison {
        slot: u8,
        correlation: bool,
        place: u8,
        comparison: Comparison,
    },
    SetTable,
    SetEventCount {
        count: u64,
    },
    SetClosed {
        closed: bool,
    },
    SetEvent {
        slot: u32,
        event: Event,
    },
    SetStanding {
        cell: u32,
        standing: Standing,
    },
    /// Of each number the low 16 bits are stored.
    SetTotals {
        slot: u8,
        numbers: [u32; 4],
    },
    /// The kept time.
    SetClock {
        clock: u32,
    },
    SetTally(Tally),
    Start,
    Take(Event),
    Notice {
        time: u64,
    },
    Close,
    Standing {
        rule: u32,
        position: u32,
    },
    Totals {
        rule: u64,
    },
    Absorb {
        rule: u64,
    },
    ReadRules(Vec<u8>),
    ReadCycle(Vec<u8>),
    Notebook {
        rules: Vec<u8>,
        cycle: Vec<u8>,
    },
    WriteRules {
        n: u64,
    },
    WriteCycle {
        n: u64,
    },
    WriteReport {
        n: u64,
    },
    /// Into a buffer of `room` bytes.
    PrintTexts {
        rules: Vec<u8>,
        cycle: Vec<u8>,
        room: u32,
    },
    DumpStandings,
    DumpOverall,
    DumpRun,
    DumpTally,
}

impl Command {
    pub fn letter(&self) -> char {
        match self {
            Command::NewTable { .. } => 't',
            Command::SetRule { .. } => 'r',
            Command::SetComparisonCount { .. } => 'n',
            Command::SetComparison { .. } => 'c',
            Command::SetTable => 'T',
            Command::SetEventCount { .. } => 'C',
            Command::SetClosed { .. } => 'F',
            Command::SetEvent { .. } => 'E',
            Command::SetStanding { .. } => 'S',
            Command::SetTotals { .. } => 'O',
            Command::SetClock { .. } => 'K',
            Command::SetTally(_) => 'A',
            Command::Start => 's',
            Command::Take(_) => 'e',
            Command::Notice { .. } => 'k',
            Command::Close => 'x',
            Command::Standing { .. } => 'g',
            Command::Totals { .. } => 'o',
            Command::Absorb { .. } => 'b',
            Command::ReadRules(_) => 'R',
            Command::ReadCycle(_) => 'Y',
            Command::Notebook { .. } => 'N',
            Command::WriteRules { .. } => 'w',
            Command::WriteCycle { .. } => 'W',
            Command::WriteReport { .. } => 'v',
            Command::PrintTexts { .. } => 'p',
            Command::DumpStandings => 'd',
            Command::DumpOverall => 'z',
            Command::DumpRun => 'D',
            Command::DumpTally => 'B',
        }
    }

    /// Adds the command's bytes and its texts.
    pub fn encode(&self, script: &mut Vec<u8>) {
        script.extend_from_slice(&self.fields().0);
        for text in self.texts() {
            assert!(text.len() <= LARGEST_TEXT, "a text is too long for probe");
            script.extend_from_slice(text);
        }
    }

    /// The number of bytes that [`Command::encode`] adds.
    pub fn length(&self) -> usize {
        COMMAND_BYTES + self.texts().iter().map(|text| text.len()).sum::<usize>()
    }

    fn texts(&self) -> Vec<&[u8]> {
        match self {
            Command::ReadRules(text) | Command::ReadCycle(text) => vec![text],
            Command::Notebook { rules, cycle } | Command::PrintTexts { rules, cycle, .. } => {
                vec![rules, cycle]
            }
            _ => Vec::new(),
        }
    }

    fn fields(&self) -> Fields {
        let fields = Fields::of(self.letter());
        match self {
            Command::NewTable { count } | Command::SetEventCount { count } => fields.n(*count),
            Command::SetClosed { closed } => fields.byte(1, u8::from(*closed)),
            Command::SetEvent { slot, event } => fields.event(event).p(*slot),
            Command::SetStanding { cell, standing } => fields.standing(*standing).p(*cell),
            Command::SetTotals { slot, numbers } => fields.byte(1, *slot).four(*numbers),
            Command::SetClock { clock } => fields.p(*clock),
            Command::SetTally(tally) => fields.tally(tally),
            Command::Take(event) => fields.event(event),
            Command::Notice { time } => fields.n(*time),
            Command::Standing { rule, position } => fields.p(*rule).q(*position),
            Command::Totals { rule } | Command::Absorb { rule } => fields.n(*rule),
            Command::ReadRules(text) | Command::ReadCycle(text) => fields.n(text.len() as u64),
            Command::Notebook { rules, cycle } => {
                fields.p(rules.len() as u32).q(cycle.len() as u32)
            }
            Command::WriteRules { n } | Command::WriteCycle { n } | Command::WriteReport { n } => {
                fields.n(*n)
            }
            Command::PrintTexts { rules, cycle, room } => {
                let fields = fields.p(rules.len() as u32).q(cycle.len() as u32);
                fields.r(1, *room as i32)
            }
            _ => self.table_fields(fields),
        }
    }

    /// The fields of the commands on the table under construction. Those that
    /// are left have a letter alone.
    fn table_fields(&self, fields: Fields) -> Fields {
        match self {
            Command::SetRule {
                slot,
                code,
                activation,
                target,
                a,
                end,
            } => fields
                .bytes([*slot, *code, *activation, *target])
                .byte(5, u8::from(end.is_some()))
                .p(*a)
                .q(end.unwrap_or(0)),
            Command::SetComparisonCount {
                slot,
                correlation,
                count,
            } => fields.bytes([*slot, u8::from(*correlation), *count]),
            Command::SetComparison {
                slot,
                correlation,
                place,
                comparison,
            } => fields
                .bytes([*slot, u8::from(*correlation), *place])
                .comparison(comparison),
            _ => fields,
        }
    }
}

/// The letter and the content, on one line.
impl fmt::Display for Command {
    fn fmt(&self, f: &mut fmt::Formatter<'_>) -> fmt::Result {
        write!(f, "{} ", self.letter())?;
        match self {
            Command::ReadRules(text) | Command::ReadCycle(text) => {
                write!(f, "\"{}\"", text.escape_ascii())
            }
            Command::Notebook { rules, cycle } => {
                let (rules, cycle) = (rules.escape_ascii(), cycle.escape_ascii());
                write!(f, "\"{rules}\" \"{cycle}\"")
            }
            Command::PrintTexts { rules, cycle, room } => {
                let (rules, cycle) = (rules.escape_ascii(), cycle.escape_ascii());
                write!(f, "\"{rules}\" \"{cycle}\" into {room} bytes")
            }
            other => write!(f, "{other:?}"),
        }
    }
}

/// The number of an operator: "0 to 5 for = ≠ < ≤ > ≥".
fn number_of(operator: Operator) -> u8 {
    let found = Operator::ALL.iter().position(|known| *known == operator);
    found.expect("every operator is listed") as u8
}

/// The 32 bytes of a command.
struct Fields([u8; COMMAND_BYTES]);

impl Fields {
    fn of(letter: char) -> Fields {
        let mut bytes = [0; COMMAND_BYTES];
        bytes[0] = letter as u8;
        Fields(bytes)
    }

    fn put(mut self, at: usize, bytes: &[u8]) -> Fields {
        self.0[at..at + bytes.len()].copy_from_slice(bytes);
        self
    }

    /// b1 to b7.
    fn byte(self, number: usize, value: u8) -> Fields {
        self.put(number, &[value])
    }

    /// b1 and those after it.
    fn bytes<const N: usize>(self, values: [u8; N]) -> Fields {
        self.put(1, &values)
    }

    fn n(self, value: u64) -> Fields {
        self.put(8, &value.to_le_bytes())
    }

    fn p(self, value: u32) -> Fields {
        self.put(8, &value.to_le_bytes())
    }

    fn q(self, value: u32) -> Fields {
        self.put(12, &value.to_le_bytes())
    }

    /// r1 to r4.
    fn r(self, number: usize, value: i32) -> Fields {
        self.put(12 + 4 * number, &value.to_le_bytes())
    }

    /// "time q, activity b1, readings r1 to r4; reading k is blank if bit k − 1
    /// of b2 is set"
    fn event(self, event: &Event) -> Fields {
        let mut fields = self.q(event.time).byte(1, event.activity);
        let mut blanks = 0;
        for (index, reading) in event.readings.iter().enumerate() {
            match reading {
                Some(value) => fields = fields.r(index + 1, *value),
                None => blanks |= 1 << index,
            }
        }
        fields.byte(2, blanks)
    }

    /// "kind b1, 0 idle, 1 open, 2 fulfilled, 3 violated; target q"
    fn standing(self, standing: Standing) -> Fields {
        let (kind, target) = kind_and_target(standing);
        self.byte(1, kind).q(u32::from(target))
    }

    /// "reading b4; operator b5 ..; compared with constant r1 if b6 is 0, else
    /// with the activation's reading b7 plus r1"
    fn comparison(self, comparison: &Comparison) -> Fields {
        let fields = self
            .byte(4, comparison.reading)
            .byte(5, number_of(comparison.operator));
        match comparison.reference {
            Reference::Constant(k) => fields.r(1, k),
            Reference::Activation { reading, plus } => {
                fields.byte(6, 1).byte(7, reading).r(1, plus)
            }
        }
    }

    /// r1 to r4, "read as unsigned numbers".
    fn four(self, numbers: [u32; 4]) -> Fields {
        let numbered = (1..).zip(numbers);
        numbered.fold(self, |fields, (number, value)| {
            fields.r(number, value as i32)
        })
    }

    fn tally(self, tally: &Tally) -> Fields {
        self.four([
            tally.cycles,
            tally.activations,
            tally.fulfilled,
            tally.violated,
        ])
    }
}

/// The kind of a standing, 0 to 3, and its target, 0 where it has none.
pub fn kind_and_target(standing: Standing) -> (u8, u16) {
    match standing {
        Standing::Idle => (0, 0),
        Standing::Open => (1, 0),
        Standing::Fulfilled(target) => (2, target),
        Standing::Violated(target) => (3, target),
    }
}

#[cfg(test)]
mod tests {
    use super::*;

    fn encoded(command: Command) -> Vec<u8> {
        let mut script = Vec::new();
        command.encode(&mut script);
        assert_eq!(script.len(), command.length());
        script
    }

    /// The letter and the bytes at their places; all other bytes are 0.
    fn bytes(letter: u8, placed: &[(usize, &[u8])]) -> Vec<u8> {
        let mut expected = vec![0; 32];
        expected[0] = letter;
        for (at, part) in placed {
            expected[*at..at + part.len()].copy_from_slice(part);
        }
        expected
    }

    #[test]
    fn commands_with_a_letter_alone() {
        for (command, letter) in [
            (Command::SetTable, b'T'),
            (Command::Start, b's'),
            (Command::Close, b'x'),
            (Command::DumpStandings, b'd'),
            (Command::DumpOverall, b'z'),
            (Command::DumpRun, b'D'),
            (Command::DumpTally, b'B'),
        ] {
            assert_eq!(encoded(command), bytes(letter, &[]));
        }
    }

    #[test]
    fn commands_with_a_number() {
        let count = 0x0102_0304_0506_0708;
        let n = [(8, &[8, 7, 6, 5, 4, 3, 2, 1][..])];
        assert_eq!(encoded(Command::NewTable { count }), bytes(b't', &n));
        assert_eq!(encoded(Command::SetEventCount { count }), bytes(b'C', &n));
        assert_eq!(encoded(Command::Notice { time: count }), bytes(b'k', &n));
        assert_eq!(encoded(Command::Totals { rule: count }), bytes(b'o', &n));
        assert_eq!(encoded(Command::Absorb { rule: count }), bytes(b'b', &n));
        assert_eq!(encoded(Command::WriteRules { n: count }), bytes(b'w', &n));
        assert_eq!(encoded(Command::WriteCycle { n: count }), bytes(b'W', &n));
        assert_eq!(encoded(Command::WriteReport { n: count }), bytes(b'v', &n));
        let (rule, position) = (0x0506_0708, 0x0102_0304);
        let standing = Command::Standing { rule, position };
        assert_eq!(encoded(standing), bytes(b'g', &n));
    }

    #[test]
    fn commands_on_a_rule_slot() {
        let rule = |end| Command::SetRule {
            slot: 15,
            code: 12,
            activation: 64,
            target: 65,
            a: 258,
            end,
        };
        let heads = |ends| [15, 12, 64, 65, ends];
        let ending = bytes(b'r', &[(1, &heads(1)), (8, &[2, 1]), (12, &[4, 3, 2, 1])]);
        assert_eq!(encoded(rule(Some(0x0102_0304))), ending);
        let endless = bytes(b'r', &[(1, &heads(0)), (8, &[2, 1])]);
        assert_eq!(encoded(rule(None)), endless);
        let count = |correlation| Command::SetComparisonCount {
            slot: 3,
            correlation,
            count: 4,
        };
        assert_eq!(encoded(count(false)), bytes(b'n', &[(1, &[3, 0, 4])]));
        assert_eq!(encoded(count(true)), bytes(b'n', &[(1, &[3, 1, 4])]));
    }

    #[test]
    fn comparisons() {
        let set = |comparison| Command::SetComparison {
            slot: 7,
            correlation: true,
            place: 2,
            comparison,
        };
        let constant = Comparison::with_constant(4, Operator::GreaterOrEqual, -2);
        let expected = [(1, &[7, 1, 2, 4, 5][..]), (16, &[254, 255, 255, 255])];
        assert_eq!(encoded(set(constant)), bytes(b'c', &expected));
        let activation = Comparison::with_activation(1, Operator::NotEqual, 3, 258);
        let expected = [(1, &[7, 1, 2, 1, 1, 1, 3][..]), (16, &[2, 1])];
        assert_eq!(encoded(set(activation)), bytes(b'c', &expected));
        for (operator, number) in Operator::ALL.into_iter().zip(0..) {
            let bytes = encoded(set(Comparison::with_constant(1, operator, 0)));
            assert_eq!(bytes[5], number);
        }
    }

    #[test]
    fn events_standings_and_the_closed_flag() {
        let event = Event::new(0x0403_0201, 64)
            .with_reading(2, -1)
            .with_reading(4, 5);
        let placed: [(usize, &[u8]); 4] = [
            (1, &[64, 0b0101]),
            (12, &[1, 2, 3, 4]),
            (20, &[255; 4]),
            (28, &[5]),
        ];
        assert_eq!(encoded(Command::Take(event)), bytes(b'e', &placed));
        let set = encoded(Command::SetEvent { slot: 255, event });
        let mut expected = bytes(b'E', &placed);
        expected[8] = 255;
        assert_eq!(set, expected);
        for (standing, kind, target) in [
            (Standing::Idle, 0, [0, 0]),
            (Standing::Open, 1, [0, 0]),
            (Standing::Fulfilled(258), 2, [2, 1]),
            (Standing::Violated(65_535), 3, [255, 255]),
        ] {
            let set = encoded(Command::SetStanding {
                cell: 4095,
                standing,
            });
            let placed: [(usize, &[u8]); 3] = [(1, &[kind]), (8, &[255, 15]), (12, &target)];
            assert_eq!(set, bytes(b'S', &placed));
        }
        let flag = |closed| encoded(Command::SetClosed { closed });
        assert_eq!(flag(true), bytes(b'F', &[(1, &[1])]));
        assert_eq!(flag(false), bytes(b'F', &[]));
    }

    #[test]
    fn standings_at_position_0() {
        for (rule, low) in [(1, 0), (2, 1), (16, 15)] {
            let set = encoded(Command::SetStanding {
                cell: cell_at_0(rule),
                standing: Standing::Violated(5),
            });
            let placed: [(usize, &[u8]); 3] = [(1, &[3]), (8, &[low, 16]), (12, &[5])];
            assert_eq!(set, bytes(b'S', &placed));
        }
    }

    #[test]
    fn stored_totals() {
        let set = encoded(Command::SetTotals {
            slot: 15,
            numbers: [256, u32::MAX, 0, 0x0001_0002],
        });
        let placed: [(usize, &[u8]); 4] =
            [(1, &[15]), (16, &[0, 1]), (20, &[255; 4]), (28, &[2, 0, 1])];
        assert_eq!(set, bytes(b'O', &placed));
    }

    #[test]
    fn the_kept_time() {
        let set = encoded(Command::SetClock { clock: 0x0403_0201 });
        assert_eq!(set, bytes(b'K', &[(8, &[1, 2, 3, 4])]));
    }

    #[test]
    fn the_tally() {
        let tally = Tally {
            cycles: u32::MAX,
            activations: 1,
            fulfilled: 256,
            violated: 0x8000_0000,
        };
        let placed: [(usize, &[u8]); 4] = [
            (16, &[255; 4]),
            (20, &[1]),
            (24, &[0, 1]),
            (28, &[0, 0, 0, 128]),
        ];
        assert_eq!(encoded(Command::SetTally(tally)), bytes(b'A', &placed));
    }

    #[test]
    fn buffers_are_cut_to_65536_bytes() {
        assert_eq!(buffer_of(0), []);
        assert_eq!(buffer_of(3), [165, 165, 165]);
        assert_eq!(buffer_of(65_535), [165; 65_535]);
        for n in [65_536, 65_537, 1 << 32, u64::MAX] {
            assert_eq!(buffer_of(n), [165; 65_536]);
        }
    }

    #[test]
    fn texts_follow_their_command() {
        let rules = b"2\t1\t2".to_vec();
        let cycle = vec![b'x'; 300];
        let read = bytes(b'R', &[(8, &[5])]);
        let expected = [read, rules.clone()].concat();
        assert_eq!(encoded(Command::ReadRules(rules.clone())), expected);
        let read = bytes(b'Y', &[(8, &[44, 1])]);
        let expected = [read, cycle.clone()].concat();
        assert_eq!(encoded(Command::ReadCycle(cycle.clone())), expected);
        let read = bytes(b'N', &[(8, &[5]), (12, &[44, 1])]);
        let expected = [read, rules.clone(), cycle.clone()].concat();
        let notebook = Command::Notebook {
            rules: rules.clone(),
            cycle: cycle.clone(),
        };
        assert_eq!(encoded(notebook), expected);
        let room = 0xFEDC_BA98;
        let placed: [(usize, &[u8]); 3] =
            [(8, &[5]), (12, &[44, 1]), (16, &[0x98, 0xBA, 0xDC, 0xFE])];
        let expected = [bytes(b'p', &placed), rules.clone(), cycle.clone()].concat();
        let command = Command::PrintTexts { rules, cycle, room };
        assert_eq!(encoded(command), expected);
    }
}
