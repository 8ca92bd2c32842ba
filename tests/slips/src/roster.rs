//! Rosters as bytes, laid out as document 01 says.

/// A step of a script.
#[derive(Clone, Copy)]
pub enum Step {
    Enter(u8),
    Leave(u8),
    Work,
    Suspend,
    Set(u8, u16),
    Again,
}

/// Bases with their scripts, and ceilings.
pub struct Roster {
    pub tasks: &'static [(u8, &'static [Step])],
    pub ceilings: &'static [u8],
}

/// Code, first operand, second operand.
fn step_bytes(step: Step) -> [u8; 4] {
    let (code, a, b) = match step {
        Step::Enter(o) => (1, o, 0),
        Step::Leave(o) => (2, o, 0),
        Step::Work => (4, 0, 0),
        Step::Suspend => (5, 0, 0),
        Step::Set(t, p) => (7, t, p),
        Step::Again => (8, 0, 0),
    };
    let [low, high] = u16::to_le_bytes(b);
    [code, a, low, high]
}

/// Scripts, task table, object table, trailer.
pub fn bytes_of(roster: &Roster) -> Vec<u8> {
    let mut bytes = Vec::new();
    let mut rows = Vec::new();
    for (base, script) in roster.tasks {
        let start = bytes.len() as u16;
        for step in *script {
            bytes.extend(step_bytes(*step));
        }
        rows.extend([*base, 0]);
        rows.extend(start.to_le_bytes());
        rows.extend((4 * script.len() as u16).to_le_bytes());
    }
    let task_table = bytes.len() as u16;
    bytes.extend(rows);
    let object_table = bytes.len() as u16;
    for ceiling in roster.ceilings {
        bytes.extend([*ceiling, 0]);
    }
    bytes.extend([
        0x52,
        0x35,
        roster.tasks.len() as u8,
        roster.ceilings.len() as u8,
    ]);
    bytes.extend(object_table.to_le_bytes());
    bytes.extend(task_table.to_le_bytes());
    bytes
}
