//! What the tasks of each kind of script do most.

/// How many sorts of lines ask for something: twelve services, two reports.
pub const SORTS: usize = 14;

#[derive(Clone, Copy)]
pub struct Habits {
    /// How often each of the twelve services and two reports is asked for, in parts of the
    /// sum: ATTACH, DETACH, END, ABEND, ENQ, DEQ, WAIT, POST, CLEAR, GETMAIN, FREEMAIN,
    /// DISPATCH; who is stuck, the queues.
    pub parts: [u32; SORTS],
    /// How often a line is spoilt, in percent.
    pub spoilt: u32,
    /// How often an ENQ or DEQ is aimed at a name of the system, in percent: rarely, so that
    /// queues fill.
    pub system: u32,
    /// How often an ENQ is a HAVE with names that its task has, in percent.
    pub skips: u32,
    /// How many names there are to ask for.
    pub names: u32,
    /// Areas are small, so that the table fills before the region.
    pub small: bool,
}

const EVEN: [u32; SORTS] = [14, 5, 6, 2, 22, 14, 8, 14, 6, 12, 8, 5, 2, 2];

pub fn habits_of(kind: &str) -> Habits {
    let even = Habits { parts: EVEN, spoilt: 6, system: 4, skips: 6, names: 6, small: false };
    match kind {
        "tasks" => Habits { parts: [60, 12, 12, 5, 6, 3, 8, 14, 6, 12, 8, 12, 0, 0], ..even },
        "queue" => {
            let parts = [14, 5, 6, 2, 70, 55, 1, 2, 6, 1, 1, 5, 3, 5];
            Habits { parts, system: 6, skips: 8, names: 5, ..even }
        }
        "events" => Habits { parts: [14, 5, 6, 2, 3, 3, 40, 50, 20, 1, 1, 5, 0, 0], ..even },
        "storage" => Habits { parts: [14, 5, 6, 2, 2, 2, 2, 3, 6, 60, 45, 5, 0, 0], ..even },
        "full" => {
            let parts = [40, 3, 3, 1, 60, 20, 8, 14, 6, 40, 20, 5, 1, 1];
            Habits { parts, system: 2, names: 200, small: true, ..even }
        }
        "habit" => Habits { names: 12, spoilt: 0, ..even },
        "rings" => Habits {
            parts: [14, 5, 6, 2, 30, 30, 8, 14, 6, 12, 8, 5, 7, 4],
            names: 12,
            spoilt: 1,
            system: 1,
            ..even
        },
        "text" => Habits { spoilt: 12, ..even },
        _ => even,
    }
}
