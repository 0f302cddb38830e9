//! Pokes: tables made unsound, or sound in a way that no run reaches.

use std::io::Result;

use super::habits::SORTS;
use super::lines::hex;
use super::Generator;
use crate::numbers::{AREAS, ENTRIES, MINOR, NAMES};
use crate::poke::{AREA_FIELDS, ECB_FIELDS, ENTRY_FIELDS, TASK_FIELDS};
use crate::runner::Outcome;
use crate::sound::is_sound;
use crate::tables::Step;

const VALUES: [u32; 34] = [
    0,
    1,
    2,
    3,
    4,
    5,
    7,
    8,
    16,
    31,
    32,
    33,
    44,
    45,
    63,
    64,
    127,
    128,
    255,
    256,
    4_095,
    4_096,
    16_383,
    16_384,
    65_535,
    65_536,
    131_064,
    131_071,
    131_072,
    131_080,
    1_073_741_823,
    1_073_741_824,
    2_147_483_648,
    4_294_967_295,
];

impl<'a> Generator<'a> {
    /// Poke, make requests, then mend by poking back or start afresh.
    pub fn break_and_mend(&mut self) -> Result<()> {
        let before = self.runner.step.clone();
        let mut places = Vec::new();
        for _ in 0..self.random.pick(&[1, 1, 1, 1, 2, 3]) {
            let place = match self.random.below(14) {
                0 => self.many_pokes()?,
                1..=5 => self.aimed_poke()?,
                6..=9 => self.one_poke()?,
                _ => self.break_names()?,
            };
            places.extend(place);
        }
        for _ in 0..self.random.between(1, 3) {
            let line = self.line_for_poked();
            self.say(&line)?;
        }
        if self.random.one_in(3) {
            self.say("dump")?;
        }
        if is_sound(&self.runner.step) {
            return Ok(());
        }
        if self.random.percent(75) {
            return self.mend(&before, &places);
        }
        self.fresh()
    }

    /// A line of any service or report; or where a name of the system was poked, one that asks
    /// for such a name or gives it back.
    fn line_for_poked(&mut self) -> String {
        if self.tables_hold_a_system_name() && self.random.one_in(3) {
            return self.system_line();
        }
        let sort = self.random.below(SORTS as u32) as usize;
        self.line_of(sort)
    }

    /// Poke the fields back, last one first, as they stood before, and the name area with them.
    fn mend(&mut self, before: &Step, places: &[String]) -> Result<()> {
        for place in places.iter().rev() {
            let line = format!("poke {} {}", place, field_text(before, place));
            self.say(&line)?;
        }
        self.mend_names(&before.names)?;
        if is_sound(&self.runner.step) {
            self.request()
        } else {
            self.fresh()
        }
    }

    /// Poke a value; what there is to mend comes back.  The name area is mended as a whole.
    pub fn poke(&mut self, place: String, value: &str) -> Result<Vec<String>> {
        let held = match self.say(&format!("poke {} {}", place, value))? {
            Outcome::Poked => true,
            _ => false,
        };
        Ok(if held && !place.starts_with("name ") { vec![place] } else { Vec::new() })
    }

    fn value_near(&mut self, now: &str) -> String {
        let now = now.parse::<u32>().unwrap_or(0);
        let edge = self.random.pick(&VALUES);
        let near = self.random.pick(&[1, 8, 4_096]);
        match self.random.below(6) {
            0 => now.saturating_add(near),
            1 => now.saturating_sub(near),
            2 => self.random.below(33),
            3 => self.random.below(2),
            _ => edge,
        }
        .to_string()
    }

    /// One field of a place in use, or of the first place not in use, or of any.
    pub fn one_poke(&mut self) -> Result<Vec<String>> {
        let entries = self.runner.step.entry_count as u32;
        let areas = self.runner.step.area_count as u32;
        let place = match self.random.below(12) {
            0 => format!("step {}", self.random.pick(&["over", "code"])),
            1..=3 => {
                let used = self.task_where(|g, n| g.runner.step.tasks[n as usize].state != 0);
                let any = self.random.between(1, 32);
                let n = if self.random.percent(85) { used.unwrap_or(any) } else { any };
                format!("task {} {}", n, self.random.pick(&TASK_FIELDS))
            }
            4 | 5 => {
                let i = self.random.below(entries + 2).min(ENTRIES as u32 - 1);
                format!("entry {} {}", i, self.random.pick(&ENTRY_FIELDS))
            }
            6 => return self.poke_gone(),
            7..=9 => {
                let waited = self.random.one_in(2);
                let complete = (0..64).find(|n| self.runner.step.ecbs[*n].complete != 0);
                let n = match complete {
                    Some(n) if self.random.one_in(3) => n as u32,
                    _ => self.ecb_where_waited(waited).unwrap_or(9),
                };
                format!("ecb {} {}", n, self.random.pick(&ECB_FIELDS))
            }
            _ => {
                let i = self.random.below(areas + 2).min(AREAS as u32 - 1);
                format!("area {} {}", i, self.random.pick(&AREA_FIELDS))
            }
        };
        let now = field_text(&self.runner.step, &place);
        let value = self.value_near(&now);
        self.poke(place, &value)
    }

    /// A field that entries had before there was a name area: it can't be held.
    fn poke_gone(&mut self) -> Result<Vec<String>> {
        let count = self.runner.step.entry_count as u32;
        let i = self.random.below(count + 1).min(ENTRIES as u32 - 1);
        let value = match self.random.below(3) {
            0 => format!("length {}", self.random.pick(&VALUES)),
            1 => format!("major {}", self.system_or_near_major()),
            _ => format!("minor {}", hex(&[self.random.below(256) as u8; MINOR])),
        };
        self.say(&format!("poke entry {} {}", i, value))?;
        Ok(Vec::new())
    }

    /// Of a step that is over: another code, or empty tables of a step that runs, or a byte in
    /// the name area.
    pub fn poke_step(&mut self) -> Result<()> {
        let code = self.random.pick(&[0u32, 1, 201, 4_095, 4_096, 4_294_967_295]);
        if self.random.percent(70) {
            self.say(&format!("poke step code {}", code))?;
        }
        if self.random.percent(40) {
            self.say("poke step over 0")?;
        }
        if self.random.percent(40) {
            let at = self.random.pick(&[0, 0, 1, 8, 9, 6_783, NAMES - 1]);
            let byte = self.random.between(1, 255);
            self.say(&format!("poke name {} {:02x}", at, byte))?;
        }
        self.say("dispatch")?;
        let line = self.line_of(8);
        self.say(&line).map(|_| ())
    }

    /// Several pokes that belong together.
    fn many_pokes(&mut self) -> Result<Vec<String>> {
        match self.random.below(6) {
            0 => self.poke_double_entry(),
            1 => self.poke_new_area(),
            2 => self.poke_system_entry(),
            3 => self.poke_waiters(),
            4 => self.poke_ended(),
            _ => self.poke_mothers(),
        }
    }

    /// An entry at the tail like one that is there, of the same task or another.
    fn poke_double_entry(&mut self) -> Result<Vec<String>> {
        let count = self.runner.step.entry_count;
        if count == 0 || count == ENTRIES {
            return Ok(Vec::new());
        }
        let from = self.random.below(count as u32) as usize;
        let shift = self.random.below(10);
        let mut places = Vec::new();
        for field in ["name", "excl", "task"].iter() {
            let mut value = field_text(&self.runner.step, &format!("entry {} {}", from, field));
            if *field == "task" && shift < 3 {
                value = self.random.between(1, 32).to_string();
            }
            let at = if shift == 9 && count + 1 < ENTRIES { count + 1 } else { count };
            places.extend(self.poke(format!("entry {} {}", at, field), &value)?);
        }
        Ok(places)
    }

    /// An entry at the tail for a name of the system, or nearly such, of a live task.
    fn poke_system_entry(&mut self) -> Result<Vec<String>> {
        let count = self.runner.step.entry_count;
        if count == ENTRIES {
            return Ok(Vec::new());
        }
        let offset = self.end_of_names();
        let bytes = format!("{}01{:02x}", self.system_or_near_major(), self.random.below(4));
        let excl = self.random.below(2).to_string();
        let caller = self.caller().to_string();
        let mut places = self.poke(format!("name {}", offset), &bytes)?;
        for (field, value) in
            [("name", offset.to_string()), ("excl", excl), ("task", caller)].iter()
        {
            places.extend(self.poke(format!("entry {} {}", count, field), value)?);
        }
        Ok(places)
    }

    /// An area behind the last one: in order or not, on a page of another owner or not.
    fn poke_new_area(&mut self) -> Result<Vec<String>> {
        let count = self.runner.step.area_count;
        if count == AREAS {
            return Ok(Vec::new());
        }
        let last = if count == 0 { 0 } else { self.runner.step.areas[count - 1].end() as u32 };
        let gap = self.random.pick(&[0, 8, 4_096, 4_096, 4_100]);
        let subpool = self.random.pick(&[0, 1, 2, 127]);
        let owner = if subpool == 0 { 0 } else { self.caller() };
        let length = self.random.pick(&[8, 16, 12, 4_096, 131_072 - last.min(131_064)]);
        let mut places = Vec::new();
        for (field, value) in
            [("address", last + gap), ("subpool", subpool), ("owner", owner), ("length", length)]
                .iter()
        {
            places.extend(self.poke(format!("area {} {}", count, field), &value.to_string())?);
        }
        Ok(places)
    }

    /// One waiter takes over the ECBs of another: more than 16, which no WAIT reaches.
    fn poke_waiters(&mut self) -> Result<Vec<String>> {
        let waits = |g: &Generator, n: u32| g.runner.step.tasks[n as usize].need != 0;
        self.two_long_waits()?;
        let (to, from) = match (self.task_where(waits), self.task_where(waits)) {
            (Some(to), Some(from)) if to != from => (to, from),
            _ => return Ok(Vec::new()),
        };
        let mut places = self.poke(format!("task {} need", from), "0")?;
        for n in 0..64 {
            if self.runner.step.ecbs[n].waiter == from {
                places.extend(self.poke(format!("ecb {} waiter", n), &to.to_string())?);
            }
        }
        let such = self.runner.step.ecbs.iter().filter(|e| e.waiter == to).count() as u32;
        let need = self.random.between(1, such + 1);
        places.extend(self.poke(format!("task {} need", to), &need.to_string())?);
        Ok(places)
    }

    /// Two tasks wait for many ECBs each.
    fn two_long_waits(&mut self) -> Result<()> {
        for _ in 0..2 {
            let caller = self.caller_where(|_, n| n != 1);
            let ecbs = &self.runner.step.ecbs;
            let free: Vec<usize> = (0..64).filter(|n| ecbs[*n].wait == 0).take(16).collect();
            if caller == 1 || free.is_empty() {
                return Ok(());
            }
            let count = self.random.below(free.len() as u32 + 1);
            let list: String = free.iter().map(|n| format!(" {}", n)).collect();
            self.say(&format!("wait {} {}{}", caller, count, list))?;
        }
        Ok(())
    }

    /// A live task made ended, with or without an ECB, entries, areas, subtasks.
    fn poke_ended(&mut self) -> Result<Vec<String>> {
        let caller = self.caller_where(|_, n| n != 1);
        let mut places = Vec::new();
        if self.random.one_in(2) {
            places.extend(self.poke(format!("task {} hasecb", caller), "1")?);
        }
        places.extend(self.poke(format!("task {} state", caller), "2")?);
        Ok(places)
    }

    /// Mothers in a ring, or a free or ended mother.
    fn poke_mothers(&mut self) -> Result<Vec<String>> {
        let used = |g: &Generator, n: u32| n != 1 && g.runner.step.tasks[n as usize].state != 0;
        let (a, b) = match (self.task_where(used), self.task_where(used)) {
            (Some(a), Some(b)) => (a, b),
            _ => return Ok(Vec::new()),
        };
        let mut places = self.poke(format!("task {} mother", a), &b.to_string())?;
        if self.random.one_in(2) {
            places.extend(self.poke(format!("task {} mother", b), &a.to_string())?);
        }
        Ok(places)
    }
}

/// What a field holds, in a poke's words.
fn field_text(step: &Step, place: &str) -> String {
    let words: Vec<&str> = place.split(' ').collect();
    let index = words[1].parse::<usize>().unwrap_or(0);
    let value = match (words[0], *words.last().unwrap_or(&"")) {
        ("step", "over") => step.over,
        ("step", _) => step.code,
        ("entry", "task") => step.entries[index].task,
        ("entry", "excl") => step.entries[index].excl,
        ("entry", _) => step.entries[index].offset,
        ("task", field) => task_value(step, index, field),
        ("ecb", "wait") => step.ecbs[index].wait,
        ("ecb", "complete") => step.ecbs[index].complete,
        ("ecb", "code") => step.ecbs[index].code,
        ("ecb", _) => step.ecbs[index].waiter,
        (_, "address") => step.areas[index].address,
        (_, "length") => step.areas[index].length,
        (_, "subpool") => step.areas[index].subpool,
        _ => step.areas[index].owner,
    };
    value.to_string()
}

fn task_value(step: &Step, index: usize, field: &str) -> u32 {
    let task = &step.tasks[index];
    match field {
        "state" => task.state,
        "mother" => task.mother,
        "limit" => task.limit,
        "disp" => task.disp,
        "hasecb" => task.hasecb,
        "ecb" => task.ecb,
        "rwait" => task.rwait,
        _ => task.need,
    }
}
