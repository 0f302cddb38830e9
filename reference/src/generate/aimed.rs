//! Pokes aimed at one rule of sound tables, at its edge.

use std::io::Result;

use super::Generator;
use crate::tables::{Area, Ecb};

impl<'a> Generator<'a> {
    /// One poke at the edge of a rule, on either side of it.
    pub fn aimed_poke(&mut self) -> Result<Vec<String>> {
        let aimed = match self.random.below(9) {
            0 => self.aim_at_waited_ecb(),
            1 => self.aim_at_complete_ecb(),
            2 | 3 => self.aim_at_neighbours(),
            4 => self.aim_at_need(),
            5 => self.aim_at_entry(),
            6 => self.aim_at_task(),
            7 => self.aim_at_major(),
            _ => self.aim_at_area(),
        };
        match aimed {
            Some((place, value)) => self.poke(place, &value),
            None => self.one_poke(),
        }
    }

    fn ecb_where<F: Fn(&Ecb) -> bool>(&mut self, test: F) -> Option<usize> {
        let found: Vec<usize> = (0..64).filter(|n| test(&self.runner.step.ecbs[*n])).collect();
        if found.is_empty() {
            None
        } else {
            Some(self.random.pick(&found))
        }
    }

    /// "No ECB is both waited on and complete", and who may be its waiter.
    fn aim_at_waited_ecb(&mut self) -> Option<(String, String)> {
        let n = self.ecb_where(|ecb| ecb.wait != 0)?;
        Some(match self.random.below(4) {
            0 => (format!("ecb {} waiter", n), self.random.between(1, 33).to_string()),
            1 => (format!("ecb {} code", n), "1".to_string()),
            _ => (format!("ecb {} complete", n), "1".to_string()),
        })
    }

    /// The range of a code; "an incomplete one has code 0".
    fn aim_at_complete_ecb(&mut self) -> Option<(String, String)> {
        let n = self.ecb_where(|ecb| ecb.complete != 0)?;
        Some(match self.random.below(4) {
            0 => (format!("ecb {} complete", n), "0".to_string()),
            1 => (format!("ecb {} code", n), "1073741823".to_string()),
            2 => (format!("ecb {} code", n), "1073741824".to_string()),
            _ => (format!("ecb {} code", n), self.random.below(5000).to_string()),
        })
    }

    /// Two areas next to each other: an overlap of 8 bytes, a page of two owners.
    fn aim_at_neighbours(&mut self) -> Option<(String, String)> {
        let close = |low: &Area, high: &Area| high.address as u64 <= low.end() + 4096;
        let areas = self.runner.step.used_areas();
        let found: Vec<usize> =
            (1..areas.len()).filter(|i| close(&areas[i - 1], &areas[*i])).collect();
        if found.is_empty() {
            return None;
        }
        let i = self.random.pick(&found);
        let (low, high) = (self.runner.step.areas[i - 1], self.runner.step.areas[i]);
        let gap = high.address.wrapping_sub(low.address);
        Some(match self.random.below(6) {
            0 => (format!("area {} length", i - 1), gap.wrapping_add(8).to_string()),
            1 => (format!("area {} length", i - 1), gap.to_string()),
            2 => (format!("area {} address", i), (low.end() as u32).wrapping_sub(8).to_string()),
            3 => (format!("area {} address", i), low.end().to_string()),
            4 => (format!("area {} subpool", i), (low.subpool ^ 1).to_string()),
            _ => (format!("area {} owner", i), self.caller().to_string()),
        })
    }

    /// "at least 1 and at most as many posts as it has such ECBs"
    fn aim_at_need(&mut self) -> Option<(String, String)> {
        let n = self.task_where(|g, n| g.runner.step.tasks[n as usize].need != 0)?;
        let such = self.runner.step.ecbs.iter().filter(|ecb| ecb.waiter == n).count();
        let need = self.random.pick(&[0, 1, such, such, such + 1]);
        Some((format!("task {} need", n), need.to_string()))
    }

    /// A mode, a task.
    fn aim_at_entry(&mut self) -> Option<(String, String)> {
        let count = self.runner.step.entry_count as u32;
        if count == 0 {
            return None;
        }
        let i = self.random.below(count) as usize;
        let entry = self.runner.step.entries[i];
        Some(if self.random.one_in(2) {
            (format!("entry {} excl", i), (entry.excl ^ 1).to_string())
        } else {
            let strange = self.random.pick(&[0, 33, 255]);
            let task = if self.random.one_in(3) { strange } else { self.random.between(1, 32) };
            (format!("entry {} task", i), task.to_string())
        })
    }

    /// "Sound tables hold no such name": a major part of the system, or nearly such.
    fn aim_at_major(&mut self) -> Option<(String, String)> {
        let count = self.runner.step.entry_count as u32;
        if count == 0 {
            return None;
        }
        let i = self.random.below(count);
        let offset = self.runner.step.entries[i as usize].offset;
        Some((format!("name {}", offset), self.system_or_near_major()))
    }

    /// Priorities at their edges, mothers, states, waits.
    fn aim_at_task(&mut self) -> Option<(String, String)> {
        let n = self.task_where(|g, n| g.runner.step.tasks[n as usize].state != 0)?;
        let task = self.runner.step.tasks[n as usize];
        let (field, value) = match self.random.below(9) {
            0 => ("disp", task.limit),
            1 => ("disp", task.limit.wrapping_add(1)),
            2 => ("limit", self.random.pick(&[255, 256])),
            3 => ("limit", task.disp.wrapping_sub(1)),
            4 => ("mother", self.random.below(34)),
            5 => ("state", self.random.below(3)),
            6 => ("rwait", task.rwait ^ 1),
            7 => ("hasecb", task.hasecb ^ 1),
            _ => ("ecb", self.random.pick(&[0, 1, 63, 64])),
        };
        Some((format!("task {} {}", n, field), value.to_string()))
    }

    /// Subpools and the region at their edges.
    fn aim_at_area(&mut self) -> Option<(String, String)> {
        let count = self.runner.step.area_count as u32;
        if count == 0 {
            return None;
        }
        let i = if self.random.one_in(2) { count - 1 } else { self.random.below(count) };
        let area = self.runner.step.areas[i as usize];
        let rest = 131_072u32.wrapping_sub(area.address);
        let (field, value) = match self.random.below(6) {
            0 => ("subpool", self.random.pick(&[0, 126, 127, 128])),
            1 => ("length", rest),
            2 => ("length", rest.wrapping_add(8)),
            3 => ("length", area.length.wrapping_add(self.random.pick(&[4, 8]))),
            4 => ("address", area.address.wrapping_add(4)),
            _ => ("owner", self.random.below(34)),
        };
        Some((format!("area {} {}", i, field), value.to_string()))
    }
}
