//! Lines of requests that mean something in the tables as they stand.

use std::io::Result;

use super::Generator;
use crate::names::Name;
use crate::numbers::ECBS;

pub fn hex(bytes: &[u8]) -> String {
    bytes.iter().map(|byte| format!("{:02x}", byte)).collect()
}

pub fn text_of(name: &Name) -> String {
    format!("{}.{}", hex(&name.major), hex(name.minor_bytes()))
}

impl<'a> Generator<'a> {
    /// One request by the kind's habits, now and then spoilt.
    pub fn request(&mut self) -> Result<()> {
        let mut line = self.right_line();
        if self.random.percent(self.habits.spoilt) {
            line = self.spoilt(&line);
        }
        if self.random.one_in(300) {
            line = self.garbled(&line);
        }
        self.say(&line).map(|_| ())
    }

    fn right_line(&mut self) -> String {
        let parts = self.habits.parts;
        let mut at = self.random.below(parts.iter().sum());
        let mut sort = 0;
        while at >= parts[sort] {
            at -= parts[sort];
            sort += 1;
        }
        self.line_of(sort)
    }

    /// A line of the service or report with this place in the list of habits.
    pub fn line_of(&mut self, sort: usize) -> String {
        match sort {
            0 => self.attach_line(),
            1 => self.detach_line(),
            2 => self.end_line(),
            3 => self.abend_line(),
            4 => self.enq_line(),
            5 => self.deq_line(),
            6 => self.wait_line(),
            7 => self.post_line(),
            8 => self.clear_line(),
            9 => self.getmain_line(),
            10 => self.freemain_line(),
            11 => "dispatch".to_string(),
            12 => self.stuck_line(),
            _ => self.queues_line(),
        }
    }

    pub fn attach_line(&mut self) -> String {
        let caller =
            if self.random.percent(40) { self.deepest() } else { self.caller_where(|_, _| true) };
        let lpmod = self.random.pick(&[0, 0, 1, 5, 30, 255]);
        let dpmod = self.random.between(0, 510) as i32 - 255;
        let dpmod = if self.random.one_in(2) { dpmod / 16 } else { dpmod };
        let most = self.random.pick(&[6, ECBS]);
        let ecb = self.random.below(most);
        if self.random.percent(35) {
            format!("attach {} {} {} -", caller, lpmod, dpmod)
        } else {
            format!("attach {} {} {} {}", caller, lpmod, dpmod, ecb)
        }
    }

    fn detach_line(&mut self) -> String {
        let caller = self.caller_where(|g, n| g.has_subtask(n));
        let task = match self.subtask_of(caller) {
            Some(task) if self.random.percent(94) => task,
            _ => self.random.between(1, 32),
        };
        format!("detach {} {}", caller, task)
    }

    fn end_line(&mut self) -> String {
        let leaf = self.random.percent(85);
        let caller = self.caller_where(|g, n| n != 1 && g.has_subtask(n) != leaf);
        format!("end {} {}", caller, self.random.below(4096))
    }

    fn abend_line(&mut self) -> String {
        let caller = self.caller();
        let step = if self.random.one_in(10) { " step" } else { "" };
        format!("abend {} {}{}", caller, self.random.below(4096), step)
    }

    fn list_length(&mut self) -> u32 {
        match self.random.below(12) {
            0 => 16,
            1 => self.random.between(4, 15),
            2 | 3 => 3,
            4 | 5 => 2,
            _ => 1,
        }
    }

    /// Codes areas are mostly long enough.
    pub fn codes_length(&mut self, names: usize) -> u32 {
        match self.random.below(20) {
            0 => self.random.below(names as u32 + 1),
            1 => 64,
            2..=8 => names as u32 + self.random.below(4),
            _ => names as u32,
        }
    }

    fn enq_line(&mut self) -> String {
        if self.random.percent(self.habits.system) {
            return self.system_enq_line();
        }
        if self.random.percent(self.habits.skips) {
            return self.skip_line();
        }
        let ret = self.random.pick(&["none", "none", "test", "use", "use", "have", "have", "chng"]);
        let caller =
            if ret == "chng" { self.caller_where(|g, n| g.holds_any(n)) } else { self.caller() };
        let names = self.names_for(caller, ret);
        let codes = self.codes_length(names.len());
        let mut line = format!("enq {} {} {}", caller, ret, codes);
        let exclusive = self.random.pick(&[10, 30, 60]);
        for name in names {
            let shared = ret != "chng" && !self.random.percent(exclusive);
            line += if shared { " S:" } else { " E:" };
            line += &text_of(&name);
        }
        line
    }

    /// Distinct names: mostly new ones for the caller, or with CHNG those it holds.
    pub fn names_for(&mut self, caller: u32, ret: &str) -> Vec<Name> {
        let held = self.held_by(caller);
        let wanted = self.list_length();
        let mut names: Vec<Name> = Vec::new();
        for _ in 0..wanted * 3 {
            let likes_held = if ret == "chng" { 95 } else { 2 };
            let name = if !held.is_empty() && self.random.percent(likes_held) {
                self.random.pick(&held)
            } else {
                self.any_name()
            };
            let unlucky = ret != "chng" && self.holds(caller, name) && !self.random.one_in(12);
            if names.len() < wanted as usize && !names.contains(&name) && !unlucky {
                names.push(name);
            }
        }
        if names.is_empty() {
            names.push(self.any_name());
        }
        names
    }

    fn deq_line(&mut self) -> String {
        // less often than ENQ: with NONE it ends the caller
        if self.random.percent(self.habits.system) && self.random.one_in(2) {
            return self.system_deq_line();
        }
        let caller = self.caller_where(|g, n| g.holds_any(n));
        let mut names = self.held_by(caller);
        if names.is_empty() && !self.random.one_in(8) {
            return self.enq_line();
        }
        let all = self.random.one_in(3);
        let mut kept: Vec<Name> = Vec::new();
        for name in names.drain(..) {
            if kept.len() < 16 && (all || kept.is_empty() || self.random.one_in(3)) {
                kept.push(name);
            }
        }
        let have = self.random.one_in(2) || (kept.is_empty() && !self.random.one_in(6));
        if kept.is_empty() || self.random.one_in(if have { 5 } else { 40 }) {
            let name = self.any_name();
            if !kept.contains(&name) && kept.len() < 16 {
                kept.push(name);
            }
        }
        let codes = self.codes_length(kept.len());
        let list: String = kept.iter().map(|name| format!(" {}", text_of(name))).collect();
        format!("deq {} {} {}{}", caller, if have { "have" } else { "none" }, codes, list)
    }

    fn wait_line(&mut self) -> String {
        let caller = self.caller();
        let length = self.list_length();
        let mut ecbs: Vec<u32> = Vec::new();
        for _ in 0..length * 2 {
            let waited = self.random.one_in(120);
            let ecb = match self.ecb_of_a_task() {
                Some(ecb) if !waited && self.random.one_in(4) => ecb,
                _ => self.ecb_where_waited(waited).unwrap_or(0),
            };
            if ecbs.len() < length as usize && !ecbs.contains(&ecb) {
                ecbs.push(ecb);
            }
        }
        let most = ecbs.len() as u32;
        let count = match self.random.below(40) {
            0 => most + 1,
            1 => self.random.pick(&[17, 255, 256, 65_536, 4_294_967_295]),
            _ => self.random.below(most + 1),
        };
        let list: String = ecbs.iter().map(|ecb| format!(" {}", ecb)).collect();
        format!("wait {} {}{}", caller, count, list)
    }

    fn post_line(&mut self) -> String {
        let caller = self.caller();
        let waited = self.ecb_where_waited(true);
        let ecb = match waited {
            Some(ecb) if self.random.percent(70) => ecb,
            _ => self.random.below(ECBS),
        };
        let code = self.random.pick(&[0, 1, 77, 4095, 65_536, 1_073_741_823]);
        format!("post {} {} {}", caller, ecb, code)
    }

    fn clear_line(&mut self) -> String {
        let caller = self.caller();
        let waited = self.random.one_in(8);
        let ecb = self.ecb_where_waited(waited).unwrap_or(0);
        format!("clear {} {}", caller, ecb)
    }

    fn getmain_line(&mut self) -> String {
        let caller = self.caller();
        let length = match self.random.below(12) {
            0 => self.random.between(1, 131_072),
            1 => self.random.between(4_000, 20_000),
            2 | 3 => self.random.pick(&[4_088, 4_089, 4_096, 4_097, 8_192, 2_048]),
            _ => self.random.between(1, 700),
        };
        let length = if self.habits.small { length % 96 + 1 } else { length };
        let subpool = self.random.pick(&[0, 1, 1, 2, 127]);
        let how = if self.random.percent(80) { "cond" } else { "uncond" };
        format!("getmain {} {} {} {}", caller, length, subpool, how)
    }

    fn freemain_line(&mut self) -> String {
        let area = match self.any_area() {
            Some(area) => area,
            None if self.random.one_in(8) => return format!("freemain {} 0 8 0", self.caller()),
            None => return self.getmain_line(),
        };
        let owner = area.owner;
        let caller = if owner != 0 && self.is_ready(owner) { owner } else { self.caller() };
        let length = area.length.saturating_sub(self.random.below(8));
        let (address, length, subpool) = match self.random.below(60) {
            0 => (area.address.wrapping_add(1), length, area.subpool),
            1 => (area.address, length.max(9) - 8, area.subpool),
            2 => (area.address, area.length.wrapping_add(1), area.subpool),
            3 => (area.address, length, (area.subpool ^ 1)),
            _ => (area.address, length, area.subpool),
        };
        format!("freemain {} {} {} {}", caller, address, length, subpool)
    }
}
