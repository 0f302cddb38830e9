//! Lines with names of the system, which ENQ refuses with 110, and with names that are nearly
//! such.

use super::lines::text_of;
use super::Generator;
use crate::names::{Name, SYSTEM};
use crate::numbers::LIST;

/// Major parts of the system: SYS with zeros and with blanks, SYSDSN, SYSIEFSD, the highest.
const SYSTEM_MAJORS: [u64; 5] = [
    0xe2e8_e200_0000_0000,
    0xe2e8_e240_4040_4040,
    0xe2e8_e2c4_e2d5_4040,
    0xe2e8_e2c9_c5c6_e2c4,
    0xe2e8_e2ff_ffff_ffff,
];

/// Major parts that are nearly the system's: one of the three bytes is another, they stand
/// elsewhere or in another order, SYS in ASCII and in small letters.
const NEAR_MAJORS: [u64; 14] = [
    0xe2e8_e300_0000_0000,
    0xe2e8_e1ff_ffff_ffff,
    0xe2e8_0000_0000_0000,
    0xe2e9_e200_0000_0000,
    0xe200_e2c4_e2d5_4040,
    0xe3e8_e200_0000_0000,
    0x00e8_e2c4_e2d5_4040,
    0x00e2_e8e2_0000_0000,
    0xe2e2_e8e2_0000_0000,
    0x40e2_e8e2_c4e2_d540,
    0x0000_0000_00e2_e8e2,
    0xe8e2_e200_0000_0000,
    0x5359_5344_534e_2020,
    0xa2a8_a200_0000_0000,
];

impl<'a> Generator<'a> {
    /// The names of the system that stand in the tables, which only pokes bring there.
    fn system_names_held(&self) -> Vec<Name> {
        let names = self.runner.step.queue().into_iter().map(|e| e.name);
        names.filter(|name| name.is_the_systems()).collect()
    }

    pub fn tables_hold_a_system_name(&self) -> bool {
        !self.system_names_held().is_empty()
    }

    /// A major part of the system, or now and then one that is nearly such.
    pub fn system_or_near_major(&mut self) -> String {
        let near = self.random.one_in(4);
        let major =
            if near { self.random.pick(&NEAR_MAJORS) } else { self.random.pick(&SYSTEM_MAJORS) };
        format!("{:016x}", major)
    }

    /// A name of the system: one from the tables, if they hold any, or another.
    pub fn system_name(&mut self) -> Name {
        let held = self.system_names_held();
        if !held.is_empty() && self.random.one_in(2) {
            return self.random.pick(&held);
        }
        let major = self.random.pick(&SYSTEM_MAJORS).to_be_bytes();
        let length = self.random.pick(&[1, 3, 8, 44]);
        let mut name = Name { major, length, ..Name::NONE };
        name.minor[length as usize - 1] = self.random.below(4) as u8;
        name
    }

    /// A name that is nearly one of the system's: few different ones, so that they meet.
    fn near_name(&mut self) -> Name {
        if self.random.one_in(5) {
            let mut name = Name { length: self.random.pick(&[3, 3, 8]), ..Name::NONE };
            name.minor[..SYSTEM.len()].copy_from_slice(&SYSTEM);
            return name;
        }
        let major = self.random.pick(&NEAR_MAJORS).to_be_bytes();
        Name { major, length: 1, ..Name::NONE }
    }

    /// ENQ or DEQ with such a name.
    pub fn system_line(&mut self) -> String {
        if self.random.one_in(2) {
            self.system_enq_line()
        } else {
            self.system_deq_line()
        }
    }

    /// ENQ in any RET kind with such a name, alone or anywhere among others; the list is now
    /// and then a bad one and the codes area often too short, so that 101, 110 and 104 compete.
    pub fn system_enq_line(&mut self) -> String {
        let ret = self.random.pick(&["none", "test", "use", "have", "chng"]);
        let caller = match self.random.below(10) {
            0 => self.bad_caller(),
            1..=3 => self.caller_where(|g, n| g.holds_any(n)),
            _ if ret == "chng" => self.caller_where(|g, n| g.holds_any(n)),
            _ => self.caller(),
        };
        let (place, names) = self.names_around(caller, ret);
        let mut words = self.in_modes(&names, ret);
        if self.random.one_in(4) {
            let place =
                if self.random.one_in(3) { self.random.below(words.len() as u32) } else { place };
            self.spoil_around(&mut words, place as usize);
        }
        let codes = self.often_short(words.len(), if ret == "none" { 8 } else { 3 });
        let line = format!("enq {} {} {} {}", caller, ret, codes, words.join(" "));
        if self.random.one_in(8) {
            line.replace("e2e8", "E2E8")
        } else {
            line
        }
    }

    /// With their modes; CHNG rarely asks for shared.
    pub fn in_modes(&mut self, names: &[Name], ret: &str) -> Vec<String> {
        let shared = if ret == "chng" { 20 } else { 2 };
        let mut words = Vec::new();
        for name in names {
            let mode = if self.random.one_in(shared) { "S" } else { "E" };
            words.push(format!("{}:{}", mode, text_of(name)));
        }
        words
    }

    /// The length of a codes area that is too short for the list one time in so many.
    fn often_short(&mut self, names: usize, one_in: u32) -> u32 {
        if self.random.one_in(one_in) {
            self.random.below(names as u32)
        } else {
            self.codes_length(names)
        }
    }

    /// A list with such a name, and its place: alone, or first, last or between others.  Of the
    /// others one is now and then the caller's, which would be 201 with NONE, and one the
    /// system's too.
    fn names_around(&mut self, caller: u32, ret: &str) -> (u32, Vec<Name>) {
        let aimed = if self.random.one_in(3) { self.near_name() } else { self.system_name() };
        if self.random.percent(35) {
            return (0, vec![aimed]);
        }
        let mut names = self.names_for(caller, ret);
        let held = self.held_by(caller);
        if !held.is_empty() && self.random.one_in(3) {
            let own = self.random.pick(&held);
            names.retain(|name| *name != own);
            names.push(own);
        }
        if self.random.one_in(6) {
            names.push(self.system_name());
        }
        names.truncate(if self.random.one_in(12) { LIST } else { LIST - 1 });
        let place = self.random.below(names.len() as u32 + 1);
        names.insert(place as usize, aimed);
        (place, names)
    }

    /// The list made a bad one: at this place no minor part or one too long, or a shared name
    /// (CHNG); a name twice; more than 16.
    fn spoil_around(&mut self, words: &mut Vec<String>, place: usize) {
        let word = words[place].clone();
        match self.random.below(7) {
            0 => words[place] = word.split('.').next().unwrap_or("").to_string() + ".",
            1 => words[place] += "/0",
            2 => words[place] += self.random.pick(&["/45", "/300"]),
            3 => words.push(word),
            4 => words.push(words[words.len() - 1].clone()),
            5 => words[place] = word.replace("E:", "S:"),
            _ => {
                let count = self.random.between(LIST as u32, LIST as u32 + 4) as usize;
                let others = (0..).map(|i| format!("E:{:016x}.ff", i));
                words.extend(others.take(count.saturating_sub(words.len())));
            }
        }
    }

    /// DEQ with such a name, alone or among names that the caller has.  NONE ends the caller.
    pub fn system_deq_line(&mut self) -> String {
        let caller = self.caller_where(|g, n| g.holds_any(n));
        let near = self.random.one_in(6);
        let aimed = if near { self.near_name() } else { self.system_name() };
        let mut names = self.held_by(caller);
        names.retain(|name| *name != aimed);
        names.truncate(self.random.below(4) as usize);
        names.insert(self.random.below(names.len() as u32 + 1) as usize, aimed);
        let mut words: Vec<String> = names.iter().map(text_of).collect();
        if self.random.one_in(8) {
            words.push(text_of(&aimed));
        }
        let ret = if self.random.percent(80) { "have" } else { "none" };
        let codes = self.often_short(words.len(), 8);
        format!("deq {} {} {} {}", caller, ret, codes, words.join(" "))
    }
}
