//! Spoilt lines (readable, but refused) and garbled ones (mostly unreadable).

use std::io::Result;

use super::habits::SORTS;
use super::lines::hex;
use super::Generator;
use crate::numbers::NAMES;

const EDGES: [u32; 28] = [
    0,
    1,
    2,
    31,
    32,
    33,
    44,
    45,
    63,
    64,
    65,
    127,
    128,
    129,
    255,
    256,
    257,
    511,
    4_095,
    4_096,
    65_535,
    65_536,
    131_071,
    131_072,
    131_073,
    1_073_741_823,
    1_073_741_824,
    4_294_967_295,
];

/// Lines that are near a readable one.
const UNREADABLE: [&str; 39] = [
    "poke",
    "poke step over",
    "poke task 0 state 0",
    "poke task 33 state 1",
    "poke ecb 64 wait 0",
    "poke area 128 owner 0",
    "poke entry 0 major 00",
    "poke entry 0 minor 00",
    "poke entry 0 length x",
    "poke entry 0 name",
    "poke entry 0 name -1",
    "poke entry 128 name 0",
    "poke name 0",
    "poke name 0 ",
    "poke name 0 0",
    "poke name 0 0g",
    "poke name 16384 00",
    "poke name 16383 0000",
    "poke names 0 00",
    "fresh 1",
    "dump x",
    "fresh 00000000001 1",
    "wait 1",
    "enq 1 none",
    "deq 1 use 0",
    "dump ",
    " dump",
    "Dump",
    "enq 1 none 65",
    "poke task 1 limit 4294967296",
    "poke entry 128 task 0",
    "dumps",
    "stuck",
    "stuck 256",
    "stuck 1 2",
    "stuck -1",
    "queue 1",
    "queues 256",
    "queues 00000000001",
];

impl<'a> Generator<'a> {
    /// A line with one number, name or list out of order.
    pub fn spoilt(&mut self, line: &str) -> String {
        let mut words: Vec<String> = line.split(' ').map(|word| word.to_string()).collect();
        if words.len() < 2 {
            return line.to_string();
        }
        if words[0] == "stuck" || words[0] == "queues" {
            return format!("{} {}", words[0], self.edge());
        }
        if words[0] == "abend" && words.len() == 3 && self.random.one_in(2) {
            words.push("step".to_string());
        }
        match self.random.below(7) {
            0 | 1 => words[1] = self.bad_caller().to_string(),
            2 => self.spoil_list(&mut words),
            3 => self.spoil_mode(&mut words),
            _ => {
                let numbers: Vec<usize> =
                    (2..words.len()).filter(|i| words[*i].parse::<i64>().is_ok()).collect();
                if !numbers.is_empty() {
                    let place = self.random.pick(&numbers);
                    let is_codes = place == 3 && (words[0] == "enq" || words[0] == "deq");
                    words[place] = if is_codes { "0".to_string() } else { self.edge() };
                }
            }
        }
        words.join(" ")
    }

    fn edge(&mut self) -> String {
        self.random.pick(&EDGES).to_string()
    }

    /// A list empty, with one item twice, or 17 to 20 long; or a DPMOD out of range.
    fn spoil_list(&mut self, words: &mut Vec<String>) {
        let from = match words[0].as_str() {
            "enq" | "deq" => 4,
            "wait" => 3,
            "attach" => {
                words[3] = self
                    .random
                    .pick(&["-256", "256", "-2147483648", "2147483647", "-255"])
                    .to_string();
                return;
            }
            _ => return,
        };
        let last = words.last().cloned().unwrap_or_default();
        match self.random.below(4) {
            0 => words.truncate(from),
            1 => words.push(last),
            2 => {
                for i in 0..self.random.between(14, 19) {
                    words.push(if from == 3 {
                        i.to_string()
                    } else {
                        last.replace(".", &format!(".{:02x}", i))
                    });
                }
                words.truncate(from + 20);
            }
            _ => words.push(match last.get(..2) {
                Some("S:") => last.replace("S:", "E:"),
                Some("E:") => last.replace("E:", "S:"),
                _ => last,
            }),
        }
    }

    /// A shared name (CHNG), a minor name with another length.
    fn spoil_mode(&mut self, words: &mut Vec<String>) {
        let length = self.random.pick(&[0, 1, 2, 43, 44, 45, 46, 255, 256, 300]);
        if words[0] != "enq" && words[0] != "deq" {
            words[1] = self.bad_caller().to_string();
        } else if words.len() > 4 && self.random.one_in(2) {
            words[4] = words[4].replace("E:", "S:");
        } else if words.len() > 4 {
            words[4] += &format!("/{}", length);
        }
    }

    /// A readable line in an unusual form: leading zeros, upper case, ignored minor bytes.
    fn dressed(&mut self, line: &str) -> String {
        let mut words: Vec<String> = line.split(' ').map(|word| word.to_string()).collect();
        for word in words.iter_mut().skip(1) {
            if word.bytes().all(|byte| byte.is_ascii_digit()) && self.random.one_in(2) {
                *word = format!(
                    "{:0width$}",
                    word.parse::<u64>().unwrap_or(0),
                    width = self.random.between(1, 10) as usize
                );
            } else if word.contains('.') && self.random.one_in(2) {
                let length = (word.len() - word.find('.').unwrap_or(0)) / 2;
                let more = self.random.pick(&["", "FF", "0a0B0C", "00"]);
                *word =
                    format!("{}{}/{:03}", word.replace("a", "A").replace("e", "E"), more, length);
            }
        }
        words.join(" ")
    }

    /// One byte changed, a word more or less, spaces in excess.
    pub fn garbled(&mut self, line: &str) -> String {
        let place = self.random.below(line.len() as u32 + 1) as usize;
        let odd = self.random.pick(&[
            " ", "  ", "\t", "\r", "+", "-", "x", "G", "/", ":", ".", "\u{0}", "S", "#", "é",
        ]);
        match self.random.below(6) {
            0 => format!("{}{}", line, odd),
            1 => format!("{}{}", odd, line),
            2 if place < line.len() => format!("{}{}", &line[..place], &line[place + 1..]),
            3 => line.rsplitn(2, ' ').last().unwrap_or("").to_string(),
            4 => line.to_uppercase(),
            _ => format!("{}{}{}", &line[..place], odd, &line[place..]),
        }
    }

    pub fn text_line(&mut self) -> Result<()> {
        let sort = self.random.below(SORTS as u32) as usize;
        let line = self.line_of(sort);
        let line = match self.random.below(24) {
            0 => format!("#{}", line),
            1 => String::new(),
            2 => "a".repeat(self.random.pick(&[16_383, 16_382, 8_192, 4_097])),
            3 => format!("#{}", " ".repeat(self.random.pick(&[16_382, 16_000, 255]))),
            4 => return self.raw_bytes(),
            5 => self.many_names(),
            6 => self.wide_number(&line),
            7 | 8 => self.random.pick(&UNREADABLE).to_string(),
            9 => self.same_bytes(),
            10..=15 => self.dressed(&line),
            _ => self.garbled(&line),
        };
        self.say(&line).map(|_| ())
    }

    /// A poke of the name area that changes nothing, at the edges of what is readable, in small
    /// or capital letters.
    fn same_bytes(&mut self) -> String {
        let count = self.random.pick(&[1, 2, 64, 299, 300, 300, 301]);
        let at = self.random.pick(&[0, 0, 1, 9, NAMES - count, NAMES - count, NAMES - count + 1]);
        let width = self.random.between(1, 11) as usize;
        let mut bytes = self.runner.step.names[at..NAMES.min(at + count)].to_vec();
        bytes.resize(count, 0);
        let digits = hex(&bytes);
        let digits = if self.random.one_in(2) { digits.to_uppercase() } else { digits };
        format!("poke name {:0width$} {}", at, digits, width = width)
    }

    fn raw_bytes(&mut self) -> Result<()> {
        let length = self.random.between(1, 40);
        let bytes: Vec<u8> =
            (0..length).map(|_| self.random.below(256) as u8).filter(|b| *b != b'\n').collect();
        self.say_bytes(&bytes).map(|_| ())
    }

    /// 15 to 22 names with long minor parts, near the longest line.
    fn many_names(&mut self) -> String {
        let caller = self.caller();
        let mut line = format!("enq {} test 64", caller);
        let digits = self.random.pick(&[2, 88, 90, 600]);
        for i in 0..self.random.between(15, 22) {
            let minor = "Ab".repeat(digits / 2);
            line += &format!(" E:{:016x}.{}/{}", i, minor, self.random.pick(&[1, 1, 1, 44]));
        }
        line
    }

    /// A number at the edge of what is readable in place of one of the numbers.
    fn wide_number(&mut self, line: &str) -> String {
        let mut words: Vec<String> = line.split(' ').map(|word| word.to_string()).collect();
        let place = self.random.below(words.len() as u32) as usize;
        words[place] = self
            .random
            .pick(&[
                "4294967295",
                "4294967296",
                "9999999999",
                "00000000000",
                "0000000000",
                "2147483647",
                "2147483648",
                "-2147483648",
                "-2147483649",
                "-",
                "-0",
                "+0",
                "0x1",
                "1e3",
                "",
            ])
            .to_string();
        words.join(" ")
    }
}
