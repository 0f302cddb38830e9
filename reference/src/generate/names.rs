//! Pokes at the name area and at offsets: each way in which names can stand wrong.

use std::io::Result;

use super::lines::hex;
use super::Generator;
use crate::name_area::{end_at, put, NameArea, HEAD};
use crate::numbers::{ENTRIES, MAJOR, NAMES};
use crate::sound::is_sound;
use crate::tables::Entry;
use crate::words::MOST_BYTES;

/// Where a name begins and the first byte past it.
type Span = (usize, usize);

impl<'a> Generator<'a> {
    /// The whole names that the entries show, as they lie in the area.
    fn spans(&self) -> Vec<Span> {
        let area = &self.runner.step.names;
        let mut starts: Vec<usize> =
            self.runner.step.used_entries().iter().map(|e| e.offset as usize).collect();
        starts.sort();
        starts.dedup();
        let span = |start: usize| end_at(area, start).map(|end| (start, end));
        starts.into_iter().filter_map(span).filter(|(_, end)| *end <= NAMES).collect()
    }

    pub fn end_of_names(&self) -> usize {
        // room is left for a name
        self.spans().iter().map(|span| span.1).max().unwrap_or(0).min(NAMES - 2 * MOST_BYTES)
    }

    /// Poke the name area back to what it was.
    pub fn mend_names(&mut self, before: &NameArea) -> Result<()> {
        let differs = |at: &usize| self.runner.step.names[*at] != before[*at];
        let wrong: Vec<usize> = (0..NAMES).filter(differs).collect();
        let mut done = 0;
        for at in wrong {
            if at >= done {
                done = NAMES.min(at + 64);
                self.poke_bytes(at, &before[at..done])?;
            }
        }
        Ok(())
    }

    /// Bytes from an offset on, in as many lines as they take; beyond the area nothing is poked.
    fn poke_bytes(&mut self, offset: usize, bytes: &[u8]) -> Result<()> {
        for (i, piece) in bytes.chunks(MOST_BYTES).enumerate() {
            let at = offset + i * MOST_BYTES;
            if at + piece.len() <= NAMES {
                self.poke(format!("name {}", at), &hex(piece))?;
            }
        }
        Ok(())
    }

    fn poke_offset(&mut self, entry: usize, offset: usize) -> Result<Vec<String>> {
        self.poke(format!("entry {} name", entry), &offset.to_string())
    }

    /// One of the ways, mostly with a few names there.
    pub fn break_names(&mut self) -> Result<Vec<String>> {
        if is_sound(&self.runner.step) && self.random.percent(80) {
            self.take_for_twins()?;
        }
        let spans = self.spans();
        if spans.is_empty() {
            return self.poke_unused_place();
        }
        match self.random.below(18) {
            0 | 1 => self.poke_byte_of_a_name(&spans),
            2 | 3 => self.poke_offset_into_a_name(&spans),
            4 | 5 => self.poke_names_swapped(&spans),
            6 | 7 => self.poke_gap(&spans),
            8 | 9 => self.poke_name_twice(&spans),
            10 => self.poke_byte_behind(),
            11 | 12 => self.poke_length(&spans),
            13 => self.poke_offset_beyond(),
            14 => self.poke_name_cut_off(),
            15 => self.poke_unused_place(),
            16 => self.poke_name_left(),
            _ => self.poke_other_offset(&spans),
        }
    }

    /// An entry whose name an earlier one shows too, mostly the last of these, and one that is
    /// shared with all before it: nothing but its own offset need be wrong then.  Any entry, if
    /// there is none.
    fn twin(&mut self) -> usize {
        let entries = self.runner.step.used_entries();
        let is_twin = |i: &usize| {
            let earlier: Vec<&Entry> =
                entries[..*i].iter().filter(|e| e.offset == entries[*i].offset).collect();
            !earlier.is_empty() && entries[*i].excl == 0 && earlier.iter().all(|e| e.excl == 0)
        };
        let twins: Vec<usize> = (0..entries.len()).filter(is_twin).collect();
        match twins.last() {
            Some(last) if self.random.percent(70) => *last,
            Some(_) => self.random.pick(&twins),
            None => self.random.below(self.runner.step.entry_count.max(1) as u32) as usize,
        }
    }

    /// A single byte: the name is another one then, or its length is.
    fn poke_byte_of_a_name(&mut self, spans: &[Span]) -> Result<Vec<String>> {
        let (start, end) = self.random.pick(spans);
        let at = self.random.between(start as u32, end as u32 - 1) as usize;
        let now = self.runner.step.names[at];
        let other = self.random.below(256) as u8;
        let byte = self.random.pick(&[now ^ 1, now ^ 1, now ^ 2, other, 0]);
        self.poke_bytes(at, &[byte])?;
        Ok(Vec::new())
    }

    fn poke_offset_into_a_name(&mut self, spans: &[Span]) -> Result<Vec<String>> {
        let (start, end) = self.random.pick(spans);
        let last = end as u32 - 1;
        let near = start as u32 + 1;
        let offset = if self.random.one_in(3) { near } else { self.random.between(near, last) };
        let entry = self.twin();
        self.poke_offset(entry, offset as usize)
    }

    /// Two names that follow each other change places, and their entries follow them.
    fn poke_names_swapped(&mut self, spans: &[Span]) -> Result<Vec<String>> {
        if spans.len() < 2 {
            return self.poke_gap(spans);
        }
        let i = self.random.below(spans.len() as u32 - 1) as usize;
        let (start, middle, end) = (spans[i].0, spans[i].1, spans[i + 1].1);
        let names = &self.runner.step.names;
        let mut bytes = names[spans[i + 1].0.min(end)..end].to_vec();
        let second = start + bytes.len();
        bytes.extend_from_slice(&names[start..middle]);
        self.poke_bytes(start, &bytes)?;
        let mut places = Vec::new();
        for entry in 0..self.runner.step.entry_count {
            let offset = self.runner.step.entries[entry].offset as usize;
            if offset == start {
                places.extend(self.poke_offset(entry, second)?);
            } else if offset == spans[i + 1].0 {
                places.extend(self.poke_offset(entry, start)?);
            }
        }
        Ok(places)
    }

    /// The last names move on by some bytes, and their entries with them.  What is left free is
    /// zero, or holds a name that no entry shows, or anything.
    fn poke_gap(&mut self, spans: &[Span]) -> Result<Vec<String>> {
        let back = self.random.pick(&[1, 1, 1, 2, 3]).min(spans.len());
        let start = spans[spans.len() - back].0;
        let old = self.runner.step.names[start..self.end_of_names().max(start)].to_vec();
        let mut bytes = match self.random.below(4) {
            0 => self.name_bytes(),
            1 => vec![self.random.below(256) as u8; 9],
            2 => vec![0; 1],
            _ => vec![0; self.random.between(1, 60) as usize],
        };
        let gap = bytes.len();
        bytes.extend(old);
        self.poke_bytes(start, &bytes)?;
        let mut places = Vec::new();
        for entry in 0..self.runner.step.entry_count {
            let offset = self.runner.step.entries[entry].offset as usize;
            if offset >= start && offset < NAMES {
                places.extend(self.poke_offset(entry, offset + gap)?);
            }
        }
        Ok(places)
    }

    /// The bytes of a name that hardly any entry shows.
    fn name_bytes(&mut self) -> Vec<u8> {
        let number = 900 + self.random.below(60);
        let mut area = [0; NAMES];
        let end = put(&mut area, 0, &self.name_of(number));
        area[..end].to_vec()
    }

    /// A later entry gets a copy of its name behind the last one; or a name becomes like another
    /// one of its length.
    fn poke_name_twice(&mut self, spans: &[Span]) -> Result<Vec<String>> {
        let twin = self.twin();
        let start = self.runner.step.entries[twin].offset as usize;
        let shown = spans.iter().find(|span| span.0 == start);
        let end = self.end_of_names();
        let span = self.random.pick(spans);
        match shown {
            Some(span) if self.random.percent(70) => {
                let bytes = self.runner.step.names[span.0..span.1].to_vec();
                self.poke_bytes(end, &bytes)?;
                self.poke_offset(twin, end)
            }
            _ => {
                let alike = |other: &&Span| **other != span && other.1 - other.0 == span.1 - span.0;
                let bytes = self.runner.step.names[span.0..span.1].to_vec();
                if let Some(other) = spans.iter().find(alike) {
                    self.poke_bytes(other.0, &bytes)?;
                }
                Ok(Vec::new())
            }
        }
    }

    fn poke_byte_behind(&mut self) -> Result<Vec<String>> {
        let end = self.end_of_names();
        let far = self.random.between(end as u32, NAMES as u32 - 1) as usize;
        let at = self.random.pick(&[end, end, end + MAJOR, end + HEAD, far, NAMES - 1]);
        let byte = self.random.pick(&[1, 1, 0x80, 0xff]);
        self.poke_bytes(at, &[byte])?;
        Ok(Vec::new())
    }

    /// A length byte at its edges: mostly the last name's, so that no other name is displaced.
    fn poke_length(&mut self, spans: &[Span]) -> Result<Vec<String>> {
        let last = spans[spans.len() - 1];
        let (start, end) = if self.random.percent(80) { last } else { self.random.pick(spans) };
        let length = end - start - HEAD;
        match self.random.below(6) {
            0 | 1 => self.poke_bytes(start + MAJOR, &vec![0; length + 1])?,
            2 => self.poke_bytes(start + MAJOR, &[0])?,
            3 => self.poke_bytes(start + MAJOR, &[45])?,
            4 => self.poke_bytes(start + MAJOR, &[255])?,
            _ => {
                let byte = self.random.pick(&[1, 44, length + 1, length.saturating_sub(1)]);
                self.poke_bytes(start + MAJOR, &[byte as u8])?
            }
        }
        Ok(Vec::new())
    }

    fn poke_offset_beyond(&mut self) -> Result<Vec<String>> {
        let entry = self.twin();
        let far = self.random.between(NAMES as u32, 65_535) as usize;
        let offset = self.random.pick(&[NAMES, NAMES, far, 65_535, 65_536]);
        self.poke_offset(entry, offset)
    }

    /// An entry shows a name whose length byte, or whose last byte, lies past the area; or a name
    /// that just fits there.
    fn poke_name_cut_off(&mut self) -> Result<Vec<String>> {
        let entry = self.twin();
        let length = self.random.between(1, 44) as usize;
        let missing = self.random.pick(&[0, 1, 1, length]);
        if self.random.one_in(2) {
            let left = self.random.pick(&[1, MAJOR]);
            return self.poke_offset(entry, NAMES - left);
        }
        let offset = NAMES - HEAD - length + missing;
        self.poke_bytes(offset + MAJOR, &[length as u8])?;
        self.poke_offset(entry, offset)
    }

    /// An offset in a place that no entry is in: mostly the first one.
    fn poke_unused_place(&mut self) -> Result<Vec<String>> {
        let count = self.runner.step.entry_count;
        if count == ENTRIES {
            return Ok(Vec::new());
        }
        let far = self.random.between(count as u32, ENTRIES as u32 - 1) as usize;
        let place = self.random.pick(&[count, count, far]);
        let end = self.end_of_names();
        let offset = self.random.pick(&[1, end.max(1), NAMES, 65_535]);
        self.poke_offset(place, offset)
    }

    /// A name that no entry shows: a new one behind the last; or the last entry is taken away and
    /// its name is not.
    fn poke_name_left(&mut self) -> Result<Vec<String>> {
        let mut places = Vec::new();
        if self.random.one_in(2) {
            let bytes = self.name_bytes();
            self.poke_bytes(self.end_of_names(), &bytes)?;
        } else if self.runner.step.entry_count > 0 {
            let last = self.runner.step.entry_count - 1;
            for field in ["excl", "name", "task"].iter() {
                places.extend(self.poke(format!("entry {} {}", last, field), "0")?);
            }
        }
        Ok(places)
    }

    /// An entry shows another's name; or two entries change their names.
    fn poke_other_offset(&mut self, spans: &[Span]) -> Result<Vec<String>> {
        let count = self.runner.step.entry_count as u32;
        let (a, b) = (self.random.below(count) as usize, self.random.below(count) as usize);
        if self.random.one_in(2) {
            let start = self.random.pick(spans).0;
            return self.poke_offset(a, start);
        }
        let offsets = [a, b].map(|i| self.runner.step.entries[i].offset as usize);
        let mut places = self.poke_offset(a, offsets[1])?;
        places.extend(self.poke_offset(b, offsets[0])?);
        Ok(places)
    }
}
