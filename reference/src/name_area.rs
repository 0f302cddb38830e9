//! The name area: how a name lies in it.

use crate::names::Name;
use crate::numbers::{MAJOR, MINOR, NAMES};

pub type NameArea = [u8; NAMES];

static EMPTY: NameArea = [0; NAMES];

/// What a name takes beside its minor part: "its minor part's length plus 9".  These are the 8
/// bytes of the major part and, behind them, the length byte.
pub const HEAD: usize = MAJOR + 1;

/// The first byte past the name that begins at an offset, by its length byte.  None where the
/// length byte would lie past the area; the end itself may do so too.
pub fn end_at(area: &NameArea, offset: usize) -> Option<usize> {
    area.get(offset + MAJOR).map(|length| offset + HEAD + *length as usize)
}

/// The name that begins at an offset.  Tables may hold any offset and any length: what would lie
/// past the area counts as zero, and of a minor part that is too long a part is kept.
pub fn name_at(area: &NameArea, offset: usize) -> Name {
    let mut name = Name::NONE;
    copy(&mut name.major, area, offset);
    name.length = area.get(offset + MAJOR).cloned().unwrap_or(0) as u32;
    let used = MINOR.min(name.length as usize);
    copy(&mut name.minor[..used], area, offset + HEAD);
    name
}

/// As many bytes as there are in the area.
fn copy(to: &mut [u8], area: &NameArea, from: usize) {
    let there = area.get(from..).unwrap_or(&[]);
    let count = to.len().min(there.len());
    to[..count].copy_from_slice(&there[..count]);
}

/// Write a name of legal length at an offset; the first byte past it comes back.
pub fn put(area: &mut NameArea, offset: usize, name: &Name) -> usize {
    let minor = name.minor_bytes();
    let end = offset + HEAD + minor.len();
    area[offset..offset + MAJOR].copy_from_slice(&name.major);
    area[offset + MAJOR] = name.length as u8;
    area[offset + HEAD..end].copy_from_slice(minor);
    end
}

/// One more than the last byte that is not zero; 0 if all are.
pub fn used(area: &NameArea) -> usize {
    let blocks = area.chunks(256).rposition(|block| !is_zero(block)).map_or(0, |i| i + 1);
    area[..NAMES.min(blocks * 256)].iter().rposition(|byte| *byte != 0).map_or(0, |i| i + 1)
}

/// Are all of these bytes of an area zero?
pub fn is_zero(bytes: &[u8]) -> bool {
    *bytes == EMPTY[..bytes.len()]
}
