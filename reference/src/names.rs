//! Names of resources.

use crate::numbers::{MAJOR, MINOR};

/// Document 02, section 2: "a major name whose first three bytes are hexadecimal E2 E8 E2".
/// They spell SYS in EBCDIC.
pub const SYSTEM: [u8; 3] = [0xe2, 0xe8, 0xe2];

/// "A name is a major part of 8 bytes and a minor part of 1 to 44 bytes,
/// compared with its length."  Bytes past the length are kept zero by all who
/// make a name, so that the derived comparison is the comparison of the used
/// bytes and the length.
#[derive(Clone, Copy, PartialEq, Eq, Debug)]
pub struct Name {
    pub major: [u8; MAJOR],
    pub length: u32,
    pub minor: [u8; MINOR],
}

impl Name {
    pub const NONE: Name = Name { major: [0; MAJOR], length: 0, minor: [0; MINOR] };

    /// Is the minor part neither empty nor too long?
    pub fn length_is_legal(&self) -> bool {
        1 <= self.length && self.length <= MINOR as u32
    }

    /// The bytes of the minor part; of one that is too long, those that are kept.
    pub fn minor_bytes(&self) -> &[u8] {
        &self.minor[..MINOR.min(self.length as usize)]
    }

    /// Is it one of "the system's names"?  The minor part has no say.
    pub fn is_the_systems(&self) -> bool {
        self.major.starts_with(&SYSTEM)
    }
}

/// A name in a request: "each shared or exclusive".  DEQ leaves `exclusive` alone.
#[derive(Clone, Copy, Debug)]
pub struct Asked {
    pub exclusive: bool,
    pub name: Name,
}

impl Asked {
    pub const NONE: Asked = Asked { exclusive: false, name: Name::NONE };
}

/// Does a name stand twice in the list?  Its mode is no part of a name.
pub fn stands_twice(list: &[Asked]) -> bool {
    (0..list.len()).any(|i| list[..i].iter().any(|earlier| earlier.name == list[i].name))
}
