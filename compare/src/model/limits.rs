//! The limits that a caller names, as a value.

/// The longest archive that a caller takes, in bytes, and the depth that its check starts with.
#[derive(Clone, Copy, Debug, PartialEq, Eq)]
pub struct Limits {
    pub longest: usize,
    pub depth: usize,
}

/// "The viewer takes at most 4,096 bytes and depth 5, so three nested nodes".
pub const VIEWER: Limits = Limits {
    longest: 4_096,
    depth: 5,
};

/// "the server keeps 1,048,576 and 16". Refusal 1 of document 01: "N is above 1,048,576." "Depth starts at 16".
pub const SERVER: Limits = Limits {
    longest: 1_048_576,
    depth: 16,
};

impl Limits {
    /// What the limits count as: "A depth limit of 0 gives the same as 1, and a limit above the server's counts as the server's."
    pub fn counted(self) -> Self {
        Self {
            longest: self.longest.min(SERVER.longest),
            depth: self.depth.clamp(1, SERVER.depth),
        }
    }

    /// Refusal 1.
    pub fn too_long(self, bytes: &[u8]) -> bool {
        bytes.len() > self.counted().longest
    }

    /// The limits that are as large as these and as others.
    pub fn and(self, other: Self) -> Self {
        Self {
            longest: self.longest.max(other.longest),
            depth: self.depth.max(other.depth),
        }
    }
}
