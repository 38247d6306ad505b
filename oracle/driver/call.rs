//! A call of the C interface with all that it is lent, and what it leaves.

/// A call of a mesher. `visited` and `out` are as the caller left them; unit meshing is not lent `visited`.
#[derive(Clone, Debug)]
pub struct Mesh {
    pub greedy: bool,
    pub shape: [u32; 3],
    pub min: [u32; 3],
    pub max: [u32; 3],
    /// For each of six faces its sign and its permutation's number.
    pub faces: [i32; 12],
    pub voxels: Vec<u16>,
    pub visited: Vec<u8>,
    pub out: Vec<u32>,
}

impl Mesh {
    /// The numbers of a listed quad.
    pub fn item(&self) -> usize {
        if self.greedy {
            5
        } else {
            3
        }
    }

    pub fn size(&self) -> u64 {
        self.shape.iter().map(|&a| a as u64).fold(1, u64::saturating_mul)
    }
}

/// What a mesher leaves: its answer and every buffer whole.
#[derive(Clone, Debug, PartialEq)]
pub struct Meshed {
    pub answer: [u64; 9],
    pub visited: Vec<u8>,
    pub out: Vec<u32>,
    /// Nothing beside the two buffers was written, and nothing that was lent to be read.
    pub kept: bool,
}

/// A call of geometry. The last three are not in the C interface.
#[derive(Clone, Copy, Debug)]
pub enum Draw {
    Corner { sign: i32, permutation: u32, quad: [u32; 5], corner: u32, size: f32 },
    Corners { sign: i32, permutation: u32, quad: [u32; 5] },
    Normal { sign: i32, permutation: u32 },
    Indices { sign: i32, permutation: u32, start: u32 },
    TexCoords { sign: i32, permutation: u32, axis: u32, flip_v: bool, quad: [u32; 5] },
    SignedAxis { sign: i32, axis: u32 },
    OfVector { vector: [i32; 3] },
    Canonical { sign: i32, axis: u32 },
}

impl Draw {
    /// How many numbers an accepted call writes.
    pub fn words(&self) -> usize {
        match self {
            Draw::Corner { .. } | Draw::Normal { .. } => 3,
            Draw::Corners { .. } => 12,
            Draw::Indices { .. } => 6,
            Draw::TexCoords { .. } => 8,
            Draw::SignedAxis { .. } | Draw::OfVector { .. } | Draw::Canonical { .. } => 2,
        }
    }

    pub fn in_c_interface(&self) -> bool {
        !matches!(self, Draw::SignedAxis { .. } | Draw::OfVector { .. } | Draw::Canonical { .. })
    }
}

/// What stands in a word of an output before a call of geometry.
pub const BEFORE: u32 = 0xA5A5_A5A5;

/// What a call of geometry leaves: its refusal, and the output with words past it, as bits.
#[derive(Clone, Copy, Debug, PartialEq)]
pub struct Drawn {
    pub refusal: u32,
    pub words: [u32; 16],
}

/// A call of the OBJ writer. `out` is as the caller left it.
#[derive(Clone, Debug)]
pub struct Obj {
    pub faces: [i32; 12],
    pub counts: [u64; 6],
    pub quads: Vec<u32>,
    pub out: Vec<u8>,
}

/// What the writer leaves: its answer (refusal, place, bytes written) and the output whole.
#[derive(Clone, Debug, PartialEq)]
pub struct Written {
    pub answer: [u64; 3],
    pub out: Vec<u8>,
    /// Nothing beside the output was written, and nothing that was lent to be read.
    pub kept: bool,
}

/// A call of the decimal formatter. `scratch` is as the caller left it.
#[derive(Clone, Debug)]
pub struct Decimal {
    pub n: u32,
    pub scratch: Vec<u8>,
}

/// What the formatter leaves: how many digits, and the scratch whole.
#[derive(Clone, Debug, PartialEq)]
pub struct Spelled {
    pub digits: usize,
    pub scratch: Vec<u8>,
    /// Nothing beside the scratch was written.
    pub kept: bool,
}
