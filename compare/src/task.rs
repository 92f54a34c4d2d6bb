//! One solve: what is handed to it, and its form as a record of `rowrun`.

pub type Row = (f64, f64, f64);

/// Everything that a solve is given but its allowance.
#[derive(Clone, Debug)]
pub struct Task {
    pub rows: Vec<Row>,
    pub feasibility: f64,
    pub scale: f64,
    pub x0: f64,
    pub y0: f64,
    pub skip: usize,
    pub normalize: bool,
}

/// The bytes of a record before its body: the body's length and its kind.
pub const HEADER: usize = 6;
/// The bytes of a body before its rows.
pub const FIXED: usize = 49;
/// The bytes of a row.
pub const ROW: usize = 24;

impl Task {
    /// No rows, and what the worked examples of RULES 13 use for all else.
    pub fn plain() -> Task {
        Task {
            rows: Vec::new(),
            feasibility: 1e-9,
            scale: 10.0,
            x0: 0.0,
            y0: 1e6,
            skip: 0,
            normalize: false,
        }
    }

    pub fn flat(&self) -> Vec<f64> {
        flat(&self.rows)
    }

    /// The body of a record of kind 1.
    pub fn body(&self, allowance: u64) -> Vec<u8> {
        let mut body = Vec::with_capacity(FIXED + ROW * self.rows.len());
        for number in [self.feasibility, self.scale, self.x0, self.y0] {
            body.extend_from_slice(&number.to_bits().to_le_bytes());
        }
        body.extend_from_slice(&(self.skip as u64).to_le_bytes());
        body.extend_from_slice(&allowance.to_le_bytes());
        body.push(u8::from(self.normalize));
        for number in self.flat() {
            body.extend_from_slice(&number.to_bits().to_le_bytes());
        }
        body
    }

    /// The whole record of kind 1.
    pub fn record(&self, allowance: u64) -> Vec<u8> {
        record(1, &self.body(allowance))
    }
}

/// A record of any kind and body.
pub fn record(kind: u16, body: &[u8]) -> Vec<u8> {
    let mut bytes = Vec::with_capacity(HEADER + body.len());
    bytes.extend_from_slice(&(body.len() as u32).to_le_bytes());
    bytes.extend_from_slice(&kind.to_le_bytes());
    bytes.extend_from_slice(body);
    bytes
}

pub fn flat(rows: &[Row]) -> Vec<f64> {
    rows.iter().flat_map(|&(a, b, c)| [a, b, c]).collect()
}
