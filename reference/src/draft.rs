//! Files written field by field, right or wrong.

/// A source file in the making; nothing is checked.
#[derive(Clone, Debug, Default)]
pub struct Draft {
    pub classes: Vec<u8>,
    pub rows: Vec<u32>,
}

/// The 32 bits of a row that is no const.
pub fn row(opcode: u32, weight: u32, d: u32, a: u32, b: u32, target: u32) -> u32 {
    opcode << 28 | weight << 26 | d << 20 | a << 14 | b << 8 | target
}

/// The 32 bits of a const.
pub fn constant(weight: u32, d: u32, value: u32) -> u32 {
    1 << 28 | weight << 26 | d << 20 | value << 4
}

pub const END: u32 = 0;

impl Draft {
    pub fn new(classes: &[u8], rows: &[u32]) -> Self {
        Draft { classes: classes.to_vec(), rows: rows.to_vec() }
    }

    pub fn bytes(&self) -> Vec<u8> {
        let mut bytes = vec![self.classes.len() as u8, self.rows.len() as u8];
        for four in self.classes.chunks(4) {
            let packed =
                four.iter().enumerate().fold(0, |byte, (i, class)| byte | class << (6 - 2 * i));
            bytes.push(packed);
        }
        for row in &self.rows {
            bytes.extend(row.to_be_bytes());
        }
        bytes
    }
}

/// Lower-case hexadecimal digits, `-` for no bytes.
pub fn hex(bytes: &[u8]) -> String {
    if bytes.is_empty() {
        return "-".to_string();
    }
    bytes.iter().map(|byte| format!("{byte:02x}")).collect()
}
