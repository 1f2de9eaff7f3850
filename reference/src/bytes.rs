//! Little-endian fields, one after the other without padding.

pub struct Bytes(pub Vec<u8>);

impl Bytes {
    pub fn u16(&mut self, x: u16) {
        self.0.extend(x.to_le_bytes());
    }

    pub fn u32(&mut self, x: u32) {
        self.0.extend(x.to_le_bytes());
    }

    pub fn u64(&mut self, x: u64) {
        self.0.extend(x.to_le_bytes());
    }

    pub fn f32(&mut self, x: f32) {
        self.u32(x.to_bits());
    }

    pub fn f64(&mut self, x: f64) {
        self.u64(x.to_bits());
    }
}
