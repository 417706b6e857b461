//! Stand-in for `time`: a frequency in hertz.

#[derive(Clone, Copy)]
pub struct Hertz(pub u32);

impl Hertz {
    pub fn raw(self) -> u32 {
        self.0
    }
}
