//! Names of contexts stay out of the comparison: a string that keeps nothing.

#[derive(Clone, Copy, Debug, Default)]
pub struct ArrayString<const N: usize>;

impl<const N: usize> ArrayString<N> {
    pub const fn new() -> Self {
        Self
    }
    pub fn clear(&mut self) {}
    pub fn push_str(&mut self, _text: &str) {}
}
