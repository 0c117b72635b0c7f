//! A buffer that a library writes to, with guard bytes around it.

const GUARD: [u8; 16] = [0xC3; 16];

/// A buffer with a guard on each side.
pub struct Guarded(Vec<u8>);

impl Guarded {
    pub fn new(content: &[u8]) -> Guarded {
        Guarded([&GUARD, content, &GUARD].concat())
    }

    pub fn inside(&mut self) -> &mut [u8] {
        let end = self.0.len() - GUARD.len();
        &mut self.0[GUARD.len()..end]
    }

    /// The content, where no guard was written to.
    pub fn open(mut self) -> Vec<u8> {
        let content = self.inside().to_vec();
        let kept = self.0.starts_with(&GUARD) && self.0.ends_with(&GUARD);
        assert!(kept, "the library wrote outside its buffer");
        content
    }
}
