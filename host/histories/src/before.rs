//! The bytes before a refused call, which are those after it.

use crate::guarded::Guarded;

/// The bytes of the proved manager before a refused call.
#[derive(Default)]
pub struct Before {
    pub cat: Kept,
    pub disk: Kept,
}

/// A buffer that was kept, and whether its bytes have not changed since.
#[derive(Default)]
pub struct Kept {
    pub buffer: Guarded,
    holds: bool,
}

impl Kept {
    /// Keeps the bytes of a buffer, unless they are kept already.
    pub fn keep(&mut self, buffer: &Guarded) {
        if !self.holds {
            self.buffer.items.clone_from(&buffer.items);
            self.holds = true;
        }
    }

    /// The bytes are going to change.
    pub fn forget(&mut self) {
        self.holds = false;
    }
}

impl Before {
    /// A call is answered that changes the bytes.
    pub fn change(&mut self) {
        self.cat.forget();
        self.disk.forget();
    }
}
