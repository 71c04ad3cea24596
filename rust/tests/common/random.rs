// SPDX-License-Identifier: Apache-2.0
//! Messages that are changed at random, always the same.

/// Numbers that look random (xorshift).
pub struct Numbers(pub u64);

impl Numbers {
    /// The next of them, below this.
    pub fn below(&mut self, end: usize) -> usize {
        self.0 ^= self.0 << 13;
        self.0 ^= self.0 >> 7;
        self.0 ^= self.0 << 17;
        (self.0 >> 16) as usize % end
    }
}

/// Changes a message, or its number of descriptors; what is left of it may be nothing.
pub fn change(numbers: &mut Numbers, message: &mut Vec<u8>, count: &mut usize) {
    match numbers.below(6) {
        0 => *count = numbers.below(36),
        1 => message.truncate(numbers.below(message.len())),
        2 => message.extend(vec![0; 1 + numbers.below(4200)]),
        3 => {
            let at = numbers.below(12.min(message.len()));
            message[at] ^= 1 << numbers.below(8);
        }
        _ => {
            let at = numbers.below(message.len());
            message[at] = numbers.below(256) as u8;
        }
    }
}
