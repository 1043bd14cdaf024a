//! The places of entries, which count up by one.

/// A number that is kept as its decimal digits, since one more mostly changes the last alone.
pub struct Place {
    digits: [u8; 10],
    /// Where the first digit stands.
    first: usize,
}

impl Default for Place {
    fn default() -> Place {
        Place { digits: [b'0'; 10], first: 9 }
    }
}

impl Place {
    pub fn count_up(&mut self) {
        for (place, digit) in self.digits.iter_mut().enumerate().rev() {
            if *digit < b'9' {
                *digit += 1;
                self.first = self.first.min(place);
                return;
            }
            *digit = b'0';
        }
    }

    pub fn digits(&self) -> &[u8] {
        &self.digits[self.first..]
    }
}
