//! The UTF-8 check alone: the proved one, and the one before it.

unsafe extern "C" {
    fn utf8_is_utf8(bytes: *const u8, length: usize) -> bool;
}

/// The proved check.
pub fn proved(text: &[u8]) -> bool {
    // The function reads these bytes and nothing else: its contract.
    unsafe { utf8_is_utf8(text.as_ptr(), text.len()) }
}

/// The check as it was before it passed over eight bytes at once: function by function the proved code of then, in Rust.
pub mod old {
    fn is_continuation(b: u8) -> bool {
        b >> 6 == 2
    }

    fn shift_in(bits: u32, continuation: u8) -> u32 {
        bits << 6 | u32::from(continuation & 0x3F)
    }

    fn is_scalar(v: u32) -> bool {
        if v < 0xD800 {
            return true;
        }
        if v <= 0xDFFF {
            return false;
        }
        v <= 0x10_FFFF
    }

    // Each call names the size, and there the proved code was in line.
    #[inline(always)]
    fn complete(bytes: &[u8], at: usize, size: usize, least: u32, bits: u8) -> usize {
        if bytes.len() - at < size {
            return 0;
        }
        let mut scalar = u32::from(bits);
        let mut i = 1;
        while i < size {
            let b = bytes[at + i];
            if !is_continuation(b) {
                return 0;
            }
            scalar = shift_in(scalar, b);
            i += 1;
        }
        if scalar < least || !is_scalar(scalar) {
            return 0;
        }
        size
    }

    fn sequence_at(bytes: &[u8], at: usize) -> usize {
        let lead = bytes[at];
        match (!lead).leading_zeros() {
            0 => 1,
            2 => complete(bytes, at, 2, 0x80, lead & 0x1F),
            3 => complete(bytes, at, 3, 0x800, lead & 0x0F),
            4 => complete(bytes, at, 4, 0x10000, lead & 0x07),
            _ => 0,
        }
    }

    // A call, as the proved check is.
    #[inline(never)]
    pub fn is_utf8(bytes: &[u8]) -> bool {
        let mut at = 0;
        while at < bytes.len() {
            if bytes[at] < 0x80 {
                at += 1;
                continue;
            }
            let size = sequence_at(bytes, at);
            if size == 0 {
                return false;
            }
            at += size;
        }
        true
    }
}
