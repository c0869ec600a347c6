//! The fields of a line: decimals in one pass, and hexadecimal digits by a table, or eight at once as
//! one word.

const NO_DIGIT: u8 = 255;

/// The value of each hexadecimal digit.
const DIGITS: [u8; 256] = {
    let mut digits = [NO_DIGIT; 256];
    let mut value = 0;
    while value < 16 {
        digits[b"0123456789abcdef"[value as usize] as usize] = value;
        value += 1;
    }
    digits
};

/// The unread rest of a line.
pub struct Fields<'a>(pub &'a [u8]);

impl Fields<'_> {
    /// A number has no leading zero. Nineteen digits always fit into 64 bits.
    #[inline(always)]
    pub fn decimal(&mut self) -> Option<u64> {
        let mut value: u64 = 0;
        let mut count = 0;
        while let Some(digit) = self.0.get(count).map(|byte| byte.wrapping_sub(b'0'))
            && digit < 10
        {
            value = value.wrapping_mul(10).wrapping_add(digit.into());
            count += 1;
        }
        let (digits, rest) = self.0.split_at(count);
        self.0 = rest;
        if count == 0 || count > 1 && digits[0] == b'0' {
            None
        } else if count < 20 {
            Some(value)
        } else {
            str::from_utf8(digits).ok()?.parse().ok()
        }
    }

    #[inline(always)]
    pub fn small(&mut self) -> Option<u8> {
        self.decimal()?.try_into().ok()
    }

    #[inline(always)]
    pub fn flag(&mut self) -> Option<u16> {
        self.decimal()?.try_into().ok()
    }

    /// A number has no leading zero, and at most 16 digits. Eight digits that end the field are one word.
    #[inline(always)]
    pub fn hexadecimal(&mut self) -> Option<u64> {
        if let Some((word, rest)) = self.0.split_first_chunk()
            && matches!(rest, [] | [b' ', ..])
            && word[0] != b'0'
        {
            self.0 = rest;
            return eight_digits(word).map(u64::from);
        }
        let mut value: u64 = 0;
        let mut count = 0;
        while let Some(byte) = self.0.get(count)
            && DIGITS[*byte as usize] != NO_DIGIT
        {
            value = value << 4 | u64::from(DIGITS[*byte as usize]);
            count += 1;
        }
        let (digits, rest) = self.0.split_at(count);
        self.0 = rest;
        let is_good = count != 0 && count <= 16 && (count == 1 || digits[0] != b'0');
        is_good.then_some(value)
    }

    #[inline(always)]
    pub fn word(&mut self) -> Option<u32> {
        self.hexadecimal()?.try_into().ok()
    }

    /// One byte, in two digits.
    #[inline(always)]
    pub fn byte(&mut self) -> Option<u8> {
        let (pair, rest) = self.0.split_first_chunk()?;
        self.0 = rest;
        byte_of(pair)
    }

    /// Decodes the rest of the line: two digits for each byte, or `-` for none. Returns the number
    /// of bytes.
    #[inline(always)]
    pub fn data(&mut self, bytes: &mut [u8]) -> Option<usize> {
        let (pairs, odd) = std::mem::take(&mut self.0).as_chunks();
        if pairs.is_empty() {
            return (odd == b"-").then_some(0);
        }
        if !odd.is_empty() || pairs.len() > bytes.len() {
            return None;
        }
        let (digits, rest) = pairs.as_chunks::<4>();
        let (words, tail) = bytes[..pairs.len()].as_chunks_mut();
        for (word, digits) in words.iter_mut().zip(digits) {
            *word = eight_digits(digits.as_flattened().try_into().ok()?)?.to_be_bytes();
        }
        for (byte, pair) in tail.iter_mut().zip(rest) {
            *byte = byte_of(pair)?;
        }
        Some(pairs.len())
    }

    #[inline(always)]
    pub fn space(&mut self) -> Option<()> {
        self.0 = self.0.strip_prefix(b" ")?;
        Some(())
    }

    #[inline(always)]
    pub fn end(&self) -> Option<()> {
        self.0.is_empty().then_some(())
    }
}

/// Eight digits as one word. A digit's byte is `0x30` and its value, and a letter's `0x60` and its value
/// less 9. So bit 6 says that the byte is a letter, and the high half of the byte follows from it. The low
/// half of a digit plus 6, and that of a letter plus 9, is below 16; that of a letter is not 0.
#[inline(always)]
fn eight_digits(text: &[u8; 8]) -> Option<u32> {
    const ONES: u64 = u64::MAX / 255;
    let word = u64::from_be_bytes(*text);
    let letters = word >> 6 & ONES;
    let low = word & ONES * 0x0f;
    let values = low + 9 * letters;
    let is_good = word == low | ONES * 0x30 + 0x30 * letters
        && (low + ONES * 6 + 3 * letters | low.wrapping_sub(letters)) & ONES * 0xf0 == 0;
    let bytes = (values | values >> 4) & 0x00ff_00ff_00ff_00ff;
    let pairs = (bytes | bytes >> 8) & 0x0000_ffff_0000_ffff;
    is_good.then_some((pairs | pairs >> 16) as u32)
}

/// A value above 15 is no digit.
fn byte_of(pair: &[u8; 2]) -> Option<u8> {
    let [high, low] = pair.map(|digit| DIGITS[digit as usize]);
    (high | low < 16).then_some(high << 4 | low)
}
