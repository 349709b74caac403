//! What the proved code uses of the crate `byteorder`.

/// An order of bytes.
pub(crate) trait ByteOrder {
    fn read_u64(bytes: &[u8]) -> u64;
    fn write_u64(bytes: &mut [u8], number: u64);
    fn read_u32_into(bytes: &[u8], words: &mut [u32]);
    fn write_u32_into(words: &[u32], bytes: &mut [u8]);
}

/// The order with the most significant byte first.
pub(crate) enum BigEndian {}

impl ByteOrder for BigEndian {
    /// Reads the number in the first 8 bytes.
    #[inline(always)]
    fn read_u64(bytes: &[u8]) -> u64 {
        let mut first = [0; 8];
        first.copy_from_slice(&bytes[..8]);
        u64::from_be_bytes(first)
    }

    /// Writes a number over the first 8 bytes.
    #[inline(always)]
    fn write_u64(bytes: &mut [u8], number: u64) {
        bytes[..8].copy_from_slice(&number.to_be_bytes());
    }

    /// Reads as many words as there are.
    #[inline(always)]
    fn read_u32_into(bytes: &[u8], words: &mut [u32]) {
        assert_eq!(bytes.len(), 4 * words.len());
        for (word, bytes) in words.iter_mut().zip(bytes.chunks_exact(4)) {
            *word = u32::from_be_bytes([bytes[0], bytes[1], bytes[2], bytes[3]]);
        }
    }

    /// Writes all words.
    #[inline(always)]
    fn write_u32_into(words: &[u32], bytes: &mut [u8]) {
        assert_eq!(bytes.len(), 4 * words.len());
        for (bytes, word) in bytes.chunks_exact_mut(4).zip(words) {
            bytes.copy_from_slice(&word.to_be_bytes());
        }
    }
}
