//! CRC-32 as zlib computes it: polynomial EDB88320 (reflected), first and last inverted.

const TABLE: [u32; 256] = table();

const fn table() -> [u32; 256] {
    let mut table = [0; 256];
    let mut index = 0;
    while index < 256 {
        table[index] = eight_shifts(index as u32);
        index += 1;
    }
    table
}

const fn eight_shifts(mut value: u32) -> u32 {
    let mut shifts = 0;
    while shifts < 8 {
        let feedback = if value & 1 == 1 { 0xEDB8_8320 } else { 0 };
        value = value >> 1 ^ feedback;
        shifts += 1;
    }
    value
}

/// The CRC-32 of the bytes.
pub fn crc32(bytes: &[u8]) -> u32 {
    !bytes.iter().fold(u32::MAX, |crc, &byte| {
        let index = (crc ^ u32::from(byte)) & 255;
        crc >> 8 ^ TABLE[index as usize]
    })
}

#[cfg(test)]
mod tests {
    use super::crc32;

    #[test]
    fn gives_the_check_value_of_the_polynomial() {
        assert_eq!(crc32(b"123456789"), 0xCBF4_3926);
    }

    #[test]
    fn gives_0_for_no_bytes() {
        assert_eq!(crc32(b""), 0);
    }
}
