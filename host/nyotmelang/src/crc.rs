//! CRC-32 as zlib has it, polynomial EDB88320, eight bytes at a step: a transcript takes it of every whole buffer after every command.

const fn tables() -> [[u32; 256]; 8] {
    let mut t = [[0u32; 256]; 8];
    let mut i = 0;
    while i < 256 {
        let mut c = i as u32;
        let mut bit = 0;
        while bit < 8 {
            c = if c & 1 == 1 { 0xEDB8_8320 ^ (c >> 1) } else { c >> 1 };
            bit += 1;
        }
        t[0][i] = c;
        i += 1;
    }
    let mut i = 0;
    while i < 256 {
        let mut k = 1;
        while k < 8 {
            t[k][i] = t[0][(t[k - 1][i] & 0xFF) as usize] ^ (t[k - 1][i] >> 8);
            k += 1;
        }
        i += 1;
    }
    t
}

static TABLES: [[u32; 256]; 8] = tables();

/// ```
/// assert_eq!(nyotmelang::crc32(b"123456789"), 0xCBF4_3926);
/// ```
pub fn crc32(bytes: &[u8]) -> u32 {
    let t = &TABLES;
    let mut c = !0u32;
    let mut eights = bytes.chunks_exact(8);
    for e in &mut eights {
        let x = c ^ u32::from_le_bytes([e[0], e[1], e[2], e[3]]);
        c = t[7][(x & 0xFF) as usize]
            ^ t[6][(x >> 8 & 0xFF) as usize]
            ^ t[5][(x >> 16 & 0xFF) as usize]
            ^ t[4][(x >> 24) as usize]
            ^ t[3][e[4] as usize]
            ^ t[2][e[5] as usize]
            ^ t[1][e[6] as usize]
            ^ t[0][e[7] as usize];
    }
    for byte in eights.remainder() {
        c = t[0][((c ^ *byte as u32) & 0xFF) as usize] ^ (c >> 8);
    }
    !c
}
