// The same loop in Rust: slicing by 16, over the same 16 MiB, the best of twenty rounds.
use std::time::Instant;

fn tables() -> Vec<[u32; 256]> {
    let mut tables = vec![[0u32; 256]; 16];
    for i in 0..256usize {
        let mut register = i as u32;
        for _ in 0..8 {
            register = if register & 1 == 0 { register >> 1 } else { (register >> 1) ^ 0xedb8_8320 };
        }
        tables[0][i] = register;
    }
    for k in 1..16 {
        for i in 0..256 {
            let earlier = tables[k - 1][i];
            tables[k][i] = (earlier >> 8) ^ tables[0][(earlier & 0xff) as usize];
        }
    }
    tables
}

fn update(t: &[[u32; 256]; 16], mut register: u32, bytes: &[u8]) -> u32 {
    let mut chunks = bytes.chunks_exact(16);
    for c in &mut chunks {
        let first = u32::from_le_bytes([c[0], c[1], c[2], c[3]]) ^ register;
        register = t[15][(first & 0xff) as usize]
            ^ t[14][(first >> 8 & 0xff) as usize]
            ^ t[13][(first >> 16 & 0xff) as usize]
            ^ t[12][(first >> 24) as usize]
            ^ t[11][c[4] as usize]
            ^ t[10][c[5] as usize]
            ^ t[9][c[6] as usize]
            ^ t[8][c[7] as usize]
            ^ t[7][c[8] as usize]
            ^ t[6][c[9] as usize]
            ^ t[5][c[10] as usize]
            ^ t[4][c[11] as usize]
            ^ t[3][c[12] as usize]
            ^ t[2][c[13] as usize]
            ^ t[1][c[14] as usize]
            ^ t[0][c[15] as usize];
    }
    for byte in chunks.remainder() {
        register = (register >> 8) ^ t[0][((register ^ u32::from(*byte)) & 0xff) as usize];
    }
    register
}

fn main() {
    let list = tables();
    let tables: Box<[[u32; 256]; 16]> = list.into_boxed_slice().try_into().unwrap();
    let mut bytes = vec![0u8; 16_777_216];
    let mut next: u32 = 1;
    for byte in bytes.iter_mut() {
        next = next.wrapping_mul(1_664_525).wrapping_add(1_013_904_223);
        *byte = (next >> 24) as u8;
    }
    let mut best = u128::MAX;
    let mut value = 0;
    for _ in 0..20 {
        let start = Instant::now();
        value = update(&tables, 0xffff_ffff, &bytes);
        best = best.min(start.elapsed().as_micros());
    }
    println!("rustc -O, by 16  {best} us, register {value:08x}");
}
