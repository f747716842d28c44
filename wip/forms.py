forms={
'b1':"""    let at = o / 8;
    let mut k = o % 8;
    let end = k + w as usize;
    let mut n: u64 = 0;
    while k < end {
        n = 2 * n + (input[at + k / 8] >> (7 - k % 8)) as u64 % 2;
        k += 1;
    }
    n
""",
'f5':"""    let mut n: u64 = 0;
    let mut left = w as usize;
    let mut p = o;
    while left > 0 {
        n = 2 * n + (input[p / 8] >> (7 - p % 8)) as u64 % 2;
        p += 1;
        left -= 1;
    }
    n
""",
'f6':"""    let mut n: u64 = 0;
    let mut i: u8 = 0;
    while i < w {
        let k = o % 8 + i as usize;
        n = 2 * n + ((input[o / 8 + k / 8] as u64) << (k % 8)) / 128 % 2;
        i += 1;
    }
    n
""",
'f7':"""    let mut n: u64 = 0;
    let mut i: u8 = 0;
    while i < w {
        let k = o % 8 + i as usize;
        let byte = input[o / 8 + k / 8];
        n = 2 * n + ((byte << (k % 8)) / 128) as u64;
        i += 1;
    }
    n
""",
'f8':"""    let mut n: u64 = 0;
    let mut i: u8 = 0;
    let mut at = o / 8;
    let mut s = 7 - o % 8;
    while i < w {
        n = 2 * n + (input[at] >> s) as u64 % 2;
        if s == 0 {
            s = 7;
            at += 1;
        } else {
            s -= 1;
        }
        i += 1;
    }
    n
""",
}
