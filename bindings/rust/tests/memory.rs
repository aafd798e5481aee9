//! A damaged chunk costs little memory, whatever count it claims. One test, since it looks at its whole process.

use std::fs;

use warpboulder::decode_integers;

/// The most memory, in KiB, that this process has had in use so far.
fn peak_kib() -> u64 {
    let status = fs::read_to_string("/proc/self/status").unwrap();
    let line = status.lines().find_map(|line| line.strip_prefix("VmHWM:")).unwrap();
    line.trim().strip_suffix(" kB").unwrap().parse().unwrap()
}

#[test]
fn a_chunk_that_claims_too_much_is_refused_without_the_memory() {
    // 2^24 keys, which would take 128 MiB, and almost nothing behind the header.
    let count = [0x80, 0x80, 0x80, 0x08];
    let bodies: [(u8, &[u8], u32); 7] = [
        (1, &[0; 100], 9),
        (2, &[0; 100], 6),
        (3, &[1, 0xFF], 13),
        (4, &[0, 0, 0, 0, 0, 0, 0, 0, 1], 13),
        (5, &[2, 10, 0xFF, 0xFF, 0xFF, 0x07, 10, 2], 15),
        (6, &[1, 10, 1, 0], 13),
        (7, &[0, 0x80, 0x01, 0, 0], 6),
    ];
    let before = peak_kib();
    for (id, body, number) in bodies {
        let chunk = [&[id, 1], &count[..], body].concat();
        assert_eq!(decode_integers(&chunk).unwrap_err().number(), number);
    }
    // A longer chunk that claims as much as its bytes make likely is reserved for, and not touched.
    let mut long = vec![0xFF; 3 << 20];
    long[..7].copy_from_slice(&[3, 1, 0x80, 0x80, 0x80, 0x08, 64]);
    assert_eq!(decode_integers(&long).unwrap_err().number(), 13);

    let grown = peak_kib() - before;
    assert!(grown < 16 << 10, "refusing damaged chunks took {grown} KiB");
}
