//! docs/src is the crate's source unchanged: a tool that rewrites it, a formatter above all,
//! would make the oracle another crate's.

use std::fs;
use std::path::{Path, PathBuf};

/// Name, length and checksum of each file.
const FILES: [(&str, usize, u64); 8] = [
    ("errors.rs", 884, 0x3396_4a85_380b_122f),
    ("fragments.rs", 2_176, 0x3ca0_0137_7d45_9f06),
    ("lib.rs", 13_589, 0x5ef0_c2df_670f_fb52),
    ("matching.rs", 31_369, 0x1fdd_31b0_28a7_61e1),
    ("nester.rs", 4_211, 0x618b_f754_d0b2_c047),
    ("parsing.rs", 13_354, 0xaaff_8ad4_a8c0_137d),
    ("replacing.rs", 10_065, 0x387f_2dd9_f2a2_e413),
    ("resolving.rs", 11_672, 0x35d1_5296_8aae_4437),
];

fn sources() -> Vec<PathBuf> {
    let folder = Path::new(env!("CARGO_MANIFEST_DIR")).join("../../docs/src/src");
    let entries = fs::read_dir(folder).expect("the folder is there");
    let mut files: Vec<PathBuf> = entries.map(|entry| entry.expect("an entry").path()).collect();
    files.sort();
    files
}

/// FNV-1a of 64 bits.
fn checksum(bytes: &[u8]) -> u64 {
    bytes.iter().fold(0xcbf2_9ce4_8422_2325, |sum, byte| {
        (sum ^ u64::from(*byte)).wrapping_mul(0x0000_0100_0000_01b3)
    })
}

#[test]
fn a_known_checksum() {
    assert_eq!(checksum(b""), 0xcbf2_9ce4_8422_2325);
    assert_eq!(checksum(b"foobar"), 0x8594_4171_f739_67e8);
}

#[test]
fn the_source_is_unchanged() {
    let found: Vec<(String, usize, u64)> = sources()
        .iter()
        .map(|file| {
            let name = file.file_name().expect("a name").to_string_lossy().into_owned();
            let bytes = fs::read(file).expect("a readable file");
            (name, bytes.len(), checksum(&bytes))
        })
        .collect();
    let wanted = FILES.map(|(name, length, sum)| (name.to_owned(), length, sum));
    assert_eq!(found, wanted);
}
