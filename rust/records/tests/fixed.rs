//! The same seed gives the same bytes: a change of the generators shows here.

use records::{cases, large, Random};

/// A number that depends on every byte (FNV-1a).
fn fingerprint(bytes: &[u8]) -> u64 {
    bytes.iter().fold(0xCBF2_9CE4_8422_2325, |so_far, &byte| {
        (so_far ^ u64::from(byte)).wrapping_mul(0x0000_0100_0000_01B3)
    })
}

#[test]
fn the_large_records() {
    let made: Vec<(&str, usize, u64)> = large::ALL
        .iter()
        .map(|(name, generator)| (*name, generator(large::LARGE)))
        .map(|(name, record)| (name, record.len(), fingerprint(&record)))
        .collect();
    assert_eq!(
        made,
        [
            ("feed", 15_000_577, 116_039_010_454_097_153),
            ("escaped", 15_446_709, 13_859_545_430_095_623_621),
            ("numbers", 15_002_003, 17_616_781_938_834_225_850),
            ("deep", 15_000_576, 11_576_302_506_550_423_791),
            ("tiny", 15_000_018, 9_415_835_178_810_252_504),
        ]
    );
}

#[test]
fn the_random_cases() {
    let mut random = Random::new(1);
    let mut bytes = Vec::new();
    for numbers in 0..1_000 {
        let names = cases::names(&mut random);
        bytes.extend(cases::query(&mut random, names));
        bytes.extend(cases::record(&mut random, names));
        bytes.extend(cases::block(&mut random));
        bytes.extend(cases::list(&mut random, numbers % 5).iter().flat_map(|n| n.to_le_bytes()));
        bytes.extend(cases::buffer(&mut random, numbers % 19));
    }
    assert_eq!((bytes.len(), fingerprint(&bytes)), (2_352_358, 10_487_815_451_148_786_135));
}
