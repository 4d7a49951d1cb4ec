//! Numbers at and past the largest one, 1,000,000: in every field of a plan file, and set by hand.

/// Each number field: a plan file with `#` for its number, and the line it is on. That number alone
/// decides whether questions 7 and 8 let the file through.
pub const FIELDS: [(&str, usize); 5] = [
    ("part\tp\t#\ntask\tt\t20\t1\t20\nend\n", 1),
    ("part\tp\t10\ntask\tt\t#\t1\t1\nend\n", 2),
    ("part\tp\t1000000\ntask\tt\t1000000\t#\t1000000\nend\n", 2),
    ("part\tp\t10\ntask\tt\t1000000\t1\t#\nend\n", 2),
    // A second part names the lock: it is shared, and its holding time counts.
    (
        "part\tp\t1000000\ntask\tt\t1000000\t1000000\t1000000\nlock\tl\t#\n\
         part\to\t250\ntask\tu\t1000\t1\t1000\nlock\tl\t1\nend\n",
        3,
    ),
];

/// Numbers that question 7 lets through.
pub const GOOD: [&str; 8] = [
    "1", "65535", "65536", "70000", "99999", "100000", "999999", "1000000",
];

/// Numbers that it does not: past the largest one by a little, in 7, 8 and many more digits, and
/// past what 32 and 64 bits hold; then all of these and the good ones behind a zero.
pub fn bad() -> Vec<String> {
    let mut numbers: Vec<String> = [
        "0",
        "1000001",
        "1048576",
        "1065535",
        "9999999",
        "10000000",
        "10000001",
        "99999999",
        "4294967296",
        "4295967296",
        "18446744073709551616",
        "18446744073710551616",
    ]
    .map(String::from)
    .into();
    numbers.push("9".repeat(30_000));
    numbers.push("1".to_owned() + &"0".repeat(29_999));
    let all = GOOD
        .iter()
        .copied()
        .chain(numbers.iter().map(String::as_str));
    let behind_a_zero: Vec<String> = all.map(|digits| format!("0{digits}")).collect();
    numbers.extend(behind_a_zero);
    numbers
}

/// The plan file with that number in a field of `FIELDS`.
pub fn file_with(file: &str, digits: &str) -> Vec<u8> {
    file.replace('#', digits).into_bytes()
}

/// Numbers to set by hand.
pub const BY_HAND: [u64; 13] = [
    0,
    1,
    2,
    65_535,
    65_536,
    999_999,
    1_000_000,
    1_000_001,
    1 << 20,
    (1 << 32) - 1,
    1 << 32,
    1 << 63,
    u64::MAX,
];
