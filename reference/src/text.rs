//! How numbers and bytes are printed.

/// Each number after a space.
pub fn listed(numbers: &[u64]) -> String {
    numbers.iter().map(|number| format!(" {number}")).collect()
}

pub fn hex(bytes: &[u8]) -> String {
    bytes.iter().map(|byte| format!("{byte:02x}")).collect()
}
