//! The processor that a table of times was measured on.

use std::fs;

/// Its kind, and its name as Linux has it: x86-64 has a line `model name`, Arm the numbers of its maker and part.
pub fn named() -> String {
    let info = fs::read_to_string("/proc/cpuinfo").unwrap_or_default();
    named_in(std::env::consts::ARCH, &info)
}

fn named_in(kind: &str, info: &str) -> String {
    let value = |key: &str| {
        info.lines()
            .filter_map(|line| line.split_once(':'))
            .find(|(name, _)| name.trim() == key)
            .map(|(_, value)| value.trim())
    };
    match (
        value("model name"),
        value("CPU implementer"),
        value("CPU part"),
    ) {
        (Some(name), _, _) => format!("{kind}, {name}"),
        (None, Some(maker), Some(part)) => format!("{kind}, maker {maker}, part {part}"),
        _ => format!("{kind}, unnamed"),
    }
}

#[cfg(test)]
mod tests {
    use super::named_in;

    #[test]
    fn names_both_kinds() {
        let x86 = "processor\t: 0\nmodel name\t: Some CPU @ 2.5GHz\nmodel name\t: Another\n";
        let arm = "processor\t: 0\nCPU implementer\t: 0x41\nCPU part\t: 0xd0c\n";
        assert_eq!(named_in("x86_64", x86), "x86_64, Some CPU @ 2.5GHz");
        assert_eq!(named_in("aarch64", arm), "aarch64, maker 0x41, part 0xd0c");
        assert_eq!(named_in("aarch64", ""), "aarch64, unnamed");
    }
}
