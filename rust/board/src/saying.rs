//! How numbers are said in a sentence.

/// `no phrase`, `1 phrase`, `1,953 phrases`.
pub(crate) fn counted(number: usize, what: &str) -> String {
    match number {
        0 => format!("no {what}"),
        1 => format!("1 {what}"),
        _ => format!("{} {what}s", thousands(number)),
    }
}

/// A number with commas between its thousands.
pub(crate) fn thousands(number: usize) -> String {
    if number < 1000 {
        return number.to_string();
    }
    format!("{},{:03}", thousands(number / 1000), number % 1000)
}

#[cfg(test)]
mod tests {
    use super::*;

    #[test]
    fn thousands_are_parted_by_commas() {
        let said: Vec<String> = [0, 999, 1000, 65_007, 1_000_000].map(thousands).to_vec();
        assert_eq!(said, ["0", "999", "1,000", "65,007", "1,000,000"]);
    }

    #[test]
    fn one_is_not_many() {
        assert_eq!(counted(0, "node"), "no node");
        assert_eq!(counted(1, "node"), "1 node");
        assert_eq!(counted(2000, "node"), "2,000 nodes");
    }
}
