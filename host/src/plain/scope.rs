//! Scope sets over the eight names (RFC 6749 section 3.3).

/// The names, in the order in which replies list them. The first has the lowest bit.
pub const NAMES: [&str; 8] = ["power", "peak", "tariff", "bill", "milking", "drying", "pump", "solar"];

#[derive(Clone, Copy, Debug, PartialEq, Eq)]
pub struct ScopeSet(pub u8);

impl ScopeSet {
    /// The set of a scope value: names with one space between, in any order, repeated or not.
    pub fn parse(value: &[u8]) -> Option<ScopeSet> {
        let mut set = 0;
        for name in value.split(|&byte| byte == b' ') {
            set |= 1 << NAMES.iter().position(|known| known.as_bytes() == name)?;
        }
        Some(ScopeSet(set))
    }

    /// What a request asks for of the most that it may get: all of it when it names no scope.
    pub fn asked(value: Option<&[u8]>, most: ScopeSet) -> Option<ScopeSet> {
        match value {
            None => Some(most),
            Some(value) => ScopeSet::parse(value).filter(|set| set.is_within(most)),
        }
    }

    pub fn is_within(self, other: ScopeSet) -> bool {
        self.0 & !other.0 == 0
    }

    /// The scope value that lists the set's names in the order of the table.
    pub fn text(self) -> String {
        let names: Vec<&str> = (0..8).filter(|bit| self.0 >> bit & 1 == 1).map(|bit| NAMES[bit]).collect();
        names.join(" ")
    }
}

#[cfg(test)]
mod tests {
    use super::*;

    #[test]
    fn order_and_repeats_do_not_matter() {
        assert_eq!(ScopeSet::parse(b"bill power"), Some(ScopeSet(9)));
        assert_eq!(ScopeSet::parse(b"power bill power"), Some(ScopeSet(9)));
        assert_eq!(ScopeSet(11).text(), "power peak bill");
    }

    #[test]
    fn bad_forms_and_unknown_names_are_no_set() {
        for value in
            ["", " ", "power  bill", " power", "power ", "powe", "powers", "Power", "power\tbill", "power,bill"]
        {
            assert_eq!(ScopeSet::parse(value.as_bytes()), None, "{value:?}");
        }
    }

    #[test]
    fn nothing_beyond_the_most_is_asked() {
        let asked = |value: &str| ScopeSet::asked(Some(value.as_bytes()), ScopeSet(9));
        assert_eq!(ScopeSet::asked(None, ScopeSet(9)), Some(ScopeSet(9)));
        assert_eq!(asked("bill power"), Some(ScopeSet(9)));
        assert_eq!(asked("bill"), Some(ScopeSet(8)));
        for value in ["power peak bill", "peak", "", "power  bill", "weather"] {
            assert_eq!(asked(value), None, "{value:?}");
        }
    }

    #[test]
    fn every_set_reads_back() {
        for set in 1..=255 {
            assert_eq!(ScopeSet::parse(ScopeSet(set).text().as_bytes()), Some(ScopeSet(set)));
        }
    }
}
