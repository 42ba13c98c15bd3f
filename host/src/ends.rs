//! How a paving ended.

use core::fmt;

/// How a paving ended. The numbers are those that cross from the library.
#[derive(Clone, Copy, Debug, PartialEq, Eq, Hash)]
#[repr(u32)]
pub enum End {
    /// A pass placed nothing.
    Still = 0,
    /// The passes allowed are used, and the last placed something; or none are allowed.
    Passes = 1,
    /// Quad 250,000 was just placed.
    Cap = 2,
    /// The next quad would need a node, quad or distinct edge beyond those lent.
    Full = 3,
}

impl End {
    /// Every end, in the order of the numbers.
    pub const ALL: [End; 4] = [End::Still, End::Passes, End::Cap, End::Full];

    pub(crate) fn of_number(number: u32) -> End {
        let found = End::ALL.into_iter().find(|end| *end as u32 == number);
        found.unwrap_or_else(|| panic!("a bug: the library answered end {number}, which SCOPE doesn't have"))
    }
}

/// SCOPE's word: `still`, `passes`, `cap` or `full`.
impl fmt::Display for End {
    fn fmt(&self, f: &mut fmt::Formatter<'_>) -> fmt::Result {
        f.write_str(match self {
            End::Still => "still",
            End::Passes => "passes",
            End::Cap => "cap",
            End::Full => "full",
        })
    }
}

#[cfg(test)]
mod tests {
    use super::End;

    #[test]
    fn ends_are_scopes() {
        let found: Vec<(u32, String)> = End::ALL.iter().map(|end| (*end as u32, end.to_string())).collect();
        let words = ["still", "passes", "cap", "full"].map(String::from);
        assert_eq!(found, (0..).zip(words).collect::<Vec<_>>());
        assert_eq!(End::ALL.map(|end| End::of_number(end as u32)), End::ALL);
    }

    #[test]
    #[should_panic(expected = "a bug: the library answered end 4")]
    fn an_unknown_number_is_a_bug() {
        End::of_number(4);
    }
}
