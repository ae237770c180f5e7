//! Kinds of object.

/// The kind of an object. It says what the bits of a mask mean.
#[derive(Clone, Copy, Debug, PartialEq, Eq, Hash)]
pub enum Kind {
    /// A file or a directory, number 1.
    File,
    /// A registry key, number 2.
    Key,
}

impl Kind {
    /// The kind's number, as question files have it.
    ///
    /// ```
    /// use pirasteh::Kind;
    ///
    /// assert_eq!(Kind::File.number(), 1);
    /// assert_eq!(Kind::Key.number(), 2);
    /// ```
    #[must_use]
    pub const fn number(self) -> u32 {
        match self {
            Kind::File => 1,
            Kind::Key => 2,
        }
    }

    /// The kind that has this number, if there is one.
    ///
    /// ```
    /// use pirasteh::Kind;
    ///
    /// assert_eq!(Kind::from_number(2), Some(Kind::Key));
    /// assert_eq!(Kind::from_number(3), None);
    /// ```
    #[must_use]
    pub const fn from_number(number: u32) -> Option<Kind> {
        match number {
            1 => Some(Kind::File),
            2 => Some(Kind::Key),
            _ => None,
        }
    }
}
