//! Which of the ten rules are asked of an image.

/// What a call asks for before it goes on.
#[derive(Clone, Copy, PartialEq, Eq)]
pub(crate) enum Asked {
    /// All ten rules: the image is sound.
    All,
    /// Rules 1 to 8, and of rule 4 not that used is at most given: the pointers
    /// are good, bits and counts may be anything (document 02, T-05).
    Pointers,
}

impl Asked {
    /// Whether bits and counts are judged, too.
    pub(crate) fn with_counts(self) -> bool {
        self == Asked::All
    }
}
