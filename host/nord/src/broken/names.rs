//! Names and types as rules 1, 4 and 6 want them.

/// What a legal name is.
pub const NAME: &str = "1 to 16 of A-Z, 0-9 and hyphen, a shorter one ended by an apostrophe or a zero byte";
/// What a legal type is.
pub const TYPE: &str = "0 to 4 of A-Z, 0-9 and hyphen, a shorter one ended by an apostrophe or a zero byte";
