//! Refusals: what is refused gets a number, and with it the field, mark, subframe or place
//! that the number tells of (0 where it tells nothing); one number tells a size as well.

#[derive(Clone, Copy, Debug, PartialEq, Eq)]
pub struct Refusal {
    pub number: u8,
    pub tells: u32,
    /// The payload's size, of refusal 11 alone.
    pub size: Option<u32>,
}

impl Refusal {
    /// A refusal that tells no size.
    pub const fn new(number: u8, tells: u32) -> Self {
        Refusal {
            number,
            tells,
            size: None,
        }
    }

    /// Refusal 11: the payload of the block at a place has a size wrong for its kind.
    pub const fn wrong_size(at: u32, size: u32) -> Self {
        Refusal {
            number: 11,
            tells: at,
            size: Some(size),
        }
    }

    /// Refusal 1: a buffer or recording of the wrong length.
    pub const LENGTH: Refusal = Refusal::new(1, 0);

    /// Refusal 2 of an index that stands alone.
    pub const LONE_INDEX: Refusal = Refusal::new(2, 0);

    /// Refusal 4 of a delay that stands alone: it is not in the list.
    pub const NOT_LISTED: Refusal = Refusal::new(4, 0);

    /// Refusal 6: the expansion bit is set.
    pub const EXPANSION: Refusal = Refusal::new(6, 0);

    /// Refusal 13: the key is held with another count.
    pub const OTHER_COUNT: Refusal = Refusal::new(13, 0);

    /// Refusal 14: the book is full and the key is new.
    pub const BOOK_FULL: Refusal = Refusal::new(14, 0);

    /// Refusal 15: the delay is in the list but is no whole number of samples.
    pub const NOT_WHOLE: Refusal = Refusal::new(15, 0);
}
