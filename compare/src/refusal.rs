//! The numbers that say no.

#[derive(Clone, Copy, Debug, PartialEq, Eq, PartialOrd, Ord)]
pub enum Refusal {
    /// 01's "not a sound heap".
    InvalidHeap = 1,
    Owner = 2,
    SizeZero = 3,
    Alignment = 4,
    BlockQuota = 5,
    GranuleQuota = 6,
    NoStart = 7,
    NoRow = 8,
    InsideBlock = 9,
    OtherOwner = 10,
    Arena = 11,
    Table = 12,
    QuotaRange = 13,
    Unreadable = 14,
    PastEnd = 15,
    NotAligned = 16,
    FreeMemory = 17,
}

impl Refusal {
    /// Every refusal that a run of many scripts has to meet. A number that
    /// joins the list above joins this one.
    pub const EXPECTED: [Refusal; 17] = [
        Refusal::InvalidHeap,
        Refusal::Owner,
        Refusal::SizeZero,
        Refusal::Alignment,
        Refusal::BlockQuota,
        Refusal::GranuleQuota,
        Refusal::NoStart,
        Refusal::NoRow,
        Refusal::InsideBlock,
        Refusal::OtherOwner,
        Refusal::Arena,
        Refusal::Table,
        Refusal::QuotaRange,
        Refusal::Unreadable,
        Refusal::PastEnd,
        Refusal::NotAligned,
        Refusal::FreeMemory,
    ];

    pub fn number(self) -> u8 {
        self as u8
    }
}

/// The value of a granted request, or why it was refused.
pub type Answer = Result<u64, Refusal>;
