use std::error::Error;
use std::fmt;

/// Why a call stopped, by document 01's numbers.
#[derive(Clone, Copy, Debug, PartialEq, Eq, Hash)]
#[repr(u32)]
pub enum Refusal {
    /// 1, of a line in a transcript.
    LineShape = 1,
    /// 2
    OutsideLimits = 2,
    /// 3, of a line in a transcript.
    LineOrder = 3,
    /// 4
    IdPresent = 4,
    /// 5
    IdAbsent = 5,
    /// 6
    TooManyDevices = 6,
    /// 7
    OnlyDevice = 7,
    /// 8
    TooManyIntervals = 8,
    /// 9
    TooManyMoves = 9,
    /// 10
    NoDevice = 10,
    /// 11
    CopiesCount = 11,
    /// 12
    TooFewOwners = 12,
    /// 13
    PointPastRange = 13,
    /// 14
    NoImage = 14,
    /// 15
    OtherVersion = 15,
    /// 16
    FaultyImage = 16,
    /// 17
    BufferTooShort = 17,
}

impl Refusal {
    /// Every refusal, by rising number.
    pub const ALL: [Refusal; 17] = [
        Refusal::LineShape,
        Refusal::OutsideLimits,
        Refusal::LineOrder,
        Refusal::IdPresent,
        Refusal::IdAbsent,
        Refusal::TooManyDevices,
        Refusal::OnlyDevice,
        Refusal::TooManyIntervals,
        Refusal::TooManyMoves,
        Refusal::NoDevice,
        Refusal::CopiesCount,
        Refusal::TooFewOwners,
        Refusal::PointPastRange,
        Refusal::NoImage,
        Refusal::OtherVersion,
        Refusal::FaultyImage,
        Refusal::BufferTooShort,
    ];

    /// Document 01's number, 1 to 17.
    pub fn number(self) -> u32 {
        self as u32
    }

    /// The refusal with a number; none for 0 and above 17.
    pub fn of(number: u32) -> Option<Refusal> {
        Refusal::ALL.into_iter().find(|refusal| refusal.number() == number)
    }

    /// What a call returned: nothing to say of 0, else its refusal.
    pub(crate) fn unless_accepted(number: u32) -> Result<(), Refusal> {
        match Refusal::of(number) {
            Some(refusal) => Err(refusal),
            None => {
                assert_eq!(number, 0, "libgorvyts.a gives no such number");
                Ok(())
            }
        }
    }
}

impl fmt::Display for Refusal {
    fn fmt(&self, f: &mut fmt::Formatter<'_>) -> fmt::Result {
        f.write_str(match self {
            Refusal::LineShape => "the line is not one of the four shapes",
            Refusal::OutsideLimits => "a number is outside its limits, or there are more than 65,536 bytes",
            Refusal::LineOrder => "a change line without a range line before it, or a second range line",
            Refusal::IdPresent => "the device to add is present",
            Refusal::IdAbsent => "the device is absent",
            Refusal::TooManyDevices => "256 devices are present",
            Refusal::OnlyDevice => "the device to remove is the only one",
            Refusal::TooManyIntervals => "the new table would have more intervals than the pool's limit",
            Refusal::TooManyMoves => "the list has fewer places than there are moves",
            Refusal::NoDevice => "no device is present",
            Refusal::CopiesCount => "the number of copies is 0 or above 8",
            Refusal::TooFewOwners => "256 tries met fewer different owners than copies are asked for",
            Refusal::PointPastRange => "the point is at or above the range",
            Refusal::NoImage => "an image has at least 19 bytes and begins with the mark RSL",
            Refusal::OtherVersion => "the image has another version",
            Refusal::FaultyImage => "the image has a fault",
            Refusal::BufferTooShort => "a buffer is too short",
        })
    }
}

impl Error for Refusal {}
