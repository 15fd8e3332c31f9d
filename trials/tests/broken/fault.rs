//! The faults that a loop around the calls may have.

#[derive(Clone, Copy, Debug, PartialEq, Eq)]
pub enum Fault {
    None,
    /// The first station is that of 2, 100.
    FirstStation,
    /// It ends after a thousand reads.
    ThousandReads,
    /// Every line of a block is answered with the station that the block began with.
    StationOfTheBlock,
    /// Answers that leave no room for one more are dropped.
    FullBufferDropped,
    /// A line that a block's end cuts is answered in halves.
    AnsweredInHalves,
    /// A line over three blocks loses what came with the first two.
    BeginLost,
    /// Of a line that a block's end cuts only the last part counts for the length.
    LengthOfTheLastPart,
    /// A line that a block's end cuts is too long one byte earlier.
    CutLineShorter,
    /// A line that is too long is told so in each of its blocks.
    TooLongTwice,
    /// The line after one that is too long is swallowed.
    NextSwallowed,
    /// The same, but only where a block's end cut the one that is too long.
    NextSwallowedAfterCut,
    /// The same, but only where it ended with its block.
    NextSwallowedAtTheEnd,
    /// A line is lost whose line feed is the first byte of a block.
    LoneFeedLost,
    /// A last line without a line feed is dropped.
    LastLineDropped,
    /// The last answers are written again after the end.
    WrittenTwice,
    /// No answer is written before the end.
    WrittenLate,
    /// The last answer has no line feed.
    NoLastFeed,
    /// Something is said on standard error.
    Talks,
}

pub const FAULTS: [Fault; 18] = [
    Fault::FirstStation,
    Fault::ThousandReads,
    Fault::StationOfTheBlock,
    Fault::FullBufferDropped,
    Fault::AnsweredInHalves,
    Fault::BeginLost,
    Fault::LengthOfTheLastPart,
    Fault::CutLineShorter,
    Fault::TooLongTwice,
    Fault::NextSwallowed,
    Fault::NextSwallowedAfterCut,
    Fault::NextSwallowedAtTheEnd,
    Fault::LoneFeedLost,
    Fault::LastLineDropped,
    Fault::WrittenTwice,
    Fault::WrittenLate,
    Fault::NoLastFeed,
    Fault::Talks,
];
