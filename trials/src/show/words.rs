//! Refusals and causes in words, for those who do not know the numbers.

/// So many minutes.
pub fn minutes(count: u64) -> String {
    match count {
        1 => "1 minute".to_string(),
        _ => format!("{count} minutes"),
    }
}

/// Why a call was refused.
pub fn refusal(number: u64) -> &'static str {
    match number {
        1 => "limit not 1 to 60",
        2 => "percentage above 100",
        3 => "the bound would be 0",
        4 => "no such line",
        5 => "charging time not 1 to 1,440",
        6 => "due minute above 2,000,000",
        8 => "clock above 1,000,000",
        9 => "report list too short",
        10 => "not one start for each waiting charge",
        11 => "allowance not 1 to 1,000",
        12 => "the clock would run back",
        13 => "the feeder is full",
        14 => "no ticket left",
        15 => "no such ticket held",
        16 => "not the earliest start",
        17 => "no such rate",
        18 => "rate above limit, bound or site limit",
        19 => "tail above 5",
        23 => "tickets do not rise, or too many",
        24 => "answer list too short",
        25 => "the charge has begun",
        26 => "the rest would not be sound",
        27 => "number of feeders not 1 to 4",
        28 => "site limit not 1 to 720",
        29 => "no such feeder",
        _ => "a refusal that there is not",
    }
}

/// Why the old plan was kept, or that the new one was taken.
pub fn cause(number: u64) -> &'static str {
    match number {
        0 => "taken",
        1 => "kept: no start found",
        2 => "kept: allowance spent",
        3 => "kept: a start below the clock",
        4 => "kept: the site would draw longer",
        5 => "kept: a line or the site above its limit",
        6 => "kept: lines too far apart",
        7 => "kept: not less late",
        _ => "a cause that there is not",
    }
}
