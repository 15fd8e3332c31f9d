//! Several measurements of the same thing: their middle and how far they spread.

#[derive(Clone, Copy, Debug, PartialEq)]
pub struct Sample {
    pub median: f64,
    /// Where the middle half of the measurements begins and ends.
    pub low: f64,
    pub high: f64,
}

impl Sample {
    /// At least one measurement.
    pub fn of(mut values: Vec<f64>) -> Sample {
        values.sort_by(f64::total_cmp);
        let last = values.len() - 1;
        let median = (values[last / 2] + values[last.div_ceil(2)]) / 2.0;
        let quarter = values.len() / 4;
        Sample { median, low: values[quarter], high: values[last - quarter] }
    }

    pub fn times(self, factor: f64) -> Sample {
        let Sample { median, low, high } = self;
        Sample { median: median * factor, low: low * factor, high: high * factor }
    }

    /// The median, with half the width of the middle half in percent of it.
    pub fn show(self) -> String {
        let spread = (self.high - self.low) / 2.0 / self.median.abs().max(f64::MIN_POSITIVE);
        format!("{} ± {:.0} %", digits(self.median), 100.0 * spread)
    }

    pub fn show_ratio(self) -> String {
        format!("{:.2} ({:.2} to {:.2})", self.median, self.low, self.high)
    }
}

/// Three digits that matter, where there are as many.
pub fn digits(value: f64) -> String {
    match value.abs() {
        size if size >= 100.0 => format!("{value:.0}"),
        size if size >= 10.0 => format!("{value:.1}"),
        _ => format!("{value:.2}"),
    }
}

#[cfg(test)]
mod tests {
    use super::*;

    #[test]
    fn the_middle_and_the_middle_half() {
        let sample = Sample::of(vec![5.0, 1.0, 2.0, 4.0, 90.0]);
        assert_eq!(sample, Sample { median: 4.0, low: 2.0, high: 5.0 });
        assert_eq!(Sample::of(vec![1.0, 3.0]).median, 2.0);
        assert_eq!(Sample::of(vec![7.0]), Sample { median: 7.0, low: 7.0, high: 7.0 });
    }

    #[test]
    fn three_digits() {
        assert_eq!([123.4, 12.34, 1.234].map(digits), ["123", "12.3", "1.23"]);
        assert_eq!(Sample { median: 2.0, low: 1.9, high: 2.1 }.show(), "2.00 ± 5 %");
    }
}
