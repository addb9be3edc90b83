//! Times of document 01, section "Times", with TSDI of document 02's order 1: the settings, their rules, and the times
//! that follow from them. All are bit times, except the retry limit.

#[derive(Clone, Debug)]
pub struct Settings {
    pub tset: u32,
    pub tqui: u32,
    pub min_tsdr: u32,
    pub max_tsdr: u32,
    pub ttd: u32,
    pub ttr: u32,
    pub retry_limit: u32,
    pub tsdi: u32,
}

impl Settings {
    /// Whether start takes these settings: each within its range, and TSL not over 65535.
    pub fn in_rule(&self) -> bool {
        self.in_range() && self.tsl() <= 65_535
    }

    pub fn in_range(&self) -> bool {
        (20..=255).contains(&self.tset)
            && self.tqui <= 255
            && (20..=65_535).contains(&self.min_tsdr)
            && self.min_tsdr > self.tqui
            && (self.min_tsdr..=65_535).contains(&self.max_tsdr)
            && self.ttd <= 65_535
            && (20..1 << 24).contains(&self.ttr)
            && self.retry_limit <= 15
            && self.tsdi <= 65_535
    }

    // The times below are for settings within their ranges, whose sums fit 32 bits with room to spare.

    pub fn tsm(&self) -> u32 {
        2 + 2 * self.tset + self.tqui
    }

    /// The longest of what the line, the responder and the initiator need: clause 5.5.3.7 of the standard.
    pub fn tid1(&self) -> u32 {
        (33 + self.tsm()).max(self.min_tsdr).max(self.tsdi)
    }

    pub fn tid2(&self) -> u32 {
        (33 + self.tsm()).max(self.max_tsdr)
    }

    pub fn tsl(&self) -> u32 {
        2 * self.ttd + 11 + self.tsm() + self.max_tsdr.max(self.tid1())
    }

    /// TTO, which no rule of the base station uses.
    pub fn tto(&self, address: u8) -> u32 {
        6 * self.tsl() + 2 * u32::from(address) * self.tsl()
    }
}

/// The standard settings of document 01, with TSDI and the retry limit of document 02's orders 1 and 8.
pub const STANDARD: Settings =
    Settings { tset: 20, tqui: 0, min_tsdr: 20, max_tsdr: 400, ttd: 1, ttr: 10_000, retry_limit: 0, tsdi: 0 };

/// The time from an earlier clock to a later one, modulo 2^32: a clock that goes back is a long wait.
pub fn elapsed(earlier: u32, later: u32) -> u32 {
    later.wrapping_sub(earlier)
}

#[cfg(test)]
mod tests {
    use super::*;

    /// Case 9 of document 01.
    #[test]
    fn standard_settings() {
        let standard = STANDARD;
        assert!(standard.in_rule());
        assert_eq!((standard.tsm(), standard.tid1(), standard.tid2()), (42, 75, 400));
        assert_eq!((standard.tsl(), standard.tto(2)), (455, 4550));
    }

    /// Document 02's order 1: a slow responder moves Tid1 alone, TSDI also TSL, and neither moves Tid2.
    #[test]
    fn idle_time() {
        let times = |settings: Settings| {
            assert!(settings.in_rule());
            [settings.tid1(), settings.tid2(), settings.tsl(), settings.tto(2)]
        };
        assert_eq!(times(Settings { min_tsdr: 200, ..STANDARD }), [200, 400, 455, 4550]);
        assert_eq!(times(Settings { tsdi: 300, ..STANDARD }), [300, 400, 455, 4550]);
        assert_eq!(times(Settings { tsdi: 500, ..STANDARD }), [500, 400, 555, 5550]);
    }

    #[test]
    fn limits_of_the_rules() {
        let standard = || STANDARD;
        let refused = [
            Settings { tset: 19, ..standard() },
            Settings { tset: 256, ..standard() },
            Settings { tqui: 256, min_tsdr: 300, ..standard() },
            Settings { min_tsdr: 19, ..standard() },
            Settings { tqui: 20, ..standard() },
            Settings { max_tsdr: 19, ..standard() },
            Settings { max_tsdr: 65_536, ..standard() },
            Settings { ttd: u32::MAX, ..standard() },
            Settings { ttr: 19, ..standard() },
            Settings { ttr: 1 << 24, ..standard() },
            Settings { retry_limit: 16, ..standard() },
            // TSL = 2 TTD + 11 + 42 + 400 just over 65535.
            Settings { ttd: 32_542, ..standard() },
            Settings { tsdi: 65_536, ttd: 0, ..standard() },
            // TSL = 2 + 11 + 42 + TSDI just over 65535.
            Settings { tsdi: 65_481, ..standard() },
        ];
        assert!(refused.iter().all(|settings| !settings.in_rule()));
        assert!(Settings { ttd: 32_541, ..standard() }.in_rule());
        assert!(Settings { tsdi: 65_480, ..standard() }.in_rule());
        assert!(Settings { tqui: 19, ttr: (1 << 24) - 1, retry_limit: 15, ..standard() }.in_rule());
    }

    /// Case 10 of document 01, and the same moment when the clock wraps.
    #[test]
    fn elapsed_time() {
        assert!(elapsed(100, 1099) < 1000 && elapsed(100, 1100) >= 1000);
        assert_eq!(elapsed(u32::MAX - 99, 899), 999);
        assert_eq!(elapsed(100, 99), u32::MAX);
    }
}
