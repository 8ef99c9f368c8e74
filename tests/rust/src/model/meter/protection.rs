//! The level and the seconds left, one small record (01, "Protection").

/// The order is that of the rights: auxiliary has some of main's.
#[derive(Clone, Copy, Debug, PartialEq, Eq, PartialOrd, Ord)]
pub enum Level {
    Shut,
    Auxiliary,
    Main,
}

#[derive(Clone, Copy, Debug, PartialEq, Eq)]
pub struct Protection {
    pub level: Level,
    pub seconds: u8,
}

/// Seconds without an accepted change or zeroing until protection returns.
pub const OPEN_SECONDS: u8 = 240;

impl Protection {
    pub const SHUT: Protection = Protection { level: Level::Shut, seconds: 0 };

    /// 1 to 240 while open, else 0.
    pub fn sound(self) -> bool {
        (self.level == Level::Shut) == (self.seconds == 0) && self.seconds <= OPEN_SECONDS
    }

    pub fn second(&mut self) {
        if self.seconds <= 1 {
            *self = Protection::SHUT;
        } else {
            self.seconds -= 1;
        }
    }

    /// A right password sets its own level and starts the 240.
    pub fn open(&mut self, level: Level) {
        *self = Protection { level, seconds: OPEN_SECONDS };
    }

    /// An accepted change or zeroing starts the 240 again.
    pub fn renew(&mut self) {
        self.seconds = OPEN_SECONDS;
    }
}

#[cfg(test)]
mod tests {
    use super::*;

    #[test]
    fn p10() {
        let mut protection = Protection::SHUT;
        protection.open(Level::Main);
        (0..239).for_each(|_| protection.second());
        assert_eq!(protection, Protection { level: Level::Main, seconds: 1 });
        protection.second();
        assert_eq!(protection, Protection::SHUT);
        protection.second();
        assert_eq!(protection, Protection::SHUT);
    }
}
