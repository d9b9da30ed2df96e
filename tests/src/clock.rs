//! "Clock and transition time", and the time of a gate that may stand for months.

/// Milliseconds in one turn of the counter.
pub const TURN: u128 = 4_294_967_296;

/// "elapsed milliseconds in 64 bits": the most that they hold. No list of calls that can be run gets there: it
/// takes more than 2^32 of them, each a turn less one after the one before. So no answer shows what happens there.
pub const TOP: u128 = 18_446_744_073_709_551_615;

/// "The age between two readings is their difference modulo that number, the later call's or the
/// arrival less the other."
pub fn age(later: u32, earlier: u32) -> u64 {
    const ROUND: u64 = 4_294_967_296;
    (u64::from(later) + ROUND - u64::from(earlier)) % ROUND
}

/// "An age of m milliseconds is m times 125 divided by 128 TUs, rounded down, and 65,535 if that is
/// more".
pub fn time_units(milliseconds: u64) -> u16 {
    u16::try_from(milliseconds * 125 / 128).unwrap_or(65_535)
}

/// Whose ages a gate takes.
#[derive(Clone, Copy, Debug, PartialEq, Eq)]
pub enum Rule {
    /// "document 01 takes ages modulo one turn of the counter".
    Counter,
    /// Document 02 (c): "the gate keeps elapsed milliseconds".
    Elapsed,
}

/// When a call was made: what stamps and acceptance times are.
#[derive(Clone, Copy, Debug, PartialEq, Eq)]
pub enum Moment {
    Reading(u32),
    Elapsed(u128),
}

impl Moment {
    /// The age of an earlier moment of the same gate.
    pub fn since(self, earlier: Moment) -> u128 {
        match (self, earlier) {
            (Moment::Reading(later), Moment::Reading(earlier)) => u128::from(age(later, earlier)),
            (Moment::Elapsed(later), Moment::Elapsed(earlier)) => later - earlier,
            _ => unreachable!("a gate has one rule"),
        }
    }
}

/// "unanswered diagnostic element whose age since acceptance is more than its timeout times 1,000".
pub fn is_late(now: Moment, accepted: Moment, timeout: u16) -> bool {
    now.since(accepted) > u128::from(timeout) * 1000
}

/// A gate's clock. "Premise: successive calls lie less than one turn apart": so the counter has begun another
/// turn exactly where a reading is below the one before it, and turns and reading together are the true time.
#[derive(Clone, Debug)]
pub struct Clock {
    rule: Rule,
    turns: u128,
    /// The first reading since setup and the latest one; none before the first call.
    readings: Option<(u32, u32)>,
}

impl Clock {
    /// The clock of a newly set up gate.
    pub fn new(rule: Rule) -> Clock {
        Clock { rule, turns: 0, readings: None }
    }

    /// The moment of a call with this reading. "The first call after setup is at zero."
    pub fn call(&mut self, reading: u32) -> Moment {
        let (first, before) = self.readings.unwrap_or((reading, reading));
        if reading < before {
            self.turns += 1;
        }
        self.readings = Some((first, reading));
        match self.rule {
            Rule::Counter => Moment::Reading(reading),
            Rule::Elapsed => Moment::Elapsed(self.elapsed()),
        }
    }

    /// The latest reading.
    pub fn latest(&self) -> Option<u32> {
        self.readings.map(|(_, latest)| latest)
    }

    /// The time from the first call to the latest one, "staying at the top if it would pass it".
    pub fn elapsed(&self) -> u128 {
        let (first, latest) = self.readings.unwrap_or((0, 0));
        (self.turns * TURN + u128::from(latest) - u128::from(first)).min(TOP)
    }
}

#[cfg(test)]
mod tests {
    use super::*;

    #[test]
    fn elapsed_time_stays_at_its_top() {
        let mut clock = Clock { rule: Rule::Elapsed, turns: TURN - 1, readings: Some((0, 7)) };
        assert_eq!(clock.call(4_294_967_294), Moment::Elapsed(TOP - 1));
        let top = clock.call(4_294_967_295);
        assert_eq!(top, Moment::Elapsed(TOP));
        assert_eq!(clock.call(0), top);
        assert_eq!(clock.call(4_294_967_295).since(top), 0);
    }
}
