//! Platoon dispersion, equations 30-11 and 30-12.

/// Numerator of the smoothing factor F (paper: N).
pub const NUMERATOR: u64 = 500_000;
/// Cycles worked from an empty link; the last is reported.
pub const CYCLES: usize = 65;

/// Denominator of the smoothing factor F (paper: D).
pub fn denominator(running_time: u32) -> u64 {
    657_500 + 69 * u64::from(running_time)
}

/// Platoon arrival time in steps (paper: t').
pub fn arrival_time(running_time: u32) -> u32 {
    ((862 * u64::from(running_time) + 435_000) / 1_000_000) as u32
}

/// How many of the cycles are worked. The numbers left are the same.
#[derive(Clone, Copy, Debug, PartialEq, Eq)]
pub enum Ending {
    /// All, one after the other.
    AllCycles,
    /// Those until the link is at rest, and one more: once a cycle ends in the state in which it began, all later ones repeat it.
    AtRest,
}

/// The link between the signals (paper: street): its level and carry.
#[derive(Clone, Copy, Debug, PartialEq, Eq)]
pub struct Link {
    denominator: u64,
    pub level: u64,
    pub carry: u64,
}

impl Link {
    pub fn empty(running_time: u32) -> Link {
        Link {
            denominator: denominator(running_time),
            level: 0,
            carry: 0,
        }
    }

    /// One step: takes a discharge, gives the arrival.
    pub fn step(&mut self, discharge: u32) -> u32 {
        let kept = self.denominator - NUMERATOR;
        let made = NUMERATOR * u64::from(discharge) + kept * self.level + self.carry;
        self.level = made / self.denominator;
        self.carry = made % self.denominator;
        self.level as u32
    }

    /// One cycle of steps: a discharge and an arrival for each.
    fn run(&mut self, discharge: &[u32], arrivals: &mut [u32]) {
        for (arrival, &leaving) in arrivals.iter_mut().zip(discharge) {
            *arrival = self.step(leaving);
        }
    }

    /// One cycle of steps whose arrivals are not kept.
    fn pass(&mut self, discharge: &[u32]) {
        for &leaving in discharge {
            self.step(leaving);
        }
    }

    /// So many cycles from an empty link, each worked by `work`, which is told its number from 1.
    /// Gives the link, and the cycle after which it is at rest or all are worked.
    fn from_empty(
        running_time: u32,
        cycles: usize,
        ending: Ending,
        mut work: impl FnMut(&mut Link, usize),
    ) -> (Link, usize) {
        let mut link = Link::empty(running_time);
        for cycle in 1..=cycles {
            let before = link;
            work(&mut link, cycle);
            if ending == Ending::AtRest && link == before {
                return (link, cycle);
            }
        }
        (link, cycles)
    }

    /// The link after all cycles but the last, which is the reported one.
    pub fn before_last(discharge: &[u32], running_time: u32, ending: Ending) -> Link {
        let pass = |link: &mut Link, _| link.pass(discharge);
        Link::from_empty(running_time, CYCLES - 1, ending, pass).0
    }
}

/// Works all cycles; see `disperse_cycles`.
pub fn disperse<'a>(
    discharge: &[u32],
    running_time: u32,
    ending: Ending,
    first: &'a mut [u32],
    second: &'a mut [u32],
) -> &'a [u32] {
    disperse_cycles(discharge, running_time, CYCLES, ending, first, second)
}

/// Works so many cycles, alternating between the two work profiles, cycle one in the first.
/// Each has C numbers, as the discharge. Gives the profile that holds the last cycle.
pub fn disperse_cycles<'a>(
    discharge: &[u32],
    running_time: u32,
    cycles: usize,
    ending: Ending,
    first: &'a mut [u32],
    second: &'a mut [u32],
) -> &'a [u32] {
    let mut work = |link: &mut Link, cycle: usize| {
        let profile = if cycle % 2 == 1 {
            &mut *first
        } else {
            &mut *second
        };
        link.run(discharge, profile);
    };
    let (mut link, last) = Link::from_empty(running_time, cycles, ending, &mut work);
    if last < cycles {
        // one more, so that both profiles hold the cycle that repeats
        work(&mut link, last + 1);
    }
    if cycles % 2 == 1 {
        first
    } else {
        second
    }
}

/// How many cycles `disperse` works with the ending at rest.
pub fn cycles_to_rest(discharge: &[u32], running_time: u32) -> usize {
    let pass = |link: &mut Link, _| link.pass(discharge);
    let (_, last) = Link::from_empty(running_time, CYCLES, Ending::AtRest, pass);
    CYCLES.min(last + 1)
}
