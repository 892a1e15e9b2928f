//! Which SQ is served: document 01, "Starting", the feature word and the turns.

pub const QUEUES: usize = 16;

/// For each id the class of the SQ if it is a candidate, else nothing.
pub type Candidates = [Option<u64>; QUEUES];

/// How many more starts the holder of a turn may have.
#[derive(Clone, Copy, PartialEq)]
enum Remainder {
    Starts(u64),
    NoLimit,
}

impl Remainder {
    /// As a look has it: one without limit is the largest number.
    fn number(self) -> u64 {
        match self {
            Remainder::Starts(left) => left,
            Remainder::NoLimit => u64::MAX,
        }
    }
}

/// "A group has a turn holder and a remainder, at first holder 15, remainder 0."
#[derive(Clone, Copy, PartialEq)]
struct Turn {
    holder: usize,
    remainder: Remainder,
}

impl Turn {
    fn first() -> Turn {
        Turn { holder: 15, remainder: Remainder::Starts(0) }
    }

    /// Serves one of the group's members, at least one of which there must be.
    fn serve(&mut self, member: impl Fn(usize) -> bool, full: Remainder) -> Option<usize> {
        // "If the holder is a candidate with remainder above 0, it is served."
        if !member(self.holder) || self.remainder == Remainder::Starts(0) {
            // "Otherwise the next candidate in rising id order after the holder, wrapping,
            // the holder last, takes the turn with a full remainder and is served."
            let after = (1..=QUEUES).map(|step| (self.holder + step) % QUEUES);
            self.holder = after.into_iter().find(|id| member(*id))?;
            self.remainder = full;
        }
        // "Serving lowers the remainder by one; a remainder without limit stays so."
        if let Remainder::Starts(left) = self.remainder {
            self.remainder = Remainder::Starts(left - 1);
        }
        Some(self.holder)
    }
}

/// Mechanism, feature word and all that is remembered from one start to the next.
#[derive(Clone, Copy, PartialEq)]
pub struct Arbiter {
    mechanism: u64,
    word: u64,
    all: Turn,
    urgent: Turn,
    /// High, medium, low: classes 1, 2, 3.
    levels: [Turn; 3],
    credits: [u64; 3],
}

impl Arbiter {
    pub fn new(mechanism: u64, word: u64) -> Arbiter {
        let turn = Turn::first();
        let mut new = Arbiter {
            mechanism,
            word,
            all: turn,
            urgent: turn,
            levels: [turn; 3],
            credits: [0; 3],
        };
        // "Credits begin at the weights."
        new.credits = new.weights();
        new
    }

    pub fn mechanism(&self) -> u64 {
        self.mechanism
    }

    pub fn word(&self) -> u64 {
        self.word
    }

    /// The credits of the levels high, medium and low.
    pub fn credits(&self) -> [u64; 3] {
        self.credits
    }

    /// Who holds the turn of the SQs of this class, and whether some of it is left.
    pub fn holder(&self, class: u64) -> (usize, bool) {
        let turn = match (self.mechanism, class) {
            (0, _) => self.all,
            (_, 0) => self.urgent,
            (_, level) => self.levels[level as usize - 1],
        };
        (turn.holder, turn.remainder != Remainder::Starts(0))
    }

    /// All of it as numbers, in the order of the C header: mechanism, word, holder and remainder
    /// "of all SQs under mechanism 0, of the urgent ones under mechanism 1", then holder, remainder
    /// and credit of high, medium and low.
    pub fn numbers(&self) -> Vec<u64> {
        let group = if self.mechanism == 0 { self.all } else { self.urgent };
        let turn = |turn: Turn| [turn.holder as u64, turn.remainder.number()];
        let mut numbers = vec![self.mechanism, self.word];
        numbers.extend(turn(group));
        for (level, credit) in self.levels.into_iter().zip(self.credits) {
            numbers.extend(turn(level));
            numbers.push(credit);
        }
        numbers
    }

    /// "bits 2:0 give the burst as a power of two, 7 meaning no limit".
    fn burst(&self) -> Remainder {
        match self.word % 8 {
            7 => Remainder::NoLimit,
            power => Remainder::Starts(1 << power),
        }
    }

    /// "bits 15:8, 23:16 and 31:24 are low, medium and high weights less one".
    fn weights(&self) -> [u64; 3] {
        [24, 16, 8].map(|shift| (self.word >> shift) % 256 + 1)
    }

    /// The SQ to serve, with the arbiter as it is once that SQ has been served. The caller
    /// keeps the old one where the start is refused.
    pub fn choose(&self, candidates: &Candidates) -> Option<(usize, Arbiter)> {
        let mut next = *self;
        let served = if self.mechanism == 0 {
            // "Mechanism 0: all SQs form one group." "Class is stored but has no effect".
            next.all.serve(|id| candidates[id].is_some(), self.burst())
        } else {
            next.weighted(candidates)
        };
        Some((served?, next))
    }

    /// "Mechanism 1: SQ 0 first, without turns; then the urgent group (class 0); then levels".
    fn weighted(&mut self, candidates: &Candidates) -> Option<usize> {
        if candidates[0].is_some() {
            return Some(0);
        }
        let in_class = |class: u64| candidates.iter().any(|found| *found == Some(class));
        if in_class(0) {
            let full = self.burst();
            return self.urgent.serve(|id| candidates[id] == Some(0), full);
        }
        let waits = [in_class(1), in_class(2), in_class(3)];
        let level = self.level(waits)?;
        // "A level's full remainder is the smaller of burst and credit, so under burst 7 it is
        // the credit and is lowered; serving costs one credit."
        let credit = self.credits[level];
        let full = match self.burst() {
            Remainder::Starts(burst) => burst.min(credit),
            Remainder::NoLimit => credit,
        };
        self.credits[level] -= 1;
        let class = level as u64 + 1;
        self.levels[level].serve(|id| candidates[id] == Some(class), Remainder::Starts(full))
    }

    /// "The first level in that order with a candidate and credit is taken; if levels have
    /// candidates but none of these has credit, all three refill first."
    fn level(&mut self, waits: [bool; 3]) -> Option<usize> {
        if !waits.contains(&true) {
            return None;
        }
        let ready = |credits: &[u64; 3]| (0..3).find(|level| waits[*level] && credits[*level] > 0);
        if ready(&self.credits).is_none() {
            self.credits = self.weights();
        }
        ready(&self.credits)
    }
}
