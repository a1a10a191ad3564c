/// How parallel a tape was: what [`Engine::report`](crate::Engine::report) tells. Each accepted spawn, sync, read,
/// write and fold costs 1, returns and steals cost 0. `work` divided by `span` is how many cores the search can keep
/// busy, on average.
#[derive(Clone, Copy, Debug, PartialEq, Eq, Hash)]
pub struct Report {
    /// The sum of the costs: the time of one core.
    pub work: u64,
    /// Main's clock at its return: the time with as many cores as can be of use. Not 0, and at most the work.
    pub span: u64,
    /// Work divided by span, rounded down.
    pub quotient: u64,
    /// Work less quotient times span, below the span.
    pub remainder: u64,
}

impl Report {
    /// The words of a report, 64 bits each.
    pub const WORDS: usize = 4;

    /// The report of these words.
    pub const fn from_words([work, span, quotient, remainder]: [u64; Report::WORDS]) -> Report {
        Report { work, span, quotient, remainder }
    }
}
