//! The calls of a script, and the number that the archive takes for each.

/// What a call of a script asks for: the check, one step, or a run with a step limit.
#[derive(Clone, Copy, Debug, PartialEq, Eq, Hash)]
pub enum Request {
    Check,
    Step,
    Run(u32),
}

/// Which bytes a call of a script gets for the plan: the plan's own, or the other ones.
#[derive(Clone, Copy, Debug, PartialEq, Eq, Hash)]
pub enum Source {
    Plan,
    Other,
}

/// A call of a script: what it asks for, which bytes it gets for the plan, and how many of the words it is lent, all
/// where there are fewer.
#[derive(Clone, Copy, Debug, PartialEq, Eq, Hash)]
pub struct Call {
    pub request: Request,
    pub source: Source,
    pub lent: usize,
}

/// The parts of an item above its lowest 32 bits, the step limit of a run: two bits for the kind of call, one for the
/// source, and the others for the number of words lent.
const KIND_AT: u32 = 32;
const SOURCE_AT: u32 = 34;
const LENT_AT: u32 = 35;

/// The most words that an item can name. A call that is lent more does the same: no plan has so many blocks.
const MOST_LENT: u64 = u64::MAX >> LENT_AT;

impl Call {
    /// A call that gets the plan's own bytes and all the words.
    pub fn new(request: Request) -> Call {
        Call {
            request,
            source: Source::Plan,
            lent: usize::MAX,
        }
    }

    /// The call with the other bytes in place of the plan's.
    pub fn with_other(self) -> Call {
        Call {
            source: Source::Other,
            ..self
        }
    }

    /// The call with only the first `lent` words.
    pub fn lending(self, lent: usize) -> Call {
        Call { lent, ..self }
    }

    /// The call as an item of a script, a number of 64 bits.
    pub fn item(self) -> u64 {
        let (kind, limit) = match self.request {
            Request::Check => (0, 0),
            Request::Step => (1, 0),
            Request::Run(limit) => (2, u64::from(limit)),
        };
        let source = match self.source {
            Source::Plan => 0,
            Source::Other => 1,
        };
        let lent = (self.lent as u64).min(MOST_LENT);
        limit | kind << KIND_AT | source << SOURCE_AT | lent << LENT_AT
    }
}
