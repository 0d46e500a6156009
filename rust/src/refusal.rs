//! The refusals: paper, "Where a request is turned back", and requests. They are named as in crates/refusal.

/// Why a request is refused, with the number of the paper's table.
#[derive(Clone, Copy, Debug, PartialEq, Eq)]
pub enum Refusal {
    /// Start or tree text: the number of nodes is out of range.
    NodeCount = 1,
    /// Start: not one flag byte for each node, or one above 3.
    StartFlags = 2,
    /// A state handed in is not sound.
    Unsound = 3,
    /// The run is closed.
    Closed = 4,
    /// The kind of step is outside 1 to 6.
    UnknownKind = 5,
    /// A node number that is used is N or more.
    UnknownNode = 6,
    /// The rule's condition fails.
    RuleFails = 8,
    /// 1,000,000 sends of the run were accepted already; in a table each update has its own run.
    SendLimit = 9,
    /// A log line or a tree text is not one of the forms.
    NotAForm = 10,
    /// The driver's move limit is above 1,000.
    MoveLimit = 11,
    /// The lent buffer is shorter than the tree's text.
    ShortBuffer = 12,
    /// An update's number is above 7, or a step names one that is not started.
    UnknownUpdate = 13,
    /// A panel's take has a job word outside 1 to 4.
    JobWord = 14,
    /// A close that passes the announce test, of a panel whose marks do not all agree.
    UnequalMarks = 15,
}

impl Refusal {
    /// The number of no refusal: before request Q-4 a send to oneself was refused with it.
    pub const RETIRED: u32 = 7;

    /// In the order of their numbers.
    pub const ALL: [Refusal; 14] = [
        Refusal::NodeCount,
        Refusal::StartFlags,
        Refusal::Unsound,
        Refusal::Closed,
        Refusal::UnknownKind,
        Refusal::UnknownNode,
        Refusal::RuleFails,
        Refusal::SendLimit,
        Refusal::NotAForm,
        Refusal::MoveLimit,
        Refusal::ShortBuffer,
        Refusal::UnknownUpdate,
        Refusal::JobWord,
        Refusal::UnequalMarks,
    ];

    /// Those of the packing station alone, of which a log knows nothing.
    pub const OF_STATION: [Refusal; 2] = [Refusal::JobWord, Refusal::UnequalMarks];

    /// The number in the paper's table.
    pub fn number(self) -> u32 {
        self as u32
    }
}

/// The rule's condition, or refusal 8.
pub(crate) fn require(condition: bool) -> Result<(), Refusal> {
    if condition {
        Ok(())
    } else {
        Err(Refusal::RuleFails)
    }
}
