//! What is asked of the comparisons, so that none passes without having met it. docs/PROMISES.md tells it.

use crate::{ring, tree};
use std::ops::RangeInclusive;

/// Sizes beyond those of most logs.
pub const LARGE_RINGS: RangeInclusive<usize> = 9..=ring::MAX_NODES;
pub const LARGE_TREES: RangeInclusive<usize> = 6..=tree::MAX_NODES;

/// Steps of rings or trees of some sizes.
pub struct Asked {
    pub nodes: RangeInclusive<usize>,
    pub accepted: usize,
    pub refused: usize,
}

const fn asked(nodes: RangeInclusive<usize>, accepted: usize, refused: usize) -> Asked {
    Asked {
        nodes,
        accepted,
        refused,
    }
}

/// Takes of rings, by their numbers of messages.
pub struct TakesAsked {
    /// Of several messages, accepted.
    pub several: usize,
    /// Of all of several that are on their way, and of some, accepted; of none, and of one more than are on their way, refused.
    pub reasons: usize,
    /// Of as many as may be, accepted, and of one more, refused.
    pub limit: usize,
    /// Refused, not if the number is cut to each of these numbers of bits.
    pub cut: usize,
    pub widths: &'static [u32],
}

/// Messages that a node sends to itself.
pub struct OwnAsked {
    /// Sends accepted; refused with 8, since the node is passive; refused with 9, which no log meets.
    pub sent: usize,
    pub passive: usize,
    pub limit: Option<usize>,
    /// A tree's takes accepted, each of which acknowledges to the taker.
    pub taken: Option<usize>,
    /// On one node alone: sends, takes, and a ring's probes with a message on its way or a tree's acks, accepted.
    pub alone: Option<usize>,
    /// Announcements there after a send.
    pub announced: Option<usize>,
}

/// Starts of rings without lists.
pub struct UnlistedAsked {
    /// Accepted in first lines, and later; as many each with both lists empty.
    pub first: usize,
    pub later: Option<usize>,
    /// Accepted on large rings.
    pub large: usize,
    pub announced: usize,
    /// Logs whose answers are others by each wrong reading of which nodes are active, and of their color.
    pub activity: usize,
    pub color: usize,
}

/// What one detector's lines after the first have to meet, on all sizes or on the large ones.
pub struct Met {
    /// Each kind of step but announce, accepted.
    pub kind: usize,
    pub announced: usize,
    /// Each refusal that a step can meet.
    pub refusal: usize,
    /// Steps refused with 6 whose numbers are nodes if they are cut to each of some widths.
    pub cut: usize,
    /// What one condition alone decides: what a log meets once at most, what is seldom, what is not.
    pub once: usize,
    pub seldom: usize,
    pub often: usize,
}

/// Of the logs by seed.
pub mod logs {
    use super::{
        asked, ring, tree, Asked, Met, OwnAsked, TakesAsked, UnlistedAsked, LARGE_RINGS,
        LARGE_TREES,
    };

    pub const ON_ALL: Met = Met {
        kind: 10_000,
        announced: 200,
        refusal: 1_000,
        cut: 500,
        once: 50,
        seldom: 100,
        often: 1_000,
    };
    pub const ON_LARGE: Met = Met {
        kind: 1_000,
        announced: 90,
        refusal: 600,
        cut: 250,
        once: 15,
        seldom: 30,
        often: 500,
    };
    pub const TAKES: TakesAsked = TakesAsked {
        several: 4_000,
        reasons: 500,
        limit: 40,
        cut: 100,
        widths: &WIDTHS,
    };
    pub const TAKES_ON_LARGE: TakesAsked = TakesAsked {
        several: 1_000,
        reasons: 100,
        limit: 15,
        cut: 30,
        widths: &WIDTHS,
    };
    pub const OWN_ON_RINGS: OwnAsked = OwnAsked {
        sent: 10_000,
        passive: 3_500,
        limit: None,
        taken: None,
        alone: Some(500),
        announced: Some(30),
    };
    pub const OWN_ON_LARGE_RINGS: OwnAsked = OwnAsked {
        sent: 5_000,
        passive: 2_000,
        limit: None,
        taken: None,
        alone: None,
        announced: None,
    };
    pub const OWN_ON_TREES: OwnAsked = OwnAsked {
        sent: 5_000,
        passive: 4_500,
        limit: None,
        taken: Some(5_000),
        alone: Some(1_000),
        announced: Some(20),
    };
    pub const OWN_ON_LARGE_TREES: OwnAsked = OwnAsked {
        sent: 2_000,
        passive: 2_500,
        limit: None,
        taken: Some(2_000),
        alone: None,
        announced: None,
    };
    pub const UNLISTED: UnlistedAsked = UnlistedAsked {
        first: 100,
        later: None,
        large: 50,
        announced: 100,
        activity: 100,
        color: 30,
    };
    /// Each spelling of a take.
    pub const SPELLINGS: usize = 50;
    pub const ON_RINGS: [Asked; 4] = [
        asked(1..=1, 6_000, 1_000),
        asked(2..=8, 100_000, 20_000),
        asked(LARGE_RINGS, 150_000, 20_000),
        asked(ring::MAX_NODES..=ring::MAX_NODES, 60_000, 10_000),
    ];
    pub const ON_TREES: [Asked; 4] = [
        asked(1..=1, 4_000, 1_400),
        asked(2..=5, 50_000, 20_000),
        asked(LARGE_TREES, 70_000, 20_000),
        asked(tree::MAX_NODES..=tree::MAX_NODES, 25_000, 8_000),
    ];
    /// Different sizes.
    pub const RING_SIZES: usize = 40;
    pub const TREE_SIZES: usize = 12;
    /// Passes of a white token by black nodes of each byte of colors.
    pub const BLACKENED: usize = 25;
    /// Bits to which a number may be cut by mistake; the greatest of a log is 99,999.
    pub const WIDTHS: [u32; 2] = [8, 16];
    pub const ANNOUNCED_IN_ALL: usize = 500;
    /// Each refusal of a first line, and each cause of refusal 10.
    pub const STARTS: usize = 50;
    pub const CAUSES: usize = 10;
    /// Of the lines after a first: one in so many is accepted at least, one in so many no form at most.
    pub const ACCEPTED_PART: usize = 2;
    pub const NO_FORM_PART: usize = 10;
}

/// Of the logs of updates.
pub mod updates {
    use super::{asked, logs, Asked, OwnAsked, TakesAsked, UnlistedAsked, LARGE_RINGS};

    pub const UNKNOWN_UPDATE: usize = 13;
    pub const NODE_COUNT: usize = 1;
    /// The refusals of first lines, of starts after the first line, and of steps that are forms. No other can come: a step
    /// is not refused with 3, 5 or 9 for the reasons that hold of bare logs.
    pub const OF_FIRST: [usize; 4] = [1, 6, 10, 13];
    pub const OF_START: [usize; 3] = [1, 6, 13];
    pub const OF_STEP: [usize; 4] = [4, 6, 8, 13];
    /// Logs, and accepted lines of them: one in so many at least; one in so many no form at most.
    pub const LOGS: usize = 500;
    pub const LINES: usize = 200_000;
    pub const ACCEPTED_PART: usize = 2;
    pub const NO_FORM_PART: usize = 10;
    /// One line in so many is of another update than the line before.
    pub const CHANGES_PART: usize = 2;
    pub const STEPS_OF_EACH: usize = 10_000;
    pub const ANNOUNCED_OF_EACH: usize = 500;
    pub const ANNOUNCED: usize = 5_000;
    pub const ANNOUNCED_ON_LARGE: usize = 1_000;
    /// Fresh starts of an open update, and of an announced one.
    pub const FRESH: usize = 2_000;
    /// Each refusal of a first line, of a start, of a step.
    pub const FIRST_LINES: usize = 50;
    pub const STARTS: usize = 500;
    pub const STEPS: usize = 1_000;
    /// Each cause of a refusal.
    pub const CAUSES: usize = 100;
    pub const TAKES: TakesAsked = TakesAsked {
        several: 4_000,
        reasons: 500,
        limit: 40,
        cut: 100,
        widths: &logs::WIDTHS,
    };
    pub const OWN: OwnAsked = OwnAsked {
        sent: 15_000,
        passive: 4_500,
        limit: None,
        taken: None,
        alone: Some(1_500),
        announced: Some(300),
    };
    pub const UNLISTED: UnlistedAsked = UnlistedAsked {
        first: 100,
        later: Some(3_000),
        large: 1_000,
        announced: 1_200,
        activity: 800,
        color: 600,
    };
    /// Each spelling of a take.
    pub const SPELLINGS: usize = 50;
    /// Lines of the greatest length, and of a byte more.
    pub const LENGTHS: usize = 30;
    pub const ON_LARGE: Asked = asked(LARGE_RINGS, 100_000, 20_000);
    pub const SIZES: usize = 40;
}

/// Of the calls on rings and on trees.
pub mod calls {
    use super::{asked, ring, tree, Asked, OwnAsked, TakesAsked, LARGE_RINGS, LARGE_TREES};

    /// Starts, and steps of runs.
    pub const STARTS: usize = 20_000;
    pub const STEPS: usize = 600_000;
    /// Of the steps of runs one in so many is accepted at least.
    pub const ACCEPTED_PART: usize = 2;
    /// Each answer.
    pub const ANSWER: usize = 1_000;
    pub const ANSWER_ON_LARGE: usize = 400;
    pub const ANNOUNCED: usize = 500;
    /// Each field broken alone.
    pub const BROKEN: usize = 200;
    pub const TAKES: TakesAsked = TakesAsked {
        several: 5_000,
        reasons: 1_000,
        limit: 100,
        cut: 1_000,
        widths: &[8, 16, 32],
    };
    pub const OWN_ON_RINGS: OwnAsked = OwnAsked {
        sent: 6_000,
        passive: 8_000,
        limit: Some(2_000),
        taken: None,
        alone: Some(2_000),
        announced: Some(150),
    };
    pub const OWN_ON_TREES: OwnAsked = OwnAsked {
        sent: 10_000,
        passive: 8_000,
        limit: Some(3_500),
        taken: Some(10_000),
        alone: Some(7_500),
        announced: Some(400),
    };
    pub const ON_RINGS: [Asked; 4] = [
        asked(1..=1, 10_000, 7_000),
        asked(2..=8, 70_000, 40_000),
        asked(LARGE_RINGS, 120_000, 45_000),
        asked(ring::MAX_NODES..=ring::MAX_NODES, 50_000, 18_000),
    ];
    pub const ON_TREES: [Asked; 4] = [
        asked(1..=1, 25_000, 15_000),
        asked(2..=5, 70_000, 45_000),
        asked(LARGE_TREES, 100_000, 60_000),
        asked(tree::MAX_NODES..=tree::MAX_NODES, 35_000, 20_000),
    ];
    /// Bytes above 1 at each place for a truth, each call answering as of what is not sound.
    pub const NO_TRUTH: usize = 10_000;
    /// Bytes 0 and 1 there, told as sound.
    pub const TRUTH: usize = 500;
}

/// Of the calls on tables of updates.
pub mod tables {
    use super::{asked, ring, Asked, OwnAsked, TakesAsked, LARGE_RINGS};

    /// Steps of runs.
    pub const STEPS: usize = 300_000;
    pub const ANNOUNCED: usize = 1_000;
    /// Fresh starts of open updates, and of announced ones.
    pub const FRESH: usize = 500;
    /// Tables told as sound with one to all eight updates at their limits of sends; with none, but as many sends together as one may have, one more
    /// and still more.
    pub const FULL: usize = 50;
    /// Tables told as not sound since one update has one send more than may be, beside others of each sort.
    pub const OVER: usize = 500;
    /// Sends accepted while the updates have as many sends together as one may have, one more, and still more: 9 before request Q-5.
    pub const TOGETHER: usize = 300;
    /// Sends accepted next after a 9 to another update, and refused with 9 next after an accepted one of another.
    pub const BESIDE: usize = 300;
    /// Fresh starts after a 9 that a send of the update followed.
    pub const AFRESH: usize = 2_000;
    pub const TAKES: TakesAsked = TakesAsked {
        several: 2_000,
        reasons: 500,
        limit: 50,
        cut: 500,
        widths: &[8, 16, 32],
    };
    pub const OWN: OwnAsked = OwnAsked {
        sent: 2_500,
        passive: 3_500,
        limit: Some(350),
        taken: None,
        alone: Some(1_000),
        announced: Some(80),
    };
    /// Accepted calls of each update.
    pub const OF_EACH: usize = 5_000;
    /// Different sizes.
    pub const SIZES: usize = 48;
    pub const ON_TABLES: [Asked; 4] = [
        asked(1..=1, 5_000, 3_000),
        asked(2..=8, 30_000, 10_000),
        asked(LARGE_RINGS, 30_000, 10_000),
        asked(ring::MAX_NODES..=ring::MAX_NODES, 10_000, 3_000),
    ];
}

/// Of the calls on panels.
pub mod panels {
    use super::{asked, ring, Asked, OwnAsked, LARGE_RINGS};

    /// Enters into noise, and steps of runs.
    pub const ENTERS: usize = 10_000;
    pub const STEPS: usize = 300_000;
    /// Runs closed with each word recorded.
    pub const CLOSED: usize = 300;
    pub const CLOSED_ON_LARGE: usize = 50;
    /// Closes refused with 15, by how the marks differ.
    pub const UNEQUAL: usize = 250;
    /// Panels made with marks of each sort: closed, or refused with 15.
    pub const MADE: usize = 400;
    /// Takes refused with 14, by their words; some are a job's if they are cut to so many bits.
    pub const WORDS: usize = 1_000;
    pub const WIDTHS: [u32; 3] = [8, 16, 32];
    /// Calls to which two refusals apply, by these; the first is told.
    pub const ORDER: usize = 500;
    pub const BOTH: [[u8; 2]; 7] = [[3, 1], [3, 14], [4, 5], [4, 14], [6, 14], [14, 8], [8, 15]];
    /// Starts accepted of released panels, after a 15 and of panels that run; refused for another N, in range and not.
    pub const STARTED: usize = 1_000;
    /// Panels that are not sound by each damage.
    pub const DAMAGED: usize = 500;
    /// Calls on which each wrong reading differs.
    pub const MISREAD: usize = 350;
    /// Bytes that are no mark, record or truth, at each place; marks, records and truths told as sound.
    pub const NO_MARK: usize = 2_000;
    pub const WHOLE: usize = 1_000;
    pub const OWN: OwnAsked = OwnAsked {
        sent: 3_500,
        passive: 4_000,
        limit: Some(350),
        taken: None,
        alone: Some(1_700),
        announced: Some(250),
    };
    pub const ON_PANELS: [Asked; 4] = [
        asked(1..=1, 8_000, 8_000),
        asked(2..=8, 30_000, 25_000),
        asked(LARGE_RINGS, 100_000, 35_000),
        asked(ring::MAX_NODES..=ring::MAX_NODES, 20_000, 6_000),
    ];
}

/// Of two tables that agree on one update.
pub mod independence {
    pub const PAIRS: usize = 500;
    /// Each answer to that update, the same in both.
    pub const ANSWER: usize = 200;
    /// 9s to it, the others' sends being other numbers.
    pub const NINES: usize = 1_000;
    /// Sends of it that are accepted, the updates having as many sends together as one may have, or more, in one of the tables alone.
    pub const PARTED: usize = 500;
}

/// Of the calls on rings that are made to be sound, or not to be by little.
pub mod soundness {
    use super::ring::MAX_NODES;

    /// Numbers of nodes, each with the token at every node: the least and the greatest, and those about the beginning of the last color byte.
    pub const SIZES: [usize; 6] = [1, 2, MAX_NODES - 8, MAX_NODES - 7, MAX_NODES - 1, MAX_NODES];
    /// On each of them: sound rings of each sort, and near misses and wild totals of each kind that there is.
    pub const SOUND: usize = 100;
    pub const NEAR_MISSES: usize = 100;
    /// On each of them: each field broken alone, and each two together, not sound.
    pub const BROKEN: usize = 300;
    /// Steps refused with 3.
    pub const REFUSED: usize = 100_000;
    /// Rings told as sound, and as not sound, in the place of each update of a table.
    pub const OF_EACH: usize = 10_000;
}

/// Of the calls on trees that hold messages of nodes to themselves.
pub mod own_trees {
    /// Sound ones of each sort and near misses of each kind: in all, of one node where there are such, and of large trees.
    pub const OF_EACH: usize = 6_000;
    pub const ON_ONE: usize = 1_000;
    pub const ON_LARGE: usize = 2_500;
}

/// The numbers that each call answers: each has to be met, and no other.
pub mod answers {
    pub const RING_START: [usize; 3] = [0, 1, 2];
    pub const RING_DRIVE: [usize; 6] = [3, 4, 11, 100, 101, 102];
    pub const TABLE_START: [usize; 4] = [0, 1, 2, 13];
    /// Of starts and steps of an update of a sound table whose N is fixed.
    pub const OF_UPDATE: [usize; 9] = [0, 1, 2, 4, 5, 6, 8, 9, 13];
    pub const TREE_START: [usize; 3] = [0, 1, 6];
    pub const TREE_WRITE: [usize; 3] = [0, 3, 12];
    pub const TREE_READ: [usize; 4] = [0, 1, 6, 10];
    /// The refusals that a step of a log can meet. The others cannot come: 1 and 2, since they are a start's; 3, since a run keeps its state sound;
    /// 5, since each word has a kind; 7, since it is retired; 9, since it needs 1,000,000 accepted sends of its run before it and a log has at most
    /// 999,999 lines after its first; 11 and 12, since a log has no driver and the text of the tree always has room; 14 and 15, since a log has no
    /// packing station.
    pub const OF_LOG: [usize; 4] = [4, 6, 8, 10];
    /// The refusals of a step on a sound state; beside these it answers 0, or 3 if the state is not sound.
    pub const OF_SOUND: [usize; 5] = [4, 5, 6, 8, 9];
    /// The refusals of a step on a sound table, which answers 3 if it is not sound.
    pub const OF_TABLE_STEP: [usize; 6] = [4, 5, 6, 8, 9, 13];
    /// Of an enter, and of a start of a sound panel; a start answers 3 too.
    pub const PANEL_ENTER: [usize; 3] = [0, 1, 2];
    pub const PANEL_START: [usize; 3] = [0, 1, 2];
    /// The refusals of a step on a sound panel, which answers 3 if it is not sound.
    pub const OF_PANEL_STEP: [usize; 7] = [4, 5, 6, 8, 9, 14, 15];
    /// No or yes.
    pub const IS_SOUND: [usize; 2] = [0, 1];
}

/// Of the texts of trees.
pub mod texts {
    pub const TREES: usize = 40_000;
    /// Changed texts of each that is written, beside the one with another number.
    pub const DAMAGED: usize = 5;
    /// Texts that are written and then read back.
    pub const WRITTEN: usize = 20_000;
    /// Of these, texts with a node of two digits.
    pub const TWO_DIGITS: usize = 2_500;
    /// Texts answered 6 for a number of so many digits or more, and as many answered 10 since it begins with a zero.
    pub const LONG_DIGITS: usize = 6;
    pub const LONG: usize = 4_000;
    /// Texts answered 6 for a number that is a node if it is cut to each of these numbers of bits.
    pub const CUT: usize = 500;
    pub const WIDTHS: [u32; 4] = [8, 16, 32, 64];
}
