//! Requests by calls, guided by the state: any kind, node numbers and numbers of messages of any size.

use second::generate::{Model, Rng};
use second::request::{Request, ANNOUNCE, TAKE};
use second::ring::TAKE_LIMIT;

/// Kinds outside 1 to 6, some of which would be within if they were cut short.
const NO_KINDS: [usize; 10] = [
    0,
    7,
    255,
    256,
    257,
    262,
    1 << 16 | 1,
    1 << 32,
    1 << 32 | 1,
    usize::MAX,
];

/// A run from a start: busy, winding down, and some requests after its announcement.
pub struct Course {
    busy: usize,
    after: usize,
}

impl Course {
    pub fn new(random: &mut Rng) -> Self {
        Self {
            busy: 10 + random.below(150),
            after: 1 + random.below(8),
        }
    }

    /// Of an update, which shares the calls of its table with others: not as long, so that it is announced.
    pub fn of_update(random: &mut Rng) -> Self {
        let busy = 10 + random.below(60);
        Self {
            busy,
            ..Self::new(random)
        }
    }

    /// The next request; none once the run is over. A busy run is not terminated.
    pub fn next(&mut self, state: &dyn Model, closed: bool, random: &mut Rng) -> Option<Request> {
        if closed {
            self.after = self.after.checked_sub(1)?;
            return Some(request(state, false, random));
        }
        self.busy = self.busy.saturating_sub(1);
        let busy = self.busy > 0;
        loop {
            let request = request(state, !busy, random);
            if !(busy && state.terminates(request)) {
                return Some(request);
            }
        }
    }
}

/// Mostly one that the rules allow, while winding down no send of these; the others are
/// mostly refused. Numbers that a kind does not use are noise.
pub fn request(state: &dyn Model, winding_down: bool, random: &mut Rng) -> Request {
    let announce = Request::new(ANNOUNCE, 0, 0);
    let request = match random.below(100) {
        0..=39 => state.allowed(random, winding_down).unwrap_or(announce),
        40..=74 => match state.allowed(random, winding_down) {
            Some(request) => state.of_several(random, request),
            None => announce,
        },
        75..=78 => Request::new(random.pick(&NO_KINDS), random.below(4), random.below(4)),
        79..=83 => far(state, random),
        84..=86 => wide_take(state, random),
        _ => state.tempting(random),
    };
    let used = match request.kind {
        kind @ 1..=6 => state.words()[kind - 1].numbers(),
        _ => 2,
    };
    Request {
        i: if used < 1 { word(random) } else { request.i },
        j: if used < 2 { word(random) } else { request.j },
        ..request
    }
}

fn word(random: &mut Rng) -> usize {
    random.word() as usize
}

/// A node number of N or more, which may be below if it were cut short.
fn far(state: &dyn Model, random: &mut Rng) -> Request {
    let n = state.n();
    let request = state.beyond(random);
    let near = random.below(n);
    let far = random.pick(&[
        n,
        n + 1,
        1 << 8 | near,
        1 << 16 | near,
        1 << 32 | near,
        usize::MAX,
    ]);
    let further = |i: usize| if i < n { i } else { far };
    Request::new(request.kind, further(request.i), further(request.j))
}

/// A take; of a ring, with a number of messages that may be allowed if it were cut short.
fn wide_take(state: &dyn Model, random: &mut Rng) -> Request {
    let take = state.any_take(random);
    if !state.words()[TAKE - 1].counts {
        return take;
    }
    let near = 1 + random.below(3);
    let wide = [
        0,
        1 << 8 | near,
        1 << 16 | near,
        1 << 32,
        1 << 32 | near,
        1 << 32 | near,
        1 << 32 | TAKE_LIMIT,
        1 << 63 | near,
        usize::MAX,
    ];
    Request::new(TAKE, take.i, random.pick(&wide))
}

/// Takes by a node of each number of messages at and about those on their way and the limit; some would be allowed if they were cut short.
pub fn takes(i: usize, pending: u32) -> impl Iterator<Item = Request> {
    let pending = pending as usize;
    let near = [0, 1, 2, pending.saturating_sub(1), pending, pending + 1];
    let limit = [TAKE_LIMIT - 1, TAKE_LIMIT, TAKE_LIMIT + 1];
    let wide = [1 << 8 | 1, 1 << 16 | 1, 1 << 32, 1 << 32 | 1, usize::MAX];
    let all = near.into_iter().chain(limit).chain(wide);
    all.map(move |messages| Request::new(TAKE, i, messages))
}

/// How many messages are on their way to one node: few mostly, or about as many as one take may be of, or more.
pub fn waiting(random: &mut Rng) -> u32 {
    let limit = TAKE_LIMIT as u32;
    match random.below(4) {
        0 => limit - 1 + random.below(4) as u32,
        1 => limit + random.below(3 * TAKE_LIMIT) as u32,
        _ => random.below(5) as u32,
    }
}

/// Numbers of nodes outside 1 to `most`, some of which would be within if they were cut short.
pub fn no_counts(most: usize) -> [usize; 6] {
    let cut = [1 << 8 | 1, 1 << 16 | 1, 1 << 32 | 1];
    [0, most + 1, cut[0], cut[1], cut[2], usize::MAX]
}
