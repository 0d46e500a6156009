//! A ring and a tree as they are lent to the proved functions: field by field, truths as bytes.

use second::generate::Rng;
use second::ring::{self, Ring, Token};
use second::tree::{self, Tree};

/// Laid out as `struct muzserlik_ring`.
#[repr(C)]
#[derive(Clone, Debug, PartialEq, Eq)]
pub struct LentRing {
    pub n: usize,
    pub active: [u8; ring::MAX_NODES],
    pub color: [u8; ring::COLOR_BYTES],
    pub sent: [u32; ring::MAX_NODES],
    pub received: [u32; ring::MAX_NODES],
    pub pending: [u32; ring::MAX_NODES],
    pub pos: usize,
    pub q: i64,
    pub black: u8,
    pub closed: u8,
}

impl LentRing {
    /// How many bytes stand for truths.
    pub const FLAGS: usize = ring::MAX_NODES + 2;

    pub fn flags(&self) -> Vec<u8> {
        [&self.active[..], &[self.black, self.closed]].concat()
    }

    /// The k-th of them: the nodes', the token's, the run's.
    pub fn flag(&mut self, k: usize) -> &mut u8 {
        match k.checked_sub(ring::MAX_NODES) {
            None => &mut self.active[k],
            Some(0) => &mut self.black,
            Some(_) => &mut self.closed,
        }
    }

    pub fn of(ring: &Ring) -> Self {
        Self {
            n: ring.n,
            active: ring.active.map(u8::from),
            color: ring.color,
            sent: ring.sent,
            received: ring.received,
            pending: ring.pending,
            pos: ring.token.pos,
            q: ring.token.q,
            black: u8::from(ring.token.black),
            closed: u8::from(ring.closed),
        }
    }

    /// The ring that lies there; none where a byte is no truth.
    pub fn ring(&self) -> Option<Ring> {
        Some(Ring {
            n: self.n,
            active: truths(&self.active)?,
            color: self.color,
            sent: self.sent,
            received: self.received,
            pending: self.pending,
            token: Token {
                pos: self.pos,
                q: self.q,
                black: truth(self.black)?,
            },
            closed: truth(self.closed)?,
        })
    }

    /// Every byte of every field is anything.
    pub fn noise(random: &mut Rng) -> Self {
        Self {
            n: random.word() as usize,
            active: bytes(random),
            color: bytes(random),
            sent: numbers(random),
            received: numbers(random),
            pending: numbers(random),
            pos: random.word() as usize,
            q: random.word() as i64,
            black: random.word() as u8,
            closed: random.word() as u8,
        }
    }
}

#[derive(Clone, Debug, PartialEq, Eq)]
pub struct LentTree {
    pub n: usize,
    pub root: usize,
    pub active: [u8; tree::MAX_NODES],
    pub engager: [u8; tree::MAX_NODES],
    pub unacked: [u32; tree::MAX_NODES],
    pub transit: [u32; tree::MAX_NODES * tree::MAX_NODES],
    pub acks: [u32; tree::MAX_NODES],
    pub sends: u32,
    pub closed: u8,
}

impl LentTree {
    /// How many bytes stand for truths.
    pub const FLAGS: usize = tree::MAX_NODES + 1;

    pub fn flags(&self) -> Vec<u8> {
        [&self.active[..], &[self.closed]].concat()
    }

    /// The k-th of them: the nodes', the run's.
    pub fn flag(&mut self, k: usize) -> &mut u8 {
        match k.checked_sub(tree::MAX_NODES) {
            None => &mut self.active[k],
            Some(_) => &mut self.closed,
        }
    }

    pub fn of(tree: &Tree) -> Self {
        let mut transit = [0; tree::MAX_NODES * tree::MAX_NODES];
        transit.copy_from_slice(&tree.in_transit.concat());
        Self {
            n: tree.n,
            root: tree.root,
            active: tree.active.map(u8::from),
            engager: tree.engager.map(|e| u8::try_from(e).expect("one byte")),
            unacked: tree.unacked,
            transit,
            acks: tree.acks,
            sends: tree.sends,
            closed: u8::from(tree.closed),
        }
    }

    /// The tree that lies there; none where a byte is no truth.
    pub fn tree(&self) -> Option<Tree> {
        let mut in_transit = [[0; tree::MAX_NODES]; tree::MAX_NODES];
        for (row, lent) in in_transit
            .iter_mut()
            .zip(self.transit.chunks(tree::MAX_NODES))
        {
            row.copy_from_slice(lent);
        }
        Some(Tree {
            n: self.n,
            root: self.root,
            active: truths(&self.active)?,
            engager: self.engager.map(usize::from),
            unacked: self.unacked,
            in_transit,
            acks: self.acks,
            sends: self.sends,
            closed: truth(self.closed)?,
        })
    }

    /// Every byte of every field is anything.
    pub fn noise(random: &mut Rng) -> Self {
        Self {
            n: random.word() as usize,
            root: random.word() as usize,
            active: bytes(random),
            engager: bytes(random),
            unacked: numbers(random),
            transit: numbers(random),
            acks: numbers(random),
            sends: random.word() as u32,
            closed: random.word() as u8,
        }
    }
}

fn truth(byte: u8) -> Option<bool> {
    match byte {
        0 => Some(false),
        1 => Some(true),
        _ => None,
    }
}

fn truths<const K: usize>(bytes: &[u8; K]) -> Option<[bool; K]> {
    let mut truths = [false; K];
    for (place, &byte) in truths.iter_mut().zip(bytes) {
        *place = truth(byte)?;
    }
    Some(truths)
}

pub fn bytes<const K: usize>(random: &mut Rng) -> [u8; K] {
    [(); K].map(|()| random.word() as u8)
}

fn numbers<const K: usize>(random: &mut Rng) -> [u32; K] {
    [(); K].map(|()| random.word() as u32)
}
