//! The proved functions that other languages call, each behind a safe one. What is lent to be read only is lent by
//! pointers that may be written through, so that a write would be seen.

use crate::lent::{LentRing, LentTree};
use second::request::Request;

extern "C" {
    fn muzserlik_ring_start_fields(
        nodes: usize,
        flags: *const u8,
        length: usize,
        n: *mut usize,
        active: *mut u8,
        color: *mut u8,
        sent: *mut u32,
        received: *mut u32,
        pending: *mut u32,
        pos: *mut usize,
        q: *mut i64,
        black: *mut u8,
        closed: *mut u8,
    ) -> u8;

    fn muzserlik_ring_step_fields(
        n: usize,
        active: *mut u8,
        color: *mut u8,
        sent: *mut u32,
        received: *mut u32,
        pending: *mut u32,
        pos: *mut usize,
        q: *mut i64,
        black: *mut u8,
        closed: *mut u8,
        kind: usize,
        i: usize,
        j: usize,
    ) -> u8;

    fn muzserlik_ring_is_sound_fields(
        n: usize,
        active: *const u8,
        color: *const u8,
        sent: *const u32,
        received: *const u32,
        pending: *const u32,
        pos: usize,
        q: i64,
        black: u8,
        closed: u8,
    ) -> u8;

    fn muzserlik_ring_drive_fields(
        n: usize,
        active: *const u8,
        color: *mut u8,
        sent: *const u32,
        received: *const u32,
        pending: *const u32,
        pos: *mut usize,
        q: *mut i64,
        black: *mut u8,
        closed: u8,
        limit: usize,
        moves: *mut u32,
    ) -> u8;

    fn muzserlik_tree_start_fields(
        nodes: usize,
        at: usize,
        n: *mut usize,
        root: *mut usize,
        active: *mut u8,
        engager: *mut u8,
        unacked: *mut u32,
        transit: *mut u32,
        acks: *mut u32,
        sends: *mut u32,
        closed: *mut u8,
    ) -> u8;

    fn muzserlik_tree_step_fields(
        n: usize,
        root: usize,
        active: *mut u8,
        engager: *mut u8,
        unacked: *mut u32,
        transit: *mut u32,
        acks: *mut u32,
        sends: *mut u32,
        closed: *mut u8,
        kind: usize,
        i: usize,
        j: usize,
    ) -> u8;

    fn muzserlik_tree_is_sound_fields(
        n: usize,
        root: usize,
        active: *const u8,
        engager: *const u8,
        unacked: *const u32,
        transit: *const u32,
        acks: *const u32,
        sends: u32,
        closed: u8,
    ) -> u8;

    fn muzserlik_tree_write_fields(
        n: usize,
        root: usize,
        active: *const u8,
        engager: *const u8,
        unacked: *const u32,
        transit: *const u32,
        acks: *const u32,
        sends: u32,
        closed: u8,
        buffer: *mut u8,
        room: usize,
        length: *mut usize,
    ) -> u8;

    fn muzserlik_tree_read_fields(
        n: usize,
        text: *const u8,
        length: usize,
        engager: *mut u8,
        root: *mut usize,
    ) -> u8;
}

/// The number of a start's answer, 0 where it is accepted; the fields, which are not read, are then those of the first state.
pub fn ring_start(nodes: usize, flags: &mut [u8], ring: &mut LentRing) -> u8 {
    // The arrays are as long as the proved function's own, and each is lent once; so in every call below.
    unsafe {
        muzserlik_ring_start_fields(
            nodes,
            flags.as_mut_ptr(),
            flags.len(),
            &mut ring.n,
            ring.active.as_mut_ptr(),
            ring.color.as_mut_ptr(),
            ring.sent.as_mut_ptr(),
            ring.received.as_mut_ptr(),
            ring.pending.as_mut_ptr(),
            &mut ring.pos,
            &mut ring.q,
            &mut ring.black,
            &mut ring.closed,
        )
    }
}

/// The number of a step's answer, 0 where it is accepted; the fields are then those of the next state.
pub fn step(ring: &mut LentRing, request: Request) -> u8 {
    unsafe {
        muzserlik_ring_step_fields(
            ring.n,
            ring.active.as_mut_ptr(),
            ring.color.as_mut_ptr(),
            ring.sent.as_mut_ptr(),
            ring.received.as_mut_ptr(),
            ring.pending.as_mut_ptr(),
            &mut ring.pos,
            &mut ring.q,
            &mut ring.black,
            &mut ring.closed,
            request.kind,
            request.i,
            request.j,
        )
    }
}

/// 1 where the ring is sound, else 0.
pub fn is_sound(ring: &mut LentRing) -> u8 {
    unsafe {
        muzserlik_ring_is_sound_fields(
            ring.n,
            ring.active.as_mut_ptr(),
            ring.color.as_mut_ptr(),
            ring.sent.as_mut_ptr(),
            ring.received.as_mut_ptr(),
            ring.pending.as_mut_ptr(),
            ring.pos,
            ring.q,
            ring.black,
            ring.closed,
        )
    }
}

/// The number of the driver's reason (100 conclusive, 101 waiting, 102 spent, else a refusal); `moves` is then how many it made.
pub fn drive(ring: &mut LentRing, limit: usize, moves: &mut u32) -> u8 {
    unsafe {
        muzserlik_ring_drive_fields(
            ring.n,
            ring.active.as_mut_ptr(),
            ring.color.as_mut_ptr(),
            ring.sent.as_mut_ptr(),
            ring.received.as_mut_ptr(),
            ring.pending.as_mut_ptr(),
            &mut ring.pos,
            &mut ring.q,
            &mut ring.black,
            ring.closed,
            limit,
            moves,
        )
    }
}

/// The number of a start's answer, 0 where it is accepted; the fields, which are not read, are then those of the first state.
pub fn tree_start(nodes: usize, at: usize, tree: &mut LentTree) -> u8 {
    unsafe {
        muzserlik_tree_start_fields(
            nodes,
            at,
            &mut tree.n,
            &mut tree.root,
            tree.active.as_mut_ptr(),
            tree.engager.as_mut_ptr(),
            tree.unacked.as_mut_ptr(),
            tree.transit.as_mut_ptr(),
            tree.acks.as_mut_ptr(),
            &mut tree.sends,
            &mut tree.closed,
        )
    }
}

/// The number of a step's answer, 0 where it is accepted; the fields are then those of the next state.
pub fn tree_step(tree: &mut LentTree, request: Request) -> u8 {
    unsafe {
        muzserlik_tree_step_fields(
            tree.n,
            tree.root,
            tree.active.as_mut_ptr(),
            tree.engager.as_mut_ptr(),
            tree.unacked.as_mut_ptr(),
            tree.transit.as_mut_ptr(),
            tree.acks.as_mut_ptr(),
            &mut tree.sends,
            &mut tree.closed,
            request.kind,
            request.i,
            request.j,
        )
    }
}

/// 1 where the tree is sound, else 0.
pub fn tree_is_sound(tree: &mut LentTree) -> u8 {
    unsafe {
        muzserlik_tree_is_sound_fields(
            tree.n,
            tree.root,
            tree.active.as_mut_ptr(),
            tree.engager.as_mut_ptr(),
            tree.unacked.as_mut_ptr(),
            tree.transit.as_mut_ptr(),
            tree.acks.as_mut_ptr(),
            tree.sends,
            tree.closed,
        )
    }
}

/// The number of the writer's answer, 0 where the text is written; `length` is then how long it is.
pub fn write(tree: &mut LentTree, buffer: &mut [u8], length: &mut usize) -> u8 {
    unsafe {
        muzserlik_tree_write_fields(
            tree.n,
            tree.root,
            tree.active.as_mut_ptr(),
            tree.engager.as_mut_ptr(),
            tree.unacked.as_mut_ptr(),
            tree.transit.as_mut_ptr(),
            tree.acks.as_mut_ptr(),
            tree.sends,
            tree.closed,
            buffer.as_mut_ptr(),
            buffer.len(),
            length,
        )
    }
}

/// The number of the reader's answer, 0 where the text is a tree's; its engagers and root are then given.
pub fn read(n: usize, text: &mut [u8], engager: &mut [u8; 16], root: &mut usize) -> u8 {
    unsafe {
        muzserlik_tree_read_fields(n, text.as_mut_ptr(), text.len(), engager.as_mut_ptr(), root)
    }
}
