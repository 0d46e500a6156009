/*
 * Muzserlik: a proved termination detector. A ring of up to 96 nodes by Safra's rules (EWD998), a table of eight updates on one such ring, a panel, which
 * is such a ring with two marks for each node and a record of its closing, a tree of up to 16 nodes by the rules of Dijkstra and Scholten.
 *
 * Link with libmuzserlik.a, which c/archive makes, on x86-64 Linux. Every function of the archive is proved to meet its contract; the contracts
 * are in crates/ring_c, crates/table_c, crates/panel_c and crates/tree_c. The inline functions of this header are tested only: they hand the fields of a
 * struct on, one by one, and put a pointer of their own where a length is 0.
 *
 * A call
 *   - is answered with a number: 0 if it is accepted, else the number of the first check that it fails (enum muzserlik_answer). The checks of a
 *     call are made in the order of their numbers, but of a table 3 and then 13 come first, of a panel's start 3, and those of its step are made in
 *     the order 3, 4, 5, 6, 14, 8, 15, 9; in reading, the first fault from the left decides. The driver answers with 100, 101 or 102, or with a
 *     refusal. Soundness is answered with 1 or 0;
 *   - that is refused leaves every byte that it was lent as it was;
 *   - judges whatever a struct holds: one that is not sound is refused with 3 (README, "Sound states", says which are). One that was filled or changed by
 *     hand may happen to be sound, and is then taken as it is: let only these calls change a struct;
 *   - keeps nothing: what it is lent, it is lent until it returns. There is no state but the structs, so calls on different structs may run
 *     at the same time in different threads, calls on the same struct may not.
 *
 * The caller sees to it that
 *   - the steps tell what the nodes do: SEND before a message leaves, and none leaves whose SEND is refused; TAKE as it is received, on a ring with
 *     the number of messages that are received at once, on a panel with the word of the one job; IDLE as a node becomes passive. An announcement
 *     and a close are proved right of the accepted steps, not of nodes that do something else;
 *   - a pointer points to as much memory as its type or the length beside it says, aligned as its type asks (a struct that is declared as one
 *     is), and is not null; with a length of 0 the inline functions take any pointer, also a null one;
 *   - what is written to overlaps nothing else of the same call: `moves`, or `buffer` and `length`, lie outside the struct and apart from each
 *     other; `flags` lie outside the struct that is started or entered; `engager` and `root` lie apart from each other and from the text. The fields of a
 *     struct do not overlap;
 *   - nobody else writes to what is lent before the call returns.
 * Where this is not so no call can tell, and nothing is promised.
 *
 * Nodes, kinds, counts and limits that are handed in are size_t, so that none is cut down on its way: a kind of 257 is an unknown kind, -1 is no
 * node, and a take of 2^32 + 1 messages is not one of 1. A struct may be copied by assignment. It has padding: memcmp does not compare two rings,
 * panels, trees or tables.
 *
 * The archive needs memcpy and memset, and nothing else; it has no data of its own that is written to, and takes no memory but the stack, less than
 * 32 KiB, a call on a table less than 80 KiB (measured). A step first walks the whole struct to see that it is sound. Header and archive are of one checkout: neither has a version.
 */
#ifndef MUZSERLIK_H
#define MUZSERLIK_H

#include <stddef.h>
#include <stdint.h>
#include <string.h>

#ifdef __cplusplus
static_assert(sizeof(size_t) == 8, "libmuzserlik.a is for x86-64");
extern "C" {
#else
_Static_assert(sizeof(size_t) == 8, "libmuzserlik.a is for x86-64");
#endif

enum {
    MUZSERLIK_RING_NODES = 96,
    MUZSERLIK_RING_COLOR_BYTES = 12,
    /* updates of a table */
    MUZSERLIK_UPDATES = 8,
    MUZSERLIK_TREE_NODES = 16,
    /* no engager */
    MUZSERLIK_TREE_NONE = 16,
    /* a tree's text is never longer */
    MUZSERLIK_TREE_TEXT_BYTES = 69,
    /* accepted sends of one run, at most; in a table each update has a run of its own */
    MUZSERLIK_SEND_LIMIT = 1000000,
    /* messages of one take on a ring, at most */
    MUZSERLIK_TAKE_LIMIT = 1000,
    /* moves of one drive, at most */
    MUZSERLIK_MOVE_LIMIT = 1000
};

enum muzserlik_answer {
    MUZSERLIK_ACCEPTED = 0,
    /* start, reading: the number of nodes is outside 1 to 96, or 1 to 16 for a tree; in a table, or is another than that of a started update; of a
     * panel's start, or is another than the panel's */
    MUZSERLIK_REFUSED_NODE_COUNT = 1,
    /* start of a ring, an update or a panel: not one flag for each node, or one above 3 */
    MUZSERLIK_REFUSED_START_FLAGS = 2,
    /* the struct handed in is not sound */
    MUZSERLIK_REFUSED_UNSOUND = 3,
    /* the run is closed by an announcement, the panel by a close */
    MUZSERLIK_REFUSED_CLOSED = 4,
    /* a step's kind is outside 1 to 6 */
    MUZSERLIK_REFUSED_UNKNOWN_KIND = 5,
    /* a node number that is used is n or more; in reading, one in the text */
    MUZSERLIK_REFUSED_UNKNOWN_NODE = 6,
    /* 7 is retired: a send from a node to itself was refused with it before change request Q-4. The number is given to nothing else */
    /* the step's rule does not hold: the step is not possible now */
    MUZSERLIK_REFUSED_RULE_FAILS = 8,
    /* a send after 1,000,000 accepted ones; in a table, of the same update since its latest start, whatever the others sent */
    MUZSERLIK_REFUSED_SEND_LIMIT = 9,
    /* reading: the text is not a tree's, by another fault than a number of n or more */
    MUZSERLIK_REFUSED_NOT_A_FORM = 10,
    /* the driver's limit is above 1,000 */
    MUZSERLIK_REFUSED_MOVE_LIMIT = 11,
    /* writing: the buffer is shorter than the text */
    MUZSERLIK_REFUSED_SHORT_BUFFER = 12,
    /* a table: the update is above 7, or a step's update is not started */
    MUZSERLIK_REFUSED_UNKNOWN_UPDATE = 13,
    /* a panel: the job word of a TAKE is outside 1 to 4; comes before 8 */
    MUZSERLIK_REFUSED_JOB_WORD = 14,
    /* a panel: a CLOSE that passes the announce test, while the marks of all nodes are not one word; nothing is closed */
    MUZSERLIK_REFUSED_UNEQUAL_MARKS = 15,
    /* the driver, which never answers 0, stopped: the announce test holds; no token move is allowed; it made as many moves as it was allowed */
    MUZSERLIK_CONCLUSIVE = 100,
    MUZSERLIK_WAITING = 101,
    MUZSERLIK_SPENT = 102
};

/*
 * The kinds of a step. PROBE and ACK, PASS and LEAVE are the same numbers: the first are the ring's, the second the tree's; so are ANNOUNCE and CLOSE, the
 * second being the panel's. Numbers that a kind does not use are not read. The rule that has to hold, else 8, and what becomes of the state:
 *
 *   a ring; the counter of a node is what it sent less what it received
 *   SEND i j   i is active: one more message is on its way to j, which may be i itself
 *   TAKE i j   j is 1 to 1,000, and at least j messages are on their way to i: i receives j of them, and becomes active and black. Here j is how many
 *              messages are taken, not a node: whatever it is, it is not refused with 6
 *   IDLE i     i is active: it becomes passive
 *   PROBE      node 0 has the token; the token is black, or node 0 is, or q plus the counter of node 0 is above 0: the token goes to node n - 1,
 *              white, with the sum 0, and node 0 becomes white
 *   PASS i     i is above 0, has the token and is passive: the token goes to i - 1, its sum gains the counter of i, it becomes black if i is, and
 *              i becomes white
 *   ANNOUNCE   the announce test: node 0 has the token, both are white, q plus the counter of node 0 is 0, node 0 is passive and no message is on its
 *              way to it. Then, by the accepted steps, every node is passive and no message is in transit (proved); the run is closed
 *
 *   a tree
 *   SEND i j   i is active: one more message is on its way from i to j, which may be i itself, and one more of i is not acknowledged
 *   TAKE i j   a message from j is on its way to i: i receives it and becomes active. If i was not engaged, j is its engager; else an
 *              acknowledgement sets out to j. A node that has a message of its own on its way is engaged: it acknowledges itself
 *   IDLE i     i is active: it becomes passive
 *   ACK i      an acknowledgement is on its way to i: i receives it, and one less of i is not acknowledged
 *   LEAVE i    i is not the root, is engaged and passive, and all that it sent is acknowledged: an acknowledgement sets out to its engager, and i is
 *              no longer engaged
 *   ANNOUNCE   the root is passive, and all that it sent is acknowledged. Then, by the accepted steps, every node is passive and no message is in
 *              transit (proved); the run is closed
 *
 *   a panel; SEND, IDLE, PROBE and PASS are the ring's
 *   TAKE i w   a message is on its way to i: i receives that one, as on a ring, and its firmware mark or its map mark is set by the job word w
 *              (enum muzserlik_job). Another word is 14, before this rule; it is not refused with 6, whatever it is
 *   CLOSE      the announce test of the ring. Where the firmware marks and the map marks of all n nodes are not one word, 15; else that word is
 *              recorded, and the panel is closed and counts as released until the next accepted start
 */
enum muzserlik_kind {
    MUZSERLIK_SEND = 1,
    MUZSERLIK_TAKE = 2,
    MUZSERLIK_IDLE = 3,
    MUZSERLIK_PROBE = 4,
    MUZSERLIK_PASS = 5,
    MUZSERLIK_ANNOUNCE = 6,
    MUZSERLIK_ACK = 4,
    MUZSERLIK_LEAVE = 5,
    MUZSERLIK_CLOSE = 6
};

/* The job words of a panel's TAKE: which mark of the node is set, and to what. */
enum muzserlik_job {
    MUZSERLIK_FIRMWARE_NEW = 1,
    MUZSERLIK_MAP_NEW = 2,
    MUZSERLIK_FIRMWARE_OLD = 3,
    MUZSERLIK_MAP_OLD = 4
};

/* A mark of a node. */
enum muzserlik_mark {
    MUZSERLIK_MARK_OLD = 0,
    MUZSERLIK_MARK_NEW = 1
};

/* The record of a panel: empty while it is open, else the one word of all its marks. */
enum muzserlik_record {
    MUZSERLIK_RECORD_EMPTY = 0,
    MUZSERLIK_RECORD_OLD = 1,
    MUZSERLIK_RECORD_NEW = 2
};

/* A ring. Places from n on are zero. A start fills it; steps and the driver change it; anyone may read it. */
struct muzserlik_ring {
    size_t n;                                   /* nodes */
    uint8_t active[MUZSERLIK_RING_NODES];       /* 1 where the node is active, else 0 */
    uint8_t color[MUZSERLIK_RING_COLOR_BYTES];  /* node i is bit i % 8 (bit 0 lowest) of byte i / 8; 1 is black */
    uint32_t sent[MUZSERLIK_RING_NODES];        /* messages that the node sent */
    uint32_t received[MUZSERLIK_RING_NODES];    /* messages that it received */
    uint32_t pending[MUZSERLIK_RING_NODES];     /* messages on their way to it */
    size_t pos;                                 /* the token: the node that holds it, */
    int64_t q;                                  /* its sum, */
    uint8_t black;                              /* 1 where it is black, else 0 */
    uint8_t closed;                             /* 1 once an announcement is accepted, else 0 */
};

/*
 * A table: updates 0 to 7, each not started, or a ring of its own over the same nodes. Place u of each field is update u's, as that of the ring's
 * struct. An update of no nodes, n[u] of 0, is not started: nothing is asked of the rest of its places, and no answer depends on them.
 */
struct muzserlik_table {
    size_t n[MUZSERLIK_UPDATES];
    size_t pos[MUZSERLIK_UPDATES];
    int64_t q[MUZSERLIK_UPDATES];
    uint8_t black[MUZSERLIK_UPDATES];
    uint8_t closed[MUZSERLIK_UPDATES];
    uint8_t active[MUZSERLIK_UPDATES][MUZSERLIK_RING_NODES];
    uint8_t color[MUZSERLIK_UPDATES][MUZSERLIK_RING_COLOR_BYTES];
    uint32_t sent[MUZSERLIK_UPDATES][MUZSERLIK_RING_NODES];
    uint32_t received[MUZSERLIK_UPDATES][MUZSERLIK_RING_NODES];
    uint32_t pending[MUZSERLIK_UPDATES][MUZSERLIK_RING_NODES];
};

/*
 * A panel: a ring, and the marks of its nodes, which outlive a run. Closed (ring.closed is 1) it is released, and every mark of its n nodes is what is
 * recorded. Let no call of a ring change its ring: an announcement there would close it without a record, and the panel would not be sound.
 */
struct muzserlik_panel {
    struct muzserlik_ring ring;
    uint8_t firmware[MUZSERLIK_RING_NODES];  /* enum muzserlik_mark, from n on old */
    uint8_t map[MUZSERLIK_RING_NODES];       /* likewise */
    uint8_t recorded;                        /* enum muzserlik_record */
};

/* A tree. Places from n on are zero, their engagers 16. */
struct muzserlik_tree {
    size_t n;                                /* nodes */
    size_t root;
    uint8_t active[MUZSERLIK_TREE_NODES];    /* 1 where the node is active, else 0 */
    uint8_t engager[MUZSERLIK_TREE_NODES];   /* the root's is itself; 16: not engaged */
    uint32_t unacked[MUZSERLIK_TREE_NODES];  /* messages that the node sent and that are not acknowledged to it yet */
    uint32_t transit[MUZSERLIK_TREE_NODES * MUZSERLIK_TREE_NODES]; /* messages in transit from i to j: place 16 * i + j */
    uint32_t acks[MUZSERLIK_TREE_NODES];     /* acknowledgements on their way to the node */
    uint32_t sends;                          /* accepted sends of this run */
    uint8_t closed;                          /* 1 once an announcement is accepted, else 0 */
};

/* ---- What the archive has. Call the inline functions below instead: these take no null pointer, not even with a length of 0. */

uint8_t muzserlik_ring_start_fields(size_t nodes, const uint8_t *flags, size_t count, size_t *n, uint8_t *active, uint8_t *color,
                                    uint32_t *sent, uint32_t *received, uint32_t *pending, size_t *pos, int64_t *q, uint8_t *black,
                                    uint8_t *closed);
uint8_t muzserlik_ring_step_fields(size_t n, uint8_t *active, uint8_t *color, uint32_t *sent, uint32_t *received, uint32_t *pending,
                                   size_t *pos, int64_t *q, uint8_t *black, uint8_t *closed, size_t kind, size_t i, size_t j);
uint8_t muzserlik_ring_is_sound_fields(size_t n, const uint8_t *active, const uint8_t *color, const uint32_t *sent,
                                       const uint32_t *received, const uint32_t *pending, size_t pos, int64_t q, uint8_t black,
                                       uint8_t closed);
uint8_t muzserlik_ring_drive_fields(size_t n, const uint8_t *active, uint8_t *color, const uint32_t *sent, const uint32_t *received,
                                    const uint32_t *pending, size_t *pos, int64_t *q, uint8_t *black, uint8_t closed, size_t limit,
                                    uint32_t *moves);
uint8_t muzserlik_table_start_fields(size_t *n, size_t *pos, int64_t *q, uint8_t *black, uint8_t *closed,
                                     uint8_t (*active)[MUZSERLIK_RING_NODES], uint8_t (*color)[MUZSERLIK_RING_COLOR_BYTES],
                                     uint32_t (*sent)[MUZSERLIK_RING_NODES], uint32_t (*received)[MUZSERLIK_RING_NODES],
                                     uint32_t (*pending)[MUZSERLIK_RING_NODES], size_t update, size_t nodes, const uint8_t *flags, size_t count);
uint8_t muzserlik_table_step_fields(size_t *n, size_t *pos, int64_t *q, uint8_t *black, uint8_t *closed,
                                    uint8_t (*active)[MUZSERLIK_RING_NODES], uint8_t (*color)[MUZSERLIK_RING_COLOR_BYTES],
                                    uint32_t (*sent)[MUZSERLIK_RING_NODES], uint32_t (*received)[MUZSERLIK_RING_NODES],
                                    uint32_t (*pending)[MUZSERLIK_RING_NODES], size_t update, size_t kind, size_t i, size_t j);
uint8_t muzserlik_table_is_sound_fields(const size_t *n, const size_t *pos, const int64_t *q, const uint8_t *black, const uint8_t *closed,
                                        const uint8_t (*active)[MUZSERLIK_RING_NODES], const uint8_t (*color)[MUZSERLIK_RING_COLOR_BYTES],
                                        const uint32_t (*sent)[MUZSERLIK_RING_NODES], const uint32_t (*received)[MUZSERLIK_RING_NODES],
                                        const uint32_t (*pending)[MUZSERLIK_RING_NODES]);
uint8_t muzserlik_panel_enter_fields(size_t nodes, const uint8_t *flags, size_t count, size_t *n, uint8_t *active, uint8_t *color,
                                     uint32_t *sent, uint32_t *received, uint32_t *pending, size_t *pos, int64_t *q, uint8_t *black,
                                     uint8_t *closed, uint8_t *firmware, uint8_t *map, uint8_t *recorded);
uint8_t muzserlik_panel_start_fields(size_t n, uint8_t *active, uint8_t *color, uint32_t *sent, uint32_t *received, uint32_t *pending,
                                     size_t *pos, int64_t *q, uint8_t *black, uint8_t *closed, const uint8_t *firmware, const uint8_t *map,
                                     uint8_t *recorded, size_t nodes, const uint8_t *flags, size_t count);
uint8_t muzserlik_panel_step_fields(size_t n, uint8_t *active, uint8_t *color, uint32_t *sent, uint32_t *received, uint32_t *pending,
                                    size_t *pos, int64_t *q, uint8_t *black, uint8_t *closed, uint8_t *firmware, uint8_t *map,
                                    uint8_t *recorded, size_t kind, size_t i, size_t j);
uint8_t muzserlik_panel_is_sound_fields(size_t n, const uint8_t *active, const uint8_t *color, const uint32_t *sent,
                                        const uint32_t *received, const uint32_t *pending, size_t pos, int64_t q, uint8_t black,
                                        uint8_t closed, const uint8_t *firmware, const uint8_t *map, uint8_t recorded);
uint8_t muzserlik_tree_start_fields(size_t nodes, size_t at, size_t *n, size_t *root, uint8_t *active, uint8_t *engager,
                                    uint32_t *unacked, uint32_t *transit, uint32_t *acks, uint32_t *sends, uint8_t *closed);
uint8_t muzserlik_tree_step_fields(size_t n, size_t root, uint8_t *active, uint8_t *engager, uint32_t *unacked, uint32_t *transit,
                                   uint32_t *acks, uint32_t *sends, uint8_t *closed, size_t kind, size_t i, size_t j);
uint8_t muzserlik_tree_is_sound_fields(size_t n, size_t root, const uint8_t *active, const uint8_t *engager, const uint32_t *unacked,
                                       const uint32_t *transit, const uint32_t *acks, uint32_t sends, uint8_t closed);
uint8_t muzserlik_tree_write_fields(size_t n, size_t root, const uint8_t *active, const uint8_t *engager, const uint32_t *unacked,
                                    const uint32_t *transit, const uint32_t *acks, uint32_t sends, uint8_t closed, uint8_t *buffer,
                                    size_t room, size_t *length);
uint8_t muzserlik_tree_read_fields(size_t nodes, const uint8_t *text, size_t length, uint8_t *engager, size_t *root);

/* ---- The ring */

/*
 * Starts a run of n nodes: `flags` has `count` bytes, which have to be n, one for each node: 1 for active, plus 2 for black.
 * 0, 1 or 2. The struct may hold anything before; it is filled where the start is accepted, and else left as it was.
 */
static inline int muzserlik_ring_start(struct muzserlik_ring *ring, size_t n, const uint8_t *flags, size_t count)
{
    const uint8_t none = 0;
    return muzserlik_ring_start_fields(n, count == 0 ? &none : flags, count, &ring->n, ring->active, ring->color, ring->sent,
                                       ring->received, ring->pending, &ring->pos, &ring->q, &ring->black, &ring->closed);
}

/*
 * One step (enum muzserlik_kind); a number that its kind does not use is not read. TAKE reads j as how many messages it takes, 1 to 1,000, else 8: a
 * call that takes one message says 1, and one that leaves j 0, as it could before TAKE read it, is refused with 8 now. 0, or 3 to 6, 8 or 9 with the
 * ring as it was.
 */
static inline int muzserlik_ring_step(struct muzserlik_ring *ring, size_t kind, size_t i, size_t j)
{
    return muzserlik_ring_step_fields(ring->n, ring->active, ring->color, ring->sent, ring->received, ring->pending, &ring->pos, &ring->q,
                                      &ring->black, &ring->closed, kind, i, j);
}

/* 1 where the ring is sound, else 0. */
static inline int muzserlik_ring_is_sound(const struct muzserlik_ring *ring)
{
    return muzserlik_ring_is_sound_fields(ring->n, ring->active, ring->color, ring->sent, ring->received, ring->pending, ring->pos,
                                          ring->q, ring->black, ring->closed);
}

/*
 * Moves the token by probes and passes. Tested before each move, in this order: the announce test holds (100: announce); no move is allowed
 * (101: the node that has the token is active; go on once it is passive); `limit` moves are made (102: call again). `moves` is then how many it
 * made. A limit of 0 only asks. 3, 4 or 11: refused, ring and `moves` as they were. It never announces: that is a step. A ring with every node passive
 * and no message in transit needs at most 3n - 2 moves.
 */
static inline int muzserlik_ring_drive(struct muzserlik_ring *ring, size_t limit, uint32_t *moves)
{
    return muzserlik_ring_drive_fields(ring->n, ring->active, ring->color, ring->sent, ring->received, ring->pending, &ring->pos, &ring->q,
                                       &ring->black, ring->closed, limit, moves);
}

/* ---- The table */

/* Makes a table with nothing started, all bytes zero. Whoever has no table yet begins so; a table of zeros is one already. */
static inline void muzserlik_table_clear(struct muzserlik_table *table)
{
    memset(table, 0, sizeof *table);
}

/*
 * Starts an update of n nodes, or starts it afresh, open or closed, with no sends counted; `flags` and `count` as for a ring's start. The first start
 * that is accepted fixes n for the whole table. 0, and no other update's places are written to; 3, 13, 1 or 2, in this order, with the table as it was,
 * the old run of that update too.
 */
static inline int muzserlik_table_start(struct muzserlik_table *table, size_t update, size_t n, const uint8_t *flags, size_t count)
{
    const uint8_t none = 0;
    return muzserlik_table_start_fields(table->n, table->pos, table->q, table->black, table->closed, table->active, table->color, table->sent,
                                        table->received, table->pending, update, n, count == 0 ? &none : flags, count);
}

/*
 * One step of a ring, of an update; so TAKE reads j as how many messages it takes, 1 to 1,000, else 8, and one that leaves j 0 is refused with 8 now.
 * 0, and no other update's places are written to; 3, 13, 4 to 6, 8 or 9 with the table as it was. In a sound table the answer does not depend on the
 * other updates; 9 is for the sends of this one.
 */
static inline int muzserlik_table_step(struct muzserlik_table *table, size_t update, size_t kind, size_t i, size_t j)
{
    return muzserlik_table_step_fields(table->n, table->pos, table->q, table->black, table->closed, table->active, table->color, table->sent,
                                       table->received, table->pending, update, kind, i, j);
}

/* 1 where the table is sound, else 0: its started updates are sound rings of one n, each with at most 1,000,000 sends. */
static inline int muzserlik_table_is_sound(const struct muzserlik_table *table)
{
    return muzserlik_table_is_sound_fields(table->n, table->pos, table->q, table->black, table->closed, table->active, table->color,
                                           table->sent, table->received, table->pending);
}

/* ---- The panel */

/*
 * Enters a panel of n nodes for the first time: its run is started as a ring's, all its marks are old, and nothing is recorded. 0, 1 or 2; `flags`,
 * `count` and the struct as for a ring's start.
 */
static inline int muzserlik_panel_enter(struct muzserlik_panel *panel, size_t n, const uint8_t *flags, size_t count)
{
    const uint8_t none = 0;
    struct muzserlik_ring *ring = &panel->ring;
    return muzserlik_panel_enter_fields(n, count == 0 ? &none : flags, count, &ring->n, ring->active, ring->color, ring->sent,
                                        ring->received, ring->pending, &ring->pos, &ring->q, &ring->black, &ring->closed, panel->firmware,
                                        panel->map, &panel->recorded);
}

/*
 * Starts the next run of a panel, open or closed: n has to be the panel's; the ring is as after its own start, the record is empty, and every mark is
 * kept. 0; 3, 1 or 2, in this order, with the panel as it was, and released if it was.
 */
static inline int muzserlik_panel_start(struct muzserlik_panel *panel, size_t n, const uint8_t *flags, size_t count)
{
    const uint8_t none = 0;
    struct muzserlik_ring *ring = &panel->ring;
    return muzserlik_panel_start_fields(ring->n, ring->active, ring->color, ring->sent, ring->received, ring->pending, &ring->pos, &ring->q,
                                        &ring->black, &ring->closed, panel->firmware, panel->map, &panel->recorded, n,
                                        count == 0 ? &none : flags, count);
}

/*
 * One step (enum muzserlik_kind, "a panel"); TAKE reads j as a job word, and takes one message. 0; 3, 4, 5, 6, 14, 8, 15 or 9, in this order, with the
 * panel as it was. With every node passive and no message in transit the announce test holds after at most 3n - 2 PROBEs and PASSes. Then, where CLOSE is
 * 15, no step is accepted: start the panel afresh, and send the jobs that are missing.
 */
static inline int muzserlik_panel_step(struct muzserlik_panel *panel, size_t kind, size_t i, size_t j)
{
    struct muzserlik_ring *ring = &panel->ring;
    return muzserlik_panel_step_fields(ring->n, ring->active, ring->color, ring->sent, ring->received, ring->pending, &ring->pos, &ring->q,
                                       &ring->black, &ring->closed, panel->firmware, panel->map, &panel->recorded, kind, i, j);
}

/*
 * 1 where the panel is sound, else 0: its ring is, marks from n on are old, and the record is empty while it is open and, when it is closed, the word of
 * every mark. A mark above 1 anywhere or a record above 2 is not sound.
 */
static inline int muzserlik_panel_is_sound(const struct muzserlik_panel *panel)
{
    const struct muzserlik_ring *ring = &panel->ring;
    return muzserlik_panel_is_sound_fields(ring->n, ring->active, ring->color, ring->sent, ring->received, ring->pending, ring->pos, ring->q,
                                           ring->black, ring->closed, panel->firmware, panel->map, panel->recorded);
}

/* ---- The tree */

/* Starts a run of n nodes with the given root, which alone is active and engaged. 0, 1 or 6; the struct as for a ring's start. */
static inline int muzserlik_tree_start(struct muzserlik_tree *tree, size_t n, size_t root)
{
    return muzserlik_tree_start_fields(n, root, &tree->n, &tree->root, tree->active, tree->engager, tree->unacked, tree->transit, tree->acks,
                                       &tree->sends, &tree->closed);
}

/* One step (enum muzserlik_kind); a number that its kind does not use is not read. 0, or 3 to 6, 8 or 9 with the tree as it was. */
static inline int muzserlik_tree_step(struct muzserlik_tree *tree, size_t kind, size_t i, size_t j)
{
    return muzserlik_tree_step_fields(tree->n, tree->root, tree->active, tree->engager, tree->unacked, tree->transit, tree->acks,
                                      &tree->sends, &tree->closed, kind, i, j);
}

/* 1 where the tree is sound, else 0. */
static inline int muzserlik_tree_is_sound(const struct muzserlik_tree *tree)
{
    return muzserlik_tree_is_sound_fields(tree->n, tree->root, tree->active, tree->engager, tree->unacked, tree->transit, tree->acks,
                                          tree->sends, tree->closed);
}

/*
 * The text of the engagement tree, as (0 (1) (2 (3))), into the `room` bytes at `buffer`, with no zero byte after it; `length` is then how
 * long it is, and bytes past it keep their values. A closed tree can be written too. 0; 3 or 12 with buffer and `length` as they were.
 */
static inline int muzserlik_tree_write(const struct muzserlik_tree *tree, uint8_t *buffer, size_t room, size_t *length)
{
    uint8_t none = 0;
    return muzserlik_tree_write_fields(tree->n, tree->root, tree->active, tree->engager, tree->unacked, tree->transit, tree->acks,
                                       tree->sends, tree->closed, room == 0 ? &none : buffer, room, length);
}

/*
 * Reads the text of a tree of n nodes, `length` bytes and no more, as (const uint8_t *)"(0 (1))" with 7: all 16 engagers, the root's being itself, 16
 * where a node is not engaged and from n on; and the root. 0; 1, 6 or 10 with `engager` and `root` as they were. 1 comes first; then the first fault
 * from the left decides: where a number belongs, one of n or more without a leading zero, of whatever length and whatever follows it, is 6; anything
 * else, such as a leading zero, a node twice, children that do not ascend, other spacing, bytes after the last bracket, is 10. A text says nothing of
 * messages: it does not make a tree to go on with.
 */
static inline int muzserlik_tree_read(size_t n, const uint8_t *text, size_t length, uint8_t engager[MUZSERLIK_TREE_NODES], size_t *root)
{
    const uint8_t none = 0;
    return muzserlik_tree_read_fields(n, length == 0 ? &none : text, length, engager, root);
}

#ifdef __cplusplus
}
#endif

#endif
