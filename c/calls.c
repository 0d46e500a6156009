/*
 * Each function of muzserlik.h called, its answer and every field after it compared with what the rules give, worked by hand. The ring and the
 * tree are led or set to states whose fields differ from each other, so that no field can stand in another's place: two arguments of an inline
 * function that change places are noticed. Only those columns can that a start fills alike: sent, received and pending; unacked and acks.
 */
#include "muzserlik.h"

#include <stdio.h>
#include <stdlib.h>
#include <string.h>

/* The fields are as long as those that the archive reads and writes. */
#define LONG(type, field, bytes) _Static_assert(sizeof(((struct type *)0)->field) == (bytes), #type ": " #field)

LONG(muzserlik_ring, n, 8);
LONG(muzserlik_ring, active, 96);
LONG(muzserlik_ring, color, 12);
LONG(muzserlik_ring, sent, 4 * 96);
LONG(muzserlik_ring, received, 4 * 96);
LONG(muzserlik_ring, pending, 4 * 96);
LONG(muzserlik_ring, pos, 8);
LONG(muzserlik_ring, q, 8);
LONG(muzserlik_ring, black, 1);
LONG(muzserlik_ring, closed, 1);
LONG(muzserlik_tree, n, 8);
LONG(muzserlik_tree, root, 8);
LONG(muzserlik_tree, active, 16);
LONG(muzserlik_tree, engager, 16);
LONG(muzserlik_tree, unacked, 4 * 16);
LONG(muzserlik_tree, transit, 4 * 16 * 16);
LONG(muzserlik_tree, acks, 4 * 16);
LONG(muzserlik_tree, sends, 4);
LONG(muzserlik_tree, closed, 1);

static int checks = 0;

#define CHECK(what)                                             \
    do {                                                        \
        checks++;                                               \
        if (!(what)) {                                          \
            printf("calls.c:%d: not so: %s\n", __LINE__, #what); \
            exit(EXIT_FAILURE);                                 \
        }                                                       \
    } while (0)

#define SAME(field) (memcmp(&a->field, &b->field, sizeof a->field) == 0)

static int same_rings(const struct muzserlik_ring *a, const struct muzserlik_ring *b)
{
    return SAME(n) && SAME(active) && SAME(color) && SAME(sent) && SAME(received) && SAME(pending) && SAME(pos) && SAME(q) && SAME(black)
        && SAME(closed);
}

static int same_trees(const struct muzserlik_tree *a, const struct muzserlik_tree *b)
{
    return SAME(n) && SAME(root) && SAME(active) && SAME(engager) && SAME(unacked) && SAME(transit) && SAME(acks) && SAME(sends)
        && SAME(closed);
}

/* The answer to a step that is refused; the ring is as it was. */
static int ring_refusal(struct muzserlik_ring *ring, size_t kind, size_t i, size_t j)
{
    const struct muzserlik_ring before = *ring;
    int answer = muzserlik_ring_step(ring, kind, i, j);
    CHECK(same_rings(ring, &before));
    return answer;
}

/* The answer to a drive that is refused; ring and moves are as they were. */
static int drive_refusal(struct muzserlik_ring *ring, size_t limit)
{
    const struct muzserlik_ring before = *ring;
    uint32_t moves = 77;
    int answer = muzserlik_ring_drive(ring, limit, &moves);
    CHECK(same_rings(ring, &before) && moves == 77);
    return answer;
}

static int tree_refusal(struct muzserlik_tree *tree, size_t kind, size_t i, size_t j)
{
    const struct muzserlik_tree before = *tree;
    int answer = muzserlik_tree_step(tree, kind, i, j);
    CHECK(same_trees(tree, &before));
    return answer;
}

static void ring_starts(struct muzserlik_ring *ring)
{
    const uint8_t flags[] = {1, 2, 3}, high[] = {1, 4, 0};
    uint8_t many[MUZSERLIK_RING_NODES + 1] = {[MUZSERLIK_RING_NODES - 1] = 2};
    struct muzserlik_ring noise;
    memset(&noise, 0xa5, sizeof noise);
    *ring = noise;
    CHECK(muzserlik_ring_start(ring, 0, flags, 0) == MUZSERLIK_REFUSED_NODE_COUNT);
    CHECK(muzserlik_ring_start(ring, sizeof many, many, sizeof many) == MUZSERLIK_REFUSED_NODE_COUNT);
    CHECK(muzserlik_ring_start(ring, (size_t)-1, flags, 3) == MUZSERLIK_REFUSED_NODE_COUNT);
    CHECK(muzserlik_ring_start(ring, 3, flags, 2) == MUZSERLIK_REFUSED_START_FLAGS);
    CHECK(muzserlik_ring_start(ring, 2, flags, 3) == MUZSERLIK_REFUSED_START_FLAGS);
    CHECK(muzserlik_ring_start(ring, 3, NULL, 0) == MUZSERLIK_REFUSED_START_FLAGS);
    CHECK(muzserlik_ring_start(ring, 3, high, 3) == MUZSERLIK_REFUSED_START_FLAGS);
    CHECK(same_rings(ring, &noise));
    CHECK(muzserlik_ring_start(ring, MUZSERLIK_RING_NODES, many, MUZSERLIK_RING_NODES) == MUZSERLIK_ACCEPTED);
    const struct muzserlik_ring most = {.n = 96, .color = {[MUZSERLIK_RING_COLOR_BYTES - 1] = 128}, .black = 1};
    CHECK(same_rings(ring, &most) && muzserlik_ring_is_sound(ring) == 1);
    *ring = noise;
    CHECK(muzserlik_ring_start(ring, 3, flags, 3) == MUZSERLIK_ACCEPTED);
    const struct muzserlik_ring first = {.n = 3, .active = {1, 0, 1}, .color = {6}, .black = 1};
    CHECK(same_rings(ring, &first));
}

/* Node 1 received one of two messages; the token passed node 2, which was black, and is at node 1. */
static void ring_steps(struct muzserlik_ring *ring)
{
    CHECK(muzserlik_ring_step(ring, MUZSERLIK_SEND, 0, 1) == MUZSERLIK_ACCEPTED);
    CHECK(muzserlik_ring_step(ring, MUZSERLIK_SEND, 2, 1) == MUZSERLIK_ACCEPTED);
    CHECK(muzserlik_ring_step(ring, MUZSERLIK_TAKE, 1, 1) == MUZSERLIK_ACCEPTED);
    CHECK(muzserlik_ring_step(ring, MUZSERLIK_PROBE, 99, 99) == MUZSERLIK_ACCEPTED);
    CHECK(muzserlik_ring_step(ring, MUZSERLIK_IDLE, 2, 99) == MUZSERLIK_ACCEPTED);
    CHECK(muzserlik_ring_step(ring, MUZSERLIK_PASS, 2, 99) == MUZSERLIK_ACCEPTED);
    const struct muzserlik_ring now = {.n = 3,
                                       .active = {1, 1, 0},
                                       .color = {2},
                                       .sent = {1, 0, 1},
                                       .received = {0, 1, 0},
                                       .pending = {0, 1, 0},
                                       .pos = 1,
                                       .q = 1,
                                       .black = 1};
    CHECK(same_rings(ring, &now));
    CHECK(muzserlik_ring_is_sound(ring) == 1);
    const size_t unknown[] = {0, 7, 255, 256, 257, 262, ((size_t)1 << 32) + 1, (size_t)-1};
    for (size_t k = 0; k < sizeof unknown / sizeof unknown[0]; k++)
        CHECK(ring_refusal(ring, unknown[k], 0, 1) == MUZSERLIK_REFUSED_UNKNOWN_KIND);
    CHECK(ring_refusal(ring, MUZSERLIK_SEND, 0, 3) == MUZSERLIK_REFUSED_UNKNOWN_NODE);
    CHECK(ring_refusal(ring, MUZSERLIK_SEND, (size_t)-1, 0) == MUZSERLIK_REFUSED_UNKNOWN_NODE);
    CHECK(ring_refusal(ring, MUZSERLIK_SEND, 2, 2) == MUZSERLIK_REFUSED_RULE_FAILS);
    CHECK(ring_refusal(ring, MUZSERLIK_SEND, 3, 3) == MUZSERLIK_REFUSED_UNKNOWN_NODE);
    CHECK(ring_refusal(ring, MUZSERLIK_SEND, 2, 0) == MUZSERLIK_REFUSED_RULE_FAILS);
    CHECK(ring_refusal(ring, MUZSERLIK_PASS, 1, 0) == MUZSERLIK_REFUSED_RULE_FAILS);
}

/* A byte that is no truth, in a place that no node uses. */
static void ring_unsound(struct muzserlik_ring *ring)
{
    ring->active[95] = 2;
    CHECK(muzserlik_ring_is_sound(ring) == 0);
    CHECK(ring_refusal(ring, MUZSERLIK_IDLE, 1, 0) == MUZSERLIK_REFUSED_UNSOUND);
    CHECK(drive_refusal(ring, 5) == MUZSERLIK_REFUSED_UNSOUND);
    ring->active[95] = 0;
}

static void ring_drives(struct muzserlik_ring *ring)
{
    uint32_t moves = 77;
    CHECK(drive_refusal(ring, MUZSERLIK_MOVE_LIMIT + 1) == MUZSERLIK_REFUSED_MOVE_LIMIT);
    CHECK(drive_refusal(ring, ((size_t)1 << 32) + 5) == MUZSERLIK_REFUSED_MOVE_LIMIT);
    CHECK(muzserlik_ring_drive(ring, 10, &moves) == MUZSERLIK_WAITING && moves == 0);
    CHECK(muzserlik_ring_step(ring, MUZSERLIK_IDLE, 1, 0) == MUZSERLIK_ACCEPTED);
    CHECK(muzserlik_ring_drive(ring, 1, &moves) == MUZSERLIK_SPENT && moves == 1);
    const struct muzserlik_ring now = {
        .n = 3, .active = {1, 0, 0}, .sent = {1, 0, 1}, .received = {0, 1, 0}, .pending = {0, 1, 0}, .q = 0, .black = 1};
    CHECK(same_rings(ring, &now));
    CHECK(muzserlik_ring_step(ring, MUZSERLIK_TAKE, 1, 1) == MUZSERLIK_ACCEPTED);
    CHECK(muzserlik_ring_step(ring, MUZSERLIK_IDLE, 1, 0) == MUZSERLIK_ACCEPTED);
    CHECK(muzserlik_ring_step(ring, MUZSERLIK_IDLE, 0, 0) == MUZSERLIK_ACCEPTED);
    CHECK(ring_refusal(ring, MUZSERLIK_ANNOUNCE, 0, 0) == MUZSERLIK_REFUSED_RULE_FAILS);
    /* two rounds: node 1 blackens the token in the first */
    CHECK(muzserlik_ring_drive(ring, MUZSERLIK_MOVE_LIMIT, &moves) == MUZSERLIK_CONCLUSIVE && moves == 6);
    CHECK(muzserlik_ring_step(ring, MUZSERLIK_ANNOUNCE, 0, 0) == MUZSERLIK_ACCEPTED);
    const struct muzserlik_ring last = {.n = 3, .sent = {1, 0, 1}, .received = {0, 2, 0}, .q = -1, .closed = 1};
    CHECK(same_rings(ring, &last));
    CHECK(ring_refusal(ring, MUZSERLIK_PROBE, 0, 0) == MUZSERLIK_REFUSED_CLOSED);
    CHECK(drive_refusal(ring, 5) == MUZSERLIK_REFUSED_CLOSED);
}

/* A ring set by hand. With received and pending in each other's place it would not be sound: none of Safra's four would hold. */
static void ring_by_hand(struct muzserlik_ring *ring)
{
    const struct muzserlik_ring first = {.n = 4,
                                         .active = {1, 0, 1, 0},
                                         .color = {8},
                                         .sent = {5, 6, 7, 4},
                                         .received = {0, 0, 0, 9},
                                         .pending = {2, 3, 8, 0},
                                         .pos = 2,
                                         .q = -5};
    uint32_t moves = 77;
    *ring = first;
    CHECK(muzserlik_ring_is_sound(ring) == 1);
    CHECK(muzserlik_ring_step(ring, MUZSERLIK_TAKE, 2, 1) == MUZSERLIK_ACCEPTED);
    const struct muzserlik_ring taken = {.n = 4,
                                         .active = {1, 0, 1, 0},
                                         .color = {12},
                                         .sent = {5, 6, 7, 4},
                                         .received = {0, 0, 1, 9},
                                         .pending = {2, 3, 7, 0},
                                         .pos = 2,
                                         .q = -5};
    CHECK(same_rings(ring, &taken) && muzserlik_ring_is_sound(ring) == 1);
    CHECK(muzserlik_ring_step(ring, MUZSERLIK_IDLE, 2, 99) == MUZSERLIK_ACCEPTED);
    CHECK(muzserlik_ring_drive(ring, 2, &moves) == MUZSERLIK_SPENT && moves == 2);
    const struct muzserlik_ring driven = {.n = 4,
                                          .active = {1},
                                          .color = {8},
                                          .sent = {5, 6, 7, 4},
                                          .received = {0, 0, 1, 9},
                                          .pending = {2, 3, 7, 0},
                                          .q = 7,
                                          .black = 1};
    CHECK(same_rings(ring, &driven) && muzserlik_ring_is_sound(ring) == 1);
}

/* Node 1 takes as many messages as it asks for: 1 to 1,000 of the 1,206 that are on their way to it, and after that 1 to 206. */
static void ring_takes(struct muzserlik_ring *ring)
{
    const struct muzserlik_ring first = {.n = 3, .active = {1}, .sent = {1211}, .received = {0, 3, 2}, .pending = {0, 1206, 0}, .black = 1};
    const size_t refused[] = {0, 1001, 1206, 1207, 99999, ((size_t)1 << 32) + 1, (size_t)-1};
    *ring = first;
    CHECK(muzserlik_ring_is_sound(ring) == 1);
    for (size_t k = 0; k < sizeof refused / sizeof refused[0]; k++) {
        CHECK(ring_refusal(ring, MUZSERLIK_TAKE, 1, refused[k]) == MUZSERLIK_REFUSED_RULE_FAILS);
        CHECK(ring_refusal(ring, MUZSERLIK_TAKE, 3, refused[k]) == MUZSERLIK_REFUSED_UNKNOWN_NODE);
    }
    CHECK(muzserlik_ring_step(ring, MUZSERLIK_TAKE, 1, 1000) == MUZSERLIK_ACCEPTED);
    const struct muzserlik_ring most = {
        .n = 3, .active = {1, 1}, .color = {2}, .sent = {1211}, .received = {0, 1003, 2}, .pending = {0, 206, 0}, .black = 1};
    CHECK(same_rings(ring, &most) && muzserlik_ring_is_sound(ring) == 1);
    CHECK(ring_refusal(ring, MUZSERLIK_TAKE, 1, 207) == MUZSERLIK_REFUSED_RULE_FAILS);
    CHECK(ring_refusal(ring, MUZSERLIK_TAKE, 2, 1) == MUZSERLIK_REFUSED_RULE_FAILS);
    CHECK(muzserlik_ring_step(ring, MUZSERLIK_TAKE, 1, 5) == MUZSERLIK_ACCEPTED);
    CHECK(muzserlik_ring_step(ring, MUZSERLIK_TAKE, 1, 201) == MUZSERLIK_ACCEPTED);
    const struct muzserlik_ring all = {.n = 3, .active = {1, 1}, .color = {2}, .sent = {1211}, .received = {0, 1209, 2}, .black = 1};
    CHECK(same_rings(ring, &all) && muzserlik_ring_is_sound(ring) == 1);
}

/* Node 2 sends two messages to itself and takes one of them; nodes that are passive send none. */
static void ring_to_oneself(struct muzserlik_ring *ring)
{
    const uint8_t flags[] = {1, 0, 1};
    CHECK(muzserlik_ring_start(ring, 3, flags, 3) == MUZSERLIK_ACCEPTED);
    CHECK(muzserlik_ring_step(ring, MUZSERLIK_SEND, 2, 2) == MUZSERLIK_ACCEPTED);
    const struct muzserlik_ring sent = {
        .n = 3, .active = {1, 0, 1}, .sent = {0, 0, 1}, .pending = {0, 0, 1}, .black = 1};
    CHECK(same_rings(ring, &sent) && muzserlik_ring_is_sound(ring) == 1);
    CHECK(ring_refusal(ring, MUZSERLIK_SEND, 1, 1) == MUZSERLIK_REFUSED_RULE_FAILS);
    CHECK(ring_refusal(ring, MUZSERLIK_SEND, (size_t)-1, (size_t)-1) == MUZSERLIK_REFUSED_UNKNOWN_NODE);
    CHECK(muzserlik_ring_step(ring, MUZSERLIK_SEND, 2, 2) == MUZSERLIK_ACCEPTED);
    CHECK(muzserlik_ring_step(ring, MUZSERLIK_TAKE, 2, 1) == MUZSERLIK_ACCEPTED);
    CHECK(muzserlik_ring_step(ring, MUZSERLIK_IDLE, 2, 99) == MUZSERLIK_ACCEPTED);
    const struct muzserlik_ring taken = {
        .n = 3, .active = {1, 0, 0}, .color = {4}, .sent = {0, 0, 2}, .received = {0, 0, 1}, .pending = {0, 0, 1}, .black = 1};
    CHECK(same_rings(ring, &taken) && muzserlik_ring_is_sound(ring) == 1);
    CHECK(ring_refusal(ring, MUZSERLIK_SEND, 2, 2) == MUZSERLIK_REFUSED_RULE_FAILS);
}

/* The one node's message to itself keeps the sum above 0, so that the token goes on; once it is taken and the node passive, one probe is enough. */
static void ring_of_one(struct muzserlik_ring *ring)
{
    const uint8_t flags[] = {1};
    uint32_t moves = 77;
    CHECK(muzserlik_ring_start(ring, 1, flags, 1) == MUZSERLIK_ACCEPTED);
    CHECK(muzserlik_ring_step(ring, MUZSERLIK_SEND, 0, 0) == MUZSERLIK_ACCEPTED);
    const struct muzserlik_ring sent = {.n = 1, .active = {1}, .sent = {1}, .pending = {1}, .black = 1};
    CHECK(same_rings(ring, &sent) && muzserlik_ring_is_sound(ring) == 1);
    CHECK(muzserlik_ring_drive(ring, 3, &moves) == MUZSERLIK_SPENT && moves == 3);
    const struct muzserlik_ring driven = {.n = 1, .active = {1}, .sent = {1}, .pending = {1}};
    CHECK(same_rings(ring, &driven) && muzserlik_ring_is_sound(ring) == 1);
    CHECK(ring_refusal(ring, MUZSERLIK_ANNOUNCE, 0, 0) == MUZSERLIK_REFUSED_RULE_FAILS);
    CHECK(muzserlik_ring_step(ring, MUZSERLIK_TAKE, 0, 1) == MUZSERLIK_ACCEPTED);
    CHECK(muzserlik_ring_step(ring, MUZSERLIK_IDLE, 0, 0) == MUZSERLIK_ACCEPTED);
    const struct muzserlik_ring quiet = {.n = 1, .color = {1}, .sent = {1}, .received = {1}};
    CHECK(same_rings(ring, &quiet) && muzserlik_ring_is_sound(ring) == 1);
    CHECK(ring_refusal(ring, MUZSERLIK_ANNOUNCE, 0, 0) == MUZSERLIK_REFUSED_RULE_FAILS);
    CHECK(ring_refusal(ring, MUZSERLIK_SEND, 0, 0) == MUZSERLIK_REFUSED_RULE_FAILS);
    CHECK(muzserlik_ring_drive(ring, MUZSERLIK_MOVE_LIMIT, &moves) == MUZSERLIK_CONCLUSIVE && moves == 1);
    CHECK(ring_refusal(ring, MUZSERLIK_PROBE, 0, 0) == MUZSERLIK_REFUSED_RULE_FAILS);
    CHECK(muzserlik_ring_step(ring, MUZSERLIK_ANNOUNCE, 0, 0) == MUZSERLIK_ACCEPTED);
    const struct muzserlik_ring last = {.n = 1, .sent = {1}, .received = {1}, .closed = 1};
    CHECK(same_rings(ring, &last) && ring_refusal(ring, MUZSERLIK_SEND, 0, 0) == MUZSERLIK_REFUSED_CLOSED);
}

/* Sound by the first of Safra's four alone, by none, by the last alone: q and black decide. */
static void ring_clauses(struct muzserlik_ring *ring)
{
    const struct muzserlik_ring settled = {
        .n = 4, .active = {1, 0, 1, 0}, .color = {8}, .sent = {1, 2, 3, 9}, .received = {5, 4, 6, 0}, .pos = 2, .q = 9};
    *ring = settled;
    CHECK(muzserlik_ring_is_sound(ring) == 1);
    ring->q = 0;
    CHECK(muzserlik_ring_is_sound(ring) == 0);
    ring->black = 1;
    CHECK(muzserlik_ring_is_sound(ring) == 1);
}

/* A sound ring at the limit of sends. */
static void ring_limit(struct muzserlik_ring *ring)
{
    const uint8_t flags[] = {1, 0};
    CHECK(muzserlik_ring_start(ring, 2, flags, 2) == MUZSERLIK_ACCEPTED);
    ring->sent[0] = MUZSERLIK_SEND_LIMIT;
    ring->received[1] = MUZSERLIK_SEND_LIMIT;
    CHECK(ring_refusal(ring, MUZSERLIK_SEND, 0, 1) == MUZSERLIK_REFUSED_SEND_LIMIT);
    CHECK(ring_refusal(ring, MUZSERLIK_SEND, 0, 0) == MUZSERLIK_REFUSED_SEND_LIMIT);
    CHECK(ring_refusal(ring, MUZSERLIK_SEND, 1, 1) == MUZSERLIK_REFUSED_RULE_FAILS);
}

static void tree_starts(struct muzserlik_tree *tree)
{
    struct muzserlik_tree noise;
    memset(&noise, 0xa5, sizeof noise);
    *tree = noise;
    CHECK(muzserlik_tree_start(tree, 0, 0) == MUZSERLIK_REFUSED_NODE_COUNT);
    CHECK(muzserlik_tree_start(tree, MUZSERLIK_TREE_NODES + 1, 0) == MUZSERLIK_REFUSED_NODE_COUNT);
    CHECK(muzserlik_tree_start(tree, 3, 3) == MUZSERLIK_REFUSED_UNKNOWN_NODE);
    CHECK(muzserlik_tree_start(tree, 3, (size_t)-1) == MUZSERLIK_REFUSED_UNKNOWN_NODE);
    CHECK(same_trees(tree, &noise));
    CHECK(muzserlik_tree_start(tree, 3, 1) == MUZSERLIK_ACCEPTED);
    struct muzserlik_tree first = {.n = 3, .root = 1, .active = {0, 1, 0}};
    memset(first.engager, MUZSERLIK_TREE_NONE, sizeof first.engager);
    first.engager[1] = 1;
    CHECK(same_trees(tree, &first));
}

/* The root 1 engaged 2, which engaged 0; one acknowledgement is on its way to the root, one message to 0. */
static void tree_steps(struct muzserlik_tree *tree)
{
    CHECK(muzserlik_tree_step(tree, MUZSERLIK_SEND, 1, 0) == MUZSERLIK_ACCEPTED);
    CHECK(muzserlik_tree_step(tree, MUZSERLIK_SEND, 1, 2) == MUZSERLIK_ACCEPTED);
    CHECK(muzserlik_tree_step(tree, MUZSERLIK_SEND, 1, 2) == MUZSERLIK_ACCEPTED);
    CHECK(muzserlik_tree_step(tree, MUZSERLIK_TAKE, 2, 1) == MUZSERLIK_ACCEPTED);
    CHECK(muzserlik_tree_step(tree, MUZSERLIK_TAKE, 2, 1) == MUZSERLIK_ACCEPTED);
    CHECK(muzserlik_tree_step(tree, MUZSERLIK_SEND, 2, 0) == MUZSERLIK_ACCEPTED);
    CHECK(muzserlik_tree_step(tree, MUZSERLIK_TAKE, 0, 2) == MUZSERLIK_ACCEPTED);
    struct muzserlik_tree now = {.n = 3, .root = 1, .active = {1, 1, 1}, .unacked = {0, 3, 1}, .acks = {0, 1, 0}, .sends = 4};
    memset(now.engager, MUZSERLIK_TREE_NONE, sizeof now.engager);
    now.engager[0] = 2;
    now.engager[1] = 1;
    now.engager[2] = 1;
    now.transit[16 * 1 + 0] = 1;
    CHECK(same_trees(tree, &now));
    CHECK(muzserlik_tree_is_sound(tree) == 1);
    const size_t unknown[] = {0, 7, 256, 257, ((size_t)1 << 32) + 1, (size_t)-1};
    for (size_t k = 0; k < sizeof unknown / sizeof unknown[0]; k++)
        CHECK(tree_refusal(tree, unknown[k], 1, 0) == MUZSERLIK_REFUSED_UNKNOWN_KIND);
    CHECK(tree_refusal(tree, MUZSERLIK_TAKE, 0, 3) == MUZSERLIK_REFUSED_UNKNOWN_NODE);
    CHECK(tree_refusal(tree, MUZSERLIK_SEND, 3, 3) == MUZSERLIK_REFUSED_UNKNOWN_NODE);
    CHECK(tree_refusal(tree, MUZSERLIK_TAKE, 1, 1) == MUZSERLIK_REFUSED_RULE_FAILS);
    CHECK(tree_refusal(tree, MUZSERLIK_ACK, 2, 0) == MUZSERLIK_REFUSED_RULE_FAILS);
    tree->sends = MUZSERLIK_SEND_LIMIT;
    CHECK(muzserlik_tree_is_sound(tree) == 1);
    CHECK(tree_refusal(tree, MUZSERLIK_SEND, 1, 0) == MUZSERLIK_REFUSED_SEND_LIMIT);
    CHECK(tree_refusal(tree, MUZSERLIK_SEND, 1, 1) == MUZSERLIK_REFUSED_SEND_LIMIT);
    tree->sends = 4;
}

static void tree_texts(struct muzserlik_tree *tree)
{
    uint8_t buffer[16], noise[16], engager[MUZSERLIK_TREE_NODES], before[MUZSERLIK_TREE_NODES];
    size_t length = 77, root = 77;
    memset(buffer, 0xa5, sizeof buffer);
    memset(noise, 0xa5, sizeof noise);
    memset(engager, 0xa5, sizeof engager);
    memset(before, 0xa5, sizeof before);
    CHECK(muzserlik_tree_write(tree, NULL, 0, &length) == MUZSERLIK_REFUSED_SHORT_BUFFER);
    CHECK(muzserlik_tree_write(tree, buffer, 10, &length) == MUZSERLIK_REFUSED_SHORT_BUFFER);
    CHECK(length == 77 && memcmp(buffer, noise, sizeof buffer) == 0);
    CHECK(muzserlik_tree_write(tree, buffer, sizeof buffer, &length) == MUZSERLIK_ACCEPTED);
    CHECK(length == 11 && memcmp(buffer, "(1 (2 (0)))", 11) == 0 && memcmp(buffer + 11, noise, 5) == 0);
    CHECK(muzserlik_tree_read(MUZSERLIK_TREE_NODES + 1, buffer, length, engager, &root) == MUZSERLIK_REFUSED_NODE_COUNT);
    CHECK(muzserlik_tree_read(2, buffer, length, engager, &root) == MUZSERLIK_REFUSED_UNKNOWN_NODE);
    CHECK(muzserlik_tree_read(3, buffer, length + 1, engager, &root) == MUZSERLIK_REFUSED_NOT_A_FORM);
    CHECK(muzserlik_tree_read(3, NULL, 0, engager, &root) == MUZSERLIK_REFUSED_NOT_A_FORM);
    CHECK(root == 77 && memcmp(engager, before, sizeof engager) == 0);
    CHECK(muzserlik_tree_read(3, buffer, length, engager, &root) == MUZSERLIK_ACCEPTED);
    CHECK(root == 1 && memcmp(engager, tree->engager, sizeof engager) == 0);
    tree->closed = 2;
    CHECK(muzserlik_tree_is_sound(tree) == 0);
    CHECK(tree_refusal(tree, MUZSERLIK_IDLE, 0, 0) == MUZSERLIK_REFUSED_UNSOUND);
    CHECK(muzserlik_tree_write(tree, buffer, sizeof buffer, &length) == MUZSERLIK_REFUSED_UNSOUND);
    tree->closed = 0;
}

/* 0 and 2 leave, the root has its acknowledgements, and announces. */
static void tree_ends(struct muzserlik_tree *tree)
{
    const struct {
        size_t kind, i, j;
    } steps[] = {{MUZSERLIK_ACK, 1, 0},   {MUZSERLIK_IDLE, 0, 0}, {MUZSERLIK_LEAVE, 0, 0}, {MUZSERLIK_TAKE, 0, 1}, {MUZSERLIK_IDLE, 0, 0},
                 {MUZSERLIK_LEAVE, 0, 0}, {MUZSERLIK_ACK, 2, 0},  {MUZSERLIK_IDLE, 2, 0},  {MUZSERLIK_IDLE, 1, 0}, {MUZSERLIK_LEAVE, 2, 0},
                 {MUZSERLIK_ACK, 1, 0}};
    for (size_t k = 0; k < sizeof steps / sizeof steps[0]; k++)
        CHECK(muzserlik_tree_step(tree, steps[k].kind, steps[k].i, steps[k].j) == MUZSERLIK_ACCEPTED);
    CHECK(tree->engager[0] == MUZSERLIK_TREE_NONE && tree->engager[2] == MUZSERLIK_TREE_NONE);
    CHECK(tree_refusal(tree, MUZSERLIK_ANNOUNCE, 0, 0) == MUZSERLIK_REFUSED_RULE_FAILS);
    CHECK(muzserlik_tree_step(tree, MUZSERLIK_ACK, 1, 0) == MUZSERLIK_ACCEPTED);
    CHECK(muzserlik_tree_step(tree, MUZSERLIK_ANNOUNCE, 0, 0) == MUZSERLIK_ACCEPTED);
    CHECK(tree->closed == 1 && tree_refusal(tree, MUZSERLIK_ACK, 1, 0) == MUZSERLIK_REFUSED_CLOSED);
}

/* The root 1 engages 2, which sends to itself and takes it: it is engaged already, so it acknowledges itself. 0 is not engaged. */
static void tree_to_oneself(struct muzserlik_tree *tree)
{
    CHECK(muzserlik_tree_start(tree, 3, 1) == MUZSERLIK_ACCEPTED);
    CHECK(tree_refusal(tree, MUZSERLIK_SEND, 2, 2) == MUZSERLIK_REFUSED_RULE_FAILS);
    CHECK(muzserlik_tree_step(tree, MUZSERLIK_SEND, 1, 2) == MUZSERLIK_ACCEPTED);
    CHECK(muzserlik_tree_step(tree, MUZSERLIK_TAKE, 2, 1) == MUZSERLIK_ACCEPTED);
    CHECK(muzserlik_tree_step(tree, MUZSERLIK_SEND, 2, 2) == MUZSERLIK_ACCEPTED);
    struct muzserlik_tree now = {.n = 3, .root = 1, .active = {0, 1, 1}, .unacked = {0, 1, 1}, .sends = 2};
    memset(now.engager, MUZSERLIK_TREE_NONE, sizeof now.engager);
    now.engager[1] = 1;
    now.engager[2] = 1;
    now.transit[16 * 2 + 2] = 1;
    CHECK(same_trees(tree, &now) && muzserlik_tree_is_sound(tree) == 1);
    CHECK(tree_refusal(tree, MUZSERLIK_SEND, 0, 0) == MUZSERLIK_REFUSED_RULE_FAILS);
    CHECK(muzserlik_tree_step(tree, MUZSERLIK_IDLE, 2, 0) == MUZSERLIK_ACCEPTED);
    CHECK(tree_refusal(tree, MUZSERLIK_LEAVE, 2, 0) == MUZSERLIK_REFUSED_RULE_FAILS);
    CHECK(muzserlik_tree_step(tree, MUZSERLIK_TAKE, 2, 2) == MUZSERLIK_ACCEPTED);
    now.transit[16 * 2 + 2] = 0;
    now.acks[2] = 1;
    CHECK(same_trees(tree, &now) && muzserlik_tree_is_sound(tree) == 1);
    CHECK(muzserlik_tree_step(tree, MUZSERLIK_IDLE, 2, 0) == MUZSERLIK_ACCEPTED);
    CHECK(tree_refusal(tree, MUZSERLIK_LEAVE, 2, 0) == MUZSERLIK_REFUSED_RULE_FAILS);
    CHECK(muzserlik_tree_step(tree, MUZSERLIK_ACK, 2, 0) == MUZSERLIK_ACCEPTED);
    CHECK(muzserlik_tree_step(tree, MUZSERLIK_LEAVE, 2, 0) == MUZSERLIK_ACCEPTED);
    now.active[2] = 0;
    now.engager[2] = MUZSERLIK_TREE_NONE;
    now.unacked[2] = 0;
    now.acks[1] = 1;
    now.acks[2] = 0;
    CHECK(same_trees(tree, &now) && muzserlik_tree_is_sound(tree) == 1);
}

/* Whether a tree is sound with so many messages of a node to itself, and so many unacknowledged; and that it is else refused with 3. */
static int sound_with_own(const struct muzserlik_tree *tree, size_t i, uint32_t messages, uint32_t unacked)
{
    struct muzserlik_tree changed = *tree;
    changed.transit[16 * i + i] = messages;
    changed.unacked[i] = unacked;
    int sound = muzserlik_tree_is_sound(&changed);
    if (!sound)
        CHECK(tree_refusal(&changed, MUZSERLIK_TAKE, i, i) == MUZSERLIK_REFUSED_UNSOUND);
    return sound;
}

/* Filled by hand: the root 1 engaged 2, and each may hold messages to itself; 0 is not engaged, and there is no node 3 nor 15. */
static void tree_own_by_hand(struct muzserlik_tree *tree)
{
    CHECK(muzserlik_tree_start(tree, 3, 1) == MUZSERLIK_ACCEPTED);
    tree->engager[2] = 1;
    tree->unacked[1] = 1;
    tree->sends = 9;
    CHECK(muzserlik_tree_is_sound(tree) == 1);
    CHECK(sound_with_own(tree, 1, 2, 3) == 1 && sound_with_own(tree, 2, 2, 2) == 1);
    /* not counted, one too few, one too many, counted twice */
    CHECK(sound_with_own(tree, 1, 2, 1) == 0 && sound_with_own(tree, 2, 2, 0) == 0);
    CHECK(sound_with_own(tree, 1, 2, 2) == 0 && sound_with_own(tree, 2, 2, 1) == 0);
    CHECK(sound_with_own(tree, 1, 2, 4) == 0 && sound_with_own(tree, 2, 2, 3) == 0);
    CHECK(sound_with_own(tree, 1, 2, 5) == 0 && sound_with_own(tree, 2, 2, 4) == 0);
    /* with the root's one more, nine are unacknowledged with eight and ten with nine */
    CHECK(sound_with_own(tree, 2, 8, 8) == 1 && sound_with_own(tree, 2, 9, 9) == 0);
    const size_t none[] = {0, 3, 15};
    for (size_t k = 0; k < sizeof none / sizeof none[0]; k++)
        CHECK(sound_with_own(tree, none[k], 1, 0) == 0 && sound_with_own(tree, none[k], 1, 1) == 0);
}

/* The root alone sends to itself, takes it and has its acknowledgement, before it is passive or after; then it announces. */
static void tree_of_one(struct muzserlik_tree *tree)
{
    const size_t orders[][2] = {{MUZSERLIK_ACK, MUZSERLIK_IDLE}, {MUZSERLIK_IDLE, MUZSERLIK_ACK}};
    for (size_t k = 0; k < 2; k++) {
        CHECK(muzserlik_tree_start(tree, 1, 0) == MUZSERLIK_ACCEPTED);
        CHECK(muzserlik_tree_step(tree, MUZSERLIK_SEND, 0, 0) == MUZSERLIK_ACCEPTED);
        struct muzserlik_tree now = {.n = 1, .root = 0, .active = {1}, .unacked = {1}, .transit = {1}, .sends = 1};
        memset(now.engager, MUZSERLIK_TREE_NONE, sizeof now.engager);
        now.engager[0] = 0;
        CHECK(same_trees(tree, &now) && muzserlik_tree_is_sound(tree) == 1);
        CHECK(muzserlik_tree_step(tree, MUZSERLIK_TAKE, 0, 0) == MUZSERLIK_ACCEPTED);
        now.transit[0] = 0;
        now.acks[0] = 1;
        CHECK(same_trees(tree, &now) && muzserlik_tree_is_sound(tree) == 1);
        CHECK(tree_refusal(tree, MUZSERLIK_TAKE, 0, 0) == MUZSERLIK_REFUSED_RULE_FAILS);
        CHECK(muzserlik_tree_step(tree, orders[k][0], 0, 0) == MUZSERLIK_ACCEPTED);
        CHECK(tree_refusal(tree, MUZSERLIK_ANNOUNCE, 0, 0) == MUZSERLIK_REFUSED_RULE_FAILS);
        CHECK(muzserlik_tree_step(tree, orders[k][1], 0, 0) == MUZSERLIK_ACCEPTED);
        CHECK(tree_refusal(tree, MUZSERLIK_LEAVE, 0, 0) == MUZSERLIK_REFUSED_RULE_FAILS);
        CHECK(tree_refusal(tree, MUZSERLIK_SEND, 0, 0) == MUZSERLIK_REFUSED_RULE_FAILS);
        CHECK(muzserlik_tree_step(tree, MUZSERLIK_ANNOUNCE, 0, 0) == MUZSERLIK_ACCEPTED);
        now.active[0] = 0;
        now.unacked[0] = 0;
        now.acks[0] = 0;
        now.closed = 1;
        CHECK(same_trees(tree, &now) && tree_refusal(tree, MUZSERLIK_SEND, 0, 0) == MUZSERLIK_REFUSED_CLOSED);
    }
}

/* Each of 16 nodes engages the next one: no text is longer. */
static void tree_longest(struct muzserlik_tree *tree)
{
    const char text[] = "(0 (1 (2 (3 (4 (5 (6 (7 (8 (9 (10 (11 (12 (13 (14 (15))))))))))))))))";
    uint8_t buffer[MUZSERLIK_TREE_TEXT_BYTES + 1], noise[sizeof buffer], engager[MUZSERLIK_TREE_NODES];
    size_t length = 77, root = 77, room = MUZSERLIK_TREE_TEXT_BYTES;
    memset(buffer, 0xa5, sizeof buffer);
    memset(noise, 0xa5, sizeof noise);
    CHECK(muzserlik_tree_start(tree, MUZSERLIK_TREE_NODES, 0) == MUZSERLIK_ACCEPTED);
    for (size_t i = 1; i < MUZSERLIK_TREE_NODES; i++) {
        CHECK(muzserlik_tree_step(tree, MUZSERLIK_SEND, i - 1, i) == MUZSERLIK_ACCEPTED);
        CHECK(muzserlik_tree_step(tree, MUZSERLIK_TAKE, i, i - 1) == MUZSERLIK_ACCEPTED);
    }
    CHECK(muzserlik_tree_write(tree, buffer, room - 1, &length) == MUZSERLIK_REFUSED_SHORT_BUFFER);
    CHECK(length == 77 && memcmp(buffer, noise, sizeof buffer) == 0);
    CHECK(muzserlik_tree_write(tree, buffer, room, &length) == MUZSERLIK_ACCEPTED);
    CHECK(length == room && strlen(text) == room && memcmp(buffer, text, room) == 0 && buffer[room] == 0xa5);
    CHECK(muzserlik_tree_read(MUZSERLIK_TREE_NODES, buffer, length, engager, &root) == MUZSERLIK_ACCEPTED);
    CHECK(root == 0 && memcmp(engager, tree->engager, sizeof engager) == 0);
}

int main(void)
{
    struct muzserlik_ring ring;
    ring_starts(&ring);
    ring_steps(&ring);
    ring_unsound(&ring);
    ring_drives(&ring);
    ring_by_hand(&ring);
    ring_takes(&ring);
    ring_to_oneself(&ring);
    ring_of_one(&ring);
    ring_clauses(&ring);
    ring_limit(&ring);
    struct muzserlik_tree tree;
    tree_starts(&tree);
    tree_steps(&tree);
    tree_texts(&tree);
    tree_ends(&tree);
    tree_to_oneself(&tree);
    tree_own_by_hand(&tree);
    tree_of_one(&tree);
    tree_longest(&tree);
    printf("calls from C: %d checks\n", checks);
    return EXIT_SUCCESS;
}
