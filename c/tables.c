/*
 * Each function of muzserlik.h on a table called, its answer and every field after it compared with what the rules give: worked by hand, and over
 * many requests with eight rings, each stepped by itself. Places that are not started hold noise throughout, which no call may read or write.
 */
#include "muzserlik.h"

#include <stdio.h>
#include <stdlib.h>
#include <string.h>

/* The fields are as long as those that the archive reads and writes. */
#define LONG(field, bytes) _Static_assert(sizeof(((struct muzserlik_table *)0)->field) == (bytes), "muzserlik_table: " #field)

LONG(n, 8 * 8);
LONG(pos, 8 * 8);
LONG(q, 8 * 8);
LONG(black, 8);
LONG(closed, 8);
LONG(active, 8 * 96);
LONG(color, 8 * 12);
LONG(sent, 8 * 4 * 96);
LONG(received, 8 * 4 * 96);
LONG(pending, 8 * 4 * 96);

static int checks = 0;

#define CHECK(what)                                              \
    do {                                                         \
        checks++;                                                \
        if (!(what)) {                                           \
            printf("tables.c:%d: not so: %s\n", __LINE__, #what); \
            exit(EXIT_FAILURE);                                  \
        }                                                        \
    } while (0)

#define SAME(field) (memcmp(&a->field, &b->field, sizeof a->field) == 0)

static int same_tables(const struct muzserlik_table *a, const struct muzserlik_table *b)
{
    return SAME(n) && SAME(pos) && SAME(q) && SAME(black) && SAME(closed) && SAME(active) && SAME(color) && SAME(sent) && SAME(received)
        && SAME(pending);
}

/* A ring's fields put at update u. */
static void put(struct muzserlik_table *table, size_t u, const struct muzserlik_ring *ring)
{
    table->n[u] = ring->n;
    table->pos[u] = ring->pos;
    table->q[u] = ring->q;
    table->black[u] = ring->black;
    table->closed[u] = ring->closed;
    memcpy(table->active[u], ring->active, sizeof ring->active);
    memcpy(table->color[u], ring->color, sizeof ring->color);
    memcpy(table->sent[u], ring->sent, sizeof ring->sent);
    memcpy(table->received[u], ring->received, sizeof ring->received);
    memcpy(table->pending[u], ring->pending, sizeof ring->pending);
}

/* Nothing started, and noise in every other byte. */
static struct muzserlik_table noise(void)
{
    struct muzserlik_table table;
    memset(&table, 0xa5, sizeof table);
    memset(table.n, 0, sizeof table.n);
    return table;
}

/* The answer to a request that is refused; the table is as it was. */
static int step_refusal(struct muzserlik_table *table, size_t u, size_t kind, size_t i, size_t j)
{
    const struct muzserlik_table before = *table;
    int answer = muzserlik_table_step(table, u, kind, i, j);
    CHECK(same_tables(table, &before));
    return answer;
}

static int start_refusal(struct muzserlik_table *table, size_t u, size_t n, const uint8_t *flags, size_t count)
{
    const struct muzserlik_table before = *table;
    int answer = muzserlik_table_start(table, u, n, flags, count);
    CHECK(same_tables(table, &before));
    return answer;
}

static void starts(struct muzserlik_table *table)
{
    const uint8_t flags[] = {1, 2, 3}, high[] = {1, 4, 0}, many[MUZSERLIK_RING_NODES + 1] = {0};
    struct muzserlik_table zeros;
    memset(&zeros, 0, sizeof zeros);
    *table = noise();
    muzserlik_table_clear(table);
    CHECK(same_tables(table, &zeros) && muzserlik_table_is_sound(table) == 1);
    *table = noise();
    CHECK(muzserlik_table_is_sound(table) == 1);
    CHECK(start_refusal(table, MUZSERLIK_UPDATES, 0, high, 3) == MUZSERLIK_REFUSED_UNKNOWN_UPDATE);
    CHECK(start_refusal(table, (size_t)-1, 3, flags, 3) == MUZSERLIK_REFUSED_UNKNOWN_UPDATE);
    CHECK(start_refusal(table, ((size_t)1 << 32) + 7, 3, flags, 3) == MUZSERLIK_REFUSED_UNKNOWN_UPDATE);
    CHECK(start_refusal(table, 7, 0, flags, 0) == MUZSERLIK_REFUSED_NODE_COUNT);
    CHECK(start_refusal(table, 7, sizeof many, many, sizeof many) == MUZSERLIK_REFUSED_NODE_COUNT);
    CHECK(start_refusal(table, 7, (size_t)-1, flags, 3) == MUZSERLIK_REFUSED_NODE_COUNT);
    CHECK(start_refusal(table, 7, 2, flags, 3) == MUZSERLIK_REFUSED_START_FLAGS);
    CHECK(start_refusal(table, 7, 3, high, 3) == MUZSERLIK_REFUSED_START_FLAGS);
    CHECK(start_refusal(table, 7, 3, NULL, 0) == MUZSERLIK_REFUSED_START_FLAGS);
    /* the refused start of two nodes fixed nothing */
    CHECK(muzserlik_table_start(table, 7, 3, flags, 3) == MUZSERLIK_ACCEPTED);
    const struct muzserlik_ring first = {.n = 3, .active = {1, 0, 1}, .color = {6}, .black = 1};
    struct muzserlik_table now = noise();
    put(&now, 7, &first);
    CHECK(same_tables(table, &now) && muzserlik_table_is_sound(table) == 1);
    CHECK(start_refusal(table, 0, 2, flags, 2) == MUZSERLIK_REFUSED_NODE_COUNT);
    CHECK(start_refusal(table, 7, 4, flags, 3) == MUZSERLIK_REFUSED_NODE_COUNT);
    CHECK(start_refusal(table, 0, 3, high, 3) == MUZSERLIK_REFUSED_START_FLAGS);
    CHECK(muzserlik_table_start(table, 2, 3, many, 3) == MUZSERLIK_ACCEPTED);
    const struct muzserlik_ring idle = {.n = 3, .black = 1};
    put(&now, 2, &idle);
    CHECK(same_tables(table, &now) && muzserlik_table_is_sound(table) == 1);
}

/* As in calls.c: of update 7, node 1 received one of two messages, and the token passed node 2. Update 2 is as it was started. */
static void steps(struct muzserlik_table *table)
{
    const struct {
        size_t kind, i, j;
    } steps[] = {{MUZSERLIK_SEND, 0, 1},    {MUZSERLIK_SEND, 2, 1},  {MUZSERLIK_TAKE, 1, 1},
                 {MUZSERLIK_PROBE, 99, 99}, {MUZSERLIK_IDLE, 2, 99}, {MUZSERLIK_PASS, 2, 99}};
    struct muzserlik_table now = *table;
    for (size_t k = 0; k < sizeof steps / sizeof steps[0]; k++)
        CHECK(muzserlik_table_step(table, 7, steps[k].kind, steps[k].i, steps[k].j) == MUZSERLIK_ACCEPTED);
    const struct muzserlik_ring ring = {.n = 3,
                                        .active = {1, 1, 0},
                                        .color = {2},
                                        .sent = {1, 0, 1},
                                        .received = {0, 1, 0},
                                        .pending = {0, 1, 0},
                                        .pos = 1,
                                        .q = 1,
                                        .black = 1};
    put(&now, 7, &ring);
    CHECK(same_tables(table, &now) && muzserlik_table_is_sound(table) == 1);
    const size_t unknown[] = {0, 7, 256, 257, ((size_t)1 << 32) + 1, (size_t)-1};
    for (size_t k = 0; k < sizeof unknown / sizeof unknown[0]; k++) {
        CHECK(step_refusal(table, 7, unknown[k], 0, 1) == MUZSERLIK_REFUSED_UNKNOWN_KIND);
        CHECK(step_refusal(table, 8, unknown[k], 0, 1) == MUZSERLIK_REFUSED_UNKNOWN_UPDATE);
    }
    CHECK(step_refusal(table, (size_t)-1, MUZSERLIK_SEND, 0, 1) == MUZSERLIK_REFUSED_UNKNOWN_UPDATE);
    CHECK(step_refusal(table, 0, MUZSERLIK_SEND, 0, 1) == MUZSERLIK_REFUSED_UNKNOWN_UPDATE);
    CHECK(step_refusal(table, 7, MUZSERLIK_SEND, 0, 3) == MUZSERLIK_REFUSED_UNKNOWN_NODE);
    CHECK(step_refusal(table, 7, MUZSERLIK_TAKE, (size_t)-1, 0) == MUZSERLIK_REFUSED_UNKNOWN_NODE);
    /* refused, and once the node is active the same step again */
    CHECK(step_refusal(table, 7, MUZSERLIK_SEND, 2, 0) == MUZSERLIK_REFUSED_RULE_FAILS);
    CHECK(muzserlik_table_step(table, 7, MUZSERLIK_SEND, 0, 2) == MUZSERLIK_ACCEPTED);
    CHECK(muzserlik_table_step(table, 7, MUZSERLIK_TAKE, 2, 1) == MUZSERLIK_ACCEPTED);
    CHECK(muzserlik_table_step(table, 7, MUZSERLIK_SEND, 2, 0) == MUZSERLIK_ACCEPTED);
}

/* Of update 7 every node is active and sends to itself, node 2 once more as soon as it is passive: refused. Update 2 has no active node. */
static void to_oneself(struct muzserlik_table *table)
{
    struct muzserlik_table now = *table;
    for (size_t i = 0; i < 3; i++) {
        CHECK(step_refusal(table, 2, MUZSERLIK_SEND, i, i) == MUZSERLIK_REFUSED_RULE_FAILS);
        CHECK(step_refusal(table, 0, MUZSERLIK_SEND, i, i) == MUZSERLIK_REFUSED_UNKNOWN_UPDATE);
        CHECK(muzserlik_table_step(table, 7, MUZSERLIK_SEND, i, i) == MUZSERLIK_ACCEPTED);
        now.sent[7][i]++;
        now.pending[7][i]++;
        CHECK(same_tables(table, &now) && muzserlik_table_is_sound(table) == 1);
    }
    CHECK(step_refusal(table, 7, MUZSERLIK_SEND, 3, 3) == MUZSERLIK_REFUSED_UNKNOWN_NODE);
    CHECK(muzserlik_table_step(table, 7, MUZSERLIK_IDLE, 2, 0) == MUZSERLIK_ACCEPTED);
    CHECK(step_refusal(table, 7, MUZSERLIK_SEND, 2, 2) == MUZSERLIK_REFUSED_RULE_FAILS);
    CHECK(muzserlik_table_step(table, 7, MUZSERLIK_TAKE, 2, 1) == MUZSERLIK_ACCEPTED);
    now.received[7][2]++;
    now.pending[7][2]--;
    CHECK(same_tables(table, &now) && muzserlik_table_is_sound(table) == 1);
}

/* A byte above 1 where a truth of a started update belongs is 3, before 13 and 1; mended, the same call is answered as before. */
static void bytes(struct muzserlik_table *table)
{
    const uint8_t flags[] = {1, 0, 1};
    uint8_t *const truths[] = {&table->active[7][0], &table->active[7][95], &table->black[7], &table->closed[7], &table->active[2][2],
                               &table->black[2],     &table->closed[2]};
    for (size_t k = 0; k < sizeof truths / sizeof truths[0]; k++) {
        const uint8_t was = *truths[k];
        for (unsigned byte = 2; byte < 256; byte += 253) {
            *truths[k] = (uint8_t)byte;
            CHECK(muzserlik_table_is_sound(table) == 0);
            CHECK(step_refusal(table, 7, MUZSERLIK_IDLE, 1, 0) == MUZSERLIK_REFUSED_UNSOUND);
            CHECK(step_refusal(table, 2, MUZSERLIK_PROBE, 0, 0) == MUZSERLIK_REFUSED_UNSOUND);
            CHECK(step_refusal(table, 8, MUZSERLIK_PROBE, 0, 0) == MUZSERLIK_REFUSED_UNSOUND);
            CHECK(start_refusal(table, 7, 3, flags, 3) == MUZSERLIK_REFUSED_UNSOUND);
            CHECK(start_refusal(table, 0, 97, flags, 3) == MUZSERLIK_REFUSED_UNSOUND);
        }
        *truths[k] = was;
        CHECK(muzserlik_table_is_sound(table) == 1);
    }
    struct muzserlik_table two = *table;
    const struct muzserlik_ring other = {.n = 2, .black = 1};
    put(&two, 5, &other);
    CHECK(muzserlik_table_is_sound(&two) == 0 && step_refusal(&two, 7, MUZSERLIK_IDLE, 1, 0) == MUZSERLIK_REFUSED_UNSOUND);
    two.n[5] = 0;
    CHECK(muzserlik_table_is_sound(&two) == 1);
    struct muzserlik_table now = *table;
    now.active[7][1] = 0;
    CHECK(muzserlik_table_step(table, 7, MUZSERLIK_IDLE, 1, 0) == MUZSERLIK_ACCEPTED && same_tables(table, &now));
}

/* Update 2, with every node passive, is announced, and started afresh; update 7 runs on. */
static void ends(struct muzserlik_table *table)
{
    const uint8_t flags[] = {1, 0, 2};
    struct muzserlik_table now = *table;
    CHECK(step_refusal(table, 2, MUZSERLIK_ANNOUNCE, 0, 0) == MUZSERLIK_REFUSED_RULE_FAILS);
    CHECK(muzserlik_table_step(table, 2, MUZSERLIK_PROBE, 0, 0) == MUZSERLIK_ACCEPTED);
    CHECK(muzserlik_table_step(table, 2, MUZSERLIK_PASS, 2, 0) == MUZSERLIK_ACCEPTED);
    CHECK(muzserlik_table_step(table, 2, MUZSERLIK_PASS, 1, 0) == MUZSERLIK_ACCEPTED);
    CHECK(muzserlik_table_step(table, 2, MUZSERLIK_ANNOUNCE, 0, 0) == MUZSERLIK_ACCEPTED);
    const struct muzserlik_ring closed = {.n = 3, .closed = 1};
    put(&now, 2, &closed);
    CHECK(same_tables(table, &now));
    CHECK(step_refusal(table, 2, MUZSERLIK_PROBE, 0, 0) == MUZSERLIK_REFUSED_CLOSED);
    CHECK(muzserlik_table_step(table, 7, MUZSERLIK_SEND, 0, 2) == MUZSERLIK_ACCEPTED);
    now.sent[7][0]++;
    now.pending[7][2]++;
    CHECK(same_tables(table, &now));
    CHECK(start_refusal(table, 2, 3, flags, 2) == MUZSERLIK_REFUSED_START_FLAGS);
    CHECK(muzserlik_table_start(table, 2, 3, flags, 3) == MUZSERLIK_ACCEPTED);
    const struct muzserlik_ring fresh = {.n = 3, .active = {1, 0, 0}, .color = {4}, .black = 1};
    put(&now, 2, &fresh);
    CHECK(same_tables(table, &now) && muzserlik_table_is_sound(table) == 1);
}

/* Each update has an inbox of its own: 1,300 messages are on their way to node 1 of update 3, and two to that of update 5. */
static void takes(struct muzserlik_table *table)
{
    const struct muzserlik_ring full = {.n = 2, .active = {1, 0}, .sent = {1300, 0}, .pending = {0, 1300}, .black = 1};
    const struct muzserlik_ring few = {.n = 2, .active = {1, 0}, .sent = {2, 0}, .pending = {0, 2}, .black = 1};
    const size_t refused[] = {0, 1001, 1300, 1301, ((size_t)1 << 32) + 1, (size_t)-1};
    *table = noise();
    put(table, 3, &full);
    put(table, 5, &few);
    CHECK(muzserlik_table_is_sound(table) == 1);
    for (size_t k = 0; k < sizeof refused / sizeof refused[0]; k++) {
        CHECK(step_refusal(table, 3, MUZSERLIK_TAKE, 1, refused[k]) == MUZSERLIK_REFUSED_RULE_FAILS);
        CHECK(step_refusal(table, 3, MUZSERLIK_TAKE, 2, refused[k]) == MUZSERLIK_REFUSED_UNKNOWN_NODE);
        CHECK(step_refusal(table, 4, MUZSERLIK_TAKE, 1, refused[k]) == MUZSERLIK_REFUSED_UNKNOWN_UPDATE);
    }
    CHECK(step_refusal(table, 5, MUZSERLIK_TAKE, 1, 3) == MUZSERLIK_REFUSED_RULE_FAILS);
    struct muzserlik_table now = *table;
    const struct muzserlik_ring most = {
        .n = 2, .active = {1, 1}, .color = {2}, .sent = {1300, 0}, .received = {0, 1000}, .pending = {0, 300}, .black = 1};
    CHECK(muzserlik_table_step(table, 3, MUZSERLIK_TAKE, 1, 1000) == MUZSERLIK_ACCEPTED);
    put(&now, 3, &most);
    CHECK(same_tables(table, &now) && muzserlik_table_is_sound(table) == 1);
    CHECK(step_refusal(table, 3, MUZSERLIK_TAKE, 1, 301) == MUZSERLIK_REFUSED_RULE_FAILS);
    const struct muzserlik_ring both = {.n = 2, .active = {1, 1}, .color = {2}, .sent = {2, 0}, .received = {0, 2}, .black = 1};
    CHECK(muzserlik_table_step(table, 5, MUZSERLIK_TAKE, 1, 2) == MUZSERLIK_ACCEPTED);
    put(&now, 5, &both);
    CHECK(same_tables(table, &now) && muzserlik_table_is_sound(table) == 1);
}

/* Updates of one node: that of update 4 takes its own message and is announced, while that of update 1 has one on its way. */
static void one_node(struct muzserlik_table *table)
{
    const uint8_t flags[] = {1};
    const struct {
        size_t kind, j;
    } steps[] = {{MUZSERLIK_SEND, 0}, {MUZSERLIK_TAKE, 1}, {MUZSERLIK_IDLE, 0}, {MUZSERLIK_PROBE, 0}, {MUZSERLIK_ANNOUNCE, 0}};
    struct muzserlik_table now = noise();
    *table = now;
    CHECK(muzserlik_table_start(table, 1, 1, flags, 1) == MUZSERLIK_ACCEPTED);
    CHECK(muzserlik_table_step(table, 1, MUZSERLIK_SEND, 0, 0) == MUZSERLIK_ACCEPTED);
    CHECK(muzserlik_table_start(table, 4, 1, flags, 1) == MUZSERLIK_ACCEPTED);
    for (size_t k = 0; k < sizeof steps / sizeof steps[0]; k++) {
        CHECK(step_refusal(table, 1, MUZSERLIK_ANNOUNCE, 0, 0) == MUZSERLIK_REFUSED_RULE_FAILS);
        CHECK(muzserlik_table_step(table, 4, steps[k].kind, 0, steps[k].j) == MUZSERLIK_ACCEPTED);
        CHECK(muzserlik_table_is_sound(table) == 1);
    }
    const struct muzserlik_ring open = {.n = 1, .active = {1}, .sent = {1}, .pending = {1}, .black = 1};
    const struct muzserlik_ring closed = {.n = 1, .sent = {1}, .received = {1}, .closed = 1};
    put(&now, 1, &open);
    put(&now, 4, &closed);
    CHECK(same_tables(table, &now));
}

/*
 * Update 0 has 999,999 sends: one more is accepted, then 9. Beside it update 6 sends before and after, and so does update 1, started then. A fresh
 * start of update 0 sends again.
 */
static void limit(struct muzserlik_table *table)
{
    const uint8_t flags[] = {1, 1};
    const struct muzserlik_ring nearly = {.n = 2, .active = {1, 1}, .sent = {999999, 0}, .received = {0, 999999}, .black = 1};
    const struct muzserlik_ring few = {.n = 2, .active = {1, 1}, .sent = {0, 3}, .received = {2, 0}, .pending = {1, 0}, .black = 1};
    *table = noise();
    put(table, 0, &nearly);
    put(table, 6, &few);
    struct muzserlik_table now = *table;
    CHECK(muzserlik_table_step(table, 6, MUZSERLIK_SEND, 0, 1) == MUZSERLIK_ACCEPTED);
    CHECK(muzserlik_table_step(table, 0, MUZSERLIK_SEND, 0, 1) == MUZSERLIK_ACCEPTED);
    now.sent[6][0] = 1;
    now.pending[6][1] = 1;
    now.sent[0][0] = 1000000;
    now.pending[0][1] = 1;
    CHECK(same_tables(table, &now) && muzserlik_table_is_sound(table) == 1);
    CHECK(step_refusal(table, 0, MUZSERLIK_SEND, 0, 1) == MUZSERLIK_REFUSED_SEND_LIMIT);
    CHECK(step_refusal(table, 0, MUZSERLIK_SEND, 1, 1) == MUZSERLIK_REFUSED_SEND_LIMIT);
    CHECK(step_refusal(table, 0, MUZSERLIK_SEND, 0, 2) == MUZSERLIK_REFUSED_UNKNOWN_NODE);
    CHECK(muzserlik_table_step(table, 6, MUZSERLIK_SEND, 0, 0) == MUZSERLIK_ACCEPTED);
    CHECK(muzserlik_table_start(table, 1, 2, flags, 2) == MUZSERLIK_ACCEPTED);
    CHECK(muzserlik_table_step(table, 1, MUZSERLIK_SEND, 0, 1) == MUZSERLIK_ACCEPTED);
    CHECK(muzserlik_table_step(table, 0, MUZSERLIK_TAKE, 1, 1) == MUZSERLIK_ACCEPTED);
    CHECK(step_refusal(table, 0, MUZSERLIK_SEND, 1, 0) == MUZSERLIK_REFUSED_SEND_LIMIT);
    CHECK(start_refusal(table, 0, 3, flags, 2) == MUZSERLIK_REFUSED_NODE_COUNT);
    CHECK(step_refusal(table, 0, MUZSERLIK_SEND, 0, 1) == MUZSERLIK_REFUSED_SEND_LIMIT);
    CHECK(muzserlik_table_start(table, 0, 2, flags, 2) == MUZSERLIK_ACCEPTED);
    CHECK(muzserlik_table_step(table, 0, MUZSERLIK_SEND, 0, 1) == MUZSERLIK_ACCEPTED);
    const struct muzserlik_ring once = {.n = 2, .active = {1, 1}, .sent = {1, 0}, .pending = {0, 1}, .black = 1};
    put(&now, 0, &once);
    put(&now, 1, &once);
    now.sent[6][0] = 2;
    now.pending[6][0] = 2;
    CHECK(same_tables(table, &now) && muzserlik_table_is_sound(table) == 1);
}

/* One to eight updates at 1,000,000 sends, each answering 9, until it is started afresh; with one more of any of them the table is not sound. */
static void limits(struct muzserlik_table *table)
{
    const uint8_t flags[] = {1, 1};
    const struct muzserlik_ring full = {.n = 2, .active = {1, 1}, .sent = {1000000, 0}, .received = {0, 1000000}, .black = 1};
    const struct muzserlik_ring more = {.n = 2, .active = {1, 1}, .sent = {1000000, 1}, .received = {0, 1000001}, .black = 1};
    *table = noise();
    for (size_t u = 0; u < MUZSERLIK_UPDATES; u++) {
        put(table, u, &full);
        CHECK(muzserlik_table_is_sound(table) == 1);
        for (size_t v = 0; v < MUZSERLIK_UPDATES; v++) {
            struct muzserlik_table over = *table;
            CHECK(step_refusal(table, v, MUZSERLIK_SEND, 0, 1) == (v <= u ? MUZSERLIK_REFUSED_SEND_LIMIT : MUZSERLIK_REFUSED_UNKNOWN_UPDATE));
            put(&over, v, &more);
            CHECK(muzserlik_table_is_sound(&over) == 0);
            CHECK(step_refusal(&over, 0, MUZSERLIK_IDLE, 0, 0) == MUZSERLIK_REFUSED_UNSOUND);
            CHECK(start_refusal(&over, v, 2, flags, 2) == MUZSERLIK_REFUSED_UNSOUND);
        }
    }
    CHECK(muzserlik_table_start(table, 5, 2, flags, 2) == MUZSERLIK_ACCEPTED);
    CHECK(muzserlik_table_step(table, 5, MUZSERLIK_SEND, 0, 1) == MUZSERLIK_ACCEPTED);
    CHECK(step_refusal(table, 6, MUZSERLIK_SEND, 0, 1) == MUZSERLIK_REFUSED_SEND_LIMIT);
    *table = noise();
    put(table, 5, &more);
    CHECK(muzserlik_table_is_sound(table) == 0);
}

/* Two updates with 1,000,000 sends between them, then 1,000,001 and 1,000,002: the limit of neither. */
static void together(struct muzserlik_table *table)
{
    const struct muzserlik_ring most = {.n = 2, .active = {1, 1}, .sent = {600000, 0}, .received = {0, 600000}, .black = 1};
    const struct muzserlik_ring rest = {.n = 2, .active = {1, 1}, .sent = {0, 400000}, .received = {400000, 0}, .black = 1};
    *table = noise();
    put(table, 3, &most);
    put(table, 4, &rest);
    struct muzserlik_table now = *table;
    for (size_t u = 3; u <= 4; u++) {
        CHECK(muzserlik_table_is_sound(table) == 1);
        CHECK(muzserlik_table_step(table, u, MUZSERLIK_SEND, 0, 1) == MUZSERLIK_ACCEPTED);
        now.sent[u][0]++;
        now.pending[u][1]++;
        CHECK(same_tables(table, &now));
    }
    CHECK(muzserlik_table_is_sound(table) == 1);
}

static unsigned draw(unsigned below)
{
    static uint64_t seed = 1;
    seed = seed * 6364136223846793005u + 1442695040888963407u;
    return (unsigned)(seed >> 33) % below;
}

/*
 * Requests of all updates, each answered as the ring of that update answers; and the whole table after each. Four updates begin at their limit of
 * sends or up to three below it.
 */
static void beside_rings(struct muzserlik_table *table)
{
    struct muzserlik_ring rings[MUZSERLIK_UPDATES];
    struct muzserlik_table now = noise();
    int told[14] = {0}, own = 0;
    memset(rings, 0, sizeof rings);
    for (size_t u = 0; u < MUZSERLIK_UPDATES; u += 2) {
        const uint32_t sends = 1000000 - (uint32_t)u / 2;
        rings[u] = (struct muzserlik_ring){.n = 3, .active = {1, 1, 1}, .sent = {sends}, .received = {0, sends}, .black = 1};
        put(&now, u, &rings[u]);
    }
    *table = now;
    for (int k = 0; k < 20000; k++) {
        const size_t u = draw(10), i = draw(4), j = draw(4), kind = draw(8);
        int expected = MUZSERLIK_REFUSED_UNKNOWN_UPDATE, answer;
        if (draw(50) == 0) {
            const uint8_t flags[] = {(uint8_t)draw(4), (uint8_t)draw(4), (uint8_t)draw(4)};
            if (u < MUZSERLIK_UPDATES)
                expected = muzserlik_ring_start(&rings[u], 3, flags, 3);
            answer = muzserlik_table_start(table, u, 3, flags, 3);
        } else {
            if (u < MUZSERLIK_UPDATES && rings[u].n != 0)
                expected = muzserlik_ring_step(&rings[u], kind, i, j);
            answer = muzserlik_table_step(table, u, kind, i, j);
            own += expected == MUZSERLIK_ACCEPTED && kind == MUZSERLIK_SEND && i == j;
        }
        if (expected == MUZSERLIK_ACCEPTED)
            put(&now, u, &rings[u]);
        told[expected]++;
        CHECK(answer == expected && same_tables(table, &now));
    }
    for (int number = 4; number <= 9; number++)
        CHECK((told[number] > 0) == (number != 7));
    CHECK(told[0] > 1000 && told[13] > 1000 && own > 40 && muzserlik_table_is_sound(table) == 1);
}

int main(void)
{
    struct muzserlik_table table;
    starts(&table);
    steps(&table);
    to_oneself(&table);
    bytes(&table);
    ends(&table);
    takes(&table);
    one_node(&table);
    limit(&table);
    limits(&table);
    together(&table);
    beside_rings(&table);
    printf("calls from C on tables: %d checks\n", checks);
    return EXIT_SUCCESS;
}
