/*
 * Each function of muzserlik.h on a panel called, its answer and every field after it compared with what the rules give: worked by hand, and over many
 * requests with a ring that is stepped by itself and marks that are set beside it. Refused calls are lent noise where they may be, and leave it.
 */
#include "muzserlik.h"

#include <stdio.h>
#include <stdlib.h>
#include <string.h>

/* The fields are as long as those that the archive reads and writes. */
#define LONG(field, bytes) _Static_assert(sizeof(((struct muzserlik_panel *)0)->field) == (bytes), "muzserlik_panel: " #field)

LONG(ring.active, 96);
LONG(ring.color, 12);
LONG(ring.sent, 4 * 96);
LONG(firmware, 96);
LONG(map, 96);
LONG(recorded, 1);

static int checks = 0;

#define CHECK(what)                                              \
    do {                                                         \
        checks++;                                                \
        if (!(what)) {                                           \
            printf("panels.c:%d: not so: %s\n", __LINE__, #what); \
            exit(EXIT_FAILURE);                                  \
        }                                                        \
    } while (0)

#define SAME(field) (memcmp(&a->field, &b->field, sizeof a->field) == 0)

static int same_rings(const struct muzserlik_ring *a, const struct muzserlik_ring *b)
{
    return SAME(n) && SAME(active) && SAME(color) && SAME(sent) && SAME(received) && SAME(pending) && SAME(pos) && SAME(q) && SAME(black)
        && SAME(closed);
}

static int same_panels(const struct muzserlik_panel *a, const struct muzserlik_panel *b)
{
    return same_rings(&a->ring, &b->ring) && SAME(firmware) && SAME(map) && SAME(recorded);
}

/* The answer to a request that is refused; the panel is as it was. */
static int enter_refusal(size_t n, const uint8_t *flags, size_t count)
{
    struct muzserlik_panel panel, before;
    memset(&panel, 0xa5, sizeof panel);
    before = panel;
    int answer = muzserlik_panel_enter(&panel, n, flags, count);
    CHECK(same_panels(&panel, &before));
    return answer;
}

static int start_refusal(struct muzserlik_panel *panel, size_t n, const uint8_t *flags, size_t count)
{
    const struct muzserlik_panel before = *panel;
    int answer = muzserlik_panel_start(panel, n, flags, count);
    CHECK(same_panels(panel, &before));
    return answer;
}

static int step_refusal(struct muzserlik_panel *panel, size_t kind, size_t i, size_t j)
{
    const struct muzserlik_panel before = *panel;
    int answer = muzserlik_panel_step(panel, kind, i, j);
    CHECK(same_panels(panel, &before));
    return answer;
}

/* Steps that are accepted, each leaving a sound panel. */
static void steps(struct muzserlik_panel *panel, const size_t (*list)[3], size_t count)
{
    for (size_t k = 0; k < count; k++) {
        CHECK(muzserlik_panel_step(panel, list[k][0], list[k][1], list[k][2]) == MUZSERLIK_ACCEPTED);
        CHECK(muzserlik_panel_is_sound(panel) == 1);
    }
}

#define STEPS(panel, list) steps(panel, list, sizeof(list) / sizeof((list)[0]))

/* A panel of three nodes, node 0 active, into noise. */
static struct muzserlik_panel entered(void)
{
    const uint8_t flags[] = {1, 0, 0};
    struct muzserlik_panel panel;
    memset(&panel, 0xa5, sizeof panel);
    CHECK(muzserlik_panel_enter(&panel, 3, flags, 3) == MUZSERLIK_ACCEPTED);
    return panel;
}

static void enters(void)
{
    const uint8_t flags[] = {1, 2, 3}, high[] = {1, 4, 0}, many[MUZSERLIK_RING_NODES + 1] = {0};
    CHECK(enter_refusal(0, flags, 0) == MUZSERLIK_REFUSED_NODE_COUNT);
    CHECK(enter_refusal(sizeof many, many, sizeof many) == MUZSERLIK_REFUSED_NODE_COUNT);
    CHECK(enter_refusal((size_t)-1, high, 3) == MUZSERLIK_REFUSED_NODE_COUNT);
    CHECK(enter_refusal(((size_t)1 << 32) + 3, flags, 3) == MUZSERLIK_REFUSED_NODE_COUNT);
    CHECK(enter_refusal(2, flags, 3) == MUZSERLIK_REFUSED_START_FLAGS);
    CHECK(enter_refusal(3, high, 3) == MUZSERLIK_REFUSED_START_FLAGS);
    CHECK(enter_refusal(3, NULL, 0) == MUZSERLIK_REFUSED_START_FLAGS);
    const struct muzserlik_panel first = {.ring = {.n = 3, .active = {1, 0, 1}, .color = {6}, .black = 1}};
    struct muzserlik_panel panel;
    memset(&panel, 0xa5, sizeof panel);
    CHECK(muzserlik_panel_enter(&panel, 3, flags, 3) == MUZSERLIK_ACCEPTED);
    CHECK(same_panels(&panel, &first) && muzserlik_panel_is_sound(&panel) == 1);
    const struct muzserlik_panel largest = {.ring = {.n = MUZSERLIK_RING_NODES, .black = 1}};
    CHECK(muzserlik_panel_enter(&panel, MUZSERLIK_RING_NODES, many, MUZSERLIK_RING_NODES) == MUZSERLIK_ACCEPTED);
    CHECK(same_panels(&panel, &largest) && muzserlik_panel_is_sound(&panel) == 1);
}

/* Each job word, taken by node 2, of which both marks are old, or both new: one message is received, and one mark is set. */
static void words(void)
{
    const struct {
        size_t word;
        uint8_t firmware[2], map[2];
    } sets[] = {{MUZSERLIK_FIRMWARE_NEW, {1, 1}, {0, 1}},
                {MUZSERLIK_MAP_NEW, {0, 1}, {1, 1}},
                {MUZSERLIK_FIRMWARE_OLD, {0, 0}, {0, 1}},
                {MUZSERLIK_MAP_OLD, {0, 1}, {0, 0}}};
    const size_t sends[][3] = {{MUZSERLIK_SEND, 0, 2}, {MUZSERLIK_SEND, 0, 2}, {MUZSERLIK_SEND, 0, 0}};
    struct muzserlik_panel panel = entered();
    STEPS(&panel, sends);
    for (size_t k = 0; k < 8; k++) {
        struct muzserlik_panel next = panel;
        next.firmware[2] = next.map[2] = (uint8_t)(k % 2);
        struct muzserlik_panel now = next;
        CHECK(muzserlik_panel_step(&next, MUZSERLIK_TAKE, 2, sets[k / 2].word) == MUZSERLIK_ACCEPTED);
        CHECK(muzserlik_ring_step(&now.ring, MUZSERLIK_TAKE, 2, 1) == MUZSERLIK_ACCEPTED);
        now.firmware[2] = sets[k / 2].firmware[k % 2];
        now.map[2] = sets[k / 2].map[k % 2];
        CHECK(same_panels(&next, &now) && next.ring.pending[2] == 1 && muzserlik_panel_is_sound(&next) == 1);
    }
}

/* A word that is none: 14 with and without a message on its way, but not before 6; and other kinds read no word. */
static void no_words(void)
{
    const size_t none[] = {0, 5, 256, 257, 260, 65537, ((size_t)1 << 32) + 1, ((size_t)1 << 32) + 4, ((size_t)1 << 63) + 2, (size_t)-1};
    const size_t sends[][3] = {{MUZSERLIK_SEND, 0, 2}};
    struct muzserlik_panel panel = entered();
    STEPS(&panel, sends);
    for (size_t k = 0; k < sizeof none / sizeof none[0]; k++) {
        CHECK(step_refusal(&panel, MUZSERLIK_TAKE, 2, none[k]) == MUZSERLIK_REFUSED_JOB_WORD);
        CHECK(step_refusal(&panel, MUZSERLIK_TAKE, 1, none[k]) == MUZSERLIK_REFUSED_JOB_WORD);
        CHECK(step_refusal(&panel, MUZSERLIK_TAKE, 3, none[k]) == MUZSERLIK_REFUSED_UNKNOWN_NODE);
        CHECK(step_refusal(&panel, MUZSERLIK_TAKE, (size_t)-1, none[k]) == MUZSERLIK_REFUSED_UNKNOWN_NODE);
        CHECK(step_refusal(&panel, MUZSERLIK_IDLE, 1, none[k]) == MUZSERLIK_REFUSED_RULE_FAILS);
        CHECK(step_refusal(&panel, MUZSERLIK_CLOSE, none[k], none[k]) == MUZSERLIK_REFUSED_RULE_FAILS);
    }
    for (size_t word = 1; word <= 4; word++) {
        CHECK(step_refusal(&panel, MUZSERLIK_TAKE, 1, word) == MUZSERLIK_REFUSED_RULE_FAILS);
        CHECK(step_refusal(&panel, MUZSERLIK_TAKE, 3, word) == MUZSERLIK_REFUSED_UNKNOWN_NODE);
    }
    const size_t unknown[] = {0, 7, 256, 257, 262, ((size_t)1 << 32) + 2, (size_t)-1};
    for (size_t k = 0; k < sizeof unknown / sizeof unknown[0]; k++)
        CHECK(step_refusal(&panel, unknown[k], 9, 9) == MUZSERLIK_REFUSED_UNKNOWN_KIND);
    CHECK(step_refusal(&panel, MUZSERLIK_SEND, 0, 3) == MUZSERLIK_REFUSED_UNKNOWN_NODE);
    CHECK(step_refusal(&panel, MUZSERLIK_SEND, 1, 1) == MUZSERLIK_REFUSED_RULE_FAILS);
}

/* What is not sound: 3 to each call that reads the panel, before 1, 2, 4, 5, 6 and 14. */
static void unsound(struct muzserlik_panel *panel)
{
    const uint8_t flags[] = {1, 0, 1}, high[] = {4};
    CHECK(muzserlik_panel_is_sound(panel) == 0);
    CHECK(step_refusal(panel, MUZSERLIK_IDLE, 0, 0) == MUZSERLIK_REFUSED_UNSOUND);
    CHECK(step_refusal(panel, MUZSERLIK_CLOSE, 0, 0) == MUZSERLIK_REFUSED_UNSOUND);
    CHECK(step_refusal(panel, MUZSERLIK_TAKE, 99, 0) == MUZSERLIK_REFUSED_UNSOUND);
    CHECK(step_refusal(panel, 7, 0, 0) == MUZSERLIK_REFUSED_UNSOUND);
    CHECK(start_refusal(panel, 3, flags, 3) == MUZSERLIK_REFUSED_UNSOUND);
    CHECK(start_refusal(panel, 97, high, 1) == MUZSERLIK_REFUSED_UNSOUND);
}

/* A byte above 1 at each place of the marks, a record above 2, a byte that is no truth of the ring; mended, the panel is sound again. */
static void bytes(struct muzserlik_panel *panel)
{
    uint8_t *const truths[] = {&panel->ring.active[1], &panel->ring.active[95], &panel->ring.black, &panel->ring.closed};
    const uint8_t recorded = panel->recorded;
    for (size_t k = 0; k < 2 * MUZSERLIK_RING_NODES; k++) {
        uint8_t *const mark = k % 2 == 0 ? &panel->firmware[k / 2] : &panel->map[k / 2];
        const uint8_t was = *mark;
        for (unsigned byte = 2; byte < 256; byte += k < 8 ? 1 : 253) {
            *mark = (uint8_t)byte;
            unsound(panel);
        }
        *mark = was;
    }
    for (unsigned byte = 3; byte < 256; byte++) {
        panel->recorded = (uint8_t)byte;
        unsound(panel);
    }
    panel->recorded = recorded;
    for (size_t k = 0; k < sizeof truths / sizeof truths[0]; k++) {
        const uint8_t was = *truths[k];
        *truths[k] = 2;
        unsound(panel);
        *truths[k] = was;
    }
    CHECK(muzserlik_panel_is_sound(panel) == 1);
}

/* An unused mark that is new, at each place; a record while the panel is open. Marks in use may be anything there. */
static void open_panel(struct muzserlik_panel panel)
{
    for (size_t i = 0; i < MUZSERLIK_RING_NODES; i++) {
        struct muzserlik_panel firmware = panel, map = panel;
        firmware.firmware[i] ^= 1;
        map.map[i] ^= 1;
        CHECK(muzserlik_panel_is_sound(&firmware) == (i < panel.ring.n));
        CHECK(muzserlik_panel_is_sound(&map) == (i < panel.ring.n));
    }
    panel.firmware[3] = 1;
    unsound(&panel);
    panel.firmware[3] = 0;
    for (uint8_t word = MUZSERLIK_RECORD_OLD; word <= MUZSERLIK_RECORD_NEW; word++) {
        panel.recorded = word;
        unsound(&panel);
    }
}

/* Closed without a record, with the other word, or with one mark of one node unlike the record, in use or not. */
static void closed_panel(struct muzserlik_panel panel)
{
    const uint8_t word = panel.recorded;
    CHECK(panel.ring.closed == 1 && muzserlik_panel_is_sound(&panel) == 1);
    panel.recorded = MUZSERLIK_RECORD_EMPTY;
    unsound(&panel);
    panel.recorded = (uint8_t)(3 - word);
    unsound(&panel);
    panel.recorded = word;
    for (size_t i = 0; i < MUZSERLIK_RING_NODES; i++) {
        panel.firmware[i] ^= 1;
        unsound(&panel);
        panel.firmware[i] ^= 1;
        panel.map[i] ^= 1;
        unsound(&panel);
        panel.map[i] ^= 1;
    }
    panel.ring.closed = 0;
    unsound(&panel);
}

/* Another N, in range or not, before the flags are looked at; then the flags. A panel of another size is not made by a start. */
static void start_refusals(struct muzserlik_panel *panel)
{
    const uint8_t flags[MUZSERLIK_RING_NODES + 1] = {1}, high[] = {1, 4, 0};
    const size_t other[] = {0, 1, 2, 4, 96, 97, 259, ((size_t)1 << 32) + 3, (size_t)-1};
    for (size_t k = 0; k < sizeof other / sizeof other[0]; k++) {
        const size_t count = other[k] <= sizeof flags ? other[k] : 3;
        CHECK(start_refusal(panel, other[k], flags, count) == MUZSERLIK_REFUSED_NODE_COUNT);
        CHECK(start_refusal(panel, other[k], high, 3) == MUZSERLIK_REFUSED_NODE_COUNT);
    }
    CHECK(start_refusal(panel, 3, high, 3) == MUZSERLIK_REFUSED_START_FLAGS);
    CHECK(start_refusal(panel, 3, flags, 2) == MUZSERLIK_REFUSED_START_FLAGS);
    CHECK(start_refusal(panel, 3, flags, 4) == MUZSERLIK_REFUSED_START_FLAGS);
    CHECK(start_refusal(panel, 3, NULL, 0) == MUZSERLIK_REFUSED_START_FLAGS);
}

/* The token goes round a ring of three that is passive. */
static const size_t round_of_token[][3] = {{MUZSERLIK_PROBE, 0, 0}, {MUZSERLIK_PASS, 2, 0}, {MUZSERLIK_PASS, 1, 0}};

/* No step is accepted, whatever its numbers. */
static void no_step(struct muzserlik_panel *panel, int told_to_close)
{
    for (size_t kind = 0; kind < 8; kind++)
        for (size_t k = 0; k < 36; k++) {
            const int answer = step_refusal(panel, kind, k / 6, k % 6);
            CHECK(answer != MUZSERLIK_ACCEPTED && (kind != MUZSERLIK_CLOSE || answer == told_to_close));
        }
}

/*
 * Firmware and map go to all three nodes, and a restore of the firmware to node 2, which is still on its way when the station asks to close: 8. Once
 * it is taken and all is quiet, the announce test holds after two rounds, but the marks are unequal: 15, and no step is accepted.
 */
static struct muzserlik_panel not_released(void)
{
    const size_t sends[][3] = {{MUZSERLIK_SEND, 0, 0}, {MUZSERLIK_SEND, 0, 0}, {MUZSERLIK_SEND, 0, 1}, {MUZSERLIK_SEND, 0, 1},
                               {MUZSERLIK_SEND, 0, 2}, {MUZSERLIK_SEND, 0, 2}, {MUZSERLIK_SEND, 0, 2}};
    const size_t takes[][3] = {{MUZSERLIK_TAKE, 0, MUZSERLIK_FIRMWARE_NEW}, {MUZSERLIK_TAKE, 1, MUZSERLIK_MAP_NEW},
                               {MUZSERLIK_TAKE, 2, MUZSERLIK_FIRMWARE_NEW}, {MUZSERLIK_TAKE, 0, MUZSERLIK_MAP_NEW},
                               {MUZSERLIK_TAKE, 1, MUZSERLIK_FIRMWARE_NEW}, {MUZSERLIK_TAKE, 2, MUZSERLIK_MAP_NEW},
                               {MUZSERLIK_IDLE, 0, 0},                      {MUZSERLIK_IDLE, 1, 0},
                               {MUZSERLIK_IDLE, 2, 0}};
    const size_t restored[][3] = {{MUZSERLIK_TAKE, 2, MUZSERLIK_FIRMWARE_OLD}, {MUZSERLIK_IDLE, 2, 0}};
    struct muzserlik_panel panel = entered();
    STEPS(&panel, sends);
    CHECK(step_refusal(&panel, MUZSERLIK_CLOSE, 0, 0) == MUZSERLIK_REFUSED_RULE_FAILS);
    STEPS(&panel, takes);
    STEPS(&panel, round_of_token);
    STEPS(&panel, round_of_token);
    /* every mark is new, and one job is still on its way */
    CHECK(panel.ring.pending[2] == 1 && step_refusal(&panel, MUZSERLIK_CLOSE, 0, 0) == MUZSERLIK_REFUSED_RULE_FAILS);
    STEPS(&panel, restored);
    /* the marks are unequal, but 8 comes before 15 */
    CHECK(step_refusal(&panel, MUZSERLIK_CLOSE, 0, 0) == MUZSERLIK_REFUSED_RULE_FAILS);
    STEPS(&panel, round_of_token);
    STEPS(&panel, round_of_token);
    CHECK(step_refusal(&panel, MUZSERLIK_CLOSE, 0, 0) == MUZSERLIK_REFUSED_UNEQUAL_MARKS);
    no_step(&panel, MUZSERLIK_REFUSED_UNEQUAL_MARKS);
    const struct muzserlik_panel now = {.ring = {.n = 3, .sent = {7, 0, 0}, .received = {2, 2, 3}, .q = -5},
                                        .firmware = {1, 1, 0},
                                        .map = {1, 1, 1}};
    CHECK(same_panels(&panel, &now));
    return panel;
}

/* A fresh start keeps the marks; the missing job is sent and taken, and the close is accepted: every mark is new, as is recorded. */
static struct muzserlik_panel released(struct muzserlik_panel panel)
{
    const uint8_t flags[] = {1, 0, 0};
    const size_t mended[][3] = {{MUZSERLIK_SEND, 0, 2}, {MUZSERLIK_TAKE, 2, MUZSERLIK_FIRMWARE_NEW}, {MUZSERLIK_IDLE, 0, 0}, {MUZSERLIK_IDLE, 2, 0}};
    const size_t closing[][3] = {{MUZSERLIK_CLOSE, 9, 9}};
    start_refusals(&panel);
    CHECK(muzserlik_panel_start(&panel, 3, flags, 3) == MUZSERLIK_ACCEPTED);
    struct muzserlik_panel now = {.ring = {.n = 3, .active = {1}, .black = 1}, .firmware = {1, 1, 0}, .map = {1, 1, 1}};
    CHECK(same_panels(&panel, &now) && muzserlik_panel_is_sound(&panel) == 1);
    STEPS(&panel, mended);
    STEPS(&panel, round_of_token);
    CHECK(step_refusal(&panel, MUZSERLIK_CLOSE, 0, 0) == MUZSERLIK_REFUSED_RULE_FAILS);
    STEPS(&panel, round_of_token);
    STEPS(&panel, closing);
    now = (struct muzserlik_panel){.ring = {.n = 3, .sent = {1, 0, 0}, .received = {0, 0, 1}, .q = -1, .closed = 1},
                                   .firmware = {1, 1, 1},
                                   .map = {1, 1, 1},
                                   .recorded = MUZSERLIK_RECORD_NEW};
    CHECK(same_panels(&panel, &now));
    no_step(&panel, MUZSERLIK_REFUSED_CLOSED);
    /* 4 before 5, 6 and 14 */
    CHECK(step_refusal(&panel, 7, 0, 0) == MUZSERLIK_REFUSED_CLOSED);
    CHECK(step_refusal(&panel, MUZSERLIK_TAKE, 3, 0) == MUZSERLIK_REFUSED_CLOSED);
    CHECK(step_refusal(&panel, MUZSERLIK_TAKE, 0, 5) == MUZSERLIK_REFUSED_CLOSED);
    return panel;
}

/* A start of a released panel empties the record and keeps the marks; a quiet one is closed again with the same word. */
static void started_again(struct muzserlik_panel panel)
{
    const uint8_t flags[] = {0, 2, 0};
    const size_t closing[][3] = {{MUZSERLIK_CLOSE, 0, 0}};
    start_refusals(&panel);
    CHECK(muzserlik_panel_start(&panel, 3, flags, 3) == MUZSERLIK_ACCEPTED);
    const struct muzserlik_panel now = {.ring = {.n = 3, .color = {2}, .black = 1}, .firmware = {1, 1, 1}, .map = {1, 1, 1}};
    CHECK(same_panels(&panel, &now));
    STEPS(&panel, round_of_token);
    STEPS(&panel, round_of_token);
    STEPS(&panel, closing);
    CHECK(panel.recorded == MUZSERLIK_RECORD_NEW);
}

/* A panel that is closed as it was entered records old; then one node's restores and new jobs. */
static void one_node(void)
{
    const uint8_t passive[] = {0}, active[] = {1};
    const size_t old[][3] = {{MUZSERLIK_PROBE, 0, 0}, {MUZSERLIK_CLOSE, 0, 0}};
    const size_t new[][3] = {{MUZSERLIK_SEND, 0, 0}, {MUZSERLIK_SEND, 0, 0}, {MUZSERLIK_TAKE, 0, MUZSERLIK_MAP_NEW},
                             {MUZSERLIK_TAKE, 0, MUZSERLIK_FIRMWARE_NEW}, {MUZSERLIK_IDLE, 0, 0}, {MUZSERLIK_PROBE, 0, 0}};
    struct muzserlik_panel panel;
    CHECK(muzserlik_panel_enter(&panel, 1, passive, 1) == MUZSERLIK_ACCEPTED);
    STEPS(&panel, old);
    CHECK(panel.ring.closed == 1 && panel.recorded == MUZSERLIK_RECORD_OLD);
    closed_panel(panel);
    CHECK(muzserlik_panel_start(&panel, 1, active, 1) == MUZSERLIK_ACCEPTED && panel.recorded == MUZSERLIK_RECORD_EMPTY);
    STEPS(&panel, new);
    CHECK(panel.firmware[0] == MUZSERLIK_MARK_NEW && panel.map[0] == MUZSERLIK_MARK_NEW);
    CHECK(muzserlik_panel_step(&panel, MUZSERLIK_CLOSE, 0, 0) == MUZSERLIK_ACCEPTED && panel.recorded == MUZSERLIK_RECORD_NEW);
    closed_panel(panel);
}

/* 999,999 sends: one more is accepted, then 9; a fresh start sends again, with the marks as they were. */
static void limit(void)
{
    const uint8_t flags[] = {1, 1};
    struct muzserlik_panel panel = {.ring = {.n = 2, .active = {1, 1}, .sent = {999999, 0}, .received = {0, 999999}, .black = 1},
                                    .firmware = {1, 0},
                                    .map = {0, 1}};
    CHECK(muzserlik_panel_step(&panel, MUZSERLIK_SEND, 0, 1) == MUZSERLIK_ACCEPTED && panel.ring.sent[0] == 1000000);
    CHECK(step_refusal(&panel, MUZSERLIK_SEND, 0, 1) == MUZSERLIK_REFUSED_SEND_LIMIT);
    CHECK(step_refusal(&panel, MUZSERLIK_SEND, 1, 1) == MUZSERLIK_REFUSED_SEND_LIMIT);
    CHECK(step_refusal(&panel, MUZSERLIK_SEND, 0, 2) == MUZSERLIK_REFUSED_UNKNOWN_NODE);
    struct muzserlik_panel over = panel;
    over.ring.sent[1] = 1;
    over.ring.pending[1]++;
    unsound(&over);
    CHECK(muzserlik_panel_step(&panel, MUZSERLIK_TAKE, 1, MUZSERLIK_MAP_OLD) == MUZSERLIK_ACCEPTED);
    CHECK(muzserlik_panel_start(&panel, 2, flags, 2) == MUZSERLIK_ACCEPTED);
    CHECK(muzserlik_panel_step(&panel, MUZSERLIK_SEND, 0, 1) == MUZSERLIK_ACCEPTED);
    const struct muzserlik_panel now = {.ring = {.n = 2, .active = {1, 1}, .sent = {1, 0}, .pending = {0, 1}, .black = 1}, .firmware = {1, 0}};
    CHECK(same_panels(&panel, &now));
}

static unsigned draw(unsigned below)
{
    static uint64_t seed = 1;
    seed = seed * 6364136223846793005u + 1442695040888963407u;
    return (unsigned)(seed >> 33) % below;
}

/* What a take or a close is answered, and what becomes of the marks, by a ring that is stepped by itself. */
static int by_ring(struct muzserlik_panel *now, size_t kind, size_t i, size_t j)
{
    const int is_word = j >= 1 && j <= 4;
    struct muzserlik_ring next = now->ring;
    int answer = muzserlik_ring_step(&next, kind, i, kind == MUZSERLIK_TAKE ? 1 : j);
    int equal = 1;
    for (size_t k = 0; k < now->ring.n; k++)
        equal = equal && now->firmware[k] == now->firmware[0] && now->map[k] == now->firmware[0];
    if (kind == MUZSERLIK_TAKE && !is_word && (answer == MUZSERLIK_ACCEPTED || answer == MUZSERLIK_REFUSED_RULE_FAILS))
        answer = MUZSERLIK_REFUSED_JOB_WORD;
    if (kind == MUZSERLIK_CLOSE && !equal && answer == MUZSERLIK_ACCEPTED)
        answer = MUZSERLIK_REFUSED_UNEQUAL_MARKS;
    if (answer != MUZSERLIK_ACCEPTED)
        return answer;
    now->ring = next;
    if (kind == MUZSERLIK_TAKE)
        (j % 2 == 1 ? now->firmware : now->map)[i] = j <= 2;
    if (kind == MUZSERLIK_CLOSE)
        now->recorded = (uint8_t)(1 + now->firmware[0]);
    return answer;
}

/* Steps and starts of a panel of two, each answered as by its ring and marks; and the whole panel after each. */
static void beside_rings(void)
{
    struct muzserlik_panel panel, now;
    int told[16] = {0}, closed[3] = {0};
    const uint8_t first[] = {1, 1};
    CHECK(muzserlik_panel_enter(&panel, 2, first, 2) == MUZSERLIK_ACCEPTED);
    now = panel;
    for (int k = 0; k < 60000; k++) {
        const size_t busy = k % 200 < 100, any = draw(6);
        const size_t i = draw(3), kind = draw(10) == 0 ? draw(8) : busy ? 1 + draw(3) : 2 + draw(5);
        /* jobs of all words, of new ones, of old ones, one run after another */
        const size_t j = k / 200 % 3 == 0 || draw(50) == 0 ? any : k / 200 % 3 == 1 ? 1 + any % 2 : 3 + any % 2;
        int expected, answer;
        if (k % 200 == 0) {
            const uint8_t flags[] = {(uint8_t)(1 + 2 * draw(2)), (uint8_t)draw(4)};
            expected = muzserlik_ring_start(&now.ring, 2, flags, 2);
            now.recorded = 0;
            answer = muzserlik_panel_start(&panel, 2, flags, 2);
        } else {
            const size_t to = kind == MUZSERLIK_SEND ? j % 2 : j;
            expected = by_ring(&now, kind, i, to);
            answer = muzserlik_panel_step(&panel, kind, i, to);
            closed[panel.recorded] += kind == MUZSERLIK_CLOSE && answer == MUZSERLIK_ACCEPTED;
        }
        told[expected]++;
        CHECK(answer == expected && same_panels(&panel, &now));
    }
    const int met[] = {0, 4, 5, 6, 8, 14, 15};
    for (size_t k = 0; k < sizeof met / sizeof met[0]; k++)
        CHECK(told[met[k]] > 500);
    CHECK(closed[MUZSERLIK_RECORD_OLD] > 40 && closed[MUZSERLIK_RECORD_NEW] > 40);
}

int main(void)
{
    enters();
    words();
    no_words();
    struct muzserlik_panel panel = entered();
    start_refusals(&panel);
    bytes(&panel);
    open_panel(panel);
    panel = not_released();
    bytes(&panel);
    open_panel(panel);
    panel = released(panel);
    bytes(&panel);
    closed_panel(panel);
    started_again(panel);
    one_node();
    limit();
    beside_rings();
    printf("calls from C on panels: %d checks\n", checks);
    return EXIT_SUCCESS;
}
