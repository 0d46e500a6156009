/*
 * One receipt behind the token, by calls: the steps of samples/receipt.log on a ring of three.
 *
 *     c/archive && cc -std=c11 -I c c/receipt.c target/staticlib/libmuzserlik.a -o target/receipt && target/receipt
 *
 * The token passes node 2, which then receives a message and is active again; what 1 and 2 have sent and received cancels out, so the token
 * is back at node 0 with the sum 0. An announcement here would be wrong. It is refused.
 */
#include "muzserlik.h"

#include <stdio.h>
#include <stdlib.h>

static const char *const words[] = {"", "send", "take", "idle", "probe", "pass", "announce"};

/* How many numbers of each kind are printed: a take here is of one message, and the log says so by no number. */
static const int numbers[] = {0, 2, 1, 1, 0, 1, 0};

static const struct {
    size_t kind, i, j;
} steps[] = {
    {MUZSERLIK_PROBE, 0, 0},    {MUZSERLIK_PASS, 2, 0}, /* the token has passed node 2, and is at node 1 */
    {MUZSERLIK_SEND, 1, 2},     {MUZSERLIK_TAKE, 2, 1}, /* the receipt behind it: node 2 is active and black */
    {MUZSERLIK_SEND, 2, 1},     {MUZSERLIK_TAKE, 1, 1}, {MUZSERLIK_IDLE, 1, 0},
    {MUZSERLIK_PASS, 1, 0},     /* node 1 is black, and so the token is */
    {MUZSERLIK_ANNOUNCE, 0, 0}, /* too early */
    {MUZSERLIK_PROBE, 0, 0},    {MUZSERLIK_IDLE, 2, 0}, /* now every node is passive */
    {MUZSERLIK_PASS, 2, 0},     {MUZSERLIK_PASS, 1, 0},
    {MUZSERLIK_ANNOUNCE, 0, 0}, /* node 2 was black: another round */
    {MUZSERLIK_PROBE, 0, 0},    {MUZSERLIK_PASS, 2, 0}, {MUZSERLIK_PASS, 1, 0}, {MUZSERLIK_ANNOUNCE, 0, 0},
};

static void print_step(size_t kind, size_t i, size_t j)
{
    printf("%s", words[kind]);
    if (numbers[kind] > 0)
        printf(" %zu", i);
    if (numbers[kind] > 1)
        printf(" %zu", j);
}

static void print_active(const struct muzserlik_ring *ring)
{
    printf(" (active:");
    for (size_t i = 0; i < ring->n; i++)
        if (ring->active[i])
            printf(" %zu", i);
    printf(")");
}

int main(void)
{
    /* Node 1 is active, all are white. */
    const uint8_t flags[] = {0, 1, 0};
    struct muzserlik_ring ring;
    int answer = muzserlik_ring_start(&ring, 3, flags, sizeof flags);
    if (answer != MUZSERLIK_ACCEPTED) {
        printf("start: refused, %d\n", answer);
        return EXIT_FAILURE;
    }
    for (size_t k = 0; k < sizeof steps / sizeof steps[0]; k++) {
        answer = muzserlik_ring_step(&ring, steps[k].kind, steps[k].i, steps[k].j);
        print_step(steps[k].kind, steps[k].i, steps[k].j);
        if (answer == MUZSERLIK_ACCEPTED) {
            printf(": accepted\n");
            continue;
        }
        printf(": refused, %d", answer);
        print_active(&ring);
        printf("\n");
    }
    return ring.closed ? EXIT_SUCCESS : EXIT_FAILURE;
}
