/*
 * What a call writes to, beside what it leaves: a refused call writes nothing, and an accepted call on a table to the places of the update that it
 * names alone. A byte that is written with its own value is no difference to see, so what may not be written lies in pages that cannot be: the
 * program ends by a signal where a call writes there.
 */
#define _DEFAULT_SOURCE
#include "muzserlik.h"

#include <stdio.h>
#include <stdlib.h>
#include <sys/mman.h>

#define PAGE 4096
#define PAGES 16

static const uint8_t flags[3] = {1, 1, 1};
static unsigned char *pages;
static int checks = 0;

#define CHECK(what)                                               \
    do {                                                          \
        checks++;                                                 \
        if (!(what)) {                                            \
            printf("written.c:%d: not so: %s\n", __LINE__, #what); \
            exit(EXIT_FAILURE);                                   \
        }                                                         \
    } while (0)

static void lend(size_t bytes, int how)
{
    CHECK(mprotect(pages, bytes, how) == 0);
}

static void rings(void)
{
    struct muzserlik_ring *ring = (struct muzserlik_ring *)(void *)pages;
    uint32_t moves = 7;
    CHECK(muzserlik_ring_start(ring, 3, flags, 3) == MUZSERLIK_ACCEPTED);
    lend(PAGES * PAGE, PROT_READ);
    CHECK(muzserlik_ring_start(ring, 97, flags, 3) == MUZSERLIK_REFUSED_NODE_COUNT);
    CHECK(muzserlik_ring_step(ring, MUZSERLIK_SEND, 3, 0) == MUZSERLIK_REFUSED_UNKNOWN_NODE);
    CHECK(muzserlik_ring_step(ring, 7, 0, 0) == MUZSERLIK_REFUSED_UNKNOWN_KIND);
    CHECK(muzserlik_ring_drive(ring, 1001, &moves) == MUZSERLIK_REFUSED_MOVE_LIMIT && moves == 7);
    lend(PAGES * PAGE, PROT_READ | PROT_WRITE);
    ring->closed = 2;
    lend(PAGES * PAGE, PROT_READ);
    CHECK(muzserlik_ring_step(ring, MUZSERLIK_IDLE, 0, 0) == MUZSERLIK_REFUSED_UNSOUND);
    CHECK(muzserlik_ring_drive(ring, 1, &moves) == MUZSERLIK_REFUSED_UNSOUND && moves == 7);
    lend(PAGES * PAGE, PROT_READ | PROT_WRITE);
}

static void panels(void)
{
    struct muzserlik_panel *panel = (struct muzserlik_panel *)(void *)pages;
    CHECK(muzserlik_panel_enter(panel, 3, flags, 3) == MUZSERLIK_ACCEPTED);
    lend(PAGES * PAGE, PROT_READ);
    CHECK(muzserlik_panel_enter(panel, 0, flags, 0) == MUZSERLIK_REFUSED_NODE_COUNT);
    CHECK(muzserlik_panel_start(panel, 2, flags, 2) == MUZSERLIK_REFUSED_NODE_COUNT);
    CHECK(muzserlik_panel_step(panel, MUZSERLIK_TAKE, 0, 9) == MUZSERLIK_REFUSED_JOB_WORD);
    CHECK(muzserlik_panel_step(panel, MUZSERLIK_CLOSE, 0, 0) == MUZSERLIK_REFUSED_RULE_FAILS);
    lend(PAGES * PAGE, PROT_READ | PROT_WRITE);
}

static void trees(void)
{
    struct muzserlik_tree *tree = (struct muzserlik_tree *)(void *)pages;
    CHECK(muzserlik_tree_start(tree, 3, 0) == MUZSERLIK_ACCEPTED);
    lend(PAGES * PAGE, PROT_READ);
    CHECK(muzserlik_tree_start(tree, 3, 3) == MUZSERLIK_REFUSED_UNKNOWN_NODE);
    CHECK(muzserlik_tree_step(tree, MUZSERLIK_LEAVE, 0, 0) == MUZSERLIK_REFUSED_RULE_FAILS);
    CHECK(muzserlik_tree_step(tree, MUZSERLIK_SEND, 0, 3) == MUZSERLIK_REFUSED_UNKNOWN_NODE);
    lend(PAGES * PAGE, PROT_READ | PROT_WRITE);
}

static void tables(void)
{
    struct muzserlik_table *table = (struct muzserlik_table *)(void *)pages;
    muzserlik_table_clear(table);
    CHECK(muzserlik_table_start(table, 0, 3, flags, 3) == MUZSERLIK_ACCEPTED);
    lend(PAGES * PAGE, PROT_READ);
    CHECK(muzserlik_table_start(table, 8, 3, flags, 3) == MUZSERLIK_REFUSED_UNKNOWN_UPDATE);
    CHECK(muzserlik_table_start(table, 1, 2, flags, 2) == MUZSERLIK_REFUSED_NODE_COUNT);
    CHECK(muzserlik_table_step(table, 1, MUZSERLIK_IDLE, 0, 0) == MUZSERLIK_REFUSED_UNKNOWN_UPDATE);
    CHECK(muzserlik_table_step(table, 0, MUZSERLIK_SEND, 0, 3) == MUZSERLIK_REFUSED_UNKNOWN_NODE);
    lend(PAGES * PAGE, PROT_READ | PROT_WRITE);
}

/* The pending messages of updates 0 to 3 lie in a page that cannot be written to, those of the others behind it. */
static void updates(void)
{
    static struct muzserlik_table table;
    uint32_t(*pending)[MUZSERLIK_RING_NODES] = (uint32_t(*)[MUZSERLIK_RING_NODES])(void *)(pages + PAGE - 4 * sizeof table.pending[0]);
    for (size_t update = 0; update < MUZSERLIK_UPDATES; update++) {
        CHECK(muzserlik_table_start(&table, update, 3, flags, 3) == MUZSERLIK_ACCEPTED);
    }
    memcpy(pending, table.pending, sizeof table.pending);
    lend(PAGE, PROT_READ);
    CHECK(muzserlik_table_step_fields(table.n, table.pos, table.q, table.black, table.closed, table.active, table.color, table.sent,
                                      table.received, pending, 5, MUZSERLIK_SEND, 0, 1) == MUZSERLIK_ACCEPTED);
    CHECK(pending[5][1] == 1 && table.sent[5][0] == 1);
    CHECK(muzserlik_table_start_fields(table.n, table.pos, table.q, table.black, table.closed, table.active, table.color, table.sent,
                                       table.received, pending, 5, 3, flags, 3) == MUZSERLIK_ACCEPTED);
    CHECK(pending[5][1] == 0 && table.sent[5][0] == 0);
    lend(PAGE, PROT_READ | PROT_WRITE);
}

int main(void)
{
    pages = mmap(NULL, PAGES * PAGE, PROT_READ | PROT_WRITE, MAP_PRIVATE | MAP_ANONYMOUS, -1, 0);
    CHECK(pages != MAP_FAILED);
    rings();
    panels();
    trees();
    tables();
    updates();
    printf("what calls write to: %d checks\n", checks);
    return EXIT_SUCCESS;
}
