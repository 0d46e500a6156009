/* The header's functions of a table, which are inline, for the comparison by calls. */
#include "muzserlik.h"

size_t calls_table_size(void)
{
    return sizeof(struct muzserlik_table);
}

int calls_table_start(struct muzserlik_table *table, size_t update, size_t n, const uint8_t *flags, size_t count)
{
    return muzserlik_table_start(table, update, n, flags, count);
}

int calls_table_step(struct muzserlik_table *table, size_t update, size_t kind, size_t i, size_t j)
{
    return muzserlik_table_step(table, update, kind, i, j);
}

int calls_table_is_sound(const struct muzserlik_table *table)
{
    return muzserlik_table_is_sound(table);
}
