/* The header's functions of a panel, which are inline, for the comparison by calls. */
#include "muzserlik.h"

size_t calls_panel_size(void)
{
    return sizeof(struct muzserlik_panel);
}

int calls_panel_enter(struct muzserlik_panel *panel, size_t n, const uint8_t *flags, size_t count)
{
    return muzserlik_panel_enter(panel, n, flags, count);
}

int calls_panel_start(struct muzserlik_panel *panel, size_t n, const uint8_t *flags, size_t count)
{
    return muzserlik_panel_start(panel, n, flags, count);
}

int calls_panel_step(struct muzserlik_panel *panel, size_t kind, size_t i, size_t j)
{
    return muzserlik_panel_step(panel, kind, i, j);
}

int calls_panel_is_sound(const struct muzserlik_panel *panel)
{
    return muzserlik_panel_is_sound(panel);
}
