#include <stdint.h>

static uint64_t (*const ktime_get_boot_ns)(void) = (void *) 125;

uint64_t choose(const void *record)
{
    return ktime_get_boot_ns();
}
