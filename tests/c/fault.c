/* A replay that finds fault with every row, SAYS, in the place of the library's: examples/daemon.c must then end loudly. */
#include "leveecrumb.h"

struct leveecrumb_replayed leveecrumb_replay(const uint8_t *text, size_t text_length,
                                             uint8_t *store, size_t store_length,
                                             uint32_t uid, uint32_t gid,
                                             const uint8_t *start, size_t start_length,
                                             const uint8_t *target, size_t target_length,
                                             uint8_t kind,
                                             const struct leveecrumb_step *steps, size_t count)
{
    const struct leveecrumb_replayed said = SAYS;
    (void)text, (void)text_length, (void)store, (void)store_length, (void)uid, (void)gid, (void)start, (void)start_length;
    (void)target, (void)target_length, (void)kind, (void)steps, (void)count;
    return said;
}
