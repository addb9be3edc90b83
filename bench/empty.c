/* The library's names with nothing behind them, for what a caller pays to call them. What comes back in memory comes
 * back at the address that is the first argument. */
#include <stddef.h>

#define EMPTY(name)                                                                                                    \
    void *name(void *answer);                                                                                          \
    void *name(void *answer) { return answer; }

struct two {
    size_t first, second;
};

struct two cihlomet_write(void), cihlomet_token(void), cihlomet_short(void);
struct two cihlomet_write(void) { return (struct two){0, 0}; }
struct two cihlomet_token(void) { return (struct two){0, 0}; }
struct two cihlomet_short(void) { return (struct two){0, 0}; }
EMPTY(cihlomet_list)
EMPTY(cihlomet_read)
EMPTY(cihlomet_start)
EMPTY(cihlomet_submit_high)
EMPTY(cihlomet_submit_low)
EMPTY(cihlomet_collect_high)
EMPTY(cihlomet_collect_low)
EMPTY(cihlomet_reset)
EMPTY(cihlomet_hear)
EMPTY(cihlomet_sent)
EMPTY(cihlomet_slot)
