/* When to call a tick. The terminal's loop is the same over the clock and over a simulated one, which is as fast as the machine. */
#define _POSIX_C_SOURCE 200809L
#include <errno.h>
#include <time.h>

#include "host.h"

#define TICK_MS 100u

/* Sleeps, and then looks at the clock: a sleep may last longer than it was asked for. */
static bool ticker_wait_real(struct ticker *ticker, uint64_t until)
{
    struct timespec at = {.tv_sec = (time_t)(until / 1000), .tv_nsec = (long)(until % 1000) * 1000000};
    int error;

    do {
        error = clock_nanosleep(CLOCK_MONOTONIC, TIMER_ABSTIME, &at, NULL);
    } while (error == EINTR);
    error = error != 0 ? error : clock_gettime(CLOCK_MONOTONIC, &at);
    ticker->now = (uint64_t)at.tv_sec * 1000 + (uint64_t)at.tv_nsec / 1000000;
    return error == 0;
}

static bool ticker_wait_simulated(struct ticker *ticker, uint64_t until)
{
    ticker->now = until + ticker->late;
    ticker->late = 0;
    return true;
}

void ticker_simulated(struct ticker *ticker)
{
    *ticker = (struct ticker){.wait = ticker_wait_simulated};
}

bool ticker_real(struct ticker *ticker, struct fault *fault)
{
    bool ok;

    *ticker = (struct ticker){.wait = ticker_wait_real};
    ok = ticker->wait(ticker, 0);                           /* which is long past */
    ticker->begun = ticker->now;
    return ok || fault_say(fault, FAULT_RUN, "the clock cannot be read");
}

bool ticker_due(struct ticker *ticker, uint32_t *due, struct fault *fault)
{
    uint64_t next = ticker->begun + TICK_MS * ((uint64_t)ticker->called + 1);

    if (ticker->now < next && !ticker->wait(ticker, next)) {
        return fault_say(fault, FAULT_RUN, "the clock cannot be read");
    }
    *due = (uint32_t)((ticker->now - ticker->begun) / TICK_MS) - ticker->called;
    return true;
}
