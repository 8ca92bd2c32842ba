/* A Delay longer than 16 bits is refused by the compiler: the gate compiles this with TICKS 65535, and tries it with 65536. */
#include "dispatch.h"

uint8_t wait_for(uint8_t *state, size_t length, uint8_t *report);

uint8_t wait_for(uint8_t *state, size_t length, uint8_t *report)
{
#ifdef PLAIN
    return dispatch_delay(state, length, TICKS, report);
#else
    return dispatch_delay(state, length, DISPATCH_TICKS(TICKS), report);
#endif
}
