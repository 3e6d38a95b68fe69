/* What announces atomic operations to helgrind, or with DRD to drd. */
#include <stdint.h>
#ifdef DRD
#include <valgrind/drd.h>
#else
#include <valgrind/helgrind.h>
#endif

void announce_write(void *place) { ANNOTATE_HAPPENS_BEFORE(place); }

void announce_read(void *place) { ANNOTATE_HAPPENS_AFTER(place); }

#define EXCHANGE(BITS)                                                                        \
    void announce_exchange_i##BITS(uint##BITS##_t *place, uint##BITS##_t wanted) {            \
        if (__atomic_load_n(place, __ATOMIC_SEQ_CST) == wanted)                               \
            announce_write(place);                                                            \
    }

EXCHANGE(8)
EXCHANGE(16)
EXCHANGE(32)
EXCHANGE(64)

#ifdef DRD
/* Valgrind takes each futex call for a write of the word that it is about, and none is one. */
long __real_syscall(long number, long a, long b, long c, long d, long e, long f);

long __wrap_syscall(long number, long a, long b, long c, long d, long e, long f) {
    ANNOTATE_IGNORE_WRITES_BEGIN();
    long result = __real_syscall(number, a, b, c, d, e, f);
    ANNOTATE_IGNORE_WRITES_END();
    return result;
}
#endif
