// A survey layer that wants the clock and random numbers: the tide at this hour, and a jitter for its marks.
#include <wasi/api.h>

__attribute__((export_name("tide"))) int tide(void) {
    __wasi_timestamp_t now;
    if (__wasi_clock_time_get(__WASI_CLOCKID_REALTIME, 1000000000, &now) != 0) {
        return -1;
    }
    return (int)(now / 3600000000000 % 12);
}

__attribute__((export_name("jitter"))) int jitter(void) {
    unsigned char b;
    return __wasi_random_get(&b, 1) == 0 ? b : -1;
}
