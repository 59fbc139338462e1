// A survey layer in four builds of a series, of which none can stand in for the one before it. 1 is approved. 2 asks the network too, has
// lost scale and has units. 3 goes by the clock and no longer by files or the network, has scale again and has lost depth. 4 has lost
// scale once more.
#include <wasi/api.h>

static unsigned char marks[64];

#if BUILD == 1 || BUILD == 2
static int stir(int from) {
    __wasi_iovec_t into = {marks, sizeof marks};
    __wasi_size_t n = 0;
    return __wasi_fd_read(from, &into, 1, &n);
}
#else
static int stir(int from) {
    __wasi_timestamp_t now = 0;
    int wrong = __wasi_clock_time_get(__WASI_CLOCKID_REALTIME, 1000000000, &now);
    marks[from & 63] = (unsigned char)(now / 3600000000000 % 12);
    return wrong;
}
#endif

__attribute__((export_name("render"))) int render(int from, int x) {
#if BUILD == 2
    __wasi_iovec_t into = {marks, sizeof marks};
    __wasi_size_t n = 0;
    __wasi_roflags_t told;
    if (__wasi_sock_recv(x, &into, 1, 0, &n, &told) != 0) {
        return -1;
    }
#endif
    return stir(from) != 0 ? -1 : marks[x & 63];
}

#if BUILD == 1 || BUILD == 3
__attribute__((export_name("scale"))) int scale(void) {
    return 5000;
}
#endif

#if BUILD == 1 || BUILD == 2
__attribute__((export_name("depth"))) int depth(int x) {
    return marks[x & 63];
}
#endif

#if BUILD != 1
__attribute__((export_name("units"))) int units(void) {
    return 10;
}
#endif
