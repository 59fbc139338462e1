// A survey layer in three builds: 1 is approved; 2 fetches its tiles over the network, and has lost an export; 3 is the mend of it.
#include <wasi/api.h>

static unsigned char tile[512];

static int fill(int from) {
    __wasi_iovec_t into = {tile, sizeof tile};
    __wasi_size_t n = 0;
#if BUILD == 2
    __wasi_roflags_t told;
    int wrong = __wasi_sock_recv(from, &into, 1, 0, &n, &told);
#else
    int wrong = __wasi_fd_read(from, &into, 1, &n);
#endif
    return wrong ? -1 : (int)n;
}

__attribute__((export_name("render"))) int render(int from, int x) {
    return fill(from) < 0 ? -1 : tile[x & 511];
}

#if BUILD != 2
__attribute__((export_name("scale"))) int scale(void) {
    return 25000;
}
#endif

#if BUILD == 3
__attribute__((export_name("version"))) int version(void) {
    return 3;
}
#endif
