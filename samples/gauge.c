// A survey layer that reads a tide gauge over the network, and then the clock: its imports are declared here, to stand in this order.
#define WASI(name) __attribute__((import_module("wasi_snapshot_preview1"), import_name(name)))

WASI("sock_recv") int sock_recv(int socket, const void *into, int parts, int flags, int *n, int *told);
WASI("clock_time_get") int clock_time_get(int clock, long long precision, long long *now);

static unsigned char level[8];
static long long last;

__attribute__((export_name("gauge"))) int gauge(int socket) {
    int n, told;
    struct { unsigned char *from; int len; } into = {level, sizeof level};
    if (sock_recv(socket, &into, 1, 0, &n, &told) != 0 || clock_time_get(0, 1000000000, &last) != 0) {
        return -1;
    }
    return n;
}
