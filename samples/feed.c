// A survey layer that opens a socket. wasi-libc of this age declares no sock_open, so that the imports are declared here.
#define WASI(name) __attribute__((import_module("wasi_snapshot_preview1"), import_name(name)))

WASI("sock_open") int sock_open(int family, int kind, int *socket);
WASI("sock_connect") int sock_connect(int socket, const void *address, int port);
WASI("sock_recv") int sock_recv(int socket, const void *into, int parts, int flags, int *n, int *told);

static unsigned char buffer[256];

__attribute__((export_name("feed"))) int feed(int port) {
    int socket, n, told;
    struct { unsigned char *from; int len; } into = {buffer, sizeof buffer};
    if (sock_open(1, 2, &socket) != 0 || sock_connect(socket, "a.example", port) != 0) {
        return -1;
    }
    return sock_recv(socket, &into, 1, 0, &n, &told) == 0 ? n : -1;
}
