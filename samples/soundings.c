// A survey layer that reads a file: opens the soundings below the folder that it is handed, and answers the deepest.
#include <wasi/api.h>

static unsigned char buffer[256];

__attribute__((export_name("deepest"))) int deepest(int folder) {
    __wasi_fd_t file;
    if (__wasi_path_open(folder, 0, "soundings.bin", 0, __WASI_RIGHTS_FD_READ, 0, 0, &file) != 0) {
        return -1;
    }
    __wasi_iovec_t into = {buffer, sizeof buffer};
    __wasi_size_t n;
    int most = 0;
    while (__wasi_fd_read(file, &into, 1, &n) == 0 && n != 0) {
        for (__wasi_size_t i = 0; i < n; i++) {
            if (most < buffer[i]) {
                most = buffer[i];
            }
        }
    }
    return __wasi_fd_close(file) == 0 ? most : -1;
}
