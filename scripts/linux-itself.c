/* Stands before the C library's `ptrace` for a Linux that runs as a process: see linux-itself.sh. A processor may have more registers than that Linux knows of, and
   the kernel refuses a part of them. So it is given all, of which those that it knows are as they should be and the others as they were. */
#define _GNU_SOURCE
#include <dlfcn.h>
#include <elf.h>
#include <stdarg.h>
#include <string.h>
#include <sys/uio.h>

enum { GET_SET = 0x4204, PUT_SET = 0x4205 };

long ptrace(int request, ...) {
    static long (*next)(int, ...);
    static char whole[1 << 16];
    va_list words;
    va_start(words, request);
    int process = va_arg(words, int);
    void *place = va_arg(words, void *);
    void *data = va_arg(words, void *);
    va_end(words);
    if (!next) {
        next = (long (*)(int, ...))dlsym(RTLD_NEXT, "ptrace");
    }
    if (request != PUT_SET || place != (void *)NT_X86_XSTATE) {
        return next(request, process, place, data);
    }
    struct iovec *given = data, all = {whole, sizeof whole};
    if (next(GET_SET, process, place, &all)) {
        return -1;
    }
    memcpy(whole, given->iov_base, given->iov_len < all.iov_len ? given->iov_len : all.iov_len);
    return next(PUT_SET, process, place, &all);
}
