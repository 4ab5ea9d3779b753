// The end of the heap, which wasi-libc's malloc moves as it grows, mostly by a page of 64 KiB. wasi-libc's own sbrk asks the host for each of them, and
// each time costs the host milliseconds once there are hundreds of megabytes. So this one asks for an eighth of the heap, or two pages, where it can.
#include <errno.h>
#include <stddef.h>
#include <stdint.h>
#include <unistd.h>

enum { PAGE = 65536, LEAST = 2 * PAGE };

// Where the static data ends.
extern char __heap_base;

static uintptr_t top;

// Where the memory of a fresh instance ends. What an earlier call grew it by is used again: the host sets it to zero, and `top` too.
static uintptr_t start(void) { return ((uintptr_t)&__heap_base + PAGE - 1) / PAGE * PAGE; }

static uintptr_t size(void) { return __builtin_wasm_memory_size(0) * (uintptr_t)PAGE; }

static int grow(uintptr_t bytes) { return __builtin_wasm_memory_grow(0, (bytes + PAGE - 1) / PAGE) != SIZE_MAX; }

void *sbrk(intptr_t increment) {
    if (top == 0) top = start();
    uintptr_t from = top, wanted = increment, left = size() - top;
    if (wanted > left) {
        uintptr_t more = wanted - left, eighth = (top - start()) / 8, step = eighth > LEAST ? eighth : LEAST;
        if (increment < 0 || (!(more < step && grow(step)) && !grow(more))) {
            errno = ENOMEM;
            return (void *)-1;
        }
    }
    top += wanted;
    return (void *)from;
}
