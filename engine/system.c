// What the program's foreign functions are on WASI, over the C library's heap. Each is named native_NAME: it takes sizes of 64 bits, as on x86-64.
//
//     heap      malloc, realloc, free of wasi-libc, over the sbrk of heap.c
//     streams   fd_read, fd_write
//     words     args_get, args_sizes_get; no environment
//     threads   none can be had
#include <stdint.h>
#include <stdlib.h>
#include <string.h>
#include <wasi/api.h>

enum { EIO = 5, EAGAIN = 11, ESRCH = 3, ESPIPE = 29, ETIMEDOUT = 110 };  // as Linux numbers them

static int error;

static void end(const char *line, int status) {
    __wasi_ciovec_t bytes = {(const uint8_t *)line, strlen(line)};
    __wasi_size_t written;
    (void)!__wasi_fd_write(2, &bytes, 1, &written);
    __wasi_proc_exit(status);
}

// ---- heap. What is refused leaves what there was. The address beside a refusal is not used; as on x86-64 it is not null.
typedef struct {
    uint64_t is_there;
    uint64_t at;
} Tried;

static Tried tried(void *block) {
    static char nothing;
    return (Tried){block != NULL, (uintptr_t)(block != NULL ? block : &nothing)};
}

static int is_addressable(uint64_t size) { return size <= SIZE_MAX; }

void *native_malloc(uint64_t size) { return is_addressable(size) ? malloc(size) : NULL; }

void native_free(void *block) { free(block); }

Tried native_rattle_alloc(uint64_t size, uint64_t alignment) { return tried(native_malloc(size ? size : alignment)); }

Tried native_rattle_realloc(void *block, uint64_t kept, uint64_t size, uint64_t alignment) {
    uint64_t wanted = size ? size : alignment;
    (void)kept;
    return tried(is_addressable(wanted) ? realloc(block, wanted) : NULL);
}

void native_rattle_dealloc(void *block) { free(block); }

// ---- streams
static int linux_error(__wasi_errno_t from) {
    switch (from) {
        case __WASI_ERRNO_INTR: return 4;
        case __WASI_ERRNO_BADF: return 9;
        case __WASI_ERRNO_AGAIN: return EAGAIN;
        case __WASI_ERRNO_NOMEM: return 12;
        case __WASI_ERRNO_ACCES: return 13;
        case __WASI_ERRNO_FAULT: return 14;
        case __WASI_ERRNO_ISDIR: return 21;
        case __WASI_ERRNO_INVAL: return 22;
        case __WASI_ERRNO_FBIG: return 27;
        case __WASI_ERRNO_NOSPC: return 28;
        case __WASI_ERRNO_PIPE: return 32;
        default: return EIO;
    }
}

static int64_t counted(__wasi_errno_t from, __wasi_size_t count) {
    if (from == 0) return count;
    error = linux_error(from);
    return -1;
}

// Fewer bytes than asked may be read or written.
static __wasi_size_t most(uint64_t size) { return size < 1 << 30 ? size : 1 << 30; }

int64_t native_read(int from, void *at, uint64_t size) {
    __wasi_iovec_t room = {at, most(size)};
    __wasi_size_t count = 0;
    __wasi_errno_t answer = __wasi_fd_read(from, &room, 1, &count);
    return counted(answer, count);
}

int64_t native_write(int to, const void *at, uint64_t size) {
    __wasi_ciovec_t bytes = {at, most(size)};
    __wasi_size_t count = 0;
    __wasi_errno_t answer = __wasi_fd_write(to, &bytes, 1, &count);
    return counted(answer, count);
}

// No stream can be sought in.
int64_t native_lseek(int stream, int64_t offset, int whence) {
    (void)stream, (void)offset, (void)whence;
    error = ESPIPE;
    return -1;
}

int native_rattle_errno(void) { return error; }

void native_rattle_set_errno(int to) { error = to; }

// A write to a closed pipe answers an error; there are no signals.
int64_t native___sysv_signal(int number, int64_t action) {
    (void)number, (void)action;
    return 0;
}

// ---- words
static uint8_t **words;
static __wasi_size_t count;

static int load_words(void) {
    __wasi_size_t room;
    if (__wasi_args_sizes_get(&count, &room) != 0) return 0;
    words = calloc((size_t)count + 1, sizeof *words);
    uint8_t *text = malloc((size_t)room + 1);
    return words != NULL && text != NULL && __wasi_args_get(words, text) == 0;
}

uint64_t native_rattle_arg_count(void) { return count; }

// The word's length, -1 where there is no such word, -2 where it does not fit; then the room is full.
int64_t native_rattle_arg(uint64_t index, void *at, uint64_t room) {
    if (index >= count) return -1;
    size_t length = strlen((char *)words[index]);
    memcpy(at, words[index], length < room ? length : room);
    return length <= room ? (int64_t)length : -2;
}

int64_t native_rattle_env(void *name, void *at, uint64_t room) {
    (void)name, (void)at, (void)room;
    return -1;
}

int64_t native_rattle_env_at(uint64_t index, void *at, uint64_t room) {
    (void)index, (void)at, (void)room;
    return -1;
}

// ---- threads. None is started, so nobody waits to be woken, and who would wait for another thread would wait for ever.
enum { FUTEX = 202, WAIT = 0, WAKE = 1, OPERATION = 127 };

int native_pthread_attr_init(void *attributes) {
    (void)attributes;
    return 0;
}

int native_pthread_attr_setguardsize(void *attributes, uint64_t size) {
    (void)attributes, (void)size;
    return 0;
}

int native_pthread_attr_setstacksize(void *attributes, uint64_t size) {
    (void)attributes, (void)size;
    return 0;
}

int native_pthread_attr_destroy(void *attributes) {
    (void)attributes;
    return 0;
}

int native_pthread_create(void *thread, void *attributes, void *entry, void *argument) {
    (void)thread, (void)attributes, (void)entry, (void)argument;
    return EAGAIN;
}

int64_t native_pthread_self(void) { return 1; }

int native_pthread_detach(int64_t thread) {
    (void)thread;
    return ESRCH;
}

int native_pthread_join(int64_t thread, void *result) {
    (void)thread, (void)result;
    return ESRCH;
}

int native_sched_yield(void) { return 0; }

// Linux's futex on a word of 32 bits. A wait ends at once where the word is not what is expected, as there.
int64_t native_syscall(int64_t number, void *word, int64_t operation, int64_t value, void *until, ...) {
    if (number != FUTEX) end("otbench: unknown system call\n", 1);
    if ((operation & OPERATION) == WAKE) return 0;
    if ((operation & OPERATION) != WAIT) end("otbench: unknown futex operation\n", 1);
    if (*(uint32_t *)word != (uint32_t)value) {
        error = EAGAIN;
    } else {
        const int64_t *time = until;
        if (time == NULL || time[0] == INT64_MAX) end("otbench: waits for another thread, and there is none\n", 1);
        error = ETIMEDOUT;
    }
    return -1;
}

// ---- begin and end
void native__exit(int status) { __wasi_proc_exit(status); }

void native_abort(void) { end("otbench: aborted\n", 134); }

int native_main(void);

int main(void) {
    if (!load_words()) end("otbench: Memory\n", 1);
    return native_main();
}
