/* Linked into the unproved program alone: says in words that one of its run-time checks has failed, which ends it by the signal SIGILL
   (status 132 in a shell). The compiler of the toolchain has no headers. */
enum { SIGILL = 4 };
#define SIG_DFL ((void (*)(int))0)
extern void (*signal(int number, void (*handler)(int)))(int);
extern int raise(int number);
extern long write(int file, const void *bytes, unsigned long count);

static void say(int number) {
    static const char words[] =
        "otbench: a run-time check failed in this unproved program, and ended it. What it printed before is not to be relied on.\n"
        "otbench: please report the input with its words. ./otbench --proved builds the program in which no check can fail.\n";
    (void)!write(2, words, sizeof words - 1);
    signal(number, SIG_DFL);
    raise(number);
}

__attribute__((constructor)) static void begin(void) { signal(SIGILL, say); }
