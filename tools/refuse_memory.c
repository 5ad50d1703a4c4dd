// Refuses one allocation of the program that this is loaded into before its C library (LD_PRELOAD): the n-th, n being
// REFUSE_AT, counted from 1. Where the program ends, two counts are written to the file that REFUSE_COUNTS names, each
// of eight bytes: the allocations that were asked for, and the blocks that were not given back. What the C library
// takes for its threads (calloc) is neither refused nor counted. It names no header, so that the toolchain's compiler
// alone builds it.
typedef unsigned long word;

extern void *__libc_malloc(word);
extern void *__libc_realloc(void *, word);
extern void __libc_free(void *);
extern char *getenv(const char *);
extern int open(const char *, int, ...);
extern long write(int, const void *, word);
extern long syscall(long, ...);

#define WRITE_ONLY 1
#define SYS_EXIT_GROUP 231

static word number, asked, given, back;

__attribute__((constructor)) static void begin(void)
{
    for (const char *digit = getenv("REFUSE_AT"); digit && *digit; digit++)
        number = number * 10 + (word)(*digit - '0');
    asked = 0;
}

static void *counted(void *block)
{
    if (block)
        __atomic_add_fetch(&given, 1, __ATOMIC_SEQ_CST);
    return block;
}

static int refused(void)
{
    return __atomic_add_fetch(&asked, 1, __ATOMIC_SEQ_CST) == number;
}

void *malloc(word size)
{
    return refused() ? 0 : counted(__libc_malloc(size));
}

void *realloc(void *block, word size)
{
    if (refused())
        return 0;
    void *moved = __libc_realloc(block, size);
    return block ? moved : counted(moved);
}

void free(void *block)
{
    if (block)
        __atomic_add_fetch(&back, 1, __ATOMIC_SEQ_CST);
    __libc_free(block);
}

__attribute__((destructor)) static void tell(void)
{
    const char *file = getenv("REFUSE_COUNTS");
    int to = file ? open(file, WRITE_ONLY) : -1;
    word counts[2] = {asked, given - back};
    if (to >= 0)
        write(to, counts, sizeof counts);
}

// A program with threads ends with this call, and runs no destructor.
void _exit(int status)
{
    tell();
    for (;;)
        syscall(SYS_EXIT_GROUP, status);
}
