// Loaded before the C library, makes one allocation of a program fail: the one whose number, from 1 on, is in
// the environment variable REFUSED_ALLOCATION. The file that REFUSED_MARK names is there from then on.
extern void *__libc_malloc(unsigned long size);
extern void *__libc_realloc(void *memory, unsigned long size);
extern void *__libc_calloc(unsigned long count, unsigned long size);
extern void *__libc_memalign(unsigned long alignment, unsigned long size);
extern char *getenv(const char *name);
extern int creat(const char *path, unsigned int mode);
extern int close(int descriptor);

static long count;

static long number_to_refuse(void) {
    const char *text = getenv("REFUSED_ALLOCATION");
    long number = 0;
    while (text && *text >= '0' && *text <= '9')
        number = 10 * number + (*text++ - '0');
    return number;
}

// Whether the allocation that is asked for now is to fail.
static int is_refused(void) {
    if (++count != number_to_refuse())
        return 0;
    const char *mark = getenv("REFUSED_MARK");
    if (mark)
        close(creat(mark, 0644));
    return 1;
}

void *malloc(unsigned long size) {
    return is_refused() ? 0 : __libc_malloc(size);
}

void *realloc(void *memory, unsigned long size) {
    return is_refused() ? 0 : __libc_realloc(memory, size);
}

void *calloc(unsigned long members, unsigned long size) {
    return is_refused() ? 0 : __libc_calloc(members, size);
}

void *aligned_alloc(unsigned long alignment, unsigned long size) {
    return is_refused() ? 0 : __libc_memalign(alignment, size);
}

int posix_memalign(void **memory, unsigned long alignment, unsigned long size) {
    void *made = aligned_alloc(alignment, size);
    if (!made)
        return 12;
    *memory = made;
    return 0;
}
