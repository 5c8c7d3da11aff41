// Loaded before the C library, makes writes of a program to its standard output and at places of files fail, and tells it
// a new size of its terminal at the end of its input. The environment says how:
//
// - REFUSED_WRITE=N: the Nth write fails, with EIO; with REFUSED_FROM set, each one from there on does.
// - REFUSED_PLACED=N: the Nth write at a place of a file (pwrite) writes half of its bytes, and the next fails, with EIO;
//   with REFUSED_FROM set, each one from there on does.
// - REFUSED_MARK: the file of this name is there from the first write on that failed.
// - BYTES_READ=N: a read of the standard input gives at most so many bytes.
// - SIZE_FROM, SIZE_TO: where a read finds the end of the standard input, the file SIZE_FROM gets the name SIZE_TO.
extern long syscall(long number, ...);
extern int *__errno_location(void);
extern char *getenv(const char *name);
extern long atol(const char *text);
extern int creat(const char *path, unsigned int mode);
extern int close(int descriptor);
extern int rename(const char *from, const char *to);

enum { READ = 0, WRITE = 1, FAILED = 5, PWRITE = 18 };

static long writes, placed;

static long number_in(const char *name) {
    const char *text = getenv(name);
    return text ? atol(text) : 0;
}

// Whether the write that is asked for now is to fail.
static int is_refused(void) {
    long refused = number_in("REFUSED_WRITE");
    writes++;
    return refused && (writes == refused || (writes > refused && getenv("REFUSED_FROM")));
}

long write(int descriptor, const void *bytes, unsigned long count) {
    if (descriptor != 1 || !is_refused())
        return syscall(WRITE, descriptor, bytes, count);
    const char *mark = getenv("REFUSED_MARK");
    if (mark)
        close(creat(mark, 0644));
    *__errno_location() = FAILED;
    return -1;
}

long pwrite(int descriptor, const void *bytes, unsigned long count, long place) {
    long refused = number_in("REFUSED_PLACED");
    placed++;
    if (refused && placed == refused)
        count /= 2;
    if (!refused || placed <= refused || (placed > refused + 1 && !getenv("REFUSED_FROM")))
        return syscall(PWRITE, descriptor, bytes, count, place);
    *__errno_location() = FAILED;
    return -1;
}

long pwrite64(int descriptor, const void *bytes, unsigned long count, long place) {
    return pwrite(descriptor, bytes, count, place);
}

long read(int descriptor, void *bytes, unsigned long count) {
    if (descriptor != 0)
        return syscall(READ, descriptor, bytes, count);
    unsigned long most = number_in("BYTES_READ");
    long given = syscall(READ, descriptor, bytes, most && most < count ? most : count);
    const char *from = getenv("SIZE_FROM"), *to = getenv("SIZE_TO");
    if (given == 0 && from && to)
        rename(from, to);
    return given;
}
