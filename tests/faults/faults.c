// Preloaded under a program: counts its allocations, reads, writes and threads, and makes one or some of them go wrong.
// README.md says which variables of the environment steer it.
#define _GNU_SOURCE
#include <dlfcn.h>
#include <errno.h>
#include <fcntl.h>
#include <pthread.h>
#include <stdatomic.h>
#include <stdbool.h>
#include <stddef.h>
#include <stdint.h>
#include <stdlib.h>
#include <string.h>
#include <sys/mman.h>
#include <sys/socket.h>
#include <sys/stat.h>
#include <sys/uio.h>
#include <unistd.h>

enum call { ALLOCATION, READ, WRITE, THREAD, CALLS };
// EACH is that all calls fail whose number is a multiple of the one that is told, ONWARD that all fail from that one on
enum deed { NOTHING, FAIL, CUT, ZERO, EACH, ONWARD, DEEDS };

// What the script reads after the run. It lies in a mapped file, so it is there however the program ends.
struct report {
    _Atomic uint64_t loaded;
    _Atomic uint64_t fired;
    _Atomic uint64_t calls[CALLS];
    // the bytes that the counted reads and writes moved before the fault
    _Atomic uint64_t moved[CALLS];
};

// Which descriptors count: the named ones, or all others.
struct filter {
    uint64_t named;
    bool others;
};

static struct report unreported;
static struct report *report = &unreported;
static struct filter filters[CALLS] = {{0, true}, {0, true}, {0, true}, {0, true}};
static enum call wanted_call = CALLS;
static enum deed wanted_deed;
static uint64_t wanted_number;
static bool active;

// The file whose reads and writes count alone, where one is named. It may be made only later.
static const char *wanted_file;
// Whether those of sockets count alone.
static bool wanted_sockets;

static bool is_wanted_file(int descriptor)
{
    struct stat named, open_file;
    if (wanted_sockets)
        return fstat(descriptor, &open_file) == 0 && S_ISSOCK(open_file.st_mode);
    return wanted_file == NULL
        || (stat(wanted_file, &named) == 0 && fstat(descriptor, &open_file) == 0 && named.st_dev == open_file.st_dev
            && named.st_ino == open_file.st_ino);
}

static bool is_transfer(enum call call)
{
    return call == READ || call == WRITE;
}

static bool counts(enum call call, int descriptor)
{
    const struct filter *filter = &filters[call];
    bool named = descriptor >= 0 && descriptor < 64 && (filter->named >> descriptor & 1);
    return active && named != filter->others && (!is_transfer(call) || is_wanted_file(descriptor));
}

static bool is_wanted(enum call call, uint64_t number)
{
    if (call != wanted_call || wanted_number == 0)
        return false;
    switch (wanted_deed) {
    case EACH:
        return number % wanted_number == 0;
    case ONWARD:
        return number >= wanted_number;
    default:
        return number == wanted_number;
    }
}

// Counts a call and answers what is to happen to it.
static enum deed deed_of(enum call call, int descriptor)
{
    if (!counts(call, descriptor))
        return NOTHING;
    uint64_t number = atomic_fetch_add(&report->calls[call], 1) + 1;
    if (!is_wanted(call, number))
        return NOTHING;
    atomic_store(&report->fired, 1);
    return wanted_deed == EACH || wanted_deed == ONWARD ? FAIL : wanted_deed;
}

static ssize_t moved(enum call call, int descriptor, ssize_t count)
{
    if (count > 0 && counts(call, descriptor) && !atomic_load(&report->fired))
        atomic_fetch_add(&report->moved[call], (uint64_t)count);
    return count;
}

// Memory for what the look-up of a symbol itself asks for. It is never taken back.
static _Alignas(max_align_t) char spare[4096];
static size_t spare_used;
// volatile, since the compiler takes it that the look-up never calls this file
static volatile bool looking_up;

static void *from_spare(size_t size)
{
    size_t start = spare_used;
    size = (size + sizeof(max_align_t) - 1) / sizeof(max_align_t) * sizeof(max_align_t);
    if (size > sizeof spare - start)
        return NULL;
    spare_used += size;
    return spare + start;
}

static bool is_spare(const void *memory)
{
    return (uintptr_t)memory - (uintptr_t)spare < sizeof spare;
}

static void look_up(const char *name, void *function)
{
    looking_up = true;
    void *found = dlsym(RTLD_NEXT, name);
    looking_up = false;
    if (found == NULL)
        abort();
    // C has no cast from a pointer to data to one to a function
    memcpy(function, &found, sizeof found);
}

// Looked up when the library is loaded, or by an earlier first call.
#define REAL(result, name, parameters)                         \
    static result(*real_##name) parameters;                    \
    __attribute__((constructor)) static void find_##name(void) \
    {                                                          \
        if (real_##name == NULL)                               \
            look_up(#name, &real_##name);                      \
    }

// One counted function that allocates: what it answers when refused, during a look-up, and else.
#define ALLOCATES(result, name, parameters, refused, spared, answer) \
    REAL(result, name, parameters)                                   \
    result name parameters                                           \
    {                                                                \
        if (looking_up)                                              \
            return spared;                                           \
        find_##name();                                               \
        if (deed_of(ALLOCATION, -1) != NOTHING) {                    \
            errno = ENOMEM;                                          \
            return refused;                                          \
        }                                                            \
        return answer;                                               \
    }

// One counted function that reads or writes: how it is called whole, and for one byte.
#define TRANSFERS(call, name, parameters, whole, one_byte)     \
    REAL(ssize_t, name, parameters)                            \
    ssize_t name parameters                                    \
    {                                                          \
        find_##name();                                         \
        switch (deed_of(call, descriptor)) {                   \
        case FAIL:                                             \
            errno = EIO;                                       \
            return -1;                                         \
        case ZERO:                                             \
            return 0;                                          \
        case CUT:                                              \
            return one_byte;                                   \
        default:                                               \
            return moved(call, descriptor, real_##name whole); \
        }                                                      \
    }

REAL(void, free, (void *memory))

void free(void *memory)
{
    if (is_spare(memory))
        return;
    find_free();
    real_free(memory);
}

static void *out_of_spare(const void *old, size_t size)
{
    size_t most = (size_t)(spare + sizeof spare - (const char *)old);
    void *grown = malloc(size);
    return grown == NULL ? NULL : memcpy(grown, old, size < most ? size : most);
}

ALLOCATES(void *, malloc, (size_t size), NULL, from_spare(size), real_malloc(size))
ALLOCATES(void *, calloc, (size_t count, size_t size), NULL, from_spare(count * size), real_calloc(count, size))
ALLOCATES(void *, realloc, (void *old, size_t size), NULL, NULL,
          is_spare(old) ? out_of_spare(old, size) : real_realloc(old, size))
ALLOCATES(void *, aligned_alloc, (size_t alignment, size_t size), NULL, NULL, real_aligned_alloc(alignment, size))
ALLOCATES(int, posix_memalign, (void **memory, size_t alignment, size_t size), ENOMEM, ENOMEM,
          real_posix_memalign(memory, alignment, size))

// For a program that takes its memory from its address checks, past these functions, and asks here before it does
// (allocations.c).
bool refuses_allocation(void)
{
    return deed_of(ALLOCATION, -1) != NOTHING;
}

static size_t one_of(size_t size)
{
    return size < 1 ? size : 1;
}

// The piece that holds the first byte of a list of pieces alone.
static struct iovec first_byte(const struct iovec *pieces, int count)
{
    while (count > 0 && pieces->iov_len == 0) {
        pieces++;
        count--;
    }
    return count > 0 ? (struct iovec){pieces->iov_base, 1} : (struct iovec){NULL, 0};
}

TRANSFERS(READ, read, (int descriptor, void *bytes, size_t size), (descriptor, bytes, size),
          real_read(descriptor, bytes, one_of(size)))
TRANSFERS(READ, pread, (int descriptor, void *bytes, size_t size, off_t place), (descriptor, bytes, size, place),
          real_pread(descriptor, bytes, one_of(size), place))
TRANSFERS(READ, pread64, (int descriptor, void *bytes, size_t size, off64_t place), (descriptor, bytes, size, place),
          real_pread64(descriptor, bytes, one_of(size), place))
TRANSFERS(READ, readv, (int descriptor, const struct iovec *pieces, int count), (descriptor, pieces, count),
          real_readv(descriptor, (struct iovec[]){first_byte(pieces, count)}, 1))
TRANSFERS(WRITE, write, (int descriptor, const void *bytes, size_t size), (descriptor, bytes, size),
          real_write(descriptor, bytes, one_of(size)))
TRANSFERS(WRITE, writev, (int descriptor, const struct iovec *pieces, int count), (descriptor, pieces, count),
          real_writev(descriptor, (struct iovec[]){first_byte(pieces, count)}, 1))
TRANSFERS(WRITE, send, (int descriptor, const void *bytes, size_t size, int flags), (descriptor, bytes, size, flags),
          real_send(descriptor, bytes, one_of(size), flags))
TRANSFERS(WRITE, sendto,
          (int descriptor, const void *bytes, size_t size, int flags, const struct sockaddr *to, socklen_t length),
          (descriptor, bytes, size, flags, to, length),
          real_sendto(descriptor, bytes, one_of(size), flags, to, length))

// A thread that is refused isn't begun.
REAL(int, pthread_create,
     (pthread_t *thread, const pthread_attr_t *attributes, void *(*begin)(void *), void *given))

int pthread_create(pthread_t *thread, const pthread_attr_t *attributes, void *(*begin)(void *), void *given)
{
    find_pthread_create();
    if (deed_of(THREAD, -1) != NOTHING)
        return EAGAIN;
    return real_pthread_create(thread, attributes, begin, given);
}

// Descriptors as `0,3`, or all others as `!0,3`.
static void read_filter(const char *name, struct filter *filter)
{
    const char *text = getenv(name);
    if (text == NULL)
        return;
    filter->others = *text == '!';
    text += filter->others;
    while (*text != '\0') {
        char *end;
        unsigned long descriptor = strtoul(text, &end, 10);
        if (end == text || descriptor >= 64)
            abort();
        filter->named |= (uint64_t)1 << descriptor;
        text = *end == ',' ? end + 1 : end;
    }
}

// The place of a variable's word among these; `unset` where there is no such variable.
static int place_of(const char *name, const char *const words[], int count, int unset)
{
    const char *word = getenv(name);
    if (word == NULL)
        return unset;
    for (int place = 0; place < count; place++)
        if (strcmp(word, words[place]) == 0)
            return place;
    abort();
}

static void open_report(const char *name)
{
    int file = open(name, O_RDWR | O_CLOEXEC);
    void *mapped = mmap(NULL, sizeof *report, PROT_READ | PROT_WRITE, MAP_SHARED, file, 0);
    if (file < 0 || mapped == MAP_FAILED)
        abort();
    close(file);
    report = mapped;
}

__attribute__((constructor)) static void start(void)
{
    static const char *const calls[] = {"allocation", "read", "write", "thread"};
    static const char *const deeds[] = {"nothing", "fail", "cut", "zero", "each", "onward"};
    const char *number = getenv("FAULT_NUMBER");
    wanted_call = (enum call)place_of("FAULT_CALL", calls, CALLS, CALLS);
    wanted_deed = (enum deed)place_of("FAULT_DEED", deeds, DEEDS, NOTHING);
    wanted_number = number == NULL ? 0 : strtoull(number, NULL, 10);
    read_filter("FAULT_READS", &filters[READ]);
    read_filter("FAULT_WRITES", &filters[WRITE]);
    wanted_file = getenv("FAULT_FILE");
    wanted_sockets = getenv("FAULT_SOCKETS") != NULL;
    if (getenv("FAULT_REPORT") != NULL)
        open_report(getenv("FAULT_REPORT"));
    // programs that this one starts run without faults
    unsetenv("LD_PRELOAD");
    atomic_store(&report->loaded, 1);
    active = true;
}
