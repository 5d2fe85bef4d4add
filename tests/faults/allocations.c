// Linked into a program that is made without proofs: has faults.c, which is preloaded, refuse its allocations, and ends the
// program by a signal if a check fails.
//
// Such a program takes its memory from its address checks, so a preloaded library doesn't see these calls. But the
// functions by which they are taken may be replaced. Those that are here ask the library before they take memory.
#include <errno.h>
#include <stdbool.h>
#include <stddef.h>
#include <stdlib.h>

// of the library, if it is there
extern bool refuses_allocation(void) __attribute__((weak));

// of the address checks
void *___interceptor_malloc(size_t size);
void *___interceptor_calloc(size_t count, size_t size);
void *___interceptor_realloc(void *old, size_t size);
void *___interceptor_aligned_alloc(size_t alignment, size_t size);
int ___interceptor_posix_memalign(void **memory, size_t alignment, size_t size);
void __sanitizer_set_death_callback(void (*callback)(void));

// the bounds of the program's code
extern const char __executable_start[], etext[];

// Whether an allocation is refused. Calls from outside of the program, as the C library makes them, don't count.
static bool is_refused(const void *caller)
{
    const char *place = caller;
    if (refuses_allocation == NULL || place < __executable_start || place >= etext)
        return false;
    return refuses_allocation();
}

// Where a check fails the program would end with the status of an error, as if memory was refused.
__attribute__((constructor)) static void start(void)
{
    __sanitizer_set_death_callback(abort);
}

#define ALLOCATES(result, name, parameters, given, refused) \
    result __interceptor_##name parameters                   \
    {                                                        \
        if (is_refused(__builtin_return_address(0))) {       \
            errno = ENOMEM;                                  \
            return refused;                                  \
        }                                                    \
        return ___interceptor_##name given;                  \
    }

ALLOCATES(void *, malloc, (size_t size), (size), NULL)
ALLOCATES(void *, calloc, (size_t count, size_t size), (count, size), NULL)
ALLOCATES(void *, realloc, (void *old, size_t size), (old, size), NULL)
ALLOCATES(void *, aligned_alloc, (size_t alignment, size_t size), (alignment, size), NULL)
ALLOCATES(int, posix_memalign, (void **memory, size_t alignment, size_t size), (memory, alignment, size), ENOMEM)
