// Preloaded under a program: the system tells it neither devices nor inodes.
#define _GNU_SOURCE
#include <dlfcn.h>
#include <sys/stat.h>

typedef int look(int folder, const char *restrict path, int flags, unsigned mask, struct statx *restrict answer);

int statx(int folder, const char *restrict path, int flags, unsigned mask, struct statx *restrict answer)
{
    look *real = (look *)dlsym(RTLD_NEXT, "statx");
    int status = real(folder, path, flags, mask, answer);
    if (status == 0) {
        answer->stx_dev_major = answer->stx_dev_minor = 0;
        answer->stx_ino = 0;
    }
    return status;
}
