/* Calls to the system that go wrong where a test says so. The front is linked so that its calls come here first.
   FAULTS in the environment has faults, parted by semicolons: CALL NUMBER ERROR. The NUMBERth call of that name, counted from 1, or every
   second one where NUMBER is 0, fails with the error of that number, or moves one byte alone where ERROR is -1. Closing descriptor 1 is a
   call of its own, close1. For each fault one byte is written to the descriptor whose number is TOLD in the environment: the digit of the
   descriptor that it met, or x. */
#define _GNU_SOURCE

#include <errno.h>
#include <fcntl.h>
#include <poll.h>
#include <stdarg.h>
#include <stdio.h>
#include <stdlib.h>
#include <string.h>
#include <sys/stat.h>
#include <sys/syscall.h>
#include <unistd.h>

#define ONE_BYTE (-1)
#define NO_DESCRIPTOR (-1)

ssize_t __real_read(int descriptor, void *bytes, size_t count);
ssize_t __real_write(int descriptor, const void *bytes, size_t count);
int __real_open(const char *name, int flags, mode_t mode);
int __real_close(int descriptor);
int __real_poll(struct pollfd *waiting, nfds_t count, int timeout);
ssize_t __wrap_read(int descriptor, void *bytes, size_t count);
ssize_t __wrap_write(int descriptor, const void *bytes, size_t count);
int __wrap_open(const char *name, int flags, ...);
int __wrap_close(int descriptor);
int __wrap_poll(struct pollfd *waiting, nfds_t count, int timeout);

/* The fault that is due at this call: 0 if there is none. */
static int fault_of(const char *call, int descriptor, size_t *calls)
{
    char met = descriptor >= 0 && descriptor <= 9 ? (char)('0' + descriptor) : 'x';
    char name[16];
    size_t number;
    int error;
    const char *faults = getenv("FAULTS");
    *calls += 1;
    while (faults != NULL && sscanf(faults, "%15s %zu %d", name, &number, &error) == 3) {
        if (strcmp(name, call) == 0 && (number == *calls || (number == 0 && *calls % 2 == 1))) {
            const char *told = getenv("TOLD");
            if (told != NULL) (void)syscall(SYS_write, atoi(told), &met, 1);
            return error;
        }
        faults = strchr(faults, ';');
        faults = faults == NULL ? NULL : faults + 1;
    }
    return 0;
}

ssize_t __wrap_read(int descriptor, void *bytes, size_t count)
{
    static size_t calls;
    int error = fault_of("read", descriptor, &calls);
    if (error > 0) {
        errno = error;
        return -1;
    }
    return __real_read(descriptor, bytes, error == ONE_BYTE && count > 1 ? 1 : count);
}

ssize_t __wrap_write(int descriptor, const void *bytes, size_t count)
{
    static size_t calls;
    int error = fault_of("write", descriptor, &calls);
    if (error > 0) {
        errno = error;
        return -1;
    }
    return __real_write(descriptor, bytes, error == ONE_BYTE && count > 1 ? 1 : count);
}

int __wrap_open(const char *name, int flags, ...)
{
    static size_t calls;
    va_list values;
    va_start(values, flags);
    mode_t mode = (flags & O_CREAT) != 0 ? va_arg(values, mode_t) : 0;
    va_end(values);
    int error = fault_of("open", NO_DESCRIPTOR, &calls);
    if (error > 0) {
        errno = error;
        return -1;
    }
    return __real_open(name, flags, mode);
}

/* On Linux the descriptor is gone, whatever close says. */
int __wrap_close(int descriptor)
{
    static size_t calls, calls_of_1;
    int error = descriptor == 1 ? fault_of("close1", 1, &calls_of_1) : fault_of("close", descriptor, &calls);
    int done = __real_close(descriptor);
    if (error > 0) {
        errno = error;
        return -1;
    }
    return done;
}

int __wrap_poll(struct pollfd *waiting, nfds_t count, int timeout)
{
    static size_t calls;
    int error = fault_of("poll", waiting[0].fd, &calls);
    if (error > 0) {
        errno = error;
        return -1;
    }
    return __real_poll(waiting, count, timeout);
}
