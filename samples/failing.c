// Stands between a program and libc's read and write (LD_PRELOAD), and makes them short, interrupted or failing, as told by environment variables:
//   FAILING_READ_FD          the descriptor whose reads are meant (else every descriptor's)
//   FAILING_READ_MOST        a read gives at most so many bytes
//   FAILING_READ_AT          the read of this number fails once with FAILING_READ_ERRNO (else EIO); later ones go through
//   FAILING_READ_INTERRUPTS  each read is interrupted (EINTR) so many times first
//   FAILING_WRITE_MOST       a write to descriptor 1 or 2 takes at most so many bytes
//   FAILING_WRITE_AT         the write of this number to descriptor 1 fails once with ENOSPC; later ones go through
//   FAILING_WRITE_AFTER      descriptor 1 takes so many bytes in all, then a write fails once with ENOSPC; later ones go through
//   FAILING_WRITE_INTERRUPTS each write to descriptor 1 or 2 is interrupted (EINTR) so many times first
//   FAILING_COUNTS           a file that holds the counts below, as they stand, whichever way the program ends
#define _GNU_SOURCE
#include <errno.h>
#include <fcntl.h>
#include <stdint.h>
#include <stdlib.h>
#include <sys/mman.h>
#include <sys/syscall.h>
#include <unistd.h>

static struct counts {
    uint64_t reads, bytes_read, writes, bytes_written, failed_reads, failed_writes, writes_after_failure, interruptions;
} nowhere, *counts = &nowhere;

static long read_fd, read_most, read_at, read_errno, read_interrupts, write_most, write_at, write_after, write_interrupts;

static long told(const char *name, long otherwise) {
    const char *value = getenv(name);
    return value ? atol(value) : otherwise;
}

__attribute__((constructor)) static void start(void) {
    read_fd = told("FAILING_READ_FD", -1);
    read_most = told("FAILING_READ_MOST", -1);
    read_at = told("FAILING_READ_AT", -1);
    read_errno = told("FAILING_READ_ERRNO", EIO);
    read_interrupts = told("FAILING_READ_INTERRUPTS", 0);
    write_most = told("FAILING_WRITE_MOST", -1);
    write_at = told("FAILING_WRITE_AT", -1);
    write_after = told("FAILING_WRITE_AFTER", -1);
    write_interrupts = told("FAILING_WRITE_INTERRUPTS", 0);
    const char *name = getenv("FAILING_COUNTS");
    int file = name ? open(name, O_RDWR | O_CREAT | O_TRUNC, 0600) : -1;
    if (file < 0) return;
    if (ftruncate(file, sizeof *counts) == 0) {
        void *place = mmap(NULL, sizeof *counts, PROT_READ | PROT_WRITE, MAP_SHARED, file, 0);
        if (place != MAP_FAILED) counts = place;
    }
    close(file);
}

static ssize_t fails(int number) {
    errno = number;
    return -1;
}

// Whether the call is to be interrupted now; done says how many times it already was.
static int interrupted(long *done, long times) {
    if (*done == times) return *done = 0;
    ++*done;
    ++counts->interruptions;
    return 1;
}

ssize_t read(int fd, void *buffer, size_t size) {
    static long done;
    if (read_fd >= 0 && fd != read_fd) return syscall(SYS_read, fd, buffer, size);
    if (interrupted(&done, read_interrupts)) return fails(EINTR);
    if ((long)++counts->reads == read_at) {
        ++counts->failed_reads;
        return fails((int)read_errno);
    }
    ssize_t got = syscall(SYS_read, fd, buffer, read_most >= 0 && size > (size_t)read_most ? (size_t)read_most : size);
    if (got > 0) counts->bytes_read += (uint64_t)got;
    return got;
}

ssize_t write(int fd, const void *buffer, size_t size) {
    static long done[3];
    if (fd != 1 && fd != 2) return syscall(SYS_write, fd, buffer, size);
    if (interrupted(&done[fd], write_interrupts)) return fails(EINTR);
    if (write_most >= 0 && size > (size_t)write_most) size = (size_t)write_most;
    if (fd == 2) return syscall(SYS_write, fd, buffer, size);
    ++counts->writes;
    if (counts->failed_writes) {
        ++counts->writes_after_failure;
    } else if ((long)counts->writes == write_at || (long)counts->bytes_written == write_after) {
        ++counts->failed_writes;
        return fails(ENOSPC);
    } else if (write_after >= 0 && size > (size_t)write_after - counts->bytes_written) {
        size = (size_t)write_after - counts->bytes_written;
    }
    ssize_t took = syscall(SYS_write, fd, buffer, size);
    if (took > 0) counts->bytes_written += (uint64_t)took;
    return took;
}
