/* Keeps the marks of test/coverage/instrument.py in the file MARKS, so that all runs of a program add to it. (A program may have an `open`
 * of its own.) */
#define _GNU_SOURCE
#include <fcntl.h>
#include <stdlib.h>
#include <sys/mman.h>
#include <unistd.h>

extern unsigned char coverage_marks[], coverage_marks_end[];

__attribute__((constructor)) static void keep_marks(void) {
    const size_t size = (size_t)(coverage_marks_end - coverage_marks);
    const int file = openat(AT_FDCWD, MARKS, O_RDWR);
    if (file < 0 || mmap(coverage_marks, size, PROT_READ | PROT_WRITE, MAP_SHARED | MAP_FIXED, file, 0) == MAP_FAILED) abort();
    close(file);
}
