/* Buffers that end where the memory ends: a call that reads or writes one element too many is
   ended by the system. */
#ifndef FENCED_H
#define FENCED_H
#include <stddef.h>
#include <stdio.h>
#include <stdlib.h>
#include <sys/mman.h>

enum { PAGE = 4096 };

/* Where a stretch of so many bytes or more ends. Before it and after it is a page that nobody
   may touch. */
static inline unsigned char *fence(size_t bytes)
{
    size_t inside = (bytes + PAGE - 1) / PAGE * PAGE;
    unsigned char *all = mmap(NULL, inside + 2 * PAGE, PROT_NONE, MAP_PRIVATE | MAP_ANONYMOUS | MAP_NORESERVE, -1, 0);
    if (all == MAP_FAILED || mprotect(all + PAGE, inside, PROT_READ | PROT_WRITE) != 0) {
        perror("memory with a fence");
        exit(2);
    }
    return all + PAGE + inside;
}

/* The last bytes before a fence; of none of them the null pointer. */
static inline void *before(unsigned char *fence, size_t bytes)
{
    return bytes == 0 ? NULL : fence - bytes;
}
#endif
