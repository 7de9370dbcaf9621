/* Memory that is lent to a call so that a stray byte is found.
 *
 * AT_END and AT_START: in pages between two that may not be touched, right at the one or at the other; a byte past that end is a signal. Pages that may only be
 * read are mapped a second time, for the host to write: a call that writes to them gets a signal, even if it writes what stands there.
 * HEAP: malloc'ed, exactly as long, and not written to; valgrind sees a stray byte at either end, and a byte that is read before it was written. */
#ifndef FENCE_H
#define FENCE_H

#include <stdint.h>
#include <stdio.h>
#include <stdlib.h>
#include <sys/mman.h>
#include <unistd.h>

enum where { AT_END, AT_START, HEAP, WAYS };

static const char *const WHERE[] = {"at the end of its pages", "at the start of its pages", "allocated just as long"};

struct pages {
    uint8_t *start, *end; /* as the call sees them */
    uint8_t *own;         /* as the host writes them */
    size_t page;
};

static void *sure(void *at)
{
    if (at == NULL || at == MAP_FAILED) {
        perror("memory");
        exit(2);
    }
    return at;
}

/* Room for so many bytes; the call may write there, or only read. */
static struct pages fenced(size_t room, int may_write)
{
    size_t page = (size_t)sysconf(_SC_PAGESIZE), all = (room + page - 1) / page * page;
    int memory = memfd_create("lent", 0);
    if (memory < 0 || ftruncate(memory, (off_t)all) != 0) {
        perror("fenced");
        exit(2);
    }
    uint8_t *at = sure(mmap(NULL, all + 2 * page, PROT_NONE, MAP_PRIVATE | MAP_ANONYMOUS, -1, 0));
    sure(mmap(at + page, all, may_write ? PROT_READ | PROT_WRITE : PROT_READ, MAP_SHARED | MAP_FIXED, memory, 0));
    uint8_t *own = sure(mmap(NULL, all, PROT_READ | PROT_WRITE, MAP_SHARED, memory, 0));
    close(memory);
    return (struct pages){at + page, at + page + all, own, page};
}

/* Memory of n bytes for the call. */
static uint8_t *lend(const struct pages *pages, size_t n, enum where where)
{
    if (where == HEAP)
        return sure(malloc(n > 0 ? n : 1));
    return where == AT_START ? pages->start : pages->end - n;
}

/* Where the host writes what is lent at `at`. */
static inline uint8_t *own_of(const struct pages *pages, uint8_t *at, enum where where)
{
    return where == HEAP ? at : pages->own + (at - pages->start);
}

static void give_back(uint8_t *at, enum where where)
{
    if (where == HEAP)
        free(at);
}

#endif
