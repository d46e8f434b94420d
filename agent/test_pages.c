/* Memory that begins and ends at inaccessible pages. */
#define _DEFAULT_SOURCE
#include <stdio.h>
#include <stdlib.h>
#include <string.h>
#include <sys/mman.h>
#include <unistd.h>

#include "test.h"

static void must(int good, const char *what)
{
    if (!good) {
        perror(what);
        exit(1);
    }
}

struct fenced fence(size_t least)
{
    size_t page = (size_t)sysconf(_SC_PAGESIZE);
    size_t size = (least + page - 1) / page * page;
    uint8_t *all = mmap(NULL, size + 2 * page, PROT_NONE, MAP_PRIVATE | MAP_ANONYMOUS, -1, 0);
    must(all != MAP_FAILED, "mmap");
    struct fenced fenced = {all + page, size};
    return fenced;
}

uint8_t *at(const struct fenced *fenced, enum side side, size_t len)
{
    must(mprotect(fenced->front, fenced->size, PROT_READ | PROT_WRITE) == 0, "mprotect");
    return side == FRONT ? fenced->front : fenced->front + fenced->size - len;
}

const uint8_t *lend(const struct fenced *fenced, enum side side, const uint8_t *bytes, size_t len)
{
    uint8_t *place = at(fenced, side, len);
    memcpy(place, bytes, len);
    must(mprotect(fenced->front, fenced->size, PROT_READ) == 0, "mprotect");
    return place;
}
