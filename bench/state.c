/* state.c: says how many bytes each codec keeps for a channel: those of the block that holds its state, and all that it
   has asked the allocator for once a first frame is through. It is not a part of bench, since counting in the
   allocator takes time.

       state { KIND NAME LIBRARY }.. */
#include "codecs.h"
#include <errno.h>
#include <stdio.h>
#include <stdlib.h>

void *__libc_malloc(size_t size);
void *__libc_calloc(size_t count, size_t size);
void *__libc_realloc(void *block, size_t size);
void *__libc_memalign(size_t alignment, size_t size);
void __libc_free(void *block);
void *memalign(size_t alignment, size_t size);

enum { MOST_BLOCKS = 4096 };
static struct {
    const void *at;
    size_t size;
} blocks[MOST_BLOCKS];
static size_t block_count;
static bool counting;

static void *asked(void *block, size_t size)
{
    if (counting && block && block_count < MOST_BLOCKS) {
        blocks[block_count].at = block;
        blocks[block_count++].size = size;
    }
    return block;
}

static void given_back(const void *block)
{
    for (size_t k = 0; counting && k < block_count; k++)
        if (blocks[k].at == block) blocks[k].size = 0;
}

/* ---- in the allocator's place */

void *malloc(size_t size)
{
    return asked(__libc_malloc(size), size);
}

void *calloc(size_t count, size_t size)
{
    return asked(__libc_calloc(count, size), count * size);
}

void *realloc(void *block, size_t size)
{
    given_back(block);
    return asked(__libc_realloc(block, size), size);
}

void *memalign(size_t alignment, size_t size)
{
    return asked(__libc_memalign(alignment, size), size);
}

void *aligned_alloc(size_t alignment, size_t size)
{
    return memalign(alignment, size);
}

int posix_memalign(void **block, size_t alignment, size_t size)
{
    *block = memalign(alignment, size);
    return *block ? 0 : ENOMEM;
}

void free(void *block)
{
    given_back(block);
    __libc_free(block);
}

/* ---- a channel of each */

/* Opens a channel and puts a frame of silence through it, counting. NULL: that went wrong. */
static void *counted(const codec *c, bool decoding)
{
    int16_t samples[SAMPLES] = {0}, words[CODEWORDS] = {0};
    uint8_t bytes[BYTES] = {c->layout == RFC ? 0xD0 : 0};
    void *frame = c->layout == WORDS ? (void *)words : bytes;
    block_count = 0;
    counting = true;
    void *channel = c->open(c, decoding);
    int wrong = !channel || (decoding ? c->decode(c, channel, frame, samples) : c->encode(c, channel, samples, frame));
    counting = false;
    return wrong ? NULL : channel;
}

static void say(const codec *c, bool decoding)
{
    size_t all = 0, own = 0;
    void *channel = counted(c, decoding);
    if (!channel) return;
    const void *state = c->state ? c->state(channel) : channel;
    for (size_t k = 0; k < block_count; k++) {
        all += blocks[k].size;
        if (blocks[k].at == state && blocks[k].size) own = blocks[k].size;
    }
    printf("state\t%s\t%s\t%zu\t%zu\n", decoding ? "decode" : "encode", c->name, own, all);
    c->close(c, channel);
}

int main(int count, char **words)
{
    static codec codecs[MOST_CODECS];
    size_t there = codecs_of(words + 1, count - 1, codecs);
    for (size_t k = 0; k < there; k++) {
        if (codecs[k].encode) say(&codecs[k], false);
        if (codecs[k].decode) say(&codecs[k], true);
    }
    return 0;
}
