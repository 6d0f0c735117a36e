/* Every wrong length, through the boundary: each call with each length from 0 to 1,024 in each
   of its two buffers, and with lengths that are right in their low 16 or 32 bits alone (refusals
   16: only the former). A wrong one is refused by its number, the lower of two; the answer has
   the state as it was, no ending and no marks, and nothing is written. Where a length is 0
   the pointer is null. Status 1: something else was seen. */
#include <stdio.h>
#include <string.h>
#include "fenced.h"
#include "rpeltp.h"

enum { MOST = 1024, SEEN = 4096 };
static unsigned char *fences[2]; /* what is read ends at the first, what is written at the second */
static unsigned char written[SEEN];
static rpeltp_encoder encoder;
static rpeltp_decoder decoder;
static int widest; /* 16 or 32 */

static void wrong(const char *what, size_t first, size_t second)
{
    printf("refusals: %s: lengths %zu and %zu\n", what, first, second);
    exit(1);
}

/* The part of a buffer that is looked at: all of it, but for the widest. */
static size_t seen(size_t bytes)
{
    return bytes < SEEN ? bytes : SEEN;
}

static void *filled(size_t bytes)
{
    void *buffer = before(fences[1], bytes);
    for (size_t i = 0; i < seen(bytes); i++) written[i] = ((unsigned char *)buffer)[i] = (unsigned char)(37 * i + 11);
    return buffer;
}

static int unchanged(const void *buffer, size_t bytes)
{
    return bytes == 0 || memcmp(buffer, written, seen(bytes)) == 0;
}

static uint16_t encoded(rpeltp_encode_answer a)
{
    static const uint8_t none[4] = {RPELTP_NO_MARK, RPELTP_NO_MARK, RPELTP_NO_MARK, RPELTP_NO_MARK};
    int refused = a.number != RPELTP_DONE;
    if (refused && memcmp(&a.state, &encoder, sizeof encoder) != 0) return 99;
    if (refused && memcmp(a.marks, none, sizeof none) != 0) return 99;
    return (a.ending == RPELTP_NO_ENDING) == refused ? a.number : 99;
}

static uint16_t decoded(rpeltp_decode_answer a)
{
    return a.number != RPELTP_DONE && memcmp(&a.state, &decoder, sizeof decoder) != 0 ? 99 : a.number;
}

/* A call with such lengths: what it reads, what it writes. 99 stands for an answer that is no
   refusal as the header has it. */
static uint16_t encode(size_t samples, void *codewords, size_t count)
{
    return encoded(rpeltp_encode(encoder, before(fences[0], 2 * samples), samples, codewords, count));
}

static uint16_t decode(size_t codewords, void *samples, size_t count)
{
    return decoded(rpeltp_decode(decoder, before(fences[0], 2 * codewords), codewords, samples, count));
}

static uint16_t encode_alaw(size_t octets, void *codewords, size_t count)
{
    return encoded(rpeltp_encode_alaw(encoder, before(fences[0], octets), octets, codewords, count));
}

static uint16_t decode_alaw(size_t codewords, void *octets, size_t count)
{
    return decoded(rpeltp_decode_alaw(decoder, before(fences[0], 2 * codewords), codewords, octets, count));
}

static uint16_t pack(size_t codewords, void *bytes, size_t count)
{
    return rpeltp_pack(before(fences[0], 2 * codewords), codewords, bytes, count);
}

static uint16_t unpack(size_t bytes, void *codewords, size_t count)
{
    return rpeltp_unpack(before(fences[0], bytes), bytes, codewords, count);
}

static const struct call {
    const char *name;
    uint16_t (*made)(size_t, void *, size_t);
    size_t right[2];    /* how many elements are read and written */
    uint16_t number[2]; /* what another count of them is refused by */
    size_t width;       /* of an element that is written, in bytes */
} calls[] = {
    {"encode", encode, {160, 76}, {RPELTP_REFUSED_SAMPLES, RPELTP_REFUSED_CODEWORDS}, 2},
    {"decode", decode, {76, 160}, {RPELTP_REFUSED_CODEWORDS, RPELTP_REFUSED_SAMPLES}, 2},
    {"encode_alaw", encode_alaw, {160, 76}, {RPELTP_REFUSED_SAMPLES, RPELTP_REFUSED_CODEWORDS}, 2},
    {"decode_alaw", decode_alaw, {76, 160}, {RPELTP_REFUSED_CODEWORDS, RPELTP_REFUSED_SAMPLES}, 1},
    {"pack", pack, {76, 33}, {RPELTP_REFUSED_CODEWORDS, RPELTP_REFUSED_BYTES}, 1},
    {"unpack", unpack, {33, 76}, {RPELTP_REFUSED_BYTES, RPELTP_REFUSED_CODEWORDS}, 2},
};

static uint16_t expected(const struct call *c, size_t first, size_t second)
{
    uint16_t read = first == c->right[0] ? 0 : c->number[0], write = second == c->right[1] ? 0 : c->number[1];
    return read == 0 || (write != 0 && write < read) ? write : read;
}

static void try(const struct call *c, size_t first, size_t second)
{
    void *buffer = filled(c->width * second);
    uint16_t number = c->made(first, buffer, second);
    if (number != expected(c, first, second)) wrong(c->name, first, second);
    if (number != RPELTP_DONE && !unchanged(buffer, c->width * second)) wrong("a refusal has written", first, second);
}

static size_t try_all(const struct call *c)
{
    size_t tried = 0;
    for (size_t n = 0; n <= MOST; n++, tried += 3) {
        try(c, n, c->right[1]);
        try(c, c->right[0], n);
        try(c, n, MOST - n);
    }
    for (int bits = 16; bits <= widest; bits += 16, tried += 2) {
        try(c, ((size_t)1 << bits) + c->right[0], c->right[1]);
        try(c, c->right[0], ((size_t)1 << bits) + c->right[1]);
    }
    return tried;
}

int main(int count, char **words)
{
    size_t tried = 0;
    widest = count == 2 && strcmp(words[1], "16") == 0 ? 16 : 32;
    for (int i = 0; i < 2; i++) fences[i] = fence(2 * (((size_t)1 << widest) + RPELTP_SAMPLES));
    encoder = rpeltp_encoder_home();
    decoder = rpeltp_decoder_home();
    for (size_t i = 0; i < sizeof calls / sizeof calls[0]; i++) tried += try_all(&calls[i]);
    printf("refusals: %zu calls of every length, none refused by another number, nothing written\n", tried);
    return 0;
}
