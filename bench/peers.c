/* peers.c: libgsm and spandsp in the benchmark, each opened beside the others, and the list of all codecs. */
#include "codecs.h"
#include <dlfcn.h>
#include <stdio.h>
#include <stdlib.h>
#include <string.h>

const char *bound(const char *path, const function *functions, size_t count)
{
    void *library = dlopen(path, RTLD_NOW | RTLD_LOCAL);
    if (!library) return dlerror();
    for (size_t k = 0; k < count; k++) {
        void *found = dlsym(library, functions[k].name);
        if (!found) return dlerror();
        memcpy(functions[k].place, &found, sizeof found);
    }
    return NULL;
}

/* ---- libgsm, of which several builds may be open */

typedef struct {
    void *(*create)(void);
    void (*destroy)(void *);
    void (*encode)(void *, const int16_t *, uint8_t *);
    int (*decode)(void *, const uint8_t *, int16_t *);
} gsm_calls;

static void *gsm_open(const codec *c, bool decoding)
{
    (void)decoding;
    return ((const gsm_calls *)c->calls)->create();
}

static void gsm_close(const codec *c, void *channel)
{
    ((const gsm_calls *)c->calls)->destroy(channel);
}

static int gsm_encode(const codec *c, void *channel, const void *samples, void *frame)
{
    ((const gsm_calls *)c->calls)->encode(channel, samples, frame);
    return 0;
}

static int gsm_decode(const codec *c, void *channel, const void *frame, void *samples)
{
    return ((const gsm_calls *)c->calls)->decode(channel, frame, samples);
}

const char *libgsm(codec *c, const char *path)
{
    gsm_calls *calls = malloc(sizeof *calls);
    if (!calls) return "there is no memory";
    const function functions[] = {{"gsm_create", &calls->create}, {"gsm_destroy", &calls->destroy},
                                  {"gsm_encode", &calls->encode}, {"gsm_decode", &calls->decode}};
    *c = (codec){.name = c->name, .layout = RFC, .calls = calls, .open = gsm_open, .close = gsm_close,
                 .encode = gsm_encode, .decode = gsm_decode};
    return bound(path, functions, sizeof functions / sizeof *functions);
}

/* ---- spandsp */

static struct {
    void *(*init)(void *, int);
    int (*free)(void *);
    int (*encode)(void *, uint8_t *, const int16_t *, int);
    int (*decode)(void *, int16_t *, const uint8_t *, int);
} span;

enum { PACKING_VOIP = 2 }; /* 33 bytes as RFC 3551 has them */

static void *spandsp_open(const codec *c, bool decoding)
{
    (void)c, (void)decoding;
    return span.init(NULL, PACKING_VOIP);
}

static void spandsp_close(const codec *c, void *channel)
{
    (void)c;
    span.free(channel);
}

static int spandsp_encode(const codec *c, void *channel, const void *samples, void *frame)
{
    (void)c;
    return span.encode(channel, frame, samples, SAMPLES) != BYTES;
}

static int spandsp_decode(const codec *c, void *channel, const void *frame, void *samples)
{
    (void)c;
    return span.decode(channel, samples, frame, BYTES) != SAMPLES;
}

const char *spandsp(codec *c, const char *path)
{
    const function functions[] = {{"gsm0610_init", &span.init}, {"gsm0610_free", &span.free},
                                  {"gsm0610_encode", &span.encode}, {"gsm0610_decode", &span.decode}};
    *c = (codec){.name = c->name, .layout = RFC, .open = spandsp_open, .close = spandsp_close,
                 .encode = spandsp_encode, .decode = spandsp_decode};
    return bound(path, functions, sizeof functions / sizeof *functions);
}

/* ---- all of them */

static const char *found(codec *c, const char *kind, const char *path)
{
    if (!strcmp(kind, "ours")) return ours(c);
    if (!strcmp(kind, "words")) return ours_in_words(c);
    if (!strcmp(kind, "libgsm")) return libgsm(c, path);
    if (!strcmp(kind, "spandsp")) return spandsp(c, path);
    if (!strcmp(kind, "libavcodec")) return libavcodec(c);
    return "there is no such kind of codec";
}

size_t codecs_of(char **words, int count, codec *codecs)
{
    size_t there = 0;
    for (int k = 0; k + 2 < count && there < MOST_CODECS; k += 3) {
        codecs[there].name = words[k + 1];
        const char *missing = found(&codecs[there], words[k], words[k + 2]);
        if (missing)
            printf("missing\t%s\t%s\n", words[k + 1], missing);
        else
            there++;
    }
    return there;
}
