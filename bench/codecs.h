/* codecs.h: one way to call each codec of the benchmark, so that all are compared and timed by the same loop. */
#ifndef CODECS_H
#define CODECS_H
#include <stdbool.h>
#include <stddef.h>
#include <stdint.h>

enum { SAMPLES = 160, CODEWORDS = 76, BYTES = 33 };

/* How a frame lies in memory: in 33 bytes as rpeltp.h has it, in 33 bytes as RFC 3551 has it (a .gsm file), or in 76
   words. */
typedef enum { OWN, RFC, WORDS } layout;

/* A codec. A channel is one encoder or one decoder, opened at home. encode and decode answer 0 where all is well, and
   are NULL where the codec has none. */
typedef struct codec codec;
struct codec {
    const char *name;
    layout layout;
    const void *calls; /* the functions of a library that was opened */
    void *(*open)(const codec *c, bool decoding);
    void (*close)(const codec *c, void *channel);
    int (*encode)(const codec *c, void *channel, const void *samples, void *frame);
    int (*decode)(const codec *c, void *channel, const void *frame, void *samples);
    const void *(*state)(void *channel); /* the block that holds a channel's state; NULL: the channel is that block */
};

/* Each fills in a codec, whose name is set, and answers NULL; or it answers in words why the codec is missing. */
const char *ours(codec *c);
const char *ours_in_words(codec *c); /* nothing is packed or unpacked */
const char *libgsm(codec *c, const char *path);
const char *spandsp(codec *c, const char *path);
const char *libavcodec(codec *c);

/* What is wrong with our states and our refusals, in words; NULL: nothing. */
const char *ours_wrong(void);
/* Calls rpeltp_encode, or rpeltp_decode, that often with a length that it refuses. How many were not refused. */
size_t ours_refused(bool decoding, size_t times);

/* A function of a library by its name, and the place of the pointer to it. */
typedef struct {
    const char *name;
    void *place;
} function;

/* Opens a library beside all others and finds its functions. NULL, or in words why not. */
const char *bound(const char *path, const function *functions, size_t count);

/* The codecs as the command line names them, three words each: kind, name, and the library's path, which ours and
   libavcodec do without. Those that are missing are said on standard output. Answers how many are there. */
enum { MOST_CODECS = 16 };
size_t codecs_of(char **words, int count, codec *codecs);

#endif
