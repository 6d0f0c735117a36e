/* bench.c: compares the bits of several codecs, and then times them in one process, one after the other, each by the
   best of many short rounds.

       bench ROUNDS { NAME SAMPLES } { NAME SAMPLES } { NAME SAMPLES } { KIND NAME LIBRARY }..

   Three materials, each a name and a file of 16-bit samples: all are compared, the first two are timed, the first is
   used with several channels. Then the codecs, as codecs.h has them. The first one that is not missing is the
   reference: all decode what it encodes. Status 1: ours differs from it in a bit, and nothing is timed. On standard
   output are lines of words with tabs between them: missing, reference, bits, best, turns, refused. tables.py makes
   tables of them. */
#define _POSIX_C_SOURCE 200809L
#include "codecs.h"
#include <stdio.h>
#include <stdlib.h>
#include <string.h>
#include <time.h>

enum { ENCODED = 1536, DECODED = 3072, MATERIALS = 3, TIMED = 2, MOST_CHANNELS = 64, REFUSALS = 20000 };
enum { BEFORE_CODECS = 2 + 2 * MATERIALS }; /* words of the command line */
static const size_t CHANNELS[] = {1, 8, MOST_CHANNELS};
enum { COUNTS = sizeof CHANNELS / sizeof *CHANNELS };

/* What is encoded, and what the reference makes of it, in each layout: that is decoded. */
typedef struct {
    const char *name;
    int16_t samples[DECODED * SAMPLES], words[DECODED * CODEWORDS];
    uint8_t own[DECODED * BYTES], rfc[DECODED * BYTES];
} material;

/* Some frames of a material, cut into as many parts as there are channels; a frame of each part is taken in turn. */
typedef struct {
    bool decoding;
    const material *material;
    size_t first, frames, channels;
} job;

typedef void *channels[MOST_CHANNELS];

static material materials[MATERIALS];
static codec codecs[MOST_CODECS];
static size_t codec_count;

static void fail(const char *name, const char *what)
{
    fprintf(stderr, "bench: %s: %s\n", name, what);
    exit(1);
}

/* ---- layouts */

static unsigned width(size_t field)
{
    static const unsigned char ratios[] = {6, 6, 5, 5, 4, 4, 3, 3}, sub_frame[] = {7, 2, 2, 6};
    if (field < 8) return ratios[field];
    size_t place = (field - 8) % 17;
    return place < 4 ? sub_frame[place] : 3;
}

/* RFC 3551 begins with the bits 1101 and goes highest bit first; rpeltp.h goes lowest bit first. */
static void read_frame(layout l, const void *frame, int16_t *words)
{
    const uint8_t *bytes = frame;
    if (l == WORDS) {
        memcpy(words, frame, CODEWORDS * sizeof *words);
        return;
    }
    size_t place = l == RFC ? 4 : 0;
    for (size_t field = 0; field < CODEWORDS; field++) {
        unsigned word = 0, wide = width(field);
        for (unsigned k = 0; k < wide; k++, place++) {
            unsigned bit = bytes[place / 8] >> (l == RFC ? 7 - place % 8 : place % 8) & 1;
            word |= bit << (l == RFC ? wide - 1 - k : k);
        }
        words[field] = (int16_t)word;
    }
}

static void write_frame(layout l, const int16_t *words, uint8_t *bytes)
{
    memset(bytes, 0, BYTES);
    if (l == RFC) bytes[0] = 0xD0;
    size_t place = l == RFC ? 4 : 0;
    for (size_t field = 0; field < CODEWORDS; field++) {
        unsigned wide = width(field);
        for (unsigned k = 0; k < wide; k++, place++) {
            unsigned bit = (unsigned)words[field] >> (l == RFC ? wide - 1 - k : k) & 1;
            bytes[place / 8] |= (uint8_t)(bit << (l == RFC ? 7 - place % 8 : place % 8));
        }
    }
}

/* ---- a job through a codec */

static double now(void)
{
    struct timespec t;
    clock_gettime(CLOCK_PROCESS_CPUTIME_ID, &t);
    return 1e9 * (double)t.tv_sec + (double)t.tv_nsec;
}

static const char *way(const job *j)
{
    return j->decoding ? "decode" : "encode";
}

static bool does(const codec *c, const job *j)
{
    return j->decoding ? c->decode != NULL : c->encode != NULL;
}

static size_t frame_size(const codec *c)
{
    return c->layout == WORDS ? CODEWORDS * sizeof(int16_t) : BYTES;
}

static const uint8_t *given(const codec *c, const job *j)
{
    const material *m = j->material;
    if (!j->decoding) return (const uint8_t *)(m->samples + j->first * SAMPLES);
    const uint8_t *frames = c->layout == OWN ? m->own : c->layout == RFC ? m->rfc : (const uint8_t *)m->words;
    return frames + j->first * frame_size(c);
}

static void open_all(const codec *c, const job *j, channels open)
{
    for (size_t n = 0; n < j->channels; n++)
        if (!(open[n] = c->open(c, j->decoding))) fail(c->name, "a channel cannot be opened");
}

static void close_all(const codec *c, const job *j, channels open)
{
    for (size_t n = 0; n < j->channels; n++) c->close(c, open[n]);
}

/* The processor time of a frame, in ns. */
static double through(const codec *c, const job *j, channels open, void *left)
{
    const uint8_t *in = given(c, j);
    uint8_t *out = left;
    size_t samples = SAMPLES * sizeof(int16_t), part = j->frames / j->channels;
    size_t in_size = j->decoding ? frame_size(c) : samples, out_size = j->decoding ? samples : frame_size(c);
    int (*call)(const codec *, void *, const void *, void *) = j->decoding ? c->decode : c->encode;
    int refused = 0;
    double before = now();
    for (size_t f = 0; f < part; f++)
        for (size_t n = 0; n < j->channels; n++) {
            size_t place = n * part + f;
            refused |= call(c, open[n], in + place * in_size, out + place * out_size);
        }
    double took = now() - before;
    if (refused) fail(c->name, "a call was refused");
    return took / (double)j->frames;
}

static void from_home(const codec *c, const job *j, void *left)
{
    channels open;
    open_all(c, j, open);
    through(c, j, open, left);
    close_all(c, j, open);
}

/* ---- material */

static void read_samples(material *m, const char *name, const char *path)
{
    FILE *file = fopen(path, "rb");
    m->name = name;
    if (!file || fread(m->samples, sizeof *m->samples, DECODED * SAMPLES, file) != DECODED * SAMPLES)
        fail(name, "there are too few samples");
    fclose(file);
}

static void make_frames(const codec *reference, material *m)
{
    static uint8_t left[DECODED * CODEWORDS * sizeof(int16_t)];
    job all = {false, m, 0, DECODED, 1};
    from_home(reference, &all, left);
    for (size_t f = 0; f < DECODED; f++) {
        int16_t *words = m->words + f * CODEWORDS;
        read_frame(reference->layout, left + f * frame_size(reference), words);
        write_frame(OWN, words, m->own + f * BYTES);
        write_frame(RFC, words, m->rfc + f * BYTES);
    }
}

static job whole(bool decoding, const material *m, size_t channel_count)
{
    return (job){decoding, m, 0, decoding ? DECODED : ENCODED, channel_count};
}

/* ---- bits */

/* The words that a codec left: the codewords, out of its layout, or the samples. */
static void words_left(const codec *c, const job *j, const void *left, int16_t *words)
{
    const uint8_t *frames = left;
    if (j->decoding)
        memcpy(words, left, j->frames * SAMPLES * sizeof *words);
    else
        for (size_t f = 0; f < j->frames; f++) read_frame(c->layout, frames + f * frame_size(c), words + f * CODEWORDS);
}

/* The reference's words, each channel's made alone, one after another. */
static void words_wanted(const codec *reference, const job *j, int16_t *words)
{
    static int16_t left[DECODED * SAMPLES];
    size_t part = j->frames / j->channels, size = j->decoding ? SAMPLES : CODEWORDS;
    for (size_t n = 0; n < j->channels; n++) {
        job alone = {j->decoding, j->material, j->first + n * part, part, 1};
        from_home(reference, &alone, left);
        words_left(reference, &alone, left, words + n * part * size);
    }
}

/* Only ours has another layout than that of RFC 3551. */
static bool is_ours(const codec *c)
{
    return c->layout != RFC;
}

/* Compares all codecs with the reference's words, and says in how many frames each differs. Whether ours has none. */
static bool compared(const job *j)
{
    static int16_t wanted[DECODED * SAMPLES], words[DECODED * SAMPLES], left[DECODED * SAMPLES];
    size_t size = j->decoding ? SAMPLES : CODEWORDS;
    bool right = true;
    words_wanted(&codecs[0], j, wanted);
    for (size_t k = 0; k < codec_count; k++) {
        const codec *c = &codecs[k];
        size_t other = 0;
        if (!does(c, j)) continue;
        memset(left, 0x5A, sizeof left);
        from_home(c, j, left);
        words_left(c, j, left, words);
        for (size_t f = 0; f < j->frames; f++)
            other += memcmp(words + f * size, wanted + f * size, size * sizeof *words) != 0;
        printf("bits\t%s\t%s\t%zu\t%s\t%zu\t%zu\n", way(j), j->material->name, j->channels, c->name, other, j->frames);
        if (other && is_ours(c)) right = false;
    }
    return right;
}

static void compare_all(void)
{
    bool right = true;
    const char *wrong = ours_wrong();
    if (wrong) fail("ours", wrong);
    for (int decoding = 0; decoding < 2; decoding++)
        for (size_t m = 0; m < MATERIALS; m++)
            for (size_t n = 0; n < COUNTS; n++) {
                job j = whole(decoding, &materials[m], CHANNELS[n]);
                right &= compared(&j);
            }
    fflush(stdout);
    if (!right) fail("ours", "other bits than the reference's");
}

/* ---- time */

static int by_size(const void *a, const void *b)
{
    double x = *(const double *)a, y = *(const double *)b;
    return (x > y) - (x < y);
}

/* What takes part in a race: a codec at a job, its channels, which stay open from round to round, and its times. */
typedef struct {
    const codec *codec;
    const job *job;
    channels open;
    double *times;
} runner;

static size_t line_up(const job *jobs, size_t count, size_t rounds, runner *runners)
{
    size_t lined = 0;
    for (size_t k = 0; k < codec_count; k++)
        for (size_t n = 0; n < count; n++) {
            if (!does(&codecs[k], &jobs[n])) continue;
            runner *r = &runners[lined++];
            r->codec = &codecs[k];
            r->job = &jobs[n];
            r->times = calloc(rounds, sizeof *r->times);
            if (!r->times) fail(r->codec->name, "there is no memory for its times");
            open_all(r->codec, r->job, r->open);
        }
    return lined;
}

/* Times some jobs, each by every codec that can do it, in turn, and says the best and the median of each. */
static void race(const char *kind, const job *jobs, size_t count, size_t rounds)
{
    static int16_t left[DECODED * SAMPLES];
    static runner runners[COUNTS * MOST_CODECS];
    size_t lined = line_up(jobs, count, rounds, runners);
    for (size_t round = 0; round < rounds; round++)
        for (size_t k = 0; k < lined; k++) {
            runner *r = &runners[k];
            r->times[round] = through(r->codec, r->job, r->open, left);
        }
    for (size_t k = 0; k < lined; k++) {
        runner *r = &runners[k];
        const job *j = r->job;
        close_all(r->codec, j, r->open);
        qsort(r->times, rounds, sizeof *r->times, by_size);
        printf("%s\t%s\t%s\t%zu\t%s\t%.2f\t%.2f\n", kind, way(j), j->material->name, j->channels, r->codec->name,
               r->times[0], r->times[rounds / 2]);
        free(r->times);
    }
    fflush(stdout);
}

static void time_refusals(size_t rounds)
{
    double best[2] = {0};
    for (size_t round = 0; round < rounds; round++)
        for (int decoding = 0; decoding < 2; decoding++) {
            double before = now();
            if (ours_refused(decoding, REFUSALS)) return;
            double took = (now() - before) / REFUSALS;
            if (round == 0 || took < best[decoding]) best[decoding] = took;
        }
    printf("refused\tencode\t%.2f\nrefused\tdecode\t%.2f\n", best[0], best[1]);
}

static void time_all(bool decoding, size_t rounds)
{
    job jobs[COUNTS];
    for (size_t m = 0; m < TIMED; m++) {
        job j = whole(decoding, &materials[m], 1);
        fprintf(stderr, "timing: %s, %s\n", way(&j), materials[m].name);
        race("best", &j, 1, rounds);
    }
    for (size_t n = 0; n < COUNTS; n++) jobs[n] = whole(decoding, &materials[0], CHANNELS[n]);
    fprintf(stderr, "timing: %s, several channels\n", way(jobs));
    race("turns", jobs, COUNTS, rounds);
}

int main(int count, char **words)
{
    size_t rounds = count > BEFORE_CODECS ? strtoul(words[1], NULL, 10) : 0;
    if (rounds == 0) fail("wanted", "ROUNDS { NAME SAMPLES } of three materials { KIND NAME LIBRARY }..");
    codec_count = codecs_of(words + BEFORE_CODECS, count - BEFORE_CODECS, codecs);
    if (codec_count == 0 || !codecs[0].encode) fail("nothing to time", "there is no codec to compare with");
    printf("reference\t%s\n", codecs[0].name);
    for (size_t m = 0; m < MATERIALS; m++) {
        read_samples(&materials[m], words[2 + 2 * m], words[3 + 2 * m]);
        make_frames(&codecs[0], &materials[m]);
    }
    compare_all();
    time_all(false, rounds);
    time_all(true, rounds);
    time_refusals(rounds);
    return 0;
}
