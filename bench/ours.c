/* ours.c: our codec in the benchmark, called through rpeltp.h as any C program would call it. Without OURS there is no
   library to link, and it is missing. */
#include "codecs.h"
#ifdef OURS
#include "rpeltp.h"
#include <stdlib.h>
#include <string.h>

static void *ours_open(const codec *c, bool decoding)
{
    (void)c;
    if (decoding) {
        rpeltp_decoder *d = malloc(sizeof *d);
        if (d) *d = rpeltp_decoder_home();
        return d;
    }
    rpeltp_encoder *e = malloc(sizeof *e);
    if (e) *e = rpeltp_encoder_home();
    return e;
}

static void ours_close(const codec *c, void *channel)
{
    (void)c;
    free(channel);
}

static int words_encode(const codec *c, void *channel, const void *samples, void *frame)
{
    (void)c;
    rpeltp_encoder *e = channel;
    rpeltp_encode_answer a = rpeltp_encode(*e, samples, SAMPLES, frame, CODEWORDS);
    *e = a.state;
    return a.number;
}

static int words_decode(const codec *c, void *channel, const void *frame, void *samples)
{
    (void)c;
    rpeltp_decoder *d = channel;
    rpeltp_decode_answer a = rpeltp_decode(*d, frame, CODEWORDS, samples, SAMPLES);
    *d = a.state;
    return a.number;
}

static int packed_encode(const codec *c, void *channel, const void *samples, void *frame)
{
    int16_t codewords[CODEWORDS];
    int number = words_encode(c, channel, samples, codewords);
    return number ? number : rpeltp_pack(codewords, CODEWORDS, frame, BYTES);
}

static int packed_decode(const codec *c, void *channel, const void *frame, void *samples)
{
    int16_t codewords[CODEWORDS];
    int number = rpeltp_unpack(frame, BYTES, codewords, CODEWORDS);
    return number ? number : words_decode(c, channel, codewords, samples);
}

const char *ours(codec *c)
{
    *c = (codec){.name = c->name, .layout = OWN, .open = ours_open, .close = ours_close,
                 .encode = packed_encode, .decode = packed_decode};
    return NULL;
}

const char *ours_in_words(codec *c)
{
    *c = (codec){.name = c->name, .layout = WORDS, .open = ours_open, .close = ours_close,
                 .encode = words_encode, .decode = words_decode};
    return NULL;
}

/* ---- states and refusals */

/* Fills a state with bytes of which no two neighbours are the same. It may be unsound: a length is refused first. */
static void mark(void *state, size_t size)
{
    for (size_t k = 0; k < size; k++) ((uint8_t *)state)[k] = (uint8_t)(7 * k + 3);
}

static const char *encoder_wrong(void)
{
    static const rpeltp_encoder zeros;
    int16_t samples[SAMPLES] = {0}, codewords[CODEWORDS] = {-1, -1}, before[CODEWORDS] = {-1, -1};
    rpeltp_encoder home = rpeltp_encoder_home(), given;
    if (memcmp(&home, &zeros, sizeof home)) return "the encoder's home is not all zeros";
    mark(&given, sizeof given);
    rpeltp_encode_answer a = rpeltp_encode(given, samples, SAMPLES - 1, codewords, CODEWORDS);
    if (a.number != RPELTP_REFUSED_SAMPLES || a.ending != RPELTP_NO_ENDING) return "encode does not refuse 159 samples";
    if (memcmp(&a.state, &given, sizeof given)) return "a refused encode does not hand its state back";
    if (memcmp(codewords, before, sizeof before)) return "a refused encode writes codewords";
    a = rpeltp_encode(home, samples, SAMPLES, codewords, CODEWORDS);
    if (a.number != RPELTP_DONE || a.ending != RPELTP_SILENT) return "encode does not say that silence is silent";
    return NULL;
}

static const char *decoder_wrong(void)
{
    int16_t samples[SAMPLES] = {-1, -1}, before[SAMPLES] = {-1, -1}, codewords[CODEWORDS] = {0};
    rpeltp_decoder home = rpeltp_decoder_home(), zeros = {.nrp = 40}, given;
    if (memcmp(&home, &zeros, sizeof home)) return "the decoder's home is not all zeros but for a lag of 40";
    mark(&given, sizeof given);
    rpeltp_decode_answer a = rpeltp_decode(given, codewords, CODEWORDS - 1, samples, SAMPLES);
    if (a.number != RPELTP_REFUSED_CODEWORDS) return "decode does not refuse 75 codewords";
    if (memcmp(&a.state, &given, sizeof given)) return "a refused decode does not hand its state back";
    if (memcmp(samples, before, sizeof before)) return "a refused decode writes samples";
    return NULL;
}

const char *ours_wrong(void)
{
    const char *wrong = encoder_wrong();
    return wrong ? wrong : decoder_wrong();
}

size_t ours_refused(bool decoding, size_t times)
{
    int16_t samples[SAMPLES] = {0}, codewords[CODEWORDS] = {0};
    rpeltp_encoder e = rpeltp_encoder_home();
    rpeltp_decoder d = rpeltp_decoder_home();
    size_t taken = 0;
    for (size_t k = 0; k < times; k++) {
        if (decoding) {
            rpeltp_decode_answer a = rpeltp_decode(d, codewords, CODEWORDS, samples, SAMPLES - 1);
            d = a.state;
            taken += a.number == RPELTP_DONE;
        } else {
            rpeltp_encode_answer a = rpeltp_encode(e, samples, SAMPLES - 1, codewords, CODEWORDS);
            e = a.state;
            taken += a.number == RPELTP_DONE;
        }
    }
    return taken;
}

#else

const char *ours(codec *c)
{
    (void)c;
    return "it was not linked";
}

const char *ours_in_words(codec *c)
{
    return ours(c);
}

const char *ours_wrong(void)
{
    return NULL;
}

size_t ours_refused(bool decoding, size_t times)
{
    (void)decoding;
    return times;
}
#endif
