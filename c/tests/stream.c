/* For outside/compare.py: a whole run from home through the boundary. stream encode reads
   samples and writes codewords, 16 bits each, low byte first; stream decode reads codewords and
   writes samples; encode_alaw and decode_alaw have octets for samples. What does not fill a
   frame is left out. Status 1: a frame is refused, or what was made cannot be written. */
#include <stdio.h>
#include <string.h>
#include "rpeltp.h"

static int16_t samples[RPELTP_SAMPLES], codewords[RPELTP_CODEWORDS];
static uint8_t octets[RPELTP_SAMPLES];
static rpeltp_encoder encoder;
static rpeltp_decoder decoder;

static uint16_t encode(void)
{
    rpeltp_encode_answer a = rpeltp_encode(encoder, samples, RPELTP_SAMPLES, codewords, RPELTP_CODEWORDS);
    encoder = a.state;
    return a.number;
}

static uint16_t decode(void)
{
    rpeltp_decode_answer a = rpeltp_decode(decoder, codewords, RPELTP_CODEWORDS, samples, RPELTP_SAMPLES);
    decoder = a.state;
    return a.number;
}

static uint16_t encode_alaw(void)
{
    rpeltp_encode_answer a = rpeltp_encode_alaw(encoder, octets, RPELTP_SAMPLES, codewords, RPELTP_CODEWORDS);
    encoder = a.state;
    return a.number;
}

static uint16_t decode_alaw(void)
{
    rpeltp_decode_answer a = rpeltp_decode_alaw(decoder, codewords, RPELTP_CODEWORDS, octets, RPELTP_SAMPLES);
    decoder = a.state;
    return a.number;
}

static const struct mode {
    const char *name;
    uint16_t (*frame)(void);
    void *given, *made;
    size_t given_bytes, made_bytes;
} modes[] = {
    {"encode", encode, samples, codewords, sizeof samples, sizeof codewords},
    {"decode", decode, codewords, samples, sizeof codewords, sizeof samples},
    {"encode_alaw", encode_alaw, octets, codewords, sizeof octets, sizeof codewords},
    {"decode_alaw", decode_alaw, codewords, octets, sizeof codewords, sizeof octets},
};

static int run(const struct mode *m)
{
    encoder = rpeltp_encoder_home();
    decoder = rpeltp_decoder_home();
    while (fread(m->given, m->given_bytes, 1, stdin) == 1) {
        uint16_t number = m->frame();
        if (number != RPELTP_DONE) {
            fprintf(stderr, "stream: refused by number %d\n", number);
            return 1;
        }
        if (fwrite(m->made, m->made_bytes, 1, stdout) != 1) return 1;
    }
    return fflush(stdout) != 0;
}

int main(int count, char **words)
{
    for (size_t i = 0; count == 2 && i < sizeof modes / sizeof modes[0]; i++)
        if (strcmp(words[1], modes[i].name) == 0) return run(&modes[i]);
    fputs("stream: encode, decode, encode_alaw or decode_alaw is wanted\n", stderr);
    return 2;
}
