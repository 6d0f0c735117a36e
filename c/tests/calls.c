/* For outside/compare.py: a call from any state, through the boundary. Each record read, 768
   words low byte first, asks for one call; a record of the same layout answers it. The calls are
   1 encode, 2 decode, 3 pack, 4 unpack, 5 encode_alaw, 6 decode_alaw.

   A record: the head, 48 words; 16 words not used; the state, 240; 168 samples or octets; 168
   samples of a residual; 84 codewords; 40 bytes; 4 words not used. An octet or a byte is the low
   half of its word. The head asks: the call; how many samples or octets, codewords and bytes are
   passed. It answers: the refusal number, 255 where there is no such call; the ending; the four
   marks; and 0 in all its other words. All other words are answered as they were asked, except
   those that the call changes. */
#include <stdio.h>
#include <string.h>
#include "fenced.h"
#include "rpeltp.h"

enum { STATE = 64, SAMPLES = 304, CODEWORDS = 640, BYTES = 724, WORDS = 768 };
enum { MOST_SAMPLES = 168, MOST_CODEWORDS = 84, MOST_BYTES = 40 };

/* The record, how many elements of each buffer are passed, and the fences that they are moved up to. */
static int16_t w[WORDS];
static size_t samples_len, codewords_len, bytes_len;
static unsigned char *first_fence, *second_fence;

static size_t passed(int16_t asked, size_t most)
{
    size_t n = asked < 0 ? 0 : (size_t)asked;
    return n < most ? n : most;
}

/* So many words of the record from an index on, before a fence, and back. */
static int16_t *words_out(unsigned char *fence, int at, size_t count)
{
    int16_t *buffer = before(fence, 2 * count);
    if (buffer != NULL) memcpy(buffer, w + at, 2 * count);
    return buffer;
}

static void words_back(const int16_t *buffer, int at, size_t count)
{
    if (buffer != NULL) memcpy(w + at, buffer, 2 * count);
}

/* The low halves of so many words, and back; all words of the buffer come back as octets. */
static uint8_t *octets_out(unsigned char *fence, int at, size_t count)
{
    uint8_t *buffer = before(fence, count);
    for (size_t i = 0; i < count; i++) buffer[i] = (uint8_t)w[at + i];
    return buffer;
}

static void octets_back(const uint8_t *buffer, int at, size_t count, size_t most)
{
    for (size_t i = 0; i < most; i++) w[at + i] = i < count ? buffer[i] : (uint8_t)w[at + i];
}

static void answer_number(uint16_t number)
{
    memset(w, 0, 48 * sizeof w[0]);
    w[0] = (int16_t)number;
}

/* The states in a record: the encoder's is z1, L_z2 low half first, mp, LARpp, u, dp; the
   decoder's nrp, msr, LARpp, v, drp. */
static rpeltp_encoder encoder_in(void)
{
    const int16_t *s = w + STATE;
    rpeltp_encoder e = {.z1 = s[0], .l_z2 = (int32_t)((uint16_t)s[1] | (uint32_t)(uint16_t)s[2] << 16), .mp = s[3]};
    memcpy(e.larpp, s + 4, sizeof e.larpp);
    memcpy(e.u, s + 12, sizeof e.u);
    memcpy(e.dp, s + 20, sizeof e.dp);
    return e;
}

static rpeltp_decoder decoder_in(void)
{
    const int16_t *s = w + STATE;
    rpeltp_decoder d = {.nrp = s[0], .msr = s[1]};
    memcpy(d.larpp, s + 2, sizeof d.larpp);
    memcpy(d.v, s + 10, sizeof d.v);
    memcpy(d.drp, s + 18, sizeof d.drp);
    return d;
}

static void put_encoded(rpeltp_encode_answer a)
{
    int16_t *s = w + STATE;
    answer_number(a.number);
    w[1] = (int16_t)a.ending;
    for (int i = 0; i < 4; i++) w[2 + i] = a.marks[i];
    s[0] = a.state.z1;
    s[1] = (int16_t)(uint32_t)a.state.l_z2;
    s[2] = (int16_t)((uint32_t)a.state.l_z2 >> 16);
    s[3] = a.state.mp;
    memcpy(s + 4, a.state.larpp, sizeof a.state.larpp);
    memcpy(s + 12, a.state.u, sizeof a.state.u);
    memcpy(s + 20, a.state.dp, sizeof a.state.dp);
}

static void put_decoded(rpeltp_decode_answer a)
{
    int16_t *s = w + STATE;
    answer_number(a.number);
    s[0] = a.state.nrp;
    s[1] = a.state.msr;
    memcpy(s + 2, a.state.larpp, sizeof a.state.larpp);
    memcpy(s + 10, a.state.v, sizeof a.state.v);
    memcpy(s + 18, a.state.drp, sizeof a.state.drp);
}

static void encode(void)
{
    const int16_t *samples = words_out(first_fence, SAMPLES, samples_len);
    int16_t *codewords = words_out(second_fence, CODEWORDS, codewords_len);
    put_encoded(rpeltp_encode(encoder_in(), samples, samples_len, codewords, codewords_len));
    words_back(codewords, CODEWORDS, codewords_len);
}

static void decode(void)
{
    const int16_t *codewords = words_out(first_fence, CODEWORDS, codewords_len);
    int16_t *samples = words_out(second_fence, SAMPLES, samples_len);
    put_decoded(rpeltp_decode(decoder_in(), codewords, codewords_len, samples, samples_len));
    words_back(samples, SAMPLES, samples_len);
}

static void pack(void)
{
    const int16_t *codewords = words_out(first_fence, CODEWORDS, codewords_len);
    uint8_t *bytes = octets_out(second_fence, BYTES, bytes_len);
    answer_number(rpeltp_pack(codewords, codewords_len, bytes, bytes_len));
    octets_back(bytes, BYTES, bytes_len, MOST_BYTES);
}

static void unpack(void)
{
    const uint8_t *bytes = octets_out(first_fence, BYTES, bytes_len);
    int16_t *codewords = words_out(second_fence, CODEWORDS, codewords_len);
    answer_number(rpeltp_unpack(bytes, bytes_len, codewords, codewords_len));
    words_back(codewords, CODEWORDS, codewords_len);
}

static void encode_alaw(void)
{
    const uint8_t *octets = octets_out(first_fence, SAMPLES, samples_len);
    int16_t *codewords = words_out(second_fence, CODEWORDS, codewords_len);
    put_encoded(rpeltp_encode_alaw(encoder_in(), octets, samples_len, codewords, codewords_len));
    words_back(codewords, CODEWORDS, codewords_len);
}

static void decode_alaw(void)
{
    const int16_t *codewords = words_out(first_fence, CODEWORDS, codewords_len);
    uint8_t *octets = octets_out(second_fence, SAMPLES, samples_len);
    put_decoded(rpeltp_decode_alaw(decoder_in(), codewords, codewords_len, octets, samples_len));
    octets_back(octets, SAMPLES, samples_len, MOST_SAMPLES);
}

static void call(void)
{
    int16_t asked = w[0];
    samples_len = passed(w[1], MOST_SAMPLES);
    codewords_len = passed(w[2], MOST_CODEWORDS);
    bytes_len = passed(w[3], MOST_BYTES);
    switch (asked) {
    case 1: encode(); break;
    case 2: decode(); break;
    case 3: pack(); break;
    case 4: unpack(); break;
    case 5: encode_alaw(); break;
    case 6: decode_alaw(); break;
    default: answer_number(255);
    }
}

int main(void)
{
    first_fence = fence(PAGE);
    second_fence = fence(PAGE);
    while (fread(w, sizeof w, 1, stdin) == 1) {
        call();
        if (fwrite(w, sizeof w, 1, stdout) != 1) return 1;
    }
    return fflush(stdout) != 0;
}
