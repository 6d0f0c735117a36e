/* rpeltp.h: GSM full-rate speech (RPE-LTP, ETS 300 961), encoder and decoder, from C11 or C++11 on.

   The code behind these calls is proved: every call ends, on any samples, codewords and state;
   what is wrong is refused by number, and a refusal returns the state it was given and writes
   nothing; what is not refused is the standard's clause 4, bit for bit. Nothing proves this
   file: a test compares it with the source, field by field.

   What a caller must ensure, since nothing can check it:
   - a pointer is valid for as many elements as the length beside it says, and aligned for its
     type;
   - it may be null exactly where that length is 0;
   - what a call writes to does not overlap what it reads.

   Lengths count elements, not bytes, and may have any value: a wrong one is refused.

   There is nothing to open and nothing to free: a state is a plain value that the caller keeps,
   and a call returns the next one. The library has no memory of its own and allocates none,
   so any thread may make any call at any time. One buffer or one state variable must not be
   written by one thread while another uses it, as with any variable in C.

   The library is for x86-64, by the calling convention of Linux (not of Windows). A call takes
   less than 10 KB of stack, which was measured and is not proved. */
#ifndef RPELTP_H
#define RPELTP_H
#include <stddef.h>
#include <stdint.h>
#ifdef __cplusplus
extern "C" {
#endif

#define RPELTP_VERSION "1.0.0"

/* How many elements a frame has; 50 frames make a second. */
#define RPELTP_SAMPLES 160  /* samples at 8 kHz, 16 bits (the top 13 count); or octets of A-law */
#define RPELTP_CODEWORDS 76 /* LARc[1..8], and four times Nc, bc, Mc, xmaxc, xMc[0..12] */
#define RPELTP_BYTES 33     /* a packed frame: 260 bits and 4 spare ones, which are 0 */

/* The number that each call answers: 0, or why it refused. Where several apply it is the lowest. */
#define RPELTP_DONE 0
#define RPELTP_REFUSED_SAMPLES 1   /* samples_len or octets_len is not 160 */
#define RPELTP_REFUSED_CODEWORDS 2 /* codewords_len is not 76 */
#define RPELTP_REFUSED_STATE 3     /* the state is not sound (below); one that came from home is sound */
#define RPELTP_REFUSED_BYTES 4     /* bytes_len is not 33 */
#define RPELTP_REFUSED_FIELD 5     /* pack: a codeword is wider than its field, or below 0 */
#define RPELTP_REFUSED_SPARE 6     /* unpack: a spare bit is 1 */

/* How the recursion of 4.2.5 ended. Only after RPELTP_COMPLETE are all eight ratios measured.
   Where it stopped at the n-th, 1 to 8, ratios n to 8 say nothing of the microphone. */
#define RPELTP_NO_ENDING 0 /* the call was refused */
#define RPELTP_SILENT 1    /* the frame has no energy: no ratio was measured */
#define RPELTP_COMPLETE 2  /* all eight were */
#define RPELTP_STOPPED 16  /* RPELTP_STOPPED + n: it stopped at the n-th; 16 itself never comes */

/* Whether the lag of a sub-frame was measured. A lag of 40 with gain code 0 may be either: only
   the mark tells. */
#define RPELTP_NO_MARK 0 /* the call was refused */
#define RPELTP_RULE 1    /* no lag had a positive sum: 40 is where the search starts, no pitch */
#define RPELTP_FOUND 2   /* some lag had one, and this one has the greatest */

/* What the encoder keeps between frames (4.2), 280 bytes, by the standard's names. Sound, that
   is not refused by 3, exactly when z1 is from -16384 to 16380 and l_z2 - 32768 z1 from
   -536740337 to 536871409; the other fields may be anything. */
typedef struct {
    int32_t l_z2;       /* L_z2, the offset filter's long cell */
    int16_t z1;         /* its short one */
    int16_t mp;         /* the pre-emphasis cell */
    int16_t larpp[8];   /* LARpp, the last frame's decoded ratios */
    int16_t u[8];       /* the analysis lattice's cells */
    int16_t dp[120];    /* the residual's last 120 samples, the oldest first */
} rpeltp_encoder;

/* What the decoder keeps between frames (4.3), 276 bytes. Sound exactly when nrp is from 40 to
   120. */
typedef struct {
    int16_t drp[120];   /* the residual's last 120 samples, the oldest first */
    int16_t nrp;        /* the last lag that was from 40 to 120 */
    int16_t larpp[8];   /* LARpp, the last frame's decoded ratios */
    int16_t v[8];       /* the synthesis lattice's cells */
    int16_t msr;        /* the de-emphasis cell */
} rpeltp_decoder;

/* What encode answers, 288 bytes. Ending and marks are 0 exactly where number is not. */
typedef struct {
    rpeltp_encoder state; /* for the next call; refused: the one that was passed in */
    uint16_t number;      /* RPELTP_DONE, or RPELTP_REFUSED_SAMPLES, _CODEWORDS, _STATE */
    uint16_t ending;      /* RPELTP_SILENT, RPELTP_COMPLETE, RPELTP_STOPPED + n; RPELTP_NO_ENDING */
    uint8_t marks[4];     /* of the four sub-frames: RPELTP_RULE, RPELTP_FOUND; RPELTP_NO_MARK */
} rpeltp_encode_answer;

/* What decode answers, 278 bytes. */
typedef struct {
    rpeltp_decoder state; /* for the next call; refused: the one that was passed in */
    uint16_t number;      /* RPELTP_DONE, or RPELTP_REFUSED_SAMPLES, _CODEWORDS, _STATE */
} rpeltp_decode_answer;

/* The states to start from. They are all zeros, but for a remembered lag of 40. */
rpeltp_encoder rpeltp_encoder_home(void);
rpeltp_decoder rpeltp_decoder_home(void);

/* 160 samples to 76 codewords. Writes the 76 codewords where it is done, and nothing where it
   refuses; so `e = answer.state` is right in either case. */
rpeltp_encode_answer rpeltp_encode(rpeltp_encoder state,
                                   const int16_t *samples, size_t samples_len,
                                   int16_t *codewords, size_t codewords_len);

/* 76 codewords to 160 samples, whose low three bits are 0. Of a codeword only the bits of its
   field are used; a lag outside 40 to 120 is replaced by the last good one, as 4.3.2 has it.
   Writes the 160 samples where it is done, and nothing where it refuses. */
rpeltp_decode_answer rpeltp_decode(rpeltp_decoder state,
                                   const int16_t *codewords, size_t codewords_len,
                                   int16_t *samples, size_t samples_len);

/* The same from and to 160 octets of A-law (G.711, as they are on the line, the even bits
   inverted). A state may go from one kind of call to the other at any frame. */
rpeltp_encode_answer rpeltp_encode_alaw(rpeltp_encoder state,
                                        const uint8_t *octets, size_t octets_len,
                                        int16_t *codewords, size_t codewords_len);
rpeltp_decode_answer rpeltp_decode_alaw(rpeltp_decoder state,
                                        const int16_t *codewords, size_t codewords_len,
                                        uint8_t *octets, size_t octets_len);

/* 76 codewords to 33 bytes and back, the fields in the order of table 1.1, each lowest bit
   first, from the lowest bit of the first byte on. Both answer the number alone: pack
   RPELTP_DONE, RPELTP_REFUSED_CODEWORDS, _BYTES, _FIELD; unpack RPELTP_DONE,
   RPELTP_REFUSED_CODEWORDS, _BYTES, _SPARE. (This is no .gsm file: that layout begins each frame
   with 1101 and goes highest bit first.) */
uint16_t rpeltp_pack(const int16_t *codewords, size_t codewords_len,
                     uint8_t *bytes, size_t bytes_len);
uint16_t rpeltp_unpack(const uint8_t *bytes, size_t bytes_len,
                       int16_t *codewords, size_t codewords_len);

/* Sizes and offsets, as the library has them: a compiler with another layout is refused here. No
   struct has padding. */
#ifdef __cplusplus
#define RPELTP_ASSERT(fact, name) static_assert(fact, name)
#else
#define RPELTP_ASSERT(fact, name) _Static_assert(fact, name)
#endif
#define RPELTP_SIZE(type, bytes) RPELTP_ASSERT(sizeof(type) == (bytes), #type " has another size")
#define RPELTP_PLACE(type, field, byte) \
    RPELTP_ASSERT(offsetof(type, field) == (byte), #type "." #field " has another offset")
RPELTP_SIZE(rpeltp_encoder, 280);
RPELTP_PLACE(rpeltp_encoder, l_z2, 0);
RPELTP_PLACE(rpeltp_encoder, z1, 4);
RPELTP_PLACE(rpeltp_encoder, mp, 6);
RPELTP_PLACE(rpeltp_encoder, larpp, 8);
RPELTP_PLACE(rpeltp_encoder, u, 24);
RPELTP_PLACE(rpeltp_encoder, dp, 40);
RPELTP_SIZE(rpeltp_decoder, 276);
RPELTP_PLACE(rpeltp_decoder, drp, 0);
RPELTP_PLACE(rpeltp_decoder, nrp, 240);
RPELTP_PLACE(rpeltp_decoder, larpp, 242);
RPELTP_PLACE(rpeltp_decoder, v, 258);
RPELTP_PLACE(rpeltp_decoder, msr, 274);
RPELTP_SIZE(rpeltp_encode_answer, 288);
RPELTP_PLACE(rpeltp_encode_answer, state, 0);
RPELTP_PLACE(rpeltp_encode_answer, number, 280);
RPELTP_PLACE(rpeltp_encode_answer, ending, 282);
RPELTP_PLACE(rpeltp_encode_answer, marks, 284);
RPELTP_SIZE(rpeltp_decode_answer, 278);
RPELTP_PLACE(rpeltp_decode_answer, state, 0);
RPELTP_PLACE(rpeltp_decode_answer, number, 276);

#ifdef __cplusplus
}
#endif
#endif
