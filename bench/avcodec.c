/* avcodec.c: libavcodec's decoder in the benchmark; it has no encoder. Compiled with AVCODEC where the headers are
   there; without, it is missing. */
#include "codecs.h"
#ifdef AVCODEC
#include <libavcodec/avcodec.h>
#include <stdlib.h>
#include <string.h>

static struct {
    const AVCodec *(*find)(const char *);
    AVCodecContext *(*context)(const AVCodec *);
    int (*open)(AVCodecContext *, const AVCodec *, AVDictionary **);
    void (*context_free)(AVCodecContext **);
    AVPacket *(*packet)(void);
    int (*packet_fill)(AVPacket *, int);
    void (*packet_free)(AVPacket **);
    AVFrame *(*frame)(void);
    void (*frame_free)(AVFrame **);
    int (*send)(AVCodecContext *, const AVPacket *);
    int (*receive)(AVCodecContext *, AVFrame *);
} av;

typedef struct {
    AVCodecContext *context;
    AVPacket *packet; /* one that counts its holders, so that sending it copies nothing */
    AVFrame *frame;
} av_channel;

static void av_close(const codec *c, void *channel)
{
    (void)c;
    av_channel *a = channel;
    av.context_free(&a->context);
    av.packet_free(&a->packet);
    av.frame_free(&a->frame);
    free(a);
}

static void *av_open(const codec *c, bool decoding)
{
    (void)decoding;
    const AVCodec *gsm = av.find("gsm");
    av_channel *a = gsm ? malloc(sizeof *a) : NULL;
    if (!a) return NULL;
    *a = (av_channel){av.context(gsm), av.packet(), av.frame()};
    if (a->context && a->packet && a->frame)
        if (av.open(a->context, gsm, NULL) == 0 && av.packet_fill(a->packet, BYTES) == 0) return a;
    av_close(c, a);
    return NULL;
}

/* The samples are copied to where the caller wants them, since the others write them there. */
static int av_decode(const codec *c, void *channel, const void *frame, void *samples)
{
    (void)c;
    av_channel *a = channel;
    memcpy(a->packet->data, frame, BYTES);
    if (av.send(a->context, a->packet) != 0 || av.receive(a->context, a->frame) != 0) return 1;
    if (a->frame->nb_samples != SAMPLES) return 1;
    memcpy(samples, a->frame->data[0], SAMPLES * sizeof(int16_t));
    return 0;
}

static const void *av_state(void *channel)
{
    return ((av_channel *)channel)->context->priv_data;
}

/* The library that the headers are of. What it has of libavutil is found through it. */
#define TEXT(number) #number
#define SONAME(number) "libavcodec.so." TEXT(number)

const char *libavcodec(codec *c)
{
    const function functions[] = {
        {"avcodec_find_decoder_by_name", &av.find}, {"avcodec_alloc_context3", &av.context},
        {"avcodec_open2", &av.open}, {"avcodec_free_context", &av.context_free},
        {"av_packet_alloc", &av.packet}, {"av_new_packet", &av.packet_fill}, {"av_packet_free", &av.packet_free},
        {"av_frame_alloc", &av.frame}, {"av_frame_free", &av.frame_free},
        {"avcodec_send_packet", &av.send}, {"avcodec_receive_frame", &av.receive},
    };
    *c = (codec){.name = c->name, .layout = RFC, .open = av_open, .close = av_close, .decode = av_decode,
                 .state = av_state};
    return bound(SONAME(LIBAVCODEC_VERSION_MAJOR), functions, sizeof functions / sizeof *functions);
}

#else

const char *libavcodec(codec *c)
{
    (void)c;
    return "its headers are not there";
}
#endif
