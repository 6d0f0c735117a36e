/* Encodes a recording and says of each frame how its recursion ended, and of each lag whether it
   was found:
       cc example.c $(pkg-config --cflags --libs rpeltp) -o example && ./example < speech.raw
   The recording is 16-bit samples at 8 kHz, low byte first. */
#include <stdio.h>
#include <rpeltp.h>

int main(void)
{
    rpeltp_encoder encoder = rpeltp_encoder_home();
    int16_t samples[RPELTP_SAMPLES], codewords[RPELTP_CODEWORDS];
    size_t frames = 0, bytes;
    while ((bytes = fread(samples, 1, sizeof samples, stdin)) == sizeof samples) {
        rpeltp_encode_answer a =
            rpeltp_encode(encoder, samples, RPELTP_SAMPLES, codewords, RPELTP_CODEWORDS);
        if (a.number != RPELTP_DONE) {
            fprintf(stderr, "refused by number %d\n", a.number);
            return 1;
        }
        encoder = a.state;
        printf("%zu\t", ++frames);
        if (a.ending > RPELTP_STOPPED) printf("stop%d", a.ending - RPELTP_STOPPED);
        else printf("%s", a.ending == RPELTP_COMPLETE ? "complete" : "silent");
        for (int i = 0; i < 4; i++)
            printf("\t%d %s", codewords[8 + 17 * i], a.marks[i] == RPELTP_FOUND ? "found" : "rule");
        printf("\n");
    }
    printf("E\t%zu\t%zu\t%zu\n", frames, bytes / 2, bytes % 2); /* left over, and not coded */
    return 0;
}
