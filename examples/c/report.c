/* Passes a sample frame and prints what is reported: a video container behind one ModEx layer. */

#include "hozgrim.h"
#include "names.h"

#include <inttypes.h>
#include <stdio.h>
#include <stdlib.h>

/* Byte 0, the layer (size, data, option), the container's head, two tracks. */
static const uint8_t sample[] = {
    0x97, 0x02, 0x00, 0x00, 0x2A, 0x06, 0x11, 'a',  'v',  'c',  '1',  0x00, 0x00,
    0x00, 0x03, 0xAA, 0xBB, 0xCC, 0x01, 0x00, 0x00, 0x02, 0xDD, 0xEE,
};

/* By their numbers. */
static const char *const verdicts[] = {"no record", "valid record", "refused record"};

static void print_track(const HozgrimTrack *track) {
    printf("track id %u: packet type %u, FourCC ", track->track_id, track->packet_type);
    for (int shift = 24; shift >= 0; shift -= 8) {
        putchar((int)(track->fourcc >> shift & 0xFF));
    }
    printf(", %zu bytes from %zu on, %s\n", track->length, track->start, verdicts[track->verdict]);
}

static int refused(const char *what, int32_t error) {
    fprintf(stderr, "%s: %" PRId32 "\n", what, error);
    return EXIT_FAILURE;
}

int main(void) {
    uint8_t output[sizeof sample];
    HozgrimReport report = hozgrim_pass(HOZGRIM_VIDEO, sample, sizeof sample, HOZGRIM_CAPS_EX_MODEX,
                                        1, output, sizeof output);
    if (report.error != HOZGRIM_OK) {
        return refused("the pass is refused", report.error);
    }
    if (report.header_error != HOZGRIM_OK) {
        return refused("the header is refused", report.header_error);
    }
    HozgrimSplitTime time = hozgrim_split_time(report.composition_time_ns);
    printf("received %zu bytes, result %zu\n", sizeof sample, report.result_length);
    printf("video header of %zu bytes: packet type %u, frame type %u\n", report.header_size,
           report.packet_type, report.frame_type);
    printf("composition time %" PRId64 " ms + %" PRIu32 " ns\n", time.milliseconds, time.offset);
    printf("records %zu, valid %zu\n", report.records, report.valid_records);
    printf("%s, %s\n", kinds[report.kind], hints[report.hint]);
    for (size_t number = 0; number < report.tracks; number++) {
        HozgrimTrack track = hozgrim_track(HOZGRIM_VIDEO, output, report.result_length, number);
        if (track.error != HOZGRIM_OK) {
            return refused("the track is refused", track.error);
        }
        print_track(&track);
    }
    if (fflush(stdout) != 0) {
        perror("standard output");
        return EXIT_FAILURE;
    }
    return EXIT_SUCCESS;
}
