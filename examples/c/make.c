/* Makes a test room's frame and prints it in hexadecimal digits, behind its frame type: an audio
 * container of two microphones behind one ModEx layer. */

#include "hozgrim.h"

#include <inttypes.h>
#include <stdio.h>

enum { TRACKS = 2, ROOM = 64 };

/* The bodies, one behind the other, and where each stands. */
static const uint8_t bodies[] = {0xAA, 0xBB, 0xCC};
static const size_t starts[TRACKS] = {0, 1};
static const size_t lengths[TRACKS] = {1, 2};
static const uint8_t ids[TRACKS] = {1, 2};

/* Of the layer: an offset of 42 nanoseconds. */
static const uint8_t types[] = {HOZGRIM_MODEX_TIMESTAMP_OFFSET_NANO};
static const uint8_t offset[] = {0x00, 0x00, 0x2A};

static HozgrimWritten write_container(uint8_t *output) {
    const uint32_t opus = HOZGRIM_FOURCC('O', 'p', 'u', 's');
    const uint32_t fourccs[TRACKS] = {opus, opus};
    return hozgrim_write_container(HOZGRIM_AUDIO, 0, HOZGRIM_MANY_TRACKS,
                                   HOZGRIM_AUDIO_PACKET_CODED_FRAMES, TRACKS, ids, TRACKS, fourccs,
                                   TRACKS, starts, TRACKS, lengths, TRACKS, bodies, sizeof bodies,
                                   output, ROOM);
}

static HozgrimWritten write_layer(const uint8_t *payload, size_t payload_len, uint8_t *output) {
    const size_t start = 0;
    const size_t length = sizeof offset;
    return hozgrim_write_modex(HOZGRIM_AUDIO, 1, types, 1, &start, 1, &length, 1, offset,
                               sizeof offset, payload, payload_len, output, ROOM);
}

int main(void) {
    uint8_t container[ROOM];
    uint8_t frame[ROOM];
    HozgrimWritten written = write_container(container);
    if (written.error == HOZGRIM_OK) {
        written = write_layer(container, written.length, frame);
    }
    if (written.error != HOZGRIM_OK) {
        printf("refused: %" PRId32 "\n", written.error);
        return 1;
    }
    printf("%d", HOZGRIM_AUDIO);
    for (size_t at = 0; at < written.length; at++) {
        printf(" %02X", frame[at]);
    }
    putchar('\n');
    return 0;
}
