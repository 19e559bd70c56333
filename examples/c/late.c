/* Offers the RTMP messages of a sample room to a store with short slots, and prints a line for
 * each: type, received length, how many bytes are relayed, cache kind, and whether the frame is
 * kept; and where a viewer joins late, a line for each frame that is sent. */

#include "hozgrim.h"
#include "names.h"

#include <inttypes.h>
#include <stdio.h>
#include <stdlib.h>

enum {
    /* Slots that the frames of the sample fit, all but one. */
    VIDEO_SLOT = 24,
    AUDIO_SLOT = 24,
    KEYFRAME_SLOT = 12,
    /* No message of the sample is longer. */
    OUTPUT = 32
};

static const uint8_t script[] = {0x02, 0x00, 0x0A, 'o', 'n', 'M', 'e',
                                 't',  'a',  'D',  'a', 't', 'a'};
static const uint8_t header[] = {0x90, 'a',  'v',  'c',  '1',  0x01, 0x42, 0x00, 0x1E,
                                 0xFF, 0xE1, 0x00, 0x01, 0x67, 0x01, 0x00, 0x01, 0x68};
static const uint8_t audio_header[] = {0xAF, 0x00, 0x12, 0x10};
/* A keyframe behind a layer, a picture that is none, and a layer that is refused. */
static const uint8_t layered_keyframe[] = {0x97, 0x02, 0x00, 0x00, 0x2A, 0x01, 'a',
                                           'v',  'c',  '1',  0x00, 0x00, 0x00, 0x65};
static const uint8_t picture[] = {0xA1, 'a', 'v', 'c', '1', 0x00, 0x00, 0x28, 0x41};
static const uint8_t bad_offset[] = {0x97, 0x00, 0xAA, 0x01, 'O', 'p', 'u', 's', 0xDD};
/* Another header, behind a layer too. */
static const uint8_t next_header[] = {0x97, 0x02, 0x00, 0x00, 0x2A, 0x00, 'a',  'v',
                                      'c',  '1',  0x01, 0x4D, 0x00, 0x1F, 0xFF, 0xE1,
                                      0x00, 0x01, 0x67, 0x01, 0x00, 0x01, 0x68};
static const uint8_t keyframe[] = {0x91, 'a', 'v', 'c', '1', 0x00, 0x00, 0x00, 0x25};
static const uint8_t long_keyframe[] = {0x91, 'a',  'v',  'c',  '1',  0x00, 0x00,
                                        0x00, 0x65, 0x88, 0x84, 0x21, 0xA0};

/* A message as it comes off the wire; or, if it has no bytes, a viewer who joins. */
typedef struct {
    uint32_t frame_type;
    const uint8_t *bytes;
    size_t length;
} Event;

static const Event sample[] = {
    {0, NULL, 0},
    {HOZGRIM_SCRIPT, script, sizeof script},
    {HOZGRIM_VIDEO, header, sizeof header},
    {HOZGRIM_AUDIO, audio_header, sizeof audio_header},
    {0, NULL, 0},
    {HOZGRIM_VIDEO, layered_keyframe, sizeof layered_keyframe},
    {HOZGRIM_VIDEO, picture, sizeof picture},
    {HOZGRIM_AUDIO, bad_offset, sizeof bad_offset},
    {0, NULL, 0},
    {HOZGRIM_VIDEO, next_header, sizeof next_header},
    {0, NULL, 0},
    {HOZGRIM_VIDEO, keyframe, sizeof keyframe},
    {HOZGRIM_VIDEO, long_keyframe, sizeof long_keyframe},
    {0, NULL, 0},
    {HOZGRIM_VIDEO, keyframe, sizeof keyframe},
    {HOZGRIM_VIDEO, picture, sizeof picture},
    {0, NULL, 0},
};

/* The store of one route. Zeroed, it is empty. */
typedef struct {
    HozgrimLengths lengths;
    uint8_t video[VIDEO_SLOT];
    uint8_t audio[AUDIO_SLOT];
    uint8_t keyframe[KEYFRAME_SLOT];
} Store;

/* Relays a message to the viewers who are there, and prints what became of it. */
static void receive(Store *store, const Event *message) {
    uint8_t output[OUTPUT];
    HozgrimStored stored = hozgrim_store_frame(
        &store->lengths, message->frame_type, message->bytes, message->length,
        HOZGRIM_CAPS_EX_MODEX, 1, output, sizeof output, store->video, sizeof store->video,
        store->audio, sizeof store->audio, store->keyframe, sizeof store->keyframe);
    const HozgrimReport *report = &stored.report;
    printf("%s, %zu bytes: ", types[message->frame_type], message->length);
    if (report->error != HOZGRIM_OK) {
        printf("refused, %" PRId32 "\n", report->error);
        return;
    }
    /* Here a relay writes the front of the output to the connection of each viewer, kept or not. */
    printf("%zu relayed, %s", report->result_length, kinds[report->kind]);
    if (stored.error == HOZGRIM_SLOT_TOO_SHORT) {
        printf(", longer than its slot, %" PRId32, stored.error);
    } else if (report->kind != HOZGRIM_LIVE_ONLY) {
        printf(", kept");
    }
    putchar('\n');
}

static HozgrimLate late(const Store *store, size_t number) {
    return hozgrim_late(store->lengths, store->video, sizeof store->video, store->audio,
                        sizeof store->audio, store->keyframe, sizeof store->keyframe, number);
}

/* The buffer of a kind that is kept. */
static const uint8_t *buffer(const Store *store, uint32_t kind) {
    switch (kind) {
    case HOZGRIM_VIDEO_SEQUENCE_HEADER:
        return store->video;
    case HOZGRIM_AUDIO_SEQUENCE_HEADER:
        return store->audio;
    default:
        return store->keyframe;
    }
}

/* Prints what a viewer who joins now is sent, before the messages that follow. The relay gives
 * these frames a timestamp. */
static void join(const Store *store) {
    size_t count = late(store, 0).count;
    if (count == 0) {
        puts("late: nothing");
    }
    for (size_t number = 0; number < count; number++) {
        HozgrimLate held = late(store, number);
        const uint8_t *frame = buffer(store, held.kind);
        printf("late: %s", kinds[held.kind]);
        for (size_t at = 0; at < held.length; at++) {
            printf(" %02X", frame[at]);
        }
        putchar('\n');
    }
}

int main(void) {
    static Store store;
    for (size_t i = 0; i < sizeof sample / sizeof *sample; i++) {
        if (sample[i].bytes == NULL) {
            join(&store);
        } else {
            receive(&store, &sample[i]);
        }
    }
    if (fflush(stdout) != 0) {
        perror("standard output");
        return EXIT_FAILURE;
    }
    return EXIT_SUCCESS;
}
