/* Hands the RTMP messages of a sample room on without copying a payload, and prints a line for
 * each: type, received length, where in it the result stands, cache kind, delivery hint, and which
 * viewers are sent the result; then a line for each frame that a viewer is sent who joins late. */

#include "hozgrim.h"
#include "names.h"

#include <inttypes.h>
#include <stdbool.h>
#include <stdio.h>
#include <stdlib.h>
#include <string.h>

enum { VIEWERS = 2, KINDS = 4 };

/* Two microphones, and then a keyframe, each behind a layer with an offset. Of the last message the
 * layer has one data byte, which is no offset. */
static const uint8_t script[] = {0x02, 0x00, 0x0A, 'o', 'n', 'M', 'e',
                                 't',  'a',  'D',  'a', 't', 'a'};
static const uint8_t video_start[] = {0x90, 'a',  'v',  'c',  '1',  0x01, 0x42, 0x00, 0x1E,
                                      0xFF, 0xE1, 0x00, 0x01, 0x67, 0x01, 0x00, 0x01, 0x68};
static const uint8_t microphones[] = {0x97, 0x02, 0x00, 0x00, 0x2A, 0x05, 0x11, 'O',
                                      'p',  'u',  's',  0x01, 0x00, 0x00, 0x01, 0xAA,
                                      0x02, 0x00, 0x00, 0x02, 0xBB, 0xCC};
static const uint8_t keyframe[] = {0x97, 0x02, 0x00, 0x00, 0x2A, 0x01, 'a',
                                   'v',  'c',  '1',  0x00, 0x00, 0x00, 0x65};
static const uint8_t picture[] = {0xA1, 'a', 'v', 'c', '1', 0x00, 0x00, 0x28, 0x41};
static const uint8_t bad_offset[] = {0x97, 0x00, 0xAA, 0x01, 'O', 'p', 'u', 's', 0xDD};

typedef struct {
    uint32_t frame_type;
    const uint8_t *bytes;
    size_t length;
} Message;

/* As they come off the wire. */
static const Message sample[] = {
    {HOZGRIM_SCRIPT, script, sizeof script},
    {HOZGRIM_VIDEO, video_start, sizeof video_start},
    {HOZGRIM_AUDIO, microphones, sizeof microphones},
    {HOZGRIM_VIDEO, keyframe, sizeof keyframe},
    {HOZGRIM_VIDEO, picture, sizeof picture},
    {HOZGRIM_AUDIO, bad_offset, sizeof bad_offset},
};

typedef struct {
    const char *name;
    bool is_behind;
} Viewer;

/* A frame that is kept for those who join late: the buffer in which it was received, to be freed,
 * and where in it the result stands. The store in the example `late` copies instead. */
typedef struct {
    uint8_t *payload;
    size_t start;
    size_t length; /* of the result */
} Kept;

typedef struct {
    Viewer viewers[VIEWERS];
    Kept kept[KINDS]; /* by kind */
} Room;

/* Whether the viewer is sent the result. One who is behind is not sent what may be dropped, up to a
 * point to resume from. */
static bool send_result(Viewer *viewer, const uint8_t *result, size_t length, uint32_t hint) {
    if (hint == HOZGRIM_RESYNC_POINT) {
        viewer->is_behind = false;
    }
    if (hint == HOZGRIM_DROPPABLE && viewer->is_behind) {
        return false;
    }
    /* Here a relay writes the result to the viewer's connection. */
    (void)result;
    (void)length;
    return true;
}

/* Keeps nothing of this kind any more. */
static void forget(Room *room, uint32_t kind) {
    Kept *kept = &room->kept[kind];
    free(kept->payload);
    kept->payload = NULL;
}

/* Hands a message on, and prints what became of it. The payload is the room's to free. */
static void receive(Room *room, uint32_t frame_type, uint8_t *payload, size_t length) {
    HozgrimPlaced placed =
        hozgrim_pass_in_place(frame_type, payload, length, HOZGRIM_CAPS_EX_MODEX, 1);
    const HozgrimReport *report = &placed.report;
    printf("%s, %zu bytes: ", types[frame_type], length);
    if (report->error != HOZGRIM_OK) {
        printf("refused, %" PRId32 "\n", report->error);
        free(payload);
        return;
    }
    printf("%zu..%zu, %s, %s", placed.start, placed.start + report->result_length,
           kinds[report->kind], hints[report->hint]);
    const char *front = ", to ";
    for (size_t i = 0; i < VIEWERS; i++) {
        Viewer *viewer = &room->viewers[i];
        const uint8_t *result = payload + placed.start;
        if (send_result(viewer, result, report->result_length, report->hint)) {
            printf("%s%s", front, viewer->name);
            front = " and ";
        }
    }
    putchar('\n');
    if (report->kind == HOZGRIM_LIVE_ONLY) {
        free(payload);
        return;
    }
    if (report->kind == HOZGRIM_VIDEO_SEQUENCE_HEADER) {
        /* The keyframe that is kept was coded for the header before. */
        forget(room, HOZGRIM_VIDEO_KEYFRAME);
    }
    /* The buffer moves; what was kept of this kind goes. */
    forget(room, report->kind);
    Kept *kept = &room->kept[report->kind];
    kept->payload = payload;
    kept->start = placed.start;
    kept->length = report->result_length;
}

/* Prints what a viewer who joins now is sent: sequence headers, and then a keyframe. */
static void join(const Room *room) {
    for (size_t kind = HOZGRIM_VIDEO_SEQUENCE_HEADER; kind < KINDS; kind++) {
        const Kept *kept = &room->kept[kind];
        if (kept->payload == NULL) {
            continue;
        }
        printf("late: %s", kinds[kind]);
        for (size_t at = 0; at < kept->length; at++) {
            printf(" %02X", kept->payload[kept->start + at]);
        }
        putchar('\n');
    }
}

int main(void) {
    Room room = {{{"fast", false}, {"slow", true}}, {{NULL, 0, 0}}};
    int status = EXIT_SUCCESS;
    for (size_t i = 0; i < sizeof sample / sizeof *sample && status == EXIT_SUCCESS; i++) {
        const Message *message = &sample[i];
        uint8_t *payload = (uint8_t *)malloc(message->length);
        if (payload == NULL) {
            perror("relay");
            status = EXIT_FAILURE;
        } else {
            /* Stands for the read of a message into a buffer of its own. */
            memcpy(payload, message->bytes, message->length);
            receive(&room, message->frame_type, payload, message->length);
        }
    }
    join(&room);
    for (uint32_t kind = 0; kind < KINDS; kind++) {
        forget(&room, kind);
    }
    if (fflush(stdout) != 0) {
        perror("standard output");
        return EXIT_FAILURE;
    }
    return status;
}
