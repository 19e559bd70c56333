/* Offers frames to three viewers who share a line, and draws a row for each tick: of each viewer
 * the frames, in small letters if they are dropped, and the credit or debt; then the same with
 * other frames for one viewer, which changes nothing for the others. */

#include "hozgrim.h"

#include <ctype.h>
#include <inttypes.h>
#include <stdio.h>
#include <stdlib.h>
#include <string.h>

enum {
    VIEWERS = 3,
    TICKS = 10,
    /* How many frames a viewer is offered in a tick. */
    FRAMES = 2,
    /* How many bytes the line carries in a tick. */
    BYTES = 300,
    /* How many bytes a mark stands for. */
    MARK = 25,
    /* No frame of the sample is longer. */
    LONGEST = 275,
    /* How wide the parts of a row are: frames, and marks left and right of the axis. */
    FRAMES_WIDTH = 9,
    DEBT_WIDTH = 7,
    CREDIT_WIDTH = 10
};

/* The letter of a frame, and its length. */
typedef struct {
    char letter;
    size_t length;
} Frame;

/* These leave a part of the share. */
static const Frame sound[TICKS * FRAMES] = {
    {'S', 50}, {'S', 25},
    {'S', 50}, {'S', 25},
    {'S', 50}, {'S', 25},
    {'S', 50}, {'S', 25},
    {'S', 50}, {'S', 25},
    {'S', 50}, {'S', 25},
    {'S', 50}, {'S', 25},
    {'S', 50}, {'S', 25},
    {'S', 50}, {'S', 25},
    {'S', 50}, {'S', 25},
};
/* Most keyframes are longer than any credit of this line. */
static const Frame large[TICKS * FRAMES] = {
    {'K', 225}, {'P', 50},
    {'P', 50}, {'P', 50},
    {'P', 50}, {'P', 50},
    {'K', 225}, {'P', 50},
    {'P', 50}, {'P', 50},
    {'K', 150}, {'P', 50},
    {'P', 50}, {'P', 50},
    {'P', 50}, {'P', 50},
    {'K', 225}, {'P', 50},
    {'P', 50}, {'P', 50},
};
/* Those of a tick together are the share. */
static const Frame small[TICKS * FRAMES] = {
    {'K', 75}, {'P', 25},
    {'P', 50}, {'P', 50},
    {'P', 50}, {'P', 50},
    {'K', 75}, {'P', 25},
    {'P', 50}, {'P', 50},
    {'K', 75}, {'P', 25},
    {'P', 50}, {'P', 50},
    {'P', 50}, {'P', 50},
    {'K', 75}, {'P', 25},
    {'P', 50}, {'P', 50},
};
/* Metadata must be sent, and leave a debt. */
static const Frame debts[TICKS * FRAMES] = {
    {'M', 250}, {'K', 75},
    {'P', 25}, {'P', 25},
    {'P', 25}, {'P', 25},
    {'K', 75}, {'P', 25},
    {'P', 25}, {'P', 25},
    {'M', 275}, {'P', 25},
    {'P', 25}, {'P', 25},
    {'K', 75}, {'P', 25},
    {'P', 25}, {'P', 25},
    {'P', 25}, {'P', 25},
};

/* What payloads begin with, by their letters. */
static const uint8_t metadata_front[] = {0x02, 0x00, 0x0A, 'o', 'n', 'M', 'e',
                                         't',  'a',  'D',  'a', 't', 'a'};
static const uint8_t keyframe_front[] = {0x17, 0x01, 0x00, 0x00, 0x00};
static const uint8_t picture_front[] = {0x27, 0x01, 0x00, 0x00, 0x00};
static const uint8_t sound_front[] = {0xAF, 0x01};

/* What is lent of the line. Zeroed, it is that of viewers who just came. */
typedef struct {
    int32_t credits[VIEWERS];
    uint8_t waiting[VIEWERS];
} Uplink;

/* Stands for the read of a message. The frame type is returned. */
static uint32_t read_message(Frame frame, uint8_t *payload) {
    memset(payload, 0, frame.length);
    switch (frame.letter) {
    case 'M':
        memcpy(payload, metadata_front, sizeof metadata_front);
        return HOZGRIM_SCRIPT;
    case 'K':
        memcpy(payload, keyframe_front, sizeof keyframe_front);
        return HOZGRIM_VIDEO;
    case 'P':
        memcpy(payload, picture_front, sizeof picture_front);
        return HOZGRIM_VIDEO;
    default:
        memcpy(payload, sound_front, sizeof sound_front);
        return HOZGRIM_AUDIO;
    }
}

/* Offers a frame to a viewer, and prints what becomes of it: its letter and length, or its letter
 * and the number of an error, which concerns no other viewer. How many characters that are. */
static int offer(Uplink *uplink, size_t viewer, Frame frame) {
    uint8_t payload[LONGEST];
    uint32_t frame_type = read_message(frame, payload);
    HozgrimPlaced placed =
        hozgrim_pass_in_place(frame_type, payload, frame.length, HOZGRIM_CAPS_EX_MODEX, 1);
    const HozgrimReport *report = &placed.report;
    if (report->error != HOZGRIM_OK) {
        return printf("%c%" PRId32, frame.letter, report->error);
    }
    HozgrimOffer answer =
        hozgrim_uplink_offer(VIEWERS, viewer, report->hint, report->result_length, uplink->credits,
                             VIEWERS, uplink->waiting, VIEWERS);
    if (answer.error != HOZGRIM_OK) {
        return printf("%c%" PRId32, frame.letter, answer.error);
    }
    if (answer.decision == HOZGRIM_DROPPED) {
        return printf("%c%zu", tolower(frame.letter), report->result_length);
    }
    /* Here a relay writes the result to the viewer's connection. */
    return printf("%c%zu", frame.letter, report->result_length);
}

/* How many marks stand for so many bytes. */
static int marks(int32_t bytes) {
    return bytes > 0 ? (bytes + MARK - 1) / MARK : 0;
}

/* Offers a viewer the frames of a tick, and prints what becomes of them, and the credit then. */
static void print_viewer(Uplink *uplink, size_t viewer, const Frame *frames) {
    int width = offer(uplink, viewer, frames[0]);
    for (size_t i = 1; i < FRAMES; i++) {
        putchar(' ');
        width += 1 + offer(uplink, viewer, frames[i]);
    }
    int32_t credit = uplink->credits[viewer];
    /* Nothing stands behind the last one. */
    int right = viewer + 1 < VIEWERS ? CREDIT_WIDTH : 0;
    printf("%*s%*.*s|%-*.*s", FRAMES_WIDTH - width, "", DEBT_WIDTH, marks(-credit), "-------",
           right, marks(credit), "++++++++++");
}

/* Draws a row for each tick of three viewers. The error is that of a tick. */
static int32_t draw(const char *pictures, const Frame *const frames[VIEWERS]) {
    const int width = FRAMES_WIDTH + DEBT_WIDTH + 1 + CREDIT_WIDTH;
    Uplink uplink = {{0}, {0}};
    printf("\ntick  %-*s%-*s%s\n", width, "0: sound", width, pictures, "2: metadata and pictures");
    for (size_t tick = 0; tick < TICKS; tick++) {
        int32_t error = hozgrim_uplink_tick(VIEWERS, BYTES, uplink.credits, VIEWERS);
        if (error != HOZGRIM_OK) {
            return error;
        }
        printf("%4zu  ", tick + 1);
        for (size_t viewer = 0; viewer < VIEWERS; viewer++) {
            print_viewer(&uplink, viewer, frames[viewer] + tick * FRAMES);
        }
        putchar('\n');
    }
    return HOZGRIM_OK;
}

int main(void) {
    const Frame *const with_large[VIEWERS] = {sound, large, debts};
    const Frame *const with_small[VIEWERS] = {sound, small, debts};
    puts("300 bytes a tick for 3 viewers, 100 each. "
         "M: metadata, K: keyframe, P: picture, S: sound.");
    puts("A frame in small letters is dropped. A mark is 25 bytes, - of debt and + of credit.");
    int32_t error = draw("1: large pictures", with_large);
    if (error == HOZGRIM_OK) {
        error = draw("1: small pictures", with_small);
    }
    if (error != HOZGRIM_OK) {
        fprintf(stderr, "uplink: the tick is refused: %" PRId32 "\n", error);
        return EXIT_FAILURE;
    }
    if (fflush(stdout) != 0) {
        perror("standard output");
        return EXIT_FAILURE;
    }
    return EXIT_SUCCESS;
}
