/* Walks audio containers of a sample hearing into the same columns of 8 entries, and prints a line
 * for each, with a line for each of its tracks, and the body of one microphone. Among them are two
 * that are refused, and leave the columns as they were. */

#include "hozgrim.h"

#include <inttypes.h>
#include <stdio.h>
#include <stdlib.h>

enum {
    /* How many tracks there is room for. */
    ROOM = 8,
    /* The microphone of the witness. */
    WITNESS = 4
};

/* Five microphones, one of them silent. The ids stand in no order. */
static const uint8_t hearing[] = {0x95, 0x11, 'O',  'p',  'u',  's',  0x02, 0x00, 0x00,
                                  0x02, 0xA1, 0xA2, 0x01, 0x00, 0x00, 0x01, 0xB1, 0x07,
                                  0x00, 0x00, 0x00, 0x04, 0x00, 0x00, 0x03, 0xC1, 0xC2,
                                  0xC3, 0x03, 0x00, 0x00, 0x02, 0xD1, 0xD2};
/* Counsel and witness alone, each with a codec of its own. */
static const uint8_t in_chambers[] = {0x95, 0x21, 'O',  'p', 'u', 's', 0x04, 0x00, 0x00, 0x02, 0xE1,
                                      0xE2, 'm',  'p',  '4', 'a', 0x09, 0x00, 0x00, 0x01, 0xF1};

/* Columns that one container after the other is walked into. */
typedef struct {
    uint8_t ids[ROOM];
    uint32_t fourccs[ROOM];
    size_t starts[ROOM];
    size_t lengths[ROOM];
} Memory;

/* The track of a number, read from the columns of a walk that found so many in the payload. */
static HozgrimTrack read_track(const Memory *memory, size_t count, const uint8_t *payload,
                               size_t length, size_t number) {
    return hozgrim_column_track(HOZGRIM_AUDIO, count, memory->ids, ROOM, memory->fourccs, ROOM,
                                memory->starts, ROOM, memory->lengths, ROOM, payload, length,
                                number);
}

static void print_bytes(const uint8_t *bytes, size_t length) {
    for (size_t at = 0; at < length; at++) {
        printf(" %02X", bytes[at]);
    }
    putchar('\n');
}

/* Prints a line for each track. No head is gone over any more. */
static void list(const Memory *memory, size_t count, const uint8_t *payload, size_t length) {
    for (size_t number = 0; number < count; number++) {
        HozgrimTrack track = read_track(memory, count, payload, length, number);
        printf("  %zu: microphone %u, %c%c%c%c, %zu bytes from %zu on\n", number,
               (unsigned)track.track_id, (int)(track.fourcc >> 24 & 0xFF),
               (int)(track.fourcc >> 16 & 0xFF), (int)(track.fourcc >> 8 & 0xFF),
               (int)(track.fourcc & 0xFF), track.length, track.start);
    }
}

/* Prints what a microphone sends. Its number is found in one column, and the others are not looked
 * at. */
static void hear(const Memory *memory, size_t count, const uint8_t *payload, size_t length,
                 uint8_t id) {
    size_t number = 0;
    while (number < count && memory->ids[number] != id) {
        number++;
    }
    HozgrimTrack track = read_track(memory, count, payload, length, number);
    printf("microphone %u:", (unsigned)id);
    if (track.error == HOZGRIM_OK) {
        print_bytes(payload + track.start, track.length);
    } else {
        puts(" no track");
    }
}

/* Walks a container, with so many entries for starts, and prints what it has. */
static void receive(Memory *memory, const uint8_t *payload, size_t length, size_t room) {
    HozgrimColumns walked =
        hozgrim_walk_columns(HOZGRIM_AUDIO, payload, length, memory->ids, ROOM, memory->fourccs,
                             ROOM, memory->starts, room, memory->lengths, ROOM);
    printf("audio, %zu bytes", length);
    if (walked.error != HOZGRIM_OK) {
        printf(", %zu starts: refused, %" PRId32 "\n", room, walked.error);
        return;
    }
    printf(": %zu tracks\n", walked.count);
    list(memory, walked.count, payload, length);
    hear(memory, walked.count, payload, length, WITNESS);
}

/* Prints the ids in the column, with those behind the last container. */
static void print_held(const Memory *memory) {
    printf("ids:");
    print_bytes(memory->ids, ROOM);
}

int main(void) {
    static Memory memory;
    receive(&memory, hearing, sizeof hearing, ROOM);
    receive(&memory, hearing, sizeof hearing, 4);
    receive(&memory, hearing, sizeof hearing - 1, ROOM);
    print_held(&memory);
    receive(&memory, in_chambers, sizeof in_chambers, ROOM);
    print_held(&memory);
    if (fflush(stdout) != 0) {
        perror("standard output");
        return EXIT_FAILURE;
    }
    return EXIT_SUCCESS;
}
