/* Prints the level of each frame of an FLV file that is named on the command line, or of a sample
 * that it writes first: time, type, level, and a bar with one mark more for each doubling of the
 * level, up to 12 marks in A-law and 13 in mu-law. */

#include "listing.h"

/* Metadata and a picture; then silence, speech and full scale, in A-law and in mu-law. */
static const uint8_t script[] = {0x02, 0x00, 0x0A, 'o', 'n', 'M', 'e',
                                 't',  'a',  'D',  'a', 't', 'a'};
static const uint8_t picture[] = {0x17, 0x01, 0x00, 0x00, 0x00, 0x65};
static const uint8_t a_law[3][5] = {
    {0x72, 0xD5, 0x55, 0x55, 0xD5},
    {0x72, 0xC0, 0x1A, 0x94, 0x54},
    {0x72, 0x34, 0xA5, 0xAA, 0x0B},
};
static const uint8_t mu_law[3][5] = {
    {0x82, 0xFF, 0x7F, 0x7F, 0xFF},
    {0x82, 0xF0, 0x2E, 0xB3, 0x5A},
    {0x82, 0x1F, 0x91, 0x00, 0xA0},
};

static const Frame sample[] = {
    {HOZGRIM_SCRIPT, 0, script, sizeof script},
    {HOZGRIM_VIDEO, 0, picture, sizeof picture},
    {HOZGRIM_AUDIO, 0, a_law[0], sizeof a_law[0]},
    {HOZGRIM_AUDIO, 20, a_law[1], sizeof a_law[1]},
    {HOZGRIM_AUDIO, 40, a_law[2], sizeof a_law[2]},
    {HOZGRIM_AUDIO, 60, mu_law[0], sizeof mu_law[0]},
    {HOZGRIM_AUDIO, 80, mu_law[1], sizeof mu_law[1]},
    {HOZGRIM_AUDIO, 100, mu_law[2], sizeof mu_law[2]},
};

static int print(const Frame *frame) {
    HozgrimLevel answer = hozgrim_level(frame->frame_type, frame->body, frame->length);
    if (answer.error != HOZGRIM_OK) {
        return failed("levels", "the frame is refused", answer.error);
    }
    printf("%10" PRIu32 " ms  %-6s %5" PRIu32 " |", frame->timestamp, types[frame->frame_type],
           answer.level);
    /* As many marks as the level has binary digits, and none for 0. */
    for (uint32_t left = answer.level; left > 0; left /= 2) {
        putchar('#');
    }
    putchar('\n');
    return EXIT_SUCCESS;
}

int main(int argc, char **argv) {
    const Listing levels = {"levels", sample, sizeof sample / sizeof *sample, print};
    return list_frames(&levels, argc, argv);
}
