/* Lists the frames of an FLV file that is named on the command line, or of a sample that it writes
 * first: time, type, length, cache kind and delivery hint. */

#include "listing.h"

/* What begins a recording, and then sound and a second picture. */
static const uint8_t script[] = {0x02, 0x00, 0x0A, 'o', 'n', 'M', 'e',
                                 't',  'a',  'D',  'a', 't', 'a'};
static const uint8_t video_start[] = {0x17, 0x00, 0x00, 0x00, 0x00, 0x01, 0x42, 0x00, 0x1E,
                                      0xFF, 0xE1, 0x00, 0x01, 0x67, 0x01, 0x00, 0x01, 0x68};
static const uint8_t audio_start[] = {0xAF, 0x00, 0x12, 0x10};
static const uint8_t keyframe[] = {0x17, 0x01, 0x00, 0x00, 0x00, 0x65};
static const uint8_t sound[] = {0xAF, 0x01, 0x21, 0x10, 0x04};
static const uint8_t picture[] = {0x27, 0x01, 0x00, 0x00, 0x00, 0x41};

static const Frame sample[] = {
    {HOZGRIM_SCRIPT, 0, script, sizeof script},
    {HOZGRIM_VIDEO, 0, video_start, sizeof video_start},
    {HOZGRIM_AUDIO, 0, audio_start, sizeof audio_start},
    {HOZGRIM_VIDEO, 0, keyframe, sizeof keyframe},
    {HOZGRIM_AUDIO, 23, sound, sizeof sound},
    {HOZGRIM_VIDEO, 40, picture, sizeof picture},
};

static int print(const Frame *frame) {
    /* One more, so that the output of an empty frame is not NULL. */
    uint8_t *output = (uint8_t *)malloc(frame->length + 1);
    if (output == NULL) {
        perror("recording");
        return EXIT_FAILURE;
    }
    HozgrimReport report = hozgrim_pass(frame->frame_type, frame->body, frame->length,
                                        HOZGRIM_CAPS_EX_MODEX, 1, output, frame->length);
    free(output);
    if (report.error != HOZGRIM_OK) {
        return failed("recording", "the frame is refused", report.error);
    }
    printf("%" PRIu32 " ms: %s, %zu bytes, %s, %s\n", frame->timestamp, types[frame->frame_type],
           frame->length, kinds[report.kind], hints[report.hint]);
    return EXIT_SUCCESS;
}

int main(int argc, char **argv) {
    const Listing recording = {"recording", sample, sizeof sample / sizeof *sample, print};
    return list_frames(&recording, argc, argv);
}
