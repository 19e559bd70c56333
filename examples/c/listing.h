/* What the programs share that print a line for each frame of an FLV file, which is named on the
 * command line, or of a sample that they write first. */
#ifndef LISTING_H
#define LISTING_H

#include "hozgrim.h"
#include "names.h"

#include <inttypes.h>
#include <stdio.h>
#include <stdlib.h>

enum { ROOM = 256 };

typedef struct {
    uint32_t frame_type;
    uint32_t timestamp;
    const uint8_t *body;
    size_t length;
} Frame;

typedef struct {
    const char *name;
    const Frame *sample; /* as a file at most ROOM bytes */
    size_t frames;       /* how many the sample has */
    /* Prints the line of a frame, and gives EXIT_SUCCESS if that went well. */
    int (*print)(const Frame *frame);
} Listing;

static int failed(const char *program, const char *what, int32_t error) {
    fprintf(stderr, "%s: %s: %" PRId32 "\n", program, what, error);
    return EXIT_FAILURE;
}

static int list(const Listing *listing, const uint8_t *file, size_t file_len) {
    HozgrimFlvStart start = hozgrim_flv_start(file, file_len);
    if (start.error != HOZGRIM_OK) {
        return failed(listing->name, "the file is refused", start.error);
    }
    HozgrimFlvFrame found = hozgrim_flv_next(file, file_len, start.next);
    while (found.found == 1) {
        const Frame frame = {found.frame_type, found.timestamp, file + found.start, found.length};
        int status = listing->print(&frame);
        if (status != EXIT_SUCCESS) {
            return status;
        }
        found = hozgrim_flv_next(file, file_len, found.next);
    }
    return found.error == HOZGRIM_OK ? EXIT_SUCCESS
                                     : failed(listing->name, "the file is refused", found.error);
}

static int list_sample(const Listing *listing) {
    uint8_t file[ROOM];
    HozgrimWritten written = hozgrim_flv_write_start(file, ROOM);
    size_t length = written.length;
    for (size_t i = 0; i < listing->frames && written.error == HOZGRIM_OK; i++) {
        const Frame *frame = &listing->sample[i];
        written = hozgrim_flv_write_frame(frame->frame_type, frame->timestamp, frame->body,
                                          frame->length, file + length, ROOM - length);
        length += written.length;
    }
    if (written.error != HOZGRIM_OK) {
        return failed(listing->name, "the sample is refused", written.error);
    }
    return list(listing, file, length);
}

/* What is in a file, to be freed; NULL if it cannot be read. */
static uint8_t *contents(FILE *file, size_t *length) {
    if (fseek(file, 0, SEEK_END) != 0) {
        return NULL;
    }
    long end = ftell(file);
    if (end < 0 || fseek(file, 0, SEEK_SET) != 0) {
        return NULL;
    }
    *length = (size_t)end;
    /* One more, so that an empty file is not NULL. */
    uint8_t *bytes = (uint8_t *)malloc(*length + 1);
    if (bytes != NULL && fread(bytes, 1, *length, file) != *length) {
        free(bytes);
        return NULL;
    }
    return bytes;
}

static int list_file(const Listing *listing, const char *path) {
    size_t length = 0;
    FILE *file = fopen(path, "rb");
    uint8_t *bytes = file == NULL ? NULL : contents(file, &length);
    if (bytes == NULL) {
        perror(path);
    }
    if (file != NULL) {
        fclose(file);
    }
    int status = bytes == NULL ? EXIT_FAILURE : list(listing, bytes, length);
    free(bytes);
    return status;
}

/* What `main` of a program does. */
static int list_frames(const Listing *listing, int argc, char **argv) {
    if (argc > 2) {
        fprintf(stderr, "usage: %s [FILE]\n", listing->name);
        return EXIT_FAILURE;
    }
    int status = argc == 2 ? list_file(listing, argv[1]) : list_sample(listing);
    if (fflush(stdout) != 0) {
        perror("standard output");
        return EXIT_FAILURE;
    }
    return status;
}

#endif
