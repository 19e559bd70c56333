/* Lends every entry empty buffers whose pointer is NULL, and says what comes back. */
#include "hozgrim.h"

#include <stdio.h>

int main(void)
{
    HozgrimReport report =
        hozgrim_pass(HOZGRIM_AUDIO, NULL, 0, HOZGRIM_CAPS_EX_MODEX, 1, NULL, 0);
    HozgrimPlaced placed =
        hozgrim_pass_in_place(HOZGRIM_AUDIO, NULL, 0, HOZGRIM_CAPS_EX_MODEX, 1);
    HozgrimLengths lengths = {0, 0, 0};
    HozgrimStored stored =
        hozgrim_store_frame(&lengths, HOZGRIM_AUDIO, NULL, 0, HOZGRIM_CAPS_EX_MODEX, 1, NULL, 0,
                            NULL, 0, NULL, 0, NULL, 0);
    HozgrimLate late = hozgrim_late(lengths, NULL, 0, NULL, 0, NULL, 0, 0);
    HozgrimClass answer = hozgrim_classify(HOZGRIM_AUDIO, NULL, 0, 1);
    HozgrimTrack track = hozgrim_track(HOZGRIM_AUDIO, NULL, 0, 0);
    HozgrimColumns columns =
        hozgrim_walk_columns(HOZGRIM_AUDIO, NULL, 0, NULL, 0, NULL, 0, NULL, 0, NULL, 0);
    HozgrimTrack column_track =
        hozgrim_column_track(HOZGRIM_AUDIO, 1, NULL, 0, NULL, 0, NULL, 0, NULL, 0, NULL, 0, 0);
    int32_t tick = hozgrim_uplink_tick(1, 0, NULL, 0);
    HozgrimOffer offer = hozgrim_uplink_offer(1, 0, HOZGRIM_CRITICAL, 0, NULL, 0, NULL, 0);
    HozgrimLevel loud = hozgrim_level(HOZGRIM_AUDIO, NULL, 0);
    HozgrimWritten container =
        hozgrim_write_container(HOZGRIM_AUDIO, 0, HOZGRIM_ONE_TRACK, 0, 0, NULL, 0, NULL, 0, NULL,
                                0, NULL, 0, NULL, 0, NULL, 0);
    HozgrimWritten layers = hozgrim_write_modex(HOZGRIM_AUDIO, 0, NULL, 0, NULL, 0, NULL, 0, NULL,
                                                0, NULL, 0, NULL, 0);
    HozgrimFlvStart file = hozgrim_flv_start(NULL, 0);
    HozgrimFlvFrame frame = hozgrim_flv_next(NULL, 0, 0);
    HozgrimWritten start = hozgrim_flv_write_start(NULL, 0);
    HozgrimWritten tag = hozgrim_flv_write_frame(HOZGRIM_AUDIO, 0, NULL, 0, NULL, 0);

    printf("header error %d, delivery hint %u, error of a track %d, of writers %d and %d\n",
           report.header_error, answer.hint, track.error, container.error, layers.error);
    printf("in place: header error %d, start %zu\n", placed.report.header_error, placed.start);
    printf("store: error %d, frames for a late viewer %zu\n", stored.error, late.count);
    printf("columns: error of a walk %d, of a track %d beside the count %zu\n", columns.error,
           column_track.error, column_track.count);
    printf("uplink: error of a tick %d, of an offer %d beside the decision %u\n", tick, offer.error,
           offer.decision);
    printf("error of a level %d, the level %u\n", loud.error, loud.level);
    printf("FLV: error of a start %d, of a frame %d, of writers %d and %d\n", file.error,
           frame.error, start.error, tag.error);
    return report.header_error == HOZGRIM_IO && placed.report.header_error == HOZGRIM_IO &&
                   placed.start == 0 && stored.error == HOZGRIM_OK &&
                   stored.report.header_error == HOZGRIM_IO && late.count == 0 &&
                   answer.hint == HOZGRIM_CRITICAL &&
                   track.error == HOZGRIM_NOT_A_CONTAINER &&
                   columns.error == HOZGRIM_NOT_A_CONTAINER && columns.count == 0 &&
                   column_track.error == HOZGRIM_NO_SUCH_TRACK && column_track.count == 1 &&
                   tick == HOZGRIM_OUT_OF_RANGE && offer.error == HOZGRIM_OUT_OF_RANGE &&
                   offer.decision == HOZGRIM_NO_DECISION &&
                   loud.error == HOZGRIM_OK && loud.level == 0 &&
                   container.error == HOZGRIM_OUT_OF_BOUNDS &&
                   layers.error == HOZGRIM_OUT_OF_BOUNDS && file.error == HOZGRIM_TRUNCATED &&
                   frame.error == HOZGRIM_OK && start.error == HOZGRIM_OUTPUT_TOO_SHORT &&
                   tag.error == HOZGRIM_OUTPUT_TOO_SHORT
               ? 0
               : 1;
}
