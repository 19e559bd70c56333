/*
 * Hozgrim: the frame side of a media relay, proved.
 *
 * Link libhozgrim.a, which `rt lib` in crates/hozgrim/ puts into out/ there. It is for x86-64
 * Linux (System V calling convention), can be linked into programs and shared libraries, and needs
 * `memmove` of other libraries.
 * docs/REQUIREMENTS.md says what each answer is; sections 14 and 23 are about these entries.
 *
 * Every number and every byte string is taken, and every call returns. What the caller owes:
 *   - A length is true: as many bytes may be read, and of an output written. No others are touched.
 *   - A pointer is not NULL, unless its length is 0.
 *   - An output, or anything else that is lent to be written to, overlaps with nothing else that is
 *     lent.
 *   - A payload that is lent to hozgrim_pass_in_place may be written to, as an output may; so may
 *     the lengths and the three buffers of a store that are lent to hozgrim_store_frame, the four
 *     columns that are lent to hozgrim_walk_columns, and the columns of a shared uplink that are
 *     lent to hozgrim_uplink_tick and hozgrim_uplink_offer. A column's length counts its entries.
 *
 * Threads: a call keeps nothing and shares nothing, so calls may run at the same time, as long as
 * nobody writes to what is lent for reading, or uses what is lent to be written to, during the call.
 */
#ifndef HOZGRIM_H
#define HOZGRIM_H

#include <stddef.h>
#include <stdint.h>

#ifdef __cplusplus
extern "C" {
#endif

/*
 * Frame types. A larger number is refused.
 *
 * An RTMP message of type id 8, or an FLV tag of type 8, is audio; 9 is video; 18, a data message
 * of AMF0, is script data, and so is 15, one of AMF3. Commands (20 and 17) are no frames. Metadata
 * is for a relay that sorts out onMetaData by itself: script data and metadata are treated alike,
 * and have neither header nor tracks.
 */
enum {
    HOZGRIM_AUDIO = 0,
    HOZGRIM_VIDEO = 1,
    HOZGRIM_SCRIPT = 2,
    HOZGRIM_METADATA = 3
};

/* The bit of a capability mask that allows ModEx layers to be peeled off. */
#define HOZGRIM_CAPS_EX_MODEX 0x04u

/*
 * Packet types of enhanced video and of tracks in a video container. 8 to 15 have no name. No track
 * has HOZGRIM_VIDEO_PACKET_MULTITRACK: a video container that names it for its tracks is refused.
 */
enum {
    HOZGRIM_VIDEO_PACKET_SEQUENCE_START = 0,
    HOZGRIM_VIDEO_PACKET_CODED_FRAMES = 1,
    HOZGRIM_VIDEO_PACKET_SEQUENCE_END = 2,
    HOZGRIM_VIDEO_PACKET_CODED_FRAMES_X = 3, /* coded frames without a composition time */
    HOZGRIM_VIDEO_PACKET_METADATA = 4,
    HOZGRIM_VIDEO_PACKET_MPEG2TS_SEQUENCE_START = 5,
    HOZGRIM_VIDEO_PACKET_MULTITRACK = 6,     /* a container */
    HOZGRIM_VIDEO_PACKET_MOD_EX = 7
};

/*
 * Packet types of enhanced audio and of tracks in an audio container. Others have no name. No track
 * has HOZGRIM_AUDIO_PACKET_MULTITRACK: an audio container that names it for its tracks is refused.
 */
enum {
    HOZGRIM_AUDIO_PACKET_SEQUENCE_START = 0,
    HOZGRIM_AUDIO_PACKET_CODED_FRAMES = 1,
    HOZGRIM_AUDIO_PACKET_SEQUENCE_END = 2,
    HOZGRIM_AUDIO_PACKET_METADATA = 3,   /* the original's; Enhanced RTMP v2 has none here */
    HOZGRIM_AUDIO_PACKET_MULTICHANNEL_CONFIG = 4,
    HOZGRIM_AUDIO_PACKET_MULTITRACK = 5, /* a container */
    HOZGRIM_AUDIO_PACKET_MOD_EX = 7
};

/* Frame types of a video header. Others have no name. */
enum {
    HOZGRIM_VIDEO_FRAME_KEY = 1,
    HOZGRIM_VIDEO_FRAME_INTER = 2,
    HOZGRIM_VIDEO_FRAME_DISPOSABLE_INTER = 3,
    HOZGRIM_VIDEO_FRAME_GENERATED_KEY = 4,
    HOZGRIM_VIDEO_FRAME_COMMAND = 5 /* no picture, but a command to the player */
};

/* AAC packet types of FLV. Others have no name. */
enum {
    HOZGRIM_AAC_SEQUENCE_HEADER = 0,
    HOZGRIM_AAC_RAW = 1
};

/* How the tracks of a container stand: AvMultitrackType of Enhanced RTMP v2. */
enum {
    HOZGRIM_ONE_TRACK = 0,              /* one track, whose body is the rest of the container */
    HOZGRIM_MANY_TRACKS = 1,            /* 1 to 4,096 tracks, with one FourCC that stands once */
    HOZGRIM_MANY_TRACKS_MANY_CODECS = 2 /* 1 to 4,096 tracks, each with a FourCC of its own */
};

/* Types of a ModEx layer: modExType of Enhanced RTMP v2. 1 to 15 have no name. */
enum {
    /* The first three data bytes, highest byte first: an offset of 0 to 999,999 nanoseconds. */
    HOZGRIM_MODEX_TIMESTAMP_OFFSET_NANO = 0
};

/*
 * Audio codecs. AC-3, E-AC-3 and FLAC have no number of their own and count as AAC, and a FourCC
 * that is not known counts as PCM: the FourCC tells them apart.
 */
enum {
    HOZGRIM_PCM = 0,       /* in the byte order of the platform */
    HOZGRIM_ADPCM = 1,
    HOZGRIM_MP3 = 2,
    HOZGRIM_PCM_LE = 3,    /* little-endian */
    HOZGRIM_NELLY_16K = 4, /* Nellymoser, 16 kHz, one channel */
    HOZGRIM_NELLY_8K = 5,  /* Nellymoser, 8 kHz, one channel */
    HOZGRIM_NELLY = 6,
    HOZGRIM_G711_A = 7,
    HOZGRIM_G711_U = 8,
    HOZGRIM_AAC = 10,
    HOZGRIM_SPEEX = 11,
    HOZGRIM_OPUS = 14
};

/* The largest level of a frame in each law of G.711, which is where a meter ends. */
enum {
    HOZGRIM_G711_A_FULL_SCALE = 4032,
    HOZGRIM_G711_U_FULL_SCALE = 8031
};

/* The number of a FourCC, the first byte the highest: HOZGRIM_FOURCC('O', 'p', 'u', 's'). */
#define HOZGRIM_FOURCC(a, b, c, d) ((a)*0x1000000u + (b)*0x10000u + (c)*0x100u + (d)*1u)

/* Cache kinds: what a cache for receivers that join late does with a frame. */
enum {
    HOZGRIM_LIVE_ONLY = 0,             /* it is not kept */
    HOZGRIM_VIDEO_SEQUENCE_HEADER = 1, /* it starts a sequence, and all its records are valid */
    HOZGRIM_AUDIO_SEQUENCE_HEADER = 2, /* likewise */
    HOZGRIM_VIDEO_KEYFRAME = 3
};

/* Delivery hints: what may be done with a frame when a receiver is slow. */
enum {
    HOZGRIM_CRITICAL = 0,     /* it must be sent */
    HOZGRIM_RESYNC_POINT = 1, /* a receiver that missed frames can start again from it */
    HOZGRIM_DROPPABLE = 2
};

/* What becomes of a frame that is offered to a viewer of a shared uplink. */
enum {
    HOZGRIM_NO_DECISION = 0, /* the offer is refused */
    HOZGRIM_SENT = 1,
    HOZGRIM_DROPPED = 2
};

/* The largest numbers of a shared uplink. A larger one is HOZGRIM_OUT_OF_RANGE. */
enum {
    HOZGRIM_UPLINK_MOST_VIEWERS = 64,
    HOZGRIM_UPLINK_MOST_BYTES = 16777215,  /* a tick, for all viewers together */
    HOZGRIM_UPLINK_MOST_CREDIT = 33554430, /* of one viewer */
    HOZGRIM_UPLINK_MOST_DEBT = 2000000000  /* of one viewer, whose credit is then -2,000,000,000 */
};

/*
 * The verdict on a track's configuration record. A track has a record if its packet type is 0.
 *
 * A valid record has the form that its codec asks for. In AVC and HEVC each parameter set must also
 * name the type of the list that it is in: in AVC the low five bits of its first byte are 7 for
 * sequence sets, 8 for picture sets and 13 for sets of the extension; in HEVC bits 1 to 6 of it, bit
 * 0 being the lowest, are the type of the array.
 */
enum {
    HOZGRIM_NO_RECORD = 0,
    HOZGRIM_VALID_RECORD = 1,
    HOZGRIM_REFUSED_RECORD = 2
};

/* Errors. */
enum {
    HOZGRIM_OK = 0,
    HOZGRIM_IO = -1,                  /* the header is cut short */
    HOZGRIM_PROTOCOL = -3,            /* a layer's offset is over 999,999, or under three bytes */
    HOZGRIM_UNSUPPORTED = -7,         /* sound format 12, 13 or 15 */
    HOZGRIM_UNKNOWN_FRAME_TYPE = -21, /* frame type above 3, or to be written to FLV above 2 */
    HOZGRIM_OUTPUT_TOO_SHORT = -22,   /* the output, or a column, is shorter than the result */
    HOZGRIM_NO_SUCH_TRACK = -23,      /* the number is not below the count */
    HOZGRIM_NOT_A_CONTAINER = -24,    /* anything but an accepted container */
    HOZGRIM_TRUNCATED = -25,          /* the FLV file stops short */
    HOZGRIM_OUT_OF_BOUNDS = -26,      /* a form, a number of tracks or layers, a column, a part */
    HOZGRIM_BAD_LENGTH = -27,         /* a body or a layer of a length that cannot be written */
    HOZGRIM_BAD_VALUE = -28,          /* a number, FourCCs or a payload that cannot be written */
    HOZGRIM_NOT_FLV = -29,            /* another signature, version or data offset than FLV's */
    HOZGRIM_WRONG_BACK_POINTER = -30, /* a back-pointer of the FLV file does not match */
    HOZGRIM_SLOT_TOO_SHORT = -31,     /* the frame is longer than its slot of the store */
    HOZGRIM_OUT_OF_RANGE = -32,       /* viewers, a viewer, a hint, bytes of a tick, a credit */
    HOZGRIM_DEBT_LIMIT = -33          /* a critical frame that the viewer's debt has no room for */
};

/*
 * What hozgrim_pass and hozgrim_pass_in_place report. The result is the payload without its ModEx
 * layers, or the payload itself if none is peeled off; everything here is said of the result, but
 * for the offset in `composition_time_ns`, which is of the layers.
 *
 * If `error` is not 0, every other field is 0.
 *
 * The header's fields are `header_size` and those from `is_ex_header` on. A field that the header
 * of this frame type does not have is 0, and all of them are 0 in script data and metadata. Beside
 * a `header_error`, a video header is filled as far as it was read, and an audio header is 0.
 *
 * `composition_time_ns` is by how many nanoseconds the frame is presented later than its timestamp
 * says, or earlier if it is negative. It is the sum of
 *   - the milliseconds of the video header, a signed number, times 1,000,000; 0 in any other frame,
 *     and if the header has none or cannot be read;
 *   - the offset of the last layer of type HOZGRIM_MODEX_TIMESTAMP_OFFSET_NANO that was peeled off,
 *     whatever the frame type; 0 if there is none.
 * hozgrim_split_time gives both back.
 */
typedef struct {
    int32_t error;               /* 0, HOZGRIM_UNKNOWN_FRAME_TYPE, _OUTPUT_TOO_SHORT, _PROTOCOL */
    int32_t header_error;        /* 0, HOZGRIM_IO, HOZGRIM_UNSUPPORTED; it refuses nothing */
    uint32_t kind;               /* cache kind */
    uint32_t hint;               /* delivery hint */
    size_t result_length;        /* how many bytes the result has */
    size_t tracks;               /* how many an accepted container has; else 0 */
    size_t records;              /* how many configuration records were judged */
    size_t valid_records;        /* how many of them are valid */
    size_t header_size;          /* in bytes, from the first of the result on */
    int64_t composition_time_ns; /* see above */
    uint8_t is_ex_header;        /* 1 if the header is of Enhanced RTMP, 0 if it is of FLV */
    uint8_t packet_type;         /* of an enhanced header: a video or an audio packet type */
    uint8_t frame_type;          /* of a video header: HOZGRIM_VIDEO_FRAME_KEY, .. */
    uint8_t audio_codec;         /* of an audio header: HOZGRIM_AAC, .. */
    uint8_t sample_rate;         /* of audio in FLV: 0 to 3 mean 5.5, 11, 22 and 44 kHz */
    uint8_t sample_size;         /* of audio in FLV: 0 means 8 bits, 1 means 16 */
    uint8_t channels;            /* of audio in FLV: 0 means one channel, 1 means two */
    uint8_t aac_packet_type;     /* of AAC in FLV: HOZGRIM_AAC_SEQUENCE_HEADER, .. */
    uint8_t fourcc[4];           /* of an enhanced header; in a container, each track has its own */
} HozgrimReport;

/*
 * What hozgrim_pass_in_place answers. The result is report.result_length bytes of the payload, from
 * `start` on; start + report.result_length is the payload's length.
 *
 * If report.error is not 0, there is no result, and the start is 0.
 */
typedef struct {
    HozgrimReport report;
    size_t start; /* 0 if nothing is peeled off */
} HozgrimPlaced;

/*
 * The record of a store: how many bytes of each slot's buffer are held, from its first byte on. An
 * empty slot has length 0, so that a record of zeros is an empty store. A length past its buffer
 * counts as empty too.
 */
typedef struct {
    size_t video;    /* of the slot of HOZGRIM_VIDEO_SEQUENCE_HEADER */
    size_t audio;    /* of the slot of HOZGRIM_AUDIO_SEQUENCE_HEADER */
    size_t keyframe; /* of the slot of HOZGRIM_VIDEO_KEYFRAME */
} HozgrimLengths;

/*
 * What hozgrim_store_frame answers. If `error` is HOZGRIM_SLOT_TOO_SHORT, report.error is 0: the
 * frame was accepted, and only could not be kept. Else the two are the same.
 */
typedef struct {
    int32_t error;        /* 0, HOZGRIM_UNKNOWN_FRAME_TYPE, _OUTPUT_TOO_SHORT, _PROTOCOL,
                             _SLOT_TOO_SHORT */
    HozgrimReport report; /* that of hozgrim_pass */
} HozgrimStored;

/* What hozgrim_late answers. Beside a number that is not below the count, kind and length are 0. */
typedef struct {
    size_t count;  /* how many frames are held: 0 to 3 */
    size_t length; /* of the frame, which is the front of the buffer of its kind */
    uint32_t kind; /* HOZGRIM_VIDEO_SEQUENCE_HEADER, _AUDIO_SEQUENCE_HEADER, _VIDEO_KEYFRAME */
} HozgrimLate;

/* What hozgrim_classify answers. If `error` is not 0, the rest is 0. */
typedef struct {
    int32_t error; /* 0, HOZGRIM_UNKNOWN_FRAME_TYPE */
    uint32_t kind; /* cache kind */
    uint32_t hint; /* delivery hint */
} HozgrimClass;

/*
 * What hozgrim_track and hozgrim_column_track answer. If `error` is not 0, the rest is 0, but for
 * the count beside HOZGRIM_NO_SUCH_TRACK. hozgrim_column_track is never HOZGRIM_NOT_A_CONTAINER.
 */
typedef struct {
    int32_t error;            /* 0, HOZGRIM_UNKNOWN_FRAME_TYPE, _NOT_A_CONTAINER, _NO_SUCH_TRACK */
    uint32_t fourcc;          /* compare it with HOZGRIM_FOURCC(..) */
    size_t count;             /* how many tracks the container has */
    size_t start;             /* of the body in the payload; start + length is within it */
    size_t length;            /* of the body; it may be 0 */
    uint8_t track_id;         /* several tracks may have the same */
    uint8_t packet_type;      /* a video or an audio packet type, which all tracks share */
    uint8_t video_frame_type; /* HOZGRIM_VIDEO_FRAME_KEY, ..; 0 in audio */
    uint8_t verdict;          /* HOZGRIM_NO_RECORD, .. */
} HozgrimTrack;

/* What hozgrim_walk_columns answers. If `error` is not 0, the count is 0. */
typedef struct {
    int32_t error; /* 0, HOZGRIM_UNKNOWN_FRAME_TYPE, _NOT_A_CONTAINER, _OUTPUT_TOO_SHORT */
    size_t count;  /* how many tracks the container has, 1 to 4,096 */
} HozgrimColumns;

/* What hozgrim_uplink_offer answers. */
typedef struct {
    int32_t error;     /* 0, HOZGRIM_OUT_OF_RANGE, HOZGRIM_DEBT_LIMIT */
    uint32_t decision; /* HOZGRIM_SENT, HOZGRIM_DROPPED; beside an error HOZGRIM_NO_DECISION */
} HozgrimOffer;

/* What hozgrim_level answers. */
typedef struct {
    int32_t error;  /* 0, HOZGRIM_UNKNOWN_FRAME_TYPE */
    uint32_t level; /* at most the full scale of the frame's law; beside an error 0 */
} HozgrimLevel;

/* What hozgrim_split_time answers: milliseconds * 1,000,000 + offset is the time. */
typedef struct {
    int64_t milliseconds; /* rounded down */
    uint32_t offset;      /* in nanoseconds, 0 to 999,999 */
} HozgrimSplitTime;

/* What a writer answers. If `error` is not 0, the length is 0. */
typedef struct {
    int32_t error; /* 0, or the first that there is a reason for: HOZGRIM_UNKNOWN_FRAME_TYPE,
                      _OUT_OF_BOUNDS, _BAD_LENGTH, _BAD_VALUE, _OUTPUT_TOO_SHORT */
    size_t length; /* how many bytes of the output were written */
} HozgrimWritten;

/* What hozgrim_flv_start answers. */
typedef struct {
    int32_t error; /* 0, HOZGRIM_TRUNCATED, HOZGRIM_NOT_FLV, HOZGRIM_WRONG_BACK_POINTER */
    size_t next;   /* where the first tag begins, which is 13; beside an error 0 */
} HozgrimFlvStart;

/*
 * What hozgrim_flv_next answers. If `error` is not 0, every other field is 0. At the end of the
 * file every field is 0 but `next`.
 */
typedef struct {
    int32_t error;       /* 0, HOZGRIM_TRUNCATED, HOZGRIM_WRONG_BACK_POINTER */
    uint32_t found;      /* 1 if there is a frame, 0 at the end of the file */
    uint32_t frame_type; /* HOZGRIM_AUDIO, HOZGRIM_VIDEO, HOZGRIM_SCRIPT */
    uint32_t timestamp;  /* in milliseconds, all 32 bits */
    size_t start;        /* of the body in the file; start + length is within it */
    size_t length;       /* of the body, at most 16,777,215; it may be 0 */
    size_t next;         /* where the next tag begins; at the end the length of the file */
} HozgrimFlvFrame;

/*
 * Peels the ModEx layers off a payload, writes the result to the front of the output, and reports
 * on it. `caps_ex_mask` has HOZGRIM_CAPS_EX_MODEX if layers are to be peeled off. `route_has_video`
 * is 0 if the route has no video; any other number means video.
 *
 * The output keeps its bytes behind the result. If the pass is refused, it keeps all of them. An
 * output as long as the payload is always long enough.
 *
 * The error is the first that there is a reason for: HOZGRIM_UNKNOWN_FRAME_TYPE,
 * HOZGRIM_OUTPUT_TOO_SHORT, HOZGRIM_PROTOCOL. The last one is there if layers are to be peeled off,
 * and any of them that has the type HOZGRIM_MODEX_TIMESTAMP_OFFSET_NANO has an offset over 999,999,
 * or under three data bytes. Layers that stay are not judged.
 */
HozgrimReport hozgrim_pass(uint32_t frame_type, const uint8_t *payload, size_t payload_len,
                           uint32_t caps_ex_mask, uint32_t route_has_video, uint8_t *output,
                           size_t output_len);

/*
 * The same without a copy: the payload is lent to be changed, and the result is a part of it. The
 * report is that of hozgrim_pass with an output as long as the payload.
 *
 * If layers are peeled off, the result starts at the last option byte, the one before the body.
 * That byte becomes byte 0 of the result, which is byte 0 of the payload with its low nibble
 * replaced. Every other byte is kept, those of the layers too. If nothing is peeled off, or the
 * pass is refused, no byte changes.
 *
 * The call is for a payload as it was received. Once layers are peeled off, the payload as a whole
 * is no frame any more: lend only the result to hozgrim_track and to any other call. A second call
 * on the whole payload would read the byte that changed as the option byte of a layer of another
 * type, and so lose the offset of that layer. A second call on the result changes no byte; it
 * reports no offset, since the result has no layers.
 *
 * The error is the first that there is a reason for: HOZGRIM_UNKNOWN_FRAME_TYPE, HOZGRIM_PROTOCOL,
 * the last one as above. HOZGRIM_OUTPUT_TOO_SHORT cannot arise.
 */
HozgrimPlaced hozgrim_pass_in_place(uint32_t frame_type, uint8_t *payload, size_t payload_len,
                                    uint32_t caps_ex_mask, uint32_t route_has_video);

/*
 * The store of one route, for viewers who join late: the last video sequence header, the last audio
 * sequence header and the last keyframe, each in a slot of its own, which is a buffer and a length.
 * Record and buffers are lent to each call, as the last one left them. A buffer may have any
 * length; one of length 0 keeps nothing. `lengths` is never NULL.
 *
 * hozgrim_store_frame is hozgrim_pass, whose arguments it takes and whose report and output it
 * gives, and then keeps the result, the payload without its layers, by the kind in the report:
 *   - HOZGRIM_VIDEO_SEQUENCE_HEADER goes to `video`, HOZGRIM_AUDIO_SEQUENCE_HEADER to `audio`,
 *     HOZGRIM_VIDEO_KEYFRAME to `keyframe`: to the front of the buffer, whose bytes behind it are
 *     kept;
 *   - if it is longer than that buffer, the error is HOZGRIM_SLOT_TOO_SHORT: the slot is then
 *     empty, with its bytes kept. Report and output stand, since the frame is to be relayed still;
 *   - a video sequence header, kept or too long, the same as before or not, empties the keyframe;
 *   - a frame of kind HOZGRIM_LIVE_ONLY, or one that the pass refuses, changes no length and no
 *     byte of the store.
 * Every other length stays as it is, also one past its buffer.
 *
 * Nothing but these bytes is kept. The relay gives a frame that is held its own timestamp, and the
 * frame type HOZGRIM_AUDIO if it is an audio sequence header, else HOZGRIM_VIDEO. `route_has_video`
 * has no say in what is kept.
 */
HozgrimStored hozgrim_store_frame(HozgrimLengths *lengths, uint32_t frame_type,
                                  const uint8_t *payload, size_t payload_len,
                                  uint32_t caps_ex_mask, uint32_t route_has_video, uint8_t *output,
                                  size_t output_len, uint8_t *video, size_t video_len,
                                  uint8_t *audio, size_t audio_len, uint8_t *keyframe,
                                  size_t keyframe_len);

/*
 * What a viewer that joins late is sent: the frame of this number, from 0 on, of those that are
 * held, in the order video sequence header, audio sequence header, keyframe.
 */
HozgrimLate hozgrim_late(HozgrimLengths lengths, const uint8_t *video, size_t video_len,
                         const uint8_t *audio, size_t audio_len, const uint8_t *keyframe,
                         size_t keyframe_len, size_t number);

/* Cache kind and delivery hint of a payload as it is: no layer is peeled off. */
HozgrimClass hozgrim_classify(uint32_t frame_type, const uint8_t *payload, size_t len,
                              uint32_t route_has_video);

/*
 * The track of this number, from 0 on, of a payload as it is: for the tracks that hozgrim_pass
 * counts, lend the result. Each call goes over the heads of all tracks: who wants many of them
 * calls hozgrim_walk_columns once.
 *
 * A container is accepted if its form is known, its packet type does not name a container inside
 * it (HOZGRIM_VIDEO_PACKET_MULTITRACK in video, HOZGRIM_AUDIO_PACKET_MULTITRACK in audio), and its
 * tracks, 1 to 4,096 of them, fill it to the last byte. Anything else is HOZGRIM_NOT_A_CONTAINER,
 * whatever the number.
 */
HozgrimTrack hozgrim_track(uint32_t frame_type, const uint8_t *payload, size_t len, size_t number);

/*
 * Puts all tracks of a container into columns, as hozgrim_track finds them in the payload: track i
 * has the id ids[i], the FourCC fourccs[i], which is a HOZGRIM_FOURCC(..), and the body of
 * lengths[i] bytes of the payload from starts[i] on. These are the columns that
 * hozgrim_write_container takes, with the payload as bodies.
 *
 * Each column has an entry for every track, or more: a column with fewer is
 * HOZGRIM_OUTPUT_TOO_SHORT, and so is a payload over 16,777,215 bytes. 4,096 entries are enough for
 * any container, and hozgrim_track of number SIZE_MAX counts the tracks beforehand. Entries behind
 * the count are kept; if the call is refused, all are.
 */
HozgrimColumns hozgrim_walk_columns(uint32_t frame_type, const uint8_t *payload, size_t payload_len,
                                    uint8_t *ids, size_t ids_len, uint32_t *fourccs,
                                    size_t fourccs_len, size_t *starts, size_t starts_len,
                                    size_t *lengths, size_t lengths_len);

/*
 * The track of this number, read from columns: no head is gone over, so that the number makes no
 * difference to the time. Lent with the count and the payload of a walk that was not refused, and
 * with the columns as it left them, the answer is that of hozgrim_track, for any number.
 *
 * Any other count, columns and payload are taken too. Then the answer has what the columns say, if
 * the number is below the count and below the length of each column, the payload has 2 bytes or
 * more, and the body lies within it. Else it is HOZGRIM_NO_SUCH_TRACK, beside the count that was
 * lent. Nothing else is looked at: not whether the payload is a container, nor whether these are
 * its columns.
 */
HozgrimTrack hozgrim_column_track(uint32_t frame_type, size_t count, const uint8_t *ids,
                                  size_t ids_len, const uint32_t *fourccs, size_t fourccs_len,
                                  const size_t *starts, size_t starts_len, const size_t *lengths,
                                  size_t lengths_len, const uint8_t *payload, size_t payload_len,
                                  size_t number);

/*
 * One uplink for several viewers, who share it so that none of them takes from another. There are
 * 1 to HOZGRIM_UPLINK_MOST_VIEWERS of them, numbered from 0 on, and two columns, which are lent to
 * each call as the last one left them:
 *   credits[v]  how many bytes may still be sent to viewer v; below 0 it is a debt;
 *   waiting[v]  0; or 1, and any other number too, if viewer v waits for a point to resume from.
 * Columns of zeros are those of viewers who just came. Each has an entry for every viewer, or more:
 * a column with fewer is HOZGRIM_OUT_OF_RANGE. Entries behind the viewers are neither judged nor
 * changed.
 *
 * What is decided for a viewer depends on its own frames and the ticks, in their order, and is the
 * same whatever is offered to others. A viewer's shares equal the bytes that were sent to it plus
 * the credit that is left plus the credit that ticks cut off. Both are said of columns that began
 * as zeros, with one number of viewers and one number of bytes a tick from then on. If a viewer
 * comes or goes, the caller moves the entries; credits and debts stay as they are, and the next
 * tick has another share.
 */

/*
 * A tick, for all viewers. The share of each is `uplink` bytes divided by the number of viewers,
 * rounded down; the remainder is lost. A viewer's credit becomes min(credit, share) + share: of
 * what was left unused at most one share is kept, and the rest is cut off. A debt is kept whole,
 * and paid back by this tick and those that follow.
 *
 * The answer is 0, or else HOZGRIM_OUT_OF_RANGE, and then no credit changes: if the number of
 * viewers is 0 or too large, the column too short, `uplink` over HOZGRIM_UPLINK_MOST_BYTES, or any
 * viewer's credit over HOZGRIM_UPLINK_MOST_CREDIT or debt over HOZGRIM_UPLINK_MOST_DEBT.
 */
int32_t hozgrim_uplink_tick(size_t viewers, uint32_t uplink, int32_t *credits, size_t credits_len);

/*
 * Offers a frame to one viewer, and decides whether it is sent. `hint` is its delivery hint, and
 * `length` that of the result, both as the pass reports them; the sharer sees nothing else of it.
 *   - HOZGRIM_CRITICAL is sent whatever the credit is, and while the viewer waits too. It may leave
 *     a debt. If the debt would be over HOZGRIM_UPLINK_MOST_DEBT, the error is HOZGRIM_DEBT_LIMIT.
 *   - HOZGRIM_RESYNC_POINT is sent if it is no longer than the credit. The viewer then waits no
 *     more.
 *   - HOZGRIM_DROPPABLE is sent if it is no longer than the credit and the viewer does not wait.
 * The length of a frame that is sent is taken off the credit. A frame that is neither sent nor
 * refused is dropped: it costs nothing, and the viewer waits from then on. Neither a tick nor a
 * critical frame ends that. In debt a frame of length 0 is dropped too, unless it is critical.
 *
 * The error is HOZGRIM_OUT_OF_RANGE if the number of viewers is 0 or too large, a column too short,
 * the viewer not below that number, the hint above 2, or the credit of this viewer over
 * HOZGRIM_UPLINK_MOST_CREDIT or its debt over HOZGRIM_UPLINK_MOST_DEBT; those of others are not
 * looked at, nor is there a length that is out of range. Beside an error nothing changes, and the
 * frame does not count as dropped.
 */
HozgrimOffer hozgrim_uplink_offer(size_t viewers, size_t viewer, uint32_t hint, size_t length,
                                  int32_t *credits, size_t credits_len, uint8_t *waiting,
                                  size_t waiting_len);

/*
 * How loud a frame in G.711 is: the largest magnitude among its samples. The payload is taken as it
 * is; before ModEx layers are peeled off and after it the level is the same.
 *
 * A frame has samples if it is audio of FLV in HOZGRIM_G711_A or HOZGRIM_G711_U, by the high nibble
 * of byte 0: each byte behind the first is one, in stereo too. The low nibble is not looked at. A
 * frame without samples has level 0, and so has any other frame.
 *
 * Each law has the scale that ITU-T G.711 gives it, from 0 to HOZGRIM_G711_A_FULL_SCALE or
 * HOZGRIM_G711_U_FULL_SCALE, so levels of the two cannot be compared as they stand. A-law has no
 * zero: with any sample the level is 1 or more, in silence too.
 *
 * Sound changes nothing that hozgrim_pass, hozgrim_pass_in_place and hozgrim_track report. A level
 * depends on it by design.
 */
HozgrimLevel hozgrim_level(uint32_t frame_type, const uint8_t *payload, size_t len);

/*
 * Splits a time in nanoseconds, any number, into milliseconds, rounded down, and the nanoseconds
 * beyond them: -999,999 is -1 and 1. Of a report's `composition_time_ns` these are the milliseconds
 * of the video header and the offset of the layer.
 */
HozgrimSplitTime hozgrim_split_time(int64_t ns);

/*
 * Writes a container to the front of the output, which keeps its bytes behind it. If the call is
 * refused, the output keeps all of them. hozgrim_track reads the same tracks back.
 *
 * The head is
 *   frame_type        HOZGRIM_AUDIO or HOZGRIM_VIDEO; script data and metadata are a bad value;
 *   video_frame_type  in video up to 7, but not HOZGRIM_VIDEO_FRAME_COMMAND, else it is a bad
 *                     value; in audio it is not looked at;
 *   form              HOZGRIM_ONE_TRACK, ..; above 2 it is out of bounds;
 *   packet_type       of every track; above 15 it is a bad value, and so is the container's own:
 *                     HOZGRIM_VIDEO_PACKET_MULTITRACK in video, and in audio
 *                     HOZGRIM_AUDIO_PACKET_MULTITRACK.
 *
 * There are `count` tracks: 1 in HOZGRIM_ONE_TRACK, else 1 to 4,096. Track i has the id ids[i], the
 * FourCC fourccs[i], which is a HOZGRIM_FOURCC(..), and as its body lengths[i] bytes of `bodies`,
 * from starts[i] on. Each column has `count` entries or more, and what is behind is not looked at.
 * A body lies within `bodies`. Bodies may be empty, overlap and stand in any order. In
 * HOZGRIM_MANY_TRACKS all FourCCs are the same. But for HOZGRIM_ONE_TRACK, a body has at most
 * 16,777,215 bytes.
 *
 * 2 bytes are written, 4 more for the FourCC that tracks share, and for each track 1, 4 or 8 (by
 * the form: 0, 1 or 2) and its body.
 */
HozgrimWritten hozgrim_write_container(uint32_t frame_type, uint32_t video_frame_type,
                                       uint32_t form, uint32_t packet_type, size_t count,
                                       const uint8_t *ids, size_t ids_len, const uint32_t *fourccs,
                                       size_t fourccs_len, const size_t *starts, size_t starts_len,
                                       const size_t *lengths, size_t lengths_len,
                                       const uint8_t *bodies, size_t bodies_len, uint8_t *output,
                                       size_t output_len);

/*
 * Writes a payload behind ModEx layers to the front of the output, which keeps its bytes behind
 * that. If the call is refused, the output keeps all of them. hozgrim_pass with
 * HOZGRIM_CAPS_EX_MODEX, and the same frame type, gives the payload back, unless it refuses an
 * offset: data that are none are written too.
 *
 * There are `count` layers, 1 to 32; layer 0 is the outermost. Layer i has the type types[i], at
 * most 15, and as its data lengths[i] bytes of `data`, from starts[i] on: 1 to 65,536 of them.
 * Each column has `count` entries or more, and what is behind is not looked at. The data of a layer
 * lie within `data`; they may overlap and stand in any order.
 *
 * Byte 0 of the payload has bit 7 set, a low nibble other than 7 and, in audio, the high nibble 9;
 * anything else, and an empty payload, is a bad value. Its other bytes are not looked at.
 *
 * As many bytes are written as the payload has, and for each layer 2 (from 256 data bytes on 4) and
 * its data.
 */
HozgrimWritten hozgrim_write_modex(uint32_t frame_type, size_t count, const uint8_t *types,
                                   size_t types_len, const size_t *starts, size_t starts_len,
                                   const size_t *lengths, size_t lengths_len, const uint8_t *data,
                                   size_t data_len, const uint8_t *payload, size_t payload_len,
                                   uint8_t *output, size_t output_len);

/*
 * FLV files, version 1. A file is a header of nine bytes, four bytes of back-pointer, which is 0,
 * and tags. Each tag has a head of 11 bytes, a body, and four bytes of back-pointer, which is the
 * length of the body plus 11. A tag of type 8, 9 or 18 is a frame, and its body is the payload that
 * the calls above take. The flags of the header and the stream ids are not read.
 *
 * A file is read place by place: the header, the first back-pointer, and of each tag the head, the
 * body and the back-pointer. One that stops inside a place is HOZGRIM_TRUNCATED, whatever it has of
 * that place; one that has the place is judged by it before anything behind is looked at.
 */

/*
 * Judges the header, which has the signature `FLV`, version 1 and data offset 9, or else is
 * HOZGRIM_NOT_FLV; and the first back-pointer.
 */
HozgrimFlvStart hozgrim_flv_start(const uint8_t *file, size_t file_len);

/*
 * The first frame from the tag at `at` on, which is `next` of the start or of the frame before. A
 * tag of any other type is stepped over, whatever its length, if its back-pointer matches; so is an
 * encrypted one, whose type has the bit 0x20. One call may go over many tags. No body is read.
 *
 * A frame is found only if its own back-pointer matches. The end of the file is where a tag ends
 * and no byte follows. What stands at any other `at` is read as a tag; an `at` behind the end is
 * HOZGRIM_TRUNCATED.
 */
HozgrimFlvFrame hozgrim_flv_next(const uint8_t *file, size_t file_len, size_t at);

/*
 * Writes the header, with flags 0x05, and the first back-pointer to the front of the output: 13
 * bytes. The output keeps its bytes behind them; if it is shorter, it keeps all of them, and the
 * call is HOZGRIM_OUTPUT_TOO_SHORT.
 */
HozgrimWritten hozgrim_flv_write_start(uint8_t *output, size_t output_len);

/*
 * Writes a frame as a tag, with stream id 0 and its back-pointer, to the front of the output, which
 * keeps its bytes behind it. If the call is refused, the output keeps all of them. A start and
 * frames that are written one behind the other are a file, in which hozgrim_flv_next finds the same
 * frames.
 *
 * `frame_type` is HOZGRIM_AUDIO, HOZGRIM_VIDEO or HOZGRIM_SCRIPT; HOZGRIM_METADATA, for which FLV
 * has no tag, is HOZGRIM_UNKNOWN_FRAME_TYPE here as a larger number is. `timestamp` is in
 * milliseconds. A body over 16,777,215 bytes is HOZGRIM_BAD_LENGTH.
 *
 * 15 bytes are written, and the body.
 */
HozgrimWritten hozgrim_flv_write_frame(uint32_t frame_type, uint32_t timestamp, const uint8_t *body,
                                       size_t body_len, uint8_t *output, size_t output_len);

/*
 * The entries of the archive want a pointer that is not NULL at length 0 too. C and C++ have empty
 * buffers whose pointer is NULL, so calls go by the functions below, which lend another pointer
 * then. Where a call does not go by this header, as from another language, its caller sees to it.
 */
static inline HozgrimReport hozgrim_pass_lent(uint32_t frame_type, const uint8_t *payload,
                                              size_t payload_len, uint32_t caps_ex_mask,
                                              uint32_t route_has_video, uint8_t *output,
                                              size_t output_len)
{
    uint8_t none = 0;
    return hozgrim_pass(frame_type, payload_len == 0 ? &none : payload, payload_len, caps_ex_mask,
                        route_has_video, output_len == 0 ? &none : output, output_len);
}

static inline HozgrimPlaced hozgrim_pass_in_place_lent(uint32_t frame_type, uint8_t *payload,
                                                       size_t payload_len, uint32_t caps_ex_mask,
                                                       uint32_t route_has_video)
{
    uint8_t none = 0;
    return hozgrim_pass_in_place(frame_type, payload_len == 0 ? &none : payload, payload_len,
                                 caps_ex_mask, route_has_video);
}

static inline HozgrimStored hozgrim_store_frame_lent(
    HozgrimLengths *lengths, uint32_t frame_type, const uint8_t *payload, size_t payload_len,
    uint32_t caps_ex_mask, uint32_t route_has_video, uint8_t *output, size_t output_len,
    uint8_t *video, size_t video_len, uint8_t *audio, size_t audio_len, uint8_t *keyframe,
    size_t keyframe_len)
{
    uint8_t none[5] = {0, 0, 0, 0, 0};
    return hozgrim_store_frame(
        lengths, frame_type, payload_len == 0 ? &none[0] : payload, payload_len, caps_ex_mask,
        route_has_video, output_len == 0 ? &none[1] : output, output_len,
        video_len == 0 ? &none[2] : video, video_len, audio_len == 0 ? &none[3] : audio, audio_len,
        keyframe_len == 0 ? &none[4] : keyframe, keyframe_len);
}

static inline HozgrimLate hozgrim_late_lent(HozgrimLengths lengths, const uint8_t *video,
                                            size_t video_len, const uint8_t *audio,
                                            size_t audio_len, const uint8_t *keyframe,
                                            size_t keyframe_len, size_t number)
{
    const uint8_t none = 0;
    return hozgrim_late(lengths, video_len == 0 ? &none : video, video_len,
                        audio_len == 0 ? &none : audio, audio_len,
                        keyframe_len == 0 ? &none : keyframe, keyframe_len, number);
}

static inline HozgrimClass hozgrim_classify_lent(uint32_t frame_type, const uint8_t *payload,
                                                 size_t len, uint32_t route_has_video)
{
    const uint8_t none = 0;
    return hozgrim_classify(frame_type, len == 0 ? &none : payload, len, route_has_video);
}

static inline HozgrimTrack hozgrim_track_lent(uint32_t frame_type, const uint8_t *payload,
                                              size_t len, size_t number)
{
    const uint8_t none = 0;
    return hozgrim_track(frame_type, len == 0 ? &none : payload, len, number);
}

static inline HozgrimColumns
hozgrim_walk_columns_lent(uint32_t frame_type, const uint8_t *payload, size_t payload_len,
                          uint8_t *ids, size_t ids_len, uint32_t *fourccs, size_t fourccs_len,
                          size_t *starts, size_t starts_len, size_t *lengths, size_t lengths_len)
{
    const uint8_t none = 0;
    uint8_t no_id = 0;
    uint32_t no_fourcc = 0;
    size_t no_start = 0;
    size_t no_length = 0;
    return hozgrim_walk_columns(frame_type, payload_len == 0 ? &none : payload, payload_len,
                                ids_len == 0 ? &no_id : ids, ids_len,
                                fourccs_len == 0 ? &no_fourcc : fourccs, fourccs_len,
                                starts_len == 0 ? &no_start : starts, starts_len,
                                lengths_len == 0 ? &no_length : lengths, lengths_len);
}

static inline HozgrimTrack
hozgrim_column_track_lent(uint32_t frame_type, size_t count, const uint8_t *ids, size_t ids_len,
                          const uint32_t *fourccs, size_t fourccs_len, const size_t *starts,
                          size_t starts_len, const size_t *lengths, size_t lengths_len,
                          const uint8_t *payload, size_t payload_len, size_t number)
{
    const uint8_t none = 0;
    const uint32_t no_fourcc = 0;
    const size_t no_place = 0;
    return hozgrim_column_track(
        frame_type, count, ids_len == 0 ? &none : ids, ids_len,
        fourccs_len == 0 ? &no_fourcc : fourccs, fourccs_len, starts_len == 0 ? &no_place : starts,
        starts_len, lengths_len == 0 ? &no_place : lengths, lengths_len,
        payload_len == 0 ? &none : payload, payload_len, number);
}

static inline int32_t hozgrim_uplink_tick_lent(size_t viewers, uint32_t uplink, int32_t *credits,
                                               size_t credits_len)
{
    int32_t no_credit = 0;
    return hozgrim_uplink_tick(viewers, uplink, credits_len == 0 ? &no_credit : credits,
                               credits_len);
}

static inline HozgrimOffer hozgrim_uplink_offer_lent(size_t viewers, size_t viewer, uint32_t hint,
                                                     size_t length, int32_t *credits,
                                                     size_t credits_len, uint8_t *waiting,
                                                     size_t waiting_len)
{
    int32_t no_credit = 0;
    uint8_t no_mark = 0;
    return hozgrim_uplink_offer(viewers, viewer, hint, length,
                                credits_len == 0 ? &no_credit : credits, credits_len,
                                waiting_len == 0 ? &no_mark : waiting, waiting_len);
}

static inline HozgrimLevel hozgrim_level_lent(uint32_t frame_type, const uint8_t *payload,
                                              size_t len)
{
    const uint8_t none = 0;
    return hozgrim_level(frame_type, len == 0 ? &none : payload, len);
}

static inline HozgrimWritten
hozgrim_write_container_lent(uint32_t frame_type, uint32_t video_frame_type, uint32_t form,
                             uint32_t packet_type, size_t count, const uint8_t *ids, size_t ids_len,
                             const uint32_t *fourccs, size_t fourccs_len, const size_t *starts,
                             size_t starts_len, const size_t *lengths, size_t lengths_len,
                             const uint8_t *bodies, size_t bodies_len, uint8_t *output,
                             size_t output_len)
{
    uint8_t none = 0;
    const uint32_t no_fourcc = 0;
    const size_t no_place = 0;
    return hozgrim_write_container(
        frame_type, video_frame_type, form, packet_type, count, ids_len == 0 ? &none : ids, ids_len,
        fourccs_len == 0 ? &no_fourcc : fourccs, fourccs_len, starts_len == 0 ? &no_place : starts,
        starts_len, lengths_len == 0 ? &no_place : lengths, lengths_len,
        bodies_len == 0 ? &none : bodies, bodies_len, output_len == 0 ? &none : output, output_len);
}

static inline HozgrimWritten
hozgrim_write_modex_lent(uint32_t frame_type, size_t count, const uint8_t *types, size_t types_len,
                         const size_t *starts, size_t starts_len, const size_t *lengths,
                         size_t lengths_len, const uint8_t *data, size_t data_len,
                         const uint8_t *payload, size_t payload_len, uint8_t *output,
                         size_t output_len)
{
    uint8_t none = 0;
    const size_t no_place = 0;
    return hozgrim_write_modex(
        frame_type, count, types_len == 0 ? &none : types, types_len,
        starts_len == 0 ? &no_place : starts, starts_len, lengths_len == 0 ? &no_place : lengths,
        lengths_len, data_len == 0 ? &none : data, data_len, payload_len == 0 ? &none : payload,
        payload_len, output_len == 0 ? &none : output, output_len);
}

static inline HozgrimFlvStart hozgrim_flv_start_lent(const uint8_t *file, size_t file_len)
{
    const uint8_t none = 0;
    return hozgrim_flv_start(file_len == 0 ? &none : file, file_len);
}

static inline HozgrimFlvFrame hozgrim_flv_next_lent(const uint8_t *file, size_t file_len, size_t at)
{
    const uint8_t none = 0;
    return hozgrim_flv_next(file_len == 0 ? &none : file, file_len, at);
}

static inline HozgrimWritten hozgrim_flv_write_start_lent(uint8_t *output, size_t output_len)
{
    uint8_t none = 0;
    return hozgrim_flv_write_start(output_len == 0 ? &none : output, output_len);
}

static inline HozgrimWritten hozgrim_flv_write_frame_lent(uint32_t frame_type, uint32_t timestamp,
                                                          const uint8_t *body, size_t body_len,
                                                          uint8_t *output, size_t output_len)
{
    uint8_t none = 0;
    return hozgrim_flv_write_frame(frame_type, timestamp, body_len == 0 ? &none : body, body_len,
                                   output_len == 0 ? &none : output, output_len);
}

#define hozgrim_pass hozgrim_pass_lent
#define hozgrim_pass_in_place hozgrim_pass_in_place_lent
#define hozgrim_store_frame hozgrim_store_frame_lent
#define hozgrim_late hozgrim_late_lent
#define hozgrim_classify hozgrim_classify_lent
#define hozgrim_track hozgrim_track_lent
#define hozgrim_walk_columns hozgrim_walk_columns_lent
#define hozgrim_column_track hozgrim_column_track_lent
#define hozgrim_uplink_tick hozgrim_uplink_tick_lent
#define hozgrim_uplink_offer hozgrim_uplink_offer_lent
#define hozgrim_level hozgrim_level_lent
#define hozgrim_write_container hozgrim_write_container_lent
#define hozgrim_write_modex hozgrim_write_modex_lent
#define hozgrim_flv_start hozgrim_flv_start_lent
#define hozgrim_flv_next hozgrim_flv_next_lent
#define hozgrim_flv_write_start hozgrim_flv_write_start_lent
#define hozgrim_flv_write_frame hozgrim_flv_write_frame_lent

#ifdef __cplusplus
}
#endif

#endif
