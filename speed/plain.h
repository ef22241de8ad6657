/* Plain C of document 01's work: frames, payloads, writer, senders, receivers, provisioning text, listing; and of document
   02's older payloads and fax replay. "Document 01" is ../shared/documents/01-scope.md, "document 02" 02-change-requests.md beside it; a comment
   names its section or wish. Functions that may refuse return the refusal number, 0 where there is none. What an out-parameter
   holds beside a refusal has no meaning, unless said. */
#ifndef PLAIN_H
#define PLAIN_H

#include <stdbool.h>
#include <stddef.h>
#include <stdint.h>

/* How the functions are declared: a program that includes plain.c may have them static. */
#ifndef PLAIN
#define PLAIN
#endif

/* Refusal numbers. */
enum {
    FIELD_EMPTY = 1,
    FIELD_TOO_LONG = 2,
    HEADER_CUT = 3,
    CID_RESERVED = 4,
    SPARE_BIT_SET = 5,
    LENGTH_EXCEEDS = 6,
    ENDS_WITH_LI = 7,
    TOO_MANY_SUBS = 8,
    LINE_MALFORMED = 9,
    NOT_PROVISIONED = 11,
    TYPE_NOT_ALLOWED = 12,
    LENGTH_WRONG = 13,
    RESERVED_CODE = 14,
    OUT_OF_RANGE = 15,
    CODING_WRONG = 16,
    EDGE_WITHOUT_CHANGE = 17,
    OLDER_PAYLOAD = 19,
    ROOM_TOO_SMALL = 21,
    TOO_LONG_NOT_LAST = 22,
    FRAME_FULL = 23,
    AFTER_LAST = 24,
    TEXT_MALFORMED = 31,
    TEXT_VALUE = 32,
    TEXT_NOT_RISING = 33,
    TEXT_TOO_LONG = 34,
    NONE_ON = 41,            /* fax data, end of frame or abort while no modulation is on */
    AGAINST_MODULATION = 42, /* or as the modulation that is on does not have it */
    UNSENT = 255 /* of a sender: no refusal, but nothing is sent in this period */
};

/* The bounds of frames, texts and lines. */
enum { FIELD_MAX = 1600, SUBS_MAX = 64, CID_FIRST = 4, TEXT_MAX = 8192 };

/* Provisioning text: a record for each CID. */
enum syntax { NO_SYNTAX, ACELP, PCM, G727, G728, G7231, DATA, FAX };

struct record {
    uint8_t syntax; /* NO_SYNTAX where nothing is provisioned */
    uint8_t m;
    uint8_t seq;
};

/* Reads a text into the table of 256 records; `blocks` is set when it is taken, `line` when it is refused. A refused text
   leaves the table as it was. */
PLAIN unsigned text_read(const uint8_t *text, size_t length, struct record *table, unsigned *blocks, unsigned *line);

/* Frame and sub-frame. */
struct subframe {
    const uint8_t *payload; /* a part of the frame */
    uint16_t length;
    uint8_t cid;
    uint8_t type;
};

struct opened {
    unsigned count; /* sub-frames of a sound frame */
    size_t at;      /* of a refused one, the offending sub-frame's first octet */
    struct subframe sub[SUBS_MAX];
};

PLAIN unsigned frame_check(const uint8_t *frame, size_t length);
PLAIN unsigned frame_open(const uint8_t *frame, size_t length, struct opened *opened);

/* What the voice card is handed for a sub-channel: a payload of the frame, the silence block, or with a refusal nothing. */
enum { FROM_FRAME = 0, FROM_SILENCE = 255 }; /* else the refusal number */

struct handed {
    const uint8_t *octets;
    size_t length;
};

PLAIN unsigned card_hand(const uint8_t *frame, size_t length, const struct record *table, uint8_t cid, struct handed silence,
                         struct handed *handed);

/* Payload types. The layout of a payload by its record and type, or 11 or 12. */
enum layout { VOICE, DIGITS, SIGNALLING, FAX_RELAY, SID, DATA_FRAGMENT };

struct voice {
    uint8_t sequence;
    uint8_t coding;
    uint8_t front; /* octets in front of the speech; set by reading */
};

struct window {
    bool on;
    uint8_t edge;
    uint8_t code;
};

struct digits {
    uint8_t sequence;
    int8_t level;            /* dBm0 */
    struct window window[3]; /* current, recent, previous */
};

struct signalling {
    bool alarm;
    uint8_t sequence;
    uint8_t sample[30]; /* oldest first */
};

enum command { FAX_OFF, FAX_ON, FAX_DATA, FAX_END, FAX_ABORT };

struct fax {
    uint8_t sequence;
    uint8_t command;
    uint8_t front;      /* octets in front of the data octets; set by reading */
    bool stamped;
    bool hdlc;          /* this, modulation and frequency: of FAX_ON alone */
    uint8_t modulation;
    uint16_t frequency;
    uint16_t stamp;     /* 0 where there is none */
};

struct sid {
    bool noise; /* pcm and g727; the others have an empty one */
    uint8_t sequence;
    int8_t level; /* 0 to -63 dBm0 */
};

struct data {
    bool begins;
    bool ends;
    uint16_t sequence;
};

PLAIN unsigned payload_layout(const struct record *record, unsigned type);
PLAIN unsigned payload_check(const struct record *record, unsigned type, const uint8_t *payload, size_t length);
PLAIN unsigned voice_read(const struct record *record, const uint8_t *payload, size_t length, struct voice *voice);
PLAIN unsigned digits_read(const uint8_t *payload, size_t length, struct digits *digits);
PLAIN unsigned signalling_read(const uint8_t *payload, size_t length, struct signalling *signalling);
PLAIN unsigned fax_read(const uint8_t *payload, size_t length, struct fax *fax);
PLAIN unsigned sid_read(const struct record *record, const uint8_t *payload, size_t length, struct sid *sid);
PLAIN unsigned data_read(const uint8_t *payload, size_t length, struct data *data);

/* The writer: one sub-frame at a time into a lent frame. A refusal leaves the frame and the writer as they were. A body
   lies outside the lent frame and is not NULL. */
struct writer {
    uint8_t *frame;
    size_t room;
    size_t at; /* octets written */
    const struct record *table;
    unsigned count; /* sub-frames written */
    bool done;      /* the last is written */
};

PLAIN void write_start(struct writer *writer, uint8_t *frame, size_t room, const struct record *table);
PLAIN unsigned write_voice(struct writer *writer, uint8_t cid, bool last, const struct voice *voice, const uint8_t *body,
                           size_t length);
PLAIN unsigned write_digits(struct writer *writer, uint8_t cid, bool last, const struct digits *digits);
PLAIN unsigned write_signalling(struct writer *writer, uint8_t cid, bool last, const struct signalling *signalling);
PLAIN unsigned write_fax(struct writer *writer, uint8_t cid, bool last, const struct fax *fax, const uint8_t *body,
                         size_t length);
PLAIN unsigned write_sid(struct writer *writer, uint8_t cid, bool last, const struct sid *sid);
PLAIN unsigned write_data(struct writer *writer, uint8_t cid, bool last, const struct data *data, const uint8_t *body,
                          size_t length);

/* Senders, per 20 ms. A step answers 0 when `sent` is to be sent, UNSENT, or a refusal, which is no period. */
struct digit_sender {
    struct digits sent; /* the last payload; its newest window is also the state of the entry before */
    uint8_t tail;       /* periods still to be sent after the last that was on or changed */
};

struct signalling_sender {
    struct signalling sent; /* the last payload */
    uint16_t quiet;         /* quiet periods in a row, back to 25 at each repeat */
};

PLAIN void digit_sender_start(struct digit_sender *sender);
PLAIN unsigned digit_send(struct digit_sender *sender, struct window entry, int8_t level);
PLAIN unsigned signalling_sender_start(struct signalling_sender *sender, uint8_t value);
PLAIN unsigned signalling_send(struct signalling_sender *sender, bool alarm, const uint8_t *sample);

/* Receivers. Beside a refusal the answer is all 0. A receiver of zeros is a fresh one. */
struct digit_receiver {
    bool heard; /* a payload was accepted */
    uint8_t sequence;
    struct window fill; /* the last state, edge 0 */
};

struct digit_answer {
    uint8_t fills;
    uint8_t carried;
    struct window fill;
    struct window period[3]; /* oldest first */
};

struct signalling_receiver {
    bool heard;
    bool alarm;
    uint8_t sequence;
    uint8_t last; /* sample of the record */
    uint8_t value;
};

struct signalling_answer {
    uint8_t fills;
    uint8_t carried;
    uint8_t fill; /* a filled period is ten of it */
    uint8_t sample[30];
};

PLAIN unsigned digit_receive(struct digit_receiver *receiver, const uint8_t *payload, size_t length, struct digit_answer *answer);
PLAIN unsigned signalling_receive(struct signalling_receiver *receiver, const uint8_t *payload, size_t length,
                                  struct signalling_answer *answer);

/* Document 02, wish 1: the fax replay. Beside a refusal the answer is all 0. A receiver of zeros is a fresh one. */
struct fax_receiver {
    bool on;
    uint8_t octets; /* data octets of a payload under the modulation that is on: 3 under HDLC alone, 0 where none come */
    uint8_t head;   /* first octet of the payload taken just before: whether stamped, sequence, command */
    uint16_t stamp; /* its stamp, 0 where there is none */
};

/* What an accepted payload did: nothing where it is a repeat, or an off with none on. */
enum did { FAX_NOTHING, FAX_BEGAN, FAX_STOPPED, FAX_ADDED, FAX_ENDED, FAX_ABORTED };

struct fax_answer {
    bool gap; /* before the octets */
    uint8_t count;
    uint8_t octets[72]; /* oldest first, the rest 0 */
    uint8_t did;        /* after the octets */
    bool hdlc;          /* this, modulation and frequency: of FAX_BEGAN alone */
    uint8_t modulation;
    uint16_t frequency;
    uint16_t stamp; /* of FAX_BEGAN and FAX_STOPPED alone */
};

PLAIN unsigned fax_receive(struct fax_receiver *receiver, const uint8_t *payload, size_t length, struct fax_answer *answer);

/* Listing program: from one file descriptor to another. Answers 0, or 1 where writing fails. */
PLAIN int listing(int in, int out);

#endif
