/* Plain C of document 01's work and document 02's fax replay, as plain.h has it: parsed in place, state behind pointers, no
   heap. */
#include "plain.h"

#include <errno.h>
#include <string.h>
#include <unistd.h>

/* ---- Frame and sub-frame ---- */

enum { EI = 0x80, LI = 0x40 };

/* Reads the header at `at`, inside the field, and finds its payload: 3, 4, 5, 6, 7 in this order. The payload of a header
   without LI ends the field, that of one with LI does not. */
static inline unsigned header_read(const uint8_t *frame, size_t length, size_t at, struct subframe *sub)
{
    unsigned octet1 = frame[at++], octet1a = 0;
    size_t size = 0, left;
    if (octet1 & EI) {
        if (at == length)
            return HEADER_CUT;
        octet1a = frame[at++];
    }
    if (octet1 & LI) {
        if (at == length)
            return HEADER_CUT;
        size = frame[at++];
    }
    sub->cid = (octet1 & 0x3f) | (octet1a & 0xc0);
    sub->type = octet1a & 0x0f;
    if (sub->cid < CID_FIRST)
        return CID_RESERVED;
    if (octet1a & 0x30)
        return SPARE_BIT_SET;
    left = length - at;
    if (!(octet1 & LI))
        size = left;
    else if (size >= left)
        return size > left ? LENGTH_EXCEEDS : ENDS_WITH_LI;
    sub->payload = frame + at;
    sub->length = (uint16_t)size;
    return 0;
}

static inline unsigned field_check(size_t length)
{
    return length == 0 ? FIELD_EMPTY : length > FIELD_MAX ? FIELD_TOO_LONG : 0;
}

static inline size_t end_of(const uint8_t *frame, const struct subframe *sub)
{
    return (size_t)(sub->payload - frame) + sub->length;
}

/* The number that the cabinet's host program gets: 1 to 8, or 0. */
PLAIN unsigned frame_check(const uint8_t *frame, size_t length)
{
    unsigned number = field_check(length), count = 0;
    struct subframe sub;
    size_t at = 0;
    if (number)
        return number;
    do {
        if (count++ == SUBS_MAX)
            return TOO_MANY_SUBS;
        number = header_read(frame, length, at, &sub);
        if (number)
            return number;
        at = end_of(frame, &sub);
    } while (at < length);
    return 0;
}

/* Opens a frame: all its sub-frames, or a number and a place. */
PLAIN unsigned frame_open(const uint8_t *frame, size_t length, struct opened *opened)
{
    unsigned number = field_check(length), count = 0;
    struct subframe *sub = opened->sub;
    size_t at = 0;
    opened->at = 0;
    if (number)
        return number;
    do {
        opened->at = at;
        if (count == SUBS_MAX)
            return TOO_MANY_SUBS;
        number = header_read(frame, length, at, &sub[count]);
        if (number)
            return number;
        at = end_of(frame, &sub[count++]);
    } while (at < length);
    opened->count = count;
    return 0;
}

/* ---- Payload types ---- */

/* Which layout, or 11 or 12, by syntax and type. */
#define NOWHERE TYPE_NOT_ALLOWED
#define FROM_5 NOWHERE, NOWHERE, NOWHERE, NOWHERE, NOWHERE, NOWHERE, NOWHERE, NOWHERE, NOWHERE, NOWHERE, NOWHERE
#define ON_VOICE {VOICE, DIGITS, SIGNALLING, FAX_RELAY, SID, FROM_5}
static const uint8_t layouts[8][16] = {
    [NO_SYNTAX] = {11, 11, 11, 11, 11, 11, 11, 11, 11, 11, 11, 11, 11, 11, 11, 11},
    [ACELP] = ON_VOICE,
    [PCM] = ON_VOICE,
    [G727] = ON_VOICE,
    [G728] = ON_VOICE,
    [G7231] = ON_VOICE,
    [DATA] = {DATA_FRAGMENT, NOWHERE, NOWHERE, NOWHERE, NOWHERE, FROM_5},
    [FAX] = {FAX_RELAY, DIGITS, SIGNALLING, NOWHERE, NOWHERE, FROM_5},
};

PLAIN unsigned payload_layout(const struct record *record, unsigned type)
{
    return layouts[record->syntax][type];
}

/* Octets of speech by syntax and coding type, for each of the m; 0 where the coding type is not in the table. */
static const uint8_t speech[8][16] = {
    [ACELP] = {10},
    [PCM] = {40, 35, 30, 40, 35, 30, 25, 20, 15, 10, 25, 20, 15, 10},
    [G727] = {10, 5, 10, 15, 15, 20, 25, 15, 5, 10, 20, 25, 20, 5, 25},
    [G728] = {10},
    [G7231] = {24},
};

/* Checks speech octets, of which g7231 has at least one: 16, 14, 13 in this order. */
static inline unsigned speech_check(const struct record *record, unsigned coding, const uint8_t *body, size_t length)
{
    unsigned octets = speech[record->syntax][coding];
    if (octets == 0)
        return CODING_WRONG;
    if (record->syntax == G7231) {
        if ((body[0] & 3) == 3)
            return RESERVED_CODE;
        if (body[0] & 1)
            octets = 20;
    }
    return length == octets * record->m ? 0 : LENGTH_WRONG;
}

/* acelp, pcm, g727, g728, g7231: under seq=1 a front octet, then the speech. */
PLAIN unsigned voice_read(const struct record *record, const uint8_t *payload, size_t length, struct voice *voice)
{
    unsigned front = record->seq, octet = 0;
    if (length < front + (record->syntax == G7231))
        return LENGTH_WRONG;
    if (front)
        octet = payload[0];
    voice->sequence = octet >> 4;
    voice->coding = octet & 15;
    voice->front = front;
    return speech_check(record, octet & 15, payload + front, length - front);
}

static inline bool window_in_range(const struct window *window)
{
    return window->edge <= 19 && (window->code <= 15 || !window->on);
}

/* A window whose reserved bits are 0; the code of an off one is handed out as 0. */
static inline void window_read(const uint8_t *octets, struct window *window)
{
    window->on = octets[0] >> 5;
    window->edge = octets[0] & 31;
    window->code = window->on ? octets[1] : 0;
}

/* digits: every 14 before any 15. */
PLAIN unsigned digits_read(const uint8_t *payload, size_t length, struct digits *digits)
{
    struct window *window = digits->window;
    if (length != 8)
        return LENGTH_WRONG;
    if ((payload[1] | payload[3] | payload[5] | payload[7]) & 0xe0 || (payload[2] | payload[4] | payload[6]) & 0xc0)
        return RESERVED_CODE;
    digits->sequence = payload[0];
    digits->level = (int8_t)-payload[1];
    window_read(payload + 2, &window[0]);
    window_read(payload + 4, &window[1]);
    window_read(payload + 6, &window[2]);
    return window_in_range(&window[0]) && window_in_range(&window[1]) && window_in_range(&window[2]) ? 0 : OUT_OF_RANGE;
}

/* Two samples to an octet, the earlier in the low half. */
static inline void samples_read(const uint8_t *octets, size_t count, uint8_t *sample)
{
    size_t i;
    for (i = 0; i < count; i++) {
        sample[2 * i] = octets[i] & 15;
        sample[2 * i + 1] = octets[i] >> 4;
    }
}

/* signalling: every content of 16 octets is taken. */
PLAIN unsigned signalling_read(const uint8_t *payload, size_t length, struct signalling *signalling)
{
    if (length != 16)
        return LENGTH_WRONG;
    signalling->alarm = payload[0] >> 7;
    signalling->sequence = payload[0] & 0x7f;
    samples_read(payload + 1, 15, signalling->sample);
    return 0;
}

/* Whether a fax command may have so many data octets. */
static inline bool fax_body_fits(unsigned command, size_t length)
{
    if (command <= FAX_ON)
        return length == 0;
    if (length == 3)
        return true;
    return command == FAX_DATA && length % 12 == 0 && length >= 12 && length <= 72;
}

/* Whether modulation and frequency are those of a fax on. */
static inline bool tone_sound(unsigned modulation, unsigned frequency)
{
    return modulation <= 11 && (modulation == 0 || frequency == 0);
}

/* fax: the command with EI1 decides the length. */
PLAIN unsigned fax_read(const uint8_t *payload, size_t length, struct fax *fax)
{
    unsigned command, front = 1;
    bool stamped;
    if (length == 0)
        return LENGTH_WRONG;
    command = payload[0] & 7;
    stamped = payload[0] >> 7;
    if (command > FAX_ABORT || (command <= FAX_ON && !stamped))
        return RESERVED_CODE;
    if (stamped)
        front = command == FAX_ON ? 6 : 3;
    if (length < front || !fax_body_fits(command, length - front))
        return LENGTH_WRONG;
    fax->sequence = payload[0] >> 3 & 15;
    fax->command = command;
    fax->front = front;
    fax->stamped = stamped;
    fax->stamp = 0;
    if (stamped) {
        if (payload[2] & 0x80)
            return RESERVED_CODE;
        fax->stamp = payload[1] | payload[2] << 8;
    }
    if (command == FAX_ON) {
        fax->hdlc = payload[3] >> 7;
        fax->modulation = payload[3] & 15;
        fax->frequency = payload[4] | payload[5] << 8;
        if (payload[3] & 0x70 || !tone_sound(fax->modulation, fax->frequency))
            return RESERVED_CODE;
    }
    return 0;
}

static inline bool has_noise(const struct record *record)
{
    return record->syntax == PCM || record->syntax == G727;
}

/* SID: two octets under pcm and g727, their reserved bits ignored; else empty. */
PLAIN unsigned sid_read(const struct record *record, const uint8_t *payload, size_t length, struct sid *sid)
{
    sid->noise = has_noise(record);
    if (length != (sid->noise ? 2 : 0))
        return LENGTH_WRONG;
    if (sid->noise) {
        sid->sequence = payload[0] >> 4;
        sid->level = (int8_t)-(payload[1] & 63);
    }
    return 0;
}

/* data: B, E, 0, a 13-bit sequence, then at least one octet. */
PLAIN unsigned data_read(const uint8_t *payload, size_t length, struct data *data)
{
    if (length < 3)
        return LENGTH_WRONG;
    if (payload[0] & 0x20)
        return RESERVED_CODE;
    data->begins = payload[0] >> 7;
    data->ends = payload[0] >> 6 & 1;
    data->sequence = (payload[0] & 0x1f) << 8 | payload[1];
    return 0;
}

/* The number of a payload alone: 11 to 16, or 0. */
PLAIN unsigned payload_check(const struct record *record, unsigned type, const uint8_t *payload, size_t length)
{
    unsigned layout = payload_layout(record, type);
    struct voice voice;
    struct digits digits;
    struct fax fax;
    struct sid sid;
    struct data data;
    switch (layout) {
    case VOICE:
        return voice_read(record, payload, length, &voice);
    case DIGITS:
        return digits_read(payload, length, &digits);
    case SIGNALLING:
        return length == 16 ? 0 : LENGTH_WRONG;
    case FAX_RELAY:
        return fax_read(payload, length, &fax);
    case SID:
        return sid_read(record, payload, length, &sid);
    case DATA_FRAGMENT:
        return data_read(payload, length, &data);
    default:
        return layout;
    }
}

/* ---- Frame and sub-frame: what the voice card is handed ---- */

/* One walk checks all headers and keeps the first type 0 payload on the CID that passes its checks. */
PLAIN unsigned card_hand(const uint8_t *frame, size_t length, const struct record *table, uint8_t cid, struct handed silence,
                         struct handed *handed)
{
    const struct record *record = &table[cid];
    unsigned layout = payload_layout(record, 0), number = field_check(length), count = 0, source = FROM_SILENCE;
    struct subframe sub;
    struct voice voice;
    size_t at = 0;
    handed->octets = frame;
    handed->length = 0;
    if (number)
        return number;
    do {
        if (count++ == SUBS_MAX)
            return TOO_MANY_SUBS;
        number = header_read(frame, length, at, &sub);
        if (number)
            return number;
        if (sub.cid == cid && sub.type == 0 && layout == VOICE && source == FROM_SILENCE &&
            voice_read(record, sub.payload, sub.length, &voice) == 0) {
            silence.octets = sub.payload;
            silence.length = sub.length;
            source = FROM_FRAME;
        }
        at = end_of(frame, &sub);
    } while (at < length);
    if (layout != VOICE)
        return layout == NOT_PROVISIONED ? NOT_PROVISIONED : TYPE_NOT_ALLOWED;
    *handed = silence;
    return source;
}

/* ---- Refusal numbers: the writer ---- */

PLAIN void write_start(struct writer *writer, uint8_t *frame, size_t room, const struct record *table)
{
    writer->frame = frame;
    writer->room = room;
    writer->at = 0;
    writer->table = table;
    writer->count = 0;
    writer->done = false;
}

/* Whether a content of this layout may be written with this type: 24, 4, 11, 12 in this order. */
static inline unsigned write_check(const struct writer *writer, uint8_t cid, unsigned type, unsigned layout)
{
    unsigned found;
    if (writer->done)
        return AFTER_LAST;
    if (cid < CID_FIRST)
        return CID_RESERVED;
    found = payload_layout(&writer->table[cid], type);
    if (found == layout)
        return 0;
    return found == NOT_PROVISIONED ? NOT_PROVISIONED : TYPE_NOT_ALLOWED;
}

/* Writes the header for a payload of so many octets and takes their place in the frame: 22, 23, 21 in this order. */
static inline unsigned header_write(struct writer *writer, uint8_t cid, unsigned type, bool last, size_t length,
                                    uint8_t **payload)
{
    bool ei = cid > 63 || type != 0;
    size_t octets = 1 + ei + !last + length;
    uint8_t *at = writer->frame + writer->at;
    if (length > 255 && !last)
        return TOO_LONG_NOT_LAST;
    if (writer->count == SUBS_MAX || octets > FIELD_MAX - writer->at)
        return FRAME_FULL;
    if (octets > writer->room - writer->at)
        return ROOM_TOO_SMALL;
    *at++ = (ei ? EI : 0) | (last ? 0 : LI) | (cid & 63);
    if (ei)
        *at++ = (cid & 0xc0) | type;
    if (!last)
        *at++ = length;
    *payload = at;
    writer->at += octets;
    writer->count++;
    writer->done = last;
    return 0;
}

PLAIN unsigned write_voice(struct writer *writer, uint8_t cid, bool last, const struct voice *voice, const uint8_t *body,
                           size_t length)
{
    const struct record *record = &writer->table[cid];
    unsigned number = write_check(writer, cid, 0, VOICE);
    uint8_t *at;
    if (number)
        return number;
    if (record->syntax == G7231 && length == 0)
        return LENGTH_WRONG;
    if (voice->coding > 15)
        return CODING_WRONG;
    number = speech_check(record, voice->coding, body, length);
    if (number)
        return number;
    if (voice->sequence > (record->seq ? 15 : 0))
        return OUT_OF_RANGE;
    number = header_write(writer, cid, 0, last, record->seq + length, &at);
    if (number)
        return number;
    if (record->seq)
        *at++ = voice->sequence << 4 | voice->coding;
    memcpy(at, body, length);
    return 0;
}

static inline void window_write(uint8_t *at, const struct window *window)
{
    at[0] = window->on << 5 | window->edge;
    at[1] = window->on ? window->code : 0;
}

/* digits: a level above zero is coded 0. */
PLAIN unsigned write_digits(struct writer *writer, uint8_t cid, bool last, const struct digits *digits)
{
    const struct window *window = digits->window;
    unsigned number = write_check(writer, cid, 1, DIGITS);
    uint8_t *at;
    if (number)
        return number;
    if (digits->level < -31 || !window_in_range(&window[0]) || !window_in_range(&window[1]) || !window_in_range(&window[2]))
        return OUT_OF_RANGE;
    number = header_write(writer, cid, 1, last, 8, &at);
    if (number)
        return number;
    at[0] = digits->sequence;
    at[1] = digits->level > 0 ? 0 : -digits->level;
    window_write(at + 2, &window[0]);
    window_write(at + 4, &window[1]);
    window_write(at + 6, &window[2]);
    return 0;
}

PLAIN unsigned write_signalling(struct writer *writer, uint8_t cid, bool last, const struct signalling *signalling)
{
    const uint8_t *sample = signalling->sample;
    unsigned number = write_check(writer, cid, 2, SIGNALLING), bits = 0, i;
    uint8_t *at;
    if (number)
        return number;
    for (i = 0; i < 30; i++)
        bits |= sample[i];
    if (bits > 15 || signalling->sequence > 127)
        return OUT_OF_RANGE;
    number = header_write(writer, cid, 2, last, 16, &at);
    if (number)
        return number;
    *at++ = signalling->alarm << 7 | signalling->sequence;
    for (i = 0; i < 15; i++)
        at[i] = sample[2 * i] | sample[2 * i + 1] << 4;
    return 0;
}

/* fax: 14 for off or on without a stamp, 13, any other 14, 15 in this order. */
static inline unsigned fax_check(const struct fax *fax, size_t length)
{
    if (fax->command > FAX_ABORT || (fax->command <= FAX_ON && !fax->stamped))
        return RESERVED_CODE;
    if (!fax_body_fits(fax->command, length))
        return LENGTH_WRONG;
    if (fax->command == FAX_ON && !tone_sound(fax->modulation, fax->frequency))
        return RESERVED_CODE;
    return fax->sequence > 15 || (fax->stamped && fax->stamp > 0x7fff) ? OUT_OF_RANGE : 0;
}

/* fax: type 0 on a fax sub-channel, 3 on a voice one. */
PLAIN unsigned write_fax(struct writer *writer, uint8_t cid, bool last, const struct fax *fax, const uint8_t *body,
                         size_t length)
{
    unsigned type = writer->table[cid].syntax == FAX ? 0 : 3;
    unsigned number = write_check(writer, cid, type, FAX_RELAY);
    uint8_t *at;
    if (number)
        return number;
    number = fax_check(fax, length);
    if (number)
        return number;
    number = header_write(writer, cid, type, last, 1 + 2 * fax->stamped + 3 * (fax->command == FAX_ON) + length, &at);
    if (number)
        return number;
    *at++ = fax->stamped << 7 | fax->sequence << 3 | fax->command;
    if (fax->stamped) {
        *at++ = fax->stamp & 0xff;
        *at++ = fax->stamp >> 8;
    }
    if (fax->command == FAX_ON) {
        *at++ = fax->hdlc << 7 | fax->modulation;
        *at++ = fax->frequency & 0xff;
        *at++ = fax->frequency >> 8;
    }
    memcpy(at, body, length);
    return 0;
}

/* SID: an empty one under pcm and g727 has a wrong length, values under the others have no place. */
PLAIN unsigned write_sid(struct writer *writer, uint8_t cid, bool last, const struct sid *sid)
{
    unsigned number = write_check(writer, cid, 4, SID);
    uint8_t *at;
    if (number)
        return number;
    if (sid->noise != has_noise(&writer->table[cid]))
        return sid->noise ? OUT_OF_RANGE : LENGTH_WRONG;
    if (sid->noise && (sid->sequence > 15 || sid->level > 0 || sid->level < -63))
        return OUT_OF_RANGE;
    number = header_write(writer, cid, 4, last, sid->noise ? 2 : 0, &at);
    if (number == 0 && sid->noise) {
        at[0] = sid->sequence << 4;
        at[1] = -sid->level;
    }
    return number;
}

PLAIN unsigned write_data(struct writer *writer, uint8_t cid, bool last, const struct data *data, const uint8_t *body,
                          size_t length)
{
    unsigned number = write_check(writer, cid, 0, DATA_FRAGMENT);
    uint8_t *at;
    if (number)
        return number;
    if (length == 0)
        return LENGTH_WRONG;
    if (data->sequence > 0x1fff)
        return OUT_OF_RANGE;
    number = header_write(writer, cid, 0, last, 2 + length, &at);
    if (number)
        return number;
    at[0] = data->begins << 7 | data->ends << 6 | data->sequence >> 8;
    at[1] = data->sequence & 0xff;
    memcpy(at + 2, body, length);
    return 0;
}

/* ---- Senders, per 20 ms ---- */

PLAIN void digit_sender_start(struct digit_sender *sender)
{
    memset(sender, 0, sizeof *sender);
    sender->sent.sequence = 255; /* the first sent is 0 */
}

/* Sent when on or changed, and in the three periods after such a one. */
PLAIN unsigned digit_send(struct digit_sender *sender, struct window entry, int8_t level)
{
    struct window *window = sender->sent.window;
    bool changed;
    if (!window_in_range(&entry) || level < -31)
        return OUT_OF_RANGE;
    if (!entry.on)
        entry.code = 0;
    changed = entry.on != window[0].on || entry.code != window[0].code;
    if (!changed && entry.edge != 0)
        return EDGE_WITHOUT_CHANGE;
    if (entry.on || changed)
        sender->tail = 3;
    else if (sender->tail == 0)
        return UNSENT;
    else
        sender->tail--;
    window[2] = window[1];
    window[1] = window[0];
    window[0] = entry;
    sender->sent.level = level;
    sender->sent.sequence++;
    return 0;
}

PLAIN unsigned signalling_sender_start(struct signalling_sender *sender, uint8_t value)
{
    if (value > 15)
        return OUT_OF_RANGE;
    memset(sender->sent.sample, value, sizeof sender->sent.sample);
    sender->sent.sequence = 127; /* the first sent is 0 */
    sender->sent.alarm = false;
    sender->quiet = 0;
    return 0;
}

/* Eight octets at once; only compared with words whose octets are all alike, so their order does not matter. */
static inline uint64_t eight_octets(const uint8_t *octets)
{
    uint64_t word;
    memcpy(&word, octets, sizeof word);
    return word;
}

enum { QUIET_SENT = 25, QUIET_REPEAT = 250 };

/* A period is ten samples; a quiet one equals the sample before it. */
PLAIN unsigned signalling_send(struct signalling_sender *sender, bool alarm, const uint8_t *sample)
{
    const uint64_t each = 0x0101010101010101;
    uint8_t *window = sender->sent.sample;
    uint64_t head = eight_octets(sample), tail = eight_octets(sample + 2), before = each * window[29];
    if ((head | tail) & each * 0xf0)
        return OUT_OF_RANGE;
    if (head != before || tail != before) {
        sender->quiet = 0;
    } else if (sender->quiet++ >= QUIET_SENT) {
        if (sender->quiet < QUIET_SENT + QUIET_REPEAT)
            return UNSENT;
        sender->quiet = QUIET_SENT;
        sender->sent.alarm = alarm;
        return 0;
    }
    memmove(window, window + 10, 20);
    memcpy(window + 20, sample, 10);
    sender->sent.alarm = alarm;
    sender->sent.sequence = (sender->sent.sequence + 1) & 127;
    return 0;
}

/* ---- Receivers ---- */

/* The farthest steps that are replayed: a payload beyond is older (document 02, wish 3). */
enum { DIGITS_FARTHEST = 127, SIGNALLING_FARTHEST = 63 };

PLAIN unsigned digit_receive(struct digit_receiver *receiver, const uint8_t *payload, size_t length, struct digit_answer *answer)
{
    struct digits digits;
    unsigned number = digits_read(payload, length, &digits), step, i;
    memset(answer, 0, sizeof *answer);
    if (number)
        return number;
    step = receiver->heard ? (uint8_t)(digits.sequence - receiver->sequence) : 3;
    if (step > DIGITS_FARTHEST)
        return OLDER_PAYLOAD;
    if (step == 0)
        return 0;
    if (step > 3) {
        answer->fills = step - 3;
        answer->fill = receiver->fill;
        step = 3;
    }
    answer->carried = step;
    for (i = 0; i < step; i++)
        answer->period[i] = digits.window[step - 1 - i];
    receiver->heard = true;
    receiver->sequence = digits.sequence;
    receiver->fill = digits.window[0];
    receiver->fill.edge = 0;
    return 0;
}

/* Only the samples of the carried periods are unpacked: five octets a period. */
PLAIN unsigned signalling_receive(struct signalling_receiver *receiver, const uint8_t *payload, size_t length,
                                  struct signalling_answer *answer)
{
    unsigned sequence, step;
    memset(answer, 0, sizeof *answer);
    if (length != 16)
        return LENGTH_WRONG;
    sequence = payload[0] & 127;
    step = receiver->heard ? (sequence - receiver->sequence) & 127 : 3;
    if (step > SIGNALLING_FARTHEST)
        return OLDER_PAYLOAD;
    receiver->alarm = payload[0] >> 7;
    if (step == 0) {
        receiver->value = payload[1] & 15;
        return 0;
    }
    if (step > 3) {
        answer->fills = step - 3;
        answer->fill = receiver->last;
        step = 3;
    }
    answer->carried = step;
    samples_read(payload + 16 - 5 * step, 5 * step, answer->sample);
    receiver->heard = true;
    receiver->sequence = sequence;
    receiver->last = receiver->value = payload[15] >> 4;
    return 0;
}

/* ---- Document 02, wish 1: the fax replay ---- */

enum { HDLC_OCTETS = 3 };

/* Data octets of a payload without HDLC, by modulation. */
static const uint8_t page_octets[12] = {0, 0, 12, 24, 36, 48, 60, 72, 36, 48, 60, 72};

/* Whether the modulation that is on takes a sound payload: 41, 42 in this order. End of frame and abort always have three
   octets, so that they too fit under HDLC alone. */
static inline unsigned modulation_check(const struct fax_receiver *receiver, unsigned command, size_t octets)
{
    if (command <= FAX_ON)
        return 0;
    if (!receiver->on)
        return NONE_ON;
    return octets == receiver->octets ? 0 : AGAINST_MODULATION;
}

/* Adds the `count` newest octets, which come newest first, oldest first. */
static inline void fax_add(struct fax_answer *answer, const uint8_t *newest, unsigned count)
{
    unsigned i;
    answer->count = count;
    for (i = 0; i < count; i++)
        answer->octets[i] = newest[count - 1 - i];
}

/* HDLC: so many octets are due since the payload before, of which three are there. */
static inline void fax_add_due(struct fax_answer *answer, const uint8_t *newest, unsigned due)
{
    answer->gap = due > HDLC_OCTETS;
    fax_add(answer, newest, due < HDLC_OCTETS ? due : HDLC_OCTETS);
}

static inline void fax_data(const struct fax_receiver *receiver, const uint8_t *newest, unsigned step,
                            struct fax_answer *answer)
{
    answer->did = FAX_ADDED;
    if (receiver->octets == HDLC_OCTETS) {
        fax_add_due(answer, newest, step);
    } else if (step > 0) {
        answer->gap = step > 1;
        fax_add(answer, newest, receiver->octets);
    }
}

/* A command that is no repeat and is taken. */
static inline void fax_act(struct fax_receiver *receiver, const struct fax *fax, const uint8_t *newest, unsigned step,
                           struct fax_answer *answer)
{
    switch (fax->command) {
    case FAX_OFF:
        answer->did = FAX_STOPPED;
        answer->gap = step > 1;
        answer->stamp = fax->stamp;
        receiver->on = false;
        break;
    case FAX_ON:
        answer->did = FAX_BEGAN;
        answer->hdlc = fax->hdlc;
        answer->modulation = fax->modulation;
        answer->frequency = fax->frequency;
        answer->stamp = fax->stamp;
        receiver->on = true;
        receiver->octets = fax->hdlc ? HDLC_OCTETS : page_octets[fax->modulation];
        break;
    default:
        answer->did = fax->command == FAX_END ? FAX_ENDED : FAX_ABORTED;
        fax_add_due(answer, newest, step > 0 ? step - 1 : 0);
    }
}

/* The first octet and the stamp tell a command from its repeat. */
PLAIN unsigned fax_receive(struct fax_receiver *receiver, const uint8_t *payload, size_t length, struct fax_answer *answer)
{
    struct fax fax = {0};
    unsigned number = fax_read(payload, length, &fax), step;
    memset(answer, 0, sizeof *answer);
    if (number == 0)
        number = modulation_check(receiver, fax.command, length - fax.front);
    if (number)
        return number;
    step = (fax.sequence - (receiver->head >> 3)) & 15;
    if (fax.command == FAX_DATA)
        fax_data(receiver, payload + fax.front, step, answer);
    else if ((payload[0] == receiver->head && fax.stamp == receiver->stamp) || (fax.command == FAX_OFF && !receiver->on))
        return 0;
    else
        fax_act(receiver, &fax, payload + fax.front, step, answer);
    receiver->head = payload[0];
    receiver->stamp = fax.stamp;
    return 0;
}

/* ---- Provisioning text ---- */

struct cursor {
    const uint8_t *at;
    const uint8_t *end;
};

/* A line of a key and a number of one to three digits without a leading zero, ended by LF: the number, or -1. */
static inline int number_line(struct cursor *cursor, const char *key, size_t length)
{
    const uint8_t *at = cursor->at, *end = cursor->end, *most;
    unsigned value;
    if ((size_t)(end - at) < length + 2 || memcmp(at, key, length) != 0)
        return -1;
    at += length;
    value = *at++ - '0';
    if (value > 9)
        return -1;
    most = value == 0 ? at : end - at < 2 ? end : at + 2;
    while (at < most && *at >= '0' && *at <= '9')
        value = value * 10 + (*at++ - '0');
    if (at == end || *at != '\n')
        return -1;
    cursor->at = at + 1;
    return value;
}

/* Words as numbers: 1, then the octets. A word of over seven octets is in no list. */
#define WORD3(a, b, c) ((uint64_t)1 << 24 | (uint32_t)((a) << 16 | (b) << 8 | (c)))
#define WORD4(a, b, c, d) (WORD3(a, b, c) << 8 | (d))
#define WORD5(a, b, c, d, e) (WORD4(a, b, c, d) << 8 | (e))

static inline enum syntax syntax_of(uint64_t word)
{
    switch (word) {
    case WORD5('a', 'c', 'e', 'l', 'p'):
        return ACELP;
    case WORD3('p', 'c', 'm'):
        return PCM;
    case WORD4('g', '7', '2', '7'):
        return G727;
    case WORD4('g', '7', '2', '8'):
        return G728;
    case WORD5('g', '7', '2', '3', '1'):
        return G7231;
    case WORD4('d', 'a', 't', 'a'):
        return DATA;
    case WORD3('f', 'a', 'x'):
        return FAX;
    default:
        return NO_SYNTAX;
    }
}

/* The syntax line: its syntax, NO_SYNTAX for a word not listed, or -1. */
static inline int syntax_line(struct cursor *cursor)
{
    const uint8_t *at = cursor->at, *end = cursor->end, *word;
    uint64_t octets = 1;
    if (end - at < 7 || memcmp(at, "syntax=", 7) != 0)
        return -1;
    word = at += 7;
    while (at < end && *at != '\n')
        octets = octets << 8 | *at++;
    if (at == end)
        return -1;
    cursor->at = at + 1;
    return at - word > 7 ? NO_SYNTAX : syntax_of(octets);
}

/* The largest m of a syntax, and the least and the largest seq. */
static const struct {
    uint8_t m, seq_from, seq_to;
} limits[8] = {
    [ACELP] = {6, 0, 1}, [PCM] = {12, 1, 1}, [G727] = {12, 1, 1}, [G728] = {12, 0, 1},
    [G7231] = {1, 0, 1}, [DATA] = {1, 0, 0}, [FAX] = {1, 0, 0},
};

/* A block of four lines; `line` is the number of the line at hand, `before` the CID before it. */
static inline unsigned block_read(struct cursor *cursor, struct record *table, int *before, unsigned *line)
{
    int cid, syntax, m, seq;
    ++*line;
    cid = number_line(cursor, "cid=", 4);
    if (cid < CID_FIRST || cid > 255)
        return cid < 0 ? TEXT_MALFORMED : TEXT_VALUE;
    if (cid <= *before)
        return TEXT_NOT_RISING;
    ++*line;
    syntax = syntax_line(cursor);
    if (syntax <= NO_SYNTAX)
        return syntax < 0 ? TEXT_MALFORMED : TEXT_VALUE;
    ++*line;
    m = number_line(cursor, "m=", 2);
    if (m < 1 || m > limits[syntax].m)
        return m < 0 ? TEXT_MALFORMED : TEXT_VALUE;
    ++*line;
    seq = number_line(cursor, "seq=", 4);
    if (seq < limits[syntax].seq_from || seq > limits[syntax].seq_to)
        return seq < 0 ? TEXT_MALFORMED : TEXT_VALUE;
    table[cid].syntax = syntax;
    table[cid].m = m;
    table[cid].seq = seq;
    *before = cid;
    return 0;
}

/* The text goes into a table of its own, which is copied when all of it is taken. */
PLAIN unsigned text_read(const uint8_t *text, size_t length, struct record *table, unsigned *blocks, unsigned *line)
{
    struct record fresh[256];
    struct cursor cursor = {text, text + length};
    int before = 0;
    *line = 0;
    if (length > TEXT_MAX)
        return TEXT_TOO_LONG;
    memset(fresh, 0, sizeof fresh);
    while (cursor.at < cursor.end) {
        unsigned number = block_read(&cursor, fresh, &before, line);
        if (number)
            return number;
    }
    memcpy(table, fresh, sizeof fresh);
    *blocks = *line / 4;
    return 0;
}

/* ---- Listing program ---- */

enum {
    KEY = 6,                          /* octets of "frame=" */
    HEX_MAX = 2 * FIELD_MAX,          /* characters of a frame line after it */
    LINE_MAX_OCTETS = KEY + HEX_MAX,  /* a longer line is decided by its first octets */
    TEXT_DECIDED = TEXT_MAX + KEY,    /* so is the end of the text */
    PIECE = 65536,
    LISTED_MAX = 4096                 /* room for what a line prints: at most 2,300 octets */
};

static struct {
    struct record table[256];
    uint8_t in[TEXT_DECIDED + PIECE];
    size_t at, have; /* what is still to be listed is in[at .. have] */
    uint8_t out[PIECE];
    uint8_t *to; /* the end of what is printed */
    uint64_t number;
    struct opened opened;
} run;

/* A hex digit's value by its character, 0xff for every other character. */
#define NO16 0xff, 0xff, 0xff, 0xff, 0xff, 0xff, 0xff, 0xff, 0xff, 0xff, 0xff, 0xff, 0xff, 0xff, 0xff, 0xff
static const uint8_t hex[256] = {
    NO16, NO16, NO16,
    0, 1, 2, 3, 4, 5, 6, 7, 8, 9, 0xff, 0xff, 0xff, 0xff, 0xff, 0xff,
    NO16, NO16,
    0xff, 10, 11, 12, 13, 14, 15, 0xff, 0xff, 0xff, 0xff, 0xff, 0xff, 0xff, 0xff, 0xff,
    NO16, NO16, NO16, NO16, NO16, NO16, NO16, NO16, NO16,
};

/* Pairs of hex digits to octets; false where another character stands. */
static inline bool hex_read(const uint8_t *digits, size_t octets, uint8_t *to)
{
    unsigned all = 0;
    size_t i;
    for (i = 0; i < octets; i++) {
        unsigned high = hex[digits[2 * i]], low = hex[digits[2 * i + 1]];
        all |= high | low;
        to[i] = high << 4 | low;
    }
    return all <= 15;
}

/* A number below 10,000. */
static inline uint8_t *put_small(uint8_t *to, unsigned value)
{
    if (value >= 1000)
        *to++ = '0' + value / 1000;
    if (value >= 100)
        *to++ = '0' + value / 100 % 10;
    if (value >= 10)
        *to++ = '0' + value / 10 % 10;
    *to++ = '0' + value % 10;
    return to;
}

static uint8_t *put_number(uint8_t *to, uint64_t value)
{
    unsigned low = value % 10000;
    if (value < 10000)
        return put_small(to, low);
    to = put_number(to, value / 10000);
    to[0] = '0' + low / 1000;
    to[1] = '0' + low / 100 % 10;
    to[2] = '0' + low / 10 % 10;
    to[3] = '0' + low % 10;
    return to + 4;
}

/* A key and a number below 10,000, ended by LF. */
static inline uint8_t *put_field(uint8_t *to, const char *key, size_t length, unsigned value)
{
    memcpy(to, key, length);
    to = put_small(to + length, value);
    *to++ = '\n';
    return to;
}
#define PUT(to, key, value) put_field(to, key, sizeof key - 1, value)

static uint8_t *put_subs(uint8_t *to, const struct opened *opened)
{
    unsigned i;
    to = PUT(to, "subs=", opened->count);
    for (i = 0; i < opened->count; i++) {
        const struct subframe *sub = &opened->sub[i];
        to = PUT(to, "cid=", sub->cid);
        to = PUT(to, "type=", sub->type);
        to = PUT(to, "len=", sub->length);
        to = PUT(to, "answer=", payload_check(&run.table[sub->cid], sub->type, sub->payload, sub->length));
    }
    return to;
}

/* A line without its LF to the frame that it holds: 9 or 2, or 0. */
static inline unsigned line_read(const uint8_t *line, size_t length, bool ended, uint8_t *frame)
{
    if (length < KEY || memcmp(line, "frame=", KEY) != 0)
        return LINE_MALFORMED;
    if (length > LINE_MAX_OCTETS)
        return FIELD_TOO_LONG;
    if (length % 2 != 0 || !ended || !hex_read(line + KEY, (length - KEY) / 2, frame))
        return LINE_MALFORMED;
    return 0;
}

static void put_line(const uint8_t *line, size_t length, bool ended)
{
    uint8_t frame[FIELD_MAX], *to = run.to;
    unsigned number = line_read(line, length, ended, frame);
    memcpy(to, "frame=", KEY);
    to = put_number(to + KEY, run.number++);
    *to++ = '\n';
    run.opened.at = 0;
    if (number == 0)
        number = frame_open(frame, (length - KEY) / 2, &run.opened);
    if (number == 0) {
        to = put_subs(to, &run.opened);
    } else {
        to = PUT(to, "refused=", number);
        to = PUT(to, "at=", run.opened.at);
    }
    run.to = to;
}

/* Reads a piece behind what is there; false at the end of the input. */
static bool fetch(int in)
{
    ssize_t got;
    do
        got = read(in, run.in + run.have, PIECE);
    while (got < 0 && errno == EINTR);
    if (got <= 0)
        return false;
    run.have += got;
    return true;
}

/* Writes what is printed; false where writing fails. */
static bool flush(int out)
{
    const uint8_t *from = run.out;
    while (from < run.to) {
        ssize_t put = write(out, from, run.to - from);
        if (put >= 0)
            from += put;
        else if (errno != EINTR)
            return false;
    }
    run.to = run.out;
    return true;
}

/* Lists the whole lines that are there, then a line that is too long to be held; `skip` while its rest is passed over. */
static bool list_lines(int out, bool *skip)
{
    while (run.at < run.have) {
        const uint8_t *line = run.in + run.at, *end = memchr(line, '\n', run.have - run.at);
        size_t length = end ? (size_t)(end - line) : run.have - run.at;
        if (run.out + PIECE - run.to < LISTED_MAX && !flush(out))
            return false;
        if (!*skip) {
            if (!end && length <= LINE_MAX_OCTETS)
                break;
            put_line(line, length, end != NULL);
        }
        *skip = !end;
        run.at += length + (end != NULL);
    }
    return true;
}

/* How many octets the text has: it ends before the first line that starts with "frame=". */
static size_t text_length(const uint8_t *octets, size_t length)
{
    const uint8_t *line = octets, *end = octets + length;
    while (end - line >= KEY) {
        if (memcmp(line, "frame=", KEY) == 0)
            return line - octets;
        line = memchr(line, '\n', end - line);
        if (!line)
            break;
        line++;
    }
    return length;
}

/* Reads the text; a refusal is printed. */
static bool list_text(int in)
{
    unsigned number, blocks, line;
    while (run.have < TEXT_DECIDED && fetch(in))
        ;
    run.at = text_length(run.in, run.have);
    number = text_read(run.in, run.at, run.table, &blocks, &line);
    if (number == 0)
        return true;
    run.to = PUT(run.to, "text=", number);
    run.to = PUT(run.to, "line=", line);
    return false;
}

PLAIN int listing(int in, int out)
{
    bool skip = false;
    memset(run.table, 0, sizeof run.table);
    run.at = run.have = 0;
    run.number = 0;
    run.to = run.out;
    if (list_text(in)) {
        do {
            if (!list_lines(out, &skip))
                return 1;
            run.have -= run.at;
            memmove(run.in, run.in + run.at, run.have);
            run.at = 0;
        } while (fetch(in));
        if (run.have > 0)
            put_line(run.in, run.have, false);
    }
    return flush(out) ? 0 : 1;
}
