/* The rows of the benchmark in plain C: reads an input, does the work of its row, prints `acc`. `plain list` lists a
   recording. The input, the rows and `acc` are those of the proved program `rows`. */
#define PLAIN static inline
#include "plain.c"

#include <inttypes.h>
#include <stdio.h>

enum { INPUT_MAX = 65536, INPUT_HEAD = 7, MATERIAL = 325, DIGIT_ENTRY = 4, SIGNALLING_ENTRY = 11, CARD_CID = 5 };

/* What goes on from item to item. */
struct state {
    struct record table[256];
    uint8_t room[FIELD_MAX];
    struct digit_sender digit_sender;
    struct digit_receiver digit_receiver;
    struct signalling_sender signalling_sender;
    struct signalling_receiver signalling_receiver;
    struct fax_receiver fax_receiver;
};

static inline uint64_t fold(uint64_t acc, uint32_t x)
{
    return (acc & 0xffffffff) * 31 + x;
}

/* The magnitude of a level, and 200 of one above zero. */
static inline uint64_t fold_level(uint64_t acc, int8_t level)
{
    return fold(acc, level > 0 ? 200u : (unsigned)-level);
}

static inline uint64_t fold_window(uint64_t acc, const struct window *window)
{
    return fold(acc, window->on * 1024u + window->edge * 32u + window->code);
}

static inline uint64_t fold_samples(uint64_t acc, const uint8_t *s)
{
    unsigned k;
    for (k = 0; k < 30; k += 5)
        acc = fold(acc, s[k] + 16u * s[k + 1] + 256u * s[k + 2] + 4096u * s[k + 3] + 65536u * s[k + 4]);
    return acc;
}

static inline uint64_t fold_digits(uint64_t acc, const struct digits *digits)
{
    acc = fold(acc, digits->sequence);
    acc = fold_level(acc, digits->level);
    acc = fold_window(acc, &digits->window[0]);
    acc = fold_window(acc, &digits->window[1]);
    return fold_window(acc, &digits->window[2]);
}

static inline uint64_t fold_signalling(uint64_t acc, const struct signalling *signalling)
{
    acc = fold(fold(acc, signalling->alarm), signalling->sequence);
    return fold_samples(acc, signalling->sample);
}

/* Makes each turn's input another: the last octet comes from what was answered. */
static inline void touch(uint8_t *item, size_t length, uint64_t acc)
{
    if (length > 0)
        item[length - 1] = acc & 0xff;
}

/* c: the frame check. */
static inline uint64_t row_check(struct state *state, uint8_t *item, size_t length, uint64_t acc)
{
    (void)state;
    touch(item, length, acc);
    return fold(acc, frame_check(item, length));
}

static inline uint64_t read_voice(uint64_t acc, const struct record *record, const struct subframe *sub)
{
    struct voice voice;
    unsigned number = voice_read(record, sub->payload, sub->length, &voice);
    if (number)
        return fold(acc, number);
    return fold(fold(fold(acc, voice.sequence), voice.coding), voice.front);
}

static inline uint64_t read_digits(uint64_t acc, const struct subframe *sub)
{
    struct digits digits;
    unsigned number = digits_read(sub->payload, sub->length, &digits);
    return number ? fold(acc, number) : fold_digits(acc, &digits);
}

static inline uint64_t read_signalling(uint64_t acc, const struct subframe *sub)
{
    struct signalling signalling;
    unsigned number = signalling_read(sub->payload, sub->length, &signalling);
    return number ? fold(acc, number) : fold_signalling(acc, &signalling);
}

static inline uint64_t read_fax(uint64_t acc, const struct subframe *sub)
{
    static const uint8_t commands[] = {[FAX_OFF] = 0, [FAX_ON] = 1, [FAX_DATA] = 2, [FAX_END] = 3, [FAX_ABORT] = 4};
    struct fax fax;
    unsigned number = fax_read(sub->payload, sub->length, &fax), command;
    if (number)
        return fold(acc, number);
    command = commands[fax.command];
    if (fax.command == FAX_ON)
        command += fax.hdlc * 8u + fax.modulation * 16u + fax.frequency * 256u;
    acc = fold(acc, fax.sequence);
    acc = fold(acc, fax.stamped ? fax.stamp : 65536);
    return fold(fold(acc, command), fax.front);
}

static inline uint64_t read_sid(uint64_t acc, const struct record *record, const struct subframe *sub)
{
    struct sid sid;
    unsigned number = sid_read(record, sub->payload, sub->length, &sid);
    if (number)
        return fold(acc, number);
    if (!sid.noise)
        return fold(acc, 200);
    return fold_level(fold(acc, sid.sequence), sid.level);
}

static inline uint64_t read_data(uint64_t acc, const struct subframe *sub)
{
    struct data data;
    unsigned number = data_read(sub->payload, sub->length, &data);
    if (number)
        return fold(acc, number);
    return fold(fold(acc, data.begins * 2u + data.ends), data.sequence);
}

static inline uint64_t read_sub(uint64_t acc, const struct record *record, const struct subframe *sub)
{
    unsigned layout = payload_layout(record, sub->type);
    switch (layout) {
    case VOICE:
        return read_voice(acc, record, sub);
    case DIGITS:
        return read_digits(acc, sub);
    case SIGNALLING:
        return read_signalling(acc, sub);
    case FAX_RELAY:
        return read_fax(acc, sub);
    case SID:
        return read_sid(acc, record, sub);
    case DATA_FRAGMENT:
        return read_data(acc, sub);
    default:
        return fold(acc, layout);
    }
}

/* r: a frame opened, every payload read. */
static inline uint64_t row_read(struct state *state, uint8_t *item, size_t length, uint64_t acc)
{
    struct opened opened;
    unsigned number, i;
    touch(item, length, acc);
    number = frame_open(item, length, &opened);
    if (number)
        return fold(fold(acc, number), opened.at);
    for (i = 0; i < opened.count; i++) {
        const struct subframe *sub = &opened.sub[i];
        acc = fold(fold(acc, sub->cid), sub->type);
        acc = read_sub(acc, &state->table[sub->cid], sub);
    }
    return acc;
}

/* A level of 0 to -63 dBm0, and one above zero. */
static inline int8_t level_in(uint8_t octet)
{
    return octet < 128 ? (int8_t)-(octet & 63) : 5;
}

/* The contents of the sub-frames that `w` writes, as they stand in the material m. */
static inline struct window window_of(const uint8_t *m)
{
    return (struct window){.on = m[0] % 2, .edge = m[1], .code = m[2]};
}

static inline unsigned material_voice(struct writer *writer, const uint8_t *m)
{
    struct voice voice = {.sequence = m[3], .coding = m[4]};
    return write_voice(writer, m[2], false, &voice, m + 64, m[5]);
}

static inline unsigned material_digits(struct writer *writer, const uint8_t *m)
{
    struct digits digits = {m[7], level_in(m[8]), {window_of(m + 9), window_of(m + 12), window_of(m + 15)}};
    return write_digits(writer, m[6], false, &digits);
}

static inline unsigned material_signalling(struct writer *writer, const uint8_t *m)
{
    struct signalling signalling = {.alarm = m[19] % 2, .sequence = m[20]};
    memcpy(signalling.sample, m + 21, sizeof signalling.sample);
    return write_signalling(writer, m[18], false, &signalling);
}

static inline unsigned material_fax(struct writer *writer, const uint8_t *m)
{
    struct fax fax = {.sequence = m[52], .command = m[56] % 5, .stamped = m[53] % 2, .stamp = m[54] | m[55] << 8,
                      .hdlc = m[57] % 2, .modulation = m[58], .frequency = m[59] | m[60] << 8};
    return write_fax(writer, m[51], false, &fax, m + 64, m[61]);
}

static inline unsigned material_sid(struct writer *writer, const uint8_t *m)
{
    struct sid sid = {.noise = m[63] != 1, .sequence = m[3], .level = level_in(m[63])};
    return write_sid(writer, m[62], false, &sid);
}

static inline unsigned material_data(struct writer *writer, const uint8_t *m)
{
    struct data data = {.begins = m[321] % 2, .ends = m[321] / 2 % 2, .sequence = m[322] | m[323] << 8};
    return write_data(writer, m[320], true, &data, m + 64, m[324]);
}

/* After a sub-frame: the octets so far, or its number and the end of the work. */
#define TAKE(call)                                                                                                             \
    do {                                                                                                                       \
        unsigned number = call;                                                                                                \
        if (number)                                                                                                            \
            return fold(acc, number);                                                                                          \
        acc = fold(acc, writer.at);                                                                                            \
    } while (0)

/* w: a mixed frame written. */
static inline uint64_t row_write(struct state *state, uint8_t *m, size_t length, uint64_t acc)
{
    struct writer writer;
    size_t lent;
    if (length != MATERIAL)
        return acc;
    m[64] = acc & 0xff;
    lent = m[0] | m[1] << 8;
    write_start(&writer, state->room, lent < FIELD_MAX ? lent : FIELD_MAX, state->table);
    TAKE(material_voice(&writer, m));
    TAKE(material_digits(&writer, m));
    TAKE(material_signalling(&writer, m));
    TAKE(material_fax(&writer, m));
    TAKE(material_sid(&writer, m));
    TAKE(material_data(&writer, m));
    return fold(acc, writer.frame[writer.at - 1]);
}

/* W: the same, then the whole room. */
static inline uint64_t row_write_room(struct state *state, uint8_t *m, size_t length, uint64_t acc)
{
    unsigned i;
    acc = row_write(state, m, length, acc);
    for (i = 0; i < FIELD_MAX; i++)
        acc = fold(acc, state->room[i]);
    return acc;
}

/* d: the digit sender. */
static inline uint64_t row_digit_send(struct state *state, uint8_t *e, size_t length, uint64_t acc)
{
    struct digit_sender *sender = &state->digit_sender;
    struct window entry;
    unsigned number;
    if (length < DIGIT_ENTRY)
        return acc;
    entry = (struct window){.on = e[0] % 2, .edge = e[2], .code = e[1]};
    number = digit_send(sender, entry, level_in(e[3]));
    if (number == 0)
        return fold_digits(acc, &sender->sent);
    return fold(acc, number == UNSENT ? 300 : number);
}

/* e: the digit receiver. */
static inline uint64_t row_digit_receive(struct state *state, uint8_t *item, size_t length, uint64_t acc)
{
    struct digit_answer answer;
    acc = fold(acc, digit_receive(&state->digit_receiver, item, length, &answer));
    acc = fold(acc, answer.fills);
    acc = fold_window(acc, &answer.fill);
    acc = fold(acc, answer.carried);
    acc = fold_window(acc, &answer.period[0]);
    acc = fold_window(acc, &answer.period[1]);
    return fold_window(acc, &answer.period[2]);
}

/* s: the signalling sender. */
static inline uint64_t row_signalling_send(struct state *state, uint8_t *e, size_t length, uint64_t acc)
{
    struct signalling_sender *sender = &state->signalling_sender;
    unsigned number;
    if (length < SIGNALLING_ENTRY)
        return acc;
    number = signalling_send(sender, e[0] % 2, e + 1);
    if (number == 0)
        return fold_signalling(acc, &sender->sent);
    return fold(acc, number == UNSENT ? 300 : number);
}

/* t: the signalling receiver. */
static inline uint64_t row_signalling_receive(struct state *state, uint8_t *item, size_t length, uint64_t acc)
{
    struct signalling_receiver *receiver = &state->signalling_receiver;
    struct signalling_answer answer;
    acc = fold(acc, signalling_receive(receiver, item, length, &answer));
    acc = fold(acc, answer.fills);
    acc = fold(acc, answer.fill);
    acc = fold(acc, answer.carried);
    acc = fold_samples(acc, answer.sample);
    acc = fold(acc, receiver->value);
    return fold(acc, receiver->alarm);
}

/* x: the fax replay. */
static inline uint64_t row_fax_receive(struct state *state, uint8_t *item, size_t length, uint64_t acc)
{
    struct fax_answer answer;
    unsigned i;
    acc = fold(acc, fax_receive(&state->fax_receiver, item, length, &answer));
    acc = fold(acc, answer.gap);
    acc = fold(acc, answer.count);
    for (i = 0; i < answer.count; i++)
        acc = fold(acc, answer.octets[i]);
    acc = fold(acc, answer.did);
    acc = fold(acc, answer.hdlc);
    acc = fold(acc, answer.modulation);
    acc = fold(acc, answer.frequency);
    return fold(acc, answer.stamp);
}

/* h: what the voice card is handed. */
static inline uint64_t row_hand(struct state *state, uint8_t *item, size_t length, uint64_t acc)
{
    static const uint8_t silence[20] = {85, 85, 85, 85, 85, 85, 85, 85, 85, 85, 85, 85, 85, 85, 85, 85, 85, 85, 85, 85};
    struct handed lent = {silence, sizeof silence}, handed;
    touch(item, length, acc);
    acc = fold(acc, card_hand(item, length, state->table, CARD_CID, lent, &handed));
    acc = fold(acc, handed.length);
    return fold(acc, handed.length ? handed.octets[0] : 0);
}

static inline uint64_t fold_record(uint64_t acc, const struct record *record)
{
    if (record->syntax == NO_SYNTAX)
        return fold(acc, 0);
    return fold(acc, 1 + (record->syntax - 1u) * 32 + record->m * 2u + record->seq);
}

static inline uint64_t take_text(struct state *state, const uint8_t *item, size_t length, uint64_t acc)
{
    unsigned blocks, line, number = text_read(item, length, state->table, &blocks, &line);
    return number ? fold(fold(acc, number), line) : fold(acc, blocks);
}

/* p: provisioning text, then two CIDs. */
static inline uint64_t row_text(struct state *state, uint8_t *item, size_t length, uint64_t acc)
{
    acc = take_text(state, item, length, acc);
    acc = fold_record(acc, &state->table[5]);
    return fold_record(acc, &state->table[255]);
}

/* P: the same, then every CID. */
static inline uint64_t row_text_all(struct state *state, uint8_t *item, size_t length, uint64_t acc)
{
    unsigned cid;
    acc = take_text(state, item, length, acc);
    for (cid = CID_FIRST; cid < 256; cid++)
        acc = fold_record(acc, &state->table[cid]);
    return acc;
}

/* n: the walk over the items alone. */
static inline uint64_t row_walk(struct state *state, uint8_t *item, size_t length, uint64_t acc)
{
    (void)state;
    return fold(acc, length ? item[0] : 0);
}

struct items {
    uint32_t works;
    uint8_t *from;
    uint8_t *end;
};

static inline unsigned two_octets(const uint8_t *octets)
{
    return octets[0] | octets[1] << 8;
}

/* So many items, in turn. Inlined, so that each row has a loop of its own. */
static inline __attribute__((always_inline)) uint64_t
each(struct state *state, const struct items *items, uint64_t (*work)(struct state *, uint8_t *, size_t, uint64_t))
{
    uint64_t acc = 1;
    uint32_t left;
    uint8_t *at = items->from;
    if (items->end - items->from < 2)
        return acc;
    for (left = items->works; left > 0; left--) {
        size_t length;
        if (items->end - at < 2)
            at = items->from;
        length = two_octets(at);
        at += 2;
        if (length > (size_t)(items->end - at))
            break;
        acc = work(state, at, length, acc);
        at += length;
    }
    return acc;
}

static uint64_t run_row(uint8_t row, struct state *state, const struct items *items)
{
    switch (row) {
    case 'c':
        return each(state, items, row_check);
    case 'r':
        return each(state, items, row_read);
    case 'w':
        return each(state, items, row_write);
    case 'W':
        return each(state, items, row_write_room);
    case 'd':
        return each(state, items, row_digit_send);
    case 'e':
        return each(state, items, row_digit_receive);
    case 's':
        return each(state, items, row_signalling_send);
    case 't':
        return each(state, items, row_signalling_receive);
    case 'x':
        return each(state, items, row_fax_receive);
    case 'h':
        return each(state, items, row_hand);
    case 'p':
        return each(state, items, row_text);
    case 'P':
        return each(state, items, row_text_all);
    case 'n':
        return each(state, items, row_walk);
    default:
        return 1;
    }
}

static size_t read_input(uint8_t *input)
{
    size_t have = 0;
    ssize_t got;
    do {
        got = read(0, input + have, INPUT_MAX - have);
        if (got > 0)
            have += got;
    } while (got > 0 || (got < 0 && errno == EINTR));
    return have;
}

int main(int argc, char **argv)
{
    static uint8_t input[INPUT_MAX];
    static struct state state;
    struct items items = {0, input, input};
    size_t have, text;
    unsigned blocks, line;
    if (argc > 1 && strcmp(argv[1], "list") == 0)
        return listing(0, 1);
    digit_sender_start(&state.digit_sender);
    signalling_sender_start(&state.signalling_sender, 0);
    have = read_input(input);
    text = have < INPUT_HEAD ? 0 : two_octets(input + 5);
    if (have >= INPUT_HEAD + text) {
        text_read(input + INPUT_HEAD, text, state.table, &blocks, &line);
        items.works = two_octets(input + 1) | (uint32_t)two_octets(input + 3) << 16;
        items.from = input + INPUT_HEAD + text;
        items.end = input + have;
    }
    printf("%" PRIu64 "\n", run_row(input[0], &state, &items));
    return 0;
}
