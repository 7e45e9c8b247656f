/* Measures the library beside bench/plain: bench/run builds and calls this.
 *
 *   bench check   compares both on every measured input and on many more; fails at the first difference
 *   bench cases   lists the measurements, a line for each, in the order in which 'count' makes them
 *   bench count   makes each once, for callgrind, which collects inside the measured functions alone and dumps at measured()
 *   bench stack   the peak stack of each operation from its own entry, by a painted stack
 */
#include <stdint.h>
#include <stdio.h>
#include <stdlib.h>
#include <string.h>
#include <ucontext.h>

#include "kamvezhor.h"

#define MOST 64
#define LIST 448
#define FIELD 28
#define WISHES 16
#define PAINT 0xA5
#define CHANGED 50000
#define STACK_OCTETS (256 * 1024)

/* A slice is a pointer and a length. */
typedef struct kamvezhor_frame_read read_frame(const uint8_t *, size_t, size_t, uint8_t *, size_t);
typedef struct kamvezhor_frame_written write_frame(const uint8_t *, size_t, size_t, size_t, uint8_t *, size_t);
typedef struct kamvezhor_message read_message(const uint8_t *, size_t, uint8_t *, size_t);
typedef uint64_t read_list(const uint8_t *, size_t, uint32_t *, size_t);
typedef uint64_t write_message(uint8_t, uint8_t, const uint32_t *, size_t, const uint8_t *, size_t, uint8_t *, size_t);
typedef uint64_t strike(const uint8_t *, size_t, uint8_t *, size_t);
typedef uint64_t step(const uint8_t *, size_t, const uint8_t *, size_t, const uint8_t *, size_t, uint8_t *, size_t, uint8_t *, size_t);
read_list kamvezhor_measure_read, plain_measure_read;
write_message kamvezhor_measure_write, plain_measure_write;
strike kamvezhor_measure_strike, plain_measure_strike;
step kamvezhor_measure_list, plain_measure_list, kamvezhor_measure_mode, plain_measure_mode;
read_frame plain_read_frame;
write_frame plain_write_frame;
read_message plain_read_message;

/* Where a function begins. The steps alone, without the functions above that call them, are local: bench/run gives them these names.
   Where rustc has made several of plain's, the function that calls it stands for it. */
typedef void entry(void);
entry step_ours, step_plain;
#ifdef SEVERAL_PLAIN_STEPS
#define PLAIN_STEP(name) (entry *)plain_##name
#else
#define PLAIN_STEP(name) step_plain
#endif

/* What an operation is called with; each looks at its own part. */
struct input {
    char on[40];
    size_t units; /* bits of a frame, octets of a message */
    int of;       /* the length that growth is shown for: 16, 32 or 64, else 0 */
    uint8_t octets[2048];
    size_t size, bits, opening, closing, room;
    uint8_t kind, revision;
    uint32_t list[LIST + 8];
    size_t count;
    uint8_t ns[80];
    size_t ns_size;
    uint8_t own[MOST], wishes[20 * (2 + MOST)];
    size_t own_size, wishes_size;
};

/* What it answers and leaves in the buffers. */
struct result {
    uint64_t answer[6];
    uint8_t out[4 * LIST + 8];
    uint32_t list[LIST + 8];
    uint8_t store[MOST + 8];
};

typedef void job(const struct input *in, struct result *r);

static void tell_read(struct result *r, struct kamvezhor_frame_read f)
{
    r->answer[0] = f.refusal;
    r->answer[1] = f.octets;
}

static void tell_written(struct result *r, struct kamvezhor_frame_written f)
{
    r->answer[0] = f.refusal;
    r->answer[1] = f.bits;
}

static void tell_message(struct result *r, struct kamvezhor_message m)
{
    r->answer[0] = m.refusal;
    r->answer[1] = m.type;
    r->answer[2] = m.revision;
    r->answer[3] = m.codes;
    r->answer[4] = m.ns_at;
    r->answer[5] = m.ns_length;
}

/* The jobs of ours and of plain, alike but for the functions' names. */
#define JOBS(us, exported)                                                                                                           \
    static void us##_frame_reader(const struct input *in, struct result *r)                                                          \
    {                                                                                                                                \
        tell_read(r, exported##_read_frame(in->octets, in->size, in->bits, r->out, in->room));                                       \
    }                                                                                                                                \
    static void us##_frame_writer(const struct input *in, struct result *r)                                                          \
    {                                                                                                                                \
        tell_written(r, exported##_write_frame(in->octets, in->size, in->opening, in->closing, r->out, in->room));                   \
    }                                                                                                                                \
    static void us##_octet_reader(const struct input *in, struct result *r)                                                          \
    {                                                                                                                                \
        tell_message(r, exported##_read_message(in->octets, in->size, r->out, in->room));                                            \
    }                                                                                                                                \
    static void us##_list_reader(const struct input *in, struct result *r)                                                           \
    {                                                                                                                                \
        r->answer[0] = exported##_measure_read(in->octets, in->size, r->list, in->room / 4);                                         \
    }                                                                                                                                \
    static void us##_message_writer(const struct input *in, struct result *r)                                                        \
    {                                                                                                                                \
        r->answer[0] =                                                                                                               \
            exported##_measure_write(in->kind, in->revision, in->list, in->count, in->ns, in->ns_size, r->out, in->room);            \
    }                                                                                                                                \
    static void us##_striking(const struct input *in, struct result *r)                                                              \
    {                                                                                                                                \
        r->answer[0] = exported##_measure_strike(in->octets, in->size, r->out, in->room);                                            \
    }                                                                                                                                \
    static void us##_step_list(const struct input *in, struct result *r)                                                             \
    {                                                                                                                                \
        r->answer[0] = exported##_measure_list(in->own, in->own_size, in->wishes, in->wishes_size, in->octets, in->size, r->out,     \
                                               in->room, r->store, MOST);                                                            \
    }                                                                                                                                \
    static void us##_step_mode(const struct input *in, struct result *r)                                                             \
    {                                                                                                                                \
        r->answer[0] = exported##_measure_mode(in->own, in->own_size, in->wishes, in->wishes_size, in->octets, in->size, r->out,     \
                                               in->room, r->store, MOST);                                                            \
    }

JOBS(job_ours, kamvezhor)
JOBS(job_plain, plain)

#ifdef SPANDSP
#include <stdbool.h>

#include <spandsp/telephony.h>
#include <spandsp/logging.h>
#include <spandsp/async.h>
#include <spandsp/hdlc.h>

static hdlc_rx_state_t *receiver;
static hdlc_tx_state_t *transmitter;
static struct result *received;

static void take_frame(void *data, const uint8_t *octets, int size, int ok)
{
    (void)data;
    if (size > 0 && ok) {
        memcpy(received->out, octets, (size_t)size);
        received->answer[1] = (uint64_t)size;
    }
}

/* Bit by bit, as its modems do; the buffers are made outside of what is counted. */
static void job_spandsp_frame_reader(const struct input *in, struct result *r)
{
    received = r;
    for (size_t i = 0; i < in->bits; i++)
        hdlc_rx_put_bit(receiver, in->octets[i / 8] >> i % 8 & 1);
}

static void job_spandsp_frame_writer(const struct input *in, struct result *r)
{
    hdlc_tx_init(transmitter, 0, 1, 0, NULL, NULL);
    hdlc_tx_flags(transmitter, (int)in->opening);
    hdlc_tx_frame(transmitter, in->octets, in->size);
    memset(r->out, 0, (in->units + 7) / 8);
    for (size_t i = 0; i < in->units; i++)
        r->out[i / 8] |= (uint8_t)(hdlc_tx_get_bit(transmitter) << i % 8);
    r->answer[1] = in->units;
}

static void start_spandsp(void)
{
    receiver = hdlc_rx_init(NULL, 0, 0, 1, take_frame, NULL);
    transmitter = hdlc_tx_init(NULL, 0, 1, 0, NULL, NULL);
    if (receiver == NULL || transmitter == NULL)
        exit(2);
}
#else
#define job_spandsp_frame_reader NULL
#define job_spandsp_frame_writer NULL
static void start_spandsp(void) { }
#endif

/* The operations. The stack is measured from the two entries. */
struct operation {
    const char *name, *function;
    job *ours, *plain, *spandsp;
    entry *ours_entry, *plain_entry;
};

enum { FRAME_READER, FRAME_WRITER, LIST_READER, OCTET_READER, MESSAGE_WRITER, STRIKING, STEP_LIST, STEP_MODE, OPERATIONS };

#define BOTH_JOBS(name) job_ours_##name, job_plain_##name
#define BOTH_ENTRIES(name) (entry *)kamvezhor_##name, (entry *)plain_##name

static const struct operation operations[OPERATIONS] = {
    {"frame reader", "read_frame", BOTH_JOBS(frame_reader), job_spandsp_frame_reader, BOTH_ENTRIES(read_frame)},
    {"frame writer", "write_frame", BOTH_JOBS(frame_writer), job_spandsp_frame_writer, BOTH_ENTRIES(write_frame)},
    {"message reader, numbers", "measure_read", BOTH_JOBS(list_reader), NULL, BOTH_ENTRIES(measure_read)},
    {"message reader, octets", "read_message", BOTH_JOBS(octet_reader), NULL, BOTH_ENTRIES(read_message)},
    {"message writer", "measure_write", BOTH_JOBS(message_writer), NULL, BOTH_ENTRIES(measure_write)},
    {"striking", "measure_strike", BOTH_JOBS(striking), NULL, BOTH_ENTRIES(measure_strike)},
    {"station step on a list", "measure_list", BOTH_JOBS(step_list), NULL, step_ours, PLAIN_STEP(measure_list)},
    {"station step on an MS", "measure_mode", BOTH_JOBS(step_mode), NULL, step_ours, PLAIN_STEP(measure_mode)},
};

static struct result one, other, third;

static uint32_t random_number(void)
{
    static uint32_t state = 0x2545F491;
    state ^= state << 13;
    state ^= state >> 17;
    state ^= state << 5;
    return state >> 8;
}

static uint32_t random_below(uint32_t bound) { return random_number() % bound; }

static void run(job *j, const struct input *in, struct result *r)
{
    memset(r, PAINT, sizeof *r);
    j(in, r);
}

/* The frame that the reader is measured on. */
static void frame_it(struct input *in)
{
    run(job_plain_frame_writer, in, &third);
    if (third.answer[0] != 0) {
        fprintf(stderr, "bench: %s makes no frame\n", in->on);
        exit(2);
    }
    in->units = in->bits = third.answer[1];
    in->size = (in->bits + 7) / 8;
    memcpy(in->octets, third.out, in->size);
}

static uint8_t sixteen[16];

/* A frame of information: such octets everywhere, or random ones, the same sixteen over and over so that sizes can be compared. */
static void make_information(struct input *in, const char *name, size_t size, int octet)
{
    memset(in, 0, sizeof *in);
    sprintf(in->on, "%zu %s", size, name);
    in->of = octet < 0 && (size == 16 || size == 32 || size == 64) ? (int)size : 0;
    in->size = size;
    in->opening = 2;
    in->closing = 1;
    in->room = KAMVEZHOR_FRAME_ROOM;
    for (size_t i = 0; i < size; i++)
        in->octets[i] = octet < 0 ? sixteen[i % sizeof sixteen] : (uint8_t)octet;
}

static void finish_message(struct input *in, uint8_t first)
{
    in->octets[0] = first;
    in->units = in->size;
    in->kind = first % 16;
    in->revision = first / 16;
    in->room = KAMVEZHOR_LIST_ROOM;
    run(job_plain_list_reader, in, &third);
    if (third.answer[0] > LIST) {
        fprintf(stderr, "bench: %s is no message\n", in->on);
        exit(2);
    }
    in->count = third.answer[0];
    memcpy(in->list, third.list, in->count * sizeof *in->list);
    in->ns_size = 0;
}

static void make_small(struct input *in)
{
    static const uint8_t small[] = {0x22, 0x81, 0x80, 0x80, 0xA1, 0x02, 0xD0, 0xC0};
    memset(in, 0, sizeof *in);
    strcpy(in->on, "8 octets, 5 codes");
    memcpy(in->octets, small, sizeof small);
    in->size = sizeof small;
    finish_message(in, 0x22);
}

/* One long NPar(1) block of S with every bit set. */
static void make_flat(struct input *in, size_t size, uint8_t first)
{
    memset(in, 0, sizeof *in);
    in->of = first == 0x22 ? (int)size : 0;
    in->octets[1] = in->octets[2] = 0x80;
    memset(in->octets + 3, 0x7F, size - 5);
    in->octets[size - 2] = 0xFF;
    in->octets[size - 1] = 0x80;
    in->size = size;
    finish_message(in, first);
    sprintf(in->on, "%zu octets, flat, %zu codes%s", size, in->count, first == 0x22 ? "" : ", MS");
}

/* As many Par(2) blocks as fit, each a full NPar(2), an SPar(2) and a full NPar(3); the first ones have two NPar(3) where octets would
   be left over. */
static void make_deep(struct input *in, size_t size, uint8_t first)
{
    size_t pars = (size - 4) / 3, at, extra;
    while (4 + (pars + 6) / 7 + 3 * pars > size)
        pars--;
    extra = size - (4 + (pars + 6) / 7 + 3 * pars);
    memset(in, 0, sizeof *in);
    in->of = first == 0x22 ? (int)size : 0;
    in->octets[1] = in->octets[2] = in->octets[3] = 0x80;
    at = 4 + (pars + 6) / 7;
    for (size_t i = 0; i < pars; i++) {
        in->octets[4 + i / 7] |= (uint8_t)(1 << i % 7);
        in->octets[at++] = 0x7F;
        in->octets[at++] = i < extra ? 0x43 : 0x41;
        if (i < extra)
            in->octets[at++] = 0x7F;
        in->octets[at++] = 0xFF;
    }
    in->octets[4 + (pars - 1) / 7] |= 0x80;
    in->size = size;
    finish_message(in, first);
    sprintf(in->on, "%zu octets, deep, %zu codes%s", size, in->count, first == 0x22 ? "" : ", MS");
}

/* The fullest tables: every named standard parameter; sixteen wishes of all of it, of which only the last is ready. */
static void make_step(struct input *in, const char *name, uint8_t first)
{
    static const uint8_t own[FIELD] = {0x80, 0x7F, 0x83, 0x1F, 0x37, 0x3F, 0xC7, 0x1B, 0x3F, 0xC7, 0x47, 0x41, 0x3F, 0xC1,
                                       0xC3, 0x1F, 0xC7, 0xC7, 0xC7, 0x47, 0x41, 0x3F, 0xC1, 0x38, 0x3F, 0x3F, 0x3F, 0xFF};
    memset(in, 0, sizeof *in);
    strcpy(in->on, name);
    memcpy(in->own, own, FIELD);
    in->own_size = FIELD;
    for (size_t i = 0; i < WISHES; i++) {
        in->wishes[i * (2 + FIELD)] = i == WISHES - 1;
        in->wishes[i * (2 + FIELD) + 1] = FIELD;
        memcpy(in->wishes + i * (2 + FIELD) + 2, own, FIELD);
    }
    in->wishes_size = WISHES * (2 + FIELD);
    in->octets[1] = 0x8B;
    in->octets[2] = 0x80;
    memcpy(in->octets + 3, own, FIELD);
    in->size = 3 + FIELD;
    finish_message(in, first);
    in->room = 128;
}

/* A measurement: an operation on an input. */
struct measurement {
    int operation;
    struct input in;
};

static struct measurement measurements[64];
static size_t measurement_count;

static struct input *add(int operation)
{
    struct measurement *m = &measurements[measurement_count++];
    m->operation = operation;
    return &m->in;
}

static void make_measurements(void)
{
    static const size_t frames[] = {1, 8, 16, 32, 64};
    static const size_t messages[] = {16, 32, 64};
    for (size_t i = 0; i < sizeof sixteen; i++)
        sixteen[i] = (uint8_t)random_below(256);
    for (int operation = FRAME_READER; operation <= FRAME_WRITER; operation++) {
        for (size_t i = 0; i <= 5; i++) {
            struct input *in = add(operation);
            make_information(in, i < 5 ? "random" : "ones", frames[i < 5 ? i : 4], i < 5 ? -1 : 0xFF);
            if (operation == FRAME_READER) {
                frame_it(in);
            } else {
                run(job_plain_frame_writer, in, &third);
                in->units = third.answer[1];
            }
        }
    }
    for (int operation = LIST_READER; operation <= STRIKING; operation++) {
        make_small(add(operation));
        for (size_t i = 0; i < 3; i++)
            make_flat(add(operation), messages[i], 0x22);
        for (size_t i = 0; i < 3; i++)
            make_deep(add(operation), messages[i], 0x22);
        if (operation == STRIKING) {
            make_flat(add(operation), 64, 0x21);
            make_deep(add(operation), 64, 0x21);
        }
    }
    make_step(add(STEP_LIST), "CL: MS", 0x22);
    make_step(add(STEP_LIST), "CLR: CL and MS", 0x23);
    make_step(add(STEP_MODE), "MS: ACK(1)", 0x21);
}

static void dump(const char *name, const uint8_t *octets, size_t size)
{
    fprintf(stderr, "  %s", name);
    for (size_t i = 0; i < size; i++)
        fprintf(stderr, " %02X", octets[i]);
    fprintf(stderr, "\n");
}

/* Both must give the same answer and leave the same in every buffer. */
static void compare(const struct operation *o, const struct input *in)
{
    run(o->ours, in, &one);
    run(o->plain, in, &other);
    if (memcmp(&one, &other, sizeof one) != 0) {
        fprintf(stderr, "bench: %s differs on %s: ours %llu %llu, plain %llu %llu\n", o->name, in->on,
                (unsigned long long)one.answer[0], (unsigned long long)one.answer[1], (unsigned long long)other.answer[0],
                (unsigned long long)other.answer[1]);
        dump("in  ", in->octets, in->size);
        dump("ours ", one.out, 64);
        dump("plain", other.out, 64);
        exit(1);
    }
}

/* Whether spandsp gives the same information or bits. */
static void compare_spandsp(const struct operation *o, const struct input *in)
{
    size_t octets;
    if (o->spandsp == NULL)
        return;
    run(o->spandsp, in, &third);
    octets = o->plain == job_plain_frame_reader ? other.answer[1] : (other.answer[1] + 7) / 8;
    if (third.answer[1] != other.answer[1] || memcmp(third.out, other.out, octets) != 0) {
        fprintf(stderr, "bench: spandsp's %s differs on %s\n", o->name, in->on);
        exit(1);
    }
}

/* Changes an input a little, so that all refusals are met. */
static void disturb(struct input *in, int operation)
{
    for (uint32_t i = random_below(4); i > 0; i--) {
        switch (random_below(6)) {
        case 0:
        case 1:
            if (in->size > 0)
                in->octets[random_below((uint32_t)in->size)] ^= (uint8_t)(1 << random_below(8));
            break;
        case 2:
            if (in->size > 0 && in->size + 1 < 128)
                in->octets[random_below((uint32_t)in->size)] = (uint8_t)random_below(256);
            break;
        case 3:
            in->size = random_below(4) == 0 ? random_below(100) : in->size + 1 - random_below(3) * (in->size > 0);
            if (operation == FRAME_READER)
                in->bits = random_below(2) ? in->size * 8 : in->bits + 1 - random_below(3) * (in->bits > 0);
            break;
        case 4:
            in->opening = random_below(7);
            in->closing = random_below(5);
            if (in->count > 0)
                in->list[random_below((uint32_t)in->count)] ^= 1u << random_below(29);
            if (in->wishes_size > 0)
                in->wishes[random_below((uint32_t)in->wishes_size)] ^= (uint8_t)(1 << random_below(8));
            break;
        default:
            if (random_below(8) == 0)
                in->room -= random_below(2);
            if (in->own_size > 0 && random_below(4) == 0)
                in->own[random_below((uint32_t)in->own_size)] ^= (uint8_t)(1 << random_below(8));
            if (in->count > 1)
                in->count--;
            if (random_below(4) == 0)
                in->kind = (uint8_t)random_below(16);
            if (random_below(4) == 0) {
                in->ns_size = random_below(2) ? random_below(9) : 60 + random_below(8);
                in->ns[0] = (uint8_t)(random_below(2) ? random_below(9) : in->ns_size - 1);
            }
        }
    }
}

static void put_bit(struct input *in, uint32_t bit)
{
    in->octets[in->bits / 8] |= (uint8_t)(bit << in->bits % 8);
    in->bits++;
}

static void put_flags(struct input *in, size_t count)
{
    for (size_t i = 0; i < 8 * count; i++)
        put_bit(in, i % 8 != 0 && i % 8 != 7);
}

/* A run that is framed well or nearly so, with content of any length, whose FCS is hardly ever right. */
static void make_any_run(struct input *in)
{
    uint32_t ones = 0, bits = 8 * random_below(80), octet = random_below(3);
    memset(in, 0, sizeof *in);
    strcpy(in->on, "a random run");
    if (random_below(4) == 0)
        bits = random_below(40);
    put_flags(in, random_below(8) == 0 ? random_below(7) : 2 + random_below(4));
    while (bits-- > 0) {
        uint32_t bit = octet == 0 ? random_below(2) : octet == 1 ? random_below(8) != 0 : 1;
        put_bit(in, bit);
        ones = bit ? ones + 1 : 0;
        if (ones == 5) {
            if (random_below(200) != 0)
                put_bit(in, 0);
            ones = 0;
        }
    }
    put_flags(in, random_below(8) == 0 ? random_below(5) : 1 + random_below(3));
    in->size = (in->bits + 7) / 8;
    in->room = MOST;
}

/* Some message that may be well-formed: blocks in which every bit is random. */
static void make_any_message(struct input *in)
{
    size_t at = 1;
    memset(in, 0, sizeof *in);
    strcpy(in->on, "a random message");
    for (int field = 0; field < 2; field++) {
        int pars = 0;
        for (int block = 0; block < 2; block++) {
            uint8_t octet;
            do {
                octet = (uint8_t)(random_below(256) & (random_below(2) ? random_below(256) & 0x7F : 0x8F));
                if (random_below(3) != 0)
                    octet |= 0x80;
                if (field == 0 && block == 0 && random_below(8) != 0)
                    octet &= 0xBF;
                in->octets[at++] = octet;
                if (block == 1)
                    pars += __builtin_popcount(octet & 0x7F);
            } while (octet < 0x80 && at < 70);
        }
        while (pars-- > 0 && at < 70) {
            int subs = 0;
            do
                in->octets[at++] = (uint8_t)random_below(64);
            while (random_below(3) == 0 && at < 70);
            in->octets[at - 1] |= 0x40;
            if (random_below(3) == 0) {
                do {
                    in->octets[at++] = (uint8_t)(random_below(64) & random_below(64));
                    subs += __builtin_popcount(in->octets[at - 1]);
                } while (random_below(4) == 0 && at < 70);
                in->octets[at - 1] |= 0x40;
                while (subs-- > 0 && at < 70) {
                    do
                        in->octets[at++] = (uint8_t)random_below(64);
                    while (random_below(4) == 0 && at < 70);
                    in->octets[at - 1] |= 0x40;
                }
            }
            in->octets[at - 1] |= 0x80;
        }
    }
    if (in->octets[1] & 0x40) {
        in->octets[at] = (uint8_t)(1 + random_below(4));
        at += 1 + in->octets[at];
    }
    in->size = at;
    in->octets[0] = (uint8_t)(0x20 * random_below(8) + 1 + random_below(3));
    in->kind = in->octets[0] % 16;
    in->revision = in->octets[0] / 16;
    in->room = KAMVEZHOR_LIST_ROOM;
    run(job_plain_list_reader, in, &third);
    in->count = third.answer[0] <= LIST ? third.answer[0] : 0;
    memcpy(in->list, third.list, in->count * sizeof *in->list);
    in->ns_size = in->octets[1] & 0x40 && random_below(8) != 0 ? 3 : random_below(16) == 0;
    memcpy(in->ns, "\2ab", 3);
}

/* Tables that may be good: the fullest, with parameters taken out. */
static void make_any_step(struct input *in)
{
    make_step(in, "a random step", 0x21 + (uint8_t)random_below(3));
    if (random_below(2)) {
        struct input message;
        make_any_message(&message);
        memcpy(in->octets, message.octets, sizeof message.octets);
        in->size = message.size;
    }
    in->wishes_size = 0;
    for (uint32_t i = random_below(18); i > 0; i--) {
        /* the last is bad: it has no SPar(1) */
        static const uint8_t wishes[][7] = {
            {4, 0x80, 0x81, 0x02, 0xD0},       {3, 0x80, 0x81, 0xC1}, {6, 0x80, 0x84, 0x47, 0x41, 0x3F, 0xC1},
            {5, 0x80, 0x84, 0x47, 0x41, 0xC1}, {3, 0x80, 0x88, 0xC1}, {3, 0x80, 0x90, 0xC0},
            {2, 0x80, 0x80},
        };
        const uint8_t *wish = wishes[random_below(random_below(16) == 0 ? 7 : 6)];
        size_t size = wish[0];
        in->wishes[in->wishes_size++] = (uint8_t)random_below(2);
        in->wishes[in->wishes_size++] = (uint8_t)size;
        memcpy(in->wishes + in->wishes_size, wish + 1, size);
        in->wishes_size += size;
    }
    if (random_below(3) != 0 && in->size > 8) {
        static const uint8_t field[][8] = {
            {0x80, 0x81, 0x02, 0xD0},
            {0x80, 0x84, 0x47, 0x41, 0x3F, 0xC1},
            {0x80, 0x8D, 0x41, 0xC0, 0x47, 0x41, 0xC1, 0xC1},
        };
        static const size_t size[] = {4, 6, 8};
        uint32_t which = random_below(3);
        memcpy(in->octets + 3, field[which], size[which]);
        in->octets[1] = 0x80 | (uint8_t)random_below(16);
        in->octets[2] = 0x80;
        in->size = 3 + size[which];
    }
}

static void make_any(struct input *in, int operation)
{
    if (operation == FRAME_READER && random_below(2)) {
        make_any_run(in);
    } else if (operation <= FRAME_WRITER) {
        make_information(in, "random, changed", 1 + random_below(MOST), random_below(3) == 0 ? 0xFF : -1);
        in->opening = 2 + random_below(4);
        in->closing = 1 + random_below(3);
        if (operation == FRAME_READER) {
            frame_it(in);
            in->room = MOST;
        }
    } else if (operation >= STEP_LIST) {
        make_any_step(in);
    } else {
        if (random_below(4) == 0)
            *in = measurements[random_below((uint32_t)measurement_count)].in;
        else
            make_any_message(in);
        in->room = operation >= MESSAGE_WRITER ? MOST : KAMVEZHOR_LIST_ROOM;
    }
}

/* Whether the last answer was that nothing is written. */
static int was_refused(int operation)
{
    uint64_t answer = one.answer[0];
    if (operation <= FRAME_WRITER || operation == OCTET_READER)
        return answer != 0;
    return operation >= STEP_LIST ? answer == 0 : answer >= 1000;
}

static void check(void)
{
    static struct input in;
    unsigned long refused = 0;
    for (size_t i = 0; i < measurement_count; i++) {
        const struct operation *o = &operations[measurements[i].operation];
        compare(o, &measurements[i].in);
        compare_spandsp(o, &measurements[i].in);
    }
    for (int operation = 0; operation < OPERATIONS; operation++) {
        for (int i = 0; i < CHANGED; i++) {
            make_any(&in, operation);
            disturb(&in, operation);
            compare(&operations[operation], &in);
            refused += (unsigned long)was_refused(operation);
        }
    }
    printf("%zu|%d|%lu\n", measurement_count, CHANGED * OPERATIONS, refused);
}

static volatile int last_measured;

/* callgrind dumps when this is entered. */
__attribute__((noinline)) void measured(int i) { last_measured = i; }

static void each_measurement(void (*act)(const char *who, job *j, const struct measurement *m))
{
    for (size_t i = 0; i < measurement_count; i++) {
        const struct operation *o = &operations[measurements[i].operation];
        act("ours", o->ours, &measurements[i]);
        act("plain", o->plain, &measurements[i]);
        if (o->spandsp != NULL)
            act("spandsp", o->spandsp, &measurements[i]);
    }
}

static void list_case(const char *who, job *j, const struct measurement *m)
{
    const struct operation *o = &operations[m->operation];
    (void)j;
    printf("%s|%s|%s|%zu|%d|%s\n", o->name, o->function, m->in.on, m->in.units, m->in.of, who);
}

static void count_case(const char *who, job *j, const struct measurement *m)
{
    (void)who;
    run(j, &m->in, &one);
    measured(1);
}

static uint8_t stack[STACK_OCTETS] __attribute__((aligned(4096)));
static ucontext_t here, there;
static job *stack_job;
static const struct input *stack_input;

static void run_on_stack(void) { stack_job(stack_input, &one); }

extern const uint8_t __executable_start[], etext[];

/* The stack at a function's entry: the highest word that points behind a call of it (E8 and how far) is the return address. What lies
   above, arguments too, belongs to its caller. */
static size_t place_of_entry(entry *function)
{
    for (size_t at = sizeof stack - 8; at > 0; at -= 8) {
        const uint8_t *back;
        int32_t distance;
        memcpy(&back, stack + at, sizeof back);
        if (back < __executable_start + 5 || back >= etext || back[-5] != 0xE8)
            continue;
        memcpy(&distance, back - 4, sizeof distance);
        if ((uintptr_t)(back + distance) == (uintptr_t)function)
            return at;
    }
    fprintf(stderr, "bench: an operation was not called where its stack is measured\n");
    exit(2);
}

static void run_on_painted_stack(job *j, const struct input *in)
{
    memset(stack, PAINT, sizeof stack);
    stack_job = j;
    stack_input = in;
    getcontext(&there);
    there.uc_stack.ss_sp = stack;
    there.uc_stack.ss_size = sizeof stack;
    there.uc_link = &here;
    makecontext(&there, run_on_stack, 0);
    swapcontext(&here, &there);
}

/* The octets of stack from a function's entry down, its return address with them. */
static size_t peak(job *j, entry *function, const struct input *in)
{
    size_t untouched = 0;
    run_on_painted_stack(j, in);
    while (untouched < sizeof stack && stack[untouched] == PAINT)
        untouched++;
    /* the lowest word may have kept some of its paint */
    return place_of_entry(function) + 8 - untouched / 8 * 8;
}

static void measure_stack(void)
{
    for (int operation = 0; operation < OPERATIONS; operation++) {
        const struct operation *o = &operations[operation];
        size_t ours = 0, plain = 0, octets;
        for (size_t i = 0; i < measurement_count; i++) {
            if (measurements[i].operation != operation)
                continue;
            octets = peak(o->ours, o->ours_entry, &measurements[i].in);
            ours = octets > ours ? octets : ours;
            octets = peak(o->plain, o->plain_entry, &measurements[i].in);
            plain = octets > plain ? octets : plain;
        }
        printf("%s|%s|%zu|%zu\n", o->name, o->function, ours, plain);
    }
}

int main(int argc, char **argv)
{
    const char *what = argc == 2 ? argv[1] : "";
    start_spandsp();
    make_measurements();
    if (strcmp(what, "check") == 0) {
        check();
    } else if (strcmp(what, "cases") == 0) {
        each_measurement(list_case);
    } else if (strcmp(what, "count") == 0) {
        measured(0);
        each_measurement(count_case);
    } else if (strcmp(what, "stack") == 0) {
        measure_stack();
    } else {
        fprintf(stderr, "bench: check, cases, count or stack\n");
        return 2;
    }
    return 0;
}
