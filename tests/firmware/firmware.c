/* The firmware's side of include/kamvezhor.h: frames that are written and read back, messages whose codes are walked, each refusal
 * of each function. It prints a line name=value for each step, which `run` compares with `expected`. What must hold whatever the
 * values are, as that a refusal writes nothing, is checked here: a line on stderr for each breach, and exit status 1.
 */
#include <stdint.h>
#include <stdio.h>
#include <stdlib.h>
#include <string.h>

#include "kamvezhor.h"

/* What each octet of a lent buffer is before the call. */
enum { UNTOUCHED = 0xA5 };

static int breaches;

static void must(int holds, const char *name, const char *what)
{
    if (!holds) {
        fprintf(stderr, "firmware: %s: %s\n", name, what);
        breaches++;
    }
}

/* Buffers. Each ends where its allocation does, so that an octet too far is seen by valgrind and by the sanitizer. */

struct buffer {
    uint8_t *allocated;
    uint8_t *octets;
    size_t size;
};

static struct buffer lend(size_t size)
{
    struct buffer b;

    b.allocated = malloc(size > 0 ? size : 1);
    if (b.allocated == NULL) {
        fprintf(stderr, "firmware: no memory\n");
        exit(EXIT_FAILURE);
    }
    b.octets = size > 0 ? b.allocated : b.allocated + 1;
    b.size = size;
    memset(b.octets, UNTOUCHED, size);
    return b;
}

static struct buffer copy_of(const uint8_t *octets, size_t size)
{
    struct buffer b = lend(size);

    memcpy(b.octets, octets, size);
    return b;
}

static void give_back(struct buffer b)
{
    free(b.allocated);
}

/* Octets in hex; XX*N is the octet XX N times. */
static struct buffer octets_of(const char *hex)
{
    uint8_t octets[512];
    size_t size = 0;
    char *end;

    for (;;) {
        unsigned long octet = strtoul(hex, &end, 16);
        unsigned long times = 1;

        if (end == hex)
            return copy_of(octets, size);
        if (*end == '*')
            times = strtoul(end + 1, &end, 10);
        while (times-- > 0 && size < sizeof octets)
            octets[size++] = (uint8_t)octet;
        hex = end;
    }
}

static int is_untouched(struct buffer b, size_t from)
{
    for (size_t i = from; i < b.size; i++)
        if (b.octets[i] != UNTOUCHED)
            return 0;
    return 1;
}

static int is_same(struct buffer a, struct buffer b)
{
    return a.size == b.size && memcmp(a.octets, b.octets, a.size) == 0;
}

/* The value of a line: what was counted and the octets, or the refusal alone. */
static void print_octets(const char *name, uint32_t refusal, uint32_t count, const char *counted, const uint8_t *octets,
                         size_t size)
{
    if (refusal != 0) {
        printf("%s=refusal %u\n", name, (unsigned)refusal);
        return;
    }
    printf("%s=%u %s:", name, (unsigned)count, counted);
    for (size_t i = 0; i < size; i++)
        printf(" %02X", octets[i]);
    printf("\n");
}

static void print_read(const char *name, struct kamvezhor_frame_read got, const uint8_t *information)
{
    print_octets(name, got.refusal, got.octets, "octets", information, got.octets);
}

static void print_written(const char *name, struct kamvezhor_frame_written made, const uint8_t *frame)
{
    print_octets(name, made.refusal, made.bits, "bits", frame, (made.bits + 7) / 8);
}

/* The refusals that came, a bit for each, by the function that gave them. */
static uint32_t of_reader, of_writer, of_messages;

static void print_refusals(const char *name, uint32_t came)
{
    printf("%s=refused", name);
    for (uint32_t no = 1; no < 32; no++)
        if (came >> no & 1)
            printf(" %u", (unsigned)no);
    printf("\n");
}

/* The three functions. Each wrapper lends copies of exactly the sizes told, and checks what holds of every call. */

static struct kamvezhor_frame_read read_frame(const char *name, struct buffer run, size_t bits, struct buffer out)
{
    struct buffer lent = copy_of(run.octets, run.size);
    struct kamvezhor_frame_read got = kamvezhor_read_frame(lent.octets, lent.size, bits, out.octets, out.size);

    must(is_same(lent, run), name, "the run was written to");
    must(is_untouched(out, got.octets), name, "the rest of the output was written to");
    must((got.refusal == KAMVEZHOR_READ_OK) == (got.octets > 0), name, "octets with a refusal, or none without");
    must(got.octets <= KAMVEZHOR_INFORMATION_ROOM, name, "octets");
    of_reader |= 1u << got.refusal;
    give_back(lent);
    return got;
}

static struct kamvezhor_frame_written write_frame(const char *name, struct buffer information, size_t opening, size_t closing,
                                                  struct buffer out)
{
    struct buffer lent = copy_of(information.octets, information.size);
    struct kamvezhor_frame_written made = kamvezhor_write_frame(lent.octets, lent.size, opening, closing, out.octets, out.size);
    size_t octets = (made.bits + 7) / 8;

    must(is_same(lent, information), name, "the information was written to");
    must(is_untouched(out, octets), name, "the rest of the output was written to");
    must((made.refusal == KAMVEZHOR_WRITE_OK) == (made.bits > 0), name, "bits with a refusal, or none without");
    must(octets <= KAMVEZHOR_FRAME_ROOM, name, "bits");
    if (made.bits % 8 != 0)
        must(out.octets[octets - 1] >> made.bits % 8 == 0, name, "an unused bit is set");
    of_writer |= 1u << made.refusal;
    give_back(lent);
    return made;
}

static struct kamvezhor_message read_message(const char *name, struct buffer message, struct buffer list)
{
    struct buffer lent = copy_of(message.octets, message.size);
    struct kamvezhor_message got = kamvezhor_read_message(lent.octets, lent.size, list.octets, list.size);

    must(is_same(lent, message), name, "the message was written to");
    must(is_untouched(list, 4 * (size_t)got.codes), name, "the rest of the list was written to");
    must(got.codes <= KAMVEZHOR_LIST_ROOM / 4, name, "codes");
    if (got.refusal != KAMVEZHOR_MESSAGE_OK)
        must(got.type == 0 && got.revision == 0 && got.codes == 0 && got.ns_at == 0 && got.ns_length == 0, name, "not all 0");
    for (uint32_t i = 1; i < got.codes; i++)
        must(kamvezhor_code_at(list.octets, i - 1) < kamvezhor_code_at(list.octets, i), name, "codes do not ascend");
    of_messages |= 1u << got.refusal;
    give_back(lent);
    return got;
}

/* Frames to be read: name, run, bits, octets of output, refusal. */
static const struct {
    const char *name;
    const char *run;
    size_t bits;
    size_t room;
    uint32_t due;
} runs[] = {
    {"read 00", "7E 7E 00 78 F0 7E", 48, 64, KAMVEZHOR_READ_OK},
    {"read FF", "7E 7E DF 01 BE FB 01", 50, 64, KAMVEZHOR_READ_OK},
    {"read FF FF", "7E 7E DF F7 7D DF B7 1F", 62, 64, KAMVEZHOR_READ_OK},
    {"read 5 and 3 flags", "7E*5 00 78 F0 7E*3", 88, 64, KAMVEZHOR_READ_OK},
    {"read into more room", "7E 7E 00 78 F0 7E", 48, 100, KAMVEZHOR_READ_OK},
    {"read the bits alone", "7E 7E 00 78 F0 7E FF FF", 48, 64, KAMVEZHOR_READ_OK},
    {"read five ones and their zero at the end", "7E 7E 88 38 F8 FC 00", 49, 64, KAMVEZHOR_READ_OK},
    {"read 705 bits", "7E*89", 705, 64, KAMVEZHOR_READ_COUNT_OR_ROOM},
    {"read one bit above the run", "7E 7E 00 78 F0 7E", 49, 64, KAMVEZHOR_READ_COUNT_OR_ROOM},
    {"read one bit of no run", "", 1, 64, KAMVEZHOR_READ_COUNT_OR_ROOM},
    {"read all the bits of a size_t", "7E 7E 00 78 F0 7E", SIZE_MAX, 64, KAMVEZHOR_READ_COUNT_OR_ROOM},
    {"read into 63 octets", "7E 7E 00 78 F0 7E", 48, 63, KAMVEZHOR_READ_COUNT_OR_ROOM},
    {"read into no octet", "7E 7E 00 78 F0 7E", 48, 0, KAMVEZHOR_READ_COUNT_OR_ROOM},
    {"read bad flags into 63 octets", "00*6", 48, 63, KAMVEZHOR_READ_COUNT_OR_ROOM},
    {"read no run", "", 0, 64, KAMVEZHOR_READ_BAD_FLAGS},
    {"read 704 bits without a flag", "00*88", 704, 64, KAMVEZHOR_READ_BAD_FLAGS},
    {"read 1 opening flag", "7E 00 78 F0 7E", 40, 64, KAMVEZHOR_READ_BAD_FLAGS},
    {"read 6 opening flags", "7E*6 00 78 F0 7E", 80, 64, KAMVEZHOR_READ_BAD_FLAGS},
    {"read flags alone", "7E*4", 32, 64, KAMVEZHOR_READ_BAD_FLAGS},
    {"read no closing flag", "7E 7E 00 78 F0", 40, 64, KAMVEZHOR_READ_BAD_FLAGS},
    {"read 4 closing flags", "7E 7E 00 78 F0 7E*4", 72, 64, KAMVEZHOR_READ_BAD_FLAGS},
    {"read half a closing flag", "7E 7E 00 78 F0 7E", 47, 64, KAMVEZHOR_READ_BAD_FLAGS},
    {"read six ones inside", "7E 7E FF 00 00 7E", 48, 64, KAMVEZHOR_READ_BAD_FLAGS},
    {"read five ones without their zero at the end", "7E 7E 88 38 F8 7E", 48, 64, KAMVEZHOR_READ_BAD_FLAGS},
    {"read a bit left over", "7E 7E 00 78 F0 7E 00", 49, 64, KAMVEZHOR_READ_BAD_FLAGS},
    {"read 25 bits inside", "7E 7E 00 78 F0 FC 00", 49, 64, KAMVEZHOR_READ_SPLIT_OCTET},
    {"read 1 bit inside", "7E 7E FC 00", 25, 64, KAMVEZHOR_READ_SPLIT_OCTET},
    {"read 2 octets inside", "7E 7E 78 F0 7E", 40, 64, KAMVEZHOR_READ_TOO_SHORT},
    {"read 67 octets inside", "7E 7E 00*67 7E", 560, 64, KAMVEZHOR_READ_TOO_LONG},
    {"read 66 octets inside", "7E 7E 00*66 7E", 552, 64, KAMVEZHOR_READ_WRONG_FCS},
    {"read a wrong FCS", "7E 7E 01 78 F0 7E", 48, 64, KAMVEZHOR_READ_WRONG_FCS},
    {"read FCS octets swapped", "7E 7E 00 F0 78 7E", 48, 64, KAMVEZHOR_READ_WRONG_FCS},
};

static void read_runs(void)
{
    for (size_t i = 0; i < sizeof runs / sizeof runs[0]; i++) {
        struct buffer run = octets_of(runs[i].run);
        struct buffer out = lend(runs[i].room);
        struct kamvezhor_frame_read got = read_frame(runs[i].name, run, runs[i].bits, out);

        must(got.refusal == runs[i].due, runs[i].name, "another refusal was due");
        print_read(runs[i].name, got, out.octets);
        give_back(run);
        give_back(out);
    }
}

/* Frames to be written: name, information, flags, octets of output, refusal. */
static const struct {
    const char *name;
    const char *information;
    size_t opening;
    size_t closing;
    size_t room;
    uint32_t due;
} fields[] = {
    {"write 00", "00", 2, 1, 88, KAMVEZHOR_WRITE_OK},
    {"write FF", "FF", 2, 1, 88, KAMVEZHOR_WRITE_OK},
    {"write FF FF", "FF FF", 2, 1, 88, KAMVEZHOR_WRITE_OK},
    {"write 5 and 3 flags", "00", 5, 3, 88, KAMVEZHOR_WRITE_OK},
    {"write into more room", "00", 2, 1, 200, KAMVEZHOR_WRITE_OK},
    {"write five ones and their zero at the end", "88", 2, 1, 88, KAMVEZHOR_WRITE_OK},
    {"write 64 octets", "FF*64", 5, 3, 88, KAMVEZHOR_WRITE_OK},
    {"write into 87 octets", "00", 2, 1, 87, KAMVEZHOR_WRITE_SMALL_OUTPUT},
    {"write into no octet", "00", 2, 1, 0, KAMVEZHOR_WRITE_SMALL_OUTPUT},
    {"write nothing, no flags, no room", "", 0, 0, 87, KAMVEZHOR_WRITE_SMALL_OUTPUT},
    {"write nothing", "", 2, 1, 88, KAMVEZHOR_WRITE_BAD_LENGTH},
    {"write 65 octets", "00*65", 2, 1, 88, KAMVEZHOR_WRITE_BAD_LENGTH},
    {"write 65 octets and no flags", "00*65", 0, 0, 88, KAMVEZHOR_WRITE_BAD_LENGTH},
    {"write 1 opening flag", "00", 1, 1, 88, KAMVEZHOR_WRITE_BAD_FLAG_COUNT},
    {"write 6 opening flags", "00", 6, 1, 88, KAMVEZHOR_WRITE_BAD_FLAG_COUNT},
    {"write no closing flag", "00", 2, 0, 88, KAMVEZHOR_WRITE_BAD_FLAG_COUNT},
    {"write 4 closing flags", "00", 2, 4, 88, KAMVEZHOR_WRITE_BAD_FLAG_COUNT},
    {"write all the flags of a size_t", "00", SIZE_MAX, SIZE_MAX, 88, KAMVEZHOR_WRITE_BAD_FLAG_COUNT},
};

static void write_fields(void)
{
    for (size_t i = 0; i < sizeof fields / sizeof fields[0]; i++) {
        struct buffer information = octets_of(fields[i].information);
        struct buffer out = lend(fields[i].room);
        struct kamvezhor_frame_written made =
            write_frame(fields[i].name, information, fields[i].opening, fields[i].closing, out);

        must(made.refusal == fields[i].due, fields[i].name, "another refusal was due");
        print_written(fields[i].name, made, out.octets);
        give_back(information);
        give_back(out);
    }
}

/* Messages to be read: name, message, octets of the list, refusal. */
static const struct {
    const char *name;
    const char *message;
    size_t room;
    uint32_t due;
} messages[] = {
    {"CL with empty lists", "22 80 80 80 80", 1792, KAMVEZHOR_MESSAGE_OK},
    {"CL and one octet more", "22 80 80 80 80 00", 1792, KAMVEZHOR_MESSAGE_MALFORMED},
    {"CL that ends before its block", "22 80 80 80 81", 1792, KAMVEZHOR_MESSAGE_MALFORMED},
    {"CL with bit 8 but not bit 7", "22 80 80 80 81 80", 1792, KAMVEZHOR_MESSAGE_MALFORMED},
    {"CL with an empty SPar(2)", "22 80 80 80 81 40 C0", 1792, KAMVEZHOR_MESSAGE_OK},
    {"CL with V.34", "22 80 80 80 81 02 D0", 1792, KAMVEZHOR_MESSAGE_OK},
    {"CL with three levels", "32 91 80 80 21 84 02 D0 C0 41 42 C4", 1792, KAMVEZHOR_MESSAGE_OK},
    {"MS for the wish", "21 89 80 80 81 02 D0", 1792, KAMVEZHOR_MESSAGE_OK},
    {"MS beyond the wish", "21 80 80 80 81 02 D8", 1792, KAMVEZHOR_MESSAGE_OK},
    {"CLR with NS of two blocks", "23 C0 80 80 80 02 B5 00 03 FF 00 22", 1792, KAMVEZHOR_MESSAGE_OK},
    {"CLR with more room", "23 80 80 80 80", 2000, KAMVEZHOR_MESSAGE_OK},
    {"ACK(1)", "24", 1792, KAMVEZHOR_MESSAGE_OK},
    {"ACK(2)", "F5", 1792, KAMVEZHOR_MESSAGE_OK},
    {"NAK(1)", "08", 1792, KAMVEZHOR_MESSAGE_OK},
    {"NAK(2)", "29", 1792, KAMVEZHOR_MESSAGE_OK},
    {"NAK(3)", "2A", 1792, KAMVEZHOR_MESSAGE_OK},
    {"NAK(4)", "2B", 1792, KAMVEZHOR_MESSAGE_OK},
    {"list of 1791 octets", "22 80 80 80 80", 1791, KAMVEZHOR_MESSAGE_SMALL_LIST},
    {"no list and no message", "", 0, KAMVEZHOR_MESSAGE_SMALL_LIST},
    {"no message", "", 1792, KAMVEZHOR_MESSAGE_BAD_SIZE},
    {"65 octets", "24 00*64", 1792, KAMVEZHOR_MESSAGE_BAD_SIZE},
    {"65 octets of no type", "2D*65", 1792, KAMVEZHOR_MESSAGE_BAD_SIZE},
    {"type 0", "20", 1792, KAMVEZHOR_MESSAGE_UNKNOWN_TYPE},
    {"type 6", "26", 1792, KAMVEZHOR_MESSAGE_UNKNOWN_TYPE},
    {"type 7", "27", 1792, KAMVEZHOR_MESSAGE_UNKNOWN_TYPE},
    {"type 12", "2C", 1792, KAMVEZHOR_MESSAGE_UNKNOWN_TYPE},
    {"type 13", "2D", 1792, KAMVEZHOR_MESSAGE_UNKNOWN_TYPE},
    {"type 14", "2E", 1792, KAMVEZHOR_MESSAGE_UNKNOWN_TYPE},
    {"type 15", "2F FF", 1792, KAMVEZHOR_MESSAGE_UNKNOWN_TYPE},
    {"ACK(1) and one octet more", "24 00", 1792, KAMVEZHOR_MESSAGE_MALFORMED},
    {"CL with NS missing", "22 C0 80 80 80", 1792, KAMVEZHOR_MESSAGE_MALFORMED},
    {"CL with NS of length 1", "22 C0 80 80 80 01 AA", 1792, KAMVEZHOR_MESSAGE_MALFORMED},
};

/* A code as f.s.t.n. */
static void print_code(uint32_t code)
{
    printf(" %u.%u.%u.%u", (unsigned)KAMVEZHOR_CODE_F(code), (unsigned)KAMVEZHOR_CODE_S(code),
           (unsigned)KAMVEZHOR_CODE_T(code), (unsigned)KAMVEZHOR_CODE_N(code));
}

static void print_message(const char *name, struct kamvezhor_message got, const uint8_t *list)
{
    if (got.refusal != KAMVEZHOR_MESSAGE_OK) {
        printf("%s=refusal %u\n", name, (unsigned)got.refusal);
        return;
    }
    printf("%s=type %u, revision %u, NS of %u at %u, %u codes:", name, (unsigned)got.type, (unsigned)got.revision,
           (unsigned)got.ns_length, (unsigned)got.ns_at, (unsigned)got.codes);
    for (uint32_t i = 0; i < got.codes; i++)
        print_code(kamvezhor_code_at(list, i));
    printf("\n");
}

static void read_messages(void)
{
    for (size_t i = 0; i < sizeof messages / sizeof messages[0]; i++) {
        struct buffer message = octets_of(messages[i].message);
        struct buffer list = lend(messages[i].room);
        struct kamvezhor_message got = read_message(messages[i].name, message, list);

        must(got.refusal == messages[i].due, messages[i].name, "another refusal was due");
        print_message(messages[i].name, got, list.octets);
        give_back(message);
        give_back(list);
    }
}

/* The longest list, in exactly the room that a list needs: 6 codes of I and 420 of S. */
static void read_longest(void)
{
    struct buffer message = octets_of("22 BF 80 7F*59 FF 80");
    struct buffer list = lend(KAMVEZHOR_LIST_ROOM);
    struct kamvezhor_message got = read_message("longest list", message, list);

    for (uint32_t i = 0; i < got.codes; i++)
        must(kamvezhor_code_at(list.octets, i) == (i < 6 ? KAMVEZHOR_CODE(1, 0, 0, i + 1) : KAMVEZHOR_CODE(2, 0, 0, i - 5)),
             "longest list", "another code was due");
    printf("longest list=%u codes\n", (unsigned)got.codes);
    give_back(message);
    give_back(list);
}

/* Message and list may begin at any octet. */
static void read_at_odd_places(void)
{
    struct buffer message = octets_of("00 22 81 80 80 A1 02 D0 C0");
    struct buffer list = lend(KAMVEZHOR_LIST_ROOM + 1);
    struct kamvezhor_message got =
        kamvezhor_read_message(message.octets + 1, message.size - 1, list.octets + 1, list.size - 1);

    must(list.octets[0] == UNTOUCHED, "odd places", "the octet before the list was written to");
    must(is_untouched(list, 1 + 4 * (size_t)got.codes), "odd places", "the rest of the list was written to");
    print_message("odd places", got, list.octets + 1);
    give_back(message);
    give_back(list);
}

/* NULL with 0 for each buffer, and for both: the refusal that no octets give, and nothing written. */

static void print_due(const char *name, uint32_t refusal, uint32_t due)
{
    must(refusal == due, name, "another refusal was due");
    printf("%s=refusal %u\n", name, (unsigned)refusal);
}

static void lend_null(void)
{
    struct buffer run = octets_of("7E 7E 00 78 F0 7E");
    struct buffer message = octets_of("24");
    struct buffer out = lend(KAMVEZHOR_LIST_ROOM);

    print_due("NULL run", kamvezhor_read_frame(NULL, 0, 0, out.octets, out.size).refusal, KAMVEZHOR_READ_BAD_FLAGS);
    print_due("NULL run, 1 bit", kamvezhor_read_frame(NULL, 0, 1, out.octets, out.size).refusal, KAMVEZHOR_READ_COUNT_OR_ROOM);
    print_due("NULL output of the reader", kamvezhor_read_frame(run.octets, run.size, 48, NULL, 0).refusal,
              KAMVEZHOR_READ_COUNT_OR_ROOM);
    print_due("NULL run and output", kamvezhor_read_frame(NULL, 0, 0, NULL, 0).refusal, KAMVEZHOR_READ_COUNT_OR_ROOM);
    print_due("NULL information", kamvezhor_write_frame(NULL, 0, 2, 1, out.octets, out.size).refusal, KAMVEZHOR_WRITE_BAD_LENGTH);
    print_due("NULL output of the writer", kamvezhor_write_frame(message.octets, message.size, 2, 1, NULL, 0).refusal,
              KAMVEZHOR_WRITE_SMALL_OUTPUT);
    print_due("NULL information and output", kamvezhor_write_frame(NULL, 0, 2, 1, NULL, 0).refusal, KAMVEZHOR_WRITE_SMALL_OUTPUT);
    print_due("NULL message", kamvezhor_read_message(NULL, 0, out.octets, out.size).refusal, KAMVEZHOR_MESSAGE_BAD_SIZE);
    print_due("NULL list", kamvezhor_read_message(message.octets, message.size, NULL, 0).refusal, KAMVEZHOR_MESSAGE_SMALL_LIST);
    print_due("NULL message and list", kamvezhor_read_message(NULL, 0, NULL, 0).refusal, KAMVEZHOR_MESSAGE_SMALL_LIST);
    must(is_untouched(out, 0), "NULL", "the other buffer was written to");
    give_back(run);
    give_back(message);
    give_back(out);
}

/* The version as numbers and as a string. */
static void print_version(void)
{
    char numbers[40];

    snprintf(numbers, sizeof numbers, "%d.%d.%d", KAMVEZHOR_VERSION_MAJOR, KAMVEZHOR_VERSION_MINOR, KAMVEZHOR_VERSION_PATCH);
    must(strcmp(numbers, KAMVEZHOR_VERSION) == 0, "version", "its numbers are not its string");
    printf("version=%s\n", KAMVEZHOR_VERSION);
}

/* A capability list as one modem sends it to another. */

/* What the sender puts on the line: the example of the rules. */
static struct buffer send_list(uint32_t *bits)
{
    struct buffer information = octets_of("22 81 80 80 A1 02 D0 C0");
    struct buffer frame = lend(KAMVEZHOR_FRAME_ROOM);
    struct kamvezhor_frame_written made =
        write_frame("send", information, KAMVEZHOR_FEWEST_OPENING, KAMVEZHOR_FEWEST_CLOSING, frame);

    print_written("send", made, frame.octets);
    *bits = made.bits;
    give_back(information);
    return frame;
}

/* Whether the first codes of a list have this one among them. */
static int has_code(const uint8_t *list, uint32_t codes, uint32_t code)
{
    for (uint32_t i = 0; i < codes; i++)
        if (kamvezhor_code_at(list, i) == code)
            return 1;
    return 0;
}

/* What the receiver makes of it. */
static void hear_list(struct buffer frame, uint32_t bits)
{
    struct buffer out = lend(KAMVEZHOR_INFORMATION_ROOM);
    struct kamvezhor_frame_read heard = read_frame("hear", frame, bits, out);
    struct buffer message = copy_of(out.octets, heard.octets);
    struct buffer list = lend(KAMVEZHOR_LIST_ROOM);
    struct kamvezhor_message got = read_message("hear", message, list);

    print_read("hear", heard, out.octets);
    print_message("hear the message", got, list.octets);
    printf("it is a CL=%d\n", got.type == KAMVEZHOR_CL);
    printf("it offers V.8=%d\n", has_code(list.octets, got.codes, KAMVEZHOR_CODE(1, 0, 0, 1)));
    printf("it offers V.34=%d\n", has_code(list.octets, got.codes, KAMVEZHOR_CODE(2, 1, 0, 11)));
    printf("it offers V.32 bis=%d\n", has_code(list.octets, got.codes, KAMVEZHOR_CODE(2, 1, 0, 12)));
    give_back(out);
    give_back(message);
    give_back(list);
}

/* A bit of the frame that is heard wrong, each in turn: the frame is never taken. */
static void hear_wrong(struct buffer frame, uint32_t bits)
{
    uint32_t refused = 0;

    for (uint32_t i = 0; i < bits; i++) {
        struct buffer out = lend(KAMVEZHOR_INFORMATION_ROOM);

        frame.octets[i / 8] ^= (uint8_t)(1u << i % 8);
        refused += read_frame("hear a wrong bit", frame, bits, out).refusal != KAMVEZHOR_READ_OK;
        frame.octets[i / 8] ^= (uint8_t)(1u << i % 8);
        give_back(out);
    }
    printf("hear a wrong bit=%u of %u refused\n", (unsigned)refused, (unsigned)bits);
}

/* Every length with every number of flags: what is written is read back. */
static uint32_t there_and_back(struct buffer information, size_t opening, size_t closing)
{
    struct buffer frame = lend(KAMVEZHOR_FRAME_ROOM);
    struct buffer out = lend(KAMVEZHOR_INFORMATION_ROOM);
    struct kamvezhor_frame_written made = write_frame("there", information, opening, closing, frame);
    struct kamvezhor_frame_read got = read_frame("back", frame, made.bits, out);
    int same = got.octets == information.size && memcmp(out.octets, information.octets, information.size) == 0;

    must(same, "there and back", "other octets came back");
    give_back(frame);
    give_back(out);
    return (uint32_t)same;
}

static void all_there_and_back(void)
{
    uint32_t same = 0;

    for (size_t size = 1; size <= KAMVEZHOR_INFORMATION_ROOM; size++) {
        struct buffer information = lend(size);

        for (size_t i = 0; i < size; i++)
            information.octets[i] = (uint8_t)(i % 3 == 0 ? 0xFF : 37 * i + size);
        for (size_t opening = KAMVEZHOR_FEWEST_OPENING; opening <= KAMVEZHOR_MOST_OPENING; opening++)
            for (size_t closing = KAMVEZHOR_FEWEST_CLOSING; closing <= KAMVEZHOR_MOST_CLOSING; closing++)
                same += there_and_back(information, opening, closing);
        give_back(information);
    }
    printf("there and back=%u of %u\n", (unsigned)same, 64u * 4 * 3);
}

int main(void)
{
    struct buffer frame;
    uint32_t bits;

    print_version();
    frame = send_list(&bits);
    hear_list(frame, bits);
    hear_wrong(frame, bits);
    give_back(frame);
    printf("code 2.1.0.11=%lu\n", (unsigned long)KAMVEZHOR_CODE(2, 1, 0, 11));
    write_fields();
    read_runs();
    read_messages();
    read_longest();
    read_at_odd_places();
    lend_null();
    all_there_and_back();
    print_refusals("frame writer", of_writer);
    print_refusals("frame reader", of_reader);
    print_refusals("message reader", of_messages);
    return breaches == 0 ? EXIT_SUCCESS : EXIT_FAILURE;
}
