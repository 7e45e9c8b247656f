/* Kamvezhor: frames and messages of ITU-T V.8 bis, for the firmware of the modem chip. Link with libkamvezhor.a.
 *
 * Three functions: the frame reader, the frame writer and the message reader. Each takes any octets and any numbers; bad ones are
 * refused by the number of the true cause. A refusal writes nothing; success writes the front of the buffer, as many octets as are
 * told, and leaves the rest. Nothing has to be checked first, with one exception, which no function can see: the buffers.
 *   - A buffer is a pointer and a number of octets, and so many lie behind it. It needs no alignment. NULL with 0 is fine.
 *   - The buffer that is written must not overlap the one that is read: the answer may be wrong and yet say OK. kamvezhor_apart
 *     tells; with KAMVEZHOR_CHECK_APART defined before this header is included, each call asserts it.
 * Bits are packed with bit 1 of each octet, the lowest, first on the line.
 *
 * ABI: System V for x86-64. SSE registers are used, and the stack has to be aligned to 16 octets at each call. No data, no bss, no
 * heap; of the C library memcpy and memset alone. There is no state and no pointer is kept, so that every function is reentrant and
 * thread-safe. An interrupt handler on the same stack leaves the 128 octets below the stack pointer alone, the red zone: memcpy may
 * use them, and the compiler lets the functions use as many as the table says.
 *
 * Ceilings in octets, to which tests/firmware/ceilings.py holds the library. ROM: all that a function needs, linked alone. Stack:
 * the worst path from its entry, with its return address. Red zone: what it touches below the stack pointer. None of these counts
 * what memcpy and memset take. Lent: the buffer that is written.
 *
 *   function                 ROM  stack  red zone  lent
 *   kamvezhor_read_frame    1536    160         0    64
 *   kamvezhor_write_frame   1152     96         0    88
 *   kamvezhor_read_message  2560    208         0  1792
 */
#ifndef KAMVEZHOR_H
#define KAMVEZHOR_H

#if !defined(__cplusplus) && (!defined(__STDC_VERSION__) || __STDC_VERSION__ < 199901L)
#error "kamvezhor.h needs C99 or later, for <stdint.h> and inline functions, or C++: compile with -std=c99"
#endif

#include <stddef.h>
#include <stdint.h>
#ifdef KAMVEZHOR_CHECK_APART
#include <assert.h>
#endif

#ifdef __cplusplus
extern "C" {
#endif

/* The first number changes when a signature or an answer does, the second when something is added. */
#define KAMVEZHOR_VERSION_MAJOR 1
#define KAMVEZHOR_VERSION_MINOR 0
#define KAMVEZHOR_VERSION_PATCH 0
#define KAMVEZHOR_VERSION "1.0.0"

/* A conversion, in the form that C++ compilers do not warn of where this header is used there. */
#ifdef __cplusplus
#define KAMVEZHOR_AS(type, value) (type(value))
#else
#define KAMVEZHOR_AS(type, value) ((type)(value))
#endif

/* Rooms that are always enough, in octets. */
#define KAMVEZHOR_INFORMATION_ROOM 64 /* what the frame reader gives */
#define KAMVEZHOR_FRAME_ROOM 88       /* what the frame writer gives */
#define KAMVEZHOR_LIST_ROOM 1792      /* what the message reader gives: 448 numbers of four octets */

/* Limits: bits that the frame reader looks at, octets of information, numbers in a list. */
#define KAMVEZHOR_MOST_BITS 704
#define KAMVEZHOR_MOST_INFORMATION 64
#define KAMVEZHOR_MOST_CODES 448

/* Flags of a frame: how many may open and close it. */
#define KAMVEZHOR_FEWEST_OPENING 2
#define KAMVEZHOR_MOST_OPENING 5
#define KAMVEZHOR_FEWEST_CLOSING 1
#define KAMVEZHOR_MOST_CLOSING 3

/* Why the frame reader refused. */
enum kamvezhor_frame_read_refusal {
    KAMVEZHOR_READ_OK = 0,
    KAMVEZHOR_READ_COUNT_OR_ROOM = 1, /* bit count above 704 or above the run's bits, or output under KAMVEZHOR_INFORMATION_ROOM */
    KAMVEZHOR_READ_BAD_FLAGS = 2,     /* flags missing, too few or too many, six ones inside, five ones ending the content without
                                         their zero, or bits left over */
    KAMVEZHOR_READ_SPLIT_OCTET = 3,   /* no whole number of octets */
    KAMVEZHOR_READ_TOO_SHORT = 4,     /* fewer than 3 octets with the FCS */
    KAMVEZHOR_READ_TOO_LONG = 5,      /* more than 66 octets with the FCS */
    KAMVEZHOR_READ_WRONG_FCS = 6
};

/* Why the frame writer refused. */
enum kamvezhor_frame_write_refusal {
    KAMVEZHOR_WRITE_OK = 0,
    KAMVEZHOR_WRITE_SMALL_OUTPUT = 1,  /* output under KAMVEZHOR_FRAME_ROOM octets */
    KAMVEZHOR_WRITE_BAD_LENGTH = 7,    /* information not 1 to 64 octets */
    KAMVEZHOR_WRITE_BAD_FLAG_COUNT = 8 /* opening flags not 2 to 5, or closing flags not 1 to 3 */
};

/* Why the message reader refused. */
enum kamvezhor_message_refusal {
    KAMVEZHOR_MESSAGE_OK = 0,
    KAMVEZHOR_MESSAGE_SMALL_LIST = 1,   /* list under KAMVEZHOR_LIST_ROOM octets */
    KAMVEZHOR_MESSAGE_BAD_SIZE = 2,     /* no octet, or above 64 */
    KAMVEZHOR_MESSAGE_UNKNOWN_TYPE = 3, /* type not in Table 3 */
    KAMVEZHOR_MESSAGE_MALFORMED = 4     /* ended early, bit 7 or 8 against the rules, octets left over, bad NS */
};

/* Types of messages (V.8 bis Table 3). */
enum kamvezhor_type {
    KAMVEZHOR_MS = 1,
    KAMVEZHOR_CL = 2,
    KAMVEZHOR_CLR = 3,
    KAMVEZHOR_ACK1 = 4,
    KAMVEZHOR_ACK2 = 5,
    KAMVEZHOR_NAK1 = 8,
    KAMVEZHOR_NAK2 = 9,
    KAMVEZHOR_NAK3 = 10,
    KAMVEZHOR_NAK4 = 11
};

/* A code is ((f * 512 + s) * 512 + t) * 512 + n: f is 1 for the identification field and 2 for the standard one, s and t are the
 * positions of SPar(1) and SPar(2), n that of NPar, 0 if there is none. */
#define KAMVEZHOR_CODE(f, s, t, n)                                                                                \
    (((KAMVEZHOR_AS(uint32_t, f) * 512u + KAMVEZHOR_AS(uint32_t, s)) * 512u + KAMVEZHOR_AS(uint32_t, t)) * 512u + \
     KAMVEZHOR_AS(uint32_t, n))
#define KAMVEZHOR_CODE_F(code) (KAMVEZHOR_AS(uint32_t, code) >> 27)
#define KAMVEZHOR_CODE_S(code) (KAMVEZHOR_AS(uint32_t, code) >> 18 & 511u)
#define KAMVEZHOR_CODE_T(code) (KAMVEZHOR_AS(uint32_t, code) >> 9 & 511u)
#define KAMVEZHOR_CODE_N(code) (KAMVEZHOR_AS(uint32_t, code) & 511u)

/* Answer of the frame reader. On a refusal octets is 0. */
struct kamvezhor_frame_read {
    uint32_t refusal; /* enum kamvezhor_frame_read_refusal */
    uint32_t octets;  /* of information, 64 at most */
};

/* Answer of the frame writer. On a refusal bits is 0. */
struct kamvezhor_frame_written {
    uint32_t refusal; /* enum kamvezhor_frame_write_refusal */
    uint32_t bits;    /* of the frame, 697 at most; they take (bits + 7) / 8 octets */
};

/* Answer of the message reader. On a refusal all else is 0. */
struct kamvezhor_message {
    uint32_t refusal;   /* enum kamvezhor_message_refusal */
    uint32_t type;      /* enum kamvezhor_type */
    uint32_t revision;  /* 0 to 15 */
    uint32_t codes;     /* numbers in the list, 448 at most */
    uint32_t ns_at;     /* where the non-standard field begins in the message, from 0; 0 where there is none */
    uint32_t ns_length; /* its octets, length octets included; 0 where there is none */
};

/* Reads the frame in the first bits of run (2 to 5 opening flags, content, 1 to 3 closing flags, nothing else), and stores its
 * information in out, which has at least KAMVEZHOR_INFORMATION_ROOM octets.
 *
 *     uint8_t information[KAMVEZHOR_INFORMATION_ROOM];
 *     struct kamvezhor_frame_read got = kamvezhor_read_frame(run, run_size, bits, information, sizeof information);
 *     if (got.refusal == KAMVEZHOR_READ_OK)
 *         use(information, got.octets);
 */
struct kamvezhor_frame_read kamvezhor_read_frame(const uint8_t *run, size_t run_size, size_t bits, uint8_t *out, size_t out_size);

/* Writes the frame of 1 to 64 octets of information into out, which has at least KAMVEZHOR_FRAME_ROOM octets. The unused bits of
 * its last octet are zero.
 *
 *     uint8_t frame[KAMVEZHOR_FRAME_ROOM];
 *     struct kamvezhor_frame_written made = kamvezhor_write_frame(information, size, 2, 1, frame, sizeof frame);
 *     if (made.refusal == KAMVEZHOR_WRITE_OK)
 *         send_bits(frame, made.bits);
 */
struct kamvezhor_frame_written kamvezhor_write_frame(const uint8_t *information, size_t information_size, size_t opening,
                                                     size_t closing, uint8_t *out, size_t out_size);

/* Reads a message and stores its codes in list, in ascending order, four octets to a code, lowest first. list has at least
 * KAMVEZHOR_LIST_ROOM octets.
 *
 *     static uint8_t list[KAMVEZHOR_LIST_ROOM];
 *     struct kamvezhor_message got = kamvezhor_read_message(information, size, list, sizeof list);
 *     for (uint32_t i = 0; i < got.codes; i++)
 *         use_code(kamvezhor_code_at(list, i));
 */
struct kamvezhor_message kamvezhor_read_message(const uint8_t *message, size_t message_size, uint8_t *list, size_t list_size);

/* The i-th code of a list that the message reader filled, from 0. */
static inline uint32_t kamvezhor_code_at(const uint8_t *list, size_t i)
{
    const uint8_t *octets = list + 4 * i;
    return KAMVEZHOR_AS(uint32_t, octets[0]) | KAMVEZHOR_AS(uint32_t, octets[1]) << 8 | KAMVEZHOR_AS(uint32_t, octets[2]) << 16 |
           KAMVEZHOR_AS(uint32_t, octets[3]) << 24;
}

/* Whether two buffers have no octet in common. One of size 0 is apart from every other. */
static inline int kamvezhor_apart(const void *a, size_t a_size, const void *b, size_t b_size)
{
    const uintptr_t at_a = KAMVEZHOR_AS(uintptr_t, a);
    const uintptr_t at_b = KAMVEZHOR_AS(uintptr_t, b);

    if (a_size == 0 || b_size == 0)
        return 1;
    return at_a <= at_b ? at_b - at_a >= a_size : at_a - at_b >= b_size;
}

/* Each call asserts that its two buffers are apart. NDEBUG takes that away, as it does every assert. */
#ifdef KAMVEZHOR_CHECK_APART
static inline struct kamvezhor_frame_read kamvezhor_checked_read_frame(const uint8_t *run, size_t run_size, size_t bits,
                                                                       uint8_t *out, size_t out_size)
{
    assert(kamvezhor_apart(run, run_size, out, out_size));
    return kamvezhor_read_frame(run, run_size, bits, out, out_size);
}

static inline struct kamvezhor_frame_written kamvezhor_checked_write_frame(const uint8_t *information, size_t information_size,
                                                                           size_t opening, size_t closing, uint8_t *out,
                                                                           size_t out_size)
{
    assert(kamvezhor_apart(information, information_size, out, out_size));
    return kamvezhor_write_frame(information, information_size, opening, closing, out, out_size);
}

static inline struct kamvezhor_message kamvezhor_checked_read_message(const uint8_t *message, size_t message_size, uint8_t *list,
                                                                      size_t list_size)
{
    assert(kamvezhor_apart(message, message_size, list, list_size));
    return kamvezhor_read_message(message, message_size, list, list_size);
}

#define kamvezhor_read_frame kamvezhor_checked_read_frame
#define kamvezhor_write_frame kamvezhor_checked_write_frame
#define kamvezhor_read_message kamvezhor_checked_read_message
#endif

#ifdef __cplusplus
}
#endif

#endif
