/* Makes frames.txt, frames with which the frame reader and writer are
 * compared, by the HDLC transmitter of libspandsp (Debian's libspandsp-dev).
 * Compile and run:
 *   cc -Wall -DVERSION="\"$(pkg-config --modversion spandsp)\"" \
 *      -o make_frames make_frames.c -lspandsp
 *   ./make_frames > frames.txt && rm make_frames
 */
#include <stdint.h>
#include <stdio.h>
#include <stdlib.h>
#include <string.h>

#include <spandsp.h>
#include <spandsp/version.h>

enum { MOST_INFORMATION = 64, FLAG_BITS = 8, MOST_BITS = 704 };

/* The pattern of the flag, first bit on the line in the highest place. */
enum { FLAG = 0x7E };

typedef struct {
    int opening;
    int closing;
    int length;
    uint8_t information[MOST_INFORMATION];
    int bit_count;
    uint8_t bits[MOST_BITS];
} frame;

/* A generator of its own (xorshift), so that the file can be made again. */
static uint8_t random_octet(void)
{
    static uint32_t state = 0x2545F491;

    state ^= state << 13;
    state ^= state >> 17;
    state ^= state << 5;
    return state >> 24;
}

static void fail(const char *reason)
{
    fprintf(stderr, "make_frames: %s\n", reason);
    exit(EXIT_FAILURE);
}

static int is_flag_at(const frame *f, int place)
{
    int pattern = 0;

    for (int i = 0; i < FLAG_BITS; i++)
        pattern = pattern << 1 | f->bits[place + i];
    return pattern == FLAG;
}

/* Takes one more bit from the transmitter. */
static void take_bit(frame *f, hdlc_tx_state_t *transmitter)
{
    int bit = hdlc_tx_get_bit(transmitter);

    if (bit != 0 && bit != 1)
        fail("the transmitter has no bit");
    if (f->bit_count == MOST_BITS)
        fail("a frame is too long");
    f->bits[f->bit_count++] = bit;
}

/* Takes flags one by one; each must be whole, sharing no zero. */
static void take_flags(frame *f, hdlc_tx_state_t *transmitter, int count)
{
    while (count-- > 0) {
        for (int i = 0; i < FLAG_BITS; i++)
            take_bit(f, transmitter);
        if (!is_flag_at(f, f->bit_count - FLAG_BITS))
            fail("a flag is missing");
    }
}

/* Takes the content and the first closing flag, which is the first flag
 * behind the opening ones. */
static void take_content(frame *f, hdlc_tx_state_t *transmitter)
{
    int start = f->bit_count;

    for (int i = 0; i < FLAG_BITS; i++)
        take_bit(f, transmitter);
    if (is_flag_at(f, start))
        fail("there is one opening flag too many");
    while (!is_flag_at(f, f->bit_count - FLAG_BITS))
        take_bit(f, transmitter);
}

/* The transmitter idles on flags behind a frame, so the closing flags are its
 * next bits. Its number of opening flags is not taken on trust: one too few
 * or too many would be noticed. */
static void transmit(frame *f)
{
    hdlc_tx_state_t *transmitter = hdlc_tx_init(NULL, 0, 1, 0, NULL, NULL);

    if (transmitter == NULL)
        fail("the transmitter does not start");
    f->bit_count = 0;
    hdlc_tx_flags(transmitter, f->opening);
    if (hdlc_tx_frame(transmitter, f->information, f->length) != 0)
        fail("the transmitter refuses a frame");
    take_flags(f, transmitter, f->opening);
    take_content(f, transmitter);
    take_flags(f, transmitter, f->closing - 1);
    hdlc_tx_free(transmitter);
}

static void print_hex(const uint8_t *octets, int count)
{
    for (int i = 0; i < count; i++)
        printf("%02x", octets[i]);
}

static void print_frame(const frame *f)
{
    uint8_t octets[MOST_BITS / 8] = { 0 };

    for (int i = 0; i < f->bit_count; i++)
        octets[i / 8] |= f->bits[i] << i % 8;
    printf("%d %d ", f->opening, f->closing);
    print_hex(f->information, f->length);
    printf(" %d ", f->bit_count);
    print_hex(octets, (f->bit_count + 7) / 8);
    printf("\n");
}

static void fill_random(frame *f, int length)
{
    f->length = length;
    for (int i = 0; i < length; i++)
        f->information[i] = random_octet();
}

static void fill_with(frame *f, int length, uint8_t octet)
{
    f->length = length;
    memset(f->information, octet, length);
}

/* Whether an inserted zero is the last bit before the closing flags. */
static int ends_with_inserted_zero(const frame *f)
{
    static const uint8_t five_ones_and_zero[] = { 1, 1, 1, 1, 1, 0 };
    int end = f->bit_count - FLAG_BITS * f->closing;

    return memcmp(f->bits + end - 6, five_ones_and_zero, 6) == 0;
}

/* Random information until the FCS ends with five ones. */
static void print_frame_ending_with_five_ones(frame *f)
{
    int length = 1 + random_octet() % MOST_INFORMATION;

    do {
        fill_random(f, length);
        transmit(f);
    } while (!ends_with_inserted_zero(f));
    print_frame(f);
}

/* The frames for one pair of flag counts. */
static void print_frames_of_pair(frame *f)
{
    static const int lengths[] = { 1, 2, 5, 16, 33, 64 };
    static const uint8_t octets[] = { 0xFF, 0x00, 0x7E };

    for (size_t l = 0; l < sizeof lengths / sizeof lengths[0]; l++) {
        for (size_t o = 0; o < sizeof octets; o++) {
            fill_with(f, lengths[l], octets[o]);
            transmit(f);
            print_frame(f);
        }
        fill_random(f, lengths[l]);
        transmit(f);
        print_frame(f);
    }
    for (int i = 0; i < 4; i++)
        print_frame_ending_with_five_ones(f);
}

int main(void)
{
    frame f;

    printf("# Frames made by spandsp %s (%s); columns: opening flags, "
           "closing flags, information, number of bits, octets of the run "
           "(bit 1 of each octet first, unused bits zero)\n",
           VERSION, SPANDSP_RELEASE_DATETIME_STRING);
    for (f.opening = 2; f.opening <= 5; f.opening++)
        for (f.closing = 1; f.closing <= 3; f.closing++)
            print_frames_of_pair(&f);
    for (int length = 1; length <= MOST_INFORMATION; length++) {
        f.opening = 2 + length % 4;
        f.closing = 1 + length % 3;
        fill_random(&f, length);
        transmit(&f);
        print_frame(&f);
    }
    return EXIT_SUCCESS;
}
