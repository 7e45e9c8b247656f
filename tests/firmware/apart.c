/* kamvezhor_apart, and the check of each call that KAMVEZHOR_CHECK_APART asks for. It is C and C++.
 *
 *     apart         pairs of buffers, and calls whose buffers touch without overlapping: exit status 0 where all is as due
 *     apart NAME    one call of that function, whose buffers have one octet in common: it must not come back
 */
#include <stdio.h>
#include <string.h>

#define KAMVEZHOR_CHECK_APART
#include "kamvezhor.h"

static uint8_t memory[2 * KAMVEZHOR_LIST_ROOM];

/* Two buffers in it, by place and size, and whether they are apart. */
static const struct {
    size_t a, a_size, b, b_size;
    int apart;
} pairs[] = {
    {0, 4, 4, 4, 1}, {4, 4, 0, 4, 1},                  /* they touch */
    {0, 4, 3, 4, 0}, {3, 4, 0, 4, 0},                  /* one octet in common */
    {0, 4, 0, 4, 0}, {0, 8, 2, 2, 0}, {2, 2, 0, 8, 0}, /* the same, or one inside the other */
    {2, 0, 0, 8, 1}, {0, 8, 2, 0, 1}, {2, 0, 2, 0, 1}, /* nothing, in the midst of something too */
    {0, SIZE_MAX, 8, 1, 0}, {8, 1, 0, SIZE_MAX, 0},    /* an end that is no number */
};

static int pairs_as_due(void)
{
    for (size_t i = 0; i < sizeof pairs / sizeof pairs[0]; i++)
        if (kamvezhor_apart(memory + pairs[i].a, pairs[i].a_size, memory + pairs[i].b, pairs[i].b_size) != pairs[i].apart) {
            fprintf(stderr, "apart: pair %u\n", KAMVEZHOR_AS(unsigned, i));
            return 0;
        }
    return kamvezhor_apart(NULL, 0, memory, sizeof memory) && kamvezhor_apart(memory, sizeof memory, NULL, 0);
}

/* The call of that name, whose buffers touch, or overlap by so many octets; what it refuses, or 99 for another name. */
static uint32_t call(const char *name, size_t overlap)
{
    if (strcmp(name, "read_frame") == 0)
        return kamvezhor_read_frame(memory, 8, 0, memory + 8 - overlap, KAMVEZHOR_INFORMATION_ROOM).refusal;
    if (strcmp(name, "write_frame") == 0)
        return kamvezhor_write_frame(memory + KAMVEZHOR_FRAME_ROOM - overlap, 8, 2, 1, memory, KAMVEZHOR_FRAME_ROOM).refusal;
    if (strcmp(name, "read_message") == 0)
        return kamvezhor_read_message(memory + KAMVEZHOR_LIST_ROOM - overlap, 8, memory, KAMVEZHOR_LIST_ROOM).refusal;
    return 99;
}

int main(int argc, char **argv)
{
    if (argc == 2) {
        printf("%u: it came back\n", call(argv[1], 1));
        return 0;
    }
    return !(pairs_as_due() && call("read_frame", 0) == KAMVEZHOR_READ_BAD_FLAGS && call("write_frame", 0) == KAMVEZHOR_WRITE_OK &&
             call("read_message", 0) == KAMVEZHOR_MESSAGE_UNKNOWN_TYPE);
}
