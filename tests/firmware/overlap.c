/* What becomes of the calls that docs/DECISIONS.md tells under "Overlap from C", whose two buffers overlap: the answers are wrong and say
 * OK, and a frame reader finds out about the frame. Compiled without KAMVEZHOR_CHECK_APART, which would stop them.
 */
#include <stdint.h>
#include <stdio.h>

#include "kamvezhor.h"

/* The information lies at the front of the writer's own output. */
static void frame_in_its_own_output(void)
{
    uint8_t out[KAMVEZHOR_FRAME_ROOM] = {0x22, 0x81};
    uint8_t information[KAMVEZHOR_INFORMATION_ROOM];
    struct kamvezhor_frame_written made = kamvezhor_write_frame(out, 2, 2, 1, out, sizeof out);
    struct kamvezhor_frame_read got = kamvezhor_read_frame(out, sizeof out, made.bits, information, sizeof information);

    printf("writer=refusal %u, %u bits:", (unsigned)made.refusal, (unsigned)made.bits);
    for (uint32_t i = 0; i < (made.bits + 7) / 8; i++)
        printf(" %02X", out[i]);
    printf("\nread back=refusal %u\n", (unsigned)got.refusal);
}

/* The message lies at the front of the reader's own list. */
static void message_in_its_own_list(void)
{
    uint8_t list[KAMVEZHOR_LIST_ROOM] = {0x22, 0x81, 0x80, 0x80, 0xA1, 0x02, 0xD0, 0xC0};
    struct kamvezhor_message got = kamvezhor_read_message(list, 8, list, sizeof list);

    printf("message reader=refusal %u, %u codes\n", (unsigned)got.refusal, (unsigned)got.codes);
}

int main(void)
{
    frame_in_its_own_output();
    message_in_its_own_list();
    return 0;
}
