/* A message there and back: framed for the line, read from the line, its codes listed.
 *
 *     bash tools/dist
 *     cc -std=c99 -Itarget/dist -o target/frame examples/frame.c -Ltarget/dist -lkamvezhor && target/frame
 */
#include <stdio.h>

#include "kamvezhor.h"

int main(void)
{
    /* A CL, which tells what a modem can do: V.8, data by V.42 and V.34, analogue telephony. */
    static const uint8_t message[] = {0x22, 0x81, 0x80, 0x80, 0xA1, 0x02, 0xD0, 0xC0};
    static uint8_t list[KAMVEZHOR_LIST_ROOM];
    uint8_t frame[KAMVEZHOR_FRAME_ROOM], information[KAMVEZHOR_INFORMATION_ROOM];

    /* Two flags open the frame and one closes it. After a refusal the count is 0, which the next function refuses in turn. */
    struct kamvezhor_frame_written made = kamvezhor_write_frame(message, sizeof message, 2, 1, frame, sizeof frame);
    struct kamvezhor_frame_read heard = kamvezhor_read_frame(frame, sizeof frame, made.bits, information, sizeof information);
    struct kamvezhor_message got = kamvezhor_read_message(information, heard.octets, list, sizeof list);

    if (got.refusal != KAMVEZHOR_MESSAGE_OK)
        return 1;
    printf("%u bits, %u octets, type %u, revision %u\n", made.bits, heard.octets, got.type, got.revision);
    for (uint32_t i = 0; i < got.codes; i++) {
        uint32_t code = kamvezhor_code_at(list, i);
        printf("%u.%u.%u.%u", KAMVEZHOR_CODE_F(code), KAMVEZHOR_CODE_S(code), KAMVEZHOR_CODE_T(code), KAMVEZHOR_CODE_N(code));
        printf(code == KAMVEZHOR_CODE(2, 1, 0, 11) ? ": V.34\n" : "\n");
    }
    return 0;
}
