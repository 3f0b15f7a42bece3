/* An extract of a recording, as it is packed: two channels of three groups, cut into a session file behind the power-up that it is
 * played after, with the writes and ticks that play it behind it; and the listing of that file. */
#include "nergutsai.h"

#include <inttypes.h>
#include <stdio.h>
#include <string.h>

/* Four groups of three channels. The first digit is the group, the last the channel. */
static const uint16_t recording[] = {
    0x1000, 0x1001, 0x1002,
    0x2000, 0x2001, 0x2002,
    0x3000, 0x3001, 0x3002,
    0x4000, 0x4001, 0x4002,
};
enum { NUMBERS = sizeof recording / sizeof *recording, CHANNELS = 3 };
enum { FIRST = 1, LAST = 3, GROUPS = LAST - FIRST + 1 };

static const uint32_t power_up[NERGUTSAI_EVENT] = {NERGUTSAI_POWER_UP, 0, 1, 0, 0, 0x123};

/* Offset binary, all channels of a group at once; the clock enabled; a tick for each group. */
static const uint32_t play[][NERGUTSAI_EVENT] = {
    {NERGUTSAI_WRITE, NERGUTSAI_BCR, NERGUTSAI_BCR_OFFSET_BINARY | NERGUTSAI_BCR_SIMULTANEOUS_OUTPUTS},
    {NERGUTSAI_WRITE, NERGUTSAI_BOR, NERGUTSAI_BOR_ENABLE_CLOCK},
    {NERGUTSAI_TICK},
    {NERGUTSAI_TICK},
    {NERGUTSAI_TICK},
};
enum { PLAY = sizeof play / sizeof *play };

int main(void)
{
    const uint32_t mask = NERGUTSAI_ENABLE_CHANNEL(0) | NERGUTSAI_ENABLE_CHANNEL(2);

    /* A group that is not there: nothing is cut, and it is said why. */
    uint8_t cut[NERGUTSAI_CUT_ROOM(GROUPS, 2)];
    size_t end = 0;
    uint32_t refusal = nergutsai_cut(recording, NUMBERS, CHANNELS, FIRST, LAST + 1, mask, cut, sizeof cut, 0, &end);
    if (refusal == NERGUTSAI_BAD_CHOICE)
        printf("groups 1 to 4: refusal %" PRIu32 ", the recording has no group 4\n", refusal);
    refusal = nergutsai_cut(recording, NUMBERS, CHANNELS, FIRST, LAST, mask, cut, sizeof cut, 0, &end);
    if (refusal != NERGUTSAI_WRITTEN)
        return 1;
    printf("groups 1 to 3, channels 0 and 2: %zu bytes\n", end);

    /* Each part is a session file of its own: of the second and the third the version byte is left out. */
    uint8_t file[NERGUTSAI_SESSION_ROOM(1 + PLAY) + sizeof cut], behind[NERGUTSAI_SESSION_ROOM(PLAY)];
    size_t length = 0, rest = 0;
    if (nergutsai_write(power_up, NERGUTSAI_EVENT, file, sizeof file, 0, &length) != NERGUTSAI_WRITTEN ||
        nergutsai_write(*play, PLAY * NERGUTSAI_EVENT, behind, sizeof behind, 0, &rest) != NERGUTSAI_WRITTEN)
        return 1;
    memcpy(file + length, cut + 1, end - 1);
    length += end - 1;
    memcpy(file + length, behind + 1, rest - 1);
    length += rest - 1;

    uint32_t memory[8] = {0};
    uint8_t text[NERGUTSAI_ROOM(sizeof file)];
    fwrite(text, 1, nergutsai_list(file, length, memory, 8, text, sizeof text), stdout);
    return 0;
}
