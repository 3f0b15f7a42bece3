/* Two samples to two channels, the second with the end-of-frame mark, with a power-up and a write that the board refuses; then the
 * rate, and the same events as a session file. */
#include "nergutsai.h"

#include <inttypes.h>
#include <stdio.h>
#include <string.h>

static const struct {
    const char *what;
    uint32_t event[NERGUTSAI_EVENT];
} session[] = {
    {"power up with range code 3", {NERGUTSAI_POWER_UP, 0, 3, 0, 0, 0x123}},
    {"power up, 8 values deep, 6 channels", {NERGUTSAI_POWER_UP, 0, 0, 0, 0, 0x123}},
    {"channels 0 and 1",
        {NERGUTSAI_WRITE, NERGUTSAI_CHANNEL_SELECTION, NERGUTSAI_ENABLE_CHANNEL(0) | NERGUTSAI_ENABLE_CHANNEL(1)}},
    {"load 1234h", {NERGUTSAI_WRITE, NERGUTSAI_OUTPUT_DATA_BUFFER, 0x1234}},
    {"load ABCDh, end of frame", {NERGUTSAI_WRITE, NERGUTSAI_OUTPUT_DATA_BUFFER, 0xABCD | NERGUTSAI_EOF}},
    {"enable the clock, size code 15", {NERGUTSAI_WRITE, NERGUTSAI_BOR, NERGUTSAI_BOR_ENABLE_CLOCK | 15}},
    {"clock", {NERGUTSAI_TICK}},
    {"clock", {NERGUTSAI_TICK}},
    {"read the buffer register", {NERGUTSAI_READ, NERGUTSAI_BOR}},
    {"write a register that is not there", {NERGUTSAI_WRITE, 0x104, 1}},
};
enum { EVENTS = sizeof session / sizeof *session };

static const char *words(uint32_t refusal)
{
    switch (refusal) {
    case NERGUTSAI_BAD_FITTED: return "the fitted code is out of range: it is 0 to 15";
    case NERGUTSAI_MEMORY_TOO_SHORT: return "the sample memory is shorter than the depth: lend more, or fit a lower code";
    case NERGUTSAI_NOT_SOUND: return "the record is damaged, or the board is not powered up: begin with a power-up";
    case NERGUTSAI_NO_REGISTER: return "there is no register at this offset: 00, 04, 08, 0C, 10, 14, 18 or 1C (hex)";
    case NERGUTSAI_READ_ONLY: return "10h and 14h cannot be written: leave the write out";
    case NERGUTSAI_BUSY: return "the board is calibrating: end the calibration first";
    case NERGUTSAI_NOTHING_TO_END: return "no calibration runs, or the clock is not settling: leave the event out";
    case NERGUTSAI_DIVISOR_IS_ZERO: return "the divisor is 0 and there is no rate: write 1 or more to 08h";
    case NERGUTSAI_CLOCK_IS_EXTERNAL: return "the clock is external and its rate is not known: clear EXTERNAL CLOCK in 0Ch";
    case NERGUTSAI_NOT_A_SESSION: return "the file is no session: its first byte is 01";
    case NERGUTSAI_CUT: return "the file ends inside a record: hand in the whole of it";
    case NERGUTSAI_WRONG_LENGTH: return "a record's length is wrong for its kind: 7, 6 and 2 for kinds 1 to 3, 1 for 4 to 9";
    case NERGUTSAI_UNKNOWN_KIND: return "an event or a record is of no known kind: kinds are 1 to 9";
    case NERGUTSAI_BAD_RANGE: return "the range code is out of range: it is 0 to 2";
    case NERGUTSAI_BAD_FILTER: return "the filter code is out of range: it is 0 to 2";
    case NERGUTSAI_BAD_KIT: return "the kit code is out of range: it is 0 to 2";
    case NERGUTSAI_BAD_FIRMWARE: return "the firmware number is out of range: it is 0 to 4095";
    case NERGUTSAI_NO_POWER_UP: return "no power-up is accepted: the listing says why each was refused";
    case NERGUTSAI_NO_SIZE_PLAYS:
        return "values are lost to a full buffer at every size: order a deeper one, or load less before clocks take values away";
    case NERGUTSAI_PLACE_PAST_END: return "the place is past the output's end: name one inside the output";
    case NERGUTSAI_NO_ROOM: return "the session does not fit from the place on: lend a longer output";
    case NERGUTSAI_BAD_GROUPS:
        return "the recording is no whole groups: a group has 1 to 20 channels, each of them a number in every group";
    case NERGUTSAI_BAD_CHOICE:
        return "there is nothing to cut: choose channels that a group has, and groups from first to last of the recording";
    case NERGUTSAI_FIELD_TOO_LARGE:
        return "a field is too large for its bytes, or not 0 where the kind has none: correct the first such event";
    case NERGUTSAI_NOT_WHOLE_EVENTS: return "the rows are not whole events: hand in all six numbers of every event";
    default: return "done";
    }
}

static const char *fate_words(uint32_t fate)
{
    switch (fate) {
    case NERGUTSAI_FATE_STORED: return "stored";
    case NERGUTSAI_FATE_LOST_TO_FULL: return "lost to a full buffer";
    case NERGUTSAI_FATE_LOST_TO_CLOSED: return "lost to a closed buffer";
    default: return "no load";
    }
}

int main(void)
{
    uint32_t record[NERGUTSAI_RECORD] = {0};
    uint32_t memory[8] = {0};

    for (size_t i = 0; i < EVENTS; i++) {
        uint32_t answer[NERGUTSAI_ANSWER];
        uint32_t status = nergutsai_event(
            record, NERGUTSAI_RECORD, memory, 8, session[i].event, NERGUTSAI_EVENT, answer, NERGUTSAI_ANSWER);
        if (status != 0) {
            fprintf(stderr, "%s: not understood (%" PRIu32 ")\n", session[i].what, status);
            return 1;
        }
        if (answer[NERGUTSAI_REFUSAL] != NERGUTSAI_DONE)
            printf("%-36s refusal %" PRIu32 "  %s\n", session[i].what, answer[NERGUTSAI_REFUSAL],
                words(answer[NERGUTSAI_REFUSAL]));
        else
            printf("%-36s register %08" PRIX32 "  moved %" PRIu32 "  %s\n", session[i].what, answer[NERGUTSAI_REGISTER],
                answer[NERGUTSAI_MOVED], fate_words(answer[NERGUTSAI_FATE]));
    }
    uint32_t figures[NERGUTSAI_FIGURES];
    uint32_t status = nergutsai_rate(record, NERGUTSAI_RECORD, figures, NERGUTSAI_FIGURES);
    if (status != 0) {
        fprintf(stderr, "rate: not understood (%" PRIu32 ")\n", status);
        return 1;
    }
    if (figures[NERGUTSAI_RATE_REFUSAL] != NERGUTSAI_DONE) {
        fprintf(stderr, "rate: %s\n", words(figures[NERGUTSAI_RATE_REFUSAL]));
        return 1;
    }
    printf("%-36s reference %" PRIu32 " Hz  rate %" PRIu32 " Hz\n", "ask the rate", figures[NERGUTSAI_REFERENCE],
        figures[NERGUTSAI_RATE]);
    for (int channel = 0; channel < 6; channel++)
        printf("channel %d: %04" PRIX32 "\n", channel, record[NERGUTSAI_LEVELS + channel]);

    /* An offset has one byte in a session file: with the last event nothing is written, and without it the rest is. */
    uint32_t rows[EVENTS * NERGUTSAI_EVENT];
    for (size_t i = 0; i < EVENTS; i++)
        memcpy(rows + i * NERGUTSAI_EVENT, session[i].event, sizeof session[i].event);
    uint8_t file[NERGUTSAI_SESSION_ROOM(EVENTS)];
    size_t end = 0;
    uint32_t refusal = nergutsai_write(rows, EVENTS * NERGUTSAI_EVENT, file, sizeof file, 0, &end);
    printf("%-36s refusal %" PRIu32 "  %s\n", "all ten as a session file", refusal, words(refusal));
    refusal = nergutsai_write(rows, (EVENTS - 1) * NERGUTSAI_EVENT, file, sizeof file, 0, &end);
    if (refusal != NERGUTSAI_WRITTEN) {
        fprintf(stderr, "the first nine: %s\n", words(refusal));
        return 1;
    }
    printf("%-36s %zu bytes\n", "the first nine", end);

    /* The listing of that file, and of the same without its last byte. */
    uint8_t text[NERGUTSAI_ROOM(sizeof file)];
    fwrite(text, 1, nergutsai_list(file, end, memory, 8, text, sizeof text), stdout);
    fwrite(text, 1, nergutsai_list(file, end - 1, memory, 8, text, sizeof text), stdout);

    /* And the volts of its first two channels; cut, it has none. */
    for (size_t cut = 0; cut < 2; cut++) {
        float volts[NERGUTSAI_VOLTS];
        refusal = nergutsai_volts(file, end - cut, memory, 8, volts);
        if (refusal != NERGUTSAI_TABLE)
            printf("%-36s refusal %" PRIu32 "  %s\n", "volts of the cut file", refusal, words(refusal));
        for (int channel = 0; refusal == NERGUTSAI_TABLE && channel < 2; channel++) {
            const float *three = volts + 3 * channel;
            printf("volts of channel %d: lowest %.16f, highest %.16f, last %.16f\n", channel, three[NERGUTSAI_LOWEST],
                three[NERGUTSAI_HIGHEST], three[NERGUTSAI_LAST]);
        }
    }

    /* And the smallest size that plays it; cut, it has none. */
    for (size_t cut = 0; cut < 2; cut++) {
        uint32_t code = 0;
        refusal = nergutsai_smallest_size(file, end - cut, memory, 8, &code);
        if (refusal == NERGUTSAI_SIZE_NAMED)
            printf("%-36s code %" PRIu32 "\n", "smallest size", code);
        else
            printf("%-36s refusal %" PRIu32 "  %s\n", "smallest size of the cut file", refusal, words(refusal));
    }
    return 0;
}
