/* Lends nothing, NULL and 0, in the place of each thing that has a length, to every call, and then of all of them at once. Ends with
 * status 0 where every call answers as nergutsai.h says; else it prints the line of each that does not. */
#include "nergutsai.h"

#include <stdio.h>

static int wrong;

static void expect(int line, uint32_t answered, uint32_t expected)
{
    if (answered == expected)
        return;
    printf("line %d: %lu, and not %lu\n", line, (unsigned long)answered, (unsigned long)expected);
    wrong = 1;
}
#define EXPECT(answered, expected) expect(__LINE__, (uint32_t)(answered), (uint32_t)(expected))

static const uint32_t power_up[NERGUTSAI_EVENT] = {NERGUTSAI_POWER_UP, 0, 0, 0, 0, 0};
static const uint32_t load[NERGUTSAI_EVENT] = {NERGUTSAI_WRITE, NERGUTSAI_OUTPUT_DATA_BUFFER, 0x1234};
static const uint32_t tick[NERGUTSAI_EVENT] = {NERGUTSAI_TICK};

static void events(void)
{
    uint32_t record[NERGUTSAI_RECORD] = {0}, memory[8] = {0}, answer[NERGUTSAI_ANSWER];
    EXPECT(nergutsai_event(NULL, 0, memory, 8, tick, NERGUTSAI_EVENT, answer, NERGUTSAI_ANSWER), 1);
    EXPECT(nergutsai_event(record, NERGUTSAI_RECORD, memory, 8, NULL, 0, answer, NERGUTSAI_ANSWER), 2);
    EXPECT(nergutsai_event(record, NERGUTSAI_RECORD, memory, 8, tick, NERGUTSAI_EVENT, NULL, 0), 3);
    EXPECT(nergutsai_event(NULL, 0, NULL, 0, NULL, 0, NULL, 0), 1);

    /* Without a memory a power-up is refused; and so is each event of a board that had one. */
    EXPECT(nergutsai_event(record, NERGUTSAI_RECORD, NULL, 0, power_up, NERGUTSAI_EVENT, answer, NERGUTSAI_ANSWER), 0);
    EXPECT(answer[NERGUTSAI_REFUSAL], NERGUTSAI_MEMORY_TOO_SHORT);
    EXPECT(nergutsai_event(record, NERGUTSAI_RECORD, NULL, 0, tick, NERGUTSAI_EVENT, answer, NERGUTSAI_ANSWER), 0);
    EXPECT(answer[NERGUTSAI_REFUSAL], NERGUTSAI_NOT_SOUND);
    EXPECT(nergutsai_event(record, NERGUTSAI_RECORD, memory, 8, power_up, NERGUTSAI_EVENT, answer, NERGUTSAI_ANSWER), 0);
    EXPECT(answer[NERGUTSAI_REFUSAL], NERGUTSAI_DONE);
    EXPECT(nergutsai_event(record, NERGUTSAI_RECORD, NULL, 0, load, NERGUTSAI_EVENT, answer, NERGUTSAI_ANSWER), 0);
    EXPECT(answer[NERGUTSAI_REFUSAL], NERGUTSAI_MEMORY_TOO_SHORT);

    uint32_t figures[NERGUTSAI_FIGURES];
    EXPECT(nergutsai_rate(NULL, 0, figures, NERGUTSAI_FIGURES), 1);
    EXPECT(nergutsai_rate(record, NERGUTSAI_RECORD, NULL, 0), 3);
    EXPECT(nergutsai_rate(NULL, 0, NULL, 0), 1);
}

static void writing(void)
{
    /* No events are a session of one byte. */
    uint8_t output[64];
    size_t end = 5;
    EXPECT(nergutsai_write(NULL, 0, output, sizeof output, 0, &end), NERGUTSAI_WRITTEN);
    EXPECT(end, 1);
    EXPECT(output[0], 1);
    EXPECT(nergutsai_write(tick, NERGUTSAI_EVENT, NULL, 0, 0, &end), NERGUTSAI_NO_ROOM);
    EXPECT(nergutsai_write(tick, NERGUTSAI_EVENT, NULL, 0, 1, &end), NERGUTSAI_PLACE_PAST_END);
    EXPECT(nergutsai_write(NULL, 0, NULL, 0, 0, &end), NERGUTSAI_NO_ROOM);

    const uint16_t recording[2] = {0x1000, 0x2000};
    EXPECT(nergutsai_cut(NULL, 0, 1, 0, 0, 1, output, sizeof output, 0, &end), NERGUTSAI_BAD_CHOICE);
    EXPECT(nergutsai_cut(NULL, 0, 0, 0, 0, 1, output, sizeof output, 0, &end), NERGUTSAI_BAD_GROUPS);
    EXPECT(nergutsai_cut(recording, 2, 1, 0, 1, 1, NULL, 0, 0, &end), NERGUTSAI_NO_ROOM);
    EXPECT(nergutsai_cut(recording, 2, 1, 0, 1, 1, NULL, 0, 1, &end), NERGUTSAI_PLACE_PAST_END);
    EXPECT(nergutsai_cut(NULL, 0, 1, 0, 0, 1, NULL, 0, 0, &end), NERGUTSAI_BAD_CHOICE);
}

static void files(void)
{
    /* A power-up, a load and a tick: with a memory of 8 values all are done. */
    static const uint32_t *const each[] = {power_up, load, tick};
    uint32_t rows[3 * NERGUTSAI_EVENT], memory[8] = {0};
    for (size_t i = 0; i < 3 * NERGUTSAI_EVENT; i++)
        rows[i] = each[i / NERGUTSAI_EVENT][i % NERGUTSAI_EVENT];
    uint8_t file[NERGUTSAI_SESSION_ROOM(3)], text[NERGUTSAI_ROOM(sizeof file)];
    size_t length = 0;
    EXPECT(nergutsai_write(rows, sizeof rows / sizeof *rows, file, sizeof file, 0, &length), NERGUTSAI_WRITTEN);

    /* REHEARSAL 1, a line for each record or FILE 10 0, and LEVELS with twenty of them. */
    EXPECT(nergutsai_list(NULL, 0, memory, 8, text, sizeof text), 12 + 10 + 107);
    EXPECT(nergutsai_list(file, length, NULL, 0, text, sizeof text), 12 + 3 * 19 + 107);
    EXPECT(nergutsai_list(file, length, memory, 8, NULL, 0), 0);
    EXPECT(nergutsai_list(NULL, 0, NULL, 0, text, sizeof text), 12 + 10 + 107);
    EXPECT(nergutsai_list(NULL, 0, NULL, 0, NULL, 0), 0);

    float volts[NERGUTSAI_VOLTS];
    EXPECT(nergutsai_volts(NULL, 0, memory, 8, volts), NERGUTSAI_NOT_A_SESSION);
    EXPECT(nergutsai_volts(file, length, NULL, 0, volts), NERGUTSAI_NO_POWER_UP);
    EXPECT(nergutsai_volts(NULL, 0, NULL, 0, volts), NERGUTSAI_NOT_A_SESSION);

    uint32_t code = 5;
    EXPECT(nergutsai_smallest_size(NULL, 0, memory, 8, &code), NERGUTSAI_NOT_A_SESSION);
    EXPECT(nergutsai_smallest_size(file, length, NULL, 0, &code), NERGUTSAI_SIZE_NAMED);
    EXPECT(code, 0);
    EXPECT(nergutsai_smallest_size(NULL, 0, NULL, 0, &code), NERGUTSAI_NOT_A_SESSION);
}

int main(void)
{
    events();
    writing();
    files();
    return wrong;
}
