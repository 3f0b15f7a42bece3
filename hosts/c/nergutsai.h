/* The proved board model for hosts in C: one event on a board record, its sample memory and an event, all as numbers;
 * the rate question of a board record; the listing of a whole session file; events written as a session file; a cut of a
 * recording written as one; the lowest, highest and last volts of a session file's channels; and the smallest size of the buffer
 * that plays a session file.
 * Link with libnergutsai.a, which is for Linux on x86-64: hosts/install installs it with this file, for pkg-config to find.
 *
 * Of every call:
 * - It keeps nothing for the next one, and reads and writes nothing but what it is lent. So threads may call at once, each on
 *   memory of its own; what is only read (const) they may share.
 * - A pointer with a length behind it is valid and aligned for so many numbers or bytes. It may be NULL where its length is 0. A
 *   pointer with no length (end, volts, code) is never NULL.
 * - No two of the things that it is lent overlap. */
#ifndef NERGUTSAI_H
#define NERGUTSAI_H

#include <stddef.h>
#include <stdint.h>

#ifdef __cplusplus
extern "C" {
#endif

/* The version of the project whose header this is. */
#define NERGUTSAI_VERSION "0.1.0"

/* The lengths of a record, an event, an answer and the figures of a rate question. */
enum { NERGUTSAI_RECORD = 55, NERGUTSAI_EVENT = 6, NERGUTSAI_ANSWER = 4, NERGUTSAI_FIGURES = 3 };

/* The numbers of a record. A flag is 0 or 1; read back in, any number but 0 is 1. A level is 16 bits.
 * All zero is the board before its first power-up. */
enum {
    NERGUTSAI_POWERED, NERGUTSAI_RANGE, NERGUTSAI_FILTER, NERGUTSAI_KIT, NERGUTSAI_FIRMWARE,
    NERGUTSAI_FITTED, NERGUTSAI_CODE,
    NERGUTSAI_BURSTS, NERGUTSAI_GROUND, NERGUTSAI_BINARY, NERGUTSAI_DIFFERENTIAL, NERGUTSAI_BARRED,
    NERGUTSAI_SIMULTANEOUS, NERGUTSAI_SELECTION,
    NERGUTSAI_EXTERNAL, NERGUTSAI_ENABLED, NERGUTSAI_CIRCULAR,
    NERGUTSAI_CALIBRATING, NERGUTSAI_CAL_FAILED, NERGUTSAI_CALIBRATED,
    NERGUTSAI_DIVISOR, NERGUTSAI_NCLK, NERGUTSAI_ALT, NERGUTSAI_SETTLING,
    NERGUTSAI_BURST, NERGUTSAI_SOFTWARE, NERGUTSAI_PENDING, NERGUTSAI_OPENED,
    NERGUTSAI_BUFFER_OVERFLOW, NERGUTSAI_FRAME_OVERFLOW,
    NERGUTSAI_MASK, NERGUTSAI_CURSOR, NERGUTSAI_REQUEST, NERGUTSAI_FIRST, NERGUTSAI_COUNT,
    NERGUTSAI_LEVELS /* and the 19 after it */
};

/* The first number of an event. The numbers that no field is named for are not looked at by nergutsai_event; nergutsai_write asks
 * that they are 0. */
enum {
    NERGUTSAI_POWER_UP = 1, /* fitted code, range, filter, kit, firmware */
    NERGUTSAI_WRITE = 2,    /* offset, value */
    NERGUTSAI_READ = 3,     /* offset */
    NERGUTSAI_TICK = 4,     /* a clock of the rate generator */
    NERGUTSAI_OUTSIDE = 5,  /* an outside clock */
    NERGUTSAI_TRIGGER = 6,
    NERGUTSAI_PASSED = 7,   /* calibration passed */
    NERGUTSAI_FAILED = 8,   /* calibration failed */
    NERGUTSAI_SETTLED = 9
};

/* ---- The registers, by the names of the board's manual. r/w is read and written, r only read, w only written: such a bit reads 0.
 * A field of several bits has a mask, and a shift where it does not begin at D00. */

/* The offsets: the first field of a write or a read. */
enum {
    NERGUTSAI_BCR = 0x00,                  /* board control register */
    NERGUTSAI_CHANNEL_SELECTION = 0x04,
    NERGUTSAI_SAMPLE_RATE = 0x08,
    NERGUTSAI_BOR = 0x0C,                  /* buffer operations register */
    NERGUTSAI_FIRMWARE_AND_OPTIONS = 0x10, /* only read */
    NERGUTSAI_AUTOCAL_VALUES = 0x14,       /* not modelled: it reads 0 and cannot be written */
    NERGUTSAI_OUTPUT_DATA_BUFFER = 0x18,   /* a write loads a value; it reads 0 */
    NERGUTSAI_ADJUSTABLE_CLOCK = 0x1C
};

/* 00h, BCR */
#define NERGUTSAI_BCR_BURST_ENABLED UINT32_C(0x0001)          /* D00 r/w */
#define NERGUTSAI_BCR_BURST_READY UINT32_C(0x0002)            /* D01 r   */
#define NERGUTSAI_BCR_BURST_TRIGGER UINT32_C(0x0004)          /* D02 r/w */
#define NERGUTSAI_BCR_REMOTE_GROUND_SENSE UINT32_C(0x0008)    /* D03 r/w */
#define NERGUTSAI_BCR_OFFSET_BINARY UINT32_C(0x0010)          /* D04 r/w */
#define NERGUTSAI_BCR_DIFFERENTIAL_SYNC_IO UINT32_C(0x0020)   /* D05 r/w */
#define NERGUTSAI_BCR_DISABLE_EXT_BURST_TRIG UINT32_C(0x0040) /* D06 r/w */
#define NERGUTSAI_BCR_SIMULTANEOUS_OUTPUTS UINT32_C(0x0080)   /* D07 r/w */
#define NERGUTSAI_BCR_INTERRUPT_MASK UINT32_C(0x0700)         /* D08-D10 r/w, INTERRUPT A0-A2: NERGUTSAI_INTERRUPT_... */
#define NERGUTSAI_BCR_INTERRUPT_SHIFT 8
#define NERGUTSAI_BCR_INTERRUPT_REQUEST_FLAG UINT32_C(0x0800) /* D11 r/w */
#define NERGUTSAI_BCR_AUTOCALIBRATION UINT32_C(0x2000)        /* D13 r/w */
#define NERGUTSAI_BCR_AUTOCAL_STATUS_FLAG UINT32_C(0x4000)    /* D14 r   */
#define NERGUTSAI_BCR_INITIALIZE UINT32_C(0x8000)             /* D15 w   */

/* The interrupt selections of BCR: which condition requests an interrupt. */
enum {
    NERGUTSAI_INTERRUPT_IDLE = 0,
    NERGUTSAI_INTERRUPT_AUTOCAL_COMPLETED = 1,
    NERGUTSAI_INTERRUPT_BUFFER_EMPTY = 2,
    NERGUTSAI_INTERRUPT_BUFFER_LOW_QUARTER = 3,
    NERGUTSAI_INTERRUPT_BUFFER_HIGH_QUARTER = 4,
    NERGUTSAI_INTERRUPT_BURST_READY = 5,
    NERGUTSAI_INTERRUPT_LOAD_READY = 6,
    NERGUTSAI_INTERRUPT_END_LOAD_READY = 7
};

/* 04h, channel selection: D00-D19 r/w, ENABLE CHANNEL 00-19 */
#define NERGUTSAI_ENABLE_CHANNEL(k) (UINT32_C(1) << (k))

/* 08h, sample rate: D00-D15 r/w, RATE 00-15, the divisor */
#define NERGUTSAI_SAMPLE_RATE_MASK UINT32_C(0xFFFF)

/* 0Ch, BOR. The active buffer holds 8 * 2^m values, m being the lesser of SIZE and the fitted code. */
#define NERGUTSAI_BOR_SIZE_MASK UINT32_C(0x0000F)           /* D00-D03 r/w */
#define NERGUTSAI_BOR_EXTERNAL_CLOCK UINT32_C(0x00010)      /* D04 r/w */
#define NERGUTSAI_BOR_ENABLE_CLOCK UINT32_C(0x00020)        /* D05 r/w */
#define NERGUTSAI_BOR_CLOCK_READY UINT32_C(0x00040)         /* D06 r   */
#define NERGUTSAI_BOR_SW_CLOCK UINT32_C(0x00080)            /* D07 w   */
#define NERGUTSAI_BOR_CIRCULAR_BUFFER UINT32_C(0x00100)     /* D08 r/w */
#define NERGUTSAI_BOR_LOAD_REQUEST UINT32_C(0x00200)        /* D09 r/w */
#define NERGUTSAI_BOR_LOAD_READY UINT32_C(0x00400)          /* D10 r   */
#define NERGUTSAI_BOR_CLEAR_BUFFER UINT32_C(0x00800)        /* D11 w   */
#define NERGUTSAI_BOR_BUFFER_EMPTY UINT32_C(0x01000)        /* D12 r   */
#define NERGUTSAI_BOR_BUFFER_LOW_QUARTER UINT32_C(0x02000)  /* D13 r   */
#define NERGUTSAI_BOR_BUFFER_HIGH_QUARTER UINT32_C(0x04000) /* D14 r   */
#define NERGUTSAI_BOR_BUFFER_FULL UINT32_C(0x08000)         /* D15 r   */
#define NERGUTSAI_BOR_BUFFER_OVERFLOW UINT32_C(0x10000)     /* D16 r/w */
#define NERGUTSAI_BOR_FRAME_OVERFLOW UINT32_C(0x20000)      /* D17 r/w */

/* 10h, firmware and options: what the power-up said */
#define NERGUTSAI_OPTIONS_FIRMWARE_MASK UINT32_C(0x000FFF) /* D00-D11 r */
#define NERGUTSAI_OPTIONS_RANGE_MASK UINT32_C(0x030000)    /* D16-D17 r, output voltage range: 0, 1, 2 are 2.5, 5, 10 V */
#define NERGUTSAI_OPTIONS_RANGE_SHIFT 16
#define NERGUTSAI_OPTIONS_FILTER_MASK UINT32_C(0x0C0000)   /* D18-D19 r, output filter: 0, 1, 2 are none, 10 kHz, 100 kHz */
#define NERGUTSAI_OPTIONS_FILTER_SHIFT 18
#define NERGUTSAI_OPTIONS_KIT_MASK UINT32_C(0x300000)      /* D20-D21 r, channels installed: 0, 1, 2 are 6, 12, 20 */
#define NERGUTSAI_OPTIONS_KIT_SHIFT 20

/* 18h, output data buffer, and a value of the sample memory */
#define NERGUTSAI_DATA_MASK UINT32_C(0x0FFFF) /* D00-D15 w, DATA 00-15 */
#define NERGUTSAI_EOF UINT32_C(0x10000)       /* D16 w, EOF FLAG: the last value of a frame */

/* 1Ch, adjustable clock */
#define NERGUTSAI_ADJUSTABLE_CLOCK_NCLK_MASK UINT32_C(0x1FF)                  /* D00-D08 r/w, CLOCK RATE (Nclk) */
#define NERGUTSAI_ADJUSTABLE_CLOCK_SELECT_ALTERNATE_REFERENCE UINT32_C(0x200) /* D09 r/w */

/* ---- Answers */

/* The numbers of an answer: its refusal number; what a read found, else 0; how many values a clock moved; a load's fate. */
enum { NERGUTSAI_REFUSAL, NERGUTSAI_REGISTER, NERGUTSAI_MOVED, NERGUTSAI_FATE };

/* The fate of an answer: what became of a value that was loaded. */
enum {
    NERGUTSAI_FATE_NO_LOAD = 0,
    NERGUTSAI_FATE_STORED = 1,
    NERGUTSAI_FATE_LOST_TO_FULL = 2,
    NERGUTSAI_FATE_LOST_TO_CLOSED = 3
};

/* The refusal numbers, of all calls. Which of them a call tells, and in which order, stands at the call. */
enum {
    NERGUTSAI_DONE = 0,
    NERGUTSAI_BAD_FITTED = 1,        /* power-up: the fitted code is not 0 to 15 */
    NERGUTSAI_MEMORY_TOO_SHORT = 2,  /* the memory is shorter than the depth: lend more, or power up with a lower fitted code */
    NERGUTSAI_NOT_SOUND = 3,         /* the record is damaged, or the board is not powered up: begin with a power-up */
    NERGUTSAI_NO_REGISTER = 4,       /* there is no register at the offset: 00, 04, 08, 0C, 10, 14, 18 or 1C (hex) */
    NERGUTSAI_READ_ONLY = 5,         /* 10h and 14h cannot be written */
    NERGUTSAI_BUSY = 6,              /* no write while the board is calibrating: end the calibration first */
    NERGUTSAI_NOTHING_TO_END = 7,    /* no calibration runs, or the clock is not settling */
    NERGUTSAI_DIVISOR_IS_ZERO = 8,   /* the rate: the divisor is 0: write 1 or more to 08h */
    NERGUTSAI_CLOCK_IS_EXTERNAL = 9, /* the rate: EXTERNAL CLOCK is set: clear it in 0Ch */
    NERGUTSAI_NOT_A_SESSION = 10,    /* the file is empty, or its first byte is not 01 */
    NERGUTSAI_CUT = 11,              /* the file ends inside a record: hand in the whole of it */
    NERGUTSAI_WRONG_LENGTH = 12,     /* a record's length is wrong for its kind, or 0 */
    NERGUTSAI_UNKNOWN_KIND = 13,     /* an event or a record begins with a number that is no kind: kinds are 1 to 9 */
    NERGUTSAI_BAD_RANGE = 14,        /* power-up: the range code is not 0 to 2 */
    NERGUTSAI_BAD_FILTER = 15,       /* power-up: the filter code is not 0 to 2 */
    NERGUTSAI_BAD_KIT = 16,          /* power-up: the kit code is not 0 to 2 */
    NERGUTSAI_BAD_FIRMWARE = 17,     /* power-up: the firmware number is not 0 to 4095 */
    NERGUTSAI_NO_POWER_UP = 18,      /* no power-up of the session is accepted: its listing says why each was refused */
    NERGUTSAI_NO_SIZE_PLAYS = 19,    /* values are lost to a full buffer at all sixteen codes: order a deeper buffer (a higher
                                      * fitted code), or load less before clocks take values away */
    NERGUTSAI_PLACE_PAST_END = 20,   /* the place is past the output's end: name one inside the output */
    NERGUTSAI_NO_ROOM = 21,          /* the session does not fit from the place on: lend as much as NERGUTSAI_SESSION_ROOM or
                                      * NERGUTSAI_CUT_ROOM says */
    NERGUTSAI_BAD_GROUPS = 22,       /* a group has no channel or more than 20, or the recording is no whole number of groups */
    NERGUTSAI_BAD_CHOICE = 23,       /* no channel is chosen, or one that a group has not; or the last group is past the
                                      * recording's end, or before the first */
    NERGUTSAI_FIELD_TOO_LARGE = 30,  /* a field of an event is too large for its bytes, or a number is not 0 though the kind has
                                      * no field there: settings and offsets go up to FFh, the firmware number up to FFFFh,
                                      * values up to FFFFFFFFh; set the rest to 0 */
    NERGUTSAI_NOT_WHOLE_EVENTS = 32  /* the rows are not a multiple of six numbers: hand in all six of every event */
};

/* What a call returns that did what it is for: 0 under other names. */
enum { NERGUTSAI_WRITTEN = 0, NERGUTSAI_TABLE = 0, NERGUTSAI_SIZE_NAMED = 0 };

/* The figures of a rate question: its refusal number, the reference in whole hertz, the sample rate in whole hertz. */
enum { NERGUTSAI_RATE_REFUSAL, NERGUTSAI_REFERENCE, NERGUTSAI_RATE };

/* ---- The calls */

/* One event. Returns
 *   0  understood: the answer is written. If its refusal number is 0 the record and the memory are those after the event;
 *      else both are as they were.
 *   1  the record, 2 the event, 3 the answer is of another length; 4 no such kind of event. Nothing was written.
 * The refusal number is 1 to 7 or 14 to 17. A power-up names its first bad setting, in the order 1, 14, 15, 16, 17, and then 2;
 * where several things are wrong with another event, the lowest number is told, but 3 before 2.
 * The memory may have any length: one that is too short for the board's depth is refused 2. */
uint32_t nergutsai_event(
    uint32_t *record, size_t record_length,
    uint32_t *memory, size_t memory_length,
    const uint32_t *event, size_t event_length,
    uint32_t *answer, size_t answer_length);

/* The rate question. Returns
 *   0  understood: the figures are written. If their refusal number is 0 they are those of the record's clock; else it is
 *      NERGUTSAI_NOT_SOUND, NERGUTSAI_CLOCK_IS_EXTERNAL or NERGUTSAI_DIVISOR_IS_ZERO, told in this order, and the other two are 0.
 *   1  the record, 3 the figures are of another length. Nothing was written. */
uint32_t nergutsai_rate(
    const uint32_t *record, size_t record_length,
    uint32_t *figures, size_t figures_length);

/* The room that the listing of a session file of n bytes asks for. */
#define NERGUTSAI_ROOM(n) ((size_t)(n) > 65536 ? (size_t)9 : 160 + 22 * (size_t)(n))

/* The listing of a session file, on a board with this sample memory (16,384 values in `rehearse`).
 * Returns how many bytes of text now stand at the start of the output, with no NUL after them; 0 if the output is shorter than
 * NERGUTSAI_ROOM says: then nothing was run and nothing written. Any bytes may be handed in: what is wrong with a file stands in
 * its listing. */
size_t nergutsai_list(
    const uint8_t *file, size_t file_length,
    uint32_t *memory, size_t memory_length,
    uint8_t *output, size_t output_length);

/* The room that a session file of n events asks for at most. */
#define NERGUTSAI_SESSION_ROOM(n) (1 + 9 * (size_t)(n))

/* A session file, version 1, of these events: `rows` holds NERGUTSAI_EVENT numbers for each, one event after the other, and no
 * events are a session too. Returns
 *   NERGUTSAI_WRITTEN  the session stands in the output from `place` on, its byte 01 at `place` itself, and *end is the place after
 *      its last byte, counted from the output's start as `place` is. The bytes before and after it are as they were.
 *   another number  it was refused: no byte of the output changed, and *end is 0.
 * Where several things are wrong, rows that are not whole events (32) are told first; then the first bad event decides, its kind (13)
 * before its fields (30); then the place (20); then the room (21). Any rows and any place may be handed in. A field is held to its
 * bytes alone: what the board would refuse is written, for its listing to tell. A session may have any length; nergutsai_list takes up
 * to 65,536 bytes. */
uint32_t nergutsai_write(
    const uint32_t *rows, size_t rows_length,
    uint8_t *output, size_t output_length,
    size_t place, size_t *end);

/* The room that a cut asks for, of so many groups with so many chosen channels. */
#define NERGUTSAI_CUT_ROOM(groups, chosen) (1 + 8 * (1 + (size_t)(groups) * (size_t)(chosen)))

/* The session that loads the chosen numbers of a recording, which holds them group after group, `channels` of them in each. The
 * groups from `first` to `last` are taken, counted from 0, both with them, and of these the channels of `mask`: bit k is channel k.
 * The session, version 1, is one write of the mask to 04h, then one to 18h for each number, group after group in ascending
 * channels, with the end-of-frame mark on the very last and on no other. The numbers are copied as they are. Returns
 *   NERGUTSAI_WRITTEN  the session stands in the output from `place` on, its byte 01 at `place` itself, and *end is the place after
 *      its last byte, counted from the output's start as `place` is. The bytes before and after it are as they were.
 *   another number  it was refused: no byte of the output changed, and *end is 0. The recording is told before what is chosen of it
 *      (22, 23), then the place, then the room (20, 21).
 * There is no power-up in it and no clock: its bytes from the second on stand behind a power-up's in a session file, and the writes
 * and clocks that play it behind them (extract.c). On a board that has the chosen channels and a depth of at least so many values all
 * are stored, and channel k of each group plays on output k. Any numbers may be handed in. */
uint32_t nergutsai_cut(
    const uint16_t *recording, size_t recording_length,
    uint32_t channels, size_t first, size_t last, uint32_t mask,
    uint8_t *output, size_t output_length,
    size_t place, size_t *end);

/* How many numbers nergutsai_volts writes, and which of a channel's three is which: those of channel k stand at 3 * k. */
enum { NERGUTSAI_VOLTS = 60 };
enum { NERGUTSAI_LOWEST, NERGUTSAI_HIGHEST, NERGUTSAI_LAST };

/* The lowest, the highest and the last volts of each of the twenty channels over a session file, on a board with this sample memory.
 * The levels right after an accepted power-up count, and those after each later event; another accepted power-up starts afresh. The
 * volts are exact: times 65,536 each is the level less 32,768, times 5, 10 or 20 for range 0, 1, 2. Zero is positive zero. Returns
 *   NERGUTSAI_TABLE  the sixty numbers are written. Lowest is never above 0 and highest never below it, since a power-up puts every
 *      channel to 0 volts; a channel that is not fitted stays there.
 *   another number  it was refused: the sixty numbers are positive zeros. A bad file (10 to 13) is told before a session without an
 *      accepted power-up (18).
 * The memory is as the run left it, also where the session was refused. A file may have any length.
 * A protection that is wired by these numbers must bear more while the board calibrates: its manual has the outputs fluctuate
 * between zero and positive full scale then, and that is no level of the model. */
uint32_t nergutsai_volts(
    const uint8_t *file, size_t file_length,
    uint32_t *memory, size_t memory_length,
    float volts[NERGUTSAI_VOLTS]);

/* The lowest size code, 0 to 15, at which a session file loses nothing to a full buffer, on a board with this sample memory. The
 * session is replayed with the code in D3..0 of every write to 0Ch, and all else kept: the active buffer holds 8 * 2^c values, for
 * the lesser c of this code and the fitted one. The code 15 that power-up and initialise set is no write: it stays until the next
 * accepted write to 0Ch. What is lost to a closed buffer does not count, nor does a refused power-up. Returns
 *   NERGUTSAI_SIZE_NAMED  *code is that code; 0 where no power-up is accepted, since nothing is lost then. Every lower code loses
 *      a value, and every higher one plays too, with the same levels, stored values, burst and loading states after each event.
 *   another number  it was refused: *code is 0. A bad file (10 to 13) is told first, with the memory as it was; then that no size
 *      plays (19).
 * Of a good file the memory is as the replays left it: those with code 0, 1 and so on up to the one named, up to 15 where none
 * plays, each over what the one before left. So up to sixteen replays are run. A file may have any length. */
uint32_t nergutsai_smallest_size(
    const uint8_t *file, size_t file_length,
    uint32_t *memory, size_t memory_length,
    uint32_t *code);

#ifdef __cplusplus
}
#endif

#endif
