/*
 * A recorded drive, replayed: how much output that takes, and the replies that the handset should
 * have sent. And its one spelling, in which two recordings of a drive can be compared byte by byte.
 *
 *   replay        a small trace, which is made here, and what becomes of it when a record is bad
 *   replay FILE   the trace in a file, such as examples/drive.trace
 *
 * The trace's bytes are laid out as the comment of feedback.h says, under TRACES.
 */
#include "feedback.h"
#include "feedback_text.h"
#include <stdio.h>
#include <stdlib.h>

/* One byte more than a trace may have: a file that fills it is too long, and refused 21. */
static uint8_t trace[65536];

/* What the records say that the subframes brought. */
static void show_records(size_t length)
{
    struct feedback_record_answer read = feedback_record(trace, length, 0);
    for (size_t next = 1; read.kind == FEEDBACK_RECORD_READ; next++) {
        if (read.slot.kind != FEEDBACK_SLOT_NOTHING)
            printf("record %zu: %s\n", next - 1, feedback_slot_kind_text(read.slot.kind));
        read = feedback_record(trace, length, next);
    }
    if (read.kind == FEEDBACK_RECORD_REFUSED)
        puts(feedback_refusal_text(read.refusal));
}

/* One window of the output: 0 is silent there, and n tells the uplink subframe. */
static void show_window(const uint8_t *window, unsigned frame)
{
    unsigned kind = window[1] == 0 ? FEEDBACK_KIND_SILENT : window[1];
    printf("frame %u subframe %u: %s", frame, window[0], feedback_kind_text(kind));
    if (kind != FEEDBACK_KIND_SILENT)
        printf(" Resource %u, bits %u %u.", window[2] + 256u * window[3], window[4], window[5]);
    puts("");
}

/*
 * Asks how much the replay of the trace writes, lends so much, replays it, and shows what was
 * written and the answer. A trace that has no size has none to lend, and its replay says why.
 */
static void replay(size_t length)
{
    struct feedback_replay_size_answer size = feedback_replay_size(trace, length);
    uint8_t *windows = malloc(size.bytes); /* may be NULL for 0 bytes, and may then be lent */
    if (windows == NULL && size.bytes > 0) {
        perror("malloc");
        exit(1);
    }
    if (size.refusal == 0)
        printf("Output to lend: %u bytes, %u windows.\n", size.bytes, size.windows);
    struct feedback_replay_answer answer = feedback_replay(trace, length, windows, size.bytes);
    for (unsigned i = 0, frame = 0; i < answer.windows; i++) {
        const uint8_t *window = windows + i * FEEDBACK_WINDOW_BYTES;
        if (i > 0 && window[0] <= window[-FEEDBACK_WINDOW_BYTES])
            frame++; /* n rises inside a frame, and every frame has a window */
        show_window(window, frame);
    }
    printf("%s Windows: %u.\n", feedback_replay_kind_text(answer.kind), answer.windows);
    if (answer.kind == FEEDBACK_REPLAY_STOPPED)
        printf("Record %u. ", answer.record);
    if (answer.refusal != 0)
        puts(feedback_refusal_text(answer.refusal));
    free(windows);
}

/* Writes the trace in its one spelling, for which as many bytes as it has are always enough. */
static void spell(size_t length)
{
    static uint8_t spelled[sizeof trace];
    struct feedback_write_answer answer = feedback_trace_write(trace, length, spelled, length);
    printf("%s Bytes: %u.\n", feedback_write_kind_text(answer.kind), answer.bytes);
}

/*
 * Ten subframes of configuration 1 with 50 resource blocks, bundling, up to two blocks, N1 300 and
 * resource 7 for scheduled blocks. 0 and 1 are answered in 7, and 4 is answered in 8.
 */
static const uint8_t made[] = {
    10, 0, 18, 0, 8, 0, 58, 0,        /* 10 records at 18, settings at 8, 58 bytes */
    1, 50, 0, 2, 7, 0, 44, 1, 7, 0,   /* 44 + 256 is 300 */
    FEEDBACK_SLOT_GRANT, 5, 1, FEEDBACK_TWO_CARRIED | FEEDBACK_FIRST_DECODED,
    FEEDBACK_SLOT_RELEASE, 12, 2, 0,
    0, 0, 0, 0, 0, 0, 0, 0,           /* 2 and 3, uplink */
    FEEDBACK_SLOT_SCHEDULED, 0, 0, FEEDBACK_FIRST_DECODED,
    0, 0, 0, 0, 0, 0, 0, 0, 0, 0, 0, 0, 0, 0, 0, 0, 0, 0, 0, 0,
};

int main(int argc, char **argv)
{
    size_t length = sizeof made;
    for (size_t i = 0; i < length; i++)
        trace[i] = made[i];
    if (argc > 1) {
        FILE *file = fopen(argv[1], "rb");
        if (file == NULL) {
            perror(argv[1]);
            return 1;
        }
        length = fread(trace, 1, sizeof trace, file);
        fclose(file);
    }
    show_records(length);
    replay(length);
    spell(length);
    if (argc > 1)
        return 0;
    puts("\nThe same with a grant in subframe 8, which is uplink:");
    trace[18 + 8 * FEEDBACK_TRACE_RECORD] = FEEDBACK_SLOT_GRANT;
    replay(length);
    spell(length);
    puts("\nThe same with its last byte cut off:");
    replay(length - 1);
    return 0;
}
