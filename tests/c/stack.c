/*
 * The most stack that each call takes, held to the figures in the comment of include/feedback.h. A
 * call is made with many inputs on a stack of its own that was painted before; what is not painted
 * any more was used. The same with a function that does nothing in its place tells what of it the
 * caller used. The argument is the header's file. Link with -z now: no call is to meet the linker.
 */
#define _XOPEN_SOURCE 700
#include "feedback.h"
#include <stdio.h>
#include <stdlib.h>
#include <string.h>
#include <ucontext.h>

enum { ONE_PORT = 7 * 2 * 2 * 3, TWO_PORTS = 7 * 3, SETTINGS = ONE_PORT + TWO_PORTS };
enum { FEEDS = 40, RUNS = SETTINGS * 4, HANDSETS = RUNS * FEEDS };
enum { FIRST = FEEDBACK_TRACE_HEADER + FEEDBACK_TRACE_SETTINGS }; /* the place of the records */
enum { WINDOWS = 24 };

static struct feedback_settings settings[SETTINGS];
static struct feedback_handset handsets[HANDSETS];
static uint8_t traces[RUNS][FIRST + FEEDS * FEEDBACK_TRACE_RECORD];

/* ---- for each call, one of its form that does nothing, and a loop that makes it ---- */

static int real;               /* whether a loop makes the call, or the one that does nothing */
static volatile unsigned sink; /* takes something of every answer, so that no call is left out */

#define LOOP(name, answer, parameters, loop)                                                   \
    static struct answer none_##name parameters                                                \
    {                                                                                          \
        struct answer none = {0};                                                              \
        return none;                                                                           \
    }                                                                                          \
    static void loop_##name(void)                                                              \
    {                                                                                          \
        struct answer(*volatile call) parameters = real ? feedback_##name : none_##name;       \
        loop                                                                                   \
    }
#define EACH(i, limit) for (unsigned i = 0; i < limit; i++)

LOOP(window, feedback_window_answer, (struct feedback_settings s, uint16_t n),
     EACH(i, SETTINGS) EACH(j, 11) sink += call(settings[i], (uint16_t)j).size;)

LOOP(answered, feedback_answered_answer, (struct feedback_settings s, uint16_t subframe),
     EACH(i, SETTINGS) EACH(j, 11) sink += call(settings[i], (uint16_t)j).n;)

LOOP(resource, feedback_resource_answer,
     (struct feedback_settings s, uint16_t n, uint16_t position, uint16_t cce),
     EACH(i, SETTINGS) EACH(j, 11) EACH(m, 10) EACH(c, 140)
         sink += call(settings[i], (uint16_t)j, (uint16_t)m, (uint16_t)c).resource;)

LOOP(inverse, feedback_inverse_answer, (struct feedback_settings s, uint16_t n, uint16_t resource),
     EACH(i, SETTINGS) EACH(j, 11) EACH(r, 1300)
         sink += call(settings[i], (uint16_t)j, (uint16_t)r).cce;)

static const uint16_t told[] = {FEEDBACK_NONE, 0, 3, 8};
LOOP(reading, feedback_reading_answer,
     (struct feedback_settings s, uint16_t n, uint16_t scheduled_position, uint16_t resource,
      uint16_t b0, uint16_t b1),
     EACH(i, SETTINGS) EACH(j, 11) EACH(p, 4) EACH(r, 1300) EACH(b, 4)
         sink += call(settings[i], (uint16_t)j, told[p], (uint16_t)r, b & 1,
                      (uint16_t)(b >> 1)).cce;)

static struct feedback_sent_window windows[WINDOWS];
LOOP(confirmed, feedback_confirmed_answer,
     (struct feedback_settings s, uint16_t n, struct feedback_sent_window sent, uint16_t resource,
      uint16_t b0, uint16_t b1),
     EACH(i, SETTINGS) EACH(j, 11) EACH(w, WINDOWS) EACH(r, 130) EACH(b, 4)
         sink += call(settings[i], (uint16_t)j, windows[w], (uint16_t)r, b & 1,
                      (uint16_t)(b >> 1)).first;)

LOOP(open_account, feedback_opened, (uint32_t price),
     EACH(p, 3) sink += call(FEEDBACK_PRICE_MOST - 1 + p).refusal;)

static const struct feedback_account accounts[] = {
    {0, 0, 1000000, 0}, {3, 0, 7, 21}, {3, 0, 7, 20}, {1000000000000, 0, 0, 0}};
LOOP(credit, feedback_credit_answer,
     (struct feedback_settings s, uint16_t n, struct feedback_sent_window sent, uint16_t resource,
      uint16_t b0, uint16_t b1, struct feedback_account account),
     EACH(i, SETTINGS) EACH(j, 11) EACH(w, WINDOWS) EACH(r, 130) EACH(b, 4)
         sink += call(settings[i], (uint16_t)j, windows[w], (uint16_t)r, b & 1,
                      (uint16_t)(b >> 1), accounts[(w + r) % 4]).octets;)

static uint16_t list[600];
static uint8_t scratch[FEEDBACK_SCRATCH_MOST];
LOOP(claims, feedback_claims_answer,
     (struct feedback_settings s, uint16_t n, const uint16_t *claims, size_t count,
      uint8_t *bytes, size_t room),
     EACH(i, SETTINGS) EACH(j, 11) EACH(l, 600)
         sink += call(settings[i], (uint16_t)j, list, l, scratch, sizeof scratch).kind;)

LOOP(claims_bits, feedback_claims_answer,
     (struct feedback_settings s, uint16_t n, const uint16_t *claims, size_t count,
      uint8_t *bytes, size_t room),
     EACH(i, SETTINGS) EACH(j, 11) EACH(l, 600)
         sink += call(settings[i], (uint16_t)j, list, l, scratch, FEEDBACK_BIT_SCRATCH_MOST).kind;)

LOOP(make, feedback_made, (struct feedback_settings s),
     EACH(i, SETTINGS) sink += call(settings[i]).refusal;)

LOOP(change_mode, feedback_changed, (struct feedback_handset handset, uint16_t mode),
     EACH(i, HANDSETS) EACH(m, 3) sink += call(handsets[i], (uint16_t)m).refusal;)

LOOP(feed_nothing, feedback_fed, (struct feedback_handset handset),
     EACH(i, HANDSETS) sink += call(handsets[i]).resource;)

LOOP(silence, feedback_silence_answer, (struct feedback_handset handset),
     EACH(i, HANDSETS) sink += call(handsets[i]).v;)

LOOP(feed_grant, feedback_fed,
     (struct feedback_handset handset, uint16_t blocks, uint16_t first, uint16_t second,
      uint16_t cce, uint16_t dai),
     EACH(i, HANDSETS) EACH(b, 4) sink += call(handsets[i], (uint16_t)b, 1, 0, 3, 1).kind;)

LOOP(feed_scheduled, feedback_fed,
     (struct feedback_handset handset, uint16_t blocks, uint16_t first, uint16_t second),
     EACH(i, HANDSETS) EACH(b, 4) sink += call(handsets[i], (uint16_t)b, 1, 0).kind;)

LOOP(feed_release, feedback_fed, (struct feedback_handset handset, uint16_t cce, uint16_t dai),
     EACH(i, HANDSETS) EACH(d, 3) sink += call(handsets[i], 3, (uint16_t)d).kind;)

static uint8_t output[FEEDBACK_SPELLED_MOST]; /* the windows of a replay take less */
static uint8_t longest[FIRST + FEEDBACK_RECORDS_MOST * FEEDBACK_TRACE_RECORD];
LOOP(replay_size, feedback_replay_size_answer, (const uint8_t *trace, size_t length),
     EACH(i, RUNS) EACH(j, 2) sink += call(traces[i], sizeof traces[i] - j).windows;
     sink += call(longest, sizeof longest).windows;)

LOOP(replay, feedback_replay_answer,
     (const uint8_t *trace, size_t length, uint8_t *out, size_t room),
     EACH(i, RUNS) EACH(j, 3)
         sink += call(traces[i], sizeof traces[i] - (j == 1), output, j == 2 ? 0 : sizeof output)
                     .windows;
     sink += call(longest, sizeof longest, output, sizeof output).windows;)

LOOP(record, feedback_record_answer, (const uint8_t *trace, size_t length, size_t next),
     EACH(i, RUNS) EACH(j, FEEDS + 2) sink += call(traces[i], sizeof traces[i], j).slot.cce;)

LOOP(trace_write, feedback_write_answer,
     (const uint8_t *trace, size_t length, uint8_t *out, size_t room),
     EACH(i, RUNS) EACH(j, 3)
         sink += call(traces[i], sizeof traces[i] - (j == 1), output, j == 2 ? 0 : sizeof output)
                     .bytes;
     sink += call(longest, sizeof longest, output, sizeof output).bytes;)

LOOP(game, feedback_game_answer, (uint16_t size, uint16_t grants, uint16_t losses),
     EACH(s, 11) EACH(g, 11) EACH(l, 11)
         sink += call((uint16_t)s, (uint16_t)g, (uint16_t)l).radio;)

/* Every command, with every kind and with such as are refused; flags stay from call to call. */
static uint8_t blocks[][FEEDBACK_BLOCK_BYTES] = {
    {FEEDBACK_SLOT_NOTHING, 0, 0, 0, FEEDBACK_COMMAND_NONE},
    {FEEDBACK_SLOT_NOTHING, 0, 0, 0, FEEDBACK_COMMAND_FEED},
    {FEEDBACK_SLOT_GRANT, 3, 1, FEEDBACK_FIRST_DECODED, FEEDBACK_COMMAND_FEED},
    {FEEDBACK_SLOT_GRANT, 3, 1, FEEDBACK_TWO_CARRIED, FEEDBACK_COMMAND_FEED},
    {FEEDBACK_SLOT_GRANT, 3, 5, 0, FEEDBACK_COMMAND_FEED},
    {FEEDBACK_SLOT_SCHEDULED, 0, 0, FEEDBACK_FIRST_DECODED, FEEDBACK_COMMAND_FEED},
    {FEEDBACK_SLOT_RELEASE, 3, 1, 0, FEEDBACK_COMMAND_FEED},
    {FEEDBACK_SLOT_RELEASE + 1, 3, 1, 0, FEEDBACK_COMMAND_FEED},
    {FEEDBACK_FLAG_REFUSED, 0, 0, 0, FEEDBACK_COMMAND_CLEAR},
    {FEEDBACK_SLOT_NOTHING, 0, 0, 0, FEEDBACK_COMMAND_CLEAR + 1},
};
LOOP(command, feedback_command_answer,
     (struct feedback_handset handset, uint8_t *block, size_t length),
     EACH(i, HANDSETS) EACH(b, sizeof blocks / sizeof *blocks) EACH(j, 2)
         sink += call(handsets[i], blocks[b], FEEDBACK_BLOCK_BYTES - j).line;)

/* ---- inputs ---- */

static unsigned draw(unsigned limit)
{
    static uint32_t random = 1;
    random = random * 1664525u + 1013904223u;
    return (random >> 16) % limit;
}

/*
 * All configurations, modes and blocks (mode 1 of configuration 5 is refused), three bandwidths;
 * a scheduled resource is set in most, and in some special subframes are too short for data. Then
 * all configurations and bandwidths with two ports, which have mode 0 and no scheduled resource.
 */
static void fill_settings(void)
{
    static const uint16_t bandwidths[] = {6, 50, 110};
    EACH(i, ONE_PORT)
    {
        settings[i] = FEEDBACK_SETTINGS(i % 7, bandwidths[i / 28], 10, i / 7 % 2, 1 + i / 14 % 2);
        if (i % 5 > 0)
            settings[i].scheduled = 5;
        if (i % 3 == 0)
            settings[i].special = 5;
    }
    EACH(i, TWO_PORTS)
    {
        struct feedback_settings *two = &settings[ONE_PORT + i];
        *two = FEEDBACK_SETTINGS(i % 7, bandwidths[i / 7], 10, 0, 1 + i % 2);
        two->ports = 2;
        if (i % 3 == 0)
            two->special = 5;
    }
}

/*
 * What a subframe brings: a scheduled block, where it is not refused, a release or a grant; where
 * it is too short for data, a release.
 */
static struct feedback_fed something(struct feedback_handset handset, uint16_t dai)
{
    struct feedback_fed fed = feedback_feed_scheduled(handset, 1, draw(4) > 0, 0);
    if (fed.refusal == 0 && draw(4) == 0)
        return fed;
    uint16_t cce = (uint16_t)draw(7);
    return fed.refusal == FEEDBACK_REFUSED_SHORT || draw(4) == 0
               ? feedback_feed_release(handset, cce, dai)
               : feedback_feed_grant(handset, 1, draw(4) > 0, 0, cce, dai);
}

/* The states of runs that lose none, a third, two thirds and all of what is sent; some spoilt. */
static void fill_handsets(void)
{
    EACH(i, HANDSETS)
    {
        struct feedback_handset *handset = &handsets[i];
        struct feedback_settings cell = settings[i / FEEDS % SETTINGS];
        if (i % FEEDS == 0)
            *handset = feedback_make(cell).handset;
        struct feedback_answered_answer in = feedback_answered(cell, handset->next);
        int lost = draw(3) < i / FEEDS / SETTINGS || in.refusal != 0;
        uint16_t dai = 1; /* of a window with a PDCCH wherever no scheduled block was heard */
        struct feedback_window_answer window = feedback_window(cell, in.n);
        for (unsigned j = 0; j < window.size && window.order[j] != in.position; j++)
            if (handset->past[window.k[window.order[j]] - in.k - 1].kind != FEEDBACK_SLOT_SCHEDULED)
                dai = (uint16_t)(dai % 4 + 1);
        struct feedback_fed fed =
            lost ? feedback_feed_nothing(*handset) : something(*handset, dai);
        memcpy(traces[i / FEEDS] + FIRST + i % FEEDS * sizeof *fed.handset.past, fed.handset.past,
               sizeof *fed.handset.past);
        if (i % FEEDS < FEEDS - 1)
            handsets[i + 1] = fed.handset;
        if (draw(20) == 0)
            handset->past[draw(13)].kind ^= (uint8_t)draw(8);
    }
}

/* A number of two bytes in a trace, the low one first. */
static void put(uint8_t *at, size_t number)
{
    at[0] = (uint8_t)number;
    at[1] = (uint8_t)(number >> 8);
}

/* Header and settings of a trace whose records are there, directly behind these. */
static void put_header(uint8_t *trace, size_t length, struct feedback_settings cell)
{
    put(trace, (length - FIRST) / FEEDBACK_TRACE_RECORD);
    put(trace + 2, FIRST);
    put(trace + 4, FEEDBACK_TRACE_HEADER);
    put(trace + 6, length);
    trace[8] = (uint8_t)cell.config;
    trace[9] = (uint8_t)cell.nrb;
    trace[10] = (uint8_t)cell.mode;
    trace[11] = (uint8_t)cell.blocks;
    trace[12] = (uint8_t)cell.special;
    trace[13] = (uint8_t)cell.prefix;
    put(trace + 14, cell.n1);
    put(trace + 16, cell.scheduled);
}

/* The runs of fill_handsets as traces, and the longest: the first of them over and over. */
static void fill_traces(void)
{
    EACH(i, RUNS) put_header(traces[i], sizeof traces[i], settings[i % SETTINGS]);
    EACH(i, FEEDBACK_RECORDS_MOST)
        memcpy(longest + FIRST + i * FEEDBACK_TRACE_RECORD,
               traces[0] + FIRST + i % FEEDS * FEEDBACK_TRACE_RECORD, FEEDBACK_TRACE_RECORD);
    put_header(longest, sizeof longest, settings[0]);
}

/*
 * What was sent in a window: more and more PDCCHs, of one block or two or releases, of first CCE 0
 * in half of them; in some a scheduled block, and in the last a size that is refused.
 */
static void fill_windows(void)
{
    EACH(w, WINDOWS)
    {
        EACH(m, FEEDBACK_WINDOW_MOST)
        {
            unsigned cce = w % 2 == 0 ? 0 : draw(7), blocks = 1 + draw(1 + w / 12);
            if (draw(WINDOWS) <= w)
                windows[w].at[m] =
                    draw(5) == 0 ? feedback_sent_release(cce, 1 + draw(4))
                                 : feedback_sent_grant(blocks, cce, 1 + draw(4), draw(27),
                                                       1 + draw(110), draw(27), 1 + draw(110));
        }
        if (w % 3 == 0)
            windows[w].at[draw(9)] = feedback_sent_scheduled(1, draw(27), 1 + draw(110), 0, 0);
    }
    windows[WINDOWS - 1].at[0].itbs0 = FEEDBACK_ITBS_MOST + 1;
}

/* A list of claims; how far they are good depends on the window. */
static void fill_list(void)
{
    EACH(i, 600) list[i] = FEEDBACK_CLAIM(i / 7 % 9, i % 7 + 7 * (i / 63));
}

/* ---- the measure ---- */

enum { STACK = 65536, PAINT = 0xa5 };
static unsigned char stack[STACK] __attribute__((aligned(64)));

static unsigned used(void (*loop)(void), int made)
{
    static ucontext_t here, there;
    unsigned painted = 0;
    real = made;
    memset(stack, PAINT, STACK);
    getcontext(&there);
    there.uc_stack.ss_sp = stack;
    there.uc_stack.ss_size = STACK;
    there.uc_link = &here;
    makecontext(&there, loop, 0);
    swapcontext(&here, &there);
    while (painted < STACK && stack[painted] == PAINT)
        painted++;
    return STACK - painted;
}

static char text[131072];

/* The figure that the header's comment has for a call; 0 if there is none. */
static unsigned stated(const char *name)
{
    char line[80];
    sprintf(line, "\n *             feedback_%s ", name);
    const char *at = strstr(text, line);
    return at == NULL ? 0 : (unsigned)strtoul(at + strlen(line), NULL, 10);
}

/* The bytes that a call takes: what is pushed to make it, and what it uses below. */
static int held(const char *name, void (*loop)(void), unsigned pushed)
{
    unsigned caller = used(loop, 0), most = used(loop, 1) - caller + pushed;
    printf("%-14s %4u bytes of stack, stated %u\n", name, most, stated(name));
    return caller < 512 && most <= stated(name);
}
#define HELD(name, arguments) held(#name, loop_##name, 8 + arguments)

int main(int argc, char **argv)
{
    FILE *file = argc == 2 ? fopen(argv[1], "r") : NULL;
    if (file == NULL || fread(text, 1, sizeof text - 1, file) == 0)
        return 2;
    fclose(file);
    fill_settings();
    fill_handsets();
    fill_traces();
    fill_windows();
    fill_list();
    int all = HELD(window, 24); /* of settings, 18 bytes in whole words; the rest is in registers */
    all &= HELD(answered, 24);
    all &= HELD(resource, 24);
    all &= HELD(inverse, 24);
    all &= HELD(reading, 24);
    all &= HELD(confirmed, 24 + 144); /* and a sent window */
    all &= HELD(open_account, 0);
    all &= HELD(credit, 24 + 144 + 24); /* and an account */
    all &= HELD(claims, 24);
    all &= HELD(claims_bits, 24);
    all &= HELD(make, 24);
    all &= HELD(change_mode, 80); /* of a handset, 74 bytes */
    all &= HELD(feed_nothing, 80);
    all &= HELD(silence, 80);
    all &= HELD(feed_grant, 80);
    all &= HELD(feed_scheduled, 80);
    all &= HELD(feed_release, 80);
    all &= HELD(replay_size, 0);
    all &= HELD(replay, 0);
    all &= HELD(record, 0);
    all &= HELD(trace_write, 0);
    all &= HELD(game, 0);
    all &= HELD(command, 80);
    return !all;
}
