/*
 * A worked cell: a station that sends grants, scheduled blocks and releases, reads the replies and
 * bills a tenant for what they confirm, a radio that loses some on the way to the handset, higher
 * layers that change the mode, and a check that sees both ends. A line for each window and each
 * change, with the cause where the handset is silent; it fails if a block leaves the station's
 * retransmission buffer undecoded, if more octets are billed in a window than were decoded there,
 * or if the cause of a silence is untrue. Last comes a handset with two antenna ports.
 *   cc -std=c11 -I include -o cell examples/cell.c target/staticlib/libfeedback.a
 *   ./cell 5 0 40 50 7   configuration 5, mode 0 (bundling), 40 frames, 50 % lost, seed 7
 */
#include "feedback_text.h"
#include <stdbool.h>
#include <stdio.h>
#include <stdlib.h>

/*
 * The runs: each configuration in each mode it has, two with special subframes too short for data
 * (SHORT 1, else 0), and one whose mode changes (each CHANGE subframes, 0 for never). Arguments
 * replace the numbers of the first.
 */
enum { CONFIG, MODE, FRAMES, LOSS, SEED, SHORT, CHANGE, ARGUMENTS };
static uint16_t runs[][ARGUMENTS] = {
    {0, 0, 2, 30, 230},  {0, 1, 2, 30, 230},  {1, 0, 2, 30, 16},      {1, 1, 2, 30, 16},
    {2, 0, 4, 30, 1021}, {2, 1, 4, 30, 1021}, {3, 0, 3, 30, 102},     {3, 1, 3, 30, 102},
    {4, 0, 4, 30, 372},  {4, 1, 4, 30, 372},  {5, 0, 10, 50, 17369},
    {6, 0, 2, 30, 657},  {6, 1, 2, 30, 657},  {2, 0, 4, 30, 1021, 1}, {2, 1, 4, 30, 1021, 1},
    {3, 0, 4, 30, 102, 0, 7},
};

/* A number below the limit; the same seed gives the same numbers. */
static uint16_t draw(uint32_t *random, unsigned limit)
{
    *random = *random * 1664525u + 1013904223u;
    return (uint16_t)((*random >> 16) % limit);
}

/*
 * Ends the program on a refusal: once the settings, and the mode that they change to, are accepted,
 * that is a fault of this file.
 */
static void accepted(uint16_t refusal)
{
    if (refusal == FEEDBACK_NOT_REFUSED)
        return;
    fprintf(stderr, "cell: %s\n", feedback_refusal_text(refusal));
    exit(2);
}

/* ==== The station. It knows what it sent and what it reads, and nothing of what was heard. ==== */

/* Smallest coins per million octets. */
enum { PRICE = 2750 };

/*
 * The sizes of the blocks that the station sends: I_TBS and N_PRB, and the octets that these have
 * in Table 7.1.7.2.1-1, in a downlink subframe and, by another column, in a special one. The
 * octets are for the check: the station leaves them to feedback_credit.
 */
static const struct size {
    uint16_t itbs, nprb, octets, octets_in_special;
} sizes[] = {{6, 1, 41, 41}, {4, 6, 51, 32}, {13, 16, 517, 389}, {26, 50, 4587, 3422}};

struct window {
    struct feedback_window_answer table; /* M, K and the time order of K */
    struct feedback_sent_window sent;    /* what is sent, by position */
    uint16_t scheduled;                  /* the scheduled block's position, or FEEDBACK_NONE */
    uint16_t mode; /* the mode that stood in its first subframe: it is answered and read in that */
    unsigned held; /* bit m: at position m a grant of the second handset was held back */
};

struct station {
    struct feedback_settings settings;
    struct feedback_account account; /* the tenant's */
    uint32_t random, random_sizes;
    struct window window[16]; /* the one answered in subframe s of the run is window[s % 16] */
};

/* The kind of what was sent, one of enum feedback_slot_kind. */
static unsigned kind_of(struct feedback_sent sent)
{
    if (sent.signalled)
        return sent.blocks > 0 ? FEEDBACK_SLOT_GRANT : FEEDBACK_SLOT_RELEASE;
    return sent.blocks > 0 ? FEEDBACK_SLOT_SCHEDULED : FEEDBACK_SLOT_NOTHING;
}

/* Subframe 1, and 6 in the configurations that have two special subframes. */
static bool is_special(struct feedback_settings settings, unsigned subframe)
{
    bool has_two = settings.config < 3 || settings.config == 6;
    return subframe == 1 || (subframe == 6 && has_two);
}

/* Data is sent in every downlink subframe but a special one that is too short for it. */
static bool takes_data(struct feedback_settings settings, unsigned subframe)
{
    bool is_short = settings.special == 0 ||
                    settings.special == (settings.prefix == FEEDBACK_PREFIX_NORMAL ? 5 : 4);
    return !(is_special(settings, subframe) && is_short);
}

/* Holds grants back until no two share a PUCCH resource. Bit m of the answer: one at position m. */
static unsigned hold_back(const struct station *station, uint16_t n, uint16_t *claims, size_t count)
{
    uint8_t scratch[FEEDBACK_SCRATCH_MOST];
    for (unsigned held = 0;;) {
        struct feedback_claims_answer answer =
            feedback_claims(station->settings, n, claims, count, scratch, sizeof scratch);
        accepted(answer.refusal);
        if (answer.kind == FEEDBACK_CLAIMS_CLEAN)
            return held;
        held |= 1u << claims[answer.index] / 256; /* the position of the claim */
        claims[answer.index] = claims[--count];
    }
}

/*
 * What is sent in the window answered in n, checked before any of it is sent. All is drawn by lot,
 * a scheduled block, which has no DAI and no claim, releases and the sizes of blocks too. There is
 * a second handset, of which only the grants count here. They come last in the list of claims, so
 * it is they that are held back. A PDCCH has four CCEs; with 50 resource blocks there are 61.
 */
static struct window plan(struct station *station, uint16_t n)
{
    struct window window = {.table = feedback_window(station->settings, n),
                            .mode = station->settings.mode};
    accepted(window.table.refusal);
    uint16_t claims[2 * FEEDBACK_WINDOW_MOST], due = draw(&station->random, 2u * window.table.size);
    size_t count = 0;
    window.scheduled = due < window.table.size ? due : FEEDBACK_NONE;
    for (unsigned i = 0; i < window.table.size; i++) {
        unsigned m = window.table.order[i], lot = draw(&station->random, 8);
        struct feedback_sent *sent = &window.sent.at[m];
        const struct size *a = &sizes[draw(&station->random_sizes, 4)];
        const struct size *b = &sizes[draw(&station->random_sizes, 4)];
        uint16_t blocks = (uint16_t)(1 + draw(&station->random, 2));
        bool data = takes_data(station->settings, (n + 20u - window.table.k[m]) % 10);
        if (m == window.scheduled && !data)
            window.scheduled = FEEDBACK_NONE; /* none is sent in this window */
        if (m == window.scheduled)
            *sent = feedback_sent_scheduled(blocks, a->itbs, a->nprb, b->itbs, b->nprb);
        if (m == window.scheduled || lot >= 6)
            continue; /* no PDCCH there */
        uint16_t cce = (uint16_t)(4 * draw(&station->random, 16));
        uint16_t dai = (uint16_t)(count % 4 + 1); /* count PDCCHs came before */
        *sent = lot < 5 && data ? feedback_sent_grant(blocks, cce, dai, a->itbs, a->nprb, b->itbs,
                                                      b->nprb)
                                : feedback_sent_release(cce, dai);
        claims[count++] = FEEDBACK_CLAIM(m, cce);
    }
    for (unsigned m = 0; m < window.table.size; m++)
        if (draw(&station->random, 100) < 50)
            claims[count++] = FEEDBACK_CLAIM(m, 4u * draw(&station->random, 16));
    window.held = hold_back(station, n, claims, count);
    return window;
}

/* What the station sends in subframe s. A window is planned whole in its first subframe. */
static struct feedback_sent send_in(struct station *station, unsigned s)
{
    struct feedback_answered_answer by = feedback_answered(station->settings, (uint16_t)(s % 10));
    if (by.refusal == FEEDBACK_REFUSED_SUBFRAME)
        return feedback_sent_nothing(); /* an uplink subframe */
    accepted(by.refusal);
    struct window *window = &station->window[(s + by.k) % 16];
    if (feedback_window(station->settings, by.n).order[0] == by.position)
        *window = plan(station, by.n);
    return window->sent.at[by.position];
}

/*
 * What the station makes of a reply: its reading, the blocks that leave the retransmission buffer,
 * and what the tenant pays for. It is proved that each of these blocks was decoded. A bundled ACK
 * speaks of what was HEARD and names the last PDCCH of it. If at most four were sent up to and with
 * that one, releases counted, none of these was lost: the DAI would have shown it and the handset
 * kept silent. If more were sent, four or eight may be lost unnoticed, where the DAI comes round to
 * the same value; then the ACK is sure for the named one alone. No DAI counts a scheduled block, so
 * it may be lost unnoticed: the ACK is sure for it only where it is named itself, and then nothing
 * else was heard. A sole block counts for both bits, so either will do for the buffer; it is paid
 * for by the first.
 */
struct verdict {
    struct feedback_reading_answer reading;
    struct feedback_confirmed_answer confirmed;
    struct feedback_credit_answer credit;
};

/* A reply in subframe s is read, in the mode of its window, beside what was sent there. */
static struct verdict conclude(struct station *station, unsigned s, uint16_t resource, uint16_t b0,
                               uint16_t b1)
{
    const struct window *window = &station->window[s % 16];
    struct feedback_settings settings = station->settings;
    uint16_t n = (uint16_t)(s % 10);
    settings.mode = window->mode;
    struct verdict verdict = {
        .reading = feedback_reading(settings, n, window->scheduled, resource, b0, b1),
        .confirmed = feedback_confirmed(settings, n, window->sent, resource, b0, b1),
        .credit = feedback_credit(settings, n, window->sent, resource, b0, b1, station->account)};
    accepted(verdict.reading.refusal);
    accepted(verdict.confirmed.refusal);
    accepted(verdict.credit.refusal);
    station->account = verdict.credit.account;
    return verdict;
}

/* ==== The radio and the handset. What was lost and what was decoded is known here alone. ==== */

struct radio {
    struct feedback_handset handset;
    uint32_t random;
    unsigned loss;     /* per cent of what is sent */
    char marks[16][3]; /* of the blocks sent in s, at s % 16: ? lost, x undecoded, + decoded */
};

/*
 * The handset in subframe s: it takes what it hears, or says what it sends, and if that is nothing,
 * why.
 */
static struct feedback_silence_answer receive_in(struct radio *radio, unsigned s,
                                                 struct feedback_sent sent)
{
    char *marks = radio->marks[s % 16];
    bool lost = draw(&radio->random, 100) < radio->loss;
    for (unsigned i = 0; i < 2; i++) {
        bool failed = draw(&radio->random, 100) < 15;
        marks[i] = i >= sent.blocks ? '\0' : lost ? '?' : failed ? 'x' : '+';
    }
    if (kind_of(sent) == FEEDBACK_SLOT_RELEASE && lost)
        marks[0] = '?';
    uint16_t first = marks[0] == '+', second = marks[1] == '+';
    struct feedback_silence_answer told = {.cause = FEEDBACK_CAUSE_NONE};
    struct feedback_fed *fed = &told.fed;
    switch (lost ? FEEDBACK_SLOT_NOTHING : kind_of(sent)) {
    case FEEDBACK_SLOT_GRANT:
        *fed = feedback_feed_grant(radio->handset, sent.blocks, first, second, sent.cce, sent.dai);
        break;
    case FEEDBACK_SLOT_SCHEDULED:
        *fed = feedback_feed_scheduled(radio->handset, sent.blocks, first, second);
        break;
    case FEEDBACK_SLOT_RELEASE:
        *fed = feedback_feed_release(radio->handset, sent.cce, sent.dai);
        break;
    default:
        told = feedback_silence(radio->handset); /* feedback_feed_nothing, with the cause */
    }
    accepted(fed->refusal);
    radio->handset = fed->handset;
    return told;
}

/* ==== Higher layers. They change the mode of both ends between two subframes. ==== */

static const char *const modes[] = {"bundling", "multiplexing"};

static void change_mode(struct station *station, struct radio *radio, unsigned s)
{
    uint16_t mode = !station->settings.mode;
    struct feedback_changed changed = feedback_change_mode(radio->handset, mode);
    accepted(changed.refusal);
    radio->handset = changed.handset;
    station->settings.mode = mode;
    printf("%5u.%u | %s for the windows that begin from here on\n", s / 10, s % 10, modes[mode]);
}

/* ==== The check. It alone sees both: a window's line, and whether what left was decoded. ==== */

/* ACK bits as text, by 2 * b0 + b1. */
static const char *const acks[] = {"NACK NACK", "NACK ACK", "ACK NACK", "ACK ACK"};

struct tally {
    unsigned sent, left, undecoded; /* blocks */
    unsigned octets, overpaid;      /* billed by the answers; of these beyond what was decoded */
    unsigned misled;                /* silences with a cause that is not true */
};

/* The octets of a block that was sent: its row of sizes has its I_TBS. */
static unsigned octets_of(uint16_t itbs, bool special)
{
    const struct size *size = sizes;
    while (size->itbs != itbs)
        size++;
    return special ? size->octets_in_special : size->octets;
}

/* The bill for a window has no more octets than the handset decoded in it. */
static void check_bill(struct tally *tally, const struct station *station,
                       const struct radio *radio, unsigned s, unsigned billed)
{
    const struct window *window = &station->window[s % 16];
    unsigned decoded = 0;
    for (unsigned m = 0; m < window->table.size; m++) {
        unsigned at = s - window->table.k[m];
        bool special = is_special(station->settings, at % 10);
        const struct feedback_sent *sent = &window->sent.at[m];
        if (radio->marks[at % 16][0] == '+')
            decoded += octets_of(sent->itbs0, special);
        if (radio->marks[at % 16][1] == '+')
            decoded += octets_of(sent->itbs1, special);
    }
    tally->octets += billed;
    tally->overpaid += billed > decoded ? billed - decoded : 0;
}

/*
 * The cause of a silence, beside what was heard and, which the handset did not know, lost: nothing
 * was heard; or V is the DAI of the last PDCCH heard and the value expected is by their number, and
 * as many as these two differ by, modulo 4, were lost before it, and that is not 0.
 */
static bool is_cause(const struct window *window, const struct radio *radio, unsigned s,
                     struct feedback_silence_answer told)
{
    unsigned blocks = 0, pdcchs = 0, dai = 0, lost = 0, lost_before = 0;
    for (unsigned i = 0; i < window->table.size; i++) {
        unsigned m = window->table.order[i], kind = kind_of(window->sent.at[m]);
        bool is_lost = radio->marks[(s - window->table.k[m]) % 16][0] == '?';
        if (kind == FEEDBACK_SLOT_SCHEDULED)
            blocks += !is_lost;
        else if (kind != FEEDBACK_SLOT_NOTHING && is_lost)
            lost++;
        else if (kind != FEEDBACK_SLOT_NOTHING) {
            pdcchs++;
            dai = window->sent.at[m].dai;
            lost_before = lost;
        }
    }
    if (pdcchs == 0)
        return told.cause == FEEDBACK_CAUSE_NOTHING_HEARD && blocks == 0 && told.v == 0 &&
               told.expected == 0;
    return told.cause == FEEDBACK_CAUSE_MISS_SHOWN && told.v == dai &&
           told.expected == (pdcchs - 1) % 4 + 1 && lost_before % 4 != 0 &&
           lost_before % 4 == (told.v + 4u - told.expected) % 4;
}

static void check(struct tally *tally, const struct station *station, const struct radio *radio,
                  unsigned s, struct feedback_silence_answer told, struct verdict verdict,
                  int width)
{
    const struct feedback_fed fed = told.fed;
    const struct window *window = &station->window[s % 16];
    static const char *const kinds[] = {"-", "", "s", "r"}; /* by enum feedback_slot_kind */
    const struct feedback_window_answer *table = &window->table;
    const struct feedback_reading_answer reading = verdict.reading;
    printf("%5u.%u |", s / 10, s % 10);
    for (unsigned i = 0; i < table->size; i++) {
        unsigned m = table->order[i], at = s - table->k[m];
        const char *kind = kinds[kind_of(window->sent.at[m])];
        width -= printf(" %u%c%s%-*s", at % 10, window->held >> m & 1 ? '!' : ':', kind,
                        *kind == '\0' ? 3 : 2, radio->marks[at % 16]);
        tally->sent += window->sent.at[m].blocks;
    }
    if (fed.kind == FEEDBACK_KIND_SILENT) {
        bool is_true = is_cause(window, radio, s, told);
        printf("%*s| silent: %s%s\n", width, "",
               feedback_cause_text(told.cause, told.v, told.expected), is_true ? "" : " UNTRUE");
        tally->misled += !is_true;
        return;
    }
    char name[12] = "block";
    if (!reading.scheduled)
        snprintf(name, sizeof name, "CCE %u", reading.cce);
    printf("%*s| bits %u%u on %-3u | %u %-6s %-9s | %6u |", width, "", fed.b0, fed.b1, fed.resource,
           (s - table->k[reading.position]) % 10, name,
           reading.kind == FEEDBACK_KIND_BUNDLED ? acks[2 * reading.b0 + reading.b1]
           : reading.delivered != 0              ? "delivered"
                                                 : "none",
           (unsigned)verdict.credit.octets);
    check_bill(tally, station, radio, s, verdict.credit.octets);
    for (unsigned i = 0; i < 2u * table->size; i++) {
        unsigned m = table->order[i / 2], at = s - table->k[m], block = i % 2;
        bool decoded = radio->marks[at % 16][block] == '+';
        unsigned confirmed = block == 0 ? verdict.confirmed.first : verdict.confirmed.second;
        if (!(confirmed >> m & 1))
            continue;
        printf(" %u%c%s", at % 10, "ab"[block], decoded ? "" : " UNDECODED");
        tally->left++;
        tally->undecoded += !decoded;
    }
    puts("");
}

/* The account at the end of a run: its octets are those of the answers, and they cost the price. */
static bool put_bill(struct feedback_account account, const struct tally *tally)
{
    printf("%llu octets at %u per million: %llu charged, %u millionths carried on\n",
           (unsigned long long)account.octets, (unsigned)account.price,
           (unsigned long long)account.charged, (unsigned)account.carry);
    return account.octets == tally->octets && tally->overpaid == 0 &&
           account.octets * account.price == 1000000 * account.charged + account.carry;
}

/* One run, with 50 resource blocks, N1 10 and up to two blocks in a grant; the exit status. */
static int run(const uint16_t number[ARGUMENTS])
{
    struct feedback_settings settings = FEEDBACK_SETTINGS(number[CONFIG], 50, 10, number[MODE], 2);
    settings.scheduled = 7; /* for the scheduled block, below N1 */
    if (number[SHORT])
        settings.special = 5; /* FEEDBACK_SETTINGS gives 7: special subframes carry data */
    struct feedback_made made = feedback_make(settings);
    struct feedback_opened opened = feedback_open_account(PRICE);
    accepted(made.refusal);
    accepted(opened.refusal);
    struct station station = {.settings = settings,
                              .account = opened.account,
                              .random = number[SEED],
                              .random_sizes = number[SEED]};
    struct radio radio = {.handset = made.handset, .random = ~station.random, .loss = number[LOSS]};
    struct tally tally = {0};
    int width = number[CONFIG] == 5 ? 55 : 25; /* of nine subframes, or four */
    printf("\nconfiguration %u, %s%s, %u frames, %u %% lost, seed %u%s\n"
           "frame.n |%-*s| reply          | reading            | octets | blocks that leave the "
           "buffer\n",
           number[CONFIG], modes[number[MODE]], number[CHANGE] ? " at first" : "", number[FRAMES],
           number[LOSS], number[SEED], number[SHORT] ? ", no data in special subframes" : "",
           width, " subframes in time order");
    for (unsigned s = 0; s < number[FRAMES] * 10u; s++) {
        if (number[CHANGE] != 0 && s != 0 && s % number[CHANGE] == 0)
            change_mode(&station, &radio, s);
        struct feedback_silence_answer told = receive_in(&radio, s, send_in(&station, s));
        const struct feedback_fed fed = told.fed;
        struct verdict verdict = {0};
        if (fed.kind == FEEDBACK_KIND_TAKEN || fed.kind == FEEDBACK_KIND_NO_WINDOW ||
            station.window[s % 16].table.size == 0) /* a window that began before the run */
            continue;
        if (fed.kind != FEEDBACK_KIND_SILENT) /* the reply comes in at the station */
            verdict = conclude(&station, s, fed.resource, fed.b0, fed.b1);
        check(&tally, &station, &radio, s, told, verdict, width);
    }
    printf("of %u blocks %u left the buffer, %u of them undecoded\n", tally.sent, tally.left,
           tally.undecoded);
    return !put_bill(station.account, &tally) || tally.undecoded != 0 || tally.misled != 0;
}

/* ==== Two antenna ports: a handset that replies on two resources, beside one with one port ==== */

/* Which of the two handsets a line is about, and the resources it sends on. */
static void put_handset(struct feedback_settings settings)
{
    printf("handset with %s ", settings.ports == 2 ? "two ports:" : "one port: ");
}

static void put_resources(uint16_t resource, uint16_t second)
{
    printf(" on %u", resource);
    if (second != 0)
        printf(" and %u", second);
}

/* A grant in the window of 2, configuration 1: position 0 is subframe 5, position 1 is 6. */
static void put_grant(struct feedback_settings settings, uint16_t position, uint16_t cce)
{
    struct feedback_resource_answer mapped = feedback_resource(settings, 2, position, cce);
    accepted(mapped.refusal);
    put_handset(settings);
    printf("grant in %u, CCE %u, answered", 5 + position, cce);
    put_resources(mapped.resource, mapped.second);
}

/* The handset hears that grant alone and replies. The station reads the first port's resource. */
static int put_reply(struct feedback_settings settings, uint16_t position, uint16_t cce)
{
    struct feedback_made made = feedback_make(settings);
    accepted(made.refusal);
    made.handset.next = (uint16_t)(5 + position);
    struct feedback_fed fed = feedback_feed_grant(made.handset, 2, 1, 1, cce, 1);
    for (unsigned s = 6u + position; s <= 12 && fed.refusal == 0; s++) /* to 2 of the next frame */
        fed = feedback_feed_nothing(fed.handset);
    accepted(fed.refusal);
    struct feedback_reading_answer reading =
        feedback_reading(settings, 2, FEEDBACK_NONE, fed.resource, fed.b0, fed.b1);
    accepted(reading.refusal);
    put_handset(settings);
    printf("bits %u%u", fed.b0, fed.b1);
    put_resources(fed.resource, fed.second);
    printf(", read as %u CCE %u %s\n", 5 + reading.position, reading.cce,
           acks[2 * reading.b0 + reading.b1]);
    return reading.position != position || reading.cce != cce || !reading.b0 || !reading.b1;
}

/*
 * Both handsets get a grant that is answered in 2. The second one's is moved up until no two
 * resources coincide. One handset has two ports, so the claims are to be checked with two: checked
 * with one, no second resource is looked at, and they are clean from the start.
 */
static int two_ports(void)
{
    static const char *const kinds[] = {"refused", "clean", "clash"}; /* of claims */
    struct feedback_settings one = FEEDBACK_SETTINGS(1, 50, 10, FEEDBACK_MODE_BUNDLING, 2);
    struct feedback_settings two = one;
    two.ports = 2; /* only with bundling, and with no resource for scheduled blocks */
    uint8_t scratch[FEEDBACK_SCRATCH_MOST];
    puts("\ntwo antenna ports: configuration 1, bundling, subframe 2 answers for 5 and 6");
    put_grant(two, 0, 10);
    puts("");
    for (uint16_t cce = 0;; cce += 2) {
        uint16_t claims[] = {FEEDBACK_CLAIM(0, 10), FEEDBACK_CLAIM(1, cce)};
        struct feedback_claims_answer by_one =
            feedback_claims(one, 2, claims, 2, scratch, sizeof scratch);
        struct feedback_claims_answer by_two =
            feedback_claims(two, 2, claims, 2, scratch, sizeof scratch);
        accepted(by_one.refusal);
        accepted(by_two.refusal);
        put_grant(one, 1, cce);
        printf("; checked with one port %s, with two %s\n", kinds[by_one.kind], kinds[by_two.kind]);
        if (by_two.kind == FEEDBACK_CLAIMS_CLEAN) {
            int failed = put_reply(two, 0, 10);
            return put_reply(one, 1, cce) || failed;
        }
    }
}

int main(int argc, char **argv)
{
    for (int i = 1; i < argc; i++) {
        char *end;
        long value = strtol(argv[i], &end, 10), most = i - 1 == LOSS ? 100 : 65535;
        if (i > ARGUMENTS || end == argv[i] || *end != '\0' || value < 0 || value > most) {
            fprintf(stderr,
                    "usage: cell [CONFIGURATION [MODE [FRAMES [LOSS-PERCENT [SEED [SHORT "
                    "[CHANGE]]]]]]]; refused argument %d: one too many, or not a number 0 to %ld\n",
                    i, most);
            return 2;
        }
        runs[0][i - 1] = (uint16_t)value;
    }
    puts("Blocks a and b of a subframe: + decoded, x heard but not decoded, ? lost; - none sent.\n"
         "s: they are scheduled, with no PDCCH. r: a release, which has no blocks; r? lost.\n"
         "! a grant of the second handset was held back: it would have shared the resource.\n"
         "Reply: bits on a PUCCH resource, or why the handset is silent.\n"
         "Reading: the PDCCH named, or the scheduled block.\n"
         "Octets: billed by this reply, of blocks that leave the buffer.");
    int status = 0;
    for (size_t i = 0; i < (argc > 1 ? 1 : sizeof runs / sizeof *runs); i++)
        status |= run(runs[i]);
    if (argc == 1)
        status |= two_ports();
    return status;
}
