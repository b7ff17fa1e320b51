/*
 * The C header against the library: every call, constant, field and parameter name of
 * include/feedback.h, with values worked out by hand from documents 01 and 02. They are chosen so
 * that exchanging two parameters, fields or numbers of the header changes an answer. Valid as C99
 * to C17 and as C++98 to C++17. The argument is the header's file: the names of the parameters,
 * their descriptions, the table of windows, the layouts of a trace and of a register block and the
 * order of refusals are read from its text.
 */
#include "feedback.h"
#include "feedback_text.h"
#include <stdio.h>
#include <stdlib.h>
#include <string.h>

#if FEEDBACK_VERSION != 50501
#error "FEEDBACK_VERSION is for the preprocessor too"
#endif

static unsigned checks, failures;

static void equal(int line, const char *what, unsigned long got, unsigned long wanted)
{
    checks++;
    if (got != wanted) {
        failures++;
        printf("line %d: %s is %lu, not %lu\n", line, what, got, wanted);
    }
}

static void same(int line, const char *what, const char *got, const char *wanted)
{
    checks++;
    if (strcmp(got, wanted) != 0) {
        failures++;
        printf("line %d: %s is\n  %s\nand not\n  %s\n", line, what, got, wanted);
    }
}

#define EQUAL(got, wanted) equal(__LINE__, #got, got, wanted)
#define SAME(got, wanted) same(__LINE__, #got, got, wanted)
#define HOLDS(condition) equal(__LINE__, #condition, (condition) ? 1 : 0, 1)
#define BYTES(got, wanted, size) HOLDS(memcmp(got, wanted, size) == 0)

/* ---- the header's text ---- */

static char text[131072];

static void read_header(const char *name)
{
    FILE *file = fopen(name, "r");
    size_t length = file == NULL ? 0 : fread(text, 1, sizeof text - 1, file);
    if (length == 0 || length == sizeof text - 1 || fclose(file) != 0) {
        printf("%s cannot be read, or is too long\n", name);
        exit(2);
    }
}

static int is_word(char letter)
{
    return letter != '\0' && strchr("abcdefghijklmnopqrstuvwxyz_0123456789", letter) != NULL;
}

/* The place where the header declares a call: the name, with a blank before it and ( after it. */
static const char *declaration(const char *name)
{
    size_t length = strlen(name);
    const char *at = text;
    while ((at = strstr(at, name)) != NULL && (at[-1] != ' ' || at[length] != '('))
        at++;
    if (at == NULL) {
        printf("the header does not declare %s\n", name);
        exit(1);
    }
    return at;
}

/* Puts the word between two places at the end of a list of names; gives back the new end. */
static char *put_name(char *names, char *end, const char *word, const char *stop)
{
    end += sprintf(end, "%s", end == names ? "(" : ", ");
    while (word < stop)
        *end++ = *word++;
    return end;
}

/* The names of a declaration's parameters, as (a, b, c): the word before each comma and the end. */
static void read_parameters(const char *at, char *names)
{
    char *end = names;
    for (at = strchr(at, '('); *at != ';'; at++)
        if (at[1] == ',' || at[1] == ')') {
            const char *word = at + 1;
            while (is_word(word[-1]))
                word--;
            end = put_name(names, end, word, at + 1);
        }
    strcpy(end, ")");
}

/* The names that the comment above a declaration describes: its first lines with three blanks. */
static void read_descriptions(const char *at, char *names)
{
    char *end = names;
    while (strncmp(at, "\n/*\n", 4) != 0)
        at--;
    at = strstr(at, "\n *   ");
    for (; strncmp(at, "\n *   ", 6) == 0; at = strchr(at, '\n'))
        for (at += 6; is_word(*at); at += strncmp(at, ", ", 2) == 0 ? 2 : 0) {
            const char *word = at;
            while (is_word(*at))
                at++;
            end = put_name(names, end, word, at);
        }
    strcpy(end, ")");
}

/* The arguments of a call are variables of the parameters' names; so they stand in the header. */
static void named(int line, const char *call, const char *arguments)
{
    char names[256];
    read_parameters(declaration(call), names);
    same(line, call, names, arguments);
    read_descriptions(declaration(call), names);
    same(line, call, names, arguments);
}

#define CALL(call, arguments) (named(__LINE__, #call, #arguments), call arguments)

/* ---- constants ---- */

static void numbers(void)
{
    char version[32];
    EQUAL(FEEDBACK_NOT_REFUSED, 0);
    EQUAL(FEEDBACK_REFUSED_CONFIGURATION, 1);
    EQUAL(FEEDBACK_REFUSED_BANDWIDTH, 2);
    EQUAL(FEEDBACK_REFUSED_N1, 3);
    EQUAL(FEEDBACK_REFUSED_MODE, 4);
    EQUAL(FEEDBACK_REFUSED_MULTIPLEXING, 5);
    EQUAL(FEEDBACK_REFUSED_BLOCKS, 6);
    EQUAL(FEEDBACK_REFUSED_SUBFRAME, 7);
    EQUAL(FEEDBACK_REFUSED_STATE, 8);
    EQUAL(FEEDBACK_REFUSED_UPLINK, 9);
    EQUAL(FEEDBACK_REFUSED_CARRIED, 10);
    EQUAL(FEEDBACK_REFUSED_CCE, 11);
    EQUAL(FEEDBACK_REFUSED_DAI, 12);
    EQUAL(FEEDBACK_REFUSED_RESOURCE, 13);
    EQUAL(FEEDBACK_REFUSED_BITS, 14);
    EQUAL(FEEDBACK_REFUSED_SCRATCH, 15);
    EQUAL(FEEDBACK_REFUSED_CLAIM, 16);
    EQUAL(FEEDBACK_REFUSED_SCHEDULED_RESOURCE, 17);
    EQUAL(FEEDBACK_REFUSED_SCHEDULED, 18);
    EQUAL(FEEDBACK_REFUSED_SPECIAL, 19);
    EQUAL(FEEDBACK_REFUSED_SHORT, 20);
    EQUAL(FEEDBACK_REFUSED_TRACE_LENGTH, 21);
    EQUAL(FEEDBACK_REFUSED_TRACE_PARTS, 22);
    EQUAL(FEEDBACK_REFUSED_OUTPUT, 23);
    EQUAL(FEEDBACK_REFUSED_PORTS, 24);
    EQUAL(FEEDBACK_REFUSED_SIZE_OR_ACCOUNT, 25);
    EQUAL(FEEDBACK_REFUSED_TOTAL, 26);
    EQUAL(FEEDBACK_REFUSED_GAME, 27);
    EQUAL(FEEDBACK_REFUSED_COMMAND, 28);
    EQUAL(FEEDBACK_REFUSED_REGISTER_BLOCK, 29);
    EQUAL(FEEDBACK_KIND_REFUSED, 0);
    EQUAL(FEEDBACK_KIND_BUNDLED, 1);
    EQUAL(FEEDBACK_KIND_MULTIPLEXED, 2);
    EQUAL(FEEDBACK_KIND_SILENT, 3);
    EQUAL(FEEDBACK_KIND_TAKEN, 4);
    EQUAL(FEEDBACK_KIND_NO_WINDOW, 5);
    EQUAL(FEEDBACK_CAUSE_NONE, 0);
    EQUAL(FEEDBACK_CAUSE_NOTHING_HEARD, 1);
    EQUAL(FEEDBACK_CAUSE_MISS_SHOWN, 2);
    EQUAL(FEEDBACK_CLAIMS_REFUSED, 0);
    EQUAL(FEEDBACK_CLAIMS_CLEAN, 1);
    EQUAL(FEEDBACK_CLAIMS_CLASH, 2);
    EQUAL(FEEDBACK_REPLAY_REFUSED, 0);
    EQUAL(FEEDBACK_REPLAY_DONE, 1);
    EQUAL(FEEDBACK_REPLAY_STOPPED, 2);
    EQUAL(FEEDBACK_RECORD_REFUSED, 0);
    EQUAL(FEEDBACK_RECORD_READ, 1);
    EQUAL(FEEDBACK_RECORD_END, 2);
    EQUAL(FEEDBACK_WRITE_REFUSED, 0);
    EQUAL(FEEDBACK_WRITE_DONE, 1);
    EQUAL(FEEDBACK_WRITE_STOPPED, 2);
    EQUAL(FEEDBACK_MODE_BUNDLING, 0);
    EQUAL(FEEDBACK_MODE_MULTIPLEXING, 1);
    EQUAL(FEEDBACK_PREFIX_NORMAL, 0);
    EQUAL(FEEDBACK_PREFIX_EXTENDED, 1);
    EQUAL(FEEDBACK_SLOT_NOTHING, 0);
    EQUAL(FEEDBACK_SLOT_GRANT, 1);
    EQUAL(FEEDBACK_SLOT_SCHEDULED, 2);
    EQUAL(FEEDBACK_SLOT_RELEASE, 3);
    EQUAL(FEEDBACK_FIRST_DECODED, 1);
    EQUAL(FEEDBACK_SECOND_DECODED, 2);
    EQUAL(FEEDBACK_TWO_CARRIED, 4);
    EQUAL(FEEDBACK_BLOCK_KIND, 0);
    EQUAL(FEEDBACK_BLOCK_CCE, 1);
    EQUAL(FEEDBACK_BLOCK_DAI, 2);
    EQUAL(FEEDBACK_BLOCK_RESULTS, 3);
    EQUAL(FEEDBACK_BLOCK_DROPPED, 0);
    EQUAL(FEEDBACK_BLOCK_COMMAND, 4);
    EQUAL(FEEDBACK_BLOCK_FLAGS, 5);
    EQUAL(FEEDBACK_BLOCK_MASK, 6);
    EQUAL(FEEDBACK_BLOCK_REFUSAL, 7);
    EQUAL(FEEDBACK_BLOCK_REPLY, 8);
    EQUAL(FEEDBACK_BLOCK_BYTES, 16);
    EQUAL(FEEDBACK_COMMAND_NONE, 0);
    EQUAL(FEEDBACK_COMMAND_FEED, 1);
    EQUAL(FEEDBACK_COMMAND_CLEAR, 2);
    EQUAL(FEEDBACK_FLAG_READY, 1);
    EQUAL(FEEDBACK_FLAG_REFUSED, 2);
    EQUAL(FEEDBACK_FLAG_OVERWRITTEN, 4);
    EQUAL(FEEDBACK_WINDOW_MOST, 9);
    EQUAL(FEEDBACK_LOSSES_MOST, 9);
    EQUAL(FEEDBACK_MEMORY, 13);
    EQUAL(FEEDBACK_SCRATCH_MOST, 1207); /* M 9, N_4 134 where N_RB is 110, and the second port */
    EQUAL(FEEDBACK_BIT_SCRATCH_MOST, 151); /* 8 * 150 and 7 */
    EQUAL(FEEDBACK_ITBS_MOST, 26);
    EQUAL(FEEDBACK_NPRB_MOST, 110);
    EQUAL(FEEDBACK_PRICE_MOST, 1000000);
    EQUAL(FEEDBACK_OCTETS_MOST, 1000000000000);
    EQUAL(FEEDBACK_OCTETS_OF_A_WINDOW_MOST, 169596); /* 18 blocks of 9422 octets */
    EQUAL(FEEDBACK_TRACE_HEADER, 8);
    EQUAL(FEEDBACK_TRACE_SETTINGS, 10);
    EQUAL(FEEDBACK_TRACE_RECORD, 4);
    EQUAL(FEEDBACK_RECORDS_MOST, 16379); /* 65535 - 18 is 4 * 16379 + 1 */
    EQUAL(FEEDBACK_WINDOW_BYTES, 8);
    EQUAL(FEEDBACK_WINDOWS_MOST, 8190); /* 5 in each of 1637 frames, 5 in 9 subframes more */
    EQUAL(FEEDBACK_SPELLED_FIRST, 18);
    EQUAL(FEEDBACK_SPELLED_MOST, 65534); /* 18 + 4 * 16379 */
    EQUAL(FEEDBACK_NONE, 65535);
    EQUAL(FEEDBACK_VERSION, 50501);
    sprintf(version, "%d.%d.%d", FEEDBACK_VERSION / 10000, FEEDBACK_VERSION / 100 % 100,
            FEEDBACK_VERSION % 100);
    SAME(FEEDBACK_VERSION_TEXT, version);
    EQUAL(feedback_layout_5(), 5);
    EQUAL(FEEDBACK_LAYOUT_LINKED, 1);
}

#define SIZE(type, size) EQUAL(sizeof(struct type), size)
#define PLACE(type, field, place) EQUAL(offsetof(struct type, field), place)

static void layout(void)
{
    SIZE(feedback_settings, 18);
    PLACE(feedback_settings, config, 0);
    PLACE(feedback_settings, nrb, 2);
    PLACE(feedback_settings, n1, 4);
    PLACE(feedback_settings, mode, 6);
    PLACE(feedback_settings, blocks, 8);
    PLACE(feedback_settings, scheduled, 10);
    PLACE(feedback_settings, prefix, 12);
    PLACE(feedback_settings, special, 14);
    PLACE(feedback_settings, ports, 16);
    SIZE(feedback_window_answer, 40);
    PLACE(feedback_window_answer, refusal, 0);
    PLACE(feedback_window_answer, size, 2);
    PLACE(feedback_window_answer, k, 4);
    PLACE(feedback_window_answer, order, 22);
    SIZE(feedback_answered_answer, 8);
    PLACE(feedback_answered_answer, refusal, 0);
    PLACE(feedback_answered_answer, n, 2);
    PLACE(feedback_answered_answer, k, 4);
    PLACE(feedback_answered_answer, position, 6);
    SIZE(feedback_resource_answer, 6);
    PLACE(feedback_resource_answer, refusal, 0);
    PLACE(feedback_resource_answer, resource, 2);
    PLACE(feedback_resource_answer, second, 4);
    SIZE(feedback_inverse_answer, 6);
    PLACE(feedback_inverse_answer, refusal, 0);
    PLACE(feedback_inverse_answer, position, 2);
    PLACE(feedback_inverse_answer, cce, 4);
    SIZE(feedback_reading_answer, 16);
    PLACE(feedback_reading_answer, refusal, 0);
    PLACE(feedback_reading_answer, kind, 2);
    PLACE(feedback_reading_answer, position, 4);
    PLACE(feedback_reading_answer, cce, 6);
    PLACE(feedback_reading_answer, b0, 8);
    PLACE(feedback_reading_answer, b1, 10);
    PLACE(feedback_reading_answer, delivered, 12);
    PLACE(feedback_reading_answer, scheduled, 14);
    SIZE(feedback_sent, 16);
    PLACE(feedback_sent, signalled, 0);
    PLACE(feedback_sent, blocks, 2);
    PLACE(feedback_sent, cce, 4);
    PLACE(feedback_sent, dai, 6);
    PLACE(feedback_sent, itbs0, 8);
    PLACE(feedback_sent, nprb0, 10);
    PLACE(feedback_sent, itbs1, 12);
    PLACE(feedback_sent, nprb1, 14);
    SIZE(feedback_sent_window, 144);
    PLACE(feedback_sent_window, at, 0);
    SIZE(feedback_confirmed_answer, 6);
    PLACE(feedback_confirmed_answer, refusal, 0);
    PLACE(feedback_confirmed_answer, first, 2);
    PLACE(feedback_confirmed_answer, second, 4);
    SIZE(feedback_account, 24);
    PLACE(feedback_account, octets, 0);
    PLACE(feedback_account, charged, 8);
    PLACE(feedback_account, price, 16);
    PLACE(feedback_account, carry, 20);
    SIZE(feedback_opened, 32);
    PLACE(feedback_opened, refusal, 0);
    PLACE(feedback_opened, account, 8);
    SIZE(feedback_credit_answer, 32);
    PLACE(feedback_credit_answer, refusal, 0);
    PLACE(feedback_credit_answer, octets, 4);
    PLACE(feedback_credit_answer, account, 8);
    SIZE(feedback_claims_answer, 16);
    PLACE(feedback_claims_answer, refusal, 0);
    PLACE(feedback_claims_answer, kind, 2);
    PLACE(feedback_claims_answer, index, 8);
    SIZE(feedback_slot, 4);
    PLACE(feedback_slot, kind, 0);
    PLACE(feedback_slot, cce, 1);
    PLACE(feedback_slot, dai, 2);
    PLACE(feedback_slot, results, 3);
    SIZE(feedback_handset, 74);
    PLACE(feedback_handset, settings, 0);
    PLACE(feedback_handset, next, 18);
    PLACE(feedback_handset, modes, 20);
    PLACE(feedback_handset, past, 22);
    SIZE(feedback_made, 76);
    PLACE(feedback_made, refusal, 0);
    PLACE(feedback_made, handset, 2);
    SIZE(feedback_changed, 76);
    PLACE(feedback_changed, refusal, 0);
    PLACE(feedback_changed, handset, 2);
    SIZE(feedback_fed, 86);
    PLACE(feedback_fed, refusal, 0);
    PLACE(feedback_fed, kind, 2);
    PLACE(feedback_fed, resource, 4);
    PLACE(feedback_fed, b0, 6);
    PLACE(feedback_fed, b1, 8);
    PLACE(feedback_fed, second, 10);
    PLACE(feedback_fed, handset, 12);
    SIZE(feedback_silence_answer, 92);
    PLACE(feedback_silence_answer, fed, 0);
    PLACE(feedback_silence_answer, cause, 86);
    PLACE(feedback_silence_answer, v, 88);
    PLACE(feedback_silence_answer, expected, 90);
    SIZE(feedback_replay_size_answer, 8);
    PLACE(feedback_replay_size_answer, refusal, 0);
    PLACE(feedback_replay_size_answer, windows, 2);
    PLACE(feedback_replay_size_answer, bytes, 4);
    SIZE(feedback_replay_answer, 8);
    PLACE(feedback_replay_answer, refusal, 0);
    PLACE(feedback_replay_answer, kind, 2);
    PLACE(feedback_replay_answer, record, 4);
    PLACE(feedback_replay_answer, windows, 6);
    SIZE(feedback_record_answer, 8);
    PLACE(feedback_record_answer, refusal, 0);
    PLACE(feedback_record_answer, kind, 2);
    PLACE(feedback_record_answer, slot, 4);
    SIZE(feedback_write_answer, 8);
    PLACE(feedback_write_answer, refusal, 0);
    PLACE(feedback_write_answer, kind, 2);
    PLACE(feedback_write_answer, record, 4);
    PLACE(feedback_write_answer, bytes, 6);
    SIZE(feedback_game_answer, 4);
    PLACE(feedback_game_answer, refusal, 0);
    PLACE(feedback_game_answer, radio, 2);
    SIZE(feedback_command_answer, 78);
    PLACE(feedback_command_answer, refusal, 0);
    PLACE(feedback_command_answer, line, 2);
    PLACE(feedback_command_answer, handset, 4);
}

/* ---- settings ---- */

static struct feedback_settings settings_of(uint16_t config, uint16_t mode, uint16_t blocks)
{
    return FEEDBACK_SETTINGS(config, 50, 10, mode, blocks);
}

static struct feedback_settings with_scheduled(struct feedback_settings settings, uint16_t resource)
{
    settings.scheduled = resource;
    return settings;
}

static struct feedback_settings with_special(struct feedback_settings settings, uint16_t prefix,
                                             uint16_t special)
{
    settings.prefix = prefix;
    settings.special = special;
    return settings;
}

static struct feedback_settings with_ports(struct feedback_settings settings, uint16_t ports)
{
    settings.ports = ports;
    return settings;
}

static void settings_macro(void)
{
    struct feedback_settings given = {2, 50, 10, 0, 1, 65535, 0, 7, 1};
    struct feedback_settings made = FEEDBACK_SETTINGS(2, 50, 10, 0, 1);
    EQUAL(given.config, 2);
    EQUAL(given.nrb, 50);
    EQUAL(given.n1, 10);
    EQUAL(given.mode, 0);
    EQUAL(given.blocks, 1);
    EQUAL(given.scheduled, FEEDBACK_NONE);
    EQUAL(given.prefix, FEEDBACK_PREFIX_NORMAL);
    EQUAL(given.special, 7);
    EQUAL(given.ports, 1);
    BYTES(&given, &made, sizeof made);
    made = FEEDBACK_SETTINGS(65536, 65535, 131077, 4294967297u, 65534);
    EQUAL(made.config, 65535);
    EQUAL(made.nrb, 65535);
    EQUAL(made.n1, 65535);
    EQUAL(made.mode, 65535);
    EQUAL(made.blocks, 65534);
    EQUAL(made.scheduled, FEEDBACK_NONE);
    EQUAL(made.prefix, 0);
    EQUAL(made.special, 7);
    EQUAL(made.ports, 1);
}

/* The two calls with a sent window refuse these settings; every number beside them is bad too. */
static void sent_refused(struct feedback_settings bad, unsigned refusal)
{
    struct feedback_sent_window sent;
    struct feedback_account account = {1, 2, 1000001, 1000000};
    struct feedback_confirmed_answer confirmed;
    struct feedback_credit_answer credited;
    memset(&sent, 255, sizeof sent);
    confirmed = feedback_confirmed(bad, 11, sent, 9999, 8, 9);
    EQUAL(confirmed.refusal, refusal);
    EQUAL(confirmed.first, 0);
    EQUAL(confirmed.second, 0);
    credited = feedback_credit(bad, 11, sent, 9999, 8, 9, account);
    EQUAL(credited.refusal, refusal);
    EQUAL(credited.octets, 0);
    BYTES(&credited.account, &account, sizeof account);
}

/* Every call refuses these settings with this number, and a feed of such a state 8. */
static void settings_refused(struct feedback_settings bad, unsigned refusal)
{
    static struct feedback_handset zero;
    uint16_t claim = FEEDBACK_CLAIM(7, 77);
    uint8_t scratch = 99, bits = 98;
    struct feedback_window_answer window = feedback_window(bad, 11);
    struct feedback_answered_answer answered = feedback_answered(bad, 11);
    struct feedback_resource_answer mapped = feedback_resource(bad, 11, 99, 999);
    struct feedback_inverse_answer inverted = feedback_inverse(bad, 11, 9999);
    struct feedback_reading_answer reading = feedback_reading(bad, 11, 99, 9999, 8, 9);
    struct feedback_claims_answer claimed = feedback_claims(bad, 11, &claim, 1, &scratch, 1);
    struct feedback_claims_answer by_bits = feedback_claims_bits(bad, 11, &claim, 1, &bits, 1);
    struct feedback_made made = feedback_make(bad);
    struct feedback_handset handset = zero;
    struct feedback_changed changed;
    struct feedback_fed fed;
    unsigned i;
    EQUAL(window.refusal, refusal);
    EQUAL(window.size, 0);
    for (i = 0; i < 9; i++) {
        EQUAL(window.k[i], 0);
        EQUAL(window.order[i], 0);
    }
    EQUAL(answered.refusal, refusal);
    EQUAL(answered.n, 0);
    EQUAL(answered.k, 0);
    EQUAL(answered.position, 0);
    EQUAL(mapped.refusal, refusal);
    EQUAL(mapped.resource, 0);
    EQUAL(mapped.second, 0);
    EQUAL(inverted.refusal, refusal);
    EQUAL(inverted.position, 0);
    EQUAL(inverted.cce, 0);
    EQUAL(reading.refusal, refusal);
    EQUAL(reading.kind, FEEDBACK_KIND_REFUSED);
    EQUAL(reading.position, 0);
    EQUAL(reading.cce, 0);
    EQUAL(reading.b0, 0);
    EQUAL(reading.b1, 0);
    EQUAL(reading.delivered, 0);
    EQUAL(reading.scheduled, 0);
    EQUAL(claimed.refusal, refusal);
    EQUAL(claimed.kind, FEEDBACK_CLAIMS_REFUSED);
    EQUAL(claimed.index, 0);
    EQUAL(scratch, 99);
    EQUAL(by_bits.refusal, refusal);
    EQUAL(by_bits.kind, FEEDBACK_CLAIMS_REFUSED);
    EQUAL(by_bits.index, 0);
    EQUAL(bits, 98);
    sent_refused(bad, refusal);
    EQUAL(made.refusal, refusal);
    BYTES(&made.handset, &zero, sizeof zero);
    EQUAL(feedback_feed_nothing(zero).refusal, FEEDBACK_REFUSED_STATE);
    EQUAL(feedback_change_mode(zero, 0).refusal, FEEDBACK_REFUSED_STATE);
    EQUAL(feedback_change_mode(zero, 1).refusal, FEEDBACK_REFUSED_STATE);
    EQUAL(feedback_change_mode(zero, 2).refusal, FEEDBACK_REFUSED_MODE);
    handset.settings = bad;
    fed = feedback_feed_nothing(handset);
    EQUAL(fed.refusal, FEEDBACK_REFUSED_STATE);
    EQUAL(fed.kind, FEEDBACK_KIND_REFUSED);
    EQUAL(fed.second, 0);
    BYTES(&fed.handset, &handset, sizeof handset);
    changed = feedback_change_mode(handset, FEEDBACK_MODE_BUNDLING);
    EQUAL(changed.refusal, FEEDBACK_REFUSED_STATE);
    BYTES(&changed.handset, &handset, sizeof handset);
}

/*
 * The same with a scheduled resource set that is not below N1, with a prefix that there is not, and
 * with three ports: 17, 19 and 24 come after 1 to 6.
 */
static void all_refused(struct feedback_settings bad, unsigned refusal)
{
    settings_refused(bad, refusal);
    settings_refused(with_scheduled(bad, 65534), refusal);
    settings_refused(with_special(bad, 2, 9), refusal);
    settings_refused(with_ports(bad, 3), refusal);
}

static void settings(void)
{
    struct feedback_settings none = FEEDBACK_SETTINGS(4, 6, 0, 1, 1);
    struct feedback_settings most = FEEDBACK_SETTINGS(4, 6, 2047, 1, 1);
    all_refused(FEEDBACK_SETTINGS(7, 5, 2048, 2, 3), FEEDBACK_REFUSED_CONFIGURATION);
    all_refused(FEEDBACK_SETTINGS(6, 5, 2048, 2, 3), FEEDBACK_REFUSED_BANDWIDTH);
    all_refused(FEEDBACK_SETTINGS(6, 111, 2048, 2, 3), FEEDBACK_REFUSED_BANDWIDTH);
    all_refused(FEEDBACK_SETTINGS(6, 110, 2048, 2, 3), FEEDBACK_REFUSED_N1);
    all_refused(FEEDBACK_SETTINGS(5, 6, 2047, 2, 3), FEEDBACK_REFUSED_MODE);
    all_refused(FEEDBACK_SETTINGS(5, 6, 2047, 1, 3), FEEDBACK_REFUSED_MULTIPLEXING);
    all_refused(FEEDBACK_SETTINGS(5, 6, 2047, 0, 3), FEEDBACK_REFUSED_BLOCKS);
    all_refused(FEEDBACK_SETTINGS(4, 6, 2047, 1, 0), FEEDBACK_REFUSED_BLOCKS);
    all_refused(FEEDBACK_SETTINGS(65538, 50, 10, 0, 2), FEEDBACK_REFUSED_CONFIGURATION);
    settings_refused(with_scheduled(most, 65534), FEEDBACK_REFUSED_SCHEDULED_RESOURCE);
    settings_refused(with_scheduled(most, 2047), FEEDBACK_REFUSED_SCHEDULED_RESOURCE);
    settings_refused(with_scheduled(none, 0), FEEDBACK_REFUSED_SCHEDULED_RESOURCE);
    EQUAL(feedback_make(with_scheduled(most, 2046)).refusal, 0);
    EQUAL(feedback_make(with_scheduled(most, 0)).refusal, 0);
    EQUAL(feedback_make(with_scheduled(none, 65535)).refusal, 0);
}

/* 0 to 8 with the normal prefix, 0 to 6 with the extended; 17 comes before 19. */
static void special_settings(void)
{
    struct feedback_settings cell = FEEDBACK_SETTINGS(4, 6, 2047, 1, 1);
    uint16_t special;
    for (special = 0; special < 12; special++) {
        struct feedback_settings normal = with_special(cell, FEEDBACK_PREFIX_NORMAL, special);
        struct feedback_settings extended = with_special(cell, FEEDBACK_PREFIX_EXTENDED, special);
        EQUAL(feedback_make(normal).refusal, special <= 8 ? 0 : FEEDBACK_REFUSED_SPECIAL);
        EQUAL(feedback_make(extended).refusal, special <= 6 ? 0 : FEEDBACK_REFUSED_SPECIAL);
    }
    settings_refused(with_special(cell, FEEDBACK_PREFIX_NORMAL, 9), FEEDBACK_REFUSED_SPECIAL);
    settings_refused(with_special(cell, FEEDBACK_PREFIX_EXTENDED, 7), FEEDBACK_REFUSED_SPECIAL);
    settings_refused(with_special(cell, 2, 6), FEEDBACK_REFUSED_SPECIAL);
    settings_refused(with_special(cell, 256, 6), FEEDBACK_REFUSED_SPECIAL);
    settings_refused(with_special(cell, 0, 256 + 7), FEEDBACK_REFUSED_SPECIAL);
    settings_refused(with_special(with_scheduled(cell, 2047), 2, 9),
                     FEEDBACK_REFUSED_SCHEDULED_RESOURCE);
}

/* One or two; two with mode 0 and no scheduled resource alone. 1 to 6, 17 and 19 come before 24. */
static void port_settings(void)
{
    struct feedback_settings two = with_ports(settings_of(3, FEEDBACK_MODE_BUNDLING, 2), 2);
    struct feedback_settings mode_1 = with_ports(settings_of(3, FEEDBACK_MODE_MULTIPLEXING, 2), 2);
    struct feedback_settings of_5 = with_ports(settings_of(5, FEEDBACK_MODE_MULTIPLEXING, 2), 2);
    struct feedback_settings n1_is_0 = with_ports(FEEDBACK_SETTINGS(3, 50, 0, 0, 2), 2);
    uint16_t ports;
    for (ports = 0; ports < 6; ports++)
        EQUAL(feedback_make(with_ports(two, ports)).refusal,
              ports == 1 || ports == 2 ? 0 : FEEDBACK_REFUSED_PORTS);
    settings_refused(with_ports(two, 0), FEEDBACK_REFUSED_PORTS);
    settings_refused(with_ports(two, 3), FEEDBACK_REFUSED_PORTS);
    settings_refused(with_ports(two, 256 + 1), FEEDBACK_REFUSED_PORTS);
    settings_refused(with_ports(two, 256 + 2), FEEDBACK_REFUSED_PORTS);
    settings_refused(with_ports(two, 65535), FEEDBACK_REFUSED_PORTS);
    settings_refused(mode_1, FEEDBACK_REFUSED_PORTS);
    settings_refused(with_scheduled(two, 9), FEEDBACK_REFUSED_PORTS);
    settings_refused(with_scheduled(two, 0), FEEDBACK_REFUSED_PORTS);
    settings_refused(with_scheduled(mode_1, 9), FEEDBACK_REFUSED_PORTS);
    EQUAL(feedback_make(with_scheduled(with_ports(mode_1, 1), 9)).refusal, 0);
    settings_refused(of_5, FEEDBACK_REFUSED_MULTIPLEXING);
    settings_refused(with_scheduled(mode_1, 10), FEEDBACK_REFUSED_SCHEDULED_RESOURCE);
    settings_refused(with_scheduled(n1_is_0, 0), FEEDBACK_REFUSED_SCHEDULED_RESOURCE);
    settings_refused(with_special(with_scheduled(mode_1, 9), 2, 0), FEEDBACK_REFUSED_SPECIAL);
    settings_refused(with_special(with_ports(two, 0), 1, 7), FEEDBACK_REFUSED_SPECIAL);
}

/* The order in which causes are given, as the header tells it; the tests below meet it in pairs. */
static void order(void)
{
    HOLDS(strstr(text,
                 " 29, 28, 21, 22, 1 to 6, 17, 19, 24, 7, 8, 9, 20, 10, 11, 12, 18, 25, 26, 13, 14,"
                 " 15, 16;\n"
                 " * 23 in feedback_replay after 19 and before any record, in feedback_trace_write"
                 " last of\n"
                 " * all; 27 is given by feedback_game alone, which gives no other.\n"
                 " * 26 is about what a reading credits, so it is met only where 13 and 14 are"
                 " not.\n") != NULL);
}

/* ---- windows ---- */

/* Document 01, "Frame and windows": the rows of its table. */
static const char *const rows[7] = {
    "0 DSUUUDSUUU 2: 6 4: 4 7: 6 9: 4",        "1 DSUUDDSUUD 2: 7,6 3: 4 7: 7,6 8: 4",
    "2 DSUDDDSUDD 2: 8,7,4,6 7: 8,7,4,6",      "3 DSUUUDDDDD 2: 7,6,11 3: 6,5 4: 5,4",
    "4 DSUUDDDDDD 2: 12,8,7,11 3: 6,5,4,7",    "5 DSUDDDDDDD 2: 13,12,9,8,7,5,4,11,6",
    "6 DSUUUDSUUD 2: 7 3: 7 4: 5 7: 7 8: 7",
};

/* A row of the table in the header's comment, with one blank for many; gives back where it ends. */
static const char *printed_row(const char *at, char *row)
{
    for (at += strspn(at, "\n *"); *at != '\n'; at++)
        if (*at != ' ' || row[-1] != ' ')
            *row++ = *at;
    *row = '\0';
    return at;
}

/* The same row as the calls give it: where it is short, a special subframe takes no grant. */
static void called_row(uint16_t config, char *row)
{
    struct feedback_handset handset =
        feedback_make(with_special(settings_of(config, 0, 2), FEEDBACK_PREFIX_NORMAL, 5)).handset;
    uint16_t n;
    unsigned m;
    row += sprintf(row, "%u ", 0u + config);
    for (n = 0; n < 10; n++) {
        unsigned refusal = feedback_feed_grant(handset, 1, 1, 0, 0, 1).refusal;
        int uplink = refusal == FEEDBACK_REFUSED_UPLINK;
        EQUAL(feedback_answered(handset.settings, n).refusal, uplink ? 7 : 0);
        *row++ = uplink ? 'U' : refusal == FEEDBACK_REFUSED_SHORT ? 'S' : 'D';
        handset.next++;
    }
    for (n = 0; n < 10; n++) {
        struct feedback_window_answer window = feedback_window(settings_of(config, 0, 2), n);
        EQUAL(window.refusal, window.size == 0 ? 7 : 0);
        for (m = 0; m < window.size && m < 9; m++)
            row += sprintf(row, m == 0 ? " %u: %u" : ",%.0u%u", m == 0 ? n : 0u, 0u + window.k[m]);
    }
    *row = '\0';
}

static void table(void)
{
    char space[256];
    char *row = space + 1;
    const char *at = strstr(text, " *             configuration   0 to 9        n: K\n");
    uint16_t config;
    space[0] = ' ';
    HOLDS(at != NULL);
    if (at == NULL)
        return;
    at = strchr(at, '\n');
    for (config = 0; config < 7; config++) {
        at = printed_row(at, row);
        SAME(row, rows[config]);
        called_row(config, row);
        SAME(row, rows[config]);
    }
    HOLDS(strncmp(at, "\n *\n", 4) == 0);
}

static void window_of_2(void)
{
    static const uint16_t ks[9] = {8, 7, 4, 6}, times[9] = {0, 1, 3, 2};
    struct feedback_settings settings = settings_of(2, 1, 1);
    uint16_t n = 7;
    struct feedback_window_answer window = CALL(feedback_window, (settings, n));
    EQUAL(window.refusal, 0);
    EQUAL(window.size, 4);
    BYTES(window.k, ks, sizeof ks);
    BYTES(window.order, times, sizeof times);
    window = feedback_window(settings, 3);
    EQUAL(window.refusal, FEEDBACK_REFUSED_SUBFRAME);
    EQUAL(window.size, 0);
    window = feedback_window(settings, 12);
    EQUAL(window.refusal, FEEDBACK_REFUSED_SUBFRAME);
}

static void window_of_5(void)
{
    static const uint16_t ks[9] = {13, 12, 9, 8, 7, 5, 4, 11, 6};
    static const uint16_t times[9] = {0, 1, 7, 2, 3, 4, 8, 5, 6};
    struct feedback_window_answer window = feedback_window(settings_of(5, 0, 2), 2);
    EQUAL(window.refusal, 0);
    EQUAL(window.size, FEEDBACK_WINDOW_MOST);
    BYTES(window.k, ks, sizeof ks);
    BYTES(window.order, times, sizeof times);
}

static void answered(void)
{
    struct feedback_settings settings = settings_of(2, 0, 1);
    uint16_t subframe = 3;
    struct feedback_answered_answer answer = CALL(feedback_answered, (settings, subframe));
    EQUAL(answer.refusal, 0); /* 7 - 4 is 3, and 4 is k_2 of 8,7,4,6 */
    EQUAL(answer.n, 7);
    EQUAL(answer.k, 4);
    EQUAL(answer.position, 2);
    answer = feedback_answered(settings_of(5, 0, 1), 1);
    EQUAL(answer.refusal, 0); /* 12 - 11 is 1, and 11 is k_7 */
    EQUAL(answer.n, 2);
    EQUAL(answer.k, 11);
    EQUAL(answer.position, 7);
    answer = feedback_answered(settings, 7);
    EQUAL(answer.refusal, FEEDBACK_REFUSED_SUBFRAME);
    EQUAL(answer.n, 0);
    EQUAL(answer.k, 0);
    EQUAL(answer.position, 0);
    answer = feedback_answered(settings, 13);
    EQUAL(answer.refusal, FEEDBACK_REFUSED_SUBFRAME);
}

/* ---- the station; N_RB 50, where N_p is 0, 11, 27, 44, 61, and N1 10 ---- */

static void resource_and_inverse(void)
{
    struct feedback_settings settings = settings_of(2, 0, 2);
    uint16_t n = 7, position = 2, cce = 5, resource = 37;
    struct feedback_resource_answer mapped = CALL(feedback_resource, (settings, n, position, cce));
    struct feedback_inverse_answer inverted = CALL(feedback_inverse, (settings, n, resource));
    EQUAL(mapped.refusal, 0); /* region 0: 1 * 0 + 2 * 11 + 5 + 10 */
    EQUAL(mapped.resource, 37);
    EQUAL(mapped.second, 0);
    EQUAL(inverted.refusal, 0);
    EQUAL(inverted.position, 2);
    EQUAL(inverted.cce, 5);
    mapped = feedback_resource(settings, 2, 3, 1);
    EQUAL(mapped.resource, 44); /* region 0: 3 * 11 + 1 + 10 */
    mapped = feedback_resource(settings, 2, 1, 3);
    EQUAL(mapped.resource, 24); /* region 0: 1 * 11 + 3 + 10 */
    mapped = feedback_resource(settings, 2, 3, 13);
    EQUAL(mapped.resource, 104); /* region 1: 0 * 11 + 3 * 27 + 13 + 10 */
    inverted = feedback_inverse(settings, 7, 104);
    EQUAL(inverted.position, 3);
    EQUAL(inverted.cce, 13);
    mapped = feedback_resource(settings, 3, 2, 5);
    EQUAL(mapped.refusal, FEEDBACK_REFUSED_SUBFRAME);
    mapped = feedback_resource(settings, 7, 4, 5);
    EQUAL(mapped.refusal, FEEDBACK_REFUSED_CCE);
    mapped = feedback_resource(settings, 7, 3, 61);
    EQUAL(mapped.refusal, FEEDBACK_REFUSED_CCE);
    inverted = feedback_inverse(settings, 3, 37);
    EQUAL(inverted.refusal, FEEDBACK_REFUSED_SUBFRAME);
    inverted = feedback_inverse(settings, 7, 9);
    EQUAL(inverted.refusal, FEEDBACK_REFUSED_RESOURCE);
    inverted = feedback_inverse(settings, 7, 254); /* 10 + 4 * 61 */
    EQUAL(inverted.refusal, FEEDBACK_REFUSED_RESOURCE);
}

/*
 * Configuration 1, n = 2: M is 2. With two ports (0,10) has 20 and 21, (1,0) has 21 and 22, and the
 * last, (1,60), 131 and 132. The inverse and the reading go by the first of the two.
 */
static void two_resources(void)
{
    struct feedback_settings one = settings_of(1, 0, 2), settings = with_ports(one, 2);
    struct feedback_resource_answer mapped = feedback_resource(settings, 2, 0, 10);
    struct feedback_inverse_answer inverted = feedback_inverse(settings, 2, 21);
    struct feedback_reading_answer reading =
        feedback_reading(settings, 2, FEEDBACK_NONE, 20, 1, 0);
    EQUAL(mapped.refusal, 0);
    EQUAL(mapped.resource, 20);
    EQUAL(mapped.second, 21);
    EQUAL(feedback_resource(settings, 2, 1, 0).resource, 21);
    EQUAL(feedback_resource(settings, 2, 1, 0).second, 22);
    EQUAL(feedback_resource(settings, 2, 1, 60).resource, 131);
    EQUAL(feedback_resource(settings, 2, 1, 60).second, 132);
    EQUAL(feedback_resource(one, 2, 0, 10).resource, 20);
    EQUAL(feedback_resource(one, 2, 0, 10).second, 0);
    mapped = feedback_resource(settings, 2, 1, 61);
    EQUAL(mapped.refusal, FEEDBACK_REFUSED_CCE);
    EQUAL(mapped.resource, 0);
    EQUAL(mapped.second, 0);
    EQUAL(inverted.refusal, 0);
    EQUAL(inverted.position, 1);
    EQUAL(inverted.cce, 0);
    EQUAL(feedback_inverse(settings, 2, 131).cce, 60);
    EQUAL(feedback_inverse(settings, 2, 132).refusal, FEEDBACK_REFUSED_RESOURCE);
    EQUAL(feedback_inverse(settings, 2, 9).refusal, FEEDBACK_REFUSED_RESOURCE);
    EQUAL(reading.refusal, 0);
    EQUAL(reading.kind, FEEDBACK_KIND_BUNDLED);
    EQUAL(reading.position, 0);
    EQUAL(reading.cce, 10);
    EQUAL(reading.b0, 1);
    EQUAL(reading.b1, 0);
    EQUAL(reading.scheduled, 0);
    reading = feedback_reading(settings, 2, FEEDBACK_NONE, 132, 1, 0);
    EQUAL(reading.refusal, FEEDBACK_REFUSED_RESOURCE);
    reading = feedback_reading(settings, 2, 1, 20, 1, 0); /* no scheduled resource can be set */
    EQUAL(reading.refusal, FEEDBACK_REFUSED_SCHEDULED);
    reading = feedback_reading(settings, 2, 2, 20, 1, 0);
    EQUAL(reading.refusal, FEEDBACK_REFUSED_CCE);
}

static void reading_bundled(void)
{
    struct feedback_settings settings = settings_of(2, 0, 2);
    uint16_t n = 7, scheduled_position = FEEDBACK_NONE, resource = 104, b0 = 1, b1 = 0;
    struct feedback_reading_answer reading =
        CALL(feedback_reading, (settings, n, scheduled_position, resource, b0, b1));
    EQUAL(reading.refusal, 0);
    EQUAL(reading.kind, FEEDBACK_KIND_BUNDLED);
    EQUAL(reading.position, 3);
    EQUAL(reading.cce, 13);
    EQUAL(reading.b0, 1);
    EQUAL(reading.b1, 0);
    EQUAL(reading.delivered, 0);
    EQUAL(reading.scheduled, 0);
    reading = feedback_reading(settings, n, FEEDBACK_NONE, resource, 0, 1);
    EQUAL(reading.b0, 0);
    EQUAL(reading.b1, 1);
    EQUAL(reading.delivered, 0);
    EQUAL(reading.scheduled, 0);
    reading = feedback_reading(settings, 3, FEEDBACK_NONE, resource, 0, 1);
    EQUAL(reading.refusal, FEEDBACK_REFUSED_SUBFRAME);
    reading = feedback_reading(settings, n, FEEDBACK_NONE, 9, 2, 1);
    EQUAL(reading.refusal, FEEDBACK_REFUSED_RESOURCE);
    reading = feedback_reading(settings, n, FEEDBACK_NONE, resource, 2, 1);
    EQUAL(reading.refusal, FEEDBACK_REFUSED_BITS);
    settings.blocks = 1; /* one bit: the second is 0 */
    reading = feedback_reading(settings, n, FEEDBACK_NONE, resource, 1, 0);
    EQUAL(reading.refusal, 0);
    EQUAL(reading.b0, 1);
    reading = feedback_reading(settings, n, FEEDBACK_NONE, resource, 0, 1);
    EQUAL(reading.refusal, FEEDBACK_REFUSED_BITS);
}

/* Table 10.1-4 on the resource of position 3: --AA and its like are 01, -A-A is 10, ---N is 11. */
static void reading_multiplexed(void)
{
    struct feedback_settings settings = settings_of(2, 1, 1);
    struct feedback_reading_answer reading =
        feedback_reading(settings, 7, FEEDBACK_NONE, 104, 0, 1);
    EQUAL(reading.refusal, 0);
    EQUAL(reading.kind, FEEDBACK_KIND_MULTIPLEXED);
    EQUAL(reading.position, 3);
    EQUAL(reading.cce, 13);
    EQUAL(reading.b0, 0);
    EQUAL(reading.b1, 0);
    EQUAL(reading.delivered, 4 + 8);
    EQUAL(reading.scheduled, 0);
    reading = feedback_reading(settings, 7, FEEDBACK_NONE, 104, 1, 0);
    EQUAL(reading.delivered, 2 + 8);
    reading = feedback_reading(settings, 7, FEEDBACK_NONE, 104, 1, 1);
    EQUAL(reading.refusal, 0);
    EQUAL(reading.delivered, 0);
    reading = feedback_reading(settings, 7, FEEDBACK_NONE, 10, 0, 0);
    EQUAL(reading.refusal, FEEDBACK_REFUSED_BITS); /* position 0 has no row with 00 */
    EQUAL(reading.kind, FEEDBACK_KIND_REFUSED);
}

/* The scheduled resource is 6. A reply there is read as the block of the position told. */
static void reading_scheduled(void)
{
    struct feedback_settings settings = with_scheduled(settings_of(2, 0, 2), 6);
    struct feedback_reading_answer reading = feedback_reading(settings, 7, 3, 6, 0, 1);
    EQUAL(reading.refusal, 0);
    EQUAL(reading.kind, FEEDBACK_KIND_BUNDLED);
    EQUAL(reading.position, 3);
    EQUAL(reading.cce, 0);
    EQUAL(reading.b0, 0);
    EQUAL(reading.b1, 1);
    EQUAL(reading.delivered, 0);
    EQUAL(reading.scheduled, 1);
    reading = feedback_reading(settings, 7, 0, 6, 1, 0);
    EQUAL(reading.position, 0);
    EQUAL(reading.b0, 1);
    EQUAL(reading.b1, 0);
    EQUAL(reading.scheduled, 1);
    reading = feedback_reading(settings, 7, 2, 104, 1, 1);
    EQUAL(reading.refusal, 0); /* the resource of a PDCCH: as in reading_bundled */
    EQUAL(reading.position, 3);
    EQUAL(reading.cce, 13);
    EQUAL(reading.scheduled, 0);
    reading = feedback_reading(settings, 7, 3, 104, 1, 1);
    EQUAL(reading.refusal, 0); /* at the position told too */
    EQUAL(reading.position, 3);
    EQUAL(reading.cce, 13);
    EQUAL(reading.scheduled, 0);
    settings.mode = FEEDBACK_MODE_MULTIPLEXING;
    reading = feedback_reading(settings, 7, 3, 6, 0, 1);
    EQUAL(reading.refusal, 0); /* as in reading_multiplexed */
    EQUAL(reading.kind, FEEDBACK_KIND_MULTIPLEXED);
    EQUAL(reading.position, 3);
    EQUAL(reading.cce, 0);
    EQUAL(reading.b0, 0);
    EQUAL(reading.b1, 0);
    EQUAL(reading.delivered, 4 + 8);
    EQUAL(reading.scheduled, 1);
    reading = feedback_reading(settings, 7, 2, 6, 0, 0); /* --A- */
    EQUAL(reading.position, 2);
    EQUAL(reading.delivered, 4);
    EQUAL(reading.scheduled, 1);
}

/* The window of 7 is 9, 0, 3 and 1: position 3 is special, and too short where this is 20. */
static void reading_short(void)
{
    struct feedback_settings none = settings_of(2, 0, 2);
    struct feedback_settings cell = with_scheduled(none, 6);
    struct feedback_settings settings = with_special(cell, FEEDBACK_PREFIX_NORMAL, 5);
    struct feedback_reading_answer reading = feedback_reading(settings, 7, 3, 6, 0, 1);
    EQUAL(reading.refusal, FEEDBACK_REFUSED_SHORT);
    EQUAL(reading.kind, FEEDBACK_KIND_REFUSED);
    EQUAL(reading.position, 0);
    EQUAL(reading.b1, 0);
    EQUAL(reading.scheduled, 0);
    reading = feedback_reading(settings, 7, 3, 104, 0, 1); /* whatever the resource */
    EQUAL(reading.refusal, FEEDBACK_REFUSED_SHORT);
    reading = feedback_reading(settings, 7, 3, 9, 2, 2); /* and the bits */
    EQUAL(reading.refusal, FEEDBACK_REFUSED_SHORT);
    reading = feedback_reading(settings, 3, 3, 6, 0, 1);
    EQUAL(reading.refusal, FEEDBACK_REFUSED_SUBFRAME);
    reading = feedback_reading(settings, 7, 4, 6, 0, 1); /* no subframe of the window */
    EQUAL(reading.refusal, FEEDBACK_REFUSED_CCE);
    settings.scheduled = FEEDBACK_NONE;
    reading = feedback_reading(settings, 7, 3, 6, 0, 1);
    EQUAL(reading.refusal, FEEDBACK_REFUSED_SHORT);
    reading = feedback_reading(settings, 7, 2, 6, 0, 1);
    EQUAL(reading.refusal, FEEDBACK_REFUSED_SCHEDULED);
    reading = feedback_reading(settings, 7, FEEDBACK_NONE, 104, 0, 1);
    EQUAL(reading.refusal, 0); /* as in reading_bundled: a release may be there */
    EQUAL(reading.position, 3);
    EQUAL(reading.cce, 13);
    EQUAL(feedback_reading(with_special(cell, 0, 0), 7, 3, 6, 0, 1).refusal, 20);
    EQUAL(feedback_reading(with_special(cell, 0, 4), 7, 3, 6, 0, 1).refusal, 0);
    EQUAL(feedback_reading(with_special(cell, 1, 0), 7, 3, 6, 0, 1).refusal, 20);
    EQUAL(feedback_reading(with_special(cell, 1, 4), 7, 3, 6, 0, 1).refusal, 20);
    EQUAL(feedback_reading(with_special(cell, 1, 5), 7, 3, 6, 0, 1).refusal, 0);
}

static void reading_scheduled_refused(void)
{
    struct feedback_settings none = settings_of(2, 1, 2);
    struct feedback_settings settings = with_scheduled(none, 6);
    struct feedback_reading_answer reading = feedback_reading(none, 3, 4, 9, 2, 2);
    EQUAL(reading.refusal, FEEDBACK_REFUSED_SUBFRAME);
    reading = feedback_reading(none, 7, 4, 9, 2, 2);
    EQUAL(reading.refusal, FEEDBACK_REFUSED_CCE);
    reading = feedback_reading(none, 7, 65534, 104, 0, 1);
    EQUAL(reading.refusal, FEEDBACK_REFUSED_CCE); /* whatever the resource */
    reading = feedback_reading(none, 7, 3, 9, 2, 2);
    EQUAL(reading.refusal, FEEDBACK_REFUSED_SCHEDULED);
    EQUAL(reading.kind, FEEDBACK_KIND_REFUSED);
    EQUAL(reading.position, 0);
    EQUAL(reading.scheduled, 0);
    reading = feedback_reading(none, 7, 3, 104, 0, 1);
    EQUAL(reading.refusal, FEEDBACK_REFUSED_SCHEDULED);
    reading = feedback_reading(settings, 7, FEEDBACK_NONE, 6, 0, 1); /* not told */
    EQUAL(reading.refusal, FEEDBACK_REFUSED_RESOURCE);
    reading = feedback_reading(settings, 7, 3, 7, 2, 2); /* neither 6 nor 10 or more */
    EQUAL(reading.refusal, FEEDBACK_REFUSED_RESOURCE);
    reading = feedback_reading(settings, 7, 3, 6, 0, 2);
    EQUAL(reading.refusal, FEEDBACK_REFUSED_BITS);
    reading = feedback_reading(settings, 7, 0, 6, 0, 0); /* position 0 has no row with 00 */
    EQUAL(reading.refusal, FEEDBACK_REFUSED_BITS);
    EQUAL(reading.scheduled, 0);
    settings = with_scheduled(settings_of(2, 0, 1), 6);
    reading = feedback_reading(settings, 7, 3, 6, 0, 1); /* one bit */
    EQUAL(reading.refusal, FEEDBACK_REFUSED_BITS);
    EQUAL(feedback_inverse(settings, 7, 6).refusal, FEEDBACK_REFUSED_RESOURCE);
}

/* ---- what was sent, and the blocks that a reply confirms ---- */

static void sent_is(struct feedback_sent sent, unsigned signalled, unsigned blocks, unsigned cce,
                    unsigned dai, unsigned itbs0, unsigned nprb0, unsigned itbs1, unsigned nprb1)
{
    EQUAL(sent.signalled, signalled);
    EQUAL(sent.blocks, blocks);
    EQUAL(sent.cce, cce);
    EQUAL(sent.dai, dai);
    EQUAL(sent.itbs0, itbs0);
    EQUAL(sent.nprb0, nprb0);
    EQUAL(sent.itbs1, itbs1);
    EQUAL(sent.nprb1, nprb1);
}

static void sent_records(void)
{
    struct feedback_sent given = {1, 2, 3, 4, 5, 6, 7, 8};
    sent_is(given, 1, 2, 3, 4, 5, 6, 7, 8);
    sent_is(feedback_sent_grant(2, 3, 4, 5, 6, 7, 8), 1, 2, 3, 4, 5, 6, 7, 8);
    sent_is(feedback_sent_scheduled(2, 5, 6, 7, 8), 0, 2, 0, 0, 5, 6, 7, 8);
    sent_is(feedback_sent_release(3, 4), 1, 0, 3, 4, 0, 0, 0, 0);
    sent_is(feedback_sent_nothing(), 0, 0, 0, 0, 0, 0, 0, 0);
    sent_is(feedback_sent_grant(65536, 131077, 4294967297u, 65535, 65534, 65537, 65538), 1, 65535,
            65535, 65535, 65535, 65534, 65535, 65535);
    sent_is(feedback_sent_scheduled(65537, 65536, 65534, 131072, 65536), 0, 65535, 0, 0, 65535,
            65534, 65535, 65535);
    sent_is(feedback_sent_release(65536, 65537), 1, 0, 65535, 65535, 0, 0, 0, 0);
    EQUAL(feedback_sent_grant(0, 3, 4, 5, 6, 7, 8).blocks, 65535); /* no release */
    EQUAL(feedback_sent_scheduled(0, 5, 6, 7, 8).blocks, 65535);   /* and not nothing */
}

static struct feedback_sent_window nothing_sent(void)
{
    struct feedback_sent_window sent;
    memset(&sent, 0, sizeof sent);
    return sent;
}

static void confirms(int line, struct feedback_settings settings, uint16_t n,
                     struct feedback_sent_window sent, uint16_t resource, uint16_t b0, uint16_t b1,
                     unsigned first, unsigned second)
{
    struct feedback_confirmed_answer answer =
        CALL(feedback_confirmed, (settings, n, sent, resource, b0, b1));
    equal(line, "refusal", answer.refusal, 0);
    equal(line, "first", answer.first, first);
    equal(line, "second", answer.second, second);
}

#define CONFIRMS(settings, n, sent, resource, b0, b1, first, second) \
    confirms(__LINE__, settings, n, sent, resource, b0, b1, first, second)

static void not_confirmed(int line, struct feedback_settings settings, uint16_t n,
                          struct feedback_sent_window sent, uint16_t resource, uint16_t b0,
                          uint16_t b1, unsigned refusal)
{
    struct feedback_confirmed_answer answer =
        feedback_confirmed(settings, n, sent, resource, b0, b1);
    equal(line, "refusal", answer.refusal, refusal);
    equal(line, "first", answer.first, 0);
    equal(line, "second", answer.second, 0);
}

#define NOT_CONFIRMED(settings, n, sent, resource, b0, b1, refusal) \
    not_confirmed(__LINE__, settings, n, sent, resource, b0, b1, refusal)

/*
 * The window of 7 in configuration 2: 9, 0, 3 and 1, in time order 9, 0, 1, 3. Grants of two blocks
 * in 9 and 3, of one in 0, a release in 1. The octets of the blocks are 217 and 41 in 9, 9422 in 0,
 * 2 and 28 in 3.
 */
static struct feedback_sent_window window_sent(void)
{
    struct feedback_sent_window sent = nothing_sent();
    sent.at[0] = feedback_sent_grant(2, 7, 1, 10, 10, 6, 1);
    sent.at[1] = feedback_sent_grant(1, 3, 2, 26, 110, 0, 0);
    sent.at[3] = feedback_sent_release(13, 3);
    sent.at[2] = feedback_sent_grant(2, 5, 4, 0, 1, 5, 3);
    return sent;
}

static void confirmed_bundled(void)
{
    struct feedback_settings settings = settings_of(2, 0, 2);
    struct feedback_sent_window sent = window_sent(), other;
    CONFIRMS(settings, 7, sent, 37, 1, 0, 1 + 2 + 4, 0); /* the grant in 3: four sent up to it */
    CONFIRMS(settings, 7, sent, 37, 0, 1, 2, 1 + 4);     /* either bit for the only block */
    CONFIRMS(settings, 7, sent, 37, 1, 1, 1 + 2 + 4, 1 + 4);
    CONFIRMS(settings, 7, sent, 37, 0, 0, 0, 0);
    CONFIRMS(settings, 7, sent, 104, 1, 1, 1 + 2, 1); /* the release in 1, before 3 */
    CONFIRMS(settings, 7, sent, 24, 1, 0, 1 + 2, 0);  /* the grant in 0: 11 + 3 + 10 */
    CONFIRMS(settings, 7, sent, 17, 0, 1, 0, 1);      /* the grant in 9: 7 + 10 */
    CONFIRMS(settings, 7, sent, 38, 1, 1, 0, 0);      /* first CCE 6 in 3 was not sent */
    other = sent;
    other.at[2] = feedback_sent_nothing();
    CONFIRMS(settings, 7, other, 37, 1, 1, 0, 0);
    CONFIRMS(settings, 7, other, 104, 1, 1, 1 + 2, 1);
    other = sent;
    other.at[0].signalled = 65535;
    other.at[3].signalled = 256;
    CONFIRMS(settings, 7, other, 37, 1, 0, 1 + 2 + 4, 0);
    other.at[1].itbs0 = other.at[2].itbs1 = 65535; /* sizes are not looked at */
    other.at[2].nprb0 = 0;
    CONFIRMS(settings, 7, other, 37, 1, 1, 1 + 2 + 4, 1 + 4);
    settings.ports = 2;
    CONFIRMS(settings, 7, sent, 37, 1, 0, 1 + 2 + 4, 0);
    settings = settings_of(2, 0, 1);
    other = nothing_sent();
    other.at[1] = feedback_sent_grant(1, 3, 1, 0, 1, 0, 0);
    CONFIRMS(settings, 7, other, 24, 1, 0, 2, 0);
    NOT_CONFIRMED(settings, 7, other, 24, 0, 1, FEEDBACK_REFUSED_BITS);
}

/*
 * The window of 2 in configuration 5, in time order 0, 1, 7, 2, 3, 4, 8, 5, 6. Grants in the first
 * five; the fifth speaks for itself alone, and so it does where one before it is a release.
 */
static void confirmed_of_nine(void)
{
    struct feedback_settings settings = settings_of(5, 0, 1);
    struct feedback_sent_window sent = nothing_sent();
    sent.at[0] = feedback_sent_grant(1, 0, 1, 0, 1, 0, 0);
    sent.at[1] = feedback_sent_grant(1, 0, 2, 0, 1, 0, 0);
    sent.at[7] = feedback_sent_grant(1, 0, 3, 0, 1, 0, 0);
    sent.at[2] = feedback_sent_grant(1, 0, 4, 0, 1, 0, 0);
    sent.at[3] = feedback_sent_grant(1, 0, 1, 0, 1, 0, 0);
    CONFIRMS(settings, 2, sent, 32, 1, 0, 1 + 2 + 128 + 4, 0); /* position 2: 2 * 11 + 10 */
    CONFIRMS(settings, 2, sent, 43, 1, 0, 8, 0);               /* position 3 */
    CONFIRMS(settings, 2, sent, 87, 1, 0, 1 + 2 + 128, 0);     /* position 7 */
    sent.at[1] = feedback_sent_release(0, 2);
    CONFIRMS(settings, 2, sent, 32, 1, 0, 1 + 128 + 4, 0);
    CONFIRMS(settings, 2, sent, 43, 1, 0, 8, 0);
    sent.at[1] = feedback_sent_nothing();
    CONFIRMS(settings, 2, sent, 43, 1, 0, 1 + 128 + 4 + 8, 0);
    settings.scheduled = 6; /* a scheduled block is not counted */
    sent.at[1] = feedback_sent_scheduled(1, 0, 1, 0, 0);
    CONFIRMS(settings, 2, sent, 43, 1, 0, 1 + 128 + 4 + 8, 0);
}

/* A scheduled block in 0, with 6 for its resource, and a grant in 9. */
static void confirmed_scheduled(void)
{
    struct feedback_settings settings = with_scheduled(settings_of(2, 0, 2), 6);
    struct feedback_sent_window sent = nothing_sent();
    sent.at[0] = feedback_sent_grant(2, 7, 1, 0, 1, 0, 1);
    sent.at[1] = feedback_sent_scheduled(2, 0, 1, 0, 1);
    sent.at[1].cce = sent.at[1].dai = 65535; /* it has none */
    CONFIRMS(settings, 7, sent, 6, 1, 0, 2, 0);
    CONFIRMS(settings, 7, sent, 6, 0, 1, 0, 2);
    CONFIRMS(settings, 7, sent, 17, 1, 1, 1, 1); /* the grant, and not the block */
    CONFIRMS(settings, 7, sent, 21, 1, 1, 0, 0); /* a PDCCH at the block's position */
    sent.at[1].blocks = 1;
    CONFIRMS(settings, 7, sent, 6, 0, 1, 2, 0);
    sent.at[1] = feedback_sent_nothing();
    NOT_CONFIRMED(settings, 7, sent, 6, 1, 0, FEEDBACK_REFUSED_RESOURCE);
    sent.at[1].cce = sent.at[1].dai = 65535; /* as nothing has */
    CONFIRMS(settings, 7, sent, 17, 1, 0, 1, 0);
}

/*
 * Table 10.1-4 on position 3: 01 delivers 2 and 3, 10 delivers 1 and 3; on position 1, 11 all
 * four.
 */
static void confirmed_multiplexed(void)
{
    struct feedback_settings settings = with_scheduled(settings_of(2, 1, 2), 6);
    struct feedback_sent_window sent = nothing_sent();
    sent.at[3] = feedback_sent_grant(2, 13, 1, 0, 1, 0, 1);
    sent.at[2] = feedback_sent_grant(1, 5, 2, 0, 1, 0, 0);
    CONFIRMS(settings, 7, sent, 104, 0, 1, 4 + 8, 8);
    CONFIRMS(settings, 7, sent, 104, 1, 0, 8, 8); /* in 0 nothing was sent */
    CONFIRMS(settings, 7, sent, 104, 1, 1, 0, 0);
    CONFIRMS(settings, 7, sent, 103, 0, 1, 0, 0); /* first CCE 12 in 1 was not sent */
    sent.at[1] = feedback_sent_scheduled(2, 0, 1, 0, 1);
    CONFIRMS(settings, 7, sent, 104, 1, 0, 2 + 8, 2 + 8);
    CONFIRMS(settings, 7, sent, 6, 1, 1, 2 + 4 + 8, 2 + 8);
    sent.at[2] = feedback_sent_release(5, 2);
    CONFIRMS(settings, 7, sent, 104, 0, 1, 8, 8);
    NOT_CONFIRMED(settings, 7, sent, 10, 0, 0, FEEDBACK_REFUSED_BITS); /* in no row */
}

/*
 * Every cause in what was sent, those that come later at earlier positions; then one after the
 * other is mended. Position 3 is the special subframe.
 */
static struct feedback_sent_window bad_window(void)
{
    struct feedback_sent_window sent = nothing_sent();
    sent.at[0] = feedback_sent_grant(1, 7, 5, 27, 110, 0, 0);
    sent.at[1] = feedback_sent_grant(1, 61, 1, 26, 111, 0, 0);
    sent.at[2] = feedback_sent_grant(3, 5, 1, 26, 110, 27, 0);
    sent.at[3] = feedback_sent_scheduled(1, 27, 0, 0, 0);
    return sent;
}

static void confirmed_refused(void)
{
    struct feedback_settings settings = with_special(settings_of(2, 0, 2), 0, 5);
    struct feedback_sent_window sent = bad_window(), other;
    unsigned m;
    NOT_CONFIRMED(settings, 3, sent, 9, 2, 2, FEEDBACK_REFUSED_SUBFRAME);
    NOT_CONFIRMED(settings, 12, sent, 9, 2, 2, FEEDBACK_REFUSED_SUBFRAME);
    NOT_CONFIRMED(settings, 7, sent, 9, 2, 2, FEEDBACK_REFUSED_SHORT);
    other = sent;
    other.at[3] = feedback_sent_grant(1, 13, 1, 0, 1, 0, 0);
    NOT_CONFIRMED(settings, 7, other, 9, 2, 2, FEEDBACK_REFUSED_SHORT);
    other.at[3] = feedback_sent_release(13, 1);
    NOT_CONFIRMED(settings, 7, other, 9, 2, 2, FEEDBACK_REFUSED_CARRIED);
    settings.special = 7;
    NOT_CONFIRMED(settings, 7, sent, 9, 2, 2, FEEDBACK_REFUSED_CARRIED);
    sent.at[2].blocks = 2;
    NOT_CONFIRMED(settings, 7, sent, 9, 2, 2, FEEDBACK_REFUSED_CCE);
    sent.at[1].cce = 60;
    NOT_CONFIRMED(settings, 7, sent, 9, 2, 2, FEEDBACK_REFUSED_DAI);
    sent.at[0].dai = 0;
    NOT_CONFIRMED(settings, 7, sent, 9, 2, 2, FEEDBACK_REFUSED_DAI);
    sent.at[0].dai = 1;
    NOT_CONFIRMED(settings, 7, sent, 9, 2, 2, FEEDBACK_REFUSED_SCHEDULED);
    settings.scheduled = 6;
    NOT_CONFIRMED(settings, 7, sent, 9, 2, 2, FEEDBACK_REFUSED_RESOURCE);
    other = sent;
    other.at[0] = feedback_sent_scheduled(2, 0, 1, 0, 1); /* the second one */
    NOT_CONFIRMED(settings, 7, other, 9, 2, 2, FEEDBACK_REFUSED_SCHEDULED);
    other.at[0].blocks = 3;
    NOT_CONFIRMED(settings, 7, other, 9, 2, 2, FEEDBACK_REFUSED_CARRIED);
    NOT_CONFIRMED(settings, 7, sent, 17, 2, 1, FEEDBACK_REFUSED_BITS);
    NOT_CONFIRMED(settings, 7, sent, 6, 1, 2, FEEDBACK_REFUSED_BITS);
    CONFIRMS(settings, 7, sent, 17, 1, 0, 1, 0);
    sent.at[1] = feedback_sent_release(61, 1);
    NOT_CONFIRMED(settings, 7, sent, 17, 1, 0, FEEDBACK_REFUSED_CCE);
    sent.at[1] = feedback_sent_release(60, 5);
    NOT_CONFIRMED(settings, 7, sent, 17, 1, 0, FEEDBACK_REFUSED_DAI);
    sent = nothing_sent(); /* from M on nothing is looked at: M is 2 here */
    for (m = 2; m < FEEDBACK_WINDOW_MOST; m++)
        sent.at[m] = feedback_sent_grant(65535, 65535, 65535, 65535, 65535, 65535, 65535);
    sent.at[1] = feedback_sent_grant(1, 60, 4, 0, 1, 0, 0);
    CONFIRMS(settings_of(1, 0, 2), 2, sent, 131, 1, 0, 2, 0);
}

/* ---- accounts and credits ---- */

static struct feedback_account account_of(uint64_t octets, uint64_t charged, uint32_t price,
                                          uint32_t carry)
{
    struct feedback_account account;
    account.octets = octets;
    account.charged = charged;
    account.price = price;
    account.carry = carry;
    return account;
}

static void account_is(int line, struct feedback_account account, uint64_t octets, uint64_t charged,
                       uint32_t price, uint32_t carry)
{
    equal(line, "octets", account.octets, octets);
    equal(line, "charged", account.charged, charged);
    equal(line, "price", account.price, price);
    equal(line, "carry", account.carry, carry);
}

#define ACCOUNT_IS(account, octets, charged, price, carry) \
    account_is(__LINE__, account, octets, charged, price, carry)

static struct feedback_account opened(uint32_t price)
{
    struct feedback_opened answer = CALL(feedback_open_account, (price));
    EQUAL(answer.refusal, 0);
    ACCOUNT_IS(answer.account, 0, 0, price, 0);
    return answer.account;
}

/* The account after a credit of so many octets. */
static struct feedback_account credits(int line, struct feedback_settings settings, uint16_t n,
                                       struct feedback_sent_window sent, uint16_t resource,
                                       uint16_t b0, uint16_t b1, struct feedback_account account,
                                       unsigned octets)
{
    struct feedback_credit_answer answer =
        CALL(feedback_credit, (settings, n, sent, resource, b0, b1, account));
    uint64_t total = account.octets + octets;
    equal(line, "refusal", answer.refusal, 0);
    equal(line, "credited", answer.octets, octets);
    equal(line, "octets", answer.account.octets, total);
    equal(line, "price", answer.account.price, account.price);
    equal(line, "charged and carry", 1000000 * answer.account.charged + answer.account.carry,
          total * account.price);
    HOLDS(answer.account.carry < 1000000);
    return answer.account;
}

#define CREDITS(settings, n, sent, resource, b0, b1, account, octets) \
    credits(__LINE__, settings, n, sent, resource, b0, b1, account, octets)

static void not_credited(int line, struct feedback_settings settings, uint16_t n,
                         struct feedback_sent_window sent, uint16_t resource, uint16_t b0,
                         uint16_t b1, struct feedback_account account, unsigned refusal)
{
    struct feedback_credit_answer answer =
        feedback_credit(settings, n, sent, resource, b0, b1, account);
    equal(line, "refusal", answer.refusal, refusal);
    equal(line, "credited", answer.octets, 0);
    account_is(line, answer.account, account.octets, account.charged, account.price, account.carry);
}

#define NOT_CREDITED(settings, n, sent, resource, b0, b1, account, refusal) \
    not_credited(__LINE__, settings, n, sent, resource, b0, b1, account, refusal)

static void accounts(void)
{
    struct feedback_opened answer;
    (void)opened(0);
    (void)opened(1);
    (void)opened(FEEDBACK_PRICE_MOST);
    answer = feedback_open_account(FEEDBACK_PRICE_MOST + 1);
    EQUAL(answer.refusal, FEEDBACK_REFUSED_SIZE_OR_ACCOUNT);
    ACCOUNT_IS(answer.account, 0, 0, 1000001, 0);
    NOT_CREDITED(settings_of(2, 0, 2), 7, window_sent(), 37, 1, 0, answer.account,
                 FEEDBACK_REFUSED_SIZE_OR_ACCOUNT);
    answer = feedback_open_account(4294967295u);
    EQUAL(answer.refusal, FEEDBACK_REFUSED_SIZE_OR_ACCOUNT);
    ACCOUNT_IS(answer.account, 0, 0, 4294967295u, 0);
}

/* The replies of confirmed_bundled. The only block, in 0, is credited by b0 alone. */
static void credit_bundled(void)
{
    struct feedback_settings settings = settings_of(2, 0, 2);
    struct feedback_sent_window sent = window_sent();
    struct feedback_account account = opened(2500);
    account = CREDITS(settings, 7, sent, 37, 1, 0, account, 217 + 9422 + 2);
    ACCOUNT_IS(account, 9641, 24, 2500, 102500); /* 9641 * 2500 is 24102500 */
    account = CREDITS(settings, 7, sent, 37, 0, 1, account, 41 + 28);
    ACCOUNT_IS(account, 9710, 24, 2500, 275000);
    NOT_CREDITED(settings, 7, sent, 9, 1, 1, account, FEEDBACK_REFUSED_RESOURCE);
    account = CREDITS(settings, 7, sent, 37, 1, 1, account, 9710);
    ACCOUNT_IS(account, 19420, 48, 2500, 550000);
    account = CREDITS(settings, 7, sent, 37, 0, 0, account, 0);
    account = CREDITS(settings, 7, sent, 38, 1, 1, account, 0);      /* was not sent */
    account = CREDITS(settings, 7, sent, 104, 1, 1, account, 9680); /* 217 + 41 + 9422 */
    ACCOUNT_IS(account, 29100, 72, 2500, 750000);
    account = CREDITS(settings, 7, sent, 17, 0, 1, account, 41);
    ACCOUNT_IS(account, 29141, 72, 2500, 852500);
    account = CREDITS(settings, 7, sent, 37, 1, 1, opened(0), 9710);
    ACCOUNT_IS(account, 9710, 0, 0, 0);
    account = CREDITS(settings, 7, sent, 37, 1, 1, opened(FEEDBACK_PRICE_MOST), 9710);
    ACCOUNT_IS(account, 9710, 9710, 1000000, 0);
}

/* In 1, a special subframe: columns 82, 1 and 1 for 110, 2 and 1. */
static void credit_special(void)
{
    struct feedback_settings settings = settings_of(2, 0, 2);
    struct feedback_sent_window sent = nothing_sent();
    struct feedback_account account = opened(1);
    sent.at[3] = feedback_sent_grant(2, 13, 1, 26, 110, 6, 2);
    account = CREDITS(settings, 7, sent, 104, 1, 0, account, 7407); /* 59256 / 8 */
    account = CREDITS(settings, 7, sent, 104, 0, 1, account, 41);   /* 328 / 8 */
    sent.at[3].itbs0 = 0;
    sent.at[3].nprb0 = 1;
    account = CREDITS(settings, 7, sent, 104, 1, 0, account, 2);
    ACCOUNT_IS(account, 7450, 0, 1, 7450);
    sent.at[3] = feedback_sent_nothing();
    sent.at[2] = feedback_sent_grant(2, 13, 1, 26, 110, 6, 2); /* in 3 as printed */
    account = CREDITS(settings, 7, sent, 88, 1, 0, account, 9422); /* 11 + 2 * 27 + 13 + 10 */
    account = CREDITS(settings, 7, sent, 88, 0, 1, account, 22);
}

/* The windows of confirmed_scheduled and confirmed_multiplexed. */
static void credit_scheduled(void)
{
    struct feedback_settings settings = with_scheduled(settings_of(2, 0, 2), 6);
    struct feedback_sent_window sent = nothing_sent();
    struct feedback_account account = opened(999999);
    sent.at[0] = feedback_sent_grant(2, 7, 1, 10, 10, 6, 1);
    sent.at[1] = feedback_sent_scheduled(2, 26, 110, 5, 3);
    account = CREDITS(settings, 7, sent, 6, 1, 0, account, 9422);
    account = CREDITS(settings, 7, sent, 6, 0, 1, account, 28);
    account = CREDITS(settings, 7, sent, 17, 1, 1, account, 217 + 41);
    sent.at[1].blocks = 1;
    account = CREDITS(settings, 7, sent, 6, 0, 1, account, 0); /* confirmed alone */
    ACCOUNT_IS(account, 9708, 9707, 999999, 990292);
    settings.mode = FEEDBACK_MODE_MULTIPLEXING;
    sent.at[3] = feedback_sent_grant(2, 13, 2, 0, 1, 6, 1);
    account = CREDITS(settings, 7, sent, 104, 1, 0, account, 9422 + 2 + 41); /* 1 and 3 */
    account = CREDITS(settings, 7, sent, 104, 0, 1, account, 2 + 41);        /* 2 and 3 */
    sent.at[1].blocks = 2;
    account = CREDITS(settings, 7, sent, 6, 1, 1, account, 217 + 41 + 9422 + 28 + 2 + 41);
    account = CREDITS(settings, 7, sent, 104, 1, 1, account, 0);
}

/* What confirmed_refused has, with 25 between 18 and 13, and 26 where 13 and 14 are not met. */
static void credit_refused(void)
{
    struct feedback_settings settings = with_special(settings_of(2, 0, 2), 0, 5);
    struct feedback_sent_window sent = bad_window();
    struct feedback_account bad = account_of(1000000000001u, 0, 1, 0), most;
    most = account_of(1000000000001u, 1000000, 1, 1);
    NOT_CREDITED(settings, 3, sent, 9, 2, 2, bad, FEEDBACK_REFUSED_SUBFRAME);
    NOT_CREDITED(settings, 7, sent, 9, 2, 2, bad, FEEDBACK_REFUSED_SHORT);
    settings.special = 7;
    NOT_CREDITED(settings, 7, sent, 9, 2, 2, bad, FEEDBACK_REFUSED_CARRIED);
    sent.at[2].blocks = 2;
    NOT_CREDITED(settings, 7, sent, 9, 2, 2, bad, FEEDBACK_REFUSED_CCE);
    sent.at[1].cce = 60;
    NOT_CREDITED(settings, 7, sent, 9, 2, 2, bad, FEEDBACK_REFUSED_DAI);
    sent.at[0].dai = 1;
    NOT_CREDITED(settings, 7, sent, 9, 2, 2, bad, FEEDBACK_REFUSED_SCHEDULED);
    settings.scheduled = 6;
    NOT_CREDITED(settings, 7, sent, 9, 2, 2, most, FEEDBACK_REFUSED_SIZE_OR_ACCOUNT);
    sent = window_sent();
    NOT_CREDITED(settings, 7, sent, 9, 2, 2, bad, FEEDBACK_REFUSED_SIZE_OR_ACCOUNT);
    NOT_CREDITED(settings, 7, sent, 9, 2, 2, most, FEEDBACK_REFUSED_RESOURCE);
    NOT_CREDITED(settings, 7, sent, 37, 2, 2, most, FEEDBACK_REFUSED_BITS);
    NOT_CREDITED(settings, 7, sent, 37, 1, 1, most, FEEDBACK_REFUSED_TOTAL);
    NOT_CREDITED(settings, 7, sent, 37, 0, 0, most, FEEDBACK_REFUSED_TOTAL);
    (void)CREDITS(settings, 7, sent, 37, 1, 1, opened(1), 9710);
}

/* One size of a window at a time; the reply is a NACK, and what isn't credited is looked at too. */
static void sizes_refused(void)
{
    struct feedback_settings settings = with_scheduled(FEEDBACK_SETTINGS(2, 6, 10, 0, 2), 6);
    static const uint16_t itbs[] = {0, 26, 27, 255, 256, 65535};
    static const uint16_t nprb[] = {1, 110, 0, 111, 257, 65535};
    struct feedback_account account = opened(5);
    struct feedback_sent_window good = nothing_sent();
    unsigned i, m;
    good.at[0] = feedback_sent_grant(2, 0, 1, 26, 110, 26, 110); /* N_RB is 6 */
    good.at[1] = feedback_sent_grant(1, 0, 2, 26, 110, 65535, 65535);
    good.at[2] = feedback_sent_scheduled(2, 26, 110, 0, 1);
    good.at[3] = feedback_sent_release(0, 3);
    good.at[3].itbs0 = good.at[3].nprb0 = good.at[3].itbs1 = good.at[3].nprb1 = 65535;
    for (m = 0; m < 3; m++)
        for (i = 0; i < 6; i++) {
            struct feedback_sent_window row = good, column = good, row1 = good, column1 = good;
            unsigned first = i < 2 ? 0 : FEEDBACK_REFUSED_SIZE_OR_ACCOUNT;
            unsigned second = m == 1 ? 0 : first; /* the grant in 0 has none */
            row.at[m].itbs0 = row1.at[m].itbs1 = itbs[i];
            column.at[m].nprb0 = column1.at[m].nprb1 = nprb[i];
            EQUAL(feedback_credit(settings, 7, row, 10, 0, 0, account).refusal, first);
            EQUAL(feedback_credit(settings, 7, column, 10, 0, 0, account).refusal, first);
            EQUAL(feedback_credit(settings, 7, row1, 10, 0, 0, account).refusal, second);
            EQUAL(feedback_credit(settings, 7, column1, 10, 0, 0, account).refusal, second);
        }
}

/*
 * Credits of two octets and of none to accounts at the bounds. The equation is exact: 2^62 * 4 is
 * not 0, and neither is 1000000 * 2^58. A carry of 1000000 is refused even where it holds.
 */
static void accounts_refused(void)
{
    struct feedback_settings settings = settings_of(2, 0, 1);
    struct feedback_sent_window sent = nothing_sent();
    struct feedback_account account;
    sent.at[0] = feedback_sent_grant(1, 0, 1, 0, 1, 0, 0);
#define REFUSES(octets, charged, price, carry, refusal)                         \
    NOT_CREDITED(settings, 7, sent, 10, 1, 0, account_of(octets, charged, price, carry), refusal)
    REFUSES(0, 0, 1000001, 0, 25);
    REFUSES(0, 1, 7, 0, 25);
    REFUSES(0, 0, 7, 1, 25);
    REFUSES(3, 0, 7, 20, 25);
    REFUSES(3, 0, 7, 22, 25);
    REFUSES(1, 0, 1000000, 1000000, 25);
    REFUSES(1, 1, 1000000, 1000000, 25);
    REFUSES(0, 288230376151711744u, 5, 0, 25);  /* 2^58 */
    REFUSES(4611686018427387904u, 0, 4, 0, 25); /* 2^62 */
    REFUSES(4611686018427387904u, 18446744073709u, 4, 551615, 25);
    REFUSES(4611686018427387904u, 18446744073709u, 4, 551616, 26);
    REFUSES(18446744073709551615u, 18446744073709551615u, 1000000, 0, 26);
    REFUSES(18446744073709551615u, 18446744073709551614u, 1000000, 0, 25);
    REFUSES(18446744073709551615u, 18446725626965477905u, 999999, 448385, 26);
    REFUSES(18446744073709551615u, 18446725626965477905u, 999999, 448384, 25);
    REFUSES(999999999999u, 999999999999u, 1000000, 0, 26);
    REFUSES(1000000000000u, 0, 0, 0, 26);
    REFUSES(1000000000001u, 0, 0, 0, 26);
#undef REFUSES
    account = account_of(FEEDBACK_OCTETS_MOST - 2, 999999999998u, FEEDBACK_PRICE_MOST, 0);
    account = CREDITS(settings, 7, sent, 10, 1, 0, account, 2);
    ACCOUNT_IS(account, 1000000000000u, 1000000000000u, 1000000, 0);
    account = CREDITS(settings, 7, sent, 10, 0, 0, account, 0); /* with nothing to credit */
    account = account_of(999999999998u, 333332999999u, 333333, 333334);
    account = CREDITS(settings, 7, sent, 10, 1, 0, account, 2);
    ACCOUNT_IS(account, 1000000000000u, 333333000000u, 333333, 0);
    account = account_of(1000000000001u, 0, 0, 0);
    NOT_CREDITED(settings, 7, sent, 10, 0, 0, account, FEEDBACK_REFUSED_TOTAL);
    NOT_CREDITED(settings, 7, sent, 9, 0, 0, account, FEEDBACK_REFUSED_RESOURCE);
}

/* Byte t is what it should be: 1 at the resources less N1, 0 below M * N_4, and 99 beyond. */
static void marked(const uint8_t *scratch, unsigned first, unsigned second)
{
    unsigned t, wrong = 0;
    for (t = 0; t < 130; t++)
        wrong += scratch[t] != (t == first || t == second ? 1u : t < 122 ? 0u : 99u);
    EQUAL(wrong, 0);
}

/* Configuration 1, n = 2: M is 2, M * N_4 is 122; (1,60) has resource 131, (0,11) has 32. */
static void claims_of_1(void)
{
    struct feedback_settings settings = settings_of(1, 0, 2);
    uint16_t claims[3] = {256 + 60, 11, 256 + 60};
    uint8_t scratch[130], before[130];
    uint16_t n = 2;
    size_t count = 2, room = 130;
    struct feedback_claims_answer answer;
    EQUAL(FEEDBACK_CLAIM(1, 60), claims[0]);
    EQUAL(FEEDBACK_CLAIM(0, 11), claims[1]);
    EQUAL(FEEDBACK_CLAIM(60, 1), 15361);
    EQUAL(FEEDBACK_CLAIM(255, 254), 65534);
    EQUAL(FEEDBACK_CLAIM(0, 256), 65535);
    EQUAL(FEEDBACK_CLAIM(256, 0), 65535);
    EQUAL(FEEDBACK_CLAIM(4294967296u, 0), 65535);
    memset(scratch, 99, sizeof scratch);
    memcpy(before, scratch, sizeof before);
    answer = CALL(feedback_claims, (settings, n, claims, count, scratch, room));
    EQUAL(answer.refusal, 0);
    EQUAL(answer.kind, FEEDBACK_CLAIMS_CLEAN);
    EQUAL(answer.index, 0);
    marked(scratch, 121, 22);
    answer = feedback_claims(settings, n, claims, 3, scratch, room);
    EQUAL(answer.refusal, 0);
    EQUAL(answer.kind, FEEDBACK_CLAIMS_CLASH);
    EQUAL(answer.index, 2);
    marked(scratch, 121, 22);
    memcpy(scratch, before, sizeof scratch);
    answer = feedback_claims(settings, n, claims, 3, scratch, 121);
    EQUAL(answer.refusal, FEEDBACK_REFUSED_SCRATCH);
    EQUAL(answer.kind, FEEDBACK_CLAIMS_REFUSED);
    EQUAL(answer.index, 0);
    claims[1] = FEEDBACK_CLAIM(1, 61);
    answer = feedback_claims(settings, n, claims, 3, scratch, 122);
    EQUAL(answer.refusal, FEEDBACK_REFUSED_CLAIM);
    EQUAL(answer.kind, FEEDBACK_CLAIMS_REFUSED);
    EQUAL(answer.index, 1);
    claims[1] = claims[0];
    claims[2] = FEEDBACK_CLAIM(300, 0);
    answer = feedback_claims(settings, n, claims, 3, scratch, 122);
    EQUAL(answer.refusal, FEEDBACK_REFUSED_CLAIM);
    EQUAL(answer.index, 2);
    answer = feedback_claims(settings, 4, claims, 3, scratch, 122);
    EQUAL(answer.refusal, FEEDBACK_REFUSED_SUBFRAME);
    answer = feedback_claims(settings, n, claims, 1, NULL, 0);
    EQUAL(answer.refusal, FEEDBACK_REFUSED_SCRATCH);
    BYTES(scratch, before, sizeof before);
    answer = feedback_claims(settings, n, NULL, 0, scratch, room);
    EQUAL(answer.kind, FEEDBACK_CLAIMS_CLEAN);
    marked(scratch, 130, 130);
}

/* The most scratch that a window needs is enough, and one byte less is not; with one port it is. */
static void claims_of_5(void)
{
    struct feedback_settings one = FEEDBACK_SETTINGS(5, 110, 0, 0, 2), two = with_ports(one, 2);
    uint8_t scratch[FEEDBACK_SCRATCH_MOST];
    uint16_t claim = FEEDBACK_CLAIM(FEEDBACK_WINDOW_MOST - 1, 133);
    struct feedback_claims_answer answer;
    memset(scratch, 99, sizeof scratch);
    answer = feedback_claims(one, 2, &claim, 1, scratch, sizeof scratch - 2);
    EQUAL(answer.refusal, FEEDBACK_REFUSED_SCRATCH);
    answer = feedback_claims(two, 2, &claim, 1, scratch, sizeof scratch - 1);
    EQUAL(answer.refusal, FEEDBACK_REFUSED_SCRATCH);
    EQUAL(scratch[FEEDBACK_SCRATCH_MOST - 2], 99);
    answer = feedback_claims(one, 2, &claim, 1, scratch, sizeof scratch - 1);
    EQUAL(answer.kind, FEEDBACK_CLAIMS_CLEAN);
    EQUAL(scratch[FEEDBACK_SCRATCH_MOST - 3], 0);
    EQUAL(scratch[FEEDBACK_SCRATCH_MOST - 2], 1);
    EQUAL(scratch[FEEDBACK_SCRATCH_MOST - 1], 99);
    answer = feedback_claims(two, 2, &claim, 1, scratch, sizeof scratch);
    EQUAL(answer.kind, FEEDBACK_CLAIMS_CLEAN);
    EQUAL(scratch[FEEDBACK_SCRATCH_MOST - 3], 0);
    EQUAL(scratch[FEEDBACK_SCRATCH_MOST - 2], 1);
    EQUAL(scratch[FEEDBACK_SCRATCH_MOST - 1], 1);
}

/* With two ports: 1 at the two places from each of these on, 0 below M * N_4 + 1, and 99 beyond. */
static void pairs_marked(const uint8_t *scratch, unsigned one, unsigned other)
{
    unsigned t, wrong = 0;
    for (t = 0; t < 130; t++) {
        int is_one = t == one || t == one + 1, is_other = t == other || t == other + 1;
        wrong += scratch[t] != (is_one || is_other ? 1u : t < 123 ? 0u : 99u);
    }
    EQUAL(wrong, 0);
}

/*
 * The claims of two_resources. Those before the clash have both their resources marked; the other
 * one of the claim that clashes is not. Scratch is 123 bytes: the last resource, 132, is byte 122.
 */
static void claims_of_two_ports(void)
{
    struct feedback_settings one = settings_of(1, 0, 2), two = with_ports(one, 2);
    uint16_t claims[4] = {10, 256, 256 + 60, 0};
    uint8_t scratch[130], before[130];
    struct feedback_claims_answer answer;
    memset(scratch, 99, sizeof scratch);
    memcpy(before, scratch, sizeof before);
    answer = feedback_claims(two, 2, claims, 2, scratch, 122);
    EQUAL(answer.refusal, FEEDBACK_REFUSED_SCRATCH);
    EQUAL(answer.kind, FEEDBACK_CLAIMS_REFUSED);
    BYTES(scratch, before, sizeof before);
    answer = feedback_claims(two, 2, claims, 2, scratch, 130);
    EQUAL(answer.refusal, 0);
    EQUAL(answer.kind, FEEDBACK_CLAIMS_CLASH);
    EQUAL(answer.index, 1);
    pairs_marked(scratch, 10, 10); /* and not 12 */
    claims[0] = 256;
    claims[1] = 10; /* the neighbour below */
    answer = feedback_claims(two, 2, claims, 2, scratch, 123);
    EQUAL(answer.kind, FEEDBACK_CLAIMS_CLASH);
    EQUAL(answer.index, 1);
    pairs_marked(scratch, 11, 11); /* and not 10 */
    claims[1] = 256; /* the same one */
    answer = feedback_claims(two, 2, claims, 2, scratch, 123);
    EQUAL(answer.index, 1);
    claims[1] = 9; /* (0,9) has 19 and 20 */
    answer = feedback_claims(two, 2, claims, 2, scratch, 123);
    EQUAL(answer.refusal, 0);
    EQUAL(answer.kind, FEEDBACK_CLAIMS_CLEAN);
    EQUAL(answer.index, 0);
    pairs_marked(scratch, 11, 9);
    answer = feedback_claims(two, 2, claims + 2, 2, scratch, 123);
    EQUAL(answer.kind, FEEDBACK_CLAIMS_CLEAN);
    pairs_marked(scratch, 121, 0);
    claims[1] = 10;
    scratch[122] = 99;
    answer = feedback_claims(one, 2, claims, 2, scratch, 122); /* 21 and 20, with one port */
    EQUAL(answer.kind, FEEDBACK_CLAIMS_CLEAN);
    marked(scratch, 11, 10);
    claims[2] = FEEDBACK_CLAIM(1, 61); /* behind the clash */
    answer = feedback_claims(two, 2, claims, 3, scratch, 123);
    EQUAL(answer.refusal, FEEDBACK_REFUSED_CLAIM);
    EQUAL(answer.index, 2);
    marked(scratch, 11, 10);
    answer = feedback_claims(one, 2, claims, 1, scratch, 122); /* one port has 21, in a cell */
    EQUAL(answer.kind, FEEDBACK_CLAIMS_CLEAN);
    answer = feedback_claims(two, 2, claims + 1, 1, before, 123); /* where two have 20 and 21 */
    EQUAL(answer.kind, FEEDBACK_CLAIMS_CLEAN);
    EQUAL(scratch[10] + before[10], 1);
    EQUAL(scratch[11] + before[11], 2); /* shared */
    EQUAL(scratch[12] + before[12], 0);
}

/*
 * By bits, of 122 resources in 16 bytes: the bytes 0, 1, 2 and 15 are these, those between are 0,
 * and those beyond 99.
 */
static void bits_marked(const uint8_t *scratch, unsigned b0, unsigned b1, unsigned b2, unsigned b15)
{
    unsigned i, wrong = 0;
    for (i = 3; i < 18; i++)
        wrong += scratch[i] != (i < 15 ? 0 : i == 15 ? b15 : 99);
    EQUAL(wrong, 0);
    EQUAL(scratch[0], b0);
    EQUAL(scratch[1], b1);
    EQUAL(scratch[2], b2);
}

/*
 * Configuration 1, n = 2, N1 10. The resources 10, 20, 21, 31, 32 and 131 are less N1 bit 0 of
 * byte 0, bits 2 and 3 of byte 1, bits 5 and 6 of byte 2, and bit 1 of byte 15.
 */
static void claim_bits_of_1(void)
{
    struct feedback_settings settings = settings_of(1, 0, 2);
    uint16_t claims[8] = {0, 10, 256, 256 + 10, 11, 256 + 60, 256, 256 + 61};
    uint8_t scratch[18], before[18];
    uint16_t n = 2;
    size_t count = 6, room = 18;
    struct feedback_claims_answer answer;
    memset(scratch, 99, sizeof scratch);
    memcpy(before, scratch, sizeof before);
    answer = CALL(feedback_claims_bits, (settings, n, claims, count, scratch, room));
    EQUAL(answer.refusal, 0);
    EQUAL(answer.kind, FEEDBACK_CLAIMS_CLEAN);
    EQUAL(answer.index, 0);
    bits_marked(scratch, 1, 4 + 8, 32 + 64, 2);
    answer = feedback_claims_bits(settings, n, claims + 1, 3, scratch, 16);
    EQUAL(answer.kind, FEEDBACK_CLAIMS_CLEAN);
    bits_marked(scratch, 0, 4 + 8, 32, 0);
    answer = feedback_claims_bits(settings, n, claims, 7, scratch, room);
    EQUAL(answer.refusal, 0);
    EQUAL(answer.kind, FEEDBACK_CLAIMS_CLASH);
    EQUAL(answer.index, 6);
    bits_marked(scratch, 1, 4 + 8, 32 + 64, 2);
    memcpy(scratch, before, sizeof scratch);
    answer = feedback_claims_bits(settings, n, claims, 8, scratch, 15);
    EQUAL(answer.refusal, FEEDBACK_REFUSED_SCRATCH);
    EQUAL(answer.kind, FEEDBACK_CLAIMS_REFUSED);
    EQUAL(answer.index, 0);
    answer = feedback_claims_bits(settings, n, claims, 8, scratch, 16);
    EQUAL(answer.refusal, FEEDBACK_REFUSED_CLAIM);
    EQUAL(answer.kind, FEEDBACK_CLAIMS_REFUSED);
    EQUAL(answer.index, 7);
    answer = feedback_claims_bits(settings, 4, claims, 8, scratch, 15);
    EQUAL(answer.refusal, FEEDBACK_REFUSED_SUBFRAME);
    answer = feedback_claims_bits(settings, n, claims, 1, NULL, 0);
    EQUAL(answer.refusal, FEEDBACK_REFUSED_SCRATCH);
    BYTES(scratch, before, sizeof before);
    answer = feedback_claims_bits(settings, n, NULL, 0, scratch, room);
    EQUAL(answer.kind, FEEDBACK_CLAIMS_CLEAN);
    bits_marked(scratch, 0, 0, 0, 0);
    answer = feedback_claims_bits(settings, n, NULL, 0, NULL, 0);
    EQUAL(answer.refusal, FEEDBACK_REFUSED_SCRATCH);
}

/* The same by bits: 123 of them in 16 bytes, and bits 121 and 122 are bits 1 and 2 of byte 15. */
static void claim_bits_of_two_ports(void)
{
    struct feedback_settings two = with_ports(settings_of(1, 0, 2), 2);
    uint16_t claims[4] = {10, 256, 256 + 60, 0};
    uint8_t scratch[18], before[18];
    struct feedback_claims_answer answer;
    memset(scratch, 99, sizeof scratch);
    memcpy(before, scratch, sizeof before);
    answer = feedback_claims_bits(two, 2, claims, 2, scratch, 15);
    EQUAL(answer.refusal, FEEDBACK_REFUSED_SCRATCH);
    BYTES(scratch, before, sizeof before);
    answer = feedback_claims_bits(two, 2, claims, 2, scratch, 16);
    EQUAL(answer.refusal, 0);
    EQUAL(answer.kind, FEEDBACK_CLAIMS_CLASH);
    EQUAL(answer.index, 1);
    bits_marked(scratch, 0, 4 + 8, 0, 0); /* bits 10 and 11, and not 12 */
    answer = feedback_claims_bits(two, 2, claims + 1, 3, scratch, 18);
    EQUAL(answer.kind, FEEDBACK_CLAIMS_CLEAN);
    bits_marked(scratch, 1 + 2, 8 + 16, 0, 2 + 4);
}

/* Configuration 2 with N_RB 110: 4 * 134 is 8 * 67, so that two ports take a byte more. */
static void claim_bits_of_2(void)
{
    struct feedback_settings one = FEEDBACK_SETTINGS(2, 110, 0, 0, 2), two = with_ports(one, 2);
    uint16_t claim = FEEDBACK_CLAIM(3, 133);
    uint8_t scratch[69];
    struct feedback_claims_answer answer;
    memset(scratch, 99, sizeof scratch);
    answer = feedback_claims_bits(two, 7, &claim, 1, scratch, 67);
    EQUAL(answer.refusal, FEEDBACK_REFUSED_SCRATCH);
    EQUAL(scratch[66], 99);
    answer = feedback_claims_bits(one, 7, &claim, 1, scratch, 67);
    EQUAL(answer.kind, FEEDBACK_CLAIMS_CLEAN);
    EQUAL(scratch[66], 128);
    EQUAL(scratch[67], 99);
    answer = feedback_claims_bits(two, 7, &claim, 1, scratch, 68);
    EQUAL(answer.kind, FEEDBACK_CLAIMS_CLEAN);
    EQUAL(scratch[66], 128);
    EQUAL(scratch[67], 1);
    EQUAL(scratch[68], 99);
}

/* As many bytes as a window needs at most, by bits: one less is not enough, nor is it by bytes. */
static void claim_bits_of_5(void)
{
    struct feedback_settings settings = FEEDBACK_SETTINGS(5, 110, 0, 0, 2);
    uint8_t scratch[FEEDBACK_BIT_SCRATCH_MOST];
    uint16_t claims[2] = {FEEDBACK_CLAIM(FEEDBACK_WINDOW_MOST - 1, 133), FEEDBACK_CLAIM(0, 0)};
    struct feedback_claims_answer answer;
    memset(scratch, 99, sizeof scratch);
    answer = feedback_claims_bits(settings, 2, claims, 2, scratch, sizeof scratch - 1);
    EQUAL(answer.refusal, FEEDBACK_REFUSED_SCRATCH);
    answer = feedback_claims(settings, 2, claims, 2, scratch, sizeof scratch);
    EQUAL(answer.refusal, FEEDBACK_REFUSED_SCRATCH);
    EQUAL(scratch[FEEDBACK_BIT_SCRATCH_MOST - 1], 99);
    answer = feedback_claims_bits(settings, 2, claims, 2, scratch, sizeof scratch);
    EQUAL(answer.kind, FEEDBACK_CLAIMS_CLEAN);
    EQUAL(scratch[0], 1);
    EQUAL(scratch[FEEDBACK_BIT_SCRATCH_MOST - 2], 0);
    EQUAL(scratch[FEEDBACK_BIT_SCRATCH_MOST - 1], 32); /* 1205 is 8 * 150 and 5 */
    settings.ports = 2;
    answer = feedback_claims_bits(settings, 2, claims, 2, scratch, sizeof scratch - 1);
    EQUAL(answer.refusal, FEEDBACK_REFUSED_SCRATCH);
    answer = feedback_claims_bits(settings, 2, claims, 2, scratch, sizeof scratch);
    EQUAL(answer.kind, FEEDBACK_CLAIMS_CLEAN);
    EQUAL(scratch[0], 1 + 2);
    EQUAL(scratch[FEEDBACK_BIT_SCRATCH_MOST - 1], 32 + 64);
}

/* ---- the handset ---- */

static struct feedback_handset fresh(struct feedback_settings settings)
{
    struct feedback_made made = CALL(feedback_make, (settings));
    unsigned i;
    EQUAL(made.refusal, 0);
    EQUAL(made.handset.next, 0);
    EQUAL(made.handset.modes, settings.mode == FEEDBACK_MODE_MULTIPLEXING ? 8191 : 0);
    BYTES(&made.handset.settings, &settings, sizeof settings);
    for (i = 0; i < FEEDBACK_MEMORY; i++)
        EQUAL(made.handset.past[i].kind, FEEDBACK_SLOT_NOTHING);
    return made.handset;
}

static struct feedback_handset nothing(struct feedback_handset handset, unsigned kind)
{
    struct feedback_fed fed = CALL(feedback_feed_nothing, (handset));
    EQUAL(fed.refusal, 0);
    EQUAL(fed.kind, kind);
    EQUAL(fed.resource, 0);
    EQUAL(fed.b0, 0);
    EQUAL(fed.b1, 0);
    EQUAL(fed.second, 0);
    EQUAL(fed.handset.next, (handset.next + 1u) % 10u);
    EQUAL(fed.handset.past[0].kind, FEEDBACK_SLOT_NOTHING);
    BYTES(fed.handset.past + 1, handset.past, 12 * sizeof *handset.past);
    return fed.handset;
}

/* What was fed was taken into the memory; what it stores is looked at where it is fed. */
static void taken(struct feedback_handset handset, struct feedback_fed fed)
{
    EQUAL(fed.refusal, 0);
    EQUAL(fed.kind, FEEDBACK_KIND_TAKEN);
    EQUAL(fed.resource, 0);
    EQUAL(fed.b0, 0);
    EQUAL(fed.b1, 0);
    EQUAL(fed.second, 0);
    EQUAL(fed.handset.next, (handset.next + 1u) % 10u);
    BYTES(&fed.handset.settings, &handset.settings, sizeof handset.settings);
    BYTES(fed.handset.past + 1, handset.past, 12 * sizeof *handset.past);
}

static struct feedback_handset grant(struct feedback_handset handset, uint16_t blocks,
                                     uint16_t first, uint16_t second, uint16_t cce, uint16_t dai)
{
    struct feedback_fed fed =
        CALL(feedback_feed_grant, (handset, blocks, first, second, cce, dai));
    taken(handset, fed);
    EQUAL(fed.handset.past[0].kind, FEEDBACK_SLOT_GRANT);
    EQUAL(fed.handset.past[0].cce, cce);
    EQUAL(fed.handset.past[0].dai, dai);
    EQUAL((fed.handset.past[0].results & FEEDBACK_FIRST_DECODED) != 0, first != 0);
    EQUAL((fed.handset.past[0].results & FEEDBACK_SECOND_DECODED) != 0, second != 0);
    EQUAL((fed.handset.past[0].results & FEEDBACK_TWO_CARRIED) != 0, blocks == 2);
    return fed.handset;
}

static struct feedback_handset scheduled(struct feedback_handset handset, uint16_t blocks,
                                         uint16_t first, uint16_t second)
{
    struct feedback_fed fed = CALL(feedback_feed_scheduled, (handset, blocks, first, second));
    taken(handset, fed);
    EQUAL(fed.handset.past[0].kind, FEEDBACK_SLOT_SCHEDULED);
    EQUAL(fed.handset.past[0].cce, 0);
    EQUAL(fed.handset.past[0].dai, 0);
    EQUAL((fed.handset.past[0].results & FEEDBACK_FIRST_DECODED) != 0, first != 0);
    EQUAL((fed.handset.past[0].results & FEEDBACK_SECOND_DECODED) != 0, second != 0);
    EQUAL((fed.handset.past[0].results & FEEDBACK_TWO_CARRIED) != 0, blocks == 2);
    return fed.handset;
}

static struct feedback_handset release(struct feedback_handset handset, uint16_t cce, uint16_t dai)
{
    struct feedback_fed fed = CALL(feedback_feed_release, (handset, cce, dai));
    taken(handset, fed);
    EQUAL(fed.handset.past[0].kind, FEEDBACK_SLOT_RELEASE);
    EQUAL(fed.handset.past[0].cce, cce);
    EQUAL(fed.handset.past[0].dai, dai);
    EQUAL(fed.handset.past[0].results, 0);
    return fed.handset;
}

static void replies_on_both(struct feedback_handset handset, unsigned kind, unsigned resource,
                            unsigned second, unsigned b0, unsigned b1)
{
    struct feedback_fed fed = feedback_feed_nothing(handset);
    EQUAL(fed.refusal, 0);
    EQUAL(fed.kind, kind);
    EQUAL(fed.resource, resource);
    EQUAL(fed.b0, b0);
    EQUAL(fed.b1, b1);
    EQUAL(fed.second, second);
    EQUAL(fed.handset.next, handset.next + 1u);
    BYTES(&fed.handset.settings, &handset.settings, sizeof handset.settings);
}

static void replies(struct feedback_handset handset, unsigned kind, unsigned resource, unsigned b0,
                    unsigned b1)
{
    replies_on_both(handset, kind, resource, 0, b0, b1);
}

/* Configuration 2 up to subframe 7, which answers for 9, 0, 3 and 1, in time order 9, 0, 1, 3. */
static void bundled(void)
{
    struct feedback_handset handset = fresh(settings_of(2, FEEDBACK_MODE_BUNDLING, 2));
    handset = grant(handset, 2, 1, 7, 3, 1);
    handset = grant(handset, 2, 1, 0, 4, 2);
    handset = nothing(handset, FEEDBACK_KIND_SILENT); /* nothing heard in 4, 5, 8 and 6 before 2 */
    handset = grant(handset, 1, 1, 0, 5, 3);
    handset = nothing(handset, FEEDBACK_KIND_TAKEN);
    handset = nothing(handset, FEEDBACK_KIND_TAKEN);
    handset = nothing(handset, FEEDBACK_KIND_TAKEN);
    replies(handset, FEEDBACK_KIND_BUNDLED, 37, 1, 0); /* as in resource_and_inverse */
    handset.past[5].results = FEEDBACK_SECOND_DECODED | FEEDBACK_TWO_CARRIED;
    replies(handset, FEEDBACK_KIND_BUNDLED, 37, 0, 1);
    handset.past[5].kind = FEEDBACK_SLOT_NOTHING; /* the DAI shows the miss */
    replies(handset, FEEDBACK_KIND_SILENT, 0, 0, 0);
}

/* The same subframes: position 1 alone is -A--, 01 on 24; with position 3 it is -A-A, 10 on 47. */
static void multiplexed(void)
{
    struct feedback_handset handset = fresh(settings_of(2, FEEDBACK_MODE_MULTIPLEXING, 1));
    unsigned i;
    handset = grant(handset, 1, 1, 0, 3, 1);
    handset = grant(handset, 1, 1, 0, 4, 2);
    handset = nothing(handset, FEEDBACK_KIND_SILENT);
    for (i = 3; i < 7; i++)
        handset = nothing(handset, FEEDBACK_KIND_TAKEN);
    replies(handset, FEEDBACK_KIND_MULTIPLEXED, 47, 1, 0); /* 3 * 11 + 4 + 10 */
    handset.past[5].kind = FEEDBACK_SLOT_NOTHING;
    replies(handset, FEEDBACK_KIND_MULTIPLEXED, 24, 0, 1); /* 1 * 11 + 3 + 10 */
}

/* The subframes of bundled, with two ports; a release is answered on both as well. */
static void bundled_on_two_ports(void)
{
    struct feedback_handset handset =
        fresh(with_ports(settings_of(2, FEEDBACK_MODE_BUNDLING, 2), 2));
    handset = release(handset, 3, 1);
    handset = nothing(handset, FEEDBACK_KIND_TAKEN);
    handset = nothing(handset, FEEDBACK_KIND_SILENT);
    handset = grant(handset, 2, 1, 0, 5, 2);
    handset = nothing(handset, FEEDBACK_KIND_TAKEN);
    handset = nothing(handset, FEEDBACK_KIND_TAKEN);
    handset = nothing(handset, FEEDBACK_KIND_TAKEN);
    replies_on_both(handset, FEEDBACK_KIND_BUNDLED, 37, 38, 1, 0);
    handset.past[3].kind = FEEDBACK_SLOT_NOTHING;
    replies_on_both(handset, FEEDBACK_KIND_BUNDLED, 24, 25, 1, 1); /* 1 * 11 + 3 + 10 */
    handset.past[6].dai = 2; /* shows a miss */
    replies_on_both(handset, FEEDBACK_KIND_SILENT, 0, 0, 0, 0);
    handset.settings.ports = 1;
    handset.past[6].dai = 1;
    replies_on_both(handset, FEEDBACK_KIND_BUNDLED, 24, 0, 1, 1);
}

/* ---- the change of mode ---- */

static struct feedback_handset change(struct feedback_handset handset, uint16_t mode)
{
    struct feedback_changed changed = CALL(feedback_change_mode, (handset, mode));
    EQUAL(changed.refusal, 0);
    EQUAL(changed.handset.settings.mode, mode);
    handset.settings.mode = mode;
    BYTES(&changed.handset, &handset, sizeof handset);
    return changed.handset;
}

static void change_refused(struct feedback_handset handset, uint16_t mode, unsigned refusal)
{
    struct feedback_changed changed = feedback_change_mode(handset, mode);
    EQUAL(changed.refusal, refusal);
    BYTES(&changed.handset, &handset, sizeof handset);
}

/*
 * Configuration 3: 12 answers for 1, 5 and 6 in time order, 13 for 7 and 8, 14 for 9 and 10. Mode 1
 * stands from 2 to 8. So 12 is bundled, by subframe 1, though 5, of k_0, was fed in mode 1; 13 is
 * multiplexed, though mode 0 stands again; 14 is bundled.
 */
static void changed_between(void)
{
    struct feedback_settings settings = settings_of(3, FEEDBACK_MODE_BUNDLING, 1);
    struct feedback_handset handset = fresh(settings);
    struct feedback_reading_answer reading;
    unsigned i;
    handset = nothing(handset, FEEDBACK_KIND_TAKEN);
    handset = grant(handset, 1, 1, 0, 4, 1);
    handset = change(handset, FEEDBACK_MODE_MULTIPLEXING);
    for (i = 2; i < 5; i++)
        handset = nothing(handset, FEEDBACK_KIND_SILENT);
    handset = grant(handset, 1, 1, 0, 12, 2);
    handset = grant(handset, 1, 1, 0, 30, 3);
    handset = grant(handset, 1, 1, 0, 3, 1);
    handset = grant(handset, 1, 0, 0, 5, 2);
    handset = change(handset, FEEDBACK_MODE_BUNDLING);
    handset = grant(handset, 1, 1, 0, 3, 1);
    handset = grant(handset, 1, 1, 0, 10, 2);
    handset = nothing(handset, FEEDBACK_KIND_TAKEN);
    EQUAL(handset.modes, 1016); /* bits 3 to 9: subframes 8 to 2 */
    replies(handset, FEEDBACK_KIND_BUNDLED, 111, 1, 0); /* 27 + 44 + 30 + 10 */
    handset = feedback_feed_nothing(handset).handset;
    replies(handset, FEEDBACK_KIND_MULTIPLEXED, 13, 0, 1); /* A,N: 3 + 10 */
    handset = feedback_feed_nothing(handset).handset;
    replies(handset, FEEDBACK_KIND_BUNDLED, 31, 1, 0); /* 11 + 10 + 10 */
    settings.mode = FEEDBACK_MODE_MULTIPLEXING;
    reading = feedback_reading(settings, 3, FEEDBACK_NONE, 13, 0, 1); /* the mode of the window */
    EQUAL(reading.refusal, 0);
    EQUAL(reading.kind, FEEDBACK_KIND_MULTIPLEXED);
    EQUAL(reading.position, 0);
    EQUAL(reading.cce, 3);
    EQUAL(reading.delivered, 1);
    settings.mode = FEEDBACK_MODE_BUNDLING; /* the mode that stands: a second bit is refused */
    EQUAL(feedback_reading(settings, 3, FEEDBACK_NONE, 13, 0, 1).refusal, FEEDBACK_REFUSED_BITS);
}

/*
 * Configuration 2: 7 answers for -1, 0, 1 and 3, so in the mode of feedback_make; 12 for 4, 5, 6
 * and 8.
 */
static void changed_first(void)
{
    struct feedback_handset handset = fresh(settings_of(2, FEEDBACK_MODE_MULTIPLEXING, 1));
    unsigned i;
    handset = change(handset, FEEDBACK_MODE_BUNDLING);
    handset = grant(handset, 1, 1, 0, 0, 1);
    handset = nothing(handset, FEEDBACK_KIND_TAKEN);
    handset = nothing(handset, FEEDBACK_KIND_SILENT);
    handset = nothing(handset, FEEDBACK_KIND_TAKEN);
    handset = grant(handset, 1, 1, 0, 3, 1);
    handset = nothing(handset, FEEDBACK_KIND_TAKEN);
    handset = nothing(handset, FEEDBACK_KIND_TAKEN);
    replies(handset, FEEDBACK_KIND_MULTIPLEXED, 21, 0, 1); /* -A--: 1 * 11 + 0 + 10 */
    handset = feedback_feed_nothing(handset).handset;
    for (i = 8; i < 12; i++)
        handset = nothing(handset, FEEDBACK_KIND_TAKEN);
    replies(handset, FEEDBACK_KIND_BUNDLED, 13, 1, 0); /* 3 + 10 */
}

static void changes_refused(void)
{
    struct feedback_handset three = fresh(settings_of(3, FEEDBACK_MODE_BUNDLING, 1));
    struct feedback_handset five = fresh(settings_of(5, FEEDBACK_MODE_BUNDLING, 1));
    static const uint16_t bit[] = {1,   2,   4,    8,    16,   32,   64,    128,
                                   256, 512, 1024, 2048, 4096, 8192, 16384, 32768};
    unsigned i;
    change_refused(three, 2, FEEDBACK_REFUSED_MODE);
    change_refused(three, 65535, FEEDBACK_REFUSED_MODE);
    change_refused(five, 2, FEEDBACK_REFUSED_MODE);
    change_refused(five, FEEDBACK_MODE_MULTIPLEXING, FEEDBACK_REFUSED_MULTIPLEXING);
    three = change(change(three, FEEDBACK_MODE_MULTIPLEXING), FEEDBACK_MODE_MULTIPLEXING);
    three.next = five.next = 10; /* 4 and 5 come before 8 */
    change_refused(three, 0, FEEDBACK_REFUSED_STATE);
    change_refused(three, 2, FEEDBACK_REFUSED_MODE);
    change_refused(five, 1, FEEDBACK_REFUSED_MULTIPLEXING);
    five.next = 0;
    for (i = 0; i < 16; i++) { /* a remembered mode 1 in configuration 5; from bit 13 on nothing */
        unsigned refusal = i < FEEDBACK_MEMORY ? FEEDBACK_REFUSED_STATE : FEEDBACK_NOT_REFUSED;
        five.modes = bit[i];
        EQUAL(feedback_feed_nothing(five).refusal, refusal);
        EQUAL(feedback_change_mode(five, 0).refusal, refusal);
    }
    EQUAL(feedback_change_mode(five, 0).handset.modes, 32768);
    EQUAL(feedback_feed_nothing(five).handset.modes, 0);
}

/* A handset with two ports stays in mode 0: 24 comes after 4 and 5, and before 8. */
static void changes_of_two_ports(void)
{
    struct feedback_handset two = fresh(with_ports(settings_of(3, FEEDBACK_MODE_BUNDLING, 1), 2));
    struct feedback_handset five = fresh(with_ports(settings_of(5, FEEDBACK_MODE_BUNDLING, 1), 2));
    static const uint16_t bit[] = {1, 2, 4, 8, 16, 32, 64, 128, 256, 512, 1024, 2048, 4096, 8192};
    struct feedback_handset bad;
    unsigned i;
    two = change(two, FEEDBACK_MODE_BUNDLING);
    change_refused(two, FEEDBACK_MODE_MULTIPLEXING, FEEDBACK_REFUSED_PORTS);
    change_refused(two, 2, FEEDBACK_REFUSED_MODE);
    change_refused(five, FEEDBACK_MODE_MULTIPLEXING, FEEDBACK_REFUSED_MULTIPLEXING);
    bad = two;
    bad.next = 10;
    change_refused(bad, FEEDBACK_MODE_BUNDLING, FEEDBACK_REFUSED_STATE);
    change_refused(bad, FEEDBACK_MODE_MULTIPLEXING, FEEDBACK_REFUSED_PORTS);
    change_refused(bad, 2, FEEDBACK_REFUSED_MODE);
    bad = two;
    bad.settings.ports = 3; /* of no handset: whatever the new mode */
    change_refused(bad, FEEDBACK_MODE_BUNDLING, FEEDBACK_REFUSED_STATE);
    change_refused(bad, FEEDBACK_MODE_MULTIPLEXING, FEEDBACK_REFUSED_STATE);
    bad = two;
    bad.settings.scheduled = 6;
    change_refused(bad, FEEDBACK_MODE_BUNDLING, FEEDBACK_REFUSED_STATE);
    change_refused(bad, FEEDBACK_MODE_MULTIPLEXING, FEEDBACK_REFUSED_PORTS);
    bad = two;
    bad.settings.mode = FEEDBACK_MODE_MULTIPLEXING;
    change_refused(bad, FEEDBACK_MODE_BUNDLING, FEEDBACK_REFUSED_STATE);
    change_refused(bad, FEEDBACK_MODE_MULTIPLEXING, FEEDBACK_REFUSED_PORTS);
    for (i = 0; i < 14; i++) { /* a remembered mode 1 with two ports; bit 13 is nothing */
        unsigned refusal = i < FEEDBACK_MEMORY ? FEEDBACK_REFUSED_STATE : FEEDBACK_NOT_REFUSED;
        two.modes = bit[i];
        EQUAL(feedback_feed_nothing(two).refusal, refusal);
        EQUAL(feedback_change_mode(two, 0).refusal, refusal);
    }
}

/* Fed up to subframe 7 as above: with a release in 0, a grant in 1 and a scheduled block in 3. */
static void bundled_scheduled(void)
{
    struct feedback_settings settings =
        with_scheduled(settings_of(2, FEEDBACK_MODE_BUNDLING, 2), 6);
    struct feedback_handset handset = fresh(settings);
    unsigned i;
    handset = release(handset, 3, 1);
    handset = grant(handset, 2, 1, 1, 4, 2);
    handset = nothing(handset, FEEDBACK_KIND_SILENT);
    handset = scheduled(handset, 2, 0, 7);
    for (i = 4; i < 7; i++)
        handset = nothing(handset, FEEDBACK_KIND_TAKEN);
    replies(handset, FEEDBACK_KIND_BUNDLED, 47, 0, 1); /* on the grant's: 3 * 11 + 4 + 10 */
    handset.past[3].results = FEEDBACK_FIRST_DECODED;  /* a sole block stands for both bits */
    replies(handset, FEEDBACK_KIND_BUNDLED, 47, 1, 1);
    handset.past[5].results = FEEDBACK_SECOND_DECODED | FEEDBACK_TWO_CARRIED;
    replies(handset, FEEDBACK_KIND_BUNDLED, 47, 0, 1); /* the grant in 1 */
    handset.past[5].kind = FEEDBACK_SLOT_NOTHING;
    replies(handset, FEEDBACK_KIND_BUNDLED, 24, 1, 1); /* on the release's: 1 * 11 + 3 + 10 */
    handset.past[6].dai = 2;                           /* the release shows a miss */
    replies(handset, FEEDBACK_KIND_SILENT, 0, 0, 0);
    handset.past[6].kind = FEEDBACK_SLOT_NOTHING;
    replies(handset, FEEDBACK_KIND_BUNDLED, 6, 1, 1); /* the block alone */
    handset.past[3].results = FEEDBACK_FIRST_DECODED | FEEDBACK_TWO_CARRIED;
    replies(handset, FEEDBACK_KIND_BUNDLED, 6, 1, 0);
    handset.past[3].kind = FEEDBACK_SLOT_RELEASE; /* of first CCE 5 with DAI 1 */
    handset.past[3].cce = 5;
    handset.past[3].dai = 1;
    replies(handset, FEEDBACK_KIND_BUNDLED, 37, 1, 1); /* as in resource_and_inverse */
}

/* A release in 0 is position 1, a block in 1 position 3: -A-A is 10 of 3, -A-N 01 of 1, ---N 11. */
static void multiplexed_scheduled(void)
{
    struct feedback_settings settings =
        with_scheduled(settings_of(2, FEEDBACK_MODE_MULTIPLEXING, 1), 6);
    struct feedback_handset handset = fresh(settings);
    unsigned i;
    handset = release(handset, 3, 1);
    handset = scheduled(handset, 1, 1, 0);
    handset = nothing(handset, FEEDBACK_KIND_SILENT);
    for (i = 3; i < 7; i++)
        handset = nothing(handset, FEEDBACK_KIND_TAKEN);
    replies(handset, FEEDBACK_KIND_MULTIPLEXED, 6, 1, 0);
    handset.past[5].results = FEEDBACK_SECOND_DECODED; /* of a block that was not carried */
    replies(handset, FEEDBACK_KIND_MULTIPLEXED, 24, 0, 1);
    handset.past[6].kind = FEEDBACK_SLOT_NOTHING;
    replies(handset, FEEDBACK_KIND_MULTIPLEXED, 6, 1, 1);
}

/* ---- the cause of a silence ---- */

/* What feedback_silence tells: what feedback_feed_nothing answers, to the byte, and the cause. */
static void told_cause(int line, struct feedback_handset handset, unsigned cause, unsigned v,
                       unsigned expected)
{
    struct feedback_silence_answer told = CALL(feedback_silence, (handset));
    struct feedback_fed fed = feedback_feed_nothing(handset);
    equal(line, "the fed part differs", memcmp(&told.fed, &fed, sizeof fed) != 0, 0);
    equal(line, "cause", told.cause, cause);
    equal(line, "v", told.v, v);
    equal(line, "expected", told.expected, expected);
    equal(line, "silent", fed.kind == FEEDBACK_KIND_SILENT, cause != FEEDBACK_CAUSE_NONE);
}
#define NO_CAUSE(handset) told_cause(__LINE__, handset, FEEDBACK_CAUSE_NONE, 0, 0)
#define NOTHING_HEARD(handset) told_cause(__LINE__, handset, FEEDBACK_CAUSE_NOTHING_HEARD, 0, 0)
#define MISS_SHOWN(handset, v, expected) \
    told_cause(__LINE__, handset, FEEDBACK_CAUSE_MISS_SHOWN, v, expected)

/*
 * Configuration 2 up to subframe 7, as in bundled, then with one PDCCH after the other unheard: the
 * cause beside a silence.
 */
static void silences(void)
{
    struct feedback_settings cell = settings_of(2, FEEDBACK_MODE_BUNDLING, 1);
    struct feedback_handset handset = fresh(with_scheduled(cell, 7)), nine;
    static const struct feedback_slot block = {FEEDBACK_SLOT_SCHEDULED, 0, 0, 1};
    static const struct feedback_slot five[] = {
        {FEEDBACK_SLOT_GRANT, 3, 2, 0},
        {FEEDBACK_SLOT_GRANT, 3, 1, 0},
        {FEEDBACK_SLOT_GRANT, 3, 4, 0},
        {FEEDBACK_SLOT_GRANT, 3, 3, 0},
        {FEEDBACK_SLOT_RELEASE, 3, 2, 0},
    };
    unsigned i;
    NO_CAUSE(handset); /* a downlink subframe, taken */
    handset = grant(handset, 1, 1, 0, 3, 1);
    handset = release(handset, 4, 2);
    NOTHING_HEARD(handset); /* in 4, 5, 8 and 6 before 2 */
    handset = nothing(handset, FEEDBACK_KIND_SILENT);
    handset = grant(handset, 1, 1, 0, 5, 3);
    for (i = 0; i < 3; i++)
        handset = nothing(handset, FEEDBACK_KIND_TAKEN);
    NO_CAUSE(handset);                            /* a reply */
    handset.past[5].kind = FEEDBACK_SLOT_NOTHING; /* the release: DAI 1 and 3 are heard */
    MISS_SHOWN(handset, 3, 2);
    handset.past[5] = block; /* counts neither in U nor in V */
    MISS_SHOWN(handset, 3, 2);
    handset.past[6].kind = FEEDBACK_SLOT_NOTHING;
    MISS_SHOWN(handset, 3, 1);
    handset.past[3].kind = FEEDBACK_SLOT_NOTHING; /* the block alone: a reply */
    NO_CAUSE(handset);
    handset.past[5].kind = FEEDBACK_SLOT_NOTHING;
    NOTHING_HEARD(handset);
    handset.past[5].kind = 4;
    NO_CAUSE(handset); /* refused 8 */
    EQUAL(feedback_silence(handset).fed.refusal, FEEDBACK_REFUSED_STATE);
    /* configuration 5, subframe 2: DAI 2, 3, 4, 1 and 2 are heard, the fifth of which would be 1 */
    nine = fresh(settings_of(5, FEEDBACK_MODE_BUNDLING, 1));
    nine.next = 2;
    memcpy(nine.past + 3, five, sizeof five);
    MISS_SHOWN(nine, 2, 1);
    nine.past[2] = nine.past[3]; /* in subframe 9, not yet of this window */
    MISS_SHOWN(nine, 2, 1);
}

/* In the window's own mode: configuration 1, subframe 7, with DAI 2 alone heard, in subframe 1. */
static void silences_by_mode(void)
{
    struct feedback_handset handset = fresh(settings_of(1, FEEDBACK_MODE_BUNDLING, 1)), zero;
    unsigned i;
    handset = nothing(handset, FEEDBACK_KIND_TAKEN);
    handset = grant(handset, 1, 1, 0, 10, 2);
    handset = change(handset, FEEDBACK_MODE_MULTIPLEXING);
    for (i = 2; i < 7; i++)
        handset = feedback_feed_nothing(handset).handset;
    MISS_SHOWN(handset, 2, 1); /* bundled, though mode 1 stands */
    handset.modes |= 64;       /* bit 6: subframe 0, 7 ago, was fed in mode 1: D,A is answered */
    NO_CAUSE(handset);
    zero = fresh(settings_of(0, FEEDBACK_MODE_BUNDLING, 1));
    zero = grant(zero, 1, 1, 0, 10, 3);
    for (i = 1; i < 4; i++)
        zero = feedback_feed_nothing(zero).handset;
    NO_CAUSE(zero); /* configuration 0 does not read the DAI */
}

static void no_window(void)
{
    struct feedback_handset handset = fresh(settings_of(0, FEEDBACK_MODE_BUNDLING, 1));
    handset = nothing(handset, FEEDBACK_KIND_TAKEN);
    handset = nothing(handset, FEEDBACK_KIND_TAKEN);
    handset = nothing(handset, FEEDBACK_KIND_SILENT);
    handset = nothing(handset, FEEDBACK_KIND_NO_WINDOW);
    handset = nothing(handset, FEEDBACK_KIND_SILENT);
    EQUAL(handset.next, 5);
}

static struct feedback_handset sleeping(struct feedback_handset handset, unsigned subframes)
{
    for (; subframes > 0; subframes--)
        handset = feedback_feed_nothing(handset).handset;
    return handset;
}

/*
 * 13 feeds of nothing empty the memory: what a fresh handset is that expects the same subframe and
 * is made in the mode that stands. With a change among them they do not.
 */
static void slept(void)
{
    struct feedback_handset handset = fresh(settings_of(5, FEEDBACK_MODE_BUNDLING, 2));
    struct feedback_handset woken = handset;
    handset = sleeping(grant(handset, 2, 1, 1, 7, 2), 13);
    woken.next = 4;
    BYTES(&handset, &woken, sizeof woken);
    handset = grant(fresh(settings_of(2, FEEDBACK_MODE_BUNDLING, 2)), 2, 1, 1, 7, 1);
    handset = sleeping(change(handset, FEEDBACK_MODE_MULTIPLEXING), 13);
    woken = fresh(settings_of(2, FEEDBACK_MODE_MULTIPLEXING, 2));
    woken.next = 4;
    BYTES(&handset, &woken, sizeof woken);
    handset = sleeping(change(sleeping(handset, 1), FEEDBACK_MODE_BUNDLING), 12);
    woken = fresh(settings_of(2, FEEDBACK_MODE_BUNDLING, 2));
    woken.next = 7;
    HOLDS(memcmp(&handset, &woken, sizeof woken) != 0);
    EQUAL(handset.modes, 4096); /* the one before the change, 13 ago */
    woken.modes = 4096;
    BYTES(&handset, &woken, sizeof woken);
}

static void refused(struct feedback_handset handset, struct feedback_fed fed, unsigned refusal)
{
    EQUAL(fed.refusal, refusal);
    EQUAL(fed.kind, FEEDBACK_KIND_REFUSED);
    EQUAL(fed.resource, 0);
    EQUAL(fed.b0, 0);
    EQUAL(fed.b1, 0);
    EQUAL(fed.second, 0);
    BYTES(&fed.handset, &handset, sizeof handset);
}

static void feeds_refused(void)
{
    struct feedback_handset handset = fresh(settings_of(2, 0, 1));
    handset.past[2].cce = 200; /* without a meaning there, and kept */
    refused(handset, feedback_feed_grant(handset, 0, 1, 1, 61, 5), FEEDBACK_REFUSED_CARRIED);
    refused(handset, feedback_feed_grant(handset, 2, 1, 1, 61, 5), FEEDBACK_REFUSED_CARRIED);
    refused(handset, feedback_feed_grant(handset, 1, 1, 1, 61, 5), FEEDBACK_REFUSED_CCE);
    refused(handset, feedback_feed_grant(handset, 1, 1, 1, 60, 5), FEEDBACK_REFUSED_DAI);
    refused(handset, feedback_feed_grant(handset, 1, 1, 1, 60, 0), FEEDBACK_REFUSED_DAI);
    handset.next = 2;
    refused(handset, feedback_feed_grant(handset, 0, 1, 1, 61, 5), FEEDBACK_REFUSED_UPLINK);
    handset.past[0].kind = FEEDBACK_SLOT_GRANT; /* in subframe 1, with DAI 0 */
    refused(handset, feedback_feed_grant(handset, 0, 1, 1, 61, 5), FEEDBACK_REFUSED_STATE);
    refused(handset, feedback_feed_nothing(handset), FEEDBACK_REFUSED_STATE);
    handset.past[0].dai = 4;
    nothing(handset, FEEDBACK_KIND_SILENT);
    handset.next = 3; /* now the grant came in subframe 2, uplink */
    refused(handset, feedback_feed_nothing(handset), FEEDBACK_REFUSED_STATE);
    handset.past[0].kind = FEEDBACK_SLOT_NOTHING;
    handset.past[1].kind = 4;
    refused(handset, feedback_feed_nothing(handset), FEEDBACK_REFUSED_STATE);
    handset.past[1].kind = FEEDBACK_SLOT_NOTHING;
    handset.next = 10;
    refused(handset, feedback_feed_nothing(handset), FEEDBACK_REFUSED_STATE);
}

static void releases_refused(void)
{
    struct feedback_handset handset = fresh(settings_of(2, 0, 1)); /* needs no scheduled resource */
    refused(handset, feedback_feed_release(handset, 61, 5), FEEDBACK_REFUSED_CCE);
    refused(handset, feedback_feed_release(handset, 60, 5), FEEDBACK_REFUSED_DAI);
    refused(handset, feedback_feed_release(handset, 60, 0), FEEDBACK_REFUSED_DAI);
    release(handset, 60, 4);
    handset.next = 2;
    refused(handset, feedback_feed_release(handset, 61, 5), FEEDBACK_REFUSED_UPLINK);
    handset.past[0].kind = FEEDBACK_SLOT_RELEASE; /* in subframe 1, with DAI 0 */
    refused(handset, feedback_feed_release(handset, 61, 5), FEEDBACK_REFUSED_STATE);
    handset.past[0].dai = 4;
    handset.past[0].results = FEEDBACK_TWO_CARRIED; /* without a meaning there, and kept */
    nothing(handset, FEEDBACK_KIND_SILENT);
    handset.past[0].cce = 61;
    refused(handset, feedback_feed_nothing(handset), FEEDBACK_REFUSED_STATE);
    handset.past[0].cce = 60;
    handset.next = 3; /* now the release came in subframe 2, uplink */
    refused(handset, feedback_feed_nothing(handset), FEEDBACK_REFUSED_STATE);
}

/* Subframes 0, 1 and 3 are in one window, 4 is in the next; see the table. */
static void blocks_refused(void)
{
    struct feedback_handset none = fresh(settings_of(2, 0, 1));
    struct feedback_handset two = fresh(with_ports(none.settings, 2)); /* can have none set */
    struct feedback_handset handset = fresh(with_scheduled(settings_of(2, 0, 1), 6));
    refused(two, feedback_feed_scheduled(two, 1, 1, 1), FEEDBACK_REFUSED_SCHEDULED);
    refused(none, feedback_feed_scheduled(none, 0, 1, 1), FEEDBACK_REFUSED_CARRIED);
    refused(none, feedback_feed_scheduled(none, 2, 1, 1), FEEDBACK_REFUSED_CARRIED);
    refused(none, feedback_feed_scheduled(none, 1, 1, 1), FEEDBACK_REFUSED_SCHEDULED);
    none.past[0].kind = FEEDBACK_SLOT_SCHEDULED; /* in subframe 9, with no resource set */
    refused(none, feedback_feed_scheduled(none, 0, 1, 1), FEEDBACK_REFUSED_STATE);
    handset = scheduled(handset, 1, 1, 0);
    refused(handset, feedback_feed_scheduled(handset, 1, 1, 0), FEEDBACK_REFUSED_SCHEDULED);
    refused(handset, feedback_feed_scheduled(handset, 2, 1, 0), FEEDBACK_REFUSED_CARRIED);
    handset = release(handset, 60, 1);
    refused(handset, feedback_feed_scheduled(handset, 0, 1, 0), FEEDBACK_REFUSED_UPLINK);
    handset = nothing(handset, FEEDBACK_KIND_SILENT);
    refused(handset, feedback_feed_scheduled(handset, 1, 1, 0), FEEDBACK_REFUSED_SCHEDULED);
    handset = nothing(handset, FEEDBACK_KIND_TAKEN);
    handset = scheduled(handset, 1, 0, 0); /* in 4, though a release was heard */
    handset.past[0].cce = 200;             /* without a meaning there, and kept */
    handset.past[0].dai = 77;
    nothing(handset, FEEDBACK_KIND_TAKEN);
    handset.past[1].kind = FEEDBACK_SLOT_SCHEDULED; /* in 3, beside the one in 0 */
    refused(handset, feedback_feed_scheduled(handset, 0, 1, 0), FEEDBACK_REFUSED_STATE);
    handset.past[4].kind = FEEDBACK_SLOT_NOTHING;
    nothing(handset, FEEDBACK_KIND_TAKEN);
    handset.past[1].results = FEEDBACK_TWO_CARRIED; /* where one block is the most */
    refused(handset, feedback_feed_nothing(handset), FEEDBACK_REFUSED_STATE);
    handset.past[1].results = 0;
    handset.next = 4; /* now the block of 3 came in subframe 2, uplink */
    refused(handset, feedback_feed_nothing(handset), FEEDBACK_REFUSED_STATE);
}

/* Subframe 1 is special: a release is taken there and answered in 7, and data is not taken. */
static void short_refused(void)
{
    struct feedback_settings settings =
        with_special(settings_of(2, FEEDBACK_MODE_BUNDLING, 2), FEEDBACK_PREFIX_EXTENDED, 4);
    struct feedback_handset none = fresh(settings);
    struct feedback_handset handset = fresh(with_scheduled(settings, 6));
    unsigned i;
    handset = scheduled(handset, 2, 1, 0);
    refused(handset, feedback_feed_grant(handset, 2, 1, 1, 4, 1), FEEDBACK_REFUSED_SHORT);
    refused(handset, feedback_feed_grant(handset, 0, 1, 1, 61, 5), FEEDBACK_REFUSED_SHORT);
    refused(handset, feedback_feed_scheduled(handset, 2, 1, 1), FEEDBACK_REFUSED_SHORT);
    refused(handset, feedback_feed_scheduled(handset, 0, 1, 1), FEEDBACK_REFUSED_SHORT);
    none.next = 1;
    refused(none, feedback_feed_scheduled(none, 2, 1, 1), FEEDBACK_REFUSED_SHORT);
    refused(handset, feedback_feed_release(handset, 61, 5), FEEDBACK_REFUSED_CCE);
    refused(handset, feedback_feed_release(handset, 60, 5), FEEDBACK_REFUSED_DAI);
    nothing(handset, FEEDBACK_KIND_TAKEN);
    handset = release(handset, 4, 1);
    refused(handset, feedback_feed_grant(handset, 2, 1, 1, 4, 1), FEEDBACK_REFUSED_UPLINK);
    handset = nothing(handset, FEEDBACK_KIND_SILENT);
    for (i = 3; i < 7; i++)
        handset = nothing(handset, FEEDBACK_KIND_TAKEN);
    replies(handset, FEEDBACK_KIND_BUNDLED, 47, 1, 0); /* 3 * 11 + 4 + 10; the block's bits */
    handset.settings.mode = FEEDBACK_MODE_MULTIPLEXING; /* the window was fed in mode 0 */
    replies(handset, FEEDBACK_KIND_BUNDLED, 47, 1, 0);
    handset.modes = 8191; /* and now in mode 1 */
    replies(handset, FEEDBACK_KIND_MULTIPLEXED, 47, 0, 0); /* -N-A is ---A, 00 of 3 */
    handset.past[5].kind = FEEDBACK_SLOT_GRANT;            /* in place of the release */
    refused(handset, feedback_feed_nothing(handset), FEEDBACK_REFUSED_STATE);
    handset.settings.special = 5; /* long enough with this prefix, and not with the other */
    replies(handset, FEEDBACK_KIND_MULTIPLEXED, 47, 1, 1); /* -N-N is ---N, 11 of 3 */
    handset.settings.prefix = FEEDBACK_PREFIX_NORMAL;
    refused(handset, feedback_feed_nothing(handset), FEEDBACK_REFUSED_STATE);
    handset.past[5].kind = FEEDBACK_SLOT_SCHEDULED;
    handset.past[6].kind = FEEDBACK_SLOT_NOTHING;
    refused(handset, feedback_feed_nothing(handset), FEEDBACK_REFUSED_STATE);
    handset.past[5].kind = FEEDBACK_SLOT_NOTHING;
    replies(handset, FEEDBACK_KIND_SILENT, 0, 0, 0);
}

/* ---- recorded drives ---- */

/* The heading of a table in the header's comment: the name of a part and how many bytes it has. */
static const char *heading(const char *part)
{
    char line[64];
    const char *at;
    sprintf(line, "\n *             %s, ", part);
    at = strstr(text, line);
    if (at == NULL) {
        printf("the header has no table of %s\n", part);
        exit(1);
    }
    return at + strlen(line);
}

/* The first byte of a field in such a table; a row has the bytes, then the field's name. */
static unsigned long place_of(const char *part, const char *field)
{
    size_t length = strlen(field);
    const char *row = strchr(heading(part), '\n');
    for (; strncmp(row, "\n *\n", 4) != 0; row = strchr(row + 1, '\n'))
        if (strncmp(row + 25, field, length) == 0 && !is_word(row[25 + length]))
            return strtoul(row + 16, NULL, 10);
    printf("the header's table of %s has no %s\n", part, field);
    exit(1);
}

/* A trace of at most 16 records: where its parts are, and its bytes. */
struct drive {
    unsigned count, first, settings, length;
    uint8_t bytes[96];
};

static void put_byte(uint8_t *at, const char *part, const char *field, unsigned number)
{
    at[place_of(part, field)] = number & 255u;
}

static void put_number(uint8_t *at, const char *part, const char *field, unsigned number)
{
    put_byte(at, part, field, number);
    at[place_of(part, field) + 1] = number >> 8 & 255u;
}

static void put_header(struct drive *drive)
{
    put_number(drive->bytes, "header", "records", drive->count);
    put_number(drive->bytes, "header", "first", drive->first);
    put_number(drive->bytes, "header", "settings", drive->settings);
    put_number(drive->bytes, "header", "length", drive->length);
}

static void put_settings(struct drive *drive, struct feedback_settings settings)
{
    uint8_t *at = drive->bytes + drive->settings;
    put_byte(at, "settings", "config", settings.config);
    put_byte(at, "settings", "nrb", settings.nrb);
    put_byte(at, "settings", "mode", settings.mode);
    put_byte(at, "settings", "blocks", settings.blocks);
    put_byte(at, "settings", "special", settings.special);
    put_byte(at, "settings", "prefix", settings.prefix);
    put_number(at, "settings", "n1", settings.n1);
    put_number(at, "settings", "scheduled", settings.scheduled);
}

static void put_record(struct drive *drive, unsigned number, unsigned kind, unsigned cce,
                       unsigned dai, unsigned results)
{
    uint8_t *at = drive->bytes + drive->first + number * FEEDBACK_TRACE_RECORD;
    put_byte(at, "record", "kind", kind);
    put_byte(at, "record", "cce", cce);
    put_byte(at, "record", "dai", dai);
    put_byte(at, "record", "results", results);
}

/* A trace of nothing: the settings at 9, the records behind them, a byte before and one behind. */
static struct drive drive_of(struct feedback_settings settings, unsigned count)
{
    struct drive drive;
    memset(&drive, 0, sizeof drive);
    drive.count = count;
    drive.settings = FEEDBACK_TRACE_HEADER + 1;
    drive.first = drive.settings + FEEDBACK_TRACE_SETTINGS;
    drive.length = drive.first + count * FEEDBACK_TRACE_RECORD + 1;
    put_header(&drive);
    put_settings(&drive, settings);
    return drive;
}

/* A window of the output is what it should be. */
static void written(const uint8_t *window, unsigned n, unsigned kind, unsigned resource,
                    unsigned b0, unsigned b1)
{
    EQUAL(window[place_of("window", "n")], n);
    EQUAL(window[place_of("window", "kind")], kind);
    EQUAL(window[place_of("window", "resource")], resource % 256);
    EQUAL(window[place_of("window", "resource") + 1], resource / 256);
    EQUAL(window[place_of("window", "b0")], b0);
    EQUAL(window[place_of("window", "b1")], b1);
    EQUAL(window[place_of("window", "zero")], 0);
    EQUAL(window[place_of("window", "zero") + 1], 0);
}

static void tables_of_traces(void)
{
    EQUAL(strtoul(heading("header"), NULL, 10), FEEDBACK_TRACE_HEADER);
    EQUAL(strtoul(heading("settings"), NULL, 10), FEEDBACK_TRACE_SETTINGS);
    EQUAL(strtoul(heading("record"), NULL, 10), FEEDBACK_TRACE_RECORD);
    EQUAL(strtoul(heading("window"), NULL, 10), FEEDBACK_WINDOW_BYTES);
    EQUAL(place_of("header", "length"), 6);
    EQUAL(place_of("settings", "scheduled"), 8);
    EQUAL(place_of("record", "results"), 3);
    EQUAL(place_of("window", "zero"), 6);
    EQUAL(strtoul(heading("spelling"), NULL, 10), FEEDBACK_SPELLED_FIRST);
    EQUAL(place_of("spelling", "settings"), FEEDBACK_TRACE_HEADER);
    EQUAL(place_of("spelling", "records"), FEEDBACK_SPELLED_FIRST);
}

/* The answer of a replay, and the output's first byte that was not written. */
static void replayed(int line, const struct drive *drive, uint8_t *out, size_t room,
                     unsigned refusal, unsigned kind, unsigned record, unsigned windows)
{
    struct feedback_replay_answer answer;
    memset(out, 99, room);
    answer = feedback_replay(drive->bytes, drive->length, out, room);
    equal(line, "refusal", answer.refusal, refusal);
    equal(line, "kind", answer.kind, kind);
    equal(line, "record", answer.record, record);
    equal(line, "windows", answer.windows, windows);
    if (windows * FEEDBACK_WINDOW_BYTES < room)
        equal(line, "the rest", out[windows * FEEDBACK_WINDOW_BYTES], 99);
}

#define REPLAYED(drive, room, refusal, kind, record, windows) \
    replayed(__LINE__, &(drive), out, room, refusal, kind, record, windows)

/*
 * Configuration 2, with special subframes too short for data, where N_p is 0, 11, 27, 44, 61 and N1
 * 300: the drive of bundled_scheduled, with a release in 1. On its resource, 3 * 11 + 4 + 300.
 */
static struct drive drive_of_2(void)
{
    struct feedback_settings settings = FEEDBACK_SETTINGS(2, 50, 300, 0, 2);
    struct drive drive = drive_of(
        with_special(with_scheduled(settings, 6), FEEDBACK_PREFIX_EXTENDED, 4), 10);
    put_record(&drive, 0, FEEDBACK_SLOT_GRANT, 3, 1, 7);
    put_record(&drive, 1, FEEDBACK_SLOT_RELEASE, 4, 2, 255);
    put_record(&drive, 2, FEEDBACK_SLOT_NOTHING, 9, 9, 9);
    put_record(&drive, 3, FEEDBACK_SLOT_SCHEDULED, 255, 255, 6);
    put_record(&drive, 8, FEEDBACK_SLOT_GRANT, 5, 1, FEEDBACK_SECOND_DECODED | 1);
    return drive;
}

static void replay(void)
{
    struct drive drive = drive_of_2();
    const uint8_t *trace = drive.bytes;
    uint8_t out[24], before[24];
    size_t length = drive.length, room = 20;
    struct feedback_replay_answer answer;
    memset(out, 99, sizeof out);
    memcpy(before, out, sizeof out);
    answer = CALL(feedback_replay, (trace, length, out, room));
    EQUAL(answer.refusal, 0);
    EQUAL(answer.kind, FEEDBACK_REPLAY_DONE);
    EQUAL(answer.record, 0);
    EQUAL(answer.windows, 2);
    written(out, 2, 0, 0, 0, 0);
    written(out + FEEDBACK_WINDOW_BYTES, 7, 1, 337, 0, 1);
    BYTES(out + 16, before, 8);
    memcpy(out, before, sizeof out);
    answer = feedback_replay(trace, length, out, 15); /* two windows, though one is silent */
    EQUAL(answer.refusal, FEEDBACK_REFUSED_OUTPUT);
    EQUAL(answer.kind, FEEDBACK_REPLAY_REFUSED);
    EQUAL(answer.record, 0);
    EQUAL(answer.windows, 0);
    answer = feedback_replay(trace, length - 1, out, 16);
    EQUAL(answer.refusal, FEEDBACK_REFUSED_TRACE_LENGTH);
    EQUAL(answer.kind, FEEDBACK_REPLAY_REFUSED);
    answer = feedback_replay(NULL, 0, NULL, 0);
    EQUAL(answer.refusal, FEEDBACK_REFUSED_TRACE_LENGTH);
    answer = feedback_replay(trace, length, NULL, 0);
    EQUAL(answer.refusal, FEEDBACK_REFUSED_OUTPUT);
    BYTES(out, before, sizeof out);
    put_record(&drive, 7, FEEDBACK_SLOT_GRANT, 61, 5, 7); /* in an uplink subframe */
    answer = feedback_replay(trace, length, out, 16);
    EQUAL(answer.refusal, FEEDBACK_REFUSED_UPLINK);
    EQUAL(answer.kind, FEEDBACK_REPLAY_STOPPED);
    EQUAL(answer.record, 7);
    EQUAL(answer.windows, 1);
    written(out, 2, 0, 0, 0, 0);
    BYTES(out + 8, before, 16);
}

/* The same in other modes: a window of one subframe is bundled in mode 1 too. */
static void replay_multiplexed(void)
{
    struct feedback_settings cell = FEEDBACK_SETTINGS(2, 50, 300, 1, 2);
    struct drive drive = drive_of_2(), of_6 = drive_of(FEEDBACK_SETTINGS(6, 110, 0, 1, 1), 9);
    uint8_t out[40];
    put_settings(&drive, with_special(with_scheduled(cell, 6), FEEDBACK_PREFIX_EXTENDED, 4));
    REPLAYED(drive, 16, 0, FEEDBACK_REPLAY_DONE, 0, 2);
    written(out, 2, 0, 0, 0, 0);
    written(out + 8, 7, 2, 337, 1, 0); /* -ANA is -A-A, 10 of 3 */
    put_record(&drive, 3, FEEDBACK_SLOT_NOTHING, 0, 0, 0);
    put_record(&drive, 0, FEEDBACK_SLOT_SCHEDULED, 0, 0, 0);
    put_record(&drive, 1, FEEDBACK_SLOT_NOTHING, 0, 0, 0);
    REPLAYED(drive, 16, 0, FEEDBACK_REPLAY_DONE, 0, 2);
    written(out + 8, 7, 2, 6, 0, 0); /* -NDD is 00 of 1, the block's */
    put_record(&of_6, 0, FEEDBACK_SLOT_GRANT, 133, 1, FEEDBACK_FIRST_DECODED);
    REPLAYED(of_6, 40, 0, FEEDBACK_REPLAY_DONE, 0, 5);
    written(out + 24, 7, 1, 133, 1, 0);
    REPLAYED(of_6, 39, FEEDBACK_REFUSED_OUTPUT, FEEDBACK_REPLAY_REFUSED, 0, 0);
    put_settings(&of_6, FEEDBACK_SETTINGS(1, 110, 0, 0, 1));
    REPLAYED(of_6, 40, 0, FEEDBACK_REPLAY_DONE, 0, 4);
    written(out + 16, 7, 1, 133 + 97, 1, 0); /* 1 * 97 + 0 * 134 + 133 */
}

/* The parts: each place of the two that move, and what the header says of them. */
static void replay_refused(void)
{
    struct drive good = drive_of_2(), drive = good;
    uint8_t out[40];
    drive.settings = 7; /* a byte of the header */
    put_header(&drive);
    REPLAYED(drive, 40, FEEDBACK_REFUSED_TRACE_PARTS, FEEDBACK_REPLAY_REFUSED, 0, 0);
    drive.settings = good.first - 9; /* a byte of the first record */
    put_header(&drive);
    REPLAYED(drive, 40, FEEDBACK_REFUSED_TRACE_PARTS, FEEDBACK_REPLAY_REFUSED, 0, 0);
    drive.settings = 65530; /* past the end, and past 16 bits */
    put_header(&drive);
    REPLAYED(drive, 40, FEEDBACK_REFUSED_TRACE_PARTS, FEEDBACK_REPLAY_REFUSED, 0, 0);
    drive = good;
    drive.count = 11; /* leaves the file by three bytes */
    put_header(&drive);
    REPLAYED(drive, 40, FEEDBACK_REFUSED_TRACE_PARTS, FEEDBACK_REPLAY_REFUSED, 0, 0);
    drive.count = 0;
    drive.first = 65535;
    put_header(&drive);
    REPLAYED(drive, 40, 0, FEEDBACK_REPLAY_DONE, 0, 0);
    drive = good;
    put_record(&drive, 9, 4, 0, 0, 0); /* before the settings, the output and record 0 */
    put_settings(&drive, FEEDBACK_SETTINGS(7, 5, 2048, 2, 3));
    put_record(&drive, 0, FEEDBACK_SLOT_GRANT, 61, 5, 7);
    REPLAYED(drive, 15, FEEDBACK_REFUSED_TRACE_PARTS, FEEDBACK_REPLAY_REFUSED, 0, 0);
    put_record(&drive, 9, 3, 61, 5, 0);
    REPLAYED(drive, 15, FEEDBACK_REFUSED_CONFIGURATION, FEEDBACK_REPLAY_REFUSED, 0, 0);
    put_settings(&drive, FEEDBACK_SETTINGS(5, 5, 2048, 2, 3));
    REPLAYED(drive, 15, FEEDBACK_REFUSED_BANDWIDTH, FEEDBACK_REPLAY_REFUSED, 0, 0);
    put_settings(&drive, FEEDBACK_SETTINGS(5, 50, 2048, 2, 3));
    REPLAYED(drive, 15, FEEDBACK_REFUSED_N1, FEEDBACK_REPLAY_REFUSED, 0, 0);
    put_settings(&drive, FEEDBACK_SETTINGS(5, 50, 300, 2, 3));
    REPLAYED(drive, 15, FEEDBACK_REFUSED_MODE, FEEDBACK_REPLAY_REFUSED, 0, 0);
    put_settings(&drive, FEEDBACK_SETTINGS(5, 50, 300, 1, 3));
    REPLAYED(drive, 15, FEEDBACK_REFUSED_MULTIPLEXING, FEEDBACK_REPLAY_REFUSED, 0, 0);
    put_settings(&drive, FEEDBACK_SETTINGS(2, 50, 300, 1, 3));
    REPLAYED(drive, 15, FEEDBACK_REFUSED_BLOCKS, FEEDBACK_REPLAY_REFUSED, 0, 0);
    put_settings(&drive, with_special(with_scheduled(settings_of(2, 1, 2), 10), 2, 9));
    REPLAYED(drive, 15, FEEDBACK_REFUSED_SCHEDULED_RESOURCE, FEEDBACK_REPLAY_REFUSED, 0, 0);
    put_settings(&drive, with_special(with_scheduled(settings_of(2, 1, 2), 9), 2, 8));
    REPLAYED(drive, 15, FEEDBACK_REFUSED_SPECIAL, FEEDBACK_REPLAY_REFUSED, 0, 0);
    put_settings(&drive, with_special(with_scheduled(settings_of(2, 1, 2), 9), 0, 5));
    REPLAYED(drive, 15, FEEDBACK_REFUSED_OUTPUT, FEEDBACK_REPLAY_REFUSED, 0, 0);
    REPLAYED(drive, 16, FEEDBACK_REFUSED_CCE, FEEDBACK_REPLAY_STOPPED, 0, 0);
    put_record(&drive, 0, FEEDBACK_SLOT_GRANT, 60, 5, 7);
    REPLAYED(drive, 16, FEEDBACK_REFUSED_DAI, FEEDBACK_REPLAY_STOPPED, 0, 0);
    put_record(&drive, 0, FEEDBACK_SLOT_SCHEDULED, 255, 255, 255);
    REPLAYED(drive, 16, FEEDBACK_REFUSED_SCHEDULED, FEEDBACK_REPLAY_STOPPED, 3, 1);
    put_record(&drive, 1, FEEDBACK_SLOT_GRANT, 61, 5, 7);
    REPLAYED(drive, 16, FEEDBACK_REFUSED_SHORT, FEEDBACK_REPLAY_STOPPED, 1, 0);
    put_settings(&drive, with_scheduled(settings_of(2, 1, 1), 9));
    REPLAYED(drive, 16, FEEDBACK_REFUSED_CARRIED, FEEDBACK_REPLAY_STOPPED, 0, 0);
}

static void sized(int line, const struct drive *drive, unsigned refusal, unsigned windows)
{
    struct feedback_replay_size_answer answer = feedback_replay_size(drive->bytes, drive->length);
    equal(line, "refusal", answer.refusal, refusal);
    equal(line, "windows", answer.windows, windows);
    equal(line, "bytes", answer.bytes, windows * FEEDBACK_WINDOW_BYTES);
}

#define SIZED(drive, windows) sized(__LINE__, &(drive), 0, windows)

/* The windows of drive_of_2 are those of 2 and 7, whatever is in its records and gaps. */
static void replay_size(void)
{
    struct drive drive = drive_of_2();
    const uint8_t *trace = drive.bytes;
    uint8_t out[40];
    size_t length = drive.length;
    struct feedback_replay_size_answer answer = CALL(feedback_replay_size, (trace, length));
    unsigned filled;
    EQUAL(answer.refusal, 0);
    EQUAL(answer.windows, 2);
    EQUAL(answer.bytes, 16);
    REPLAYED(drive, 16, 0, FEEDBACK_REPLAY_DONE, 0, 2);
    put_record(&drive, 7, FEEDBACK_SLOT_RELEASE, 0, 1, 0); /* the second window is not written */
    SIZED(drive, 2);
    REPLAYED(drive, 16, FEEDBACK_REFUSED_UPLINK, FEEDBACK_REPLAY_STOPPED, 7, 1);
    put_record(&drive, 7, FEEDBACK_SLOT_NOTHING, 0, 1, 0);
    put_record(&drive, 8, FEEDBACK_SLOT_GRANT, 5, 5, 1); /* it is, and no third one */
    SIZED(drive, 2);
    REPLAYED(drive, 16, FEEDBACK_REFUSED_DAI, FEEDBACK_REPLAY_STOPPED, 8, 2);
    for (filled = 0; filled < 256; filled += 51) {
        drive.bytes[FEEDBACK_TRACE_HEADER] = filled & 255u; /* the byte before the settings */
        memset(drive.bytes + drive.first, drive.bytes[FEEDBACK_TRACE_HEADER],
               drive.length - drive.first);
        SIZED(drive, 2);
    }
    REPLAYED(drive, 16, FEEDBACK_REFUSED_TRACE_PARTS, FEEDBACK_REPLAY_REFUSED, 0, 0);
}

/* A trace of nothing with its parts the other way round: the settings are at the end. */
static struct drive records_first(struct feedback_settings settings, unsigned count)
{
    struct drive drive;
    memset(&drive, 0, sizeof drive);
    drive.count = count;
    drive.first = FEEDBACK_TRACE_HEADER;
    drive.settings = drive.first + count * FEEDBACK_TRACE_RECORD;
    drive.length = drive.settings + FEEDBACK_TRACE_SETTINGS;
    put_header(&drive);
    put_settings(&drive, settings);
    return drive;
}

/* The replay of a trace of nothing fills the output of these bytes; a byte less is refused. */
static void size_replayed(const struct drive *drive, unsigned windows)
{
    uint8_t out[FEEDBACK_WINDOW_BYTES * 16];
    size_t room = feedback_replay_size(drive->bytes, drive->length).bytes;
    SIZED(*drive, windows);
    if (room > sizeof out)
        return;
    REPLAYED(*drive, room, 0, FEEDBACK_REPLAY_DONE, 0, windows);
    if (room == 0)
        EQUAL(feedback_replay(drive->bytes, drive->length, NULL, 0).kind, FEEDBACK_REPLAY_DONE);
    else {
        HOLDS(out[room - 1] != 99);
        REPLAYED(*drive, room - 1, FEEDBACK_REFUSED_OUTPUT, FEEDBACK_REPLAY_REFUSED, 0, 0);
    }
}

/* Up to 16 records, with the parts both ways round; then with each of the records refused. */
static void sizes(void)
{
    uint16_t config;
    unsigned count, i;
    for (config = 0; config < 7; config++) {
        uint16_t mode = config == 5 ? 0 : 1;
        struct feedback_settings one = FEEDBACK_SETTINGS(config, 6, 0, 0, 1);
        struct feedback_settings other = FEEDBACK_SETTINGS(config, 110, 2047, mode, 2);
        unsigned windows = 0;
        one = with_special(one, FEEDBACK_PREFIX_NORMAL, 8);
        other = with_special(with_scheduled(other, 2046), FEEDBACK_PREFIX_EXTENDED, 6);
        for (count = 0; count <= 16; count++) {
            struct drive drive = drive_of(one, count), turned = records_first(other, count);
            unsigned before = 0;
            size_replayed(&drive, windows);
            size_replayed(&turned, windows);
            for (i = 0; i < count; i++) {
                uint8_t out[FEEDBACK_WINDOW_BYTES * 16];
                unsigned n = i % 10;
                int uplink = feedback_answered(one, n & 15u).refusal != 0;
                put_record(&drive, i, FEEDBACK_SLOT_RELEASE, 0, 5, 0);
                SIZED(drive, windows);
                REPLAYED(drive, windows * FEEDBACK_WINDOW_BYTES,
                         uplink ? FEEDBACK_REFUSED_UPLINK : FEEDBACK_REFUSED_DAI,
                         FEEDBACK_REPLAY_STOPPED, i, before);
                put_record(&drive, i, FEEDBACK_SLOT_NOTHING, 0, 0, 0);
                before += feedback_window(one, n & 15u).refusal == 0;
            }
            windows += feedback_window(one, count % 10 & 15u).refusal == 0;
        }
    }
}

/* Refused, and the replay in the same way before any record, whatever is lent to it. */
static void size_refused(int line, const struct drive *drive, unsigned refusal)
{
    uint8_t out[40];
    sized(line, drive, refusal, 0);
    replayed(line, drive, out, 0, refusal, FEEDBACK_REPLAY_REFUSED, 0, 0);
    replayed(line, drive, out, 40, refusal, FEEDBACK_REPLAY_REFUSED, 0, 0);
}

#define SIZE_REFUSED(drive, refusal) size_refused(__LINE__, &(drive), refusal)

/* The same for settings; with a kind over 3 the replay is refused 22, and the size as before. */
static void settings_of_size_refused(int line, struct feedback_settings settings, unsigned refusal)
{
    struct drive drive = drive_of_2();
    uint8_t out[40];
    put_settings(&drive, settings);
    size_refused(line, &drive, refusal);
    put_record(&drive, 9, FEEDBACK_SLOT_RELEASE + 1, 0, 0, 0);
    sized(line, &drive, refusal, 0);
    replayed(line, &drive, out, 40, FEEDBACK_REFUSED_TRACE_PARTS, FEEDBACK_REPLAY_REFUSED, 0, 0);
}

#define SETTINGS_REFUSED(settings, refusal) settings_of_size_refused(__LINE__, settings, refusal)

static void size_settings_refused(void)
{
    struct feedback_settings cell = settings_of(2, 1, 2);
    SETTINGS_REFUSED(FEEDBACK_SETTINGS(7, 5, 2048, 2, 3), FEEDBACK_REFUSED_CONFIGURATION);
    SETTINGS_REFUSED(FEEDBACK_SETTINGS(5, 5, 2048, 2, 3), FEEDBACK_REFUSED_BANDWIDTH);
    SETTINGS_REFUSED(FEEDBACK_SETTINGS(5, 111, 2048, 2, 3), FEEDBACK_REFUSED_BANDWIDTH);
    SETTINGS_REFUSED(FEEDBACK_SETTINGS(5, 50, 2048, 2, 3), FEEDBACK_REFUSED_N1);
    SETTINGS_REFUSED(FEEDBACK_SETTINGS(5, 50, 300, 2, 3), FEEDBACK_REFUSED_MODE);
    SETTINGS_REFUSED(FEEDBACK_SETTINGS(5, 50, 300, 1, 3), FEEDBACK_REFUSED_MULTIPLEXING);
    SETTINGS_REFUSED(with_special(with_scheduled(settings_of(2, 1, 3), 10), 2, 9),
                     FEEDBACK_REFUSED_BLOCKS);
    SETTINGS_REFUSED(with_special(with_scheduled(settings_of(2, 1, 0), 10), 2, 9),
                     FEEDBACK_REFUSED_BLOCKS);
    SETTINGS_REFUSED(with_special(with_scheduled(cell, 10), 2, 9),
                     FEEDBACK_REFUSED_SCHEDULED_RESOURCE);
    SETTINGS_REFUSED(with_special(with_scheduled(cell, 9), 2, 0), FEEDBACK_REFUSED_SPECIAL);
    SETTINGS_REFUSED(with_special(with_scheduled(cell, 9), 0, 9), FEEDBACK_REFUSED_SPECIAL);
    SETTINGS_REFUSED(with_special(with_scheduled(cell, 9), 1, 7), FEEDBACK_REFUSED_SPECIAL);
}

/* With this number of records, and the records and the settings in these places. */
static void place_refused(int line, struct drive drive, unsigned count, unsigned first,
                          unsigned settings)
{
    drive.count = count;
    drive.first = first;
    drive.settings = settings;
    put_header(&drive);
    size_refused(line, &drive, FEEDBACK_REFUSED_TRACE_PARTS);
}

#define PLACE_REFUSED(drive, count, first, settings) \
    place_refused(__LINE__, drive, count, first, settings)

static void size_parts_refused(void)
{
    struct feedback_settings bad = FEEDBACK_SETTINGS(7, 5, 2048, 2, 3);
    struct drive drive = drive_of(bad, 10), turned = records_first(bad, 10), none;
    SIZE_REFUSED(drive, FEEDBACK_REFUSED_CONFIGURATION);  /* 19 and 9, in 60 bytes */
    SIZE_REFUSED(turned, FEEDBACK_REFUSED_CONFIGURATION); /* 8 and 48, in 58 bytes */
    PLACE_REFUSED(drive, 10, 19, 0);
    PLACE_REFUSED(drive, 10, 19, 7);     /* a byte of the header */
    PLACE_REFUSED(drive, 10, 19, 10);    /* a byte of record 0 */
    PLACE_REFUSED(drive, 10, 19, 51);    /* past the end by a byte */
    PLACE_REFUSED(drive, 10, 19, 65530); /* past 16 bits */
    PLACE_REFUSED(drive, 10, 18, 9);     /* a byte of the settings */
    PLACE_REFUSED(drive, 10, 21, 9);     /* past the end by a byte */
    PLACE_REFUSED(drive, 11, 19, 9);
    PLACE_REFUSED(drive, 1, 65532, 9);   /* to 65536 */
    PLACE_REFUSED(drive, 16384, 19, 9);  /* 4 * 16384 is 65536 */
    PLACE_REFUSED(drive, 65535, 65535, 9);
    PLACE_REFUSED(turned, 10, 7, 48); /* a byte of the header */
    PLACE_REFUSED(turned, 10, 8, 47); /* a byte of record 9 */
    PLACE_REFUSED(turned, 10, 8, 49); /* past the end by a byte */
    PLACE_REFUSED(turned, 10, 9, 48); /* a byte of the settings */
    PLACE_REFUSED(turned, 11, 8, 48);
    PLACE_REFUSED(turned, 1, 50, 48); /* inside of them */
    PLACE_REFUSED(turned, 0, 65535, 49);
    PLACE_REFUSED(turned, 0, 65535, 7);
    none = records_first(settings_of(2, 0, 1), 0); /* the place of no records is ignored */
    for (none.first = 0; none.first < 20; none.first++) {
        put_header(&none);
        size_replayed(&none, 0);
    }
    none.first = 65535;
    put_header(&none);
    size_replayed(&none, 0);
}

/* A trace below eight bytes, or not of its header's length, with all that comes after it. */
static void size_length_refused(void)
{
    static uint8_t trace[65536 + 60];
    struct drive good = drive_of_2(), drive = good;
    memcpy(trace, good.bytes, good.length);
    EQUAL(feedback_replay_size(trace, sizeof trace).refusal, FEEDBACK_REFUSED_TRACE_LENGTH);
    EQUAL(feedback_replay_size(trace, 65536).refusal, FEEDBACK_REFUSED_TRACE_LENGTH);
    EQUAL(feedback_replay_size(NULL, 0).refusal, FEEDBACK_REFUSED_TRACE_LENGTH);
    EQUAL(feedback_replay_size(trace, good.length).windows, 2);
    put_settings(&drive, FEEDBACK_SETTINGS(7, 5, 2048, 2, 3));
    drive.settings = 7;
    put_header(&drive);
    drive.length++;
    SIZE_REFUSED(drive, FEEDBACK_REFUSED_TRACE_LENGTH);
    drive.length -= 2;
    SIZE_REFUSED(drive, FEEDBACK_REFUSED_TRACE_LENGTH);
    for (drive.length = 0; drive.length < FEEDBACK_TRACE_HEADER; drive.length++) {
        put_header(&drive);
        SIZE_REFUSED(drive, FEEDBACK_REFUSED_TRACE_LENGTH);
    }
    put_header(&drive); /* the header alone: the settings leave the file */
    SIZE_REFUSED(drive, FEEDBACK_REFUSED_TRACE_PARTS);
    drive = good;
    drive.length += 256;
    put_header(&drive);
    drive.length -= 256;
    SIZE_REFUSED(drive, FEEDBACK_REFUSED_TRACE_LENGTH);
}

static void slot_is(struct feedback_slot slot, unsigned kind, unsigned cce, unsigned dai,
                    unsigned results)
{
    EQUAL(slot.kind, kind);
    EQUAL(slot.cce, cce);
    EQUAL(slot.dai, dai);
    EQUAL(slot.results, results);
}

static void records(void)
{
    struct drive drive = drive_of_2();
    const uint8_t *trace = drive.bytes;
    size_t length = drive.length, next = 0;
    struct feedback_record_answer answer = CALL(feedback_record, (trace, length, next));
    EQUAL(answer.refusal, 0);
    EQUAL(answer.kind, FEEDBACK_RECORD_READ);
    slot_is(answer.slot, FEEDBACK_SLOT_GRANT, 3, 1, 7);
    slot_is(feedback_record(trace, length, 1).slot, FEEDBACK_SLOT_RELEASE, 4, 2, 0);
    slot_is(feedback_record(trace, length, 2).slot, FEEDBACK_SLOT_NOTHING, 0, 0, 0);
    slot_is(feedback_record(trace, length, 3).slot, FEEDBACK_SLOT_SCHEDULED, 0, 0, 6);
    slot_is(feedback_record(trace, length, 8).slot, FEEDBACK_SLOT_GRANT, 5, 1,
            FEEDBACK_FIRST_DECODED);
    EQUAL(feedback_record(trace, length, 9).kind, FEEDBACK_RECORD_READ);
    answer = feedback_record(trace, length, 10);
    EQUAL(answer.refusal, 0);
    EQUAL(answer.kind, FEEDBACK_RECORD_END);
    slot_is(answer.slot, 0, 0, 0, 0);
    EQUAL(feedback_record(trace, length, ~next).kind, FEEDBACK_RECORD_END);
    put_record(&drive, 8, 4, 5, 1, 7);
    put_settings(&drive, FEEDBACK_SETTINGS(7, 5, 2048, 2, 3)); /* not looked at */
    answer = feedback_record(trace, length, 8);
    EQUAL(answer.refusal, FEEDBACK_REFUSED_TRACE_PARTS);
    EQUAL(answer.kind, FEEDBACK_RECORD_REFUSED);
    slot_is(answer.slot, 0, 0, 0, 0);
    slot_is(feedback_record(trace, length, 0).slot, FEEDBACK_SLOT_GRANT, 3, 1, 7);
    answer = feedback_record(trace, length - 1, 0);
    EQUAL(answer.refusal, FEEDBACK_REFUSED_TRACE_LENGTH);
    EQUAL(answer.kind, FEEDBACK_RECORD_REFUSED);
    slot_is(answer.slot, 0, 0, 0, 0);
    EQUAL(feedback_record(NULL, 0, 0).refusal, FEEDBACK_REFUSED_TRACE_LENGTH);
    drive.first--;
    put_header(&drive);
    EQUAL(feedback_record(trace, length, 10).refusal, FEEDBACK_REFUSED_TRACE_PARTS);
}

/* The drive of drive_of_2 in its one spelling: its parts where the header's table has them. */
static struct drive spelling_of_2(void)
{
    struct drive drive = drive_of_2(), spelled;
    memset(&spelled, 0, sizeof spelled);
    spelled.count = drive.count;
    spelled.settings = place_of("spelling", "settings") & 65535u;
    spelled.first = place_of("spelling", "records") & 65535u;
    spelled.length = spelled.first + spelled.count * FEEDBACK_TRACE_RECORD;
    put_header(&spelled);
    memcpy(spelled.bytes + spelled.settings, drive.bytes + drive.settings, FEEDBACK_TRACE_SETTINGS);
    put_record(&spelled, 0, FEEDBACK_SLOT_GRANT, 3, 1, 7);
    put_record(&spelled, 1, FEEDBACK_SLOT_RELEASE, 4, 2, 0);
    put_record(&spelled, 3, FEEDBACK_SLOT_SCHEDULED, 0, 0, 6);
    put_record(&spelled, 8, FEEDBACK_SLOT_GRANT, 5, 1, FEEDBACK_FIRST_DECODED);
    return spelled;
}

/* The answer of writing a trace, and the output's first byte that was not written. */
static void wrote(int line, const struct drive *drive, uint8_t *out, size_t room, unsigned refusal,
                  unsigned kind, unsigned record, unsigned bytes)
{
    struct feedback_write_answer answer;
    memset(out, 99, room);
    answer = feedback_trace_write(drive->bytes, drive->length, out, room);
    equal(line, "refusal", answer.refusal, refusal);
    equal(line, "kind", answer.kind, kind);
    equal(line, "record", answer.record, record);
    equal(line, "bytes", answer.bytes, bytes);
    if (bytes < room)
        equal(line, "the rest", out[bytes], 99);
}

#define WROTE(drive, room, refusal, kind, record, bytes) \
    wrote(__LINE__, &(drive), out, room, refusal, kind, record, bytes)

static void writing(void)
{
    struct drive drive = drive_of_2(), spelled = spelling_of_2();
    const uint8_t *trace = drive.bytes;
    uint8_t out[64], before[64];
    size_t length = drive.length, room = 60;
    struct feedback_write_answer answer;
    memset(out, 99, sizeof out);
    memcpy(before, out, sizeof out);
    answer = CALL(feedback_trace_write, (trace, length, out, room));
    EQUAL(answer.refusal, 0);
    EQUAL(answer.kind, FEEDBACK_WRITE_DONE);
    EQUAL(answer.record, 0);
    EQUAL(answer.bytes, 58); /* 18 + 4 * 10 */
    BYTES(out, spelled.bytes, 58);
    BYTES(out + 58, before, 6);
    WROTE(spelled, 58, 0, FEEDBACK_WRITE_DONE, 0, 58); /* written twice */
    BYTES(out, spelled.bytes, 58);
    memcpy(out, before, sizeof out);
    answer = feedback_trace_write(trace, length, out, 57);
    EQUAL(answer.refusal, FEEDBACK_REFUSED_OUTPUT);
    EQUAL(answer.kind, FEEDBACK_WRITE_REFUSED);
    EQUAL(answer.record, 0);
    EQUAL(answer.bytes, 0);
    answer = feedback_trace_write(trace, length - 1, out, 58);
    EQUAL(answer.refusal, FEEDBACK_REFUSED_TRACE_LENGTH);
    EQUAL(answer.kind, FEEDBACK_WRITE_REFUSED);
    answer = feedback_trace_write(NULL, 0, NULL, 0);
    EQUAL(answer.refusal, FEEDBACK_REFUSED_TRACE_LENGTH);
    answer = feedback_trace_write(trace, length, NULL, 0);
    EQUAL(answer.refusal, FEEDBACK_REFUSED_OUTPUT);
    put_record(&drive, 7, FEEDBACK_SLOT_RELEASE, 61, 5, 7); /* in an uplink subframe */
    answer = feedback_trace_write(trace, length, out, 57);
    EQUAL(answer.refusal, FEEDBACK_REFUSED_UPLINK);
    EQUAL(answer.kind, FEEDBACK_WRITE_STOPPED);
    EQUAL(answer.record, 7);
    EQUAL(answer.bytes, 0);
    BYTES(out, before, sizeof out);
}

/* The order of the refusals, from the last one to the first. */
static void writing_refused(void)
{
    struct drive drive = drive_of_2();
    uint8_t out[64];
    WROTE(drive, 57, FEEDBACK_REFUSED_OUTPUT, FEEDBACK_WRITE_REFUSED, 0, 0);
    put_record(&drive, 8, FEEDBACK_SLOT_GRANT, 60, 5, 0);
    WROTE(drive, 57, FEEDBACK_REFUSED_DAI, FEEDBACK_WRITE_STOPPED, 8, 0);
    put_record(&drive, 8, FEEDBACK_SLOT_GRANT, 61, 5, 0);
    WROTE(drive, 57, FEEDBACK_REFUSED_CCE, FEEDBACK_WRITE_STOPPED, 8, 0);
    put_record(&drive, 5, FEEDBACK_SLOT_RELEASE, 61, 1, 0);
    WROTE(drive, 57, FEEDBACK_REFUSED_CCE, FEEDBACK_WRITE_STOPPED, 5, 0);
    put_record(&drive, 0, FEEDBACK_SLOT_SCHEDULED, 255, 255, 0);
    WROTE(drive, 58, FEEDBACK_REFUSED_SCHEDULED, FEEDBACK_WRITE_STOPPED, 3, 0);
    put_record(&drive, 1, FEEDBACK_SLOT_GRANT, 61, 5, 7); /* too short for data */
    WROTE(drive, 58, FEEDBACK_REFUSED_SHORT, FEEDBACK_WRITE_STOPPED, 1, 0);
    put_settings(&drive, with_special(with_scheduled(settings_of(2, 0, 1), 6), 0, 5));
    put_record(&drive, 0, FEEDBACK_SLOT_SCHEDULED, 255, 255, 4);
    WROTE(drive, 58, FEEDBACK_REFUSED_CARRIED, FEEDBACK_WRITE_STOPPED, 0, 0);
    put_settings(&drive, with_special(settings_of(2, 0, 1), 2, 0));
    WROTE(drive, 0, FEEDBACK_REFUSED_SPECIAL, FEEDBACK_WRITE_REFUSED, 0, 0);
    put_settings(&drive, with_special(with_scheduled(settings_of(2, 0, 1), 10), 2, 0));
    WROTE(drive, 0, FEEDBACK_REFUSED_SCHEDULED_RESOURCE, FEEDBACK_WRITE_REFUSED, 0, 0);
    put_settings(&drive, FEEDBACK_SETTINGS(5, 50, 300, 0, 3));
    WROTE(drive, 0, FEEDBACK_REFUSED_BLOCKS, FEEDBACK_WRITE_REFUSED, 0, 0);
    put_settings(&drive, FEEDBACK_SETTINGS(5, 50, 300, 1, 3));
    WROTE(drive, 0, FEEDBACK_REFUSED_MULTIPLEXING, FEEDBACK_WRITE_REFUSED, 0, 0);
    put_settings(&drive, FEEDBACK_SETTINGS(5, 50, 300, 2, 3));
    WROTE(drive, 0, FEEDBACK_REFUSED_MODE, FEEDBACK_WRITE_REFUSED, 0, 0);
    put_settings(&drive, FEEDBACK_SETTINGS(5, 50, 2048, 2, 3));
    WROTE(drive, 0, FEEDBACK_REFUSED_N1, FEEDBACK_WRITE_REFUSED, 0, 0);
    put_settings(&drive, FEEDBACK_SETTINGS(5, 5, 2048, 2, 3));
    WROTE(drive, 0, FEEDBACK_REFUSED_BANDWIDTH, FEEDBACK_WRITE_REFUSED, 0, 0);
    put_settings(&drive, FEEDBACK_SETTINGS(7, 5, 2048, 2, 3));
    WROTE(drive, 0, FEEDBACK_REFUSED_CONFIGURATION, FEEDBACK_WRITE_REFUSED, 0, 0);
    put_record(&drive, 9, 4, 0, 0, 0);
    WROTE(drive, 58, FEEDBACK_REFUSED_TRACE_PARTS, FEEDBACK_WRITE_REFUSED, 0, 0);
    drive.first--; /* a byte of the settings */
    put_header(&drive);
    WROTE(drive, 58, FEEDBACK_REFUSED_TRACE_PARTS, FEEDBACK_WRITE_REFUSED, 0, 0);
    drive.length--;
    WROTE(drive, 58, FEEDBACK_REFUSED_TRACE_LENGTH, FEEDBACK_WRITE_REFUSED, 0, 0);
}

/* The most records of a trace and the most windows of these; what a whole frame completes. */
static void largest(void)
{
    static uint8_t trace[65535], out[FEEDBACK_SPELLED_MOST];
    static const unsigned in_a_frame[7] = {4, 4, 2, 3, 2, 1, 5};
    static const unsigned in_all[7] = {6551, 6552, 3276, 4914, 3276, 1638, FEEDBACK_WINDOWS_MOST};
    struct drive drive = drive_of(settings_of(6, 0, 1), 0);
    struct feedback_replay_size_answer size;
    struct feedback_replay_answer answer;
    struct feedback_record_answer read;
    struct feedback_write_answer spelled;
    uint16_t config, n;
    drive.count = FEEDBACK_RECORDS_MOST;
    drive.length = 65535;
    put_header(&drive);
    memcpy(trace, drive.bytes, drive.first);
    spelled = feedback_trace_write(trace, sizeof trace, out, sizeof out - 1);
    EQUAL(spelled.refusal, FEEDBACK_REFUSED_OUTPUT);
    spelled = feedback_trace_write(trace, sizeof trace, out, sizeof out);
    EQUAL(spelled.kind, FEEDBACK_WRITE_DONE);
    EQUAL(spelled.bytes, FEEDBACK_SPELLED_MOST);
    EQUAL(sizeof trace, FEEDBACK_SPELLED_MOST + 1); /* the gap before the settings is gone */
    answer = feedback_replay(trace, sizeof trace, out, 65519);
    EQUAL(answer.refusal, FEEDBACK_REFUSED_OUTPUT);
    answer = feedback_replay(trace, sizeof trace, out, 65520);
    EQUAL(answer.kind, FEEDBACK_REPLAY_DONE);
    EQUAL(answer.windows, FEEDBACK_WINDOWS_MOST);
    read = feedback_record(trace, sizeof trace, FEEDBACK_RECORDS_MOST - 1);
    EQUAL(read.kind, FEEDBACK_RECORD_READ);
    read = feedback_record(trace, sizeof trace, FEEDBACK_RECORDS_MOST);
    EQUAL(read.kind, FEEDBACK_RECORD_END);
    HOLDS(FEEDBACK_TRACE_HEADER + FEEDBACK_TRACE_SETTINGS +
              (FEEDBACK_RECORDS_MOST + 1) * FEEDBACK_TRACE_RECORD > 65535);
    HOLDS(strstr(text, " 6 completes 4, 4, 2, 3, 2, 1 and 5 windows.\n") != NULL);
    for (config = 0; config < 7; config++) {
        unsigned windows = 0;
        for (n = 0; n < 10; n++)
            windows += feedback_window(settings_of(config, 0, 1), n).refusal == 0;
        EQUAL(windows, in_a_frame[config]);
        drive = drive_of(settings_of(config, 0, 1), 10);
        EQUAL(feedback_replay(drive.bytes, drive.length, out, 8 * windows).windows, windows);
        put_byte(trace + drive.settings, "settings", "config", config);
        size = feedback_replay_size(trace, sizeof trace); /* of 1637 frames and 9 subframes */
        EQUAL(size.refusal, 0);
        EQUAL(size.windows, in_all[config]);
        EQUAL(size.bytes, 8 * in_all[config]);
        answer = feedback_replay(trace, sizeof trace, out, size.bytes - 1);
        EQUAL(answer.refusal, FEEDBACK_REFUSED_OUTPUT);
        answer = feedback_replay(trace, sizeof trace, out, size.bytes);
        EQUAL(answer.kind, FEEDBACK_REPLAY_DONE);
        EQUAL(answer.windows, size.windows);
    }
}

/* ---- what losses can hide ---- */

static void played(int line, uint16_t size, uint16_t grants, uint16_t losses, unsigned refusal,
                   unsigned radio)
{
    struct feedback_game_answer answer = CALL(feedback_game, (size, grants, losses));
    equal(line, "refusal", answer.refusal, refusal);
    equal(line, "radio", answer.radio, radio);
}
#define RADIO(size, grants, losses) played(__LINE__, size, grants, losses, 0, 1)
#define SCHEDULER(size, grants, losses) played(__LINE__, size, grants, losses, 0, 0)
#define NO_GAME(size, grants, losses) \
    played(__LINE__, size, grants, losses, FEEDBACK_REFUSED_GAME, 0)

static void games(void)
{
    uint16_t size, grants, losses;
    /* configuration 5: after four lost grants the fifth has DAI 1, as the first has */
    RADIO(9, 5, 4);
    RADIO(9, 9, 4);
    RADIO(9, 9, 9);
    SCHEDULER(9, 4, 9);
    SCHEDULER(9, 9, 3);
    SCHEDULER(9, 0, 9);
    RADIO(5, 5, 4);
    RADIO(6, 5, 4);
    SCHEDULER(5, 4, 4);
    SCHEDULER(4, 4, 9);
    SCHEDULER(1, 1, 9);
    SCHEDULER(1, 0, 0);
    for (size = 1; size <= FEEDBACK_WINDOW_MOST; size++)
        for (grants = 0; grants <= size; grants++)
            for (losses = 0; losses <= FEEDBACK_LOSSES_MOST; losses++)
                played(__LINE__, size, grants, losses, 0, grants >= 5 && losses >= 4);
    NO_GAME(0, 0, 0);
    NO_GAME(10, 5, 4);
    NO_GAME(4, 5, 4);
    NO_GAME(9, 10, 4);
    NO_GAME(9, 5, 10);
    NO_GAME(65535, 5, 4);
    NO_GAME(9, 65535, 4);
    NO_GAME(9, 5, 65535);
    NO_GAME(256 + 9, 5, 4);
    NO_GAME(9, 256 + 5, 4);
    NO_GAME(9, 5, 256 + 4);
}

/* ---- the register block ---- */

static void table_of_blocks(void)
{
    EQUAL(strtoul(heading("block"), NULL, 10), FEEDBACK_BLOCK_BYTES);
    EQUAL(place_of("block", "kind"), FEEDBACK_BLOCK_KIND);
    EQUAL(place_of("block", "kind"), FEEDBACK_BLOCK_DROPPED);
    EQUAL(place_of("block", "cce"), FEEDBACK_BLOCK_CCE);
    EQUAL(place_of("block", "dai"), FEEDBACK_BLOCK_DAI);
    EQUAL(place_of("block", "results"), FEEDBACK_BLOCK_RESULTS);
    EQUAL(place_of("block", "command"), FEEDBACK_BLOCK_COMMAND);
    EQUAL(place_of("block", "flags"), FEEDBACK_BLOCK_FLAGS);
    EQUAL(place_of("block", "mask"), FEEDBACK_BLOCK_MASK);
    EQUAL(place_of("block", "refusal"), FEEDBACK_BLOCK_REFUSAL);
    EQUAL(place_of("block", "reply"), FEEDBACK_BLOCK_REPLY);
    EQUAL(FEEDBACK_BLOCK_REPLY + FEEDBACK_WINDOW_BYTES, FEEDBACK_BLOCK_BYTES);
}

/* A handset behind a block, which is lent with a byte before it and one behind. */
struct device {
    struct feedback_handset handset;
    uint8_t before, block[FEEDBACK_BLOCK_BYTES], behind;
};

static struct device device_of(struct feedback_handset handset)
{
    struct device device;
    memset(&device, 0, sizeof device);
    device.handset = handset;
    return device;
}

/* What a driver writes for a command: in bytes 0 to 3 a record, or in byte 0 flags to drop. */
static void put_command(struct device *device, unsigned command, unsigned kind, unsigned cce,
                        unsigned dai, unsigned results)
{
    put_byte(device->block, "block", "kind", kind);
    put_byte(device->block, "block", "cce", cce);
    put_byte(device->block, "block", "dai", dai);
    put_byte(device->block, "block", "results", results);
    put_byte(device->block, "block", "command", command);
}

/* The command is done: the device is then the other one, to the byte, and the line by its flags. */
static void done(int line, struct device *device, const struct device *after, unsigned refusal)
{
    struct feedback_handset handset = device->handset;
    uint8_t *block = device->block;
    size_t length = sizeof device->block;
    struct feedback_command_answer answer = CALL(feedback_command, (handset, block, length));
    unsigned flags = after->block[FEEDBACK_BLOCK_FLAGS], mask = after->block[FEEDBACK_BLOCK_MASK];
    device->handset = answer.handset;
    equal(line, "refusal", answer.refusal, refusal);
    equal(line, "line", answer.line, (flags & mask & 7) != 0);
    equal(line, "the device differs", memcmp(device, after, sizeof *device) != 0, 0);
}

/* Nothing changes but the handset: the subframe is taken or has no window, or the command none. */
static void goes_on(int line, struct device *device, struct feedback_handset handset)
{
    struct device after = *device;
    after.handset = handset;
    done(line, device, &after, 0);
}
#define GOES_ON(device, handset) goes_on(__LINE__, &(device), handset)

/* The subframe, which brought nothing, has a window: its reply, and the flags. */
static void shows(int line, struct device *device, unsigned flags, unsigned kind, unsigned resource,
                  unsigned b0, unsigned b1)
{
    struct device after = *device;
    uint8_t *reply = after.block + place_of("block", "reply");
    after.handset = feedback_feed_nothing(device->handset).handset;
    put_byte(after.block, "block", "flags", flags);
    put_byte(reply, "window", "n", device->handset.next);
    put_byte(reply, "window", "kind", kind);
    put_number(reply, "window", "resource", resource);
    put_byte(reply, "window", "b0", b0);
    put_byte(reply, "window", "b1", b1);
    put_number(reply, "window", "zero", 0);
    done(line, device, &after, 0);
}
#define SHOWS(device, flags, kind, resource, b0, b1) \
    shows(__LINE__, &(device), flags, kind, resource, b0, b1)

/* Flags are dropped, and these are left. */
static void clears(int line, struct device *device, unsigned dropped, unsigned flags)
{
    struct device after;
    put_command(device, FEEDBACK_COMMAND_CLEAR, dropped, 61, 5, 7);
    after = *device;
    put_byte(after.block, "block", "flags", flags);
    done(line, device, &after, 0);
}
#define CLEARS(device, dropped, flags) clears(__LINE__, &(device), dropped, flags)

/* The command is refused: bit 1 of the flags is set then, and the number is in its byte. */
static void turns_down(int line, struct device *device, unsigned refusal)
{
    struct device after = *device;
    put_byte(after.block, "block", "flags", device->block[FEEDBACK_BLOCK_FLAGS] | 2u);
    put_byte(after.block, "block", "refusal", refusal);
    done(line, device, &after, refusal);
}
#define TURNS_DOWN(device, refusal) turns_down(__LINE__, &(device), refusal)

/*
 * The drive of drive_of_2, on registers that are zeros at first. Then mode 1: 12 answers for 4, 5,
 * 8 and 6, of which 8 brought a grant, and --A- is 00 of 2.
 */
static void commands(void)
{
    struct feedback_settings cell = FEEDBACK_SETTINGS(2, 50, 300, 0, 2);
    struct feedback_settings settings = with_special(cell, FEEDBACK_PREFIX_EXTENDED, 4);
    struct device device = device_of(fresh(with_scheduled(settings, 6)));
    unsigned i;
    GOES_ON(device, device.handset); /* none */
    put_command(&device, FEEDBACK_COMMAND_FEED, FEEDBACK_SLOT_GRANT, 3, 1, 7);
    GOES_ON(device, grant(device.handset, 2, 1, 1, 3, 1));
    put_command(&device, FEEDBACK_COMMAND_FEED, FEEDBACK_SLOT_RELEASE, 4, 2, 255);
    GOES_ON(device, release(device.handset, 4, 2));
    put_command(&device, FEEDBACK_COMMAND_FEED, FEEDBACK_SLOT_NOTHING, 9, 9, 9);
    SHOWS(device, FEEDBACK_FLAG_READY, 0, 0, 0, 0); /* silent */
    put_command(&device, FEEDBACK_COMMAND_FEED, FEEDBACK_SLOT_SCHEDULED, 255, 255, 6);
    GOES_ON(device, scheduled(device.handset, 2, 0, 1));
    device.handset = change(device.handset, FEEDBACK_MODE_MULTIPLEXING);
    put_command(&device, FEEDBACK_COMMAND_FEED, FEEDBACK_SLOT_NOTHING, 0, 0, 0);
    for (i = 4; i < 7; i++) /* the command stays, and is done again */
        GOES_ON(device, nothing(device.handset, FEEDBACK_KIND_TAKEN));
    SHOWS(device, FEEDBACK_FLAG_READY | FEEDBACK_FLAG_OVERWRITTEN, 1, 337, 0, 1);
    CLEARS(device, FEEDBACK_FLAG_READY, FEEDBACK_FLAG_OVERWRITTEN);
    put_command(&device, FEEDBACK_COMMAND_FEED, FEEDBACK_SLOT_GRANT, 5, 1, 3); /* one block */
    GOES_ON(device, grant(device.handset, 1, 1, 0, 5, 1));
    put_command(&device, FEEDBACK_COMMAND_FEED, FEEDBACK_SLOT_NOTHING, 0, 0, 0);
    for (i = 9; i < 12; i++)
        GOES_ON(device, nothing(device.handset, FEEDBACK_KIND_TAKEN));
    SHOWS(device, FEEDBACK_FLAG_READY | FEEDBACK_FLAG_OVERWRITTEN, 2, 327, 0, 0);
    CLEARS(device, FEEDBACK_FLAG_READY | FEEDBACK_FLAG_OVERWRITTEN, 0);
}

/* The first port's resource; and a subframe without a window, with all flags that there are. */
static void commands_on_two_ports(void)
{
    struct feedback_settings two = with_ports(settings_of(2, FEEDBACK_MODE_BUNDLING, 2), 2);
    struct device device = device_of(grant(fresh(two), 2, 1, 0, 3, 1));
    device.handset = sleeping(device.handset, 6);
    device.block[FEEDBACK_BLOCK_MASK] = FEEDBACK_FLAG_READY;
    put_command(&device, FEEDBACK_COMMAND_FEED, FEEDBACK_SLOT_NOTHING, 0, 0, 0);
    EQUAL(feedback_feed_nothing(device.handset).second, 25);
    SHOWS(device, FEEDBACK_FLAG_READY, 1, 24, 1, 0); /* 1 * 11 + 3 + 10 */
    device.handset = fresh(settings_of(0, FEEDBACK_MODE_BUNDLING, 1));
    device.handset.next = 3;
    device.block[FEEDBACK_BLOCK_FLAGS] = 255;
    GOES_ON(device, nothing(device.handset, FEEDBACK_KIND_NO_WINDOW));
}

/* What a kind does not use of its record does not count: results of all bits, then CCE and DAI. */
static void commands_of_records(void)
{
    struct feedback_handset handset = fresh(with_scheduled(settings_of(2, 0, 2), 6));
    struct device device = device_of(handset);
    uint16_t results, cce;
    for (results = 0; results < 256; results += 17) {
        uint16_t two = results >> 2 & 1, first = results & 1, second = two & results >> 1;
        put_command(&device, FEEDBACK_COMMAND_FEED, FEEDBACK_SLOT_GRANT, 60, 4, results);
        GOES_ON(device, feedback_feed_grant(handset, 1u + two, first, second, 60, 4).handset);
        device.handset = handset;
        put_command(&device, FEEDBACK_COMMAND_FEED, FEEDBACK_SLOT_SCHEDULED, 61, 5, results);
        GOES_ON(device, feedback_feed_scheduled(handset, 1u + two, first, second).handset);
        device.handset = handset;
        put_command(&device, FEEDBACK_COMMAND_FEED, FEEDBACK_SLOT_RELEASE, 60, 4, results);
        GOES_ON(device, feedback_feed_release(handset, 60, 4).handset);
        device.handset = handset;
        put_command(&device, FEEDBACK_COMMAND_FEED, FEEDBACK_SLOT_NOTHING, 61, 5, results);
        GOES_ON(device, feedback_feed_nothing(handset).handset);
        device.handset = handset;
    }
    for (cce = 0; cce < 256; cce += 51) {
        put_command(&device, FEEDBACK_COMMAND_FEED, FEEDBACK_SLOT_SCHEDULED, cce, 255u - cce, 1);
        GOES_ON(device, feedback_feed_scheduled(handset, 1, 1, 0).handset);
        device.handset = handset;
        put_command(&device, FEEDBACK_COMMAND_FEED, FEEDBACK_SLOT_NOTHING, cce, 255u - cce, 1);
        GOES_ON(device, feedback_feed_nothing(handset).handset);
        device.handset = handset;
    }
}

/*
 * From the first refusal to the last, each with all that come after it. The line is high by the
 * refusals alone, and what was replied before stays.
 */
static void commands_refused(void)
{
    struct device device = device_of(fresh(with_special(settings_of(2, 0, 1), 0, 5)));
    struct feedback_handset handset = device.handset;
    memset(device.block, 99, sizeof device.block);
    device.block[FEEDBACK_BLOCK_FLAGS] = 248 + FEEDBACK_FLAG_READY;
    device.block[FEEDBACK_BLOCK_MASK] = 248 + FEEDBACK_FLAG_REFUSED;
    device.handset.next = 12;
    put_command(&device, 3, 4, 61, 5, 7);
    TURNS_DOWN(device, FEEDBACK_REFUSED_COMMAND);
    put_command(&device, 255, 4, 61, 5, 7);
    TURNS_DOWN(device, FEEDBACK_REFUSED_COMMAND);
    put_command(&device, 128 + FEEDBACK_COMMAND_FEED, 4, 61, 5, 7);
    TURNS_DOWN(device, FEEDBACK_REFUSED_COMMAND);
    put_command(&device, FEEDBACK_COMMAND_FEED, 4, 61, 5, 7);
    TURNS_DOWN(device, FEEDBACK_REFUSED_TRACE_PARTS);
    put_command(&device, FEEDBACK_COMMAND_FEED, 255, 61, 5, 7);
    TURNS_DOWN(device, FEEDBACK_REFUSED_TRACE_PARTS);
    put_command(&device, FEEDBACK_COMMAND_FEED, 128 + FEEDBACK_SLOT_GRANT, 61, 5, 7);
    TURNS_DOWN(device, FEEDBACK_REFUSED_TRACE_PARTS);
    put_command(&device, FEEDBACK_COMMAND_FEED, FEEDBACK_SLOT_GRANT, 61, 5, 7);
    TURNS_DOWN(device, FEEDBACK_REFUSED_STATE);
    device.handset.next = 2;
    TURNS_DOWN(device, FEEDBACK_REFUSED_UPLINK);
    device.handset.next = 1;
    TURNS_DOWN(device, FEEDBACK_REFUSED_SHORT);
    device.handset.next = 0;
    TURNS_DOWN(device, FEEDBACK_REFUSED_CARRIED);
    put_command(&device, FEEDBACK_COMMAND_FEED, FEEDBACK_SLOT_GRANT, 61, 5, 1);
    TURNS_DOWN(device, FEEDBACK_REFUSED_CCE);
    put_command(&device, FEEDBACK_COMMAND_FEED, FEEDBACK_SLOT_RELEASE, 60, 5, 7);
    TURNS_DOWN(device, FEEDBACK_REFUSED_DAI);
    put_command(&device, FEEDBACK_COMMAND_FEED, FEEDBACK_SLOT_SCHEDULED, 61, 5, 7);
    TURNS_DOWN(device, FEEDBACK_REFUSED_CARRIED);
    put_command(&device, FEEDBACK_COMMAND_FEED, FEEDBACK_SLOT_SCHEDULED, 61, 5, 1);
    TURNS_DOWN(device, FEEDBACK_REFUSED_SCHEDULED);
    BYTES(&device.handset, &handset, sizeof handset);
}

/*
 * A refusal and a reply stay until the next: the commands that are done clear neither the number
 * nor bit 1, which a clear alone drops, and not the number.
 */
static void refusals_kept(void)
{
    struct device device = device_of(fresh(settings_of(2, 0, 1)));
    device.block[FEEDBACK_BLOCK_MASK] = 255;
    put_command(&device, FEEDBACK_COMMAND_FEED, FEEDBACK_SLOT_GRANT, 61, 1, 1);
    TURNS_DOWN(device, FEEDBACK_REFUSED_CCE);
    put_command(&device, FEEDBACK_COMMAND_NONE, FEEDBACK_SLOT_GRANT, 60, 1, 1);
    GOES_ON(device, device.handset);
    put_command(&device, FEEDBACK_COMMAND_FEED, FEEDBACK_SLOT_GRANT, 60, 1, 1);
    GOES_ON(device, grant(device.handset, 1, 1, 0, 60, 1));
    put_command(&device, FEEDBACK_COMMAND_FEED, FEEDBACK_SLOT_NOTHING, 0, 0, 0);
    GOES_ON(device, nothing(device.handset, FEEDBACK_KIND_TAKEN));
    SHOWS(device, FEEDBACK_FLAG_READY | FEEDBACK_FLAG_REFUSED, 0, 0, 0, 0); /* none overwritten */
    CLEARS(device, FEEDBACK_FLAG_READY, FEEDBACK_FLAG_REFUSED);
    CLEARS(device, 0, FEEDBACK_FLAG_REFUSED);
    device.handset = sleeping(device.handset, 4); /* 7 answers for 0: 2 * 44 + 61 + 60 + 10 */
    put_command(&device, FEEDBACK_COMMAND_FEED, FEEDBACK_SLOT_NOTHING, 0, 0, 0);
    SHOWS(device, FEEDBACK_FLAG_READY | FEEDBACK_FLAG_REFUSED, 1, 219, 1, 0);
    CLEARS(device, FEEDBACK_FLAG_REFUSED, FEEDBACK_FLAG_READY);
    EQUAL(device.block[FEEDBACK_BLOCK_REFUSAL], FEEDBACK_REFUSED_CCE);
    put_command(&device, 3, 0, 0, 0, 0);
    TURNS_DOWN(device, FEEDBACK_REFUSED_COMMAND);
}

/* Any length but 16, with all other causes: nothing is written, and the line is low. */
static void lengths_refused(void)
{
    static const size_t lengths[] = {0, 1, 4, 8, 15, 17, 32, 40};
    struct feedback_handset handset = fresh(settings_of(2, 0, 1));
    struct feedback_command_answer answer;
    uint8_t block[40], before[40];
    unsigned i;
    handset.next = 10;
    memset(block, 255, sizeof block);
    memcpy(before, block, sizeof before);
    for (i = 0; i < 9; i++) {
        answer = i < 8 ? feedback_command(handset, block, lengths[i])
                       : feedback_command(handset, NULL, 0);
        EQUAL(answer.refusal, FEEDBACK_REFUSED_REGISTER_BLOCK);
        EQUAL(answer.line, 0);
        BYTES(&answer.handset, &handset, sizeof handset);
        BYTES(block, before, sizeof before);
    }
}

/* None and clear take any state, and give it back; a clear has no kind. A feed looks at it. */
static void states_not_looked_at(void)
{
    struct device device;
    unsigned i;
    for (i = 0; i < 3; i++) {
        static const uint8_t bytes[] = {0, 1, 255};
        memset(&device, bytes[i], sizeof device);
        put_command(&device, FEEDBACK_COMMAND_NONE, 4, 61, 5, 7);
        GOES_ON(device, device.handset);
        CLEARS(device, 255, device.block[FEEDBACK_BLOCK_FLAGS] & 248u);
        CLEARS(device, 4, device.block[FEEDBACK_BLOCK_FLAGS]);
        put_command(&device, FEEDBACK_COMMAND_FEED, FEEDBACK_SLOT_NOTHING, 0, 0, 0);
        TURNS_DOWN(device, FEEDBACK_REFUSED_STATE);
    }
}

/* A command on a block with these flags and this mask: whether flags and line are then right. */
static int leaves(struct feedback_handset handset, unsigned command, unsigned dropped,
                  unsigned flags, unsigned mask, unsigned left)
{
    uint8_t block[FEEDBACK_BLOCK_BYTES] = {0};
    block[FEEDBACK_BLOCK_DROPPED] = dropped & 255u;
    block[FEEDBACK_BLOCK_COMMAND] = command & 255u;
    block[FEEDBACK_BLOCK_FLAGS] = flags & 255u;
    block[FEEDBACK_BLOCK_MASK] = mask & 255u;
    return feedback_command(handset, block, sizeof block).line == ((left & mask & 7) != 0) &&
           block[FEEDBACK_BLOCK_FLAGS] == left && block[FEEDBACK_BLOCK_MASK] == mask;
}

/* All flags with all masks, and all flags with all that are dropped, in subframe 2, silent. */
static void flags_and_lines(void)
{
    struct feedback_handset handset = fresh(settings_of(2, 0, 1));
    unsigned flags, mask, wrong = 0;
    handset.next = 2;
    for (flags = 0; flags < 256; flags++)
        for (mask = 0; mask < 256; mask++) {
            unsigned shown = flags | 1 | (flags & 1) << 2;
            wrong += !leaves(handset, FEEDBACK_COMMAND_NONE, 0, flags, mask, flags);
            wrong += !leaves(handset, FEEDBACK_COMMAND_FEED, 0, flags, mask, shown);
            wrong += !leaves(handset, FEEDBACK_COMMAND_FEED, 4, flags, mask, flags | 2);
            wrong += !leaves(handset, FEEDBACK_COMMAND_CLEAR, mask, flags, 0, flags & ~(mask & 7));
            wrong += !leaves(handset, FEEDBACK_COMMAND_CLEAR, 1, flags, mask, flags & ~1u);
            wrong += !leaves(handset, FEEDBACK_COMMAND_CLEAR, 6, flags, mask, flags & ~6u);
        }
    EQUAL(wrong, 0);
}

/* ---- the texts ---- */

/* Each number below the limit has a text of its own with its word in it; the rest share one. */
static void texts(const char *(*of)(unsigned), const char *const words[], unsigned limit)
{
    unsigned i, j;
    for (i = 0; i < limit; i++) {
        HOLDS(strstr(of(i), words[i]) != NULL);
        HOLDS(strchr(of(i), '\n') == NULL);
        for (j = 0; j < i; j++)
            HOLDS(strcmp(of(i), of(j)) != 0);
        HOLDS(strcmp(of(i), of(limit)) != 0);
    }
    HOLDS(strstr(of(limit), "This number is no ") == of(limit));
    SAME(of(limit + 1), of(limit));
    SAME(of(65535), of(limit));
    SAME(of(4294967295u), of(limit));
}

static void all_texts(void)
{
    static const char *const refusals[] = {
        "not refused",          "1: the uplink-downlink configuration is over 6",
        "2: the bandwidth",     "3: N1 is over 2047",
        "4: the mode",          "5: configuration 5 has no multiplexing",
        "6: the most",          "7: the subframe",
        "8: the handset",       "9: a grant, scheduled block or release came in an uplink",
        "10: the blocks",       "11: the first CCE",
        "12: the DAI",          "13: the PUCCH resource",
        "14: the bits",
        "15: the scratch is shorter than M * N_4 bytes, or in feedback_claims_bits",
        "16: a claim",          "17: the resource set for scheduled blocks",
        "18: a scheduled block", "19: the prefix or the special subframe configuration",
        "20: a grant or scheduled block in a special subframe",
        "21: the trace is below 8 bytes, or not of the length in its header",
        "22: parts of the trace overlap or leave it, or a record's kind",
        "23: the output is too short for the windows, or for the written trace",
        "24: the antenna ports are neither 1 nor 2, or they are 2 with multiplexing",
        "25: a block's I_TBS is over 26 or its N_PRB not 1 to 110, or the price is over 1000000",
        "26: the account would have more than 1000000000000 octets",
        "27: the window's size is not 1 to 9, or it has more grants than subframes",
        "28: the register block's command is not 0 (none), 1 (feed) or 2 (clear)",
        "29: the register block has not 16 bytes"};
    static const char *const kinds[] = {"refused", "bundled reply", "multiplexed reply",
                                        "Silent",  "downlink",      "uplink"};
    static const char *const claims_kinds[] = {"refused", "clean", "clash"};
    static const char *const slot_kinds[] = {"nothing", "grant", "scheduled block", "release"};
    static const char *const replay_kinds[] = {"refused before any record", "done", "stopped"};
    static const char *const record_kinds[] = {"refused", "read", "end"};
    static const char *const write_kinds[] = {"not written: it, its settings or the output",
                                              "was written", "not written: a record"};
    texts(feedback_refusal_text, refusals, 30);
    texts(feedback_kind_text, kinds, 6);
    texts(feedback_claims_kind_text, claims_kinds, 3);
    texts(feedback_slot_kind_text, slot_kinds, 4);
    texts(feedback_replay_kind_text, replay_kinds, 3);
    texts(feedback_record_kind_text, record_kinds, 3);
    texts(feedback_write_kind_text, write_kinds, 3);
}

/* The cause of a silence, as part of a line. */
static void cause_texts(void)
{
    unsigned v, expected;
    SAME(feedback_cause_text(FEEDBACK_CAUSE_NONE, 0, 0), "not silent");
    SAME(feedback_cause_text(FEEDBACK_CAUSE_NOTHING_HEARD, 0, 0), "nothing heard");
    SAME(feedback_cause_text(FEEDBACK_CAUSE_MISS_SHOWN, 3, 2),
         "a grant was missed: DAI 3 heard last, 2 expected");
    for (v = 0; v < 7; v++)
        for (expected = 0; expected < 7; expected++) {
            char words[64];
            sprintf(words, "a grant was missed: DAI %u heard last, %u expected", v, expected);
            SAME(feedback_cause_text(FEEDBACK_CAUSE_MISS_SHOWN, v, expected),
                 1 <= v && v <= 4 && 1 <= expected && expected <= 4 && v != expected
                     ? words
                     : "no silence has these values");
        }
    SAME(feedback_cause_text(2, 4294967295u, 1), "no silence has these values");
    SAME(feedback_cause_text(2, 1, 65536 + 2), "no silence has these values");
    SAME(feedback_cause_text(3, 3, 2), "this number is no cause of a silence");
    SAME(feedback_cause_text(4294967295u, 3, 2), "this number is no cause of a silence");
}

int main(int argc, char **argv)
{
    if (argc != 2) {
        printf("usage: header FEEDBACK.H\n");
        return 2;
    }
    read_header(argv[1]);
    numbers();
    layout();
    settings_macro();
    settings();
    special_settings();
    port_settings();
    order();
    table();
    window_of_2();
    window_of_5();
    answered();
    resource_and_inverse();
    two_resources();
    reading_bundled();
    reading_multiplexed();
    reading_scheduled();
    reading_short();
    reading_scheduled_refused();
    sent_records();
    confirmed_bundled();
    confirmed_of_nine();
    confirmed_scheduled();
    confirmed_multiplexed();
    confirmed_refused();
    accounts();
    credit_bundled();
    credit_special();
    credit_scheduled();
    credit_refused();
    sizes_refused();
    accounts_refused();
    claims_of_1();
    claims_of_5();
    claims_of_two_ports();
    claim_bits_of_1();
    claim_bits_of_two_ports();
    claim_bits_of_2();
    claim_bits_of_5();
    bundled();
    multiplexed();
    bundled_on_two_ports();
    bundled_scheduled();
    multiplexed_scheduled();
    changed_between();
    changed_first();
    changes_refused();
    changes_of_two_ports();
    silences();
    silences_by_mode();
    no_window();
    slept();
    feeds_refused();
    releases_refused();
    blocks_refused();
    short_refused();
    tables_of_traces();
    replay();
    replay_multiplexed();
    replay_refused();
    replay_size();
    sizes();
    size_settings_refused();
    size_parts_refused();
    size_length_refused();
    records();
    writing();
    writing_refused();
    largest();
    games();
    table_of_blocks();
    commands();
    commands_on_two_ports();
    commands_of_records();
    commands_refused();
    refusals_kept();
    lengths_refused();
    states_not_looked_at();
    flags_and_lines();
    all_texts();
    cause_texts();
    if (failures == 0)
        printf("%u checks\n", checks);
    return failures != 0;
}
