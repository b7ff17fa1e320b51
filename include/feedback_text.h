/*
 * feedback_text.h: the refusals, the kinds and the cause of a silence of feedback.h as
 * texts for a log
 *
 * Each function gives a text for any number, never NULL; a number that has no meaning
 * gets a text that says so. The texts are English, in ASCII and without a newline,
 * and last as long as the program. There is nothing to link.
 *
 *   feedback_refusal_text       a refusal, of any answer or in a register block
 *   feedback_kind_text          the kind of a feed's answer or of a reading
 *   feedback_cause_text         the cause of a silence, with V and the value expected
 *   feedback_claims_kind_text   the kind of an answer about claims
 *   feedback_slot_kind_text     the kind of a remembered subframe, or of a record
 *   feedback_replay_kind_text   the kind of a replay's answer
 *   feedback_record_kind_text   the kind of an answer about a record of a trace
 *   feedback_write_kind_text    the kind of a written trace's answer
 */
#ifndef FEEDBACK_TEXT_H
#define FEEDBACK_TEXT_H

#include "feedback.h"

/* What a refusal says, by enum feedback_refusal. */
static inline const char *feedback_refusal_text(unsigned refusal)
{
    switch (refusal) {
    case FEEDBACK_NOT_REFUSED:
        return "The call was not refused.";
    case FEEDBACK_REFUSED_CONFIGURATION:
        return "Refused 1: the uplink-downlink configuration is over 6.";
    case FEEDBACK_REFUSED_BANDWIDTH:
        return "Refused 2: the bandwidth N_RB is not 6 to 110.";
    case FEEDBACK_REFUSED_N1:
        return "Refused 3: N1 is over 2047.";
    case FEEDBACK_REFUSED_MODE:
        return "Refused 4: the mode is neither 0 (bundling) nor 1 (multiplexing).";
    case FEEDBACK_REFUSED_MULTIPLEXING:
        return "Refused 5: configuration 5 has no multiplexing.";
    case FEEDBACK_REFUSED_BLOCKS:
        return "Refused 6: the most transport blocks of a grant is neither 1 nor 2.";
    case FEEDBACK_REFUSED_SUBFRAME:
        return "Refused 7: the subframe is over 9, or it has no window or lies in none.";
    case FEEDBACK_REFUSED_STATE:
        return "Refused 8: the handset has bad settings, a bad next subframe or a bad memory.";
    case FEEDBACK_REFUSED_UPLINK:
        return "Refused 9: a grant, scheduled block or release came in an uplink subframe.";
    case FEEDBACK_REFUSED_CARRIED:
        return "Refused 10: the blocks carried are none, or more than the setting allows.";
    case FEEDBACK_REFUSED_CCE:
        return "Refused 11: the first CCE is not below N_4, or the position is not below M.";
    case FEEDBACK_REFUSED_DAI:
        return "Refused 12: the DAI is not 1 to 4.";
    case FEEDBACK_REFUSED_RESOURCE:
        return "Refused 13: the PUCCH resource is below N1 or above N1 + M * N_4 - 1.";
    case FEEDBACK_REFUSED_BITS:
        return "Refused 14: the bits are such as no reply has on this resource.";
    case FEEDBACK_REFUSED_SCRATCH:
        return "Refused 15: the scratch is shorter than M * N_4 bytes, or in feedback_claims_bits "
               "shorter than (M * N_4 + 7) / 8 bytes, rounded down; with two antenna ports than "
               "M * N_4 + 1 bytes, or (M * N_4 + 8) / 8 bytes, rounded down.";
    case FEEDBACK_REFUSED_CLAIM:
        return "Refused 16: a claim's position is not below M or its CCE not below N_4.";
    case FEEDBACK_REFUSED_SCHEDULED_RESOURCE:
        return "Refused 17: the resource set for scheduled blocks is not below N1.";
    case FEEDBACK_REFUSED_SCHEDULED:
        return "Refused 18: a scheduled block with no resource set, or the second one of a window.";
    case FEEDBACK_REFUSED_SPECIAL:
        return "Refused 19: the prefix or the special subframe configuration is out of its range.";
    case FEEDBACK_REFUSED_SHORT:
        return "Refused 20: a grant or scheduled block in a special subframe too short for data.";
    case FEEDBACK_REFUSED_TRACE_LENGTH:
        return "Refused 21: the trace is below 8 bytes, or not of the length in its header.";
    case FEEDBACK_REFUSED_TRACE_PARTS:
        return "Refused 22: parts of the trace overlap or leave it, or a record's kind is over 3.";
    case FEEDBACK_REFUSED_OUTPUT:
        return "Refused 23: the output is too short for the windows, or for the written trace.";
    case FEEDBACK_REFUSED_PORTS:
        return "Refused 24: the antenna ports are neither 1 nor 2, or they are 2 with multiplexing "
               "or with a resource set for scheduled blocks.";
    case FEEDBACK_REFUSED_SIZE_OR_ACCOUNT:
        return "Refused 25: a block's I_TBS is over 26 or its N_PRB not 1 to 110, or the price is "
               "over 1000000, or the account's carry is not below 1000000 or its octets * price "
               "not 1000000 * charged + carry.";
    case FEEDBACK_REFUSED_TOTAL:
        return "Refused 26: the account would have more than 1000000000000 octets.";
    case FEEDBACK_REFUSED_GAME:
        return "Refused 27: the window's size is not 1 to 9, or it has more grants than subframes, "
               "or more than 9 losses.";
    case FEEDBACK_REFUSED_COMMAND:
        return "Refused 28: the register block's command is not 0 (none), 1 (feed) or 2 (clear).";
    case FEEDBACK_REFUSED_REGISTER_BLOCK:
        return "Refused 29: the register block has not 16 bytes.";
    default:
        return "This number is no refusal.";
    }
}

/* What the kind of a feed's answer or of a reading says, by enum feedback_kind. */
static inline const char *feedback_kind_text(unsigned kind)
{
    switch (kind) {
    case FEEDBACK_KIND_REFUSED:
        return "The call was refused.";
    case FEEDBACK_KIND_BUNDLED:
        return "A bundled reply, with ACK bits.";
    case FEEDBACK_KIND_MULTIPLEXED:
        return "A multiplexed reply, by channel selection.";
    case FEEDBACK_KIND_SILENT:
        return "Silent: the window has no reply.";
    case FEEDBACK_KIND_TAKEN:
        return "A downlink subframe, taken into the handset's memory.";
    case FEEDBACK_KIND_NO_WINDOW:
        return "An uplink subframe without a window.";
    default:
        return "This number is no kind of an answer.";
    }
}

/*
 * What the cause of a silence says, by enum feedback_cause, to stand in a line of a log:
 * "nothing heard", or with V and the value expected, as feedback_silence answers them,
 * "a grant was missed: DAI 3 heard last, 2 expected". A grant stands there for any PDCCH,
 * a release too, and for one or more of them.
 */
static inline const char *feedback_cause_text(unsigned cause, unsigned v, unsigned expected)
{
#define FEEDBACK_MISSED(v, expected) \
    "a grant was missed: DAI " #v " heard last, " #expected " expected"
    static const char *const missed[4][4] = {
        {0, FEEDBACK_MISSED(1, 2), FEEDBACK_MISSED(1, 3), FEEDBACK_MISSED(1, 4)},
        {FEEDBACK_MISSED(2, 1), 0, FEEDBACK_MISSED(2, 3), FEEDBACK_MISSED(2, 4)},
        {FEEDBACK_MISSED(3, 1), FEEDBACK_MISSED(3, 2), 0, FEEDBACK_MISSED(3, 4)},
        {FEEDBACK_MISSED(4, 1), FEEDBACK_MISSED(4, 2), FEEDBACK_MISSED(4, 3), 0},
    };
#undef FEEDBACK_MISSED
    switch (cause) {
    case FEEDBACK_CAUSE_NONE:
        return "not silent";
    case FEEDBACK_CAUSE_NOTHING_HEARD:
        return "nothing heard";
    case FEEDBACK_CAUSE_MISS_SHOWN:
        if (1 <= v && v <= 4 && 1 <= expected && expected <= 4 && v != expected)
            return missed[v - 1][expected - 1];
        return "no silence has these values";
    default:
        return "this number is no cause of a silence";
    }
}

/* What the kind of an answer about claims says, by enum feedback_claims_kind. */
static inline const char *feedback_claims_kind_text(unsigned kind)
{
    switch (kind) {
    case FEEDBACK_CLAIMS_REFUSED:
        return "The claims were refused.";
    case FEEDBACK_CLAIMS_CLEAN:
        return "The claims are clean: no two PDCCHs share a PUCCH resource.";
    case FEEDBACK_CLAIMS_CLASH:
        return "The claims clash: two PDCCHs share a PUCCH resource.";
    default:
        return "This number is no kind of an answer about claims.";
    }
}

/* What the kind of a remembered subframe or of a record says, by enum feedback_slot_kind. */
static inline const char *feedback_slot_kind_text(unsigned kind)
{
    switch (kind) {
    case FEEDBACK_SLOT_NOTHING:
        return "The subframe brought nothing.";
    case FEEDBACK_SLOT_GRANT:
        return "The subframe brought a grant.";
    case FEEDBACK_SLOT_SCHEDULED:
        return "The subframe brought a scheduled block, with no PDCCH.";
    case FEEDBACK_SLOT_RELEASE:
        return "The subframe brought a release of the schedule.";
    default:
        return "This number is no kind of a remembered subframe.";
    }
}

/* What the kind of a replay's answer says, by enum feedback_replay_kind. */
static inline const char *feedback_replay_kind_text(unsigned kind)
{
    switch (kind) {
    case FEEDBACK_REPLAY_REFUSED:
        return "The replay was refused before any record.";
    case FEEDBACK_REPLAY_DONE:
        return "The replay is done: every record was fed.";
    case FEEDBACK_REPLAY_STOPPED:
        return "The replay stopped at a record that was refused.";
    default:
        return "This number is no kind of a replay's answer.";
    }
}

/* What the kind of an answer about a record says, by enum feedback_record_kind. */
static inline const char *feedback_record_kind_text(unsigned kind)
{
    switch (kind) {
    case FEEDBACK_RECORD_REFUSED:
        return "The trace or the record was refused.";
    case FEEDBACK_RECORD_READ:
        return "The record was read.";
    case FEEDBACK_RECORD_END:
        return "The end: the trace has no record of this number.";
    default:
        return "This number is no kind of an answer about a record.";
    }
}

/* What the kind of a written trace's answer says, by enum feedback_write_kind. */
static inline const char *feedback_write_kind_text(unsigned kind)
{
    switch (kind) {
    case FEEDBACK_WRITE_REFUSED:
        return "The trace was not written: it, its settings or the output was refused.";
    case FEEDBACK_WRITE_DONE:
        return "The trace was written in its one spelling.";
    case FEEDBACK_WRITE_STOPPED:
        return "The trace was not written: a record of it was refused.";
    default:
        return "This number is no kind of a written trace's answer.";
    }
}

#endif
