/*
 * feedback.h: HARQ-ACK feedback for TDD LTE on PUCCH, both ends
 *
 * The handset end hears grants, scheduled blocks and releases and says what to
 * send on PUCCH. The station end reads what came in on PUCCH and says what is
 * acknowledged, and charges for it. The rules are those of 3GPP TS 36.213 version 9.3.0
 * (Release 9), sections 7.3 and 10.1, and 7.1.7 for special subframes without data and
 * for the sizes of transport blocks, for one serving cell with dynamic grants and
 * semi-persistent scheduling, and PUCCH formats 1a, 1b and 1b with channel selection;
 * for PUCCH on two antenna ports, those of a later release, section 10.1.3. Link with
 * libfeedback.a, which is built for x86-64 with the System V calling convention, for the
 * processors of the level x86-64-v2 and later (SSE4.2 and POPCNT, since 2009). For C99 and
 * C++98 and all later.
 *
 *   calls of both ends      feedback_window, feedback_answered
 *   calls of the station    feedback_resource, feedback_inverse,
 *                           feedback_reading, feedback_confirmed,
 *                           feedback_claims, feedback_claims_bits
 *   calls of an account     feedback_open_account, feedback_credit
 *   calls of the handset    feedback_make, feedback_change_mode,
 *                           feedback_feed_nothing, feedback_silence,
 *                           feedback_feed_grant, feedback_feed_scheduled,
 *                           feedback_feed_release
 *   calls on a recorded     feedback_replay_size, feedback_replay,
 *   drive                   feedback_record, feedback_trace_write
 *   call of a planner       feedback_game
 *   call on a register      feedback_command
 *   block
 *
 * feedback_text.h has the refusals, the kinds and the cause of a silence as texts for a
 * log. examples/cell.c runs both ends against each other, tells why a handset is silent and
 * bills for what is confirmed, examples/replay.c asks how much the replay of a drive writes,
 * replays it and spells it, examples/registers.c drives a handset behind a register block.
 *
 *
 * TERMS
 *
 * subframe    0 to 9 in the frame. Downlink here means a downlink subframe or a
 *             special one: both carry PDCCHs. n is always the uplink subframe in
 *             which the reply is sent.
 * special     subframe 1, and 6 in configurations 0, 1, 2 and 6: S in the table below.
 * subframe    It is too short for data, so that TS 36.213, section 7.1.7, allows no
 *             PDSCH there, in special subframe configurations 0 and 5 with the normal
 *             cyclic prefix of the downlink and 0 and 4 with the extended one. Then a
 *             station sends no grant and no scheduled block there. A release may be
 *             sent there, and is heard and answered as anywhere: windows, positions
 *             and resources do not move. In all other special subframe configurations
 *             a special subframe is like a downlink one here, but for the sizes of its
 *             transport blocks.
 * grant       a PDCCH that schedules one or two transport blocks in its own
 *             subframe. Its first CCE and its DAI come with it.
 * scheduled   one or two transport blocks that come on a schedule (semi-persistent
 * block       scheduling) with no PDCCH, so with no first CCE and no DAI. A station
 *             sends a handset at most one scheduled block in a window.
 * release     a PDCCH that releases the schedule. It has a first CCE and a DAI, and
 *             carries no transport block. A release that is heard counts as a grant
 *             that decoded everything.
 * PDCCH       from here on, a grant or a release.
 * window      the M downlink subframes n - k_0, n - k_1, .. that are answered in
 *             n, modulo 10 in the frame. K = k_0, k_1, .. is printed in Table
 *             10.1-1; an uplink subframe that is not in it has no window. Each
 *             downlink subframe is in exactly one window. feedback_window gives
 *             the window of n, feedback_answered the window that a downlink
 *             subframe is in; for reading, here is the table:
 *
 *             configuration   0 to 9        n: K
 *             0               DSUUUDSUUU    2: 6    4: 4    7: 6    9: 4
 *             1               DSUUDDSUUD    2: 7,6    3: 4    7: 7,6    8: 4
 *             2               DSUDDDSUDD    2: 8,7,4,6    7: 8,7,4,6
 *             3               DSUUUDDDDD    2: 7,6,11    3: 6,5    4: 5,4
 *             4               DSUUDDDDDD    2: 12,8,7,11    3: 6,5,4,7
 *             5               DSUDDDDDDD    2: 13,12,9,8,7,5,4,11,6
 *             6               DSUUUDSUUD    2: 7    3: 7    4: 5    7: 7    8: 7
 *
 * position    m, 0 to M - 1, counted in K as printed. K is not sorted: the last
 *             position need not be the latest subframe. In 8,7,4,6 the latest is
 *             m = 2. Time order inside a window is k falling; feedback_window
 *             gives it too.
 * first CCE   the number of the first CCE of a PDCCH, 0 to N_4 - 1.
 * N_p         max(0, floor(N_RB * (12 * p - 4) / 36)), p 0 to 4. A first CCE c
 *             is in the region p with N_p <= c < N_(p+1).
 * resource    the number of the PUCCH resource on which a reply is sent. That of a
 *             PDCCH is (M - m - 1) * N_p + m * N_(p+1) + c + N1. In each window
 *             the pairs of position and first CCE and the resources N1 to
 *             N1 + M * N_4 - 1 belong to each other one to one. That of a
 *             scheduled block is the setting scheduled, below N1, which is no
 *             PDCCH's. A handset with two ports sends on a second resource too.
 * port        a transmit antenna port of the handset for PUCCH. A handset has one
 *             or two: a setting of the handset. With two a reply is sent on two
 *             resources at once, with the same bits on both: from the first port on
 *             the resource of its PDCCH, from the second port on the one above, which
 *             is N1 + M * N_4 at most. Two ports are for bundled replies to PDCCHs:
 *             the mode is then 0, and no resource is set for scheduled blocks. Where
 *             a call takes one resource, or one to one is said of resources, the
 *             first port's are meant.
 * DAI         1 to 4, counts the PDCCHs of a window: the j-th PDCCH that the
 *             station sends in a window, in time order, carries
 *             ((j - 1) mod 4) + 1. Those that get lost are counted too; a
 *             scheduled block is not.
 * mode        0 bundling, 1 multiplexing: a setting of the handset that may change
 *             between two subframes, while windows are open. A window is answered
 *             in the mode that stood when its EARLIEST subframe was fed, n - k for
 *             the largest k, which need not be k_0 (7,6,11 and 6,5,4,7); where that
 *             lies before the start, in the mode that the handset was made with. A
 *             reply is read in the mode of its window. A handset with two ports
 *             stays in mode 0.
 * bundled     one reply for the window, in mode 0, and in mode 1 where M = 1.
 *             The handset is silent if it heard nothing. In configurations 1 to
 *             6 it is silent too if the DAI of the last PDCCH heard, V, shows a
 *             miss: V is not ((U - 1) mod 4) + 1, where U PDCCHs were heard. A
 *             scheduled block counts neither in U nor in V; where a miss is
 *             shown, it goes unanswered too. Else a block's bit is ACK (1) if
 *             every grant heard, and the scheduled block if heard, decoded that
 *             block; a release counts as decoded. The resource is that of the
 *             last PDCCH heard, last in time, though the scheduled block may be
 *             later; with two ports the second resource is one above it. Where the
 *             scheduled block is the only thing heard, however many PDCCHs were
 *             lost, it is answered on its own resource. One bit (format 1a) where
 *             the setting blocks is 1, two (1b) where it is 2. There a grant or
 *             scheduled block with one block answers for both bits.
 * multiplexed in mode 1 where M is 2 to 4. Each position is A (heard, every
 *             block carried was decoded; a release is A), N (heard, not so) or D
 *             (not heard). Tables 10.1-2 to 10.1-4 give a position i and two bits
 *             for the states of the M positions; the reply is sent on the resource
 *             of position i, which was always heard: that of its PDCCH or of its
 *             scheduled block. All D is silent.
 * cause       of a silence: nothing was heard in the window, or in a bundled one a miss
 *             is shown: see feedback_silence.
 * confirmed   a transport block that the station may take for heard and decoded by the
 *             handset: see feedback_confirmed.
 * I_TBS       the transport block size index of a transport block, 0 to 26.
 * N_PRB       the resource blocks allocated to it, 1 to 110, whatever N_RB is.
 * transport   the bits of a transport block, a multiple of 8 from 16 to 75376: in Table
 * block size  7.1.7.2.1-1, which is for one layer, in row I_TBS and column N_PRB; in a
 *             special subframe in column max(floor(0.75 * N_PRB), 1). Its octets are
 *             size / 8.
 * account     a tenant's, who pays for delivered octets: the octets credited, what is
 *             charged for them in whole smallest coins, the price, and the carry.
 * price       of an account, fixed: smallest coins per million octets, 0 to 1000000.
 * carry       what is not charged yet, in millionths of a smallest coin, 0 to 999999:
 *             octets * price = 1000000 * charged + carry.
 * credited    a confirmed block whose octets are added to an account: see
 *             feedback_credit.
 * trace       a recorded drive of one handset as a file: its settings, and for each
 *             subframe a record of what it brought. See TRACES.
 * register    16 bytes through which a modem's driver uses a handset. See REGISTER
 * block       BLOCK.
 *
 *
 * TRACES
 *
 * A trace is at most 65535 bytes, in three parts: the header, the settings and the
 * records. The header is at byte 0 and says where the other two are. They may be in
 * either order, and bytes that are in no part are ignored. No two parts share a byte,
 * and none leaves the file. The records follow one another: record 0 is subframe 0 of a
 * frame, record i is subframe i modulo 10. Numbers of two bytes have the low byte first.
 * A trace has one mode, that of its settings: no record changes it, and every window of
 * its replay is answered in it. It has one antenna port always: there is no field for
 * ports, and the replies of its replay are those of a handset with one.
 *
 *             header, 8 bytes
 *             0, 1     records     the number of records; at most 16379 have room
 *             2, 3     first       the place of record 0 in the file, from 0; ignored
 *                                  where there are no records
 *             4, 5     settings    the place of the settings
 *             6, 7     length      the number of bytes of the whole file
 *
 *             settings, 10 bytes: the fields of struct feedback_settings but ports
 *             0        config
 *             1        nrb
 *             2        mode
 *             3        blocks
 *             4        special
 *             5        prefix
 *             6, 7     n1
 *             8, 9     scheduled   65535 for none
 *
 *             record, 4 bytes: the fields of struct feedback_slot
 *             0        kind        0 nothing, 1 grant, 2 scheduled block, 3 release
 *             1        cce         grant, release; else ignored
 *             2        dai         grant, release; else ignored
 *             3        results     grant, scheduled block; else ignored. Bit 0: the first
 *                                  block, or the only one, was decoded; bit 1: the
 *                                  second; bit 2: two blocks were carried. Bits 3 to 7
 *                                  are ignored, and bit 1 where bit 2 is 0
 *
 * feedback_replay writes 8 bytes for each window that is answered, one window behind the
 * other in time order:
 *
 *             window, 8 bytes
 *             0        n           the uplink subframe, 0 to 9
 *             1        kind        0 silent, 1 bundled, 2 multiplexed
 *             2, 3     resource    the PUCCH resource; 0 if silent
 *             4        b0          as in struct feedback_fed; 0 if silent
 *             5        b1          likewise
 *             6, 7     zero
 *
 * A record completes a window if its subframe is an uplink one that has a window. So a
 * whole frame of configuration 0 to 6 completes 4, 4, 2, 3, 2, 1 and 5 windows.
 * feedback_replay_size tells how many windows all records of a trace complete, and how many
 * bytes a replay needs for them.
 *
 * The same drive may be recorded in different bytes: with its parts in another order, with
 * other gaps, with other values in what is ignored. feedback_trace_write writes a trace in
 * one spelling, the same for all of these:
 *
 *             spelling, 18 bytes and 4 for each record
 *             0        header      first is 18, also where there are no records, settings
 *                                  is 8, and length 18 + 4 * records
 *             8        settings    as they were
 *             18       records     each with all that is ignored, fields and bits, at 0
 *
 *
 * REGISTER BLOCK
 *
 * A modem may map a handset behind 16 bytes. Its driver writes bytes 0 to 4 and 6, and
 * reads the others. Its firmware keeps the handset and calls feedback_command, which does
 * the command in byte 4 and tells the level of the interrupt line. At first the block may
 * be zeros: no flag is set then, no number and no reply.
 *
 *             block, 16 bytes
 *             0        kind        bytes 0 to 3 are the record that a feed brings, as in a
 *                                  trace. For a clear byte 0 has the flags to drop, bits as
 *                                  in byte 5, and no kind
 *             1        cce
 *             2        dai
 *             3        results
 *             4        command     0 none, 1 feed, 2 clear
 *             5        flags       bit 0: a reply is ready; bit 1: a command was refused;
 *                                  bit 2: a reply was overwritten unread, so bit 0 was still
 *                                  set when the next one came. Bits 3 to 7 keep their values
 *             6        mask        the flags that make the line high, bits as in byte 5
 *             7        refusal     the number of the last refusal
 *             8 to 15  reply       the last reply, as feedback_replay writes a window; its
 *                                  resource is the first port's
 *
 *
 * NUMBERS
 *
 * Numbers are unsigned and 16 bits wide unless their type says otherwise. A call
 * may be given any numbers: it does its work, or it refuses and says why. C cuts
 * a wider number to 16 bits before the call sees it: hand over none above 65535, and
 * no price above 4294967295.
 *
 * FEEDBACK_SETTINGS and FEEDBACK_CLAIM, and the functions that make a record of what was
 * sent, take numbers of any width: one that is too wide becomes one that a call refuses
 * where it looks at it.
 *
 * Answers come back by value. The calls keep nothing from one call to the next,
 * allocate nothing, and may be made from several threads at once. GCC, Clang and
 * every compiler of C23 or C++17 warn where an answer is dropped.
 *
 *
 * STACK
 *
 * The most bytes of stack that a call takes, measured and rounded up, with what is
 * pushed to make it (the return address, and settings, a handset, a sent window or an
 * account, which go in by value) and without the answer, which lies where its caller
 * puts it:
 *
 *             feedback_window         128
 *             feedback_answered       64
 *             feedback_resource       64
 *             feedback_inverse        64
 *             feedback_reading        512
 *             feedback_confirmed      1280
 *             feedback_claims         256
 *             feedback_claims_bits    256
 *             feedback_open_account   64
 *             feedback_credit         1024
 *             feedback_make           128
 *             feedback_change_mode    512
 *             feedback_feed_nothing   1280
 *             feedback_silence        1536
 *             feedback_feed_grant     1280
 *             feedback_feed_scheduled 1280
 *             feedback_feed_release   1280
 *             feedback_replay_size    64
 *             feedback_replay         2048
 *             feedback_record         64
 *             feedback_trace_write    2048
 *             feedback_game           64
 *             feedback_command        1280
 *
 * Of the C library the calls use memcpy and memset and nothing else.
 */
#ifndef FEEDBACK_H
#define FEEDBACK_H

#if !defined(__x86_64__) || defined(__ILP32__) || defined(_WIN32) || defined(__CYGWIN__)
#error "feedback.h: libfeedback.a is built for x86-64, System V convention, not for this target"
#endif

#include <stddef.h>
#include <stdint.h>

/* This header's version: major * 10000 + minor * 100 + patch, and the same as text. */
#define FEEDBACK_VERSION 50501
#define FEEDBACK_VERSION_TEXT "5.5.1"

#define FEEDBACK_WINDOW_MOST 9     /* the most subframes of a window: M in configuration 5 */
#define FEEDBACK_LOSSES_MOST 9     /* the most losses that feedback_game is asked about */
#define FEEDBACK_MEMORY 13         /* the subframes that a handset remembers: the greatest k */
#define FEEDBACK_SCRATCH_MOST 1207 /* the most scratch that feedback_claims needs, with two
                                      ports: 9 * 134 + 1 */
#define FEEDBACK_BIT_SCRATCH_MOST 151 /* the most scratch that feedback_claims_bits needs, in
                                         bytes, with two ports: (9 * 134 + 8) / 8, rounded
                                         down */

#define FEEDBACK_ITBS_MOST 26       /* the greatest I_TBS of a block */
#define FEEDBACK_NPRB_MOST 110      /* the greatest N_PRB of a block */
#define FEEDBACK_PRICE_MOST 1000000 /* the highest price: a smallest coin for each octet */
#define FEEDBACK_OCTETS_MOST 1000000000000 /* the most octets of an account */
#define FEEDBACK_OCTETS_OF_A_WINDOW_MOST 169596 /* no credit is of more octets, for no window
                                                   carries more: 9 * 2 * 75376 / 8 */

#define FEEDBACK_TRACE_HEADER 8     /* the bytes of a trace's header */
#define FEEDBACK_TRACE_SETTINGS 10  /* the bytes of its settings */
#define FEEDBACK_TRACE_RECORD 4     /* the bytes of each of its records */
#define FEEDBACK_RECORDS_MOST 16379 /* the most records of a trace: (65535 - 8 - 10) / 4 */
#define FEEDBACK_WINDOW_BYTES 8     /* the bytes that feedback_replay writes for a window */
#define FEEDBACK_WINDOWS_MOST 8190  /* the most windows of a trace, in configuration 6: 65520
                                       bytes of output; feedback_replay_size tells those of
                                       one trace */
#define FEEDBACK_SPELLED_FIRST 18   /* the bytes before the records of a written trace: 8 + 10 */
#define FEEDBACK_SPELLED_MOST 65534 /* the most bytes of a written trace: 18 + 4 * 16379 */

/*
 * None: as the setting scheduled, that no resource is set for scheduled blocks; as the
 * scheduled position of feedback_reading, that no scheduled block was sent.
 */
#define FEEDBACK_NONE 65535

/* Before a call whose answer must not be dropped: a feed's has the next handset. */
#if defined(__cplusplus) && __cplusplus >= 201703L
#define FEEDBACK_MUST_USE [[nodiscard]]
#elif defined(__STDC_VERSION__) && __STDC_VERSION__ >= 202311L
#define FEEDBACK_MUST_USE [[nodiscard]]
#elif defined(__GNUC__)
#define FEEDBACK_MUST_USE __attribute__((warn_unused_result))
#else
#define FEEDBACK_MUST_USE
#endif

#ifdef __cplusplus
extern "C" {
#endif

/*
 * Why a call refuses: the value of refusal in every answer, in that of feedback_silence
 * the one in fed; 0 for no refusal. Each call names the refusals it can give. Where
 * several causes are met, the first in this order is given:
 * 29, 28, 21, 22, 1 to 6, 17, 19, 24, 7, 8, 9, 20, 10, 11, 12, 18, 25, 26, 13, 14, 15, 16;
 * 23 in feedback_replay after 19 and before any record, in feedback_trace_write last of
 * all; 27 is given by feedback_game alone, which gives no other.
 * 26 is about what a reading credits, so it is met only where 13 and 14 are not.
 * A refused call changes nothing: no buffer is written, no state moves on, nothing is
 * made or credited. Beside a refusal every other number of the answer is 0. There are
 * seven exceptions: a feed, feedback_silence too, and a change of mode give back the
 * handset as it was, and feedback_credit the account; feedback_open_account gives back the
 * price that it refuses; 16 comes with an index; a replay that stops at a record has the
 * kind FEEDBACK_REPLAY_STOPPED, leaves the windows before it in the output, and tells how
 * many they are and the record's number; where a record keeps a trace from being written,
 * the kind is FEEDBACK_WRITE_STOPPED, with the record's number; and feedback_command gives
 * back the handset as it was and, unless it refuses 29, writes the refusal into the block
 * and tells the line.
 */
enum feedback_refusal {
    FEEDBACK_NOT_REFUSED = 0,
    FEEDBACK_REFUSED_CONFIGURATION = 1, /* configuration over 6 */
    FEEDBACK_REFUSED_BANDWIDTH = 2,     /* N_RB not 6 to 110 */
    FEEDBACK_REFUSED_N1 = 3,            /* N1 over 2047 */
    FEEDBACK_REFUSED_MODE = 4,          /* mode not 0 or 1 */
    FEEDBACK_REFUSED_MULTIPLEXING = 5,  /* mode 1, configuration 5 */
    FEEDBACK_REFUSED_BLOCKS = 6,        /* blocks not 1 or 2 */
    FEEDBACK_REFUSED_SUBFRAME = 7,      /* subframe over 9 or without a window; in
                                           feedback_answered an uplink subframe, which lies in no
                                           window, or one over 9 */
    FEEDBACK_REFUSED_STATE = 8,         /* lent state fails 1 to 6, 17, 19 or 24, expects a
                                           subframe over 9, or remembers a mode that fails 5 or 24
                                           (mode 1 in configuration 5, or with two ports) or what
                                           fails 9 to 12, 18 or 20 there, in the subframe that
                                           brought it (so two scheduled blocks of one window too);
                                           also a remembered kind that is not in enum
                                           feedback_slot_kind */
    FEEDBACK_REFUSED_UPLINK = 9,        /* grant, scheduled block or release in an uplink
                                           subframe */
    FEEDBACK_REFUSED_CARRIED = 10,      /* blocks carried 0 or over the setting; in
                                           feedback_confirmed and feedback_credit over the setting,
                                           for 0 blocks are no grant there */
    FEEDBACK_REFUSED_CCE = 11,          /* first CCE not below N_4, in feedback_confirmed and
                                           feedback_credit of a PDCCH of the window (also position
                                           not below M, in feedback_resource and told to
                                           feedback_reading) */
    FEEDBACK_REFUSED_DAI = 12,          /* DAI not 1 to 4, in feedback_confirmed and
                                           feedback_credit of a PDCCH of the window */
    FEEDBACK_REFUSED_RESOURCE = 13,     /* resource below N1 or above N1 + M * N_4 - 1, with two
                                           ports as with one (but not the scheduled resource, in
                                           feedback_reading where a scheduled position is told, in
                                           feedback_confirmed and feedback_credit where a scheduled
                                           block was sent) */
    FEEDBACK_REFUSED_BITS = 14,         /* bit over 1, second bit set in a one-bit reply, or a
                                           symbol in no row of Tables 10.1-2 to 10.1-4 */
    FEEDBACK_REFUSED_SCRATCH = 15,      /* scratch shorter than M * N_4 bytes, with two ports
                                           M * N_4 + 1; in feedback_claims_bits shorter than
                                           (M * N_4 + 7) / 8 bytes, with two ports
                                           (M * N_4 + 8) / 8, rounded down */
    FEEDBACK_REFUSED_CLAIM = 16,        /* claim with m not below M or CCE not below N_4 */
    FEEDBACK_REFUSED_SCHEDULED_RESOURCE = 17, /* scheduled resource set and not below N1 */
    FEEDBACK_REFUSED_SCHEDULED = 18,    /* scheduled block with no scheduled resource set, or a
                                           second one heard in one window, in feedback_confirmed
                                           and feedback_credit sent in it; in feedback_reading a
                                           scheduled position told with no resource set */
    FEEDBACK_REFUSED_SPECIAL = 19,      /* prefix not 0 or 1, or special subframe configuration
                                           over 8 with the normal prefix, over 6 with the
                                           extended */
    FEEDBACK_REFUSED_SHORT = 20,        /* grant or scheduled block in a special subframe too
                                           short for data, fed or, in feedback_confirmed and
                                           feedback_credit, sent; in feedback_reading a scheduled
                                           position told whose subframe is such a one */
    FEEDBACK_REFUSED_TRACE_LENGTH = 21, /* trace below eight bytes, or not of the length that its
                                           header names */
    FEEDBACK_REFUSED_TRACE_PARTS = 22,  /* parts of the trace, the header too, that share a byte
                                           or leave the file (where there are no records, their
                                           place is ignored), or a record's kind over 3, in
                                           feedback_command that of the record to be fed;
                                           feedback_replay_size looks at no kind */
    FEEDBACK_REFUSED_OUTPUT = 23,       /* output too short: in feedback_replay under eight bytes
                                           for each window that the records of the header complete
                                           (the bytes of feedback_replay_size), in
                                           feedback_trace_write under 18 bytes and four for each
                                           record */
    FEEDBACK_REFUSED_PORTS = 24,        /* ports not 1 or 2, or two ports with mode 1 or with a
                                           scheduled resource set; in feedback_change_mode two
                                           ports and the new mode 1, and nothing else */
    FEEDBACK_REFUSED_SIZE_OR_ACCOUNT = 25, /* I_TBS over 26 or N_PRB not 1 to 110, of a block sent
                                           in the window; price over 1000000; account with a carry
                                           not below 1000000, or whose octets * price is not
                                           1000000 * charged + carry */
    FEEDBACK_REFUSED_TOTAL = 26,        /* the account would have more than 1000000000000 octets */
    FEEDBACK_REFUSED_GAME = 27,         /* window size not 1 to 9, more grants than subframes, or
                                           more than 9 losses */
    FEEDBACK_REFUSED_COMMAND = 28,      /* command of a register block not 0, 1 or 2 */
    FEEDBACK_REFUSED_REGISTER_BLOCK = 29 /* register block that has not 16 bytes */
};

/* The kind of a feed's answer, and of a reading (there 0, 1 or 2). */
enum feedback_kind {
    FEEDBACK_KIND_REFUSED = 0,     /* refused; the refusal says why */
    FEEDBACK_KIND_BUNDLED = 1,     /* a bundled reply: ACK bits */
    FEEDBACK_KIND_MULTIPLEXED = 2, /* a multiplexed reply: channel selection */
    FEEDBACK_KIND_SILENT = 3,      /* an uplink subframe with a window: nothing is to be sent */
    FEEDBACK_KIND_TAKEN = 4,       /* a downlink subframe: taken into the memory */
    FEEDBACK_KIND_NO_WINDOW = 5    /* an uplink subframe without a window */
};

/* The cause of a silence, as feedback_silence tells it. */
enum feedback_cause {
    FEEDBACK_CAUSE_NONE = 0,          /* the answer is not silent */
    FEEDBACK_CAUSE_NOTHING_HEARD = 1, /* nothing was heard in the window */
    FEEDBACK_CAUSE_MISS_SHOWN = 2     /* a miss is shown: V is not the value expected */
};

/* The kind of an answer about claims. */
enum feedback_claims_kind {
    FEEDBACK_CLAIMS_REFUSED = 0, /* refused; the refusal says why */
    FEEDBACK_CLAIMS_CLEAN = 1,   /* no two claims share a resource */
    FEEDBACK_CLAIMS_CLASH = 2    /* two claims share a resource; with one port, they are equal */
};

/* The kind of a replay's answer. */
enum feedback_replay_kind {
    FEEDBACK_REPLAY_REFUSED = 0, /* refused before any record; the refusal says why */
    FEEDBACK_REPLAY_DONE = 1,    /* every record was replayed */
    FEEDBACK_REPLAY_STOPPED = 2  /* stopped at the first record that its feed refuses; the refusal
                                    says why */
};

/* The kind of an answer about a record of a trace. */
enum feedback_record_kind {
    FEEDBACK_RECORD_REFUSED = 0, /* refused; the refusal says why */
    FEEDBACK_RECORD_READ = 1,    /* the record */
    FEEDBACK_RECORD_END = 2      /* the trace has no such record: its number is past the last */
};

/* The kind of a written trace's answer. */
enum feedback_write_kind {
    FEEDBACK_WRITE_REFUSED = 0, /* refused, and by no record: 21, 22, the settings, or 23 */
    FEEDBACK_WRITE_DONE = 1,    /* the trace was written */
    FEEDBACK_WRITE_STOPPED = 2  /* a record is refused, the first at which a replay would stop;
                                   nothing was written */
};

/* The mode of a handset, as in feedback_settings. */
enum feedback_mode {
    FEEDBACK_MODE_BUNDLING = 0,
    FEEDBACK_MODE_MULTIPLEXING = 1
};

/* The cyclic prefix of the downlink in a cell, as in feedback_settings. */
enum feedback_prefix {
    FEEDBACK_PREFIX_NORMAL = 0,
    FEEDBACK_PREFIX_EXTENDED = 1
};

/* What a subframe brought, as in feedback_slot: the kinds, and the bits of results. */
enum feedback_slot_kind {
    FEEDBACK_SLOT_NOTHING = 0,
    FEEDBACK_SLOT_GRANT = 1,
    FEEDBACK_SLOT_SCHEDULED = 2, /* a scheduled block */
    FEEDBACK_SLOT_RELEASE = 3
};
enum feedback_slot_results {
    FEEDBACK_FIRST_DECODED = 1,  /* the first block, or the only one, was decoded */
    FEEDBACK_SECOND_DECODED = 2, /* the second block was decoded */
    FEEDBACK_TWO_CARRIED = 4     /* two blocks were carried, else one */
};

/* The bytes of a register block: their places, and how many there are; see REGISTER BLOCK. */
enum feedback_block_place {
    FEEDBACK_BLOCK_KIND = 0,    /* 0 to 3: the record that a feed brings, the fields of struct
                                   feedback_slot */
    FEEDBACK_BLOCK_CCE = 1,
    FEEDBACK_BLOCK_DAI = 2,
    FEEDBACK_BLOCK_RESULTS = 3,
    FEEDBACK_BLOCK_DROPPED = 0, /* the same byte for a clear: the flags to drop */
    FEEDBACK_BLOCK_COMMAND = 4, /* one of enum feedback_block_command */
    FEEDBACK_BLOCK_FLAGS = 5,   /* bits of enum feedback_block_flags, other bits have no meaning */
    FEEDBACK_BLOCK_MASK = 6,    /* the same bits: the flags that make the interrupt line high */
    FEEDBACK_BLOCK_REFUSAL = 7, /* one of enum feedback_refusal */
    FEEDBACK_BLOCK_REPLY = 8,   /* 8 to 15: FEEDBACK_WINDOW_BYTES, as feedback_replay writes */
    FEEDBACK_BLOCK_BYTES = 16
};

/* The commands of a register block. */
enum feedback_block_command {
    FEEDBACK_COMMAND_NONE = 0,
    FEEDBACK_COMMAND_FEED = 1, /* the next subframe brought the record of bytes 0 to 3 */
    FEEDBACK_COMMAND_CLEAR = 2 /* the flags in byte 0 are dropped */
};

/* The flags of a register block, and of its mask. */
enum feedback_block_flags {
    FEEDBACK_FLAG_READY = 1,      /* a reply is ready */
    FEEDBACK_FLAG_REFUSED = 2,    /* a command was refused */
    FEEDBACK_FLAG_OVERWRITTEN = 4 /* a reply was overwritten unread */
};

/*
 * The settings of a handset in a cell. 18 bytes. config, nrb, n1, prefix and special are
 * the cell's, the same for all its handsets; mode, blocks, scheduled and ports are the
 * handset's own, set by higher layers for each, and its replies are read with them,
 * each in the mode of its own window.
 * Every call that takes settings refuses 1 to 6, 17, 19 and 24 for them; feedback_window,
 * feedback_answered and feedback_inverse ask no more of mode, blocks, scheduled, prefix,
 * special and ports than that, and answer alike for all handsets of a cell.
 * feedback_resource, feedback_claims and feedback_claims_bits ask besides for ports, and
 * answer alike for all that have the same number of them: with two the first gives the
 * second resource too, and the others take each claim to have two resources.
 * feedback_reading, feedback_confirmed and feedback_credit ask no more of ports: they are
 * told the first port's resource.
 *
 * FEEDBACK_SETTINGS, below, fills the first five, sets scheduled to FEEDBACK_NONE,
 * prefix to 0, special to 7, with which special subframes carry data, and ports to 1.
 * Where a scheduled resource or two ports are configured, and where the cell has another
 * prefix or special subframe configuration, write it into the field afterwards; with the
 * extended prefix write both, for it has no special subframe configuration 7. Settings
 * that a later version adds it fills too.
 */
struct feedback_settings {
    uint16_t config;    /* uplink-downlink configuration, 0 to 6 */
    uint16_t nrb;       /* bandwidth N_RB in resource blocks, 6 to 110 */
    uint16_t n1;        /* N1, the higher-layer N_PUCCH^(1), 0 to 2047 */
    uint16_t mode;      /* 0 bundling, 1 multiplexing; configuration 5 has no multiplexing, nor has
                           a handset with two ports */
    uint16_t blocks;    /* the most transport blocks of one grant or scheduled block, 1 or 2 */
    uint16_t scheduled; /* the PUCCH resource that higher layers configure for scheduled blocks,
                           below N1, or FEEDBACK_NONE: none is set, as with two ports it must be.
                           A field left 0 is resource 0, and not "none"; where N1 is 0 it is
                           refused 17, else with two ports 24 */
    uint16_t prefix;    /* the cyclic prefix of the downlink, 0 normal, 1 extended */
    uint16_t special;   /* special subframe configuration, 0 to 8 with the normal prefix, 0 to 6
                           with the extended. 0 forbids data in special subframes, as 5 does with
                           the normal prefix and 4 with the extended: a grant or scheduled block
                           there is refused 20. So where fields are filled by hand, set this one
                           too; FEEDBACK_SETTINGS gives 7, with which nothing is refused 20 */
    uint16_t ports;     /* the transmit antenna ports of the handset for PUCCH, 1 or 2; 2 only with
                           mode 0 and scheduled FEEDBACK_NONE. A field left 0 is refused 24: where
                           fields are filled by hand, set this one too; FEEDBACK_SETTINGS gives 1 */
};

/* The answer of feedback_window. 40 bytes. */
struct feedback_window_answer {
    uint16_t refusal;                     /* 0, or 1 to 7, 17, 19 or 24 */
    uint16_t size;                        /* M, 1 to 9; 0 if refused */
    uint16_t k[FEEDBACK_WINDOW_MOST];     /* k_0 to k_(M-1), K as printed; 0 from M on */
    uint16_t order[FEEDBACK_WINDOW_MOST]; /* the positions 0 to M - 1 in time order, the earliest
                                             subframe first; 0 from M on */
};

/* The answer of feedback_answered. 8 bytes. */
struct feedback_answered_answer {
    uint16_t refusal;  /* 0, or 1 to 7, 17, 19 or 24 */
    uint16_t n;        /* the uplink subframe that answers; 0 if refused */
    uint16_t k;        /* how many subframes later that is, 4 to 13; 0 if refused */
    uint16_t position; /* the position m in the window of n, 0 to M - 1; 0 if refused */
};

/* The answer of feedback_resource. 6 bytes. */
struct feedback_resource_answer {
    uint16_t refusal;  /* 0, or 1 to 7, 11, 17, 19 or 24 */
    uint16_t resource; /* the PUCCH resource, with two ports that of the first port, N1 to
                          N1 + M * N_4 - 1; 0 if refused */
    uint16_t second;   /* with two ports the PUCCH resource of the second port, resource + 1; 0 with
                          one port, or refused */
};

/* The answer of feedback_inverse. 6 bytes. */
struct feedback_inverse_answer {
    uint16_t refusal;  /* 0, or 1 to 7, 13, 17, 19 or 24 */
    uint16_t position; /* the position m in the window, 0 to M - 1; 0 if refused */
    uint16_t cce;      /* the first CCE, 0 to N_4 - 1; 0 if refused */
};

/* The answer of feedback_reading. 16 bytes. */
struct feedback_reading_answer {
    uint16_t refusal;   /* 0, or 1 to 7, 11, 13, 14, 17 to 20 or 24 */
    uint16_t kind;      /* FEEDBACK_KIND_BUNDLED or FEEDBACK_KIND_MULTIPLEXED; 0 if refused */
    uint16_t position;  /* the position m of the PDCCH or scheduled block whose resource this is;
                           0 if refused */
    uint16_t cce;       /* the first CCE of that PDCCH; 0 if it is a scheduled block, or refused */
    uint16_t b0;        /* bundled: 1 ACK of the first block, 0 NACK; else 0 */
    uint16_t b1;        /* bundled: 1 ACK of the second block, 0 NACK, and 0 in a one-bit
                           reply; else 0 */
    uint16_t delivered; /* multiplexed: bit p (value 1 << p) is 1 if position p is delivered;
                           else 0 */
    uint16_t scheduled; /* 1 if the reply is read as the scheduled block; 0 if as a PDCCH, or
                           refused */
};

/*
 * What a station sent to a handset in one subframe. 16 bytes. Any numbers are one of these:
 *
 *             signalled   blocks
 *             not 0       above 0   a grant
 *             not 0       0         a release
 *             0           above 0   a scheduled block
 *             0           0         nothing
 *
 * Fields that it does not have are not looked at: a scheduled block has no cce and no dai,
 * a release no sizes, nothing neither of them, and only a second block has itbs1 and nprb1.
 * feedback_sent_grant, feedback_sent_scheduled, feedback_sent_release and
 * feedback_sent_nothing, below, make a record.
 */
struct feedback_sent {
    uint16_t signalled; /* not 0 if a PDCCH was sent */
    uint16_t blocks;    /* transport blocks carried, 0 to the setting's */
    uint16_t cce;       /* grant, release: its first CCE, 0 to N_4 - 1 */
    uint16_t dai;       /* grant, release: its DAI, 1 to 4 */
    uint16_t itbs0;     /* I_TBS of the first block, or of the only one, 0 to 26 */
    uint16_t nprb0;     /* its N_PRB, 1 to 110 */
    uint16_t itbs1;     /* I_TBS of the second block, 0 to 26 */
    uint16_t nprb1;     /* its N_PRB, 1 to 110 */
};

/*
 * What a station sent to a handset in the window of n, heard or not: at[m] is for position
 * m, the subframe n - k_m. 144 bytes. The records from M on are not looked at. Where all
 * bytes are 0, by { { { 0 } } } in C or by memset, nothing was sent.
 */
struct feedback_sent_window {
    struct feedback_sent at[FEEDBACK_WINDOW_MOST];
};

/* The answer of feedback_confirmed. 6 bytes. */
struct feedback_confirmed_answer {
    uint16_t refusal; /* 0, or 1 to 7, 10 to 14, 17 to 20 or 24 */
    uint16_t first;   /* bit p (value 1 << p) is 1 if the first block at position p, or the only
                         one, is confirmed; 0 if refused */
    uint16_t second;  /* bit p is 1 if the second block at position p is confirmed; 0 if refused */
};

/*
 * An account. 24 bytes without padding.
 *
 * feedback_open_account makes one, feedback_credit takes one and gives back the next. It is
 * plain bytes: it may be copied, stored, and given back later, on a machine of the same
 * byte order. Any numbers may be given: what is off the equation, or beyond a bound, is
 * refused 25 or 26. To change the price open another account.
 */
struct feedback_account {
    uint64_t octets;  /* the octets credited, 0 to 1000000000000 */
    uint64_t charged; /* what they cost, in smallest coins, rounded down */
    uint32_t price;   /* smallest coins per million octets, 0 to 1000000 */
    uint32_t carry;   /* what the rounding left, in millionths of a smallest coin, 0 to 999999 */
};

/* The answer of feedback_open_account. 32 bytes. */
struct feedback_opened {
    uint16_t refusal;                /* 0 or 25 */
    struct feedback_account account; /* the new account; if refused, one with the price given and
                                        zeros, which feedback_credit refuses */
};

/* The answer of feedback_credit. 32 bytes. */
struct feedback_credit_answer {
    uint16_t refusal; /* 0, or 1 to 7, 10 to 14, 17 to 20 or 24 to 26 */
    uint32_t octets;  /* the octets that were credited by this call; 0 if refused */
    struct feedback_account account; /* for the next call; if refused, the account as it was */
};

/* The answer of feedback_claims and of feedback_claims_bits. 16 bytes. */
struct feedback_claims_answer {
    uint16_t refusal; /* 0, or 1 to 7, 15, 16, 17, 19 or 24 */
    uint16_t kind;    /* FEEDBACK_CLAIMS_CLEAN or FEEDBACK_CLAIMS_CLASH; 0 if refused */
    uint64_t index;   /* clash: the index of the first claim that shares a resource with an earlier
                         one; refused 16: the index of the first bad claim; else 0 */
};

/*
 * What one subframe brought: remembered by a handset, or a record of a trace or of a
 * register block. 4 bytes.
 */
struct feedback_slot {
    uint8_t kind;    /* one of enum feedback_slot_kind */
    uint8_t cce;     /* grant, release: its first CCE; else no meaning */
    uint8_t dai;     /* grant, release: its DAI, 1 to 4; else no meaning */
    uint8_t results; /* grant, scheduled block: bits of enum feedback_slot_results, other bits
                        have no meaning; else no meaning */
};

/*
 * The state of a handset. 74 bytes without padding.
 *
 * feedback_make makes one; a feed, a change of mode or a command of a register block takes
 * one and gives back the next. It is plain bytes: it may be copied, stored, and given back
 * later, as often as you like, on a machine of the same byte order. Other bytes may be
 * given as well: a call that looks at them then refuses 8, or answers as for what these
 * bytes say was heard, and in which mode. Bytes and bits of a slot that have no meaning are
 * carried along unchanged; a feed puts 0 into such bytes of the slot that it adds. Bits of
 * modes that have no meaning are carried along by a change of mode, and dropped by the next
 * feed that is not refused.
 *
 * A handset that was stored by a version before 5.0.0 has 64, 66, 70 or 72 bytes and
 * another layout: it cannot be fed to this one. Make a fresh handset.
 */
struct feedback_handset {
    struct feedback_settings settings; /* its mode is the one that stands */
    uint16_t next;  /* the subframe that the next feed brings, 0 to 9 */
    uint16_t modes; /* bit i (value 1 << i), i 0 to 12: the mode that stood when the subframe
                       i + 1 ago was fed, that of past[i]; before the start the mode that the
                       handset was made with. Bits 13 to 15 have no meaning */
    struct feedback_slot past[FEEDBACK_MEMORY]; /* the last 13 subframes, the newest first */
};

/* The answer of feedback_make. 76 bytes. */
struct feedback_made {
    uint16_t refusal;                /* 0, or 1 to 6, 17, 19 or 24 */
    struct feedback_handset handset; /* the fresh handset; 74 zero bytes if refused, a state
                                        that every feed refuses with 8, and every change to
                                        mode 0 or 1 */
};

/* The answer of feedback_change_mode. 76 bytes. */
struct feedback_changed {
    uint16_t refusal;                /* 0, or 4, 5, 8 or 24 */
    struct feedback_handset handset; /* in the new mode; if refused, the handset as it was */
};

/* The answer of a feed. 86 bytes. */
struct feedback_fed {
    uint16_t refusal;  /* 0, or 8 (feedback_feed_nothing), 8 to 12 or 20 (feedback_feed_grant), 8,
                          9, 10, 18 or 20 (feedback_feed_scheduled), 8, 9, 11 or 12
                          (feedback_feed_release) */
    uint16_t kind;     /* one of enum feedback_kind */
    uint16_t resource; /* bundled, multiplexed: the PUCCH resource to send on, with two ports that
                          of the first port; else 0 */
    uint16_t b0;       /* bundled: 1 ACK of the first block, 0 NACK; multiplexed: b(0); else 0 */
    uint16_t b1;       /* bundled: the same of the second block, 0 in a one-bit reply;
                          multiplexed: b(1); else 0 */
    uint16_t second;   /* a reply with two ports: the PUCCH resource on which the second port sends
                          the same bits, resource + 1; 0 with one port, and where there is no
                          reply */
    struct feedback_handset handset; /* for the next call; if refused, the handset as it was */
};

/* The answer of feedback_silence. 92 bytes. */
struct feedback_silence_answer {
    struct feedback_fed fed; /* what feedback_feed_nothing answers, every field of it; its refusal
                                is 0 or 8 */
    uint16_t cause;    /* one of enum feedback_cause, FEEDBACK_CAUSE_NONE (0) exactly if fed.kind is
                          not FEEDBACK_KIND_SILENT */
    uint16_t v;        /* miss shown: V, the DAI of the last PDCCH heard in the window, 1 to 4; else
                          0 */
    uint16_t expected; /* miss shown: ((U - 1) mod 4) + 1, the DAI that it would have if none of its
                          window had been missed before it, 1 to 4 and never v; else 0 */
};

/* The answer of feedback_replay_size. 8 bytes. */
struct feedback_replay_size_answer {
    uint16_t refusal; /* 0, or 1 to 6, 17, 19, 21 or 22 */
    uint16_t windows; /* the windows that the records complete, silent ones too, 0 to
                         FEEDBACK_WINDOWS_MOST; 0 if refused */
    uint32_t bytes;   /* the bytes of output to lend to feedback_replay, FEEDBACK_WINDOW_BYTES for
                         each of these windows, 0 to 65520; 0 if refused */
};

/* The answer of feedback_replay. 8 bytes. */
struct feedback_replay_answer {
    uint16_t refusal; /* 0; before any record 1 to 6, 17, 19 or 21 to 23; at a record 9 to 12, 18
                         or 20 */
    uint16_t kind;    /* one of enum feedback_replay_kind */
    uint16_t record;  /* stopped: the number of the refused record, from 0; else 0 */
    uint16_t windows; /* the windows that were written to the output; 0 if refused before any
                         record */
};

/* The answer of feedback_record. 8 bytes. */
struct feedback_record_answer {
    uint16_t refusal;          /* 0, 21 or 22 */
    uint16_t kind;             /* one of enum feedback_record_kind */
    struct feedback_slot slot; /* read: the record; fields and bits that its kind does not use
                                  are 0; else 4 zero bytes */
};

/* The answer of feedback_trace_write. 8 bytes. */
struct feedback_write_answer {
    uint16_t refusal; /* 0; by no record 1 to 6, 17, 19 or 21 to 23; by a record 9 to 12, 18 or
                         20 */
    uint16_t kind;    /* one of enum feedback_write_kind */
    uint16_t record;  /* stopped: the number of the refused record, from 0; else 0 */
    uint16_t bytes;   /* done: the bytes that were written to the output; else 0 */
};

/* The answer of feedback_game. 4 bytes. */
struct feedback_game_answer {
    uint16_t refusal; /* 0 or 27 */
    uint16_t radio;   /* 1 if the radio can force a reply that hides a loss; 0 if the scheduler can
                         prevent it, or refused */
};

/* The answer of feedback_command. 78 bytes. */
struct feedback_command_answer {
    uint16_t refusal; /* 0, or 8 to 12, 18, 20, 22, 28 or 29 */
    uint16_t line;    /* 1 if the interrupt line is high after the command, else 0; 0 if refused
                         29 */
    struct feedback_handset handset; /* for the next call: that of the feed; after none and clear,
                                        and if refused, the handset as it was */
};

/*
 * The window of an uplink subframe: K as printed, and the positions in time order.
 *
 *   settings   the settings of the cell
 *   n          the uplink subframe of the reply, 0 to 9, one with a window
 *
 * Position order[0] has the earliest subframe, order[M - 1] the latest: with w the
 * answer, w.k[w.order[j]] falls as j rises.
 *
 * Refuses 1 to 6, 17, 19, 24 and 7.
 */
FEEDBACK_MUST_USE
struct feedback_window_answer feedback_window(struct feedback_settings settings, uint16_t n);

/*
 * The window that a downlink subframe is in: where and when it is answered. That is
 * what a station asks before it sends something there.
 *
 *   settings   the settings of the cell
 *   subframe   the downlink subframe, 0 to 9
 *
 * The answer's n is (subframe + k) modulo 10, and the subframe has the answer's
 * position in the window of n. Each downlink subframe is in exactly one window, a
 * special one too short for data as well: a release there is answered.
 *
 * Refuses 1 to 6, 17, 19, 24 and 7; 7 is an uplink subframe here, which lies in no
 * window, or one over 9.
 */
FEEDBACK_MUST_USE
struct feedback_answered_answer feedback_answered(struct feedback_settings settings,
                                                  uint16_t subframe);

/*
 * The PUCCH resource that belongs to a PDCCH, a grant or a release, and with two ports
 * the second one too.
 *
 *   settings   the settings of the cell, with the ports of the handset that the PDCCH
 *              is for
 *   n          the uplink subframe of the reply, 0 to 9, one with a window
 *   position   the position m in the window of n of the subframe that carried
 *              the PDCCH, 0 to M - 1
 *   cce        the first CCE of the PDCCH, 0 to N_4 - 1
 *
 * Refuses 1 to 6, 17, 19, 24, 7 and 11.
 */
FEEDBACK_MUST_USE
struct feedback_resource_answer feedback_resource(struct feedback_settings settings, uint16_t n,
                                                  uint16_t position, uint16_t cce);

/*
 * The PDCCH that a PUCCH resource belongs to: the way back from feedback_resource.
 *
 *   settings   the settings of the cell
 *   n          the uplink subframe of the reply, 0 to 9, one with a window
 *   resource   the PUCCH resource, with two ports that of the first port, N1 to
 *              N1 + M * N_4 - 1
 *
 * Refuses 1 to 6, 17, 19, 24, 7 and 13; 13 also for the resource of scheduled blocks,
 * which no PDCCH has, and for N1 + M * N_4, which is a second port's alone.
 */
FEEDBACK_MUST_USE
struct feedback_inverse_answer feedback_inverse(struct feedback_settings settings, uint16_t n,
                                                uint16_t resource);

/*
 * What a reply on PUCCH says.
 *
 *   settings             the settings of the handset that replied. settings.mode is the
 *                        mode of THIS window: the one that stood when its earliest
 *                        subframe was fed, k[order[0]] of feedback_window before n, or
 *                        where that lies before the start, the one that the handset
 *                        was made with. No other argument tells the mode
 *   n                    the uplink subframe of the reply, 0 to 9, one with a window
 *   scheduled_position   the position m of the scheduled block that was SENT to this
 *                        handset in the window of n, heard or not, 0 to M - 1, and
 *                        not that of a special subframe too short for data, where
 *                        none can be sent; FEEDBACK_NONE where none was sent
 *   resource             the PUCCH resource on which the reply came; of a handset with
 *                        two ports the first port's, the lower of the two. The upper
 *                        one would be read as another PDCCH's, or refused 13
 *   b0, b1               its bits, each 0 or 1; in a one-bit reply (bundled,
 *                        settings.blocks 1) b1 is 0
 *
 * The answer says what the reply is read as. Where a scheduled position is told and
 * the reply came on settings.scheduled, that is the scheduled block: scheduled is 1,
 * position the one told, and cce 0. Else it is the PDCCH whose resource this is, even
 * one at the position told: scheduled is 0, and the answer names its position and its
 * first CCE.
 *
 * Bundled: the PDCCH named is the last one the handset heard; read as the scheduled
 * block, no PDCCH was heard. A bit is ACK exactly when every grant that the handset
 * HEARD in this window decoded that block, and the scheduled block too if it was
 * heard. One that carries one block counts with it for both bits, so either ACK
 * confirms it. With DAIs by the rule above, PDCCHs sent before the last one heard can
 * be lost unnoticed, but then four or eight of them in all, where the DAI comes round
 * to the same value. So, if at most four PDCCHs of the window were sent up to and with
 * the one named here (releases counted, the scheduled block not), all of these were
 * heard and an ACK holds for each grant of them. If more were sent, it is sure for the
 * named one alone. PDCCHs sent after it were lost. From a reading as a PDCCH nothing
 * is concluded about the scheduled block: an ACK is sure for it only where the reply
 * is read as that block, which was then heard, and then for nothing else.
 *
 * Multiplexed: delivered has the positions that are A (every block carried was
 * decoded) in every state of the window that sends this symbol. Where states
 * share a symbol, a position that is A in only some of them is left out. What was
 * sent at a delivered position was heard, a release too.
 *
 * No cleverer reading of a multiplexed reply frees a buffer sooner, not even one that
 * also knows at which positions something was sent. Count the states that are D where
 * nothing was sent: it is proved that for a symbol which one of them sends, a rule that
 * names only positions which are A in all of them that send it names only positions in
 * delivered, and that for each position left out, one of them that sends it is not A
 * there, so that what was sent there must be kept (crates/limit/specs/Rules.antt,
 * crates/limit/proofs/Best.antt).
 *
 * A reading says what the resource and the bits mean; it does not know what was
 * sent. If it names a PDCCH, and the station sent this handset none with that first
 * CCE at that position, or if it names a scheduled block and none was sent there,
 * the reply is not this handset's, but a false alarm of the receiver (or another
 * handset's reply): the station confirms nothing by it, at any position.
 *
 * So a scheduler may conclude this, from the window, what it sent there and the
 * reading alone; feedback_confirmed does it. A block that it sent is confirmed if what
 * the reading names was sent, a PDCCH at that position with that first CCE or the
 * scheduled block at that position, and
 *
 *   bundled       read as a PDCCH: the block's grant is the one named, or was sent
 *                 before it where at most four PDCCHs of the window were sent up to
 *                 and with the one named; read as the scheduled block: the block
 *                 belongs to that. And b0 is 1 for a first block, b1 for a second
 *                 one, either of them for an only one
 *   multiplexed   the position at which the block was sent is in delivered
 *
 * Where nothing was sent there is nothing to confirm, whatever delivered has there;
 * nor is there in a release, which carries no block.
 *
 * It is proved that each block confirmed by this rule was heard and decoded by the
 * handset, whatever was lost: crates/confirmation/specs/Confirmed.antt has the rule,
 * crates/agreement/proofs/Conclusions.antt the proof. It needs PDCCHs with DAIs by
 * the rule above, at most one scheduled block sent in a window and its position told
 * here, no grant and no scheduled block sent in a special subframe too short for data,
 * a handset that is fed, for every subframe, what was sent there or nothing, with
 * changes of mode in between as you like, and its reply as it was sent, read with its own
 * settings in the mode of the window.
 *
 * Refuses 1 to 6, 17, 19, 24, 7, 20, 11, 18, 13 and 14. 20 is a position told whose
 * subframe is a special one too short for data, 11 one told that is not below M, and 18
 * one told with no resource set (with two ports none is), all three whatever resource
 * the reply came on. 13 is not given for settings.scheduled where a position is told;
 * without one it is. On that resource 14 goes by the position told.
 */
FEEDBACK_MUST_USE
struct feedback_reading_answer feedback_reading(struct feedback_settings settings, uint16_t n,
                                                uint16_t scheduled_position, uint16_t resource,
                                                uint16_t b0, uint16_t b1);

/*
 * Which blocks of a window a reply confirms: those that may leave the retransmission
 * buffer, by the rule at feedback_reading.
 *
 *   settings   the settings of the handset that replied. settings.mode is the mode of
 *              THIS window, as for feedback_reading
 *   n          the uplink subframe of the reply, 0 to 9, one with a window
 *   sent       what was SENT to this handset in the window of n, heard or not, by
 *              position, with at most one scheduled block. Its sizes are not looked at
 *   resource   the PUCCH resource on which the reply came; of a handset with two ports
 *              the first port's, the lower of the two
 *   b0, b1     its bits, each 0 or 1; in a one-bit reply (bundled, settings.blocks 1)
 *              b1 is 0
 *
 * The reply is read as feedback_reading reads it, told the position of the scheduled
 * block in sent, or FEEDBACK_NONE where there is none. If what it is read as was not sent
 * there, nothing is confirmed. Else these blocks are:
 *
 *   bundled, read as a PDCCH    of the PDCCH named, and, if at most four PDCCHs of the
 *                               window, releases counted, were sent up to and with it in
 *                               time order, of those before it too: the first block if b0
 *                               is 1, the second if b1 is 1, an only one if either is
 *   bundled, read as the        of that block alone: the first if b0 is 1, the second if
 *   scheduled block             b1 is 1, an only one if either is
 *   multiplexed                 every block sent at a delivered position
 *
 * It is proved that a station that gives what it sent, and a reply that came, is not
 * refused, and that each confirmed block was heard and decoded by the handset, whatever
 * was lost, where what the proof at feedback_reading needs holds
 * (crates/billing/specs/Verdict.antt). A window without a reply confirms nothing; there
 * is nothing to call then.
 *
 * Refuses 1 to 6, 17, 19, 24, 7, 20, 10, 11, 12, 18, 13 and 14. 20, 10, 11, 12 and 18 are
 * looked for in sent, each at all positions 0 to M - 1 before the next: 20 is a grant or
 * scheduled block in a special subframe too short for data, 10 one with more blocks than
 * the setting, 11 a first CCE and 12 a DAI of a PDCCH, 18 a scheduled block with no
 * resource set, or two of them. That DAIs follow the rule above is not looked at. 13 and
 * 14 are those of feedback_reading.
 */
FEEDBACK_MUST_USE
struct feedback_confirmed_answer feedback_confirmed(struct feedback_settings settings, uint16_t n,
                                                    struct feedback_sent_window sent,
                                                    uint16_t resource, uint16_t b0, uint16_t b1);

/*
 * A new account, with nothing credited and nothing charged.
 *
 *   price      smallest coins per million octets, 0 to FEEDBACK_PRICE_MOST
 *
 * Refuses 25, a price over FEEDBACK_PRICE_MOST. The account beside it has that price and
 * zeros: feedback_credit refuses 25 for it, where nothing that comes before 25 is met.
 */
FEEDBACK_MUST_USE
struct feedback_opened feedback_open_account(uint32_t price);

/*
 * The octets of the blocks that a reply credits, added to an account and charged.
 *
 *   settings   the settings of the handset that replied. settings.mode is the mode of
 *              THIS window, as for feedback_reading
 *   n          the uplink subframe of the reply, 0 to 9, one with a window
 *   sent       what was SENT to this handset in the window of n, heard or not, by
 *              position, with at most one scheduled block and with the sizes of all
 *              blocks
 *   resource   the PUCCH resource on which the reply came; of a handset with two ports
 *              the first port's, the lower of the two
 *   b0, b1     its bits, each 0 or 1; in a one-bit reply (bundled, settings.blocks 1)
 *              b1 is 0
 *   account    the account that feedback_open_account, or the credit before, answered
 *
 * Of the blocks that feedback_confirmed gives, those are credited whose own bit is ACK:
 * bundled, first blocks and only ones where b0 is 1, second ones where b1 is 1;
 * multiplexed, all of them. So of a bundled reply with b0 0 and b1 1 an only block is
 * confirmed and not credited. The octets of a block are its transport block size / 8. The
 * answer's octets are those of all blocks credited; the account has so many more, and its
 * charged and carry are those that its octets and its price give:
 *
 *   octets * price = 1000000 * charged + carry, with the carry below 1000000
 *
 * It is proved that this holds after any list of credits from a new account, refused ones
 * among them, each with the account that the one before answered, and that the octets are
 * then those of the list's credits that were not refused (crates/account/specs); and that
 * each credited block was heard and decoded by the handset, whatever was lost, where sent
 * says what was sent and what the proof at feedback_reading needs holds
 * (crates/billing/specs/Billing.antt): a tenant is charged for no octet that did not
 * arrive.
 *
 * Which replies were credited is for the caller to know: a reply that is given twice is
 * charged twice. Credit each once, with the account that the credit before answered. One
 * account may take the replies of several handsets.
 *
 * Refuses as feedback_confirmed, with 25 and 26 between 18 and 13: 1 to 6, 17, 19, 24, 7,
 * 20, 10, 11, 12, 18, 25, 26, 13 and 14. 26 is about what would be credited, so it is met
 * only where 13 and 14 are not. 25 is looked for in every block
 * that was sent in the window, credited or not, and in the account: I_TBS over 26; N_PRB
 * not 1 to 110, whatever settings.nrb is; a price over FEEDBACK_PRICE_MOST; a carry not
 * below 1000000; octets * price not 1000000 * charged + carry, for which products are
 * taken in full and not modulo 2^64. 26 is a total, with what would be credited, over
 * FEEDBACK_OCTETS_MOST octets; an account that is beyond it already is refused so where 0
 * octets are credited too. If refused, nothing is credited, and the account of the answer
 * is the one given.
 */
FEEDBACK_MUST_USE
struct feedback_credit_answer feedback_credit(struct feedback_settings settings, uint16_t n,
                                              struct feedback_sent_window sent, uint16_t resource,
                                              uint16_t b0, uint16_t b1,
                                              struct feedback_account account);

/*
 * Whether the PDCCHs answered in one uplink subframe keep out of each other's
 * PUCCH resources. A claim is one PDCCH, a grant or a release: position m * 256 +
 * first CCE, as FEEDBACK_CLAIM makes it. It has the resources that feedback_resource
 * gives: r with one port, r and r + 1 with two. A scheduled block makes no claim: its
 * resource is below N1, where no PDCCH has one.
 *
 *   settings   the settings of the cell, with the ports that the handsets of all these
 *              PDCCHs have; where some have one and some two, see below
 *   n          the uplink subframe of the replies, 0 to 9, one with a window
 *   claims     the list of claims, only read; aligned as C demands of uint16_t
 *   count      the number of claims
 *   scratch    bytes to work in, at least M * N_4 of them, with two ports M * N_4 + 1
 *              (FEEDBACK_SCRATCH_MOST are always enough)
 *   room       the number of bytes lent in scratch
 *
 * Clean if no two claims share a resource; else a clash, with the index (from 0) of the
 * first claim one of whose resources is one of an earlier claim's. With one port two
 * claims share a resource exactly if they are equal; with two also where the one's r is
 * next to the other's. The empty list is clean.
 *
 * Afterwards byte t of scratch, t below M * N_4, with two ports below M * N_4 + 1, is 1
 * if t + N1 is one of the resources of a claim before that index (of any claim, when
 * clean), else 0. Later bytes keep their values. What scratch held before does not
 * matter.
 *
 * One call has one number of ports, for all claims of its list. In a cell where some
 * handsets have one port and some two, give ports 2 (and so mode 0 and scheduled
 * FEEDBACK_NONE, whatever the handsets have). Every claim is then taken to have two
 * resources: a list that is clean so is clean whichever handsets it is for, but a clash
 * may be with a second resource on which a handset with one port does not send. With
 * ports 1 no second resource is looked at, and clean says nothing of them. To know
 * exactly, check two lists, the claims for handsets with one port with ports 1 and those
 * for handsets with two with ports 2, each in a scratch of its own: no two of all these
 * claims share a resource exactly if both lists are clean and no byte below M * N_4 is 1
 * in both scratches.
 *
 * Refuses 1 to 6, 17, 19, 24, 7, 15 and 16. If refused, all of scratch is as it was. 16
 * is given for a bad claim anywhere in the list, even after a clash, with the index of
 * the first bad one. A claim at the position of a special subframe too short for data is
 * not refused: a release may be there.
 *
 * A count or room of 0 is a list or scratch of length 0, and its pointer may then
 * be NULL; with any other length NULL is an error that no refusal catches, as is
 * a length beyond the memory lent. The two must not overlap, and nothing else may
 * write either during the call. Where they overlap all the same, the answer and the
 * marks may be wrong, and the list is written where it lies in the scratch, but nothing
 * outside of the scratch that is asked for.
 */
FEEDBACK_MUST_USE
struct feedback_claims_answer feedback_claims(struct feedback_settings settings, uint16_t n,
                                              const uint16_t *claims, size_t count,
                                              uint8_t *scratch, size_t room);

/*
 * The same with an eighth of the scratch: one bit for each resource, where
 * feedback_claims has a byte.
 *
 *   settings   the settings of the cell, with the ports as in feedback_claims
 *   n          the uplink subframe of the replies, 0 to 9, one with a window
 *   claims     the list of claims, only read; aligned as C demands of uint16_t
 *   count      the number of claims
 *   scratch    bytes to work in, at least (M * N_4 + 7) / 8 of them, with two ports
 *              (M * N_4 + 8) / 8, rounded down (FEEDBACK_BIT_SCRATCH_MOST are always
 *              enough)
 *   room       the number of bytes lent in scratch
 *
 * For every list and every room the answer is the one that feedback_claims gives with
 * 8 * room bytes: clean, or a clash with the same index, or the same refusal.
 *
 * Afterwards bit t modulo 8 (value 1 << t % 8) of byte t / 8 of scratch, t below
 * M * N_4, with two ports below M * N_4 + 1, is 1 if t + N1 is one of the resources of a
 * claim before the clash (of any claim, when clean), else 0. The bits of the last byte
 * that are left over, from M * N_4 on, with two ports from M * N_4 + 1, are 0. Bytes from
 * (M * N_4 + 7) / 8 on, with two ports from (M * N_4 + 8) / 8, rounded down, keep their
 * values. What scratch held before does not matter.
 *
 * Refuses 1 to 6, 17, 19, 24, 7, 15 and 16 as feedback_claims does, but 15 means that
 * room is below (M * N_4 + 7) / 8, with two ports (M * N_4 + 8) / 8, rounded down. If
 * refused, all of scratch is as it was.
 *
 * Of lengths of 0, NULL and memory that overlaps the same holds as for feedback_claims,
 * and of a cell where some handsets have one port and some two: there no bit below
 * M * N_4 is 1 in both scratches.
 */
FEEDBACK_MUST_USE
struct feedback_claims_answer feedback_claims_bits(struct feedback_settings settings, uint16_t n,
                                                   const uint16_t *claims, size_t count,
                                                   uint8_t *scratch, size_t room);

/*
 * A fresh handset. It expects subframe 0; the 13 subframes before it count as
 * unheard. To start elsewhere in the frame, set next: that is the state to which
 * as many feeds of nothing lead. When the mode changes, call feedback_change_mode; when
 * any other setting changes, make a fresh handset.
 *
 *   settings   the settings of the handset
 *
 * Refuses 1 to 6, 17, 19 and 24; nothing is made then, and the handset beside the refusal
 * is 74 zero bytes.
 */
FEEDBACK_MUST_USE
struct feedback_made feedback_make(struct feedback_settings settings);

/*
 * The mode changes between two subframes, while windows may be open.
 *
 *   handset    the state that feedback_make, or the feed, change or command before, answered
 *   mode       the new mode, one of enum feedback_mode
 *
 * The subframes that are fed from now on are fed in the new mode. Nothing else moves:
 * the handset expects the same subframe as before, and a window whose earliest subframe
 * was fed already is answered in the mode that stood then, however late. The mode counts
 * at the feed: of several changes between two feeds the last that is not refused counts,
 * and a change to the mode that stands changes nothing. Windows that begin before the
 * first feed are answered in the mode of feedback_make, also after a change that comes
 * before it. The station reads each reply in the mode of its window: see
 * feedback_reading.
 *
 * Refuses 4, 5 and 24 for the new mode with the other settings of the handset, then 8.
 * 24 is mode 1 for a handset with two ports; ports that are not 1 or 2 are 8 here. The
 * handset of the answer is then the one given, byte for byte: the old mode stands.
 */
FEEDBACK_MUST_USE
struct feedback_changed feedback_change_mode(struct feedback_handset handset, uint16_t mode);

/*
 * The next subframe brought nothing: nothing was sent, or it was lost, or the
 * subframe is uplink. Call one of the four feeds for every subframe, uplink ones
 * too, or feedback_silence in place of this one, or feed by feedback_command, and use the
 * handset of its answer for the next: after subframe 9 comes 0.
 * For subframes that the radio slept through feed nothing, once for each of them:
 * the handset knows where in the frame it is by counting its feeds. (13 of them, with
 * no change of mode among them, empty its memory: after so long a sleep a fresh handset
 * that is made in the mode that stands, with handset.settings, and next set is the same.)
 *
 *   handset    the state that feedback_make, or the feed, change or command before, answered
 *
 * In a downlink subframe the kind of the answer is FEEDBACK_KIND_TAKEN. In an
 * uplink subframe it is what to send in that very subframe: FEEDBACK_KIND_BUNDLED
 * or FEEDBACK_KIND_MULTIPLEXED with the resource and the bits, and with two ports the
 * second resource, FEEDBACK_KIND_SILENT, or FEEDBACK_KIND_NO_WINDOW. feedback_silence
 * answers the same and tells why a silent handset is silent.
 *
 * Refuses 8. The handset of the answer is then the one given, byte for byte.
 */
FEEDBACK_MUST_USE
struct feedback_fed feedback_feed_nothing(struct feedback_handset handset);

/*
 * The next subframe brought nothing, and if the handset is silent, why: the feed
 * feedback_feed_nothing, with the cause beside a silent answer. For a subframe call one
 * of the two, and use fed.handset for the next; or keep the handset that you gave to the
 * feed and ask for the cause with it later (fed.handset would tell of the next subframe).
 * The other feeds are never silent: in an uplink subframe they are refused 8 or 9.
 *
 *   handset    the state that feedback_make, or the feed, change or command before, answered:
 *              the one from before the silence
 *
 * All of fed is what feedback_feed_nothing answers. If that is not silent, cause is
 * FEEDBACK_CAUSE_NONE. If it is, in the mode of the window, one of two is the cause:
 *
 *   FEEDBACK_CAUSE_NOTHING_HEARD   exactly if U = 0 and no scheduled block was heard:
 *                                  nothing was sent in the window, or none of it was heard
 *   FEEDBACK_CAUSE_MISS_SHOWN      exactly if U is above 0 and v, which is V, is not
 *                                  expected, which is ((U - 1) mod 4) + 1
 *
 * The second is told of bundled windows in configurations 1 to 6 alone: a multiplexed
 * window is silent only if nothing was heard, and configuration 0 does not read the DAI.
 * Where the station counts by the rule of the DAI, it says that PDCCHs which were sent
 * before the last one heard were lost: as many as (v + 4 - expected) mod 4, up to a
 * multiple of 4, and exactly as many in windows of up to four subframes, which are all but
 * configuration 5's. feedback_cause_text (feedback_text.h) has both as a text for a log.
 *
 * Refuses 8. fed.handset is then the handset given, byte for byte.
 */
FEEDBACK_MUST_USE
struct feedback_silence_answer feedback_silence(struct feedback_handset handset);

/*
 * The next subframe brought a grant.
 *
 *   handset    the state that feedback_make, or the feed, change or command before, answered
 *   blocks     transport blocks carried, 1 to the setting's
 *   first      the first block, or the only one: decoded unless this is 0
 *   second     the second block: decoded unless this is 0; without effect on any
 *              reply if one block was carried
 *   cce        the first CCE of the grant, 0 to N_4 - 1
 *   dai        the DAI of the grant, 1 to 4 (in configuration 0 too, where no
 *              reply depends on it)
 *
 * The kind of the answer is FEEDBACK_KIND_TAKEN: only a downlink subframe can bring
 * a grant.
 *
 * Refuses 8, 9, 20, 10, 11 and 12. 20 is a grant in a special subframe too short for
 * data. The handset of the answer is then the one given, byte for byte: it still
 * expects the same subframe.
 */
FEEDBACK_MUST_USE
struct feedback_fed feedback_feed_grant(struct feedback_handset handset, uint16_t blocks,
                                        uint16_t first, uint16_t second, uint16_t cce,
                                        uint16_t dai);

/*
 * The next subframe brought a scheduled block, with no PDCCH. A block that the schedule
 * has in this subframe and that could not be decoded is fed here too, as not decoded:
 * then it is answered. After feedback_feed_nothing it is not.
 *
 *   handset    the state that feedback_make, or the feed, change or command before, answered
 *   blocks     transport blocks carried, 1 to the setting's
 *   first      the first block, or the only one: decoded unless this is 0
 *   second     the second block: decoded unless this is 0; without effect on any
 *              reply if one block was carried
 *
 * The kind of the answer is FEEDBACK_KIND_TAKEN: only a downlink subframe can bring
 * a scheduled block.
 *
 * Refuses 8, 9, 20, 10 and 18. 20 is a block in a special subframe too short for data.
 * 18 is a block with no resource set, or the second one that the handset heard in one
 * window; one that was lost does not count. The handset of the answer is then the one
 * given, byte for byte: it still expects the same subframe.
 */
FEEDBACK_MUST_USE
struct feedback_fed feedback_feed_scheduled(struct feedback_handset handset, uint16_t blocks,
                                            uint16_t first, uint16_t second);

/*
 * The next subframe brought a release: a PDCCH that releases the schedule. It counts as
 * a heard grant that decoded everything, its first CCE and its DAI included.
 *
 *   handset    the state that feedback_make, or the feed, change or command before, answered
 *   cce        the first CCE of the release, 0 to N_4 - 1
 *   dai        the DAI of the release, 1 to 4 (in configuration 0 too, where no
 *              reply depends on it)
 *
 * The handset keeps no schedule, and a release ends none in it: a scheduled block that
 * is fed later is not refused.
 *
 * The kind of the answer is FEEDBACK_KIND_TAKEN: only a downlink subframe can bring
 * a release, a special one too short for data as well.
 *
 * Refuses 8, 9, 11 and 12. The handset of the answer is then the one given, byte for
 * byte: it still expects the same subframe.
 */
FEEDBACK_MUST_USE
struct feedback_fed feedback_feed_release(struct feedback_handset handset, uint16_t cce,
                                          uint16_t dai);

/*
 * How much feedback_replay writes of a trace that it replays to the end, and at most of any
 * other, told before an output is lent to it: how many windows, and how many bytes.
 *
 *   trace      the bytes of the trace, only read; their layout is under TRACES
 *   length     the number of bytes of the trace
 *
 * windows is how many windows the records that the header names complete, those in which
 * the handset is silent too, and bytes is FEEDBACK_WINDOW_BYTES for each of them. Both are
 * 0 where no record completes a window: then feedback_replay takes an output of length 0.
 *
 * The answer comes from the header and the settings alone. No byte of a record counts, nor
 * any outside of the three parts: two traces of one length, with the same bytes in their
 * headers and the same in their settings, get the same answer. The whole trace is lent all
 * the same: a piece of it has not the header's length, and is refused 21.
 *
 * It is proved, for every trace that is not refused here (crates/sizing/specs/Sizing.antt):
 * where the kind of feedback_replay's answer is FEEDBACK_REPLAY_DONE, it wrote exactly so
 * many windows and so many bytes; where it is FEEDBACK_REPLAY_STOPPED, it wrote no more. An
 * output of so many bytes is never refused 23, and any shorter one is, unless 22 for a kind
 * over 3 comes before it. No smaller figures would do for this header and these settings:
 * of some trace with the same, in which every record brings nothing, the replay is done,
 * and writes just so much.
 *
 * Refuses 21 and 22, then 1 to 6, 17 and 19 for the settings of the trace, in this order
 * whatever the order of their bytes. 22 is given for the parts of the trace alone: kinds
 * over 3 are left to feedback_replay, which refuses them 22 before any record. A trace that
 * is refused here is refused there too, before any record and whatever the output: with
 * the same refusal, or with 22 for a kind over 3 in place of one that is for the settings.
 *
 * A length of 0 is a trace of length 0, and its pointer may then be NULL, as in
 * feedback_replay. Nothing else may write the trace during the call.
 */
FEEDBACK_MUST_USE
struct feedback_replay_size_answer feedback_replay_size(const uint8_t *trace, size_t length);

/*
 * The replies that a handset should have sent in a recorded drive.
 *
 *   trace      the bytes of the trace, only read; their layout is under TRACES
 *   length     the number of bytes of the trace
 *   out        bytes for the windows, at least as many as feedback_replay_size answers
 *              of this trace: FEEDBACK_WINDOW_BYTES for each window that the records
 *              complete (FEEDBACK_WINDOWS_MOST * FEEDBACK_WINDOW_BYTES are always
 *              enough)
 *   room       the number of bytes lent in out
 *
 * The same as to make a handset with the settings of the trace and one port, by
 * feedback_make, and to feed it what each record has, one by one, by the four feeds. Each
 * window that is answered is written to out, a silent one too. A feed that answers
 * FEEDBACK_KIND_TAKEN or FEEDBACK_KIND_NO_WINDOW writes nothing. The kinds in out are not
 * those of enum feedback_kind: 1 and 2 are the same, but 0 is silent.
 *
 * If all records are fed, the kind is FEEDBACK_REPLAY_DONE. If a feed is refused, the
 * replay stops there: the kind is FEEDBACK_REPLAY_STOPPED, the refusal that of the
 * feed, and record the number of that record, from 0. The windows before it stay in out.
 * Bytes of out behind the windows written keep their values.
 *
 * Refuses 21 and 22, then 1 to 6, 17 and 19 for the settings of the trace, in this order
 * whatever the order of their bytes, then 23; all before any record: then the kind is
 * FEEDBACK_REPLAY_REFUSED and all of out is as it was. 22 is given for a kind over 3 in
 * any record, 23 by the windows of all records that the header names, as
 * feedback_replay_size counts them, even where an earlier record will be refused. Then it
 * stops at a record for 9, 20, 10, 11, 12 and 18.
 *
 * A length or room of 0 is a trace or output of length 0, and its pointer may then be
 * NULL; with any other length NULL is an error that no refusal catches, as is a length
 * beyond the memory lent. The two must not overlap, and nothing else may write either
 * during the call. Where they overlap all the same, the answer and the windows may be
 * wrong, but nothing is written outside of out.
 */
FEEDBACK_MUST_USE
struct feedback_replay_answer feedback_replay(const uint8_t *trace, size_t length, uint8_t *out,
                                              size_t room);

/*
 * A record of a trace by its number. To read them all, count next up from 0 as long as
 * the kind is FEEDBACK_RECORD_READ. It is FEEDBACK_RECORD_END behind the last record; of a
 * trace that is refused it is FEEDBACK_RECORD_REFUSED, for its parts at every number.
 *
 *   trace      the bytes of the trace, only read; their layout is under TRACES
 *   length     the number of bytes of the trace
 *   next       the number of the record, from 0; any number may be given
 *
 * The answer's slot has the record. Fields and bits that its kind does not use are 0: of
 * a grant all fields are used, of a scheduled block results, of a release cce and dai,
 * of nothing none; of results bits 0 to 2, and bit 1 only with bit 2. Where the trace has
 * no such record the kind is FEEDBACK_RECORD_END.
 *
 * Refuses 21 and 22. 22 is given for the parts of the trace, and for the kind of this
 * record over 3; the kinds of other records and the settings are not looked at.
 *
 * A length of 0 is a trace of length 0, and its pointer may then be NULL, as in
 * feedback_replay. Nothing else may write the trace during the call.
 */
FEEDBACK_MUST_USE
struct feedback_record_answer feedback_record(const uint8_t *trace, size_t length, size_t next);

/*
 * A trace in its one spelling, so that recordings of a drive can be compared byte by byte.
 *
 *   trace      the bytes of the trace, only read; their layout is under TRACES
 *   length     the number of bytes of the trace
 *   out        bytes for the spelling, at least FEEDBACK_SPELLED_FIRST and
 *              FEEDBACK_TRACE_RECORD for each record (as many as length are always
 *              enough, and never more than FEEDBACK_SPELLED_MOST are written)
 *   room       the number of bytes lent in out
 *
 * A trace is accepted if feedback_replay, given room for its windows, replays it to the
 * end. Every accepted trace is written, as TRACES tells under spelling: the kind is
 * FEEDBACK_WRITE_DONE, and bytes how many bytes that are, 18 + 4 * records. Bytes of out
 * behind these keep their values.
 *
 * Two accepted traces are written as the same bytes exactly if their settings, their
 * numbers of records and the fields and bits that their records use are equal: of a grant
 * all fields, of a scheduled block results, of a release cce and dai, of nothing none; of
 * results bits 0 and 2, and bit 1 where bit 2 is set. What was written is an accepted
 * trace itself: written again it gives the same bytes, and its replay and its records are
 * those of the trace that it was written from.
 *
 * Refuses 21, 22, 1 to 6, 17 and 19 as feedback_replay does, for the kinds of all records
 * and the settings of the trace. Then, if a replay would stop at a record, the kind is
 * FEEDBACK_WRITE_STOPPED, the refusal the one that it would stop with, 9, 20, 10, 11, 12
 * or 18, and record the number of that record, from 0. Last of all comes 23, which here
 * means that room is below 18 + 4 * records; how many bytes the windows of a replay take
 * does not matter. If refused, all of out is as it was.
 *
 * A length or room of 0 is a trace or output of length 0, and its pointer may then be
 * NULL, as in feedback_replay. The two must not overlap, so a trace is not spelled in its
 * own place, and nothing else may write either during the call. Where they overlap all
 * the same, the answer and the bytes written may be wrong, but nothing is written outside
 * of out.
 */
FEEDBACK_MUST_USE
struct feedback_write_answer feedback_trace_write(const uint8_t *trace, size_t length, uint8_t *out,
                                                  size_t room);

/*
 * What losses can hide: whether a radio that loses grants can force that a handset sends a
 * bundled reply though a grant before the last one heard was lost, in a window of a size in
 * which the scheduler makes so many grants. From such a reply the station cannot tell that
 * any were lost; that is why feedback_confirmed, where more than four PDCCHs were sent up to
 * and with the one that is named, confirms of PDCCHs that one's blocks alone.
 *
 *   size       the subframes of the window, 1 to FEEDBACK_WINDOW_MOST: M
 *   grants     the grants in it, 0 to size
 *   losses     the most of them that are lost, 0 to FEEDBACK_LOSSES_MOST
 *
 * In each subframe of the window, in time order, first the scheduler grants or holds; then
 * the radio, which sees it, passes or loses the grant. The scheduler ends with exactly so
 * many grants. A release is a grant here, a scheduled block is none. The radio can force
 * the outcome if for every move of the scheduler, in each subframe, some answer of its own
 * leads there; otherwise the scheduler can prevent it. The handset replies by the rule of
 * configurations 1 to 6, whatever the size.
 *
 * It is proved that the radio can force it exactly if grants is at least 5 and losses at
 * least 4 (crates/playing/specs/Decided.antt): it loses the first four grants, after which
 * the DAI begins at 1 again, and passes the others. With fewer no play of the window ends
 * so, whatever both do. The same is proved of the windows that a handset answers, where
 * what the proof at feedback_reading needs holds (crates/hiding/specs/Hiding.antt): such a
 * reply hides four lost grants or eight, in configuration 5 alone, since no other has
 * windows of more than four subframes; and there a station that makes at most four grants
 * in a window, releases among them, gets none.
 *
 * Refuses 27: a size that is not 1 to FEEDBACK_WINDOW_MOST, grants over size, or losses over
 * FEEDBACK_LOSSES_MOST.
 */
FEEDBACK_MUST_USE
struct feedback_game_answer feedback_game(uint16_t size, uint16_t grants, uint16_t losses);

/*
 * A handset behind a register block: does the command that the block has, and tells the
 * level of the interrupt line.
 *
 *   handset    the state that feedback_make, or the feed, command or change before,
 *              answered
 *   block      the bytes of the block, read and written; their layout is under REGISTER
 *              BLOCK
 *   length     the number of bytes of the block, FEEDBACK_BLOCK_BYTES
 *
 * The command is byte 4:
 *
 *   FEEDBACK_COMMAND_NONE    does nothing; the answer tells the line, for instance after
 *                            the mask was written
 *   FEEDBACK_COMMAND_FEED    feeds the handset: the next subframe brought the record of
 *                            bytes 0 to 3
 *   FEEDBACK_COMMAND_CLEAR   drops, of bits 0 to 2 of byte 5, those that are set in byte 0
 *
 * A record is fed by the one of the four feeds that its kind names, and the handset of the
 * answer is that of the feed. Only what its kind uses counts, as in a trace: see
 * feedback_record. A window that is answered, a silent one too, is a reply: bytes 8 to 15
 * are then what feedback_replay writes of this window, with n the subframe that was fed
 * and, of a handset with two ports, the resource of the first; bit 0 of byte 5 is set, and
 * bit 2 too where bit 0 was set before the command. A subframe that is taken or has no
 * window changes no byte. A reply that is not silent is to be sent in the subframe that was
 * just fed: one that was overwritten before never reached the station.
 *
 * Only a clear drops flags, and nothing resets byte 4 or byte 7: a feed that is not refused
 * leaves bit 1 and the number of an earlier refusal there, this number and the reply in
 * bytes 8 to 15 stay until the next one comes, and a command that stays in byte 4 is done
 * again at the next call. Bits 3 to 7 of byte 5 and all of byte 6 keep their values, and so
 * do bytes 0 to 3.
 *
 * line is 1 where one of bits 0 to 2 is set both in byte 5 and in byte 6, judged after the
 * command, a refused one too; else it is 0, whatever bits 3 to 7 are.
 *
 * None and clear do not look at the handset: they refuse no state, and give back the one
 * that was lent, byte for byte. Nothing is kept between calls: lend the handset of the
 * answer to the next. The next call may also be a feed or a change of mode by its own call:
 * it changes no block, and its reply is in its own answer alone.
 *
 * It is proved, for every list of commands from a handset of feedback_make and a block of
 * zeros, with bytes 0 to 4 and 6 written as you like in between and no others: the handset
 * is always the one to which the feeds that were not refused lead, one by one, and bytes 5
 * and 7 to 15 are the flags, the last number and the last reply that these rules give
 * beside it (crates/registers/specs/Lists.antt). The feeds among the commands, refused ones
 * too but for those refused 22, with any feeds by their own calls and changes of mode in
 * between, are a run of feeds: what is proved of the replies of such a run, read by
 * feedback_reading, holds of those that the block shows (crates/commanded/specs/Run.antt).
 *
 * Refuses 29 and 28, and for a feed then 22, 8, 9, 20, 10, 11, 12 and 18. 29 is a length
 * that is not FEEDBACK_BLOCK_BYTES: no byte changes then, and line is 0. 28 is a command
 * that is not 0, 1 or 2. 22 is a kind over 3; for a clear byte 0 is no kind. The others are
 * those of the feed. A refusal other than 29 sets bit 1 of byte 5 and puts its number into
 * byte 7; no other bit or byte changes. The handset of the answer is the one given, byte
 * for byte: after a refused feed it still expects the same subframe.
 *
 * A length of 0 is refused 29, and block may then be NULL; with any other length NULL is an
 * error that no refusal catches, as is a length beyond the memory lent. Nothing else may
 * write the block during the call, nor read it, for its bytes are read and written as
 * memory, in no order that is told: registers that act by themselves are to be copied into
 * memory before the call, and out of it afterwards.
 */
FEEDBACK_MUST_USE
struct feedback_command_answer feedback_command(struct feedback_handset handset, uint8_t *block,
                                                size_t length);

/*
 * The number of the layout of the structs above is part of a name in the library,
 * and every object that includes this header refers to that name. So an object that
 * was compiled against another layout does not link: "undefined reference to
 * feedback_layout_.." with the number that it was compiled against. The reference is
 * a pointer that nobody uses; GCC and Clang keep it by the attribute used, and from
 * ld --gc-sections by retain, where they have it. With a compiler that has neither,
 * use FEEDBACK_LAYOUT_LINKED once in your code: its value is 1, and it refers to the
 * name in the same way. A program without the library, such as a test of your own,
 * needs a feedback_layout_5 of its own.
 */
FEEDBACK_MUST_USE
uint16_t feedback_layout_5(void);
#define FEEDBACK_LAYOUT_LINKED (feedback_layout_5() == 5)

#if defined(__GNUC__)
#if defined(__ELF__) && defined(__has_attribute)
#if __has_attribute(retain)
#define FEEDBACK_KEPT __attribute__((used, retain))
#endif
#endif
#ifndef FEEDBACK_KEPT
#define FEEDBACK_KEPT __attribute__((used))
#endif
static uint16_t (*const feedback_layout_kept)(void) FEEDBACK_KEPT = feedback_layout_5;
#undef FEEDBACK_KEPT
#endif

/* The layout that the library was built with; a compiler that lays out otherwise stops here. */
#if defined(__cplusplus) && __cplusplus >= 201103L
#define FEEDBACK_HOLDS(name, condition) static_assert(condition, #name);
#elif defined(__STDC_VERSION__) && __STDC_VERSION__ >= 201112L
#define FEEDBACK_HOLDS(name, condition) _Static_assert(condition, #name);
#else
#define FEEDBACK_HOLDS(name, condition) typedef char name[(condition) ? 1 : -1];
#endif
#define FEEDBACK_SIZE(type, size) \
    FEEDBACK_HOLDS(type##_has_##size##_bytes, sizeof(struct type) == size)
#define FEEDBACK_PLACE(type, field, place) \
    FEEDBACK_HOLDS(type##_has_##field##_at_##place, offsetof(struct type, field) == place)

FEEDBACK_SIZE(feedback_settings, 18)
FEEDBACK_PLACE(feedback_settings, config, 0)
FEEDBACK_PLACE(feedback_settings, nrb, 2)
FEEDBACK_PLACE(feedback_settings, n1, 4)
FEEDBACK_PLACE(feedback_settings, mode, 6)
FEEDBACK_PLACE(feedback_settings, blocks, 8)
FEEDBACK_PLACE(feedback_settings, scheduled, 10)
FEEDBACK_PLACE(feedback_settings, prefix, 12)
FEEDBACK_PLACE(feedback_settings, special, 14)
FEEDBACK_PLACE(feedback_settings, ports, 16)
FEEDBACK_SIZE(feedback_window_answer, 40)
FEEDBACK_PLACE(feedback_window_answer, refusal, 0)
FEEDBACK_PLACE(feedback_window_answer, size, 2)
FEEDBACK_PLACE(feedback_window_answer, k, 4)
FEEDBACK_PLACE(feedback_window_answer, order, 22)
FEEDBACK_SIZE(feedback_answered_answer, 8)
FEEDBACK_PLACE(feedback_answered_answer, refusal, 0)
FEEDBACK_PLACE(feedback_answered_answer, n, 2)
FEEDBACK_PLACE(feedback_answered_answer, k, 4)
FEEDBACK_PLACE(feedback_answered_answer, position, 6)
FEEDBACK_SIZE(feedback_resource_answer, 6)
FEEDBACK_PLACE(feedback_resource_answer, refusal, 0)
FEEDBACK_PLACE(feedback_resource_answer, resource, 2)
FEEDBACK_PLACE(feedback_resource_answer, second, 4)
FEEDBACK_SIZE(feedback_inverse_answer, 6)
FEEDBACK_PLACE(feedback_inverse_answer, refusal, 0)
FEEDBACK_PLACE(feedback_inverse_answer, position, 2)
FEEDBACK_PLACE(feedback_inverse_answer, cce, 4)
FEEDBACK_SIZE(feedback_reading_answer, 16)
FEEDBACK_PLACE(feedback_reading_answer, refusal, 0)
FEEDBACK_PLACE(feedback_reading_answer, kind, 2)
FEEDBACK_PLACE(feedback_reading_answer, position, 4)
FEEDBACK_PLACE(feedback_reading_answer, cce, 6)
FEEDBACK_PLACE(feedback_reading_answer, b0, 8)
FEEDBACK_PLACE(feedback_reading_answer, b1, 10)
FEEDBACK_PLACE(feedback_reading_answer, delivered, 12)
FEEDBACK_PLACE(feedback_reading_answer, scheduled, 14)
FEEDBACK_SIZE(feedback_sent, 16)
FEEDBACK_PLACE(feedback_sent, signalled, 0)
FEEDBACK_PLACE(feedback_sent, blocks, 2)
FEEDBACK_PLACE(feedback_sent, cce, 4)
FEEDBACK_PLACE(feedback_sent, dai, 6)
FEEDBACK_PLACE(feedback_sent, itbs0, 8)
FEEDBACK_PLACE(feedback_sent, nprb0, 10)
FEEDBACK_PLACE(feedback_sent, itbs1, 12)
FEEDBACK_PLACE(feedback_sent, nprb1, 14)
FEEDBACK_SIZE(feedback_sent_window, 144)
FEEDBACK_PLACE(feedback_sent_window, at, 0)
FEEDBACK_SIZE(feedback_confirmed_answer, 6)
FEEDBACK_PLACE(feedback_confirmed_answer, refusal, 0)
FEEDBACK_PLACE(feedback_confirmed_answer, first, 2)
FEEDBACK_PLACE(feedback_confirmed_answer, second, 4)
FEEDBACK_SIZE(feedback_account, 24)
FEEDBACK_PLACE(feedback_account, octets, 0)
FEEDBACK_PLACE(feedback_account, charged, 8)
FEEDBACK_PLACE(feedback_account, price, 16)
FEEDBACK_PLACE(feedback_account, carry, 20)
FEEDBACK_SIZE(feedback_opened, 32)
FEEDBACK_PLACE(feedback_opened, refusal, 0)
FEEDBACK_PLACE(feedback_opened, account, 8)
FEEDBACK_SIZE(feedback_credit_answer, 32)
FEEDBACK_PLACE(feedback_credit_answer, refusal, 0)
FEEDBACK_PLACE(feedback_credit_answer, octets, 4)
FEEDBACK_PLACE(feedback_credit_answer, account, 8)
FEEDBACK_SIZE(feedback_claims_answer, 16)
FEEDBACK_PLACE(feedback_claims_answer, refusal, 0)
FEEDBACK_PLACE(feedback_claims_answer, kind, 2)
FEEDBACK_PLACE(feedback_claims_answer, index, 8)
FEEDBACK_SIZE(feedback_slot, 4)
FEEDBACK_PLACE(feedback_slot, kind, 0)
FEEDBACK_PLACE(feedback_slot, cce, 1)
FEEDBACK_PLACE(feedback_slot, dai, 2)
FEEDBACK_PLACE(feedback_slot, results, 3)
FEEDBACK_SIZE(feedback_handset, 74)
FEEDBACK_PLACE(feedback_handset, settings, 0)
FEEDBACK_PLACE(feedback_handset, next, 18)
FEEDBACK_PLACE(feedback_handset, modes, 20)
FEEDBACK_PLACE(feedback_handset, past, 22)
FEEDBACK_SIZE(feedback_made, 76)
FEEDBACK_PLACE(feedback_made, refusal, 0)
FEEDBACK_PLACE(feedback_made, handset, 2)
FEEDBACK_SIZE(feedback_changed, 76)
FEEDBACK_PLACE(feedback_changed, refusal, 0)
FEEDBACK_PLACE(feedback_changed, handset, 2)
FEEDBACK_SIZE(feedback_fed, 86)
FEEDBACK_PLACE(feedback_fed, refusal, 0)
FEEDBACK_PLACE(feedback_fed, kind, 2)
FEEDBACK_PLACE(feedback_fed, resource, 4)
FEEDBACK_PLACE(feedback_fed, b0, 6)
FEEDBACK_PLACE(feedback_fed, b1, 8)
FEEDBACK_PLACE(feedback_fed, second, 10)
FEEDBACK_PLACE(feedback_fed, handset, 12)
FEEDBACK_SIZE(feedback_silence_answer, 92)
FEEDBACK_PLACE(feedback_silence_answer, fed, 0)
FEEDBACK_PLACE(feedback_silence_answer, cause, 86)
FEEDBACK_PLACE(feedback_silence_answer, v, 88)
FEEDBACK_PLACE(feedback_silence_answer, expected, 90)
FEEDBACK_SIZE(feedback_replay_size_answer, 8)
FEEDBACK_PLACE(feedback_replay_size_answer, refusal, 0)
FEEDBACK_PLACE(feedback_replay_size_answer, windows, 2)
FEEDBACK_PLACE(feedback_replay_size_answer, bytes, 4)
FEEDBACK_SIZE(feedback_replay_answer, 8)
FEEDBACK_PLACE(feedback_replay_answer, refusal, 0)
FEEDBACK_PLACE(feedback_replay_answer, kind, 2)
FEEDBACK_PLACE(feedback_replay_answer, record, 4)
FEEDBACK_PLACE(feedback_replay_answer, windows, 6)
FEEDBACK_SIZE(feedback_record_answer, 8)
FEEDBACK_PLACE(feedback_record_answer, refusal, 0)
FEEDBACK_PLACE(feedback_record_answer, kind, 2)
FEEDBACK_PLACE(feedback_record_answer, slot, 4)
FEEDBACK_SIZE(feedback_write_answer, 8)
FEEDBACK_PLACE(feedback_write_answer, refusal, 0)
FEEDBACK_PLACE(feedback_write_answer, kind, 2)
FEEDBACK_PLACE(feedback_write_answer, record, 4)
FEEDBACK_PLACE(feedback_write_answer, bytes, 6)
FEEDBACK_SIZE(feedback_game_answer, 4)
FEEDBACK_PLACE(feedback_game_answer, refusal, 0)
FEEDBACK_PLACE(feedback_game_answer, radio, 2)
FEEDBACK_SIZE(feedback_command_answer, 78)
FEEDBACK_PLACE(feedback_command_answer, refusal, 0)
FEEDBACK_PLACE(feedback_command_answer, line, 2)
FEEDBACK_PLACE(feedback_command_answer, handset, 4)
FEEDBACK_HOLDS(feedback_size_t_has_8_bytes, sizeof(size_t) == 8)

#undef FEEDBACK_PLACE
#undef FEEDBACK_SIZE
#undef FEEDBACK_HOLDS

#ifdef __cplusplus
}
#endif

/*
 * Settings from their numbers: an expression of type struct feedback_settings. A
 * number over 65535 becomes 65535, which every call refuses as the setting that it
 * is. The settings that came later and those of a version to come it fills in such a
 * way that the calls answer as they did before: scheduled with FEEDBACK_NONE, prefix
 * with FEEDBACK_PREFIX_NORMAL, special with 7, so that special subframes carry data, and
 * ports with 1. Code that uses it need not change. It is a call of a function, which C
 * does not allow where a static object gets its value.
 */
#define FEEDBACK_SETTINGS(config, nrb, n1, mode, blocks) \
    feedback_settings_of(config, nrb, n1, mode, blocks)

/*
 * A claim from its numbers: an expression of type uint16_t. Where one of them is over
 * 255 it is 65535, a claim that no window has: feedback_claims and feedback_claims_bits
 * refuse it with 16.
 */
#define FEEDBACK_CLAIM(position, cce) feedback_claim_of(position, cce)

/* The functions behind these two macros. */
static inline uint16_t feedback_setting_of(uint64_t number)
{
    return number < 65535u ? number & 65535u : 65535u;
}

static inline struct feedback_settings feedback_settings_of(uint64_t config, uint64_t nrb,
                                                            uint64_t n1, uint64_t mode,
                                                            uint64_t blocks)
{
    struct feedback_settings settings;
    settings.config = feedback_setting_of(config);
    settings.nrb = feedback_setting_of(nrb);
    settings.n1 = feedback_setting_of(n1);
    settings.mode = feedback_setting_of(mode);
    settings.blocks = feedback_setting_of(blocks);
    settings.scheduled = FEEDBACK_NONE;
    settings.prefix = FEEDBACK_PREFIX_NORMAL;
    settings.special = 7;
    settings.ports = 1;
    return settings;
}

static inline uint16_t feedback_claim_of(uint64_t position, uint64_t cce)
{
    return position < 256u && cce < 256u ? (position * 256u + cce) & 65535u : 65535u;
}

/*
 * A record of what was sent in a subframe. A number over 65535 becomes 65535, and so do 0
 * blocks, with which there would be no grant and no scheduled block: feedback_confirmed and
 * feedback_credit refuse that, an I_TBS or N_PRB only where they look at it. Of one block
 * itbs1 and nprb1 may be 0.
 */
static inline struct feedback_sent feedback_sent_scheduled(uint64_t blocks, uint64_t itbs0,
                                                           uint64_t nprb0, uint64_t itbs1,
                                                           uint64_t nprb1)
{
    struct feedback_sent sent;
    sent.signalled = 0;
    sent.blocks = feedback_setting_of(blocks == 0 ? 65535u : blocks);
    sent.cce = 0;
    sent.dai = 0;
    sent.itbs0 = feedback_setting_of(itbs0);
    sent.nprb0 = feedback_setting_of(nprb0);
    sent.itbs1 = feedback_setting_of(itbs1);
    sent.nprb1 = feedback_setting_of(nprb1);
    return sent;
}

static inline struct feedback_sent feedback_sent_grant(uint64_t blocks, uint64_t cce, uint64_t dai,
                                                       uint64_t itbs0, uint64_t nprb0,
                                                       uint64_t itbs1, uint64_t nprb1)
{
    struct feedback_sent sent = feedback_sent_scheduled(blocks, itbs0, nprb0, itbs1, nprb1);
    sent.signalled = 1;
    sent.cce = feedback_setting_of(cce);
    sent.dai = feedback_setting_of(dai);
    return sent;
}

static inline struct feedback_sent feedback_sent_release(uint64_t cce, uint64_t dai)
{
    struct feedback_sent sent = feedback_sent_grant(1, cce, dai, 0, 0, 0, 0);
    sent.blocks = 0;
    return sent;
}

static inline struct feedback_sent feedback_sent_nothing(void)
{
    struct feedback_sent sent = feedback_sent_release(0, 0);
    sent.signalled = 0;
    return sent;
}

#endif
