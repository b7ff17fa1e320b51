/*
 * A handset behind a register block: what a modem's driver does with it in two frames. The firmware
 * keeps the handset and does the command that the driver writes, by feedback_command. The driver
 * writes what each subframe brought. When the interrupt line is high it reads the flags, sees to
 * each that is set, and clears those that it has seen. For a while it masks replies, so that one is
 * overwritten unread.
 *
 * The registers are laid out as the comment of feedback.h says, under REGISTER BLOCK.
 */
#include "feedback.h"
#include "feedback_text.h"
#include <stdio.h>

/* ==== The device. The driver sees its registers and its line, and not the handset. ==== */

struct device {
    uint8_t registers[FEEDBACK_BLOCK_BYTES];
    unsigned line;
    struct feedback_handset handset;
};

/* The firmware, which the write of a command wakes. */
static void firmware(struct device *device)
{
    struct feedback_command_answer answer =
        feedback_command(device->handset, device->registers, sizeof device->registers);
    device->handset = answer.handset;
    device->line = answer.line;
}

/* ==== The driver ==== */

static void command(struct device *device, uint8_t number)
{
    device->registers[FEEDBACK_BLOCK_COMMAND] = number;
    firmware(device);
}

/* A reply that is read in subframe s. It is that of the last n, maybe in the frame before. */
static void show_reply(const uint8_t *reply, unsigned s)
{
    unsigned n = reply[0], kind = reply[1] == 0 ? FEEDBACK_KIND_SILENT : reply[1];
    printf("    reply of frame %u subframe %u: %s", s / 10 - (n > s % 10), n,
           feedback_kind_text(kind));
    if (kind != FEEDBACK_KIND_SILENT)
        printf(" Resource %u, bits %u %u.", reply[2] + 256u * reply[3], reply[4], reply[5]);
    puts("");
}

/* The interrupt. Only the flags that were seen are cleared; they are given back. */
static unsigned interrupt(struct device *device, unsigned s)
{
    const uint8_t seen = device->registers[FEEDBACK_BLOCK_FLAGS];
    if (seen & FEEDBACK_FLAG_REFUSED)
        printf("    %s\n", feedback_refusal_text(device->registers[FEEDBACK_BLOCK_REFUSAL]));
    if (seen & FEEDBACK_FLAG_OVERWRITTEN)
        puts("    a reply was overwritten unread");
    if (seen & FEEDBACK_FLAG_READY)
        show_reply(device->registers + FEEDBACK_BLOCK_REPLY, s);
    device->registers[FEEDBACK_BLOCK_DROPPED] = seen;
    command(device, FEEDBACK_COMMAND_CLEAR);
    return seen;
}

/* From here on these flags interrupt. The command of none tells whether one does at once. */
static void unmask(struct device *device, unsigned s, uint8_t flags)
{
    printf("frame %u subframe %u: interrupts by %s\n", s / 10, s % 10,
           flags & FEEDBACK_FLAG_READY ? "every flag" : "refusals alone");
    device->registers[FEEDBACK_BLOCK_MASK] = flags;
    command(device, FEEDBACK_COMMAND_NONE);
    if (device->line)
        interrupt(device, s);
}

/* What subframe s brought. Gives back the flags of the interrupt, 0 where there is none. */
static unsigned feed(struct device *device, unsigned s, struct feedback_slot brought)
{
    printf("frame %u subframe %u: %s\n", s / 10, s % 10, feedback_slot_kind_text(brought.kind));
    device->registers[FEEDBACK_BLOCK_KIND] = brought.kind;
    device->registers[FEEDBACK_BLOCK_CCE] = brought.cce;
    device->registers[FEEDBACK_BLOCK_DAI] = brought.dai;
    device->registers[FEEDBACK_BLOCK_RESULTS] = brought.results;
    command(device, FEEDBACK_COMMAND_FEED);
    return device->line ? interrupt(device, s) : 0;
}

/* Two blocks, by the bits of those that were decoded. */
#define TWO(decoded) (FEEDBACK_TWO_CARRIED | (decoded))

/* Configuration 1: subframe 2 answers for 5 and 6, 3 for 9, 7 for 0 and 1, and 8 for 4. */
static const struct feedback_slot drive[20] = {
    [0] = {FEEDBACK_SLOT_GRANT, 5, 1, TWO(FEEDBACK_FIRST_DECODED | FEEDBACK_SECOND_DECODED)},
    [1] = {FEEDBACK_SLOT_GRANT, 12, 2, TWO(FEEDBACK_FIRST_DECODED)},
    [4] = {FEEDBACK_SLOT_SCHEDULED, 0, 0, FEEDBACK_FIRST_DECODED},
    /* the grant of 5, with DAI 1, was lost, as the next one's DAI shows: silent in 2 */
    [6] = {FEEDBACK_SLOT_GRANT, 3, 2, FEEDBACK_FIRST_DECODED},
    [8] = {FEEDBACK_SLOT_GRANT, 20, 1, FEEDBACK_FIRST_DECODED}, /* a false alarm: 8 is uplink */
    [9] = {FEEDBACK_SLOT_RELEASE, 30, 1, 0},
    [11] = {FEEDBACK_SLOT_GRANT, 8, 1, TWO(FEEDBACK_SECOND_DECODED)},
    [14] = {FEEDBACK_SLOT_GRANT, 17, 1, FEEDBACK_FIRST_DECODED},
};

int main(void)
{
    static const struct feedback_slot nothing = {FEEDBACK_SLOT_NOTHING, 0, 0, 0};
    static const uint8_t all =
        FEEDBACK_FLAG_READY | FEEDBACK_FLAG_REFUSED | FEEDBACK_FLAG_OVERWRITTEN;
    struct feedback_settings settings = FEEDBACK_SETTINGS(1, 50, 300, FEEDBACK_MODE_BUNDLING, 2);
    settings.scheduled = 7;
    struct feedback_made made = feedback_make(settings);
    if (made.refusal != 0) {
        puts(feedback_refusal_text(made.refusal));
        return 1;
    }
    struct device device = {.handset = made.handset}; /* its registers are zeros */
    unmask(&device, 0, all);
    for (unsigned s = 0; s < 20; s++) {
        if (s == 15)
            unmask(&device, s, FEEDBACK_FLAG_REFUSED);
        if (s == 19)
            unmask(&device, s, all);
        if (feed(&device, s, drive[s]) & FEEDBACK_FLAG_REFUSED)
            feed(&device, s, nothing); /* the handset still expects this subframe */
    }
    return 0;
}
