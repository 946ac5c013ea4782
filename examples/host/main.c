/* Four units of a cascade in one program, over a radio that is played from a list. Unit 3 is faulty: it says two things in one slot, and a
 * third; units that hear that note it. Unit 2 loses power between a call and its sending, and restarts; an installer then looks at its display.
 * In the end a new day begins, and each unit heats by one setpoint of all, although the sensors of unit 3 are swapped.
 *
 * The first half is to copy: open_day, announce, follow_setpoint, take, restart, show and preview face the library. The second half stands in
 * for a unit's hardware, the radio, the key chip and the clock, for what the site has set, and for the faulty unit. README.md says more;
 * sections are those of include/mbrb.h.
 */
#include "mbrb.h"

#include <inttypes.h>
#include <stdbool.h>
#include <stdio.h>
#include <string.h>

/* The same at all units. */
#define UNITS 4
#define FAULTS 1
#define LOSSES 0

/* What a unit saves, as one block: the records, their day and quorum beside them, and what the last call gave to do. There is one `out`: the next
 * call comes when send_if_due and act_if_due are back, and a host that does not wait for its radio keeps a list of them. The signatures of
 * section 6 belong here too, and the rest of the table if it can change; the simulated key chip below keeps the signatures. */
struct block {
    uint32_t day;
    uint32_t quorum; /* the site's for this day: a new one comes with a new day, and never within one */
    uint8_t records[MBRB_RECORDS_SIZE(UNITS)];
    uint8_t out[MBRB_BUNDLE_SIZE];
    bool to_send;   /* `out` may not have been sent yet */
    bool to_act_on; /* its body was delivered, and may not have been acted on */
    bool stopped;   /* section 8: no more calls on these records */
};

struct unit {
    uint8_t own;
    struct block now;   /* working memory */
    struct block saved; /* memory that outlives a restart */
};

/* The unit's hardware, and what its site has set. What is sent goes to all units, the sending one among them. */
static void send(uint8_t from, const uint8_t *bundle);
static void check_signatures(uint8_t *bundle);
static void act_on(uint8_t own, const uint8_t *body);
static void set_curve(uint8_t own, int16_t hundredths);
static void tell_installer(uint8_t own, uint8_t sender);
static uint32_t clock_day(void);
static uint32_t quorum_for(uint32_t day);
static bool power_fails(const struct unit *unit);

static void print_degrees(int16_t hundredths);
static void print_slot(uint8_t sender, uint32_t number, const uint8_t *body);
static void print_signers(const uint8_t *signers);
static void print_bundle(const uint8_t *arrived, const uint8_t *checked);

/* ---- A sound unit: the parts to copy */

/* All or nothing. Firmware writes a second copy and then a mark that makes it the valid one, or a journal of single records. The last day that
 * was opened it keeps a second time elsewhere, for when the block is lost (section 5). */
static void save(struct unit *unit)
{
    unit->saved = unit->now;
}

/* Section 4: a day is opened where the clock's is later than the block's, and at a unit that is new. It is never opened again: a clock that was
 * set back opens nothing. Firmware tests that the clock is not far ahead. What quorum the site has set for the day is asked here alone: from now
 * on the calls get the block's. */
static void open_day(struct unit *unit, bool is_new)
{
    const uint32_t day = clock_day(), quorum = quorum_for(day);
    uint32_t code;

    if (!is_new && day <= unit->now.day)
        return;
    code = mbrb_open(UNITS, FAULTS, LOSSES, unit->own, day, quorum, unit->now.records, sizeof unit->now.records);
    if (code == MBRB_OPENED) {
        unit->now.day = day;
        unit->now.quorum = quorum;
        unit->now.to_send = false; /* of yesterday */
        if (is_new)
            unit->now.to_act_on = false;
        unit->now.stopped = false;
        save(unit);
    }
    printf("unit %d opens day %" PRIu32 ": %" PRIu32 "\n", unit->own, day, code);
}

/* What the last call gave to do is done, and written down as done. If power fails between the two, restart does it again: to take the lead
 * twice does no harm (where it would, write it down before acting), and the same bytes may be sent twice. */
static void act_if_due(struct unit *unit)
{
    if (unit->now.to_act_on) {
        act_on(unit->own, unit->now.out + MBRB_BODY_AT);
        unit->now.to_act_on = false;
        save(unit);
    }
}

static void send_if_due(struct unit *unit)
{
    if (unit->now.to_send) {
        send(unit->own, unit->now.out);
        unit->now.to_send = false;
        save(unit);
    }
}

/* Section 8: after 21, and after 23 on signatures that were checked, the records are not what this unit has signed. */
static void stop_if_lost(struct unit *unit, uint32_t code)
{
    if (code == MBRB_UNSOUND_RECORD || code == MBRB_OWN_SIGNATURE_UNKNOWN) {
        unit->now = unit->saved; /* what is damaged is not saved */
        unit->now.stopped = true;
        unit->now.to_send = false; /* it is silent from now on */
        save(unit);
    }
}

/* Section 13: the heating curve follows one setpoint of all units, by what this one has delivered. What is asked for here is never saved: the
 * records are, and restart asks again. With too few setpoints the curve stays as it is. */
static void follow_setpoint(struct unit *unit)
{
    uint32_t code;

    if (unit->now.stopped)
        return;
    code = mbrb_setpoint(UNITS, FAULTS, LOSSES, unit->own, unit->now.day, unit->now.quorum, unit->now.records, sizeof unit->now.records);
    if (MBRB_IS_SETPOINT(code)) {
        printf("unit %d heats by ", unit->own);
        print_degrees(MBRB_SETPOINT(code));
        printf(": %" PRIu32 "\n", code);
        set_curve(unit->own, MBRB_SETPOINT(code));
    } else if (code == MBRB_TOO_FEW_SETPOINTS) {
        printf("unit %d keeps its curve: %" PRIu32 " too few setpoints\n", unit->own, code);
    } else {
        /* A mistake in this unit: a wrong table or length, or records written over. */
        printf("unit %d cannot ask for a setpoint: %" PRIu32 "\n", unit->own, code);
        stop_if_lost(unit, code);
    }
}

/* After the codes that have something to send: first safe, then sent. */
static void save_and_send(struct unit *unit, bool delivered)
{
    unit->now.to_send = true;
    unit->now.to_act_on = delivered;
    save(unit);
    if (power_fails(unit))
        return;
    send_if_due(unit);
    act_if_due(unit);
    if (delivered)
        follow_setpoint(unit);
}

static void announce(struct unit *unit, const uint8_t *body)
{
    uint32_t code;

    open_day(unit, false);
    if (unit->now.stopped)
        return;
    code = mbrb_broadcast(UNITS, FAULTS, LOSSES, unit->own, unit->now.day, unit->now.quorum, body, MBRB_BODY_SIZE,
                          unit->now.records, sizeof unit->now.records, unit->now.out, sizeof unit->now.out);
    if (MBRB_IS_ANNOUNCED(code)) {
        printf("unit %d announces ", unit->own);
        print_slot(unit->own, MBRB_NUMBER(code), body);
        printf(": %" PRIu32 " announced\n", code);
        save_and_send(unit, false);
    } else if (code == MBRB_NO_FREE_NUMBER) {
        printf("unit %d has used its sixteen numbers: %" PRIu32 "\n", unit->own, code);
    } else {
        /* A mistake in this unit: a wrong table or length, or records written over. */
        printf("unit %d cannot announce: %" PRIu32 "\n", unit->own, code);
        stop_if_lost(unit, code);
    }
}

/* A setpoint is announced as any body is; by its three bytes all units know it for one. */
static void announce_setpoint(struct unit *unit, int16_t hundredths)
{
    const uint8_t body[MBRB_BODY_SIZE] = {MBRB_SETPOINT_TAG, (uint8_t)((uint16_t)hundredths >> 8), (uint8_t)hundredths};

    announce(unit, body);
}

/* The code of a taken bundle in words, and what each is for. */
static const char *in_words(uint32_t code)
{
    switch (code) {
    case MBRB_KEPT:
        /* Nothing to send. The record has changed; it is saved with the next that must be. */
        return "kept";
    case MBRB_SIGNED:
        return "signed";
    case MBRB_DELIVERED:
        /* Once for each slot, and never with different bodies at two sound units. */
        return "delivered";
    case MBRB_ALREADY_DELIVERED:
        /* Usual: the other units send on what they deliver. */
        return "refused, delivered already";
    case MBRB_NOTED:
        /* The sender signed this body and the one that we hold, so it is faulty: take tells the installer. Nothing to send. The record has
         * changed, for a display; it is saved with the next that must be. The slot may still be delivered. */
        return "noted, its sender said two things";
    case MBRB_OTHER_BODY:
        /* Another body is noted already: the installer is told, and nothing has changed. */
        return "refused, its sender said a third thing";
    case MBRB_OTHER_DAY:
        /* A late bundle of yesterday, or a unit whose clock is wrong. */
        return "refused, of another day";
    case MBRB_BUNDLE_LENGTH:
    case MBRB_RESERVED_BYTES:
    case MBRB_SENDER_RANGE:
    case MBRB_NUMBER_RANGE:
    case MBRB_SIGNER_RANGE:
    case MBRB_SENDER_UNSIGNED:
        /* Noise, or a faulty unit. */
        return "refused, not a bundle to use";
    case MBRB_OWN_SIGNATURE_UNKNOWN:
    case MBRB_UNSOUND_RECORD:
        /* Section 8: no more calls on these records until the next day; take sees to it. */
        return "refused, our records are lost";
    default:
        /* MBRB_BAD_TABLE, MBRB_OUT_LENGTH, MBRB_RECORDS_LENGTH: a mistake in this program. */
        return "refused, called wrongly";
    }
}

/* Section 12: after a delivery, whether our record held another body until then. What goes out has our bit otherwise. */
static bool in_place_of_held(const struct unit *unit)
{
    return (unit->now.out[MBRB_SIGNERS_AT + 7] >> unit->own & 1) == 0;
}

/* `arrived` is the bundle of a frame, 32 bytes. The signatures come beside it in the frame, and go to the key chip. */
static void take(struct unit *unit, const uint8_t *arrived)
{
    uint8_t bundle[MBRB_BUNDLE_SIZE];
    uint32_t code;

    open_day(unit, false);
    if (unit->now.stopped)
        return;
    /* A copy, of the signatures beside it too: nobody may write to the bundle during the call, and a radio fills its own buffer when it likes. */
    memcpy(bundle, arrived, sizeof bundle);
    check_signatures(bundle);
    code = mbrb_receive(UNITS, FAULTS, LOSSES, unit->own, unit->now.day, unit->now.quorum, bundle, sizeof bundle,
                        unit->now.records, sizeof unit->now.records, unit->now.out, sizeof unit->now.out);

    printf("unit %d takes ", unit->own);
    print_bundle(arrived, bundle);
    printf(": %" PRIu32 " %s\n", code, in_words(code));
    if (code == MBRB_SIGNED || code == MBRB_DELIVERED)
        save_and_send(unit, code == MBRB_DELIVERED);
    if (code == MBRB_NOTED || code == MBRB_OTHER_BODY || (code == MBRB_DELIVERED && in_place_of_held(unit)))
        tell_installer(unit->own, bundle[MBRB_SENDER_AT]);
    stop_if_lost(unit, code);
}

/* Section 5, by its steps. Firmware that cannot load the block does what stands there under "A lost block". */
static void restart(struct unit *unit)
{
    unit->now = unit->saved; /* 1. load the block */
    printf("unit %d restarts on day %" PRIu32 "%s%s\n", unit->own, unit->now.day, unit->now.to_act_on ? ", to act" : "",
           unit->now.to_send ? ", to send" : "");
    act_if_due(unit);      /* 2. act on what is still to be acted on, whatever the day */
    follow_setpoint(unit); /*    and set the curve, which is not in the block */
    open_day(unit, false); /* 3. compare its day with the clock's; 4. the same day is not opened again */
    send_if_due(unit);     /* 5. send what is still to be sent; 6. go on */
}

/* Section 12: a record has a note, of a second body in its slot, where it has noted signers. */
static bool has_note(const uint8_t *record)
{
    static const uint8_t nobody[8];

    return memcmp(record + MBRB_NOTED_SIGNERS_AT, nobody, sizeof nobody) != 0;
}

/* What is delivered or noted stays in the records until the day is over, for a display. Firmware acts in act_on and follow_setpoint, and not on
 * this. */
static void show(const struct unit *unit)
{
    for (uint8_t sender = 0; sender < UNITS; sender++)
        for (uint8_t number = 0; number < MBRB_NUMBERS; number++) {
            const uint8_t *record = unit->now.records + MBRB_RECORD_AT(sender, number);
            if (record[0] == MBRB_RECORD_DELIVERED) {
                printf("unit %d has delivered ", unit->own);
                print_slot(sender, number, record + MBRB_BODY_AT);
                print_signers(record + MBRB_SIGNERS_AT);
                putchar('\n');
            }
            if (has_note(record)) {
                printf("unit %d has noted ", unit->own);
                print_slot(sender, number, record + MBRB_NOTED_BODY_AT);
                print_signers(record + MBRB_NOTED_SIGNERS_AT);
                putchar('\n');
            }
        }
}

/* Section 12: for a display, what taking a bundle would do now. The unit stays as it is, and `out` is the display's: nothing in it is
 * saved, sent or acted on. What a code asks for is done by take, when it gives it. */
static void preview(const struct unit *unit, const uint8_t *arrived)
{
    uint8_t bundle[MBRB_BUNDLE_SIZE], out[MBRB_BUNDLE_SIZE];
    uint32_t code;

    if (unit->now.stopped || clock_day() > unit->now.day)
        return; /* take makes no call, or opens a new day first */
    memcpy(bundle, arrived, sizeof bundle);
    check_signatures(bundle);
    code = mbrb_preview(UNITS, FAULTS, LOSSES, unit->own, unit->now.day, unit->now.quorum, bundle, sizeof bundle,
                        unit->now.records, sizeof unit->now.records, out, sizeof out);

    printf("unit %d shows ", unit->own);
    print_bundle(arrived, bundle);
    printf(": %" PRIu32 " would be %s", code, in_words(code));
    if (code == MBRB_SIGNED || code == MBRB_DELIVERED) {
        printf(", then");
        print_signers(out + MBRB_SIGNERS_AT);
    }
    putchar('\n');
}

/* ---- The clock, the site's quorum, the power, the radio and the key chip, simulated */

static uint32_t day_of_clock = 7;
static const struct unit *without_power; /* it fails after the next save of this unit */

static int acted[UNITS]; /* on how many bodies each unit has acted */

static uint32_t clock_day(void)
{
    return day_of_clock;
}

/* What the site has set for this day, at all units alike: here the least on every day. A stricter site takes another one, up to
 * MBRB_MOST_QUORUM(UNITS, FAULTS, LOSSES); that of this table is 3, as the least is. A change names the day from which it holds, and is known to
 * all units before the first of them opens that day. */
static uint32_t quorum_for(uint32_t day)
{
    (void)day;
    return MBRB_LEAST_QUORUM(UNITS, FAULTS);
}

/* Here the unit takes the lead, or its turn to defrost. For a setpoint there is nothing to do: no unit heats by that of one other. */
static void act_on(uint8_t own, const uint8_t *body)
{
    (void)body;
    acted[own]++;
}

/* Here the heating curve gets the setpoint. Until the first one comes it has the unit's own. */
static void set_curve(uint8_t own, int16_t hundredths)
{
    (void)own;
    (void)hundredths;
}

/* Here the unit's display, or the service line, names the unit that says two things. Firmware tells it once a day, and not at each bundle. */
static void tell_installer(uint8_t own, uint8_t sender)
{
    printf("unit %d tells the installer of unit %d\n", own, sender);
}

static bool power_fails(const struct unit *unit)
{
    if (unit != without_power)
        return false;
    without_power = NULL;
    printf("unit %d loses power\n", unit->own);
    return true;
}

#define SIGNER(unit) (1u << (unit))

static struct {
    uint8_t from;
    uint8_t bundle[MBRB_BUNDLE_SIZE];
} sent[40];
static size_t sent_count;

/* Here the key chip adds the signatures that the bits name, and the radio sends them with the bundle. */
static void send(uint8_t from, const uint8_t *bundle)
{
    if (sent_count == sizeof sent / sizeof sent[0]) {
        puts("the list of sent bundles is full");
        return;
    }
    sent[sent_count].from = from;
    memcpy(sent[sent_count].bundle, bundle, MBRB_BUNDLE_SIZE);
    sent_count++;
}

/* Signers are 8 bytes, the high byte first: units 0 to 7 are in the last one. */
static bool is_among(const uint8_t *signers, uint8_t unit)
{
    return (signers[7 - unit / 8] & SIGNER(unit % 8)) != 0;
}

static bool has_signed(const uint8_t *bundle, uint8_t unit)
{
    return is_among(bundle + MBRB_SIGNERS_AT, unit);
}

/* A signature of the unit on this day, sender, number and body exists once the unit has sent one. */
static bool signature_exists(const uint8_t *bundle, uint8_t unit)
{
    for (size_t i = 0; i < sent_count; i++) {
        const uint8_t *other = sent[i].bundle;
        if (sent[i].from == unit && has_signed(other, unit) && memcmp(other, bundle, MBRB_SIGNERS_AT) == 0
            && memcmp(other + MBRB_BODY_AT, bundle + MBRB_BODY_AT, MBRB_BODY_SIZE) == 0)
            return true;
    }
    return false;
}

/* Here the key chip checks each signature that came with the bundle; the bit of each that does not hold is cleared. The library sees the
 * bits alone: without this step a faulty unit makes up a quorum by itself. */
static void check_signatures(uint8_t *bundle)
{
    for (uint8_t u = 0; u < UNITS; u++) {
        uint8_t *bits = &bundle[MBRB_SIGNERS_AT + 7 - u / 8];
        if (has_signed(bundle, u) && !signature_exists(bundle, u))
            *bits = (uint8_t)(*bits & ~SIGNER(u % 8));
    }
}

/* The sign by itself: -5 hundredths have a whole part of 0, which has none. */
static void print_degrees(int16_t hundredths)
{
    const int amount = hundredths < 0 ? -hundredths : hundredths;

    printf("%s%d.%02d C", hundredths < 0 ? "-" : "", amount / 100, amount % 100);
}

static bool is_setpoint(const uint8_t *body)
{
    static const uint8_t zeros[MBRB_BODY_SIZE];

    return body[0] == MBRB_SETPOINT_TAG && memcmp(body + MBRB_SETPOINT_AT + 2, zeros, MBRB_BODY_SIZE - MBRB_SETPOINT_AT - 2) == 0;
}

/* A body is a setpoint or text. */
static void print_slot(uint8_t sender, uint32_t number, const uint8_t *body)
{
    printf("%d/%" PRIu32 " ", sender, number);
    if (is_setpoint(body)) {
        printf("setpoint ");
        print_degrees(MBRB_SETPOINT((uint32_t)body[MBRB_SETPOINT_AT] << 8 | body[MBRB_SETPOINT_AT + 1]));
    } else {
        printf("\"%.*s\"", MBRB_BODY_SIZE, (const char *)body);
    }
}

static void print_signers(const uint8_t *signers)
{
    printf(" signed by");
    for (uint8_t u = 0; u < UNITS; u++)
        if (is_among(signers, u))
            printf(" %d", u);
}

static void print_bundle(const uint8_t *arrived, const uint8_t *checked)
{
    print_slot(arrived[MBRB_SENDER_AT], arrived[MBRB_NUMBER_AT], arrived + MBRB_BODY_AT);
    print_signers(checked + MBRB_SIGNERS_AT);
    for (uint8_t u = 0; u < UNITS; u++)
        if (has_signed(arrived, u) && !has_signed(checked, u))
            printf(", not by %d", u);
}

/* ---- Unit 3, which keeps to no rule and does not call the library */

#define LIAR 3
#define BODY(text) ((const uint8_t *)(text)) /* 16 characters */

static const uint8_t forged[MBRB_BODY_SIZE] = {MBRB_SETPOINT_TAG, 0x25, 0x1c};  /* 95.00 C */
static const uint8_t swapped[MBRB_BODY_SIZE] = {MBRB_SETPOINT_TAG, 0xff, 0xfb}; /* -0.05 C */

static void lie(uint8_t sender, unsigned signers, const uint8_t *body)
{
    uint8_t bundle[MBRB_BUNDLE_SIZE] = {0};

    bundle[MBRB_DAY_AT + 3] = (uint8_t)clock_day();
    bundle[MBRB_SENDER_AT] = sender;
    bundle[MBRB_SIGNERS_AT + 7] = (uint8_t)signers;
    memcpy(bundle + MBRB_BODY_AT, body, MBRB_BODY_SIZE);
    printf("unit %d says ", LIAR);
    print_bundle(bundle, bundle);
    putchar('\n');
    send(LIAR, bundle);
}

/* It repeats the signatures that it hears, adds its own, and claims unit 2's, which would make a quorum. */
static void hear(const uint8_t *bundle)
{
    lie(bundle[MBRB_SENDER_AT], bundle[MBRB_SIGNERS_AT + 7] | SIGNER(2) | SIGNER(LIAR), bundle + MBRB_BODY_AT);
}

/* ---- The run */

/* Which sent bundle arrives where, in this order. With LOSSES 0, what a sound unit sends reaches units 0, 1 and 2. Its bytes count,
 * whoever brings them: 11 and 12 are the bytes of 10, and 13 and 14 those of 9, so none of these arrives everywhere by itself. What unit 3
 * sends reaches whom it will. */
static const struct arrival {
    uint8_t bundle;
    uint8_t unit;
} arrivals[] = {
    {0, 1}, {1, 1},         /* unit 1 sends 5, the setpoint signed by 0 1, and 6, lead 1 signed by 1 3 */
    {2, 0}, {2, 0},         /* unit 0 sends 7, lead 2 signed by 0 3; then the same once more */
    {3, 2},                 /* unit 0 has not signed this */
    {6, 3}, {8, 0},         /* unit 3 sends 8, lead 1 with a quorum that it made up; unit 0 has signed lead 2, and notes lead 1 */
    {7, 1}, {4, 1},         /* unit 1 has signed lead 1, and 2 signers are no quorum for lead 2, which it notes; lead 0 is the third */
    {5, 2}, {7, 2},         /* unit 2 has heard neither sender yet; after its restart it sends 9, signed by 0 1 2, then 10, signed by 0 2 3 */
    {2, 2},                 /* late */
    {10, 1},                /* a quorum for lead 2: unit 1 delivers what it has not signed, sends 11, and notes what it had signed */
    {6, 0}, {11, 0},        /* unit 0 sends 12 */
    {0, 0}, {5, 0}, {9, 0}, /* its own announcement comes back, with more and more signers; it sends 13 */
    {13, 1},                /* unit 1 sends 14 */
    {0, 2}, {5, 1}, {14, 2}, {6, 1}, {6, 2}, {7, 0}, {12, 2}, /* late */
};

/* The next day: bundles 15 to 18 are the setpoints that units 0 to 3 have announced, 22.00, 21.50, 21.00 and -0.05 C. */
static const struct arrival arrivals_of_day_8[] = {
    {15, 1}, {16, 2}, {17, 0}, {18, 0}, /* each is signed by another unit: unit 1 sends 19, unit 2 sends 20, unit 0 sends 21 and 22 */
    {19, 2}, {20, 0}, {21, 1},          /* a sound unit's setpoint is delivered at each; they send 23, 24 and 25 */
    {22, 1}, {26, 2}, {26, 0},          /* that of unit 3 too, of which unit 1 has sent 26; two setpoints are too few */
    {23, 0}, {23, 1},                   /* three: another one is in the middle at unit 0 than at unit 1, for now */
    {24, 1}, {24, 2}, {25, 2}, {25, 0}, /* four at each: all heat by the same one */
};

#define LOSES_POWER 9 /* the place in the list above at which unit 2 loses power, and all that was not saved */
#define LOOKED_AT 10  /* the place of the bundle that an installer sees waiting there, on the display of unit 2 */

int main(void)
{
    struct unit units[LIAR] = {{0}}; /* the sound ones: 0, 1 and 2 */

    for (uint8_t u = 0; u < LIAR; u++) {
        units[u].own = u;
        open_day(&units[u], true); /* new, at its installation; any other start is restart() */
    }

    announce_setpoint(&units[0], 2150);                /* bundle 0 */
    lie(LIAR, SIGNER(LIAR), BODY("lead is unit 1  ")); /* bundle 1, for unit 1 */
    lie(LIAR, SIGNER(LIAR), BODY("lead is unit 2  ")); /* bundle 2, for units 0 and 2 */
    lie(0, SIGNER(0) | SIGNER(LIAR), forged);          /* bundle 3, in unit 0's name */
    lie(LIAR, SIGNER(LIAR), BODY("lead is unit 0  ")); /* bundle 4, for unit 1 too */

    for (size_t i = 0; i < sizeof arrivals / sizeof arrivals[0]; i++) {
        struct unit *unit = &units[arrivals[i].unit % LIAR];
        const uint8_t *bundle = sent[arrivals[i].bundle].bundle;
        if (arrivals[i].unit == LIAR) {
            hear(bundle);
            continue;
        }
        if (i == LOOKED_AT)
            preview(unit, bundle);
        without_power = i == LOSES_POWER ? unit : NULL;
        take(unit, bundle);
        if (i == LOSES_POWER) {
            memset(&unit->now, 0xa5, sizeof unit->now);
            restart(unit);
        }
    }
    for (uint8_t u = 0; u < LIAR; u++)
        show(&units[u]);
    for (uint8_t u = 0; u < LIAR; u++)
        printf("unit %d has acted on %d bodies\n", u, acted[u]);

    /* The next day: numbers start from 0 again, and a bundle of yesterday is late. Each unit announces its setpoint, and unit 3 has swapped
     * sensors: it takes the outside for the flow. */
    day_of_clock = 8;
    for (uint8_t u = 0; u < LIAR; u++)
        open_day(&units[u], false);
    announce_setpoint(&units[0], 2200);
    take(&units[1], sent[5].bundle);
    announce_setpoint(&units[1], 2150);
    announce_setpoint(&units[2], 2100);
    lie(LIAR, SIGNER(LIAR), swapped);
    for (size_t i = 0; i < sizeof arrivals_of_day_8 / sizeof arrivals_of_day_8[0]; i++)
        take(&units[arrivals_of_day_8[i].unit], sent[arrivals_of_day_8[i].bundle].bundle);
    return 0;
}
