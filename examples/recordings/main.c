/* Two units' recordings side by side: which boards have signed two bodies in one slot. Copies of the records of a small cascade are printed and
 * compared; README.md tells what to see in them.
 *
 * The first half is to copy: `show` prints a recording, and `compare` lays two side by side. The second half makes the recordings, by the calls
 * of three sound units, by what a faulty one says, and by what can go wrong with copies. Sections are those of include/mbrb.h.
 */
#include "mbrb.h"

#include <inttypes.h>
#include <stdio.h>
#include <string.h>

/* The site's table: the same at all units. */
#define UNITS 4
#define FAULTS 1
#define LOSSES 0

/* What is copied from a unit. The records say neither whose they are nor of which day, so number, day and quorum come with them. */
struct recording {
    uint8_t own;
    uint32_t day, quorum;
    uint8_t records[MBRB_RECORDS_SIZE(UNITS)];
};

/* ---- The parts to copy */

/* A body in a recording, with those who have signed it. */
struct said {
    const char *how; /* the unit holds it, has delivered it or has noted it */
    const uint8_t *signers, *body;
};

/* What a record says: nothing, one body, or a second one that is noted. Gives how many. */
static int read_record(const struct recording *of, uint8_t sender, uint8_t number, struct said *said)
{
    static const uint8_t nobody[8];
    const uint8_t *record = of->records + MBRB_RECORD_AT(sender, number);

    if (record[0] == MBRB_RECORD_EMPTY)
        return 0;
    said[0].how = record[0] == MBRB_RECORD_HELD ? "holds" : "has delivered";
    said[0].signers = record + MBRB_SIGNERS_AT;
    said[0].body = record + MBRB_BODY_AT;
    if (memcmp(record + MBRB_NOTED_SIGNERS_AT, nobody, sizeof nobody) == 0)
        return 1;
    said[1].how = "has noted";
    said[1].signers = record + MBRB_NOTED_SIGNERS_AT;
    said[1].body = record + MBRB_NOTED_BODY_AT;
    return 2;
}

/* Signers are 8 bytes with the high byte first. */
static uint64_t word_of(const uint8_t *signers)
{
    uint64_t word = 0;

    for (int i = 0; i < 8; i++)
        word = word << 8 | signers[i];
    return word;
}

static void print_units(uint64_t word)
{
    for (uint8_t unit = 0; unit < UNITS; unit++)
        if (MBRB_IS_NAMED(word, unit))
            printf(" %d", unit);
}

static void show_slot(const struct recording *of, uint8_t sender, uint8_t number)
{
    struct said said[2];
    const int count = read_record(of, sender, number, said);

    for (int i = 0; i < count; i++) {
        printf("  slot %d/%d: unit %d %s \"%.*s\", signed by", sender, number, of->own, said[i].how, MBRB_BODY_SIZE, (const char *)said[i].body);
        print_units(word_of(said[i].signers));
        putchar('\n');
    }
}

static void show(const struct recording *of)
{
    printf("recording of unit %d, day %" PRIu32 ", quorum %" PRIu32 "\n", of->own, of->day, of->quorum);
    for (uint8_t sender = 0; sender < UNITS; sender++)
        for (uint8_t number = 0; number < MBRB_NUMBERS; number++)
            show_slot(of, sender, number);
}

/* Whether two bodies stand in a slot of the two recordings. */
static int has_two_bodies(const struct recording *first, const struct recording *second, uint8_t sender, uint8_t number)
{
    struct said said[4];
    int count = read_record(first, sender, number, said);

    count += read_record(second, sender, number, said + count);
    for (int i = 1; i < count; i++)
        if (memcmp(said[i].body, said[0].body, MBRB_BODY_SIZE) != 0)
            return 1;
    return 0;
}

static void show_two_bodies(const struct recording *first, const struct recording *second)
{
    for (uint8_t sender = 0; sender < UNITS; sender++)
        for (uint8_t number = 0; number < MBRB_NUMBERS; number++)
            if (has_two_bodies(first, second, sender, number)) {
                show_slot(first, sender, number);
                show_slot(second, sender, number);
            }
}

/* Who is named, and the slots with two bodies, in which they are found. Of sound units no more than FAULTS are named. */
static void show_named(const struct recording *first, const struct recording *second, uint64_t named)
{
    int count = 0;

    printf("named");
    print_units(named);
    putchar('\n');
    show_two_bodies(first, second);
    for (uint8_t unit = 0; unit < UNITS; unit++)
        count += MBRB_IS_NAMED(named, unit);
    if (count > FAULTS)
        printf("  more than %d: something is wrong with what was compared\n", FAULTS);
}

static const char *in_words(uint32_t code)
{
    switch (code) {
    case MBRB_COMPARED:
        return "nobody is named";
    case MBRB_SAME_UNIT:
        return "not compared, both are of one unit";
    case MBRB_UNSOUND_RECORD:
        return "not compared, a copy is damaged";
    default:
        /* MBRB_BAD_TABLE, MBRB_RECORDS_LENGTH: a wrong table, a wrong number on a copy, or a copy of another site. */
        return "not compared, called wrongly";
    }
}

/* Which of two it is that 21 was given for: mbrb_setpoint looks at one alone, and refuses it for the same reason. */
static void show_if_damaged(const struct recording *of)
{
    if (mbrb_setpoint(UNITS, FAULTS, LOSSES, of->own, of->day, of->quorum, of->records, sizeof of->records) == MBRB_UNSOUND_RECORD)
        printf("  it is the copy of unit %d: copy it again\n", of->own);
}

/* Section 14. Days and quorums are compared here, since no call can. */
static void compare(const struct recording *first, const struct recording *second)
{
    uint64_t named;
    uint32_t code;

    printf("units %d and %d: ", first->own, second->own);
    if (first->day != second->day) {
        puts("not compared, the copies are of two days");
        return;
    }
    if (first->quorum != second->quorum) {
        puts("not compared, the copies have two quorums");
        return;
    }
    named = mbrb_equivocators(UNITS, FAULTS, LOSSES, first->own, first->day, first->quorum, second->own,
                              first->records, sizeof first->records, second->records, sizeof second->records);
    if (named != 0) {
        show_named(first, second, named);
        return;
    }
    code = mbrb_check_equivocators(UNITS, FAULTS, LOSSES, first->own, first->day, first->quorum, second->own,
                                   first->records, sizeof first->records, second->records, sizeof second->records);
    printf("%s: %" PRIu32 "\n", in_words(code), code);
    if (code == MBRB_UNSOUND_RECORD) {
        show_if_damaged(first);
        show_if_damaged(second);
    }
}

/* ---- The cascade: units 0, 1 and 2 are sound, and unit 3 keeps to no rule */

#define LIAR 3
#define SIGNER(unit) (1u << (unit))

static struct recording units[LIAR];        /* what each of them has, and what is copied */
static uint8_t out[LIAR][MBRB_BUNDLE_SIZE]; /* what each sent last */
static int differ;

static void expect(uint32_t expected, uint32_t code)
{
    if (code == expected)
        return;
    printf("a call gave %" PRIu32 " in place of %" PRIu32 "\n", code, expected);
    differ = 1;
}

static void open_day(uint32_t day)
{
    for (uint8_t own = 0; own < LIAR; own++) {
        struct recording *unit = &units[own];
        unit->own = own;
        unit->day = day;
        unit->quorum = MBRB_LEAST_QUORUM(UNITS, FAULTS);
        expect(MBRB_OPENED, mbrb_open(UNITS, FAULTS, LOSSES, own, day, unit->quorum, unit->records, sizeof unit->records));
    }
}

/* The key chip has checked the bundle before. */
static void take(uint8_t own, const uint8_t *bundle, uint32_t expected)
{
    struct recording *unit = &units[own];
    uint8_t taken[MBRB_BUNDLE_SIZE];

    memcpy(taken, bundle, sizeof taken);
    expect(expected, mbrb_receive(UNITS, FAULTS, LOSSES, own, unit->day, unit->quorum, taken, sizeof taken,
                                  unit->records, sizeof unit->records, out[own], sizeof out[own]));
}

/* Unit 0 announces a body under its first number, and it goes from unit to unit until all three have delivered it. Bodies are text of 16
 * characters. */
static void deliver_everywhere(const char *body)
{
    struct recording *unit = &units[0];

    expect(MBRB_ANNOUNCED(0), mbrb_broadcast(UNITS, FAULTS, LOSSES, 0, unit->day, unit->quorum, (const uint8_t *)body, MBRB_BODY_SIZE,
                                             unit->records, sizeof unit->records, out[0], sizeof out[0]));
    take(1, out[0], MBRB_SIGNED);    /* signed by 0 1 */
    take(2, out[1], MBRB_DELIVERED); /* signed by 0 1 2, which is a quorum */
    take(1, out[2], MBRB_DELIVERED);
    take(0, out[2], MBRB_DELIVERED);
}

/* Unit 3 says this as its first announcement of day 7, to one unit, with its own signature. */
static void lie_to(uint8_t own, const char *body)
{
    uint8_t bundle[MBRB_BUNDLE_SIZE] = {0};

    bundle[MBRB_DAY_AT + 3] = 7;
    bundle[MBRB_SENDER_AT] = LIAR;
    bundle[MBRB_SIGNERS_AT + 7] = SIGNER(LIAR);
    memcpy(bundle + MBRB_BODY_AT, body, MBRB_BODY_SIZE);
    take(own, bundle, MBRB_SIGNED);
}

int main(void)
{
    static struct recording at_noon[LIAR], damaged, made_up, mislabelled;
    uint8_t *record;

    open_day(7);
    deliver_everywhere("defrost at 05:30");
    lie_to(0, "unit 1 is leader");
    lie_to(1, "unit 1 is leader");
    lie_to(2, "unit 2 is leader");
    memcpy(at_noon, units, sizeof at_noon);
    puts("Day 7, noon. Units 0, 1 and 2 are copied.");
    for (int i = 0; i < LIAR; i++)
        show(&at_noon[i]);
    compare(&at_noon[0], &at_noon[1]);
    compare(&at_noon[1], &at_noon[2]);

    puts("\nThe copy of unit 1 is given twice; then a copy of unit 2 with a wrong byte in it, and one with a wrong quorum on it.");
    compare(&at_noon[1], &at_noon[1]);
    damaged = at_noon[2];
    damaged.records[MBRB_RECORD_AT(LIAR, 0)] = MBRB_RECORD_EMPTY; /* although a body stands there */
    compare(&at_noon[1], &damaged);
    mislabelled = at_noon[2];
    mislabelled.quorum++;
    compare(&at_noon[1], &mislabelled);

    take(0, out[2], MBRB_NOTED);
    puts("\nDay 7, evening. What unit 2 had sent has come to unit 0, which is copied again.");
    show(&units[0]);
    compare(&units[0], &at_noon[1]);

    made_up.own = LIAR;
    made_up.day = 7;
    made_up.quorum = MBRB_LEAST_QUORUM(UNITS, FAULTS);
    record = made_up.records + MBRB_RECORD_AT(0, 0);
    record[0] = MBRB_RECORD_HELD;
    record[MBRB_SIGNERS_AT + 7] = SIGNER(0) | SIGNER(LIAR);
    memcpy(record + MBRB_BODY_AT, "defrost at 23:59", MBRB_BODY_SIZE);
    puts("\nUnit 3 hands out a recording too, which it has made up.");
    show(&made_up);
    compare(&at_noon[1], &made_up);

    open_day(8);
    deliver_everywhere("defrost at 06:15");
    puts("\nDay 8. Unit 2 is copied, and compared with unit 1 of day 7; then the same with a wrong day on the copy.");
    compare(&at_noon[1], &units[2]);
    mislabelled = units[2];
    mislabelled.day = 7;
    compare(&at_noon[1], &mislabelled);
    return differ;
}
