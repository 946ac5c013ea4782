/* Every code of include/mbrb.h, provoked once: its number and name as the header has them, and what the call gave. Each bundle is
 * previewed before it is taken. Then what the header says of places and bytes, what is noted where a sender says two things in a slot,
 * what a stricter quorum does, what happens to a host that gives the records of a day another day or another quorum, which setpoint
 * comes out of many, and who is named where the records of two units lie side by side.
 *
 * Four units, of which one may be faulty, with the least quorum, which is 3; we are unit 1, on day 7. Each call starts from the records that
 * its line needs. The stricter quorum is that of a site with eight units.
 */
#include "mbrb.h"

#include <inttypes.h>
#include <stdio.h>
#include <string.h>

#define UNITS 4
#define RECORDS MBRB_RECORDS_SIZE(UNITS)
#define SITE_UNITS 8
#define SITE_RECORDS MBRB_RECORDS_SIZE(SITE_UNITS)

/* What each call is given first, by the header's names. */
struct table {
    uint8_t n, t, d, own;
    uint32_t day, quorum;
};

static const struct table usual = {UNITS, 1, 0, 1, 7, MBRB_LEAST_QUORUM(UNITS, 1)};
static const struct table of_day_8 = {UNITS, 1, 0, 1, 8, MBRB_LEAST_QUORUM(UNITS, 1)};
static const struct table of_nobody = {UNITS, 1, 0, UNITS, 7, MBRB_LEAST_QUORUM(UNITS, 1)}; /* our own number is none of the four */

static uint8_t records[SITE_RECORDS]; /* the four units use the first RECORDS bytes */
static uint8_t seconds[SITE_RECORDS]; /* the records of another unit, to lie beside those above */
static uint8_t bundle[MBRB_BUNDLE_SIZE];
static uint8_t body[MBRB_BODY_SIZE];
static uint8_t out[MBRB_BUNDLE_SIZE];
static int differ;
static uint8_t previewed[MBRB_NOTED + 1]; /* the codes that a preview gave, and then taking */

static void told(const char *name, uint32_t expected, uint32_t code)
{
    printf("%3" PRIu32 " %s\n", code, name);
    if (code != expected) {
        printf("    the header has %" PRIu32 "\n", expected);
        differ = 1;
    }
}

#define TOLD(name, call) told(#name, name, call)

/* The calls with tables and lengths that may be wrong. */
static uint32_t open_by(struct table by, size_t records_len)
{
    return mbrb_open(by.n, by.t, by.d, by.own, by.day, by.quorum, records, records_len);
}

static uint32_t announce_by(struct table by, size_t body_len, size_t records_len, size_t out_len)
{
    return mbrb_broadcast(by.n, by.t, by.d, by.own, by.day, by.quorum, body, body_len, records, records_len, out, out_len);
}

/* A preview comes first, on the same buffers but for its `out`. */
static uint32_t take_by(struct table by, size_t bundle_len, size_t records_len, size_t out_len)
{
    uint8_t before[sizeof records], shown[sizeof out];
    uint32_t preview, code;

    memcpy(before, records, sizeof records);
    memcpy(shown, out, sizeof out);
    preview = mbrb_preview(by.n, by.t, by.d, by.own, by.day, by.quorum, bundle, bundle_len, records, records_len, shown, out_len);
    if (memcmp(records, before, sizeof records) != 0) {
        puts("    the preview wrote to the records");
        differ = 1;
    }
    code = mbrb_receive(by.n, by.t, by.d, by.own, by.day, by.quorum, bundle, bundle_len, records, records_len, out, out_len);
    if (preview != code || memcmp(shown, out, sizeof out) != 0) {
        printf("    the preview gave %" PRIu32 " and taking %" PRIu32 ", or `out` differs\n", preview, code);
        differ = 1;
    } else if (code < sizeof previewed) {
        previewed[code] = 1;
    }
    return code;
}

/* Asks for the setpoint, which writes nothing. */
static uint32_t pool_by(struct table by, size_t records_len)
{
    uint8_t before[sizeof records];
    uint32_t code;

    memcpy(before, records, sizeof records);
    code = mbrb_setpoint(by.n, by.t, by.d, by.own, by.day, by.quorum, records, records_len);
    if (memcmp(records, before, sizeof records) != 0) {
        puts("    pooling wrote to the records");
        differ = 1;
    }
    return code;
}

/* Lays the records beside the second ones, which are those of the unit `other`. Nothing is written, and where it refuses, nobody is named. */
static uint32_t compare_by(struct table by, uint8_t other, size_t first_len, size_t second_len, uint64_t *named)
{
    uint8_t before[sizeof records], seconds_before[sizeof seconds];
    uint32_t code;

    memcpy(before, records, sizeof records);
    memcpy(seconds_before, seconds, sizeof seconds);
    *named = mbrb_equivocators(by.n, by.t, by.d, by.own, by.day, by.quorum, other, records, first_len, seconds, second_len);
    code = mbrb_check_equivocators(by.n, by.t, by.d, by.own, by.day, by.quorum, other, records, first_len, seconds, second_len);
    if (memcmp(records, before, sizeof records) != 0 || memcmp(seconds, seconds_before, sizeof seconds) != 0) {
        puts("    comparing wrote to the records");
        differ = 1;
    }
    if (code != MBRB_COMPARED && *named != 0) {
        puts("    it refuses, and names somebody");
        differ = 1;
    }
    return code;
}

static uint32_t check_by(struct table by, uint8_t other, size_t first_len, size_t second_len)
{
    uint64_t named;

    return compare_by(by, other, first_len, second_len, &named);
}

static void open_day(void)
{
    open_by(usual, RECORDS);
}

static uint32_t announce(void)
{
    return announce_by(usual, sizeof body, RECORDS, sizeof out);
}

static uint32_t take(void)
{
    return take_by(usual, sizeof bundle, RECORDS, sizeof out);
}

static uint32_t pool(void)
{
    return pool_by(usual, RECORDS);
}

/* A bundle of sender 0, number 0, with these signers and a body of sixteen times `text`. */
static void bring(unsigned signers, char text)
{
    memset(bundle, 0, sizeof bundle);
    bundle[MBRB_DAY_AT + 3] = 7;
    bundle[MBRB_SIGNERS_AT + 7] = (uint8_t)signers;
    memset(bundle + MBRB_BODY_AT, text, MBRB_BODY_SIZE);
}

/* The same with one byte changed. */
static void bring_with(size_t at, uint8_t value)
{
    bring(1, 'a');
    bundle[at] = value;
}

static void refused_from_the_input(void)
{
    TOLD(MBRB_BAD_TABLE, open_by(of_nobody, RECORDS));
    TOLD(MBRB_BAD_TABLE, announce_by(of_nobody, sizeof body, RECORDS, sizeof out));
    TOLD(MBRB_BAD_TABLE, take_by(of_nobody, sizeof bundle, RECORDS, sizeof out));
    TOLD(MBRB_BAD_TABLE, pool_by(of_nobody, RECORDS));
    TOLD(MBRB_BAD_TABLE, check_by(of_nobody, 2, RECORDS, RECORDS));
    TOLD(MBRB_BAD_TABLE, check_by(usual, UNITS, RECORDS, RECORDS));
    TOLD(MBRB_BUNDLE_LENGTH, take_by(usual, 31, RECORDS, sizeof out));
    bring_with(6, 1);
    TOLD(MBRB_RESERVED_BYTES, take());
    bring_with(MBRB_DAY_AT + 3, 8);
    TOLD(MBRB_OTHER_DAY, take());
    bring_with(MBRB_SENDER_AT, UNITS);
    TOLD(MBRB_SENDER_RANGE, take());
    bring_with(MBRB_NUMBER_AT, MBRB_NUMBERS);
    TOLD(MBRB_NUMBER_RANGE, take());
    bring(1u << UNITS | 1, 'a');
    TOLD(MBRB_SIGNER_RANGE, take());
    bring(4, 'a');
    TOLD(MBRB_SENDER_UNSIGNED, take());
    TOLD(MBRB_BODY_LENGTH, announce_by(usual, 15, RECORDS, sizeof out));
    TOLD(MBRB_OUT_LENGTH, announce_by(usual, sizeof body, RECORDS, 31));
    bring(1, 'a');
    TOLD(MBRB_OUT_LENGTH, take_by(usual, sizeof bundle, RECORDS, 31));
}

static void refused_from_the_state(void)
{
    TOLD(MBRB_RECORDS_LENGTH, open_by(usual, RECORDS - 1));
    TOLD(MBRB_RECORDS_LENGTH, announce_by(usual, sizeof body, RECORDS - 1, sizeof out));
    TOLD(MBRB_RECORDS_LENGTH, take_by(usual, sizeof bundle, RECORDS - 1, sizeof out));
    TOLD(MBRB_RECORDS_LENGTH, pool_by(usual, RECORDS - 1));
    TOLD(MBRB_RECORDS_LENGTH, check_by(usual, 2, RECORDS - 1, RECORDS));
    TOLD(MBRB_RECORDS_LENGTH, check_by(usual, 2, RECORDS, RECORDS + 1));
    memset(records, 0xff, RECORDS);
    TOLD(MBRB_UNSOUND_RECORD, announce());
    TOLD(MBRB_UNSOUND_RECORD, take());
    TOLD(MBRB_UNSOUND_RECORD, pool());
    TOLD(MBRB_UNSOUND_RECORD, check_by(usual, 2, RECORDS, RECORDS));
    open_day();
    bring(1 | 2, 'a');
    TOLD(MBRB_OWN_SIGNATURE_UNKNOWN, take());
    bring(1, 'a');
    take();
    bring(1, 'b');
    take(); /* noted, and so the next one is the third */
    bring(1, 'c');
    TOLD(MBRB_OTHER_BODY, take());
    bring(1 | 4, 'a');
    take();
    TOLD(MBRB_ALREADY_DELIVERED, take());
    for (int number = 0; number < MBRB_NUMBERS; number++)
        announce();
    TOLD(MBRB_NO_FREE_NUMBER, announce());
    TOLD(MBRB_TOO_FEW_SETPOINTS, pool());
    TOLD(MBRB_SAME_UNIT, check_by(usual, 1, RECORDS, RECORDS));
}

static void done(void)
{
    /* t comes before d: with 3 units and d = 1 the table is good, with t = 1 it is not. */
    const struct table bears_a_loss = {3, 0, 1, 1, 7, 2}, bears_a_fault = {3, 1, 0, 1, 7, 2};

    TOLD(MBRB_OPENED, open_by(usual, RECORDS));
    TOLD(MBRB_ANNOUNCED(0), announce());
    for (int number = 1; number < MBRB_NUMBERS - 1; number++)
        announce();
    TOLD(MBRB_ANNOUNCED(15), announce());
    bring(1, 'a');
    TOLD(MBRB_SIGNED, take());
    TOLD(MBRB_KEPT, take());
    bring(1, 'b');
    TOLD(MBRB_NOTED, take());
    bring(1 | 8, 'a');
    TOLD(MBRB_DELIVERED, take());
    TOLD(MBRB_COMPARED, check_by(usual, 2, RECORDS, RECORDS));
    TOLD(MBRB_OPENED, open_by(bears_a_loss, MBRB_RECORDS_SIZE(3)));
    TOLD(MBRB_BAD_TABLE, open_by(bears_a_fault, MBRB_RECORDS_SIZE(3)));
    TOLD(MBRB_ANNOUNCED(0), announce_by(bears_a_loss, sizeof body, MBRB_RECORDS_SIZE(3), sizeof out));
    TOLD(MBRB_BAD_TABLE, announce_by(bears_a_fault, sizeof body, MBRB_RECORDS_SIZE(3), sizeof out));
    bring(1, 'a');
    TOLD(MBRB_DELIVERED, take_by(bears_a_loss, sizeof bundle, MBRB_RECORDS_SIZE(3), sizeof out));
    TOLD(MBRB_BAD_TABLE, take_by(bears_a_fault, sizeof bundle, MBRB_RECORDS_SIZE(3), sizeof out));
    TOLD(MBRB_TOO_FEW_SETPOINTS, pool_by(bears_a_loss, MBRB_RECORDS_SIZE(3)));
    TOLD(MBRB_BAD_TABLE, pool_by(bears_a_fault, MBRB_RECORDS_SIZE(3)));
    TOLD(MBRB_COMPARED, check_by(bears_a_loss, 2, MBRB_RECORDS_SIZE(3), MBRB_RECORDS_SIZE(3)));
    TOLD(MBRB_BAD_TABLE, check_by(bears_a_fault, 2, MBRB_RECORDS_SIZE(3), MBRB_RECORDS_SIZE(3)));
}

static void previews(void)
{
    printf("previewed with the code and the `out` of taking, and with untouched records:");
    for (size_t code = 0; code < sizeof previewed; code++)
        if (previewed[code])
            printf(" %d", (int)code);
    putchar('\n');
}

/* How many bytes of the records are not zero; those that the four units do not use are among them. */
static int written(void)
{
    int count = 0;

    for (size_t i = 0; i < sizeof records; i++)
        count += records[i] != 0;
    return count;
}

/* What the last delivery left, read by the header's places. Bytes 8 to 31 of what is sent are those of the record. */
static void places(void)
{
    const uint8_t *record = records + MBRB_RECORD_AT(0, 0);
    uint32_t code;

    memset(records, 0xff, RECORDS);
    open_day();
    printf("written %d", written());
    bring(1 | 4, 'a');
    take();
    printf(" and %d, record %d %d %c, bundle %d %d %d %d %c, next %d, sent %d\n", written(), record[0] == MBRB_RECORD_DELIVERED, record[MBRB_SIGNERS_AT + 7],
           record[MBRB_BODY_AT], out[MBRB_DAY_AT + 3], out[MBRB_SENDER_AT], out[MBRB_NUMBER_AT], out[MBRB_SIGNERS_AT + 7],
           out[MBRB_BODY_AT], records[MBRB_RECORD_AT(0, 1)] == MBRB_RECORD_EMPTY,
           memcmp(out + MBRB_SIGNERS_AT, record + MBRB_SIGNERS_AT, MBRB_BUNDLE_SIZE - MBRB_SIGNERS_AT) == 0);
    announce();
    code = announce();
    printf("announced %d as number %" PRIu32, MBRB_IS_ANNOUNCED(code), MBRB_NUMBER(code));
    printf(", record %d at %d of %d, of %d units at most\n", records[MBRB_RECORD_AT(1, 1)] == MBRB_RECORD_HELD,
           (int)MBRB_RECORD_AT(1, 1), (int)RECORDS, MBRB_UNITS_MAX);
}

/* The record of sender 0, number 0 is held or delivered with this body and these signers, and it notes these. With no noted signers it
 * notes nothing, and that half is zero. Bytes are looked at one by one: those that are no field are zero. */
static void told_record(const char *of, uint8_t state, unsigned signers, char text, unsigned noted_signers, char noted_text)
{
    const uint8_t *record = records + MBRB_RECORD_AT(0, 0);
    uint8_t expected[MBRB_RECORD_SIZE] = {0};

    expected[0] = state;
    expected[MBRB_SIGNERS_AT + 7] = (uint8_t)signers;
    memset(expected + MBRB_BODY_AT, text, MBRB_BODY_SIZE);
    expected[MBRB_NOTED_SIGNERS_AT + 7] = (uint8_t)noted_signers;
    memset(expected + MBRB_NOTED_BODY_AT, noted_signers == 0 ? 0 : noted_text, MBRB_BODY_SIZE);
    printf("    %s %d %c, ", record[0] == MBRB_RECORD_DELIVERED ? "delivered" : "held", record[MBRB_SIGNERS_AT + 7], record[MBRB_BODY_AT]);
    if (record[MBRB_NOTED_SIGNERS_AT + 7] != 0)
        printf("noted %d %c: %s\n", record[MBRB_NOTED_SIGNERS_AT + 7], record[MBRB_NOTED_BODY_AT], of);
    else
        printf("nothing noted: %s\n", of);
    if (memcmp(record, expected, sizeof expected) != 0) {
        puts("    the header has another record");
        differ = 1;
    }
}

/* A bundle that sends nothing: `out` stays as it is. */
static uint32_t take_and_send_nothing(unsigned signers, char text)
{
    uint8_t sent[sizeof out];
    uint32_t code;

    memcpy(sent, out, sizeof out);
    bring(signers, text);
    code = take();
    if (memcmp(out, sent, sizeof out) != 0) {
        puts("    and `out` has changed");
        differ = 1;
    }
    return code;
}

/* One that is refused: the records stay as well. */
static uint32_t take_and_refuse(unsigned signers, char text)
{
    uint8_t before[sizeof records];
    uint32_t code;

    memcpy(before, records, sizeof records);
    code = take_and_send_nothing(signers, text);
    if (memcmp(records, before, sizeof records) != 0) {
        puts("    and the records have changed");
        differ = 1;
    }
    return code;
}

/* A record of which one byte is no more what the calls have left, and then is again. */
static void refused_record(size_t at, uint8_t value)
{
    uint8_t *byte = records + MBRB_RECORD_AT(0, 0) + at;
    const uint8_t before = *byte;

    *byte = value;
    TOLD(MBRB_UNSOUND_RECORD, take_and_refuse(1, 'b'));
    *byte = before;
}

/* Sender 0 says two things in a slot, and then a third. A quorum is three signers. */
static void second_words(void)
{
    puts("sender 0 says a, then b, then c; signers are 1 for unit 0, 2 for us, 4 for unit 2 and 8 for unit 3");
    open_day();
    bring(1, 'a');
    TOLD(MBRB_SIGNED, take());
    told_record("we have signed a", MBRB_RECORD_HELD, 3, 'a', 0, 0);
    TOLD(MBRB_NOTED, take_and_send_nothing(1, 'b'));
    told_record("a second body", MBRB_RECORD_HELD, 3, 'a', 1, 'b');
    TOLD(MBRB_NOTED, take_and_send_nothing(1 | 4, 'b'));
    told_record("with one more signer", MBRB_RECORD_HELD, 3, 'a', 5, 'b');
    TOLD(MBRB_NOTED, take_and_send_nothing(1 | 8, 'b'));
    told_record("three noted signers, which deliver nothing", MBRB_RECORD_HELD, 3, 'a', 13, 'b');
    TOLD(MBRB_NOTED, take_and_send_nothing(1, 'b'));
    told_record("and no new one", MBRB_RECORD_HELD, 3, 'a', 13, 'b');
    TOLD(MBRB_OTHER_BODY, take_and_refuse(1 | 4, 'c'));
    TOLD(MBRB_OWN_SIGNATURE_UNKNOWN, take_and_refuse(1 | 2, 'b'));
    TOLD(MBRB_OWN_SIGNATURE_UNKNOWN, take_and_refuse(1 | 2, 'c'));
    TOLD(MBRB_KEPT, take_and_send_nothing(1, 'a'));
    told_record("the first body again", MBRB_RECORD_HELD, 3, 'a', 13, 'b');
    bring(1 | 4 | 8, 'b');
    TOLD(MBRB_DELIVERED, take());
    told_record("a quorum in one bundle, and what we had signed is noted", MBRB_RECORD_DELIVERED, 13, 'b', 3, 'a');
    TOLD(MBRB_ALREADY_DELIVERED, take_and_refuse(1 | 4, 'a'));

    open_day();
    bring(1, 'a');
    take();
    bring(1, 'b');
    take();
    bring(1 | 4, 'a');
    TOLD(MBRB_DELIVERED, take());
    told_record("what we had signed is delivered, and the note stays", MBRB_RECORD_DELIVERED, 7, 'a', 1, 'b');

    open_day();
    bring(1, 'a');
    take();
    bring(1, 'b');
    take();
    bring(1 | 4 | 8, 'c');
    TOLD(MBRB_DELIVERED, take());
    told_record("a quorum for the third, and b is noted no more", MBRB_RECORD_DELIVERED, 13, 'c', 3, 'a');

    puts("no note that the calls leave: in an empty record, without signers, with a byte between, without its sender, with a unit 4, with the held body");
    open_day();
    refused_record(MBRB_NOTED_SIGNERS_AT + 7, 1);
    bring(1, 'a');
    take();
    refused_record(MBRB_NOTED_BODY_AT + 15, 'b');
    bring(1 | 4, 'b');
    take();
    refused_record(MBRB_NOTED_SIGNERS_AT + 8, 1);
    refused_record(MBRB_NOTED_SIGNERS_AT + 7, 4);
    refused_record(MBRB_NOTED_SIGNERS_AT + 7, 1 | 16);
    told_record("and as it was", MBRB_RECORD_HELD, 3, 'a', 5, 'b');
    memset(records + MBRB_RECORD_AT(0, 0) + MBRB_NOTED_BODY_AT, 'a', MBRB_BODY_SIZE);
    TOLD(MBRB_UNSOUND_RECORD, take_and_refuse(1, 'b'));
}

/* The least and the most quorum of good tables: n, t and d. */
static void macros(void)
{
    static const uint8_t tables[][3] = {{1, 0, 0}, {2, 0, 0}, {4, 1, 0}, {6, 1, 1}, {64, 21, 0}, {64, 0, 31}, {8, 1, 1}, {64, 0, 0}};

    printf("version %d.%d.%d is %s, quorums", MBRB_VERSION_MAJOR, MBRB_VERSION_MINOR, MBRB_VERSION_PATCH, MBRB_VERSION);
    for (size_t i = 0; i < sizeof tables / sizeof tables[0]; i++) {
        const uint8_t n = tables[i][0], t = tables[i][1], d = tables[i][2];
        printf("%s %" PRIu32 " to %" PRIu32, i == 0 ? "" : ",", MBRB_LEAST_QUORUM(n, t), MBRB_MOST_QUORUM(n, t, d));
    }
    putchar('\n');
}

/* Takes a bundle of sender 0 on day 8, over records that are day 7's: no call can know. */
static uint32_t take_on_day_8(uint8_t number, unsigned signers, char text)
{
    bring(signers, text);
    bundle[MBRB_DAY_AT + 3] = 8;
    bundle[MBRB_NUMBER_AT] = number;
    return take_by(of_day_8, sizeof bundle, RECORDS, sizeof out);
}

/* Yesterday number 0 was delivered, and number 1 signed. Today both come again, and we sign neither: number 0 is refused, and number 1
 * is delivered with our bit, for which there is no signature of today. */
static void yesterday(void)
{
    open_day();
    bring(1 | 4, 'a');
    take();
    bring(1, 'b');
    bundle[MBRB_NUMBER_AT] = 1;
    take();
    printf("day 8 on the records of day 7: %" PRIu32, take_on_day_8(0, 1, 'c'));
    printf(", then %" PRIu32, take_on_day_8(1, 1, 'b'));
    printf(", then %" PRIu32, take_on_day_8(1, 1 | 4, 'b'));
    printf(" and sent for day %d with signers %d\n", out[MBRB_DAY_AT + 3], out[MBRB_SIGNERS_AT + 7]);
}

/* A site with eight units, one of which may be faulty, and one of which a sending may miss: it chooses 5 or 6. We are unit 1 there too. */
static struct table site(uint32_t quorum)
{
    const struct table table = {SITE_UNITS, 1, 1, 1, 7, quorum};

    return table;
}

static uint32_t announce_there(uint32_t quorum)
{
    return announce_by(site(quorum), sizeof body, SITE_RECORDS, sizeof out);
}

static uint32_t take_there(uint32_t quorum)
{
    return take_by(site(quorum), sizeof bundle, SITE_RECORDS, sizeof out);
}

/* Five calls of a day and their codes: opening, announcing, and taking three bundles, after which 2, 5 and 6 units have signed, we among them. */
static void day_with(uint32_t quorum, uint32_t opening, uint32_t announcing, uint32_t with_2, uint32_t with_5, uint32_t with_6)
{
    const uint32_t expected[] = {opening, announcing, with_2, with_5, with_6};
    uint32_t codes[5];

    codes[0] = open_by(site(quorum), SITE_RECORDS);
    codes[1] = announce_there(quorum);
    bring(1, 'a');
    codes[2] = take_there(quorum);
    bring(1 | 4 | 8 | 16, 'a');
    codes[3] = take_there(quorum);
    bring(1 | 32, 'a');
    codes[4] = take_there(quorum);
    printf("quorum %" PRIu32 ":", quorum);
    for (size_t i = 0; i < sizeof codes / sizeof codes[0]; i++)
        printf(" %" PRIu32, codes[i]);
    putchar('\n');
    if (memcmp(codes, expected, sizeof codes) != 0) {
        puts("    the header has other codes");
        differ = 1;
    }
}

/* A quorum that is not allowed, on a day that is open already: each call refuses, and changes no byte. */
static void refused_quorum(uint32_t quorum)
{
    uint8_t before[sizeof records], sent[sizeof out];

    memcpy(before, records, sizeof records);
    memcpy(sent, out, sizeof out);
    day_with(quorum, MBRB_BAD_TABLE, MBRB_BAD_TABLE, MBRB_BAD_TABLE, MBRB_BAD_TABLE, MBRB_BAD_TABLE);
    if (memcmp(records, before, sizeof records) != 0 || memcmp(out, sent, sizeof out) != 0) {
        puts("    and bytes have changed");
        differ = 1;
    }
}

static void quorums(void)
{
    const uint32_t least = MBRB_LEAST_QUORUM(SITE_UNITS, 1), most = MBRB_MOST_QUORUM(SITE_UNITS, 1, 1);

    puts("8 units, of which 1 may be faulty, with 1 loss: opened, announced, and taken until 2, 5 and 6 have signed");
    day_with(least, MBRB_OPENED, MBRB_ANNOUNCED(0), MBRB_SIGNED, MBRB_DELIVERED, MBRB_ALREADY_DELIVERED);
    day_with(most, MBRB_OPENED, MBRB_ANNOUNCED(0), MBRB_SIGNED, MBRB_KEPT, MBRB_DELIVERED);
    refused_quorum(least - 1);
    refused_quorum(most + 1);
    refused_quorum(0);
    refused_quorum(UINT32_MAX);
}

/* Where another body is held, 5 signers are enough to deliver it by one quorum, and too few by the other, which notes it. So they are for a
 * delivered record: with the stricter quorum of another day a record of this one is not sound, at taking in its slot and at announcing, if it
 * is one of ours. */
static void counted_by_the_quorum(void)
{
    open_by(site(5), SITE_RECORDS);
    bring(1, 'a');
    take_there(5);
    bring(1 | 4 | 8 | 16 | 32, 'b');
    TOLD(MBRB_NOTED, take_there(6));
    TOLD(MBRB_DELIVERED, take_there(5));
    TOLD(MBRB_UNSOUND_RECORD, take_there(6));
    TOLD(MBRB_ALREADY_DELIVERED, take_there(5));
    announce_there(5);
    bring(1 | 2 | 4 | 8 | 16, 0); /* what we have announced comes back to us */
    bundle[MBRB_SENDER_AT] = 1;
    TOLD(MBRB_DELIVERED, take_there(5));
    TOLD(MBRB_UNSOUND_RECORD, announce_there(6));
    TOLD(MBRB_ANNOUNCED(1), announce_there(5));
}

/* A body that is a setpoint, as section 13 has it. */
static void make_setpoint(uint8_t *to, int16_t hundredths)
{
    memset(to, 0, MBRB_BODY_SIZE);
    to[0] = MBRB_SETPOINT_TAG;
    to[MBRB_SETPOINT_AT] = (uint8_t)((uint16_t)hundredths >> 8);
    to[MBRB_SETPOINT_AT + 1] = (uint8_t)hundredths;
}

/* A bundle with a setpoint, of this slot. */
static void bring_setpoint(uint8_t sender, uint8_t number, unsigned signers, int16_t hundredths)
{
    bring(signers, 0);
    bundle[MBRB_SENDER_AT] = sender;
    bundle[MBRB_NUMBER_AT] = number;
    make_setpoint(bundle + MBRB_BODY_AT, hundredths);
}

/* The bundle is taken, and delivered. */
static void deliver(uint32_t code)
{
    if (code != MBRB_DELIVERED) {
        printf("    %" PRIu32 ", and not delivered\n", code);
        differ = 1;
    }
}

/* Of senders 0, 2 and 3; our own we announce first. */
static void deliver_setpoint(uint8_t sender, uint8_t number, int16_t hundredths)
{
    bring_setpoint(sender, number, 1 | 4 | 8, hundredths);
    deliver(take());
}

static void told_setpoint(const char *of, int16_t expected, uint32_t code)
{
    printf("%" PRIu32 " is %d, %s\n", code, MBRB_SETPOINT(code), of);
    if (!MBRB_IS_SETPOINT(code) || MBRB_SETPOINT(code) != expected) {
        printf("    the header has %d\n", expected);
        differ = 1;
    }
}

/* A day with these three, of senders 0, 2 and 3. */
static void day_of(const char *of, int16_t first, int16_t second, int16_t third, int16_t expected)
{
    open_day();
    deliver_setpoint(0, 0, first);
    deliver_setpoint(2, 0, second);
    deliver_setpoint(3, 0, third);
    told_setpoint(of, expected, pool());
}

/* Where one of four may be faulty, three senders make a setpoint. Sender 3 has swapped sensors. */
static void setpoints(void)
{
    puts("setpoints in hundredths of a degree, of 4 units, of which 1 may be faulty");
    open_day();
    deliver_setpoint(0, 0, 2150);
    deliver_setpoint(2, 0, 2100);
    deliver_setpoint(2, 1, 2110);
    TOLD(MBRB_TOO_FEW_SETPOINTS, pool());
    deliver_setpoint(3, 0, 9500);
    told_setpoint("of 2110 2150 9500", 2150, pool());
    make_setpoint(body, 2120);
    announce();
    told_setpoint("since our own 2120 is announced and not delivered", 2150, pool());
    bring_setpoint(1, 0, 1 | 2 | 4, 2120);
    deliver(take());
    told_setpoint("of 2110 2120 2150 9500, the lower one of two", 2120, pool());
    deliver_setpoint(2, 5, 2200);
    told_setpoint("of 2120 2150 2200 9500, since 2200 is newer than 2110", 2150, pool());
    deliver_setpoint(2, 3, -5);
    told_setpoint("since -5 comes late, and 2200 is newer", 2150, pool());

    /* Passed over: another first byte, a fourth and a last byte that are not zero, and setpoints that are held or noted. Each has a higher number,
     * and without any of the three senders there are too few. */
    day_of("of 2150 2110 9500", 2150, 2110, 9500, 2150);
    bring_setpoint(0, 15, 1 | 4 | 8, -5);
    bundle[MBRB_BODY_AT] = 2;
    deliver(take());
    bring_setpoint(2, 15, 1 | 4 | 8, 9000);
    bundle[MBRB_BODY_AT + 15] = 1;
    deliver(take());
    bring_setpoint(3, 15, 1 | 4 | 8, -5);
    bundle[MBRB_BODY_AT + 3] = 1;
    deliver(take());
    bring_setpoint(0, 14, 1, -5);
    TOLD(MBRB_SIGNED, take());
    bring_setpoint(0, 14, 1 | 4, 9000);
    TOLD(MBRB_NOTED, take());
    bring_setpoint(2, 14, 4, 9000);
    TOLD(MBRB_SIGNED, take());
    deliver_setpoint(2, 14, 2110); /* and what was held is noted */
    told_setpoint("since other bodies are passed over, and what is held or noted", 2150, pool());
    told_setpoint("on day 8 too, since the records do not hold their day", 2150, pool_by(of_day_8, RECORDS));

    day_of("hexadecimal fffb, of -2000 2150 -5", -2000, 2150, -5, -5);
    day_of("hexadecimal fffe, of -1 -2 -3", -1, -2, -3, -2);
    day_of("hexadecimal 7fff, of 32767 0 32767", 32767, 0, 32767, 32767);
    day_of("hexadecimal 8000, of 32767 -32768 -32768", 32767, -32768, -32768, -32768);
    day_of("hexadecimal 0000, of 32767 -32768 0", 32767, -32768, 0, 0);

    /* A damaged record that would not count. Taking in another slot does not see it. */
    records[MBRB_RECORD_AT(3, 15) + MBRB_BODY_AT + 15] = 1;
    TOLD(MBRB_UNSOUND_RECORD, pool());
    bring_setpoint(0, 1, 1, -5);
    TOLD(MBRB_SIGNED, take());
}

/* At the site with eight units: the quorum decides which records are sound, and not which setpoint comes out. Six signers are a quorum by
 * both, five by one. */
static void setpoints_by_the_quorum(void)
{
    open_by(site(5), SITE_RECORDS);
    for (uint8_t sender = 4; sender < 7; sender++) {
        bring_setpoint(sender, 0, 1 | 4 | 16 | 32 | 64, (int16_t)(2000 + sender));
        deliver(take_there(5));
    }
    told_setpoint("with quorum 5", 2005, pool_by(site(5), SITE_RECORDS));
    told_setpoint("with quorum 6", 2005, pool_by(site(6), SITE_RECORDS));
    bring_setpoint(7, 0, 1 | 4 | 8 | 128, 1500);
    deliver(take_there(5));
    told_setpoint("with quorum 5 and a record that five have signed", 2004, pool_by(site(5), SITE_RECORDS));
    TOLD(MBRB_UNSOUND_RECORD, pool_by(site(6), SITE_RECORDS));
}

/* Unit `own` of the site, with quorum 5. */
static struct table site_of(uint8_t own)
{
    struct table table = site(5);

    table.own = own;
    return table;
}

/* A bundle that unit 1 or unit 2 of the site takes, and the code that this gives. */
struct heard {
    uint8_t own, sender, number;
    unsigned signers;
    char text;
    uint32_t code;
};

/* The day of one of the two: it opens, and takes what is for it. A list of bundles ends with one that is for unit 0. */
static void play(uint8_t own, const struct heard *heard)
{
    open_by(site_of(own), SITE_RECORDS);
    for (; heard->own != 0; heard++)
        if (heard->own == own) {
            uint32_t code;
            bring(heard->signers, heard->text);
            bundle[MBRB_SENDER_AT] = heard->sender;
            bundle[MBRB_NUMBER_AT] = heard->number;
            code = take_by(site_of(own), sizeof bundle, SITE_RECORDS, sizeof out);
            if (code != heard->code) {
                printf("    unit %d takes %c: %" PRIu32 " in place of %" PRIu32 "\n", own, heard->text, code, heard->code);
                differ = 1;
            }
        }
}

/* What unit 2 has is copied, and then unit 1 has its day, which is ours. */
static void play_both(const struct heard *heard)
{
    play(2, heard);
    memcpy(seconds, records, sizeof records);
    play(1, heard);
}

/* Who is named, a bit for each unit: the same whichever of the two comes first. */
static uint64_t named_on(uint32_t day)
{
    const struct table by = {SITE_UNITS, 1, 1, 1, day, 5};
    uint64_t named;
    const uint32_t code = compare_by(by, 2, SITE_RECORDS, SITE_RECORDS, &named);

    if (code != MBRB_COMPARED || mbrb_equivocators(by.n, by.t, by.d, 2, by.day, by.quorum, 1, seconds, SITE_RECORDS, records, SITE_RECORDS) != named) {
        printf("    %" PRIu32 ", or others are named where the two change places\n", code);
        differ = 1;
    }
    return named;
}

static void told_named(const char *of, uint64_t expected, uint64_t named)
{
    printf("names%s", named == 0 ? " nobody" : "");
    for (unsigned unit = 0; unit < MBRB_UNITS_MAX; unit++)
        if (MBRB_IS_NAMED(named, unit))
            printf(" %u", unit);
    printf(": %s\n", of);
    if (named != expected) {
        printf("    the header has %016" PRIx64 "\n", expected);
        differ = 1;
    }
}

/* Signers are 1 for unit 0, 2 for us, 4 for unit 2, and so on up to 128 for unit 7. Two bodies in one slot always name its sender. */
static void names(void)
{
    static const struct {
        const char *of;
        uint64_t named;
        struct heard heard[7];
    } cases[] = {
        {"both have opened the day and heard nothing", 0, {{0}}},
        {"a at both", 0, {{2, 0, 0, 1, 'a', MBRB_SIGNED}, {1, 0, 0, 1, 'a', MBRB_SIGNED}}},
        {"a and b in two slots", 0, {{2, 0, 1, 1 | 128, 'b', MBRB_SIGNED}, {1, 0, 0, 1 | 128, 'a', MBRB_SIGNED}}},
        {"a held by us, b by unit 2, and nobody has noted it", 1, {{2, 0, 0, 1, 'b', MBRB_SIGNED}, {1, 0, 0, 1, 'a', MBRB_SIGNED}}},
        {"and unit 7 has signed both", 1 | 128, {{2, 0, 0, 1 | 128, 'b', MBRB_SIGNED}, {1, 0, 0, 1 | 128, 'a', MBRB_SIGNED}}},
        {"and so have we, who have lost the block that knew it", 1 | 2, {{2, 0, 0, 1 | 2, 'b', MBRB_SIGNED}, {1, 0, 0, 1, 'a', MBRB_SIGNED}}},
        {"and so has unit 2", 1 | 4, {{2, 0, 0, 1, 'b', MBRB_SIGNED}, {1, 0, 0, 1 | 4, 'a', MBRB_SIGNED}}},
        {"in the first slot and in the last, and not in the one between", 1 | 128,
         {{2, 0, 0, 1, 'b', MBRB_SIGNED}, {2, 3, 4, 8, 'b', MBRB_SIGNED}, {2, 7, 15, 128, 'b', MBRB_SIGNED},
          {1, 0, 0, 1, 'a', MBRB_SIGNED}, {1, 3, 4, 8, 'b', MBRB_SIGNED}, {1, 7, 15, 128, 'a', MBRB_SIGNED}}},
        {"a delivered by us, b by unit 2: so many are faulty that units disagree", 1 | 16 | 32 | 64 | 128,
         {{2, 0, 0, 1 | 16 | 32 | 64 | 128, 'b', MBRB_DELIVERED}, {1, 0, 0, 1 | 16 | 32 | 64 | 128, 'a', MBRB_DELIVERED}}},
        {"a held and b noted by us, nothing at unit 2", 1 | 128, {{1, 0, 0, 1 | 128, 'a', MBRB_SIGNED}, {1, 0, 0, 1 | 128, 'b', MBRB_NOTED}}},
        {"a held and b noted by unit 2, nothing with us", 1 | 128, {{2, 0, 0, 1 | 128, 'a', MBRB_SIGNED}, {2, 0, 0, 1 | 128, 'b', MBRB_NOTED}}},
        {"unit 7 by a, held by unit 2, and b, noted by us", 1 | 128,
         {{2, 0, 0, 1 | 128, 'a', MBRB_SIGNED}, {1, 0, 0, 1, 'a', MBRB_SIGNED}, {1, 0, 0, 1 | 128, 'b', MBRB_NOTED}}},
        {"not unit 7, which has signed b alone, held by unit 2 and noted by us", 1,
         {{2, 0, 0, 1 | 128, 'b', MBRB_SIGNED}, {1, 0, 0, 1, 'a', MBRB_SIGNED}, {1, 0, 0, 1 | 128, 'b', MBRB_NOTED}}},
        {"unit 7 by what is held, unit 6 by what is noted", 1 | 64 | 128,
         {{2, 0, 0, 1 | 128, 'a', MBRB_SIGNED}, {2, 0, 0, 1 | 64, 'b', MBRB_NOTED},
          {1, 0, 0, 1 | 128, 'b', MBRB_SIGNED}, {1, 0, 0, 1 | 64, 'a', MBRB_NOTED}}},
        {"not unit 2, which has signed a alone, noted since b is delivered", 1,
         {{2, 0, 0, 1, 'a', MBRB_SIGNED}, {2, 0, 0, 1 | 16 | 32 | 64 | 128, 'b', MBRB_DELIVERED},
          {1, 0, 0, 1 | 16 | 32 | 64 | 128, 'b', MBRB_DELIVERED}}},
    };

    puts("the records of unit 1 beside those of unit 2, of 8 units: who has signed two bodies in one slot");
    for (size_t i = 0; i < sizeof cases / sizeof cases[0]; i++) {
        play_both(cases[i].heard);
        told_named(cases[i].of, cases[i].named, named_on(7));
    }
}

/* Two bodies of unit 0 that differ in one bit, for each of the 128: one at each unit, and both with us. Each word is compared; one that is not as
 * expected is kept, and told. */
static void names_by_a_bit(void)
{
    static const struct heard both[] = {{2, 0, 0, 1, 'a', MBRB_SIGNED}, {1, 0, 0, 1, 'a', MBRB_SIGNED}, {0}};
    const uint64_t expected = 1;
    uint64_t across = expected, within = expected;

    for (int bit = 0; bit < 8 * MBRB_BODY_SIZE; bit++) {
        const uint8_t changed = (uint8_t)('a' ^ 1u << bit % 8);
        uint64_t named;

        play_both(both);
        bring(1, 'a');
        bundle[MBRB_BODY_AT + bit / 8] = changed;
        if (take_by(site_of(1), sizeof bundle, SITE_RECORDS, sizeof out) != MBRB_NOTED)
            within = 0;
        named = named_on(7);
        within = named == expected ? within : named;
        play_both(both);
        seconds[MBRB_RECORD_AT(0, 0) + MBRB_BODY_AT + bit / 8] = changed;
        named = named_on(7);
        across = named == expected ? across : named;
    }
    told_named("a held by us, and a with one bit changed by unit 2, for each of the 128 bits", expected, across);
    told_named("a held by us, and a with one bit changed noted, for each of the 128 bits", expected, within);
}

/* Unit 0 is sound: it announced a on day 7, and b on day 8, each under number 0. No call can know. */
static void names_of_two_days(void)
{
    static const struct heard heard[] = {{2, 0, 0, 1, 'b', MBRB_SIGNED}, {1, 0, 0, 1, 'a', MBRB_SIGNED}, {0}};

    play_both(heard);
    told_named("a of day 7 beside b of day 8, although unit 0 is sound", 1, named_on(7));
    told_named("the same with day 8 in the table", 1, named_on(8));
}

/* A length is wrong by one byte, and records by their very last byte: that of an empty record, which would name nobody. */
static void refused_recordings(void)
{
    static const struct heard nothing[] = {{0}}, held[] = {{2, 0, 0, 1, 'a', MBRB_SIGNED}, {1, 0, 0, 1, 'a', MBRB_SIGNED}, {0}},
                              delivered[] = {{2, 0, 0, 1 | 16 | 32 | 64, 'a', MBRB_DELIVERED}, {0}};
    const struct table ours = site_of(1);
    const size_t all = SITE_RECORDS, last = SITE_RECORDS - 1;

    puts("what refuses first: the table with either number, length and records of ours, those of unit 2, and then that both are ours");
    play_both(nothing);
    records[last] = seconds[last] = 1;
    TOLD(MBRB_BAD_TABLE, check_by(site_of(SITE_UNITS), 1, last, last));
    TOLD(MBRB_BAD_TABLE, check_by(ours, SITE_UNITS, last, last));
    TOLD(MBRB_RECORDS_LENGTH, check_by(ours, 1, last, all));
    TOLD(MBRB_UNSOUND_RECORD, check_by(ours, 1, all, last));
    records[last] = 0;
    TOLD(MBRB_RECORDS_LENGTH, check_by(ours, 1, all, last));
    TOLD(MBRB_UNSOUND_RECORD, check_by(ours, 1, all, all));
    seconds[last] = 0;
    TOLD(MBRB_SAME_UNIT, check_by(ours, 1, all, all));
    TOLD(MBRB_COMPARED, check_by(ours, 2, all, all));
    puts("each for its own unit: as they are, with the numbers exchanged, ours as unit 3's, unit 2's as unit 3's");
    play_both(held);
    TOLD(MBRB_COMPARED, check_by(ours, 2, all, all));
    TOLD(MBRB_UNSOUND_RECORD, check_by(site_of(2), 1, all, all));
    TOLD(MBRB_UNSOUND_RECORD, check_by(site_of(3), 2, all, all));
    TOLD(MBRB_UNSOUND_RECORD, check_by(ours, 3, all, all));
    puts("by the quorum: five have signed what unit 2 has delivered, and the quorum is 5, then 6");
    play_both(delivered);
    TOLD(MBRB_COMPARED, check_by(site(5), 2, all, all));
    TOLD(MBRB_UNSOUND_RECORD, check_by(site(6), 2, all, all));
}

int main(void)
{
    refused_from_the_input();
    refused_from_the_state();
    done();
    previews();
    places();
    second_words();
    macros();
    yesterday();
    quorums();
    counted_by_the_quorum();
    setpoints();
    setpoints_by_the_quorum();
    names();
    names_by_a_bit();
    names_of_two_days();
    refused_recordings();
    return differ;
}
