// 200,000 calls of the library from one generator, right and damaged, and a digest of what every call answered and left: its answer, what it stored
// through pointers, and the bytes that it was lent, with those before and behind them. A line for each thousand calls, so that two machines
// that differ are found to differ there; built with -DTHOUSAND=k it prints each call of that thousand. Everything that C lets stand at any
// address is lent at odd ones too.
#include <stdio.h>
#include <stdlib.h>
#include <string.h>
#include "metlazuel.h"

#ifndef THOUSAND
#define THOUSAND -1
#endif

enum { CALLS = 200000, A_LINE = 1000, GUARD = 8, SHIFTS = 8, METER = 1, FILL = 0xEE, UNLOCK_BYTES = 8 };

// ---- the generator, and the digest

static uint32_t rolled = 0x2F6E2B1;

static uint32_t roll(uint32_t below)
{
    rolled ^= rolled << 13;
    rolled ^= rolled >> 17;
    rolled ^= rolled << 5;
    return rolled % below;
}

static uint8_t byte(void) { return (uint8_t)roll(256); }

// Once in so many.
static int seldom(uint32_t often) { return roll(often) == 0; }

// C evaluates the arguments of a call in any order: what is rolled for them is rolled before, all dice at once, and looked up by number.
static uint32_t dice[16];

static void throw_dice(void)
{
    for (int k = 0; k < 16; k++)
        dice[k] = roll(0xFFFFFFFF);
}

static uint32_t die(int k, uint32_t below) { return dice[k] / 8 % below; }

// A number that is right, or once in so many one that is some steps off.
static metlazuel_size near(int k, metlazuel_size right, uint32_t often)
{
    if (dice[k] % often != 0)
        return right;
    metlazuel_size off = dice[k] >> 16 & 3;
    return dice[k] >> 20 & 1 ? right + off : right >= off ? right - off : 0;
}

static uint32_t digest = 2166136261u;
static int32_t calls;

static void fold(const void *from, metlazuel_size n)
{
    const uint8_t *at = (const uint8_t *)from;
    for (uint32_t left = (uint32_t)n; left != 0; left--)
        digest = (digest ^ *at++) * 16777619u;
}

static void fold_number(uint64_t n)
{
    for (int i = 0; i < 8; i++, n >>= 8) {
        uint8_t low = (uint8_t)n;
        fold(&low, 1);
    }
}

// ---- what is lent: memory with room on both sides, at an address of its own each time

struct lent {
    uint8_t *whole, *at;
    metlazuel_size room;
};

#define ROOM(name, bytes)                                            \
    static uint8_t name##_bytes[(bytes) + SHIFTS + 2 * GUARD];       \
    static struct lent name = {name##_bytes, name##_bytes + GUARD, bytes}

ROOM(image, METLAZUEL_LOG_BYTES);
ROOM(back, METLAZUEL_LOG_BYTES);
ROOM(file, METLAZUEL_FILE_BYTES);
ROOM(record, METLAZUEL_RECORD_BYTES);
ROOM(store, METLAZUEL_STORE_BYTES);
ROOM(ask, METLAZUEL_ASK_BYTES + 1);
ROOM(frame, METLAZUEL_FRAME_BYTES + 8);
ROOM(reply, METLAZUEL_FRAME_BYTES + 8);
ROOM(rest, METLAZUEL_MERCURY_REST + 2);

static uint32_t figures[METLAZUEL_DAY_FIGURES + METLAZUEL_ROW], again[METLAZUEL_DAY_FIGURES + METLAZUEL_ROW], row[METLAZUEL_FIGURES + 4];
static metlazuel_size length, count;
static uint8_t result;

// To another address, with the first n bytes.
static void move(struct lent *b, metlazuel_size n)
{
    uint8_t *to = b->whole + GUARD + roll(SHIFTS);
    memmove(to, b->at, (size_t)n);
    b->at = to;
}

// Another address, and nothing of what was there.
static void fresh(struct lent *b)
{
    memset(b->whole, FILL, (size_t)b->room + SHIFTS + 2 * GUARD);
    b->at = b->whole + GUARD + roll(SHIFTS);
}

static void left(const struct lent *b, metlazuel_size n)
{
    fold(b->at - GUARD, n + 2 * GUARD);
}

static void fold_row(const uint32_t *numbers, int n)
{
    for (int i = 0; i < n; i++)
        fold_number(numbers[i]);
}

// Every call ends here.
static uint8_t answered(const char *call, uint32_t answer)
{
    fold_number(answer);
    fold_number(length);
    fold_number(count);
    fold(&result, 1);
    length = 77;
    count = 88;
    result = 99;
    calls++;
    if (calls / A_LINE == THOUSAND)
        printf("%ld %s %u %08lx\n", (long)calls, call, (unsigned)answer, (unsigned long)digest);
    if (calls % A_LINE == 0) {
        left(&store, METLAZUEL_STORE_BYTES);
        left(&record, METLAZUEL_RECORD_BYTES);
        printf("%3ld %08lx\n", (long)(calls / A_LINE), (unsigned long)digest);
    }
    return (uint8_t)answer;
}

// ---- the log under test: its length, days and slots

static metlazuel_size n;
static uint8_t days, slots;

// The log, its figures and the ask, after a call. A long log is looked at seldom.
static void left_log(void)
{
    if (n < 6000 || calls % 64 == 0)
        left(&image, n);
    else
        left(&image, METLAZUEL_HEADER_BYTES + 64);
    fold_row(figures, METLAZUEL_ROW * (days < 4 ? days : 4) + 1);
    left(&ask, ask.room);
}

static void new_log(void)
{
    static const uint8_t dates[][2] = {{3, 29}, {3, 30}, {3, 31}, {3, 25}, {10, 25}, {10, 27}, {10, 31}, {2, 28}, {2, 29}, {12, 30}, {5, 17}};
    uint32_t k = roll(sizeof dates / sizeof dates[0]);
    uint8_t minutes = seldom(3) ? 15 : 30, year = seldom(10) ? 99 : (uint8_t)roll(100);
    days = (uint8_t)(seldom(25) ? 1 + roll(62) : 1 + roll(3));
    fresh(&image);
    memset(figures, FILL, sizeof figures);
    slots = minutes == 15 ? 96 : 48;
    throw_dice();
    // Some headers and rooms are refused.
    metlazuel_size right = METLAZUEL_IMAGE_BYTES((metlazuel_size)days * slots);
    uint8_t got = metlazuel_log_fresh(image.at, near(0, right, 10), figures, near(1, METLAZUEL_ROW * days, 10), year, dates[k][0], dates[k][1], days,
                                      (uint8_t)(die(2, 40) == 0 ? die(3, 256) : minutes), (uint16_t)die(4, 60000), (uint8_t)die(5, 20) / 9, &length);
    n = got == METLAZUEL_DONE ? length : METLAZUEL_HEADER_BYTES;
    answered("log_fresh", got);
    left_log();
    if (got != METLAZUEL_DONE || n != right) {
        days = 1;
        slots = 48;
        metlazuel_log_fresh(image.at, METLAZUEL_LOG_BYTES, figures, METLAZUEL_DAY_FIGURES, 24, 3, 31, 1, 30, 100, 1, &n);
    }
    memset(ask.at, 0, METLAZUEL_ASK_BYTES);
}

// ---- the meter

static void new_meter(void)
{
    fresh(&record);
    throw_dice();
    uint8_t got = metlazuel_meter_make(record.at, near(0, METLAZUEL_RECORD_BYTES, 30), METER, die(1, 2) == 0 ? 15 : 30, die(2, die(3, 20) == 0 ? 0xFFFFFFFF : 5000),
                                       (uint16_t)die(4, 300), (uint16_t)die(5, 65536), (uint8_t)die(6, 101), (uint8_t)(1 + die(7, 12)), (uint8_t)(1 + die(8, 29)),
                                       (uint8_t)die(9, 24), (uint8_t)(die(10, 2) == 0 ? 59 : die(11, 61)), (uint8_t)(die(12, 2) == 0 ? 59 : die(13, 60)),
                                       (uint8_t)die(14, 2));
    answered("meter_make", got);
    left(&record, record.room);
    if (got != METLAZUEL_DONE)
        metlazuel_meter_make(record.at, METLAZUEL_RECORD_BYTES, METER, 30, 2000, 100, 0, 24, 3, 31, 1, 59, 59, 0);
}

static uint16_t some_count(int k) { return (uint16_t)(dice[k] % 3 == 0 ? 0 : dice[k] % 20 == 0 ? 65535 : die(k, 3000)); }

// A slice for a date of the log, as the log's header has it, or for another.
static void put_slice(uint8_t slot)
{
    throw_dice();
    uint8_t month = die(0, 20) == 0 ? (uint8_t)die(1, 256) : image.at[METLAZUEL_AT_MONTH], day = (uint8_t)(image.at[METLAZUEL_AT_DAY] + die(2, 2));
    uint8_t got = metlazuel_meter_slice(record.at, near(3, METLAZUEL_RECORD_BYTES, 60), store.at, near(4, METLAZUEL_STORE_BYTES, 60), month, day, slot, some_count(5),
                                        some_count(6), some_count(7), some_count(8));
    answered("meter_slice", got);
    left(&record, METLAZUEL_RECORD_BYTES);
}

// The bits of a float: of any, or of one that a power may be.
static uint32_t some_power(int k) { return dice[k] % 4 == 0 ? dice[k + 1] : 0x3F800000 + die(k, 0x0A000000) + (dice[k + 1] & 0x80000000); }

static void bench(void)
{
    uint8_t got;
    throw_dice();
    switch (roll(8)) {
    case 0:
        got = metlazuel_meter_powers(record.at, METLAZUEL_RECORD_BYTES, (uint8_t)(8 + die(0, 20) / 9), some_power(1), some_power(3), some_power(5));
        answered("meter_powers", got);
        break;
    case 1:
        got = metlazuel_meter_ratios(record.at, METLAZUEL_RECORD_BYTES, die(0, die(1, 3) == 0 ? 0xFFFFFFFF : 1200), die(2, die(3, 3) == 0 ? 100000 : 1200));
        answered("meter_ratios", got);
        break;
    case 2:
    case 3:
        put_slice((uint8_t)roll(100));
        return;
    default:
        got = metlazuel_meter_second(record.at, near(4, METLAZUEL_RECORD_BYTES, 40));
        answered("meter_second", got);
    }
    left(&record, METLAZUEL_RECORD_BYTES);
}

// ---- frames

static void seal(uint8_t *f, metlazuel_size bytes)
{
    uint16_t crc = metlazuel_crc16(f, bytes - 2);
    f[bytes - 2] = (uint8_t)crc;
    f[bytes - 1] = (uint8_t)(crc >> 8);
}

// A float of a reply made an infinity or no number, and the reply sealed again.
static void endless(metlazuel_size bytes)
{
    uint8_t *at = reply.at + 4 + 4 * roll((uint32_t)(bytes - 6) / 4);
    at[2] = (uint8_t)(0x80 + roll(4));
    at[3] = seldom(2) ? 0x7F : 0xFF;
    seal(reply.at, bytes);
}

// A frame as it is, with a bit changed, with a byte changed and sealed again, or cut; its length then.
static metlazuel_size damaged(struct lent *b, metlazuel_size bytes, uint32_t often)
{
    move(b, bytes);
    if (bytes < 4 || !seldom(often))
        return bytes;
    uint32_t at = roll((uint32_t)bytes);
    switch (roll(4)) {
    case 0:
        b->at[at] ^= (uint8_t)(1 << roll(8));
        return bytes;
    case 1:
        b->at[at] = byte();
        seal(b->at, bytes);
        return bytes;
    case 2:
        return roll((uint32_t)bytes);
    default:
        return bytes + roll(5);
    }
}

// The meter answers what stands in frame; the length of the reply, 0 where there is none.
static metlazuel_size exchange(metlazuel_size bytes)
{
    bytes = damaged(&frame, bytes, 8);
    fresh(&reply);
    throw_dice();
    uint8_t got = metlazuel_meter_answer(record.at, near(0, METLAZUEL_RECORD_BYTES, 100), store.at, near(1, METLAZUEL_STORE_BYTES, 100), frame.at, bytes, reply.at,
                                         near(2, METLAZUEL_FRAME_BYTES, 50), &length);
    metlazuel_size replied = length == 77 ? 0 : length;
    answered("meter_answer", got);
    left(&reply, reply.room);
    left(&record, METLAZUEL_RECORD_BYTES);
    return replied;
}

// ---- the log's calls

static void look(uint8_t day, uint8_t slot)
{
    // Counts at an address that is even and no more.
    static uint16_t places[METLAZUEL_COUNTS + 3];
    uint16_t *counts = places + roll(3);
    throw_dice();
    uint8_t kind = 7, lapses = 7, gap = 7, got = metlazuel_cell(image.at, near(0, n, 50), day, slot, &kind, counts, &lapses);
    answered("cell", got);
    for (int i = 0; i < METLAZUEL_COUNTS; i++)
        fold_number(counts[i]);
    fold(&kind, 1);
    fold(&lapses, 1);
    got = metlazuel_next_gap(image.at, near(1, n, 50), day, slot, &gap);
    answered("next_gap", got);
    fold(&gap, 1);
    memset(row, FILL, sizeof row);
    got = metlazuel_day_report(image.at, near(2, n, 50), figures, near(3, METLAZUEL_DAY_FIGURES, 50), day, row, near(4, METLAZUEL_ROW, 20));
    answered("day_report", got);
    fold_row(row, METLAZUEL_ROW + 2);
}

static void take(metlazuel_size bytes)
{
    throw_dice();
    uint8_t got = metlazuel_take(image.at, near(0, n, 80), figures, near(1, METLAZUEL_ROW * days, 80), ask.at, near(2, METLAZUEL_ASK_BYTES, 80), reply.at, bytes, &result,
                                 &length);
    answered("take", got);
    left_log();
}

static void lapse(void)
{
    throw_dice();
    uint8_t got = metlazuel_lapse(image.at, near(0, n, 40), ask.at, near(1, METLAZUEL_ASK_BYTES, 40));
    answered("lapse", got);
    left_log();
}

// A reply that is made here: counts, zeros or a refusal.
static metlazuel_size made_reply(void)
{
    static const uint8_t head[4] = {METER, METLAZUEL_FUNCTION_READ, METLAZUEL_PARAMETER_SLICE, 0};
    metlazuel_size bytes = seldom(6) ? 6 : 14;
    fresh(&reply);
    memcpy(reply.at, head, sizeof head);
    if (bytes == 6) {
        reply.at[1] |= METLAZUEL_FUNCTION_REFUSED;
        reply.at[3] = (uint8_t)(1 + roll(20));
    }
    for (int i = 4; i < 12; i++)
        reply.at[i] = seldom(3) ? byte() : 0;
    seal(reply.at, bytes);
    return bytes;
}

static void dialogue(void)
{
    uint32_t past = seldom(10) ? 5 : 0;
    uint8_t day = (uint8_t)roll(days + past), slot = (uint8_t)(seldom(3) ? roll(12) : roll(slots + past));
    if (seldom(4))
        put_slice(slot);
    if (seldom(8))
        move(&image, n);
    move(&ask, METLAZUEL_ASK_BYTES);
    fresh(&frame);
    throw_dice();
    uint8_t got = metlazuel_ask(image.at, near(0, n, 80), ask.at, near(1, METLAZUEL_ASK_BYTES, 80), METER, day, slot, frame.at, near(2, METLAZUEL_REQUEST_BYTES, 40));
    answered("ask", got);
    left(&frame, METLAZUEL_REQUEST_BYTES + 4);
    left_log();
    metlazuel_size bytes = got == METLAZUEL_DONE && seldom(2) ? exchange(METLAZUEL_REQUEST_BYTES) : made_reply();
    if (bytes == 0 || seldom(6))
        lapse();
    else
        take(damaged(&reply, bytes, 5));
    if (seldom(10))
        take(bytes);
    if (seldom(2))
        lapse();
    look(day, slot);
}

// A byte of the log, the ask or the figures changed, the calls made, and the byte put back.
static void spoiled(void)
{
    uint32_t place = roll(seldom(2) ? METLAZUEL_HEADER_BYTES : (uint32_t)n);
    uint8_t *at = seldom(8) ? ask.at + place % METLAZUEL_ASK_BYTES : image.at + place, was = *at;
    uint32_t *figure = figures + roll(METLAZUEL_ROW * days), figure_was = *figure;
    uint8_t day = (uint8_t)roll(days), slot = (uint8_t)roll(slots);
    *at = seldom(2) ? byte() : (uint8_t)(was ^ 1u << roll(8));
    if (seldom(4))
        *figure = seldom(2) ? 0xFFFFFFFF : 0;
    look(day, slot);
    if (n < 3000) {
        fresh(&file);
        uint8_t got = metlazuel_write_file(image.at, n, file.at, METLAZUEL_FILE_BYTES, &length);
        answered("write_file", got);
        left(&file, 64);
    }
    uint8_t kept[METLAZUEL_ASK_BYTES];
    memcpy(kept, ask.at, sizeof kept);
    take(made_reply());
    lapse();
    memcpy(ask.at, kept, sizeof kept);
    *at = was;
    *figure = figure_was;
}

// The same cells as a file of version 1 or 2: rows without lapses.
static metlazuel_size older(metlazuel_size bytes, uint8_t version)
{
    metlazuel_size to = METLAZUEL_HEADER_BYTES;
    for (metlazuel_size from = to; from + METLAZUEL_FILE_CELL_BYTES + 2 <= bytes; from += METLAZUEL_FILE_CELL_BYTES, to += METLAZUEL_FILE_AT_LAPSES)
        memmove(file.at + to, file.at + from, METLAZUEL_FILE_AT_LAPSES);
    file.at[METLAZUEL_AT_VERSION] = version;
    seal(file.at, to + 2);
    return to + 2;
}

static void files(void)
{
    if (n > 3000 && !seldom(12))
        return;
    fresh(&file);
    throw_dice();
    metlazuel_size right = METLAZUEL_HEADER_BYTES + METLAZUEL_FILE_CELL_BYTES * ((metlazuel_size)days * slots) + 2;
    uint8_t got = metlazuel_write_file(image.at, n, file.at, die(0, 4) == 0 ? near(1, right, 2) : METLAZUEL_FILE_BYTES, &length);
    metlazuel_size bytes = length;
    answered("write_file", got);
    if (got != METLAZUEL_DONE) {
        left(&file, 64);
        return;
    }
    left(&file, bytes);
    if (seldom(4))
        bytes = older(bytes, (uint8_t)(1 + roll(2)));
    bytes = damaged(&file, bytes, 2);
    fresh(&back);
    memset(again, FILL, sizeof again);
    throw_dice();
    got = metlazuel_read_file(file.at, bytes, back.at, die(0, 4) == 0 ? near(1, n, 2) : METLAZUEL_LOG_BYTES, again, near(2, METLAZUEL_ROW * days, 20), &length);
    metlazuel_size read = got == METLAZUEL_DONE ? length : 64;
    answered("read_file", got);
    left(&back, read);
    fold_row(again, METLAZUEL_ROW * (days < 4 ? days : 4) + 1);
}

// ---- reads without a log, commands, and the Mercury 206

static void reads(void)
{
    static const uint8_t parameters[] = {8, 9, 21, 24, 27, 28, 32, 35, 36, 37, 40};
    uint8_t parameter = seldom(12) ? byte() : parameters[roll(sizeof parameters)], four = (uint8_t)seldom(4), a = 0, b = 0, c = 0;
    if (four && !seldom(4))
        parameter = METLAZUEL_PARAMETER_SLICE;
    if (parameter == METLAZUEL_PARAMETER_SLICE || parameter == METLAZUEL_PARAMETER_SIX_SLICES) {
        a = image.at[METLAZUEL_AT_MONTH];
        b = image.at[METLAZUEL_AT_DAY];
        c = (uint8_t)roll(100);
    } else if (seldom(3)) {
        c = (uint8_t)roll(5);
    }
    fresh(&frame);
    throw_dice();
    metlazuel_size room = near(0, METLAZUEL_REQUEST_BYTES, 30);
    uint8_t got = four ? metlazuel_request4(METER, parameter, a, b, c, frame.at, room) : metlazuel_request(METER, parameter, a, b, c, frame.at, room);
    answered(four ? "request4" : "request", got);
    left(&frame, METLAZUEL_REQUEST_BYTES + 4);
    metlazuel_size bytes = got == METLAZUEL_DONE ? exchange(METLAZUEL_REQUEST_BYTES) : made_reply();
    if (parameter < 10 && bytes >= 10 && seldom(3))
        endless(bytes);
    bytes = damaged(&reply, bytes, 4);
    memset(row, FILL, sizeof row);
    throw_dice();
    room = near(0, METLAZUEL_FIGURES, 20);
    got = four ? metlazuel_decode4(METER, parameter, a, b, c, reply.at, bytes, row, room, &count, &result, &length)
               : metlazuel_decode(METER, parameter, a, b, c, reply.at, bytes, row, room, &count, &result, &length);
    answered(four ? "decode4" : "decode", got);
    fold_row(row, METLAZUEL_FIGURES + 4);
}

// The factory's password, which opens every change and zeroing.
static void unlock(void)
{
    static const uint8_t head[4] = {METER, METLAZUEL_FUNCTION_UNLOCK, 0, 0};
    fresh(&frame);
    memcpy(frame.at, head, sizeof head);
    memset(frame.at + 4, '0', UNLOCK_BYTES);
    seal(frame.at, 4 + UNLOCK_BYTES + 2);
    exchange(4 + UNLOCK_BYTES + 2);
}

// A change, a zeroing, a locking or anything else, of a length that fits or does not.
static void command(void)
{
    static const uint8_t functions[] = {16, 16, 16, 30, 30, 31, 32, 3, 4}, parameters[] = {0, 21, 24, 27, 28, 32, 35, 36, 37};
    static const uint8_t lengths[] = {0, 1, 2, 4, 6, 7, 8, 8, 9, 10, 12};
    if (seldom(2))
        unlock();
    fresh(&frame);
    frame.at[0] = (uint8_t)(seldom(5) ? roll(3) : METER);
    frame.at[1] = seldom(20) ? byte() : functions[roll(sizeof functions)];
    frame.at[2] = seldom(20) ? byte() : parameters[roll(sizeof parameters)];
    frame.at[3] = (uint8_t)(seldom(10) ? roll(4) : 0);
    metlazuel_size bytes = 4u + (frame.at[1] == METLAZUEL_FUNCTION_ZERO && seldom(2) ? 0u : lengths[roll(sizeof lengths)]);
    for (metlazuel_size i = 4; i < bytes; i++)
        frame.at[i] = (uint8_t)(seldom(2) ? roll(13) : '0');
    seal(frame.at, bytes + 2);
    exchange(bytes + 2);
}

// A figure of so many at most: any, or at times the most or one above it.
static uint32_t figure_to(int k, uint32_t most) { return dice[k] % 16 == 0 ? most + (dice[k] >> 16 & 1) : die(k, most + 1); }

static void mercury(void)
{
    static const uint8_t commands[] = {METLAZUEL_MERCURY_TARIFFS, METLAZUEL_MERCURY_LOAD, METLAZUEL_MERCURY_FREQUENCY};
    enum { EIGHT_DIGITS = 99999999, SIX_DIGITS = 999999, FOUR_DIGITS = 9999 };
    uint32_t address = roll(0xFFFFFFFF);
    uint8_t order = seldom(10) ? byte() : commands[roll(sizeof commands)], got;
    fresh(&frame);
    throw_dice();
    got = metlazuel_mercury_request(address, order, frame.at, near(0, METLAZUEL_MERCURY_REQUEST_BYTES, 20));
    answered("mercury_request", got);
    left(&frame, METLAZUEL_MERCURY_REQUEST_BYTES + 2);
    fresh(&rest);
    fresh(&reply);
    metlazuel_size bytes = damaged(&frame, METLAZUEL_MERCURY_REQUEST_BYTES, 10);
    throw_dice();
    got = metlazuel_mercury_answer(address, figure_to(0, EIGHT_DIGITS), figure_to(1, EIGHT_DIGITS), figure_to(2, EIGHT_DIGITS), figure_to(3, EIGHT_DIGITS),
                                   (uint16_t)figure_to(4, FOUR_DIGITS), (uint16_t)figure_to(5, FOUR_DIGITS), figure_to(6, SIX_DIGITS), (uint16_t)figure_to(7, FOUR_DIGITS),
                                   rest.at, near(8, METLAZUEL_MERCURY_REST, 4), frame.at, bytes, reply.at, near(9, METLAZUEL_FRAME_BYTES, 20), &length);
    bytes = got == METLAZUEL_DONE ? length : roll(30);
    answered("mercury_answer", got);
    left(&reply, reply.room);
    bytes = damaged(&reply, bytes, 4);
    memset(row, FILL, sizeof row);
    throw_dice();
    got = metlazuel_mercury_decode(address, order, reply.at, bytes, row, near(0, METLAZUEL_MERCURY_FIGURES, 10), &count);
    answered("mercury_decode", got);
    fold_row(row, METLAZUEL_MERCURY_FIGURES + 2);
}

static void crcs(void)
{
    uint32_t from = roll(64), bytes = roll(seldom(20) ? 5000 : 40);
    answered("crc16", metlazuel_crc16(store.at + from, bytes));
}

int main(void)
{
    static void (*const acts[])(void) = {dialogue, dialogue, dialogue, dialogue, spoiled, files, reads, reads, command, bench, mercury, crcs};
    fresh(&image);
    fresh(&ask);
    memset(store_bytes, 0, sizeof store_bytes);
    while (calls < CALLS) {
        if (calls == 0 || seldom(40))
            new_log();
        if (calls <= 1 || seldom(60))
            new_meter();
        if (seldom(200))
            move(&store, METLAZUEL_STORE_BYTES);
        if (seldom(10))
            move(&record, METLAZUEL_RECORD_BYTES);
        acts[roll(sizeof acts / sizeof acts[0])]();
    }
    return 0;
}
