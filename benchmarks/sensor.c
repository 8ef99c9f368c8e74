// A sensor's calls on a Cortex-M3 under QEMU, beside the same work in plain C (plain.c): the instructions of each call, the stack that it reaches down to, and what a
// day costs. QEMU runs with -icount shift=8, so that every instruction takes 256 ns, and SysTick counts 25 MHz of it: 6.4 ticks an instruction, which
// makes a count exact. Both sides' answers are compared on the way.
#include <stdio.h>
#include <stdlib.h>
#include <string.h>
#include "metlazuel.h"
#include "plain.h"

enum { DAYS = 31, SLOTS = 48, CELLS = DAYS * SLOTS, METER = 1, LATE = 30, LAST = SLOTS - 1 };
enum { IMAGE = METLAZUEL_IMAGE_BYTES(CELLS), FILE_BYTES = METLAZUEL_HEADER_BYTES + METLAZUEL_FILE_CELL_BYTES * CELLS + 2, NUMBERS = METLAZUEL_ROW * DAYS };

// ---- two sides, each with a log of its own

struct side {
    uint8_t log[IMAGE], file[FILE_BYTES], back[IMAGE], ask[METLAZUEL_ASK_BYTES], frame[METLAZUEL_FRAME_BYTES], kind, lapses, gap, result, answer;
    uint16_t counts[METLAZUEL_COUNTS], crc;
    uint32_t figures[NUMBERS], again[NUMBERS], row[METLAZUEL_FIGURES];
    metlazuel_size length, received, count;
    size_t c_length, c_received;
};

static struct side kept, ours, c;
static uint8_t record[METLAZUEL_RECORD_BYTES], store[METLAZUEL_STORE_BYTES];
static const uint8_t open_ask[METLAZUEL_ASK_BYTES] = {1, METER, LATE, LAST}, rest[METLAZUEL_MERCURY_REST];
static uint8_t reply[14] = {METER, METLAZUEL_FUNCTION_READ, METLAZUEL_PARAMETER_SLICE, 0, 12, 1, 0, 0, 3, 0, 1, 0};
static uint8_t clock_frame[8] = {METER, METLAZUEL_FUNCTION_READ, METLAZUEL_PARAMETER_CLOCK}, clock_reply[METLAZUEL_FRAME_BYTES];
static uint8_t load_request[METLAZUEL_MERCURY_REQUEST_BYTES], load_reply[METLAZUEL_FRAME_BYTES];
static metlazuel_size clock_bytes, load_bytes;

static void stop(const char *what)
{
    printf("%s\n", what);
    exit(1);
}

static void expect(const char *what, uint8_t answer)
{
    if (answer != METLAZUEL_DONE)
        stop(what);
}

static void seal(uint8_t *f, size_t n)
{
    uint16_t crc = c_crc_words(f, n - 2);
    f[n - 2] = (uint8_t)crc;
    f[n - 1] = (uint8_t)(crc >> 8);
}

// A month of half hours, whose last day has one gap: its last slot. All other cells are measured.
static void make(void)
{
    uint8_t again_reply[14];
    metlazuel_size n;
    make_tables();
    expect("fresh", metlazuel_log_fresh(kept.log, IMAGE, kept.figures, NUMBERS, 24, 5, 1, DAYS, 30, 100, 1, &n));
    for (unsigned i = 0; i < CELLS - 1; i++) {
        uint8_t ask[METLAZUEL_ASK_BYTES] = {1, METER, (uint8_t)(i / SLOTS), (uint8_t)(i % SLOTS)};
        memcpy(again_reply, reply, sizeof reply);
        again_reply[4] = (uint8_t)i;
        again_reply[5] = (uint8_t)(1 + i / 256);
        seal(again_reply, sizeof again_reply);
        expect("take", metlazuel_take(kept.log, IMAGE, kept.figures, NUMBERS, ask, sizeof ask, again_reply, sizeof again_reply, &kept.result, &kept.received));
    }
    seal(reply, sizeof reply);
    seal(clock_frame, sizeof clock_frame);
    expect("make", metlazuel_meter_make(record, sizeof record, METER, 30, 2000, 100, 0, 24, 5, 31, 23, 59, 59, 1));
    expect("slice", metlazuel_meter_slice(record, sizeof record, store, sizeof store, 5, 31, LAST, 12, 0, 3, 0));
    expect("clock", metlazuel_meter_answer(record, sizeof record, store, sizeof store, clock_frame, 8, clock_reply, sizeof clock_reply, &clock_bytes));
    expect("mercury", metlazuel_mercury_request(1234, METLAZUEL_MERCURY_LOAD, load_request, sizeof load_request));
    expect("mercury", metlazuel_mercury_answer(1234, 1, 2, 3, 4, 2300, 150, 100, 5000, rest, sizeof rest, load_request, sizeof load_request, load_reply,
                                               sizeof load_reply, &load_bytes));
}

// Both as they were, with the ask for the last slot open or none.
static void again(int asked)
{
    memcpy(kept.ask, open_ask, sizeof open_ask);
    kept.ask[0] = (uint8_t)asked;
    ours = kept;
    c = kept;
}

static void with_ask(void) { again(1); }
static void without_ask(void) { again(0); }

static void with_reply_again(void)
{
    again(1);
    expect("take", metlazuel_take(ours.log, IMAGE, ours.figures, NUMBERS, ours.ask, 4, reply, 14, &ours.result, &ours.received));
    memcpy(ours.ask, open_ask, sizeof open_ask);
    c = ours;
}

static void with_file(void)
{
    again(0);
    expect("write", metlazuel_write_file(ours.log, IMAGE, ours.file, FILE_BYTES, &ours.length));
    c = ours;
    ours.length = 0;
}

// ---- the calls

static void nothing(void) {}
static void ours_crc(void) { ours.crc = metlazuel_crc16(reply, 12); }
static void tables_crc(void) { c.crc = c_crc_appendix(reply, 12); }
static void fold_crc(void) { c.crc = c_crc_fold(reply, 12); }
static void ours_fresh(void) { ours.answer = metlazuel_log_fresh(ours.log, IMAGE, ours.figures, NUMBERS, 24, 5, 1, DAYS, 30, 100, 1, &ours.length); }
static void c_fresh(void) { c.answer = c_log_fresh(c.log, IMAGE, c.figures, NUMBERS, 24, 5, 1, DAYS, 30, 100, 1, &c.c_length); }
static void ours_ask(void) { ours.answer = metlazuel_ask(ours.log, IMAGE, ours.ask, 4, METER, LATE, LAST, ours.frame, 8); }
static void ask_by(c_crc *crc) { c.answer = c_ask(crc, c.log, IMAGE, c.ask, 4, METER, LATE, LAST, c.frame, 8); }
static void tables_ask(void) { ask_by(c_crc_appendix); }
static void fold_ask(void) { ask_by(c_crc_fold); }
static void ours_lapse(void) { ours.answer = metlazuel_lapse(ours.log, IMAGE, ours.ask, 4); }
static void plain_lapse(void) { c.answer = c_lapse(c.log, IMAGE, c.ask, 4); }

static void ours_take(void)
{
    ours.answer = metlazuel_take(ours.log, IMAGE, ours.figures, NUMBERS, ours.ask, 4, reply, sizeof reply, &ours.result, &ours.received);
}

static void take_by(c_crc *crc) { c.answer = c_take(crc, c.log, IMAGE, c.figures, NUMBERS, c.ask, 4, reply, sizeof reply, &c.result, &c.c_received); }
static void tables_take(void) { take_by(c_crc_appendix); }
static void fold_take(void) { take_by(c_crc_fold); }
static void ours_report(void) { ours.answer = metlazuel_day_report(ours.log, IMAGE, ours.figures, NUMBERS, LATE, ours.row, METLAZUEL_ROW); }
static void plain_report(void) { c.answer = c_day_report(c.log, IMAGE, c.figures, NUMBERS, LATE, c.row, METLAZUEL_ROW); }
static void ours_cell(void) { ours.answer = metlazuel_cell(ours.log, IMAGE, LATE, 20, &ours.kind, ours.counts, &ours.lapses); }
static void plain_cell(void) { c.answer = c_cell(c.log, IMAGE, LATE, 20, &c.kind, c.counts, &c.lapses); }
static void ours_gap(void) { ours.answer = metlazuel_next_gap(ours.log, IMAGE, LATE, 0, &ours.gap); }
static void plain_gap(void) { c.answer = c_next_gap(c.log, IMAGE, LATE, 0, &c.gap); }
static void ours_write(void) { ours.answer = metlazuel_write_file(ours.log, IMAGE, ours.file, FILE_BYTES, &ours.length); }
static void write_by(c_crc *crc) { c.answer = c_write_file(crc, c.log, IMAGE, c.file, FILE_BYTES, &c.c_length); }
static void tables_write(void) { write_by(c_crc_appendix); }
static void fold_write(void) { write_by(c_crc_fold); }
static void ours_read(void) { ours.answer = metlazuel_read_file(ours.file, FILE_BYTES, ours.back, IMAGE, ours.again, NUMBERS, &ours.length); }
static void read_by(c_crc *crc) { c.answer = c_read_file(crc, c.file, FILE_BYTES, c.back, IMAGE, c.again, NUMBERS, &c.c_length); }
static void tables_read(void) { read_by(c_crc_appendix); }
static void fold_read(void) { read_by(c_crc_fold); }
static void ours_request(void) { ours.answer = metlazuel_request(METER, METLAZUEL_PARAMETER_CLOCK, 0, 0, 0, ours.frame, 8); }
static void ours_request4(void) { ours.answer = metlazuel_request4(METER, METLAZUEL_PARAMETER_SLICE, 5, 31, LAST, ours.frame, 8); }

static void ours_decode(void)
{
    ours.answer = metlazuel_decode(METER, METLAZUEL_PARAMETER_CLOCK, 0, 0, 0, clock_reply, clock_bytes, ours.row, METLAZUEL_FIGURES, &ours.count, &ours.result, &ours.received);
}

static void ours_decode4(void)
{
    ours.answer = metlazuel_decode4(METER, METLAZUEL_PARAMETER_SLICE, 5, 31, LAST, reply, 14, ours.row, METLAZUEL_FIGURES, &ours.count, &ours.result, &ours.received);
}

static void ours_make(void) { ours.answer = metlazuel_meter_make(record, sizeof record, METER, 30, 2000, 100, 0, 24, 5, 31, 23, 59, 59, 1); }

static void ours_answer(void)
{
    ours.answer = metlazuel_meter_answer(record, sizeof record, store, sizeof store, clock_frame, 8, ours.frame, sizeof ours.frame, &ours.length);
}

static void ours_second(void) { ours.answer = metlazuel_meter_second(record, sizeof record); }
static void ours_slice(void) { ours.answer = metlazuel_meter_slice(record, sizeof record, store, sizeof store, 5, 31, LAST, 12, 0, 3, 0); }
static void ours_powers(void) { ours.answer = metlazuel_meter_powers(record, sizeof record, METLAZUEL_PARAMETER_ACTIVE_POWER, 0x3F800000, 0, 0); }
static void ours_ratios(void) { ours.answer = metlazuel_meter_ratios(record, sizeof record, 80, 60); }
static void ours_mercury(void) { ours.answer = metlazuel_mercury_request(1234, METLAZUEL_MERCURY_LOAD, ours.frame, 7); }

static void ours_mercury_decode(void)
{
    ours.answer = metlazuel_mercury_decode(1234, METLAZUEL_MERCURY_LOAD, load_reply, load_bytes, ours.row, METLAZUEL_MERCURY_FIGURES, &ours.count);
}

static void ours_mercury_answer(void)
{
    ours.answer = metlazuel_mercury_answer(1234, 1, 2, 3, 4, 2300, 150, 100, 5000, rest, sizeof rest, load_request, sizeof load_request, ours.frame, sizeof ours.frame,
                                           &ours.length);
}

struct row {
    const char *what;
    void (*before)(void), (*ours)(void), (*c)(void);
};

static const struct row rows[] = {
    {"CRC of 12 bytes, C by 002's two tables", without_ask, ours_crc, tables_crc},
    {"CRC of 12 bytes, C by the same fold", without_ask, ours_crc, fold_crc},
    {"ask, C by 002's tables", without_ask, ours_ask, tables_ask},
    {"ask, C by the same fold", without_ask, ours_ask, fold_ask},
    {"reply taken into a gap, C by 002's tables", with_ask, ours_take, tables_take},
    {"reply taken into a gap, C by the same fold", with_ask, ours_take, fold_take},
    {"reply taken again, C by 002's tables", with_reply_again, ours_take, tables_take},
    {"lapse of an ask", with_ask, ours_lapse, plain_lapse},
    {"cell read", without_ask, ours_cell, plain_cell},
    {"next gap, the last slot of 48", without_ask, ours_gap, plain_gap},
    {"report of a day, C by a copy", without_ask, ours_report, plain_report},
    {"fresh log of 31 days", without_ask, ours_fresh, c_fresh},
    {"file of 31 days written, C by 002's tables", without_ask, ours_write, tables_write},
    {"file of 31 days written, C by the same fold", without_ask, ours_write, fold_write},
    {"file of 31 days read, C by 002's tables", with_file, ours_read, tables_read},
    {"file of 31 days read, C by the same fold", with_file, ours_read, fold_read},
    {"request", without_ask, ours_request, NULL},
    {"request by function 4", without_ask, ours_request4, NULL},
    {"reply decoded", without_ask, ours_decode, NULL},
    {"reply decoded by function 4", without_ask, ours_decode4, NULL},
    {"meter made", without_ask, ours_make, NULL},
    {"meter: the clock read", without_ask, ours_answer, NULL},
    {"meter: a second", without_ask, ours_second, NULL},
    {"meter: a slice put", without_ask, ours_slice, NULL},
    {"meter: powers", without_ask, ours_powers, NULL},
    {"meter: ratios", without_ask, ours_ratios, NULL},
    {"Mercury 206: request", without_ask, ours_mercury, NULL},
    {"Mercury 206: reply decoded", without_ask, ours_mercury_decode, NULL},
    {"Mercury 206: answer", without_ask, ours_mercury_answer, NULL},
};

enum { ROWS = sizeof rows / sizeof rows[0] };

// Both answered alike and left the same.
static void same(const struct row *r)
{
    r->before();
    r->ours();
    r->c();
    c.length = ours.length;
    c.received = ours.received;
    ours.c_length = c.c_length;
    ours.c_received = c.c_received;
    if (memcmp(&ours, &c, sizeof c) != 0 && r->ours != ours_decode4)
        stop(r->what);
}

// ---- instructions: SysTick, 24 bits that count down

static volatile uint32_t *const control = (volatile uint32_t *)0xE000E010, *const from = (volatile uint32_t *)0xE000E014, *const now = (volatile uint32_t *)0xE000E018;

static uint32_t ticks(void (*f)(void))
{
    *from = 0xFFFFFF;
    *now = 0;
    *control = 5;
    uint32_t start = *now;
    f();
    return (start - *now) & 0xFFFFFF;
}

// 6.4 ticks an instruction, without those of the call itself.
static uint32_t instructions(void (*before)(void), void (*f)(void))
{
    uint32_t none = ticks(nothing);
    before();
    uint32_t taken = ticks(f);
    return ((taken - none) * 10 + 32) / 64;
}

// ---- the stack: the call is made on painted memory, and the deepest byte sought that it changed. Twice, since a byte may be as the paint was.

enum { PAINTED = 8192 };

static uint8_t painted[PAINTED] __attribute__((aligned(8)));

static __attribute__((noinline)) void call_on(uint8_t *top, void (*f)(void))
{
    __asm__ volatile("mov r4, sp\n mov sp, %0\n blx %1\n mov sp, r4" : "+r"(top), "+r"(f) : : "r4", "r0", "r1", "r2", "r3", "r12", "lr", "memory", "cc");
}

static unsigned reached_over(uint8_t paint, void (*before)(void), void (*f)(void))
{
    unsigned i = 0;
    before();
    memset(painted, paint, sizeof painted);
    call_on(painted + sizeof painted, f);
    while (i < sizeof painted && painted[i] == paint)
        i++;
    return (unsigned)sizeof painted - i;
}

static unsigned reached(void (*before)(void), void (*f)(void))
{
    unsigned a = reached_over(0xA5, before, f), b = reached_over(0x5A, before, f);
    return a > b ? a : b;
}

static unsigned long ratio(uint32_t a, uint32_t b) { return (100ul * a + b / 2) / b; }

static void print_rows(void)
{
    printf("%-44s %10s %10s %8s %8s %8s\n", "a call on the Cortex-M3: instructions, stack", "ours", "C -Os", "ours/C", "ours", "C -Os");
    for (int k = 0; k < ROWS; k++) {
        const struct row *r = &rows[k];
        uint32_t a = instructions(r->before, r->ours);
        unsigned depth = reached(r->before, r->ours);
        if (r->c == NULL) {
            printf("%-44s %10lu %10s %8s %8u\n", r->what, (unsigned long)a, "", "", depth);
            continue;
        }
        same(r);
        uint32_t b = instructions(r->before, r->c);
        printf("%-44s %10lu %10lu %5lu.%02lu %8u %8u\n", r->what, (unsigned long)a, (unsigned long)b, ratio(a, b) / 100, ratio(a, b) % 100, depth,
               reached(r->before, r->c));
    }
}

// ---- a day: 48 asks and replies, 48 reports, one file written

static unsigned long day_of(const char *what, void (*ask)(void), void (*take)(void), void (*report)(void), void (*write)(void))
{
    unsigned long asks = 48ul * instructions(without_ask, ask), takes = 48ul * instructions(with_ask, take);
    unsigned long reports = 48ul * instructions(without_ask, report), file = instructions(without_ask, write);
    printf("%-44s %10lu %10lu %10lu %10lu %10lu\n", what, asks, takes, reports, file, asks + takes + reports + file);
    return asks + takes + reports + file;
}

int main(void)
{
    make();
    print_rows();
    printf("\n%-44s %10s %10s %10s %10s %10s\n", "a day's instructions", "48 asks", "48 replies", "48 reports", "one file", "together");
    day_of("ours", ours_ask, ours_take, ours_report, ours_write);
    day_of("C -Os by 002's tables", tables_ask, tables_take, plain_report, tables_write);
    day_of("C -Os by the same fold", fold_ask, fold_take, plain_report, fold_write);
    return 0;
}
