// The proved functions beside the same work in plain C (plain.c): both must answer the same on good and damaged input; then both are timed,
// and the stack is measured that each call reaches down to. With the word `count`, each call is made once, for a tool that counts.
#include <stdio.h>
#include <stdlib.h>
#include <string.h>
#include <time.h>
#include <ucontext.h>
#include "metlazuel.h"
#include "plain.h"

// A file's bytes: header, a row for each cell, CRC; and those of its image: header, kinds, counts by column, lapses.
enum { DAYS = 62, SLOTS = 96, CELLS = DAYS * SLOTS, HEADER = 14, ROW_BYTES = 10, OLD_ROW = 9, ROW_LAPSES = 9, SEALED = HEADER + ROW_BYTES * CELLS };
enum { FULL = SEALED + 2, COUNTS = HEADER + CELLS / 4, LAPSES = COUNTS + 8 * CELLS, IMAGE = LAPSES + CELLS };
_Static_assert((size_t)IMAGE == METLAZUEL_LOG_BYTES && (size_t)FULL == METLAZUEL_FILE_BYTES, "the longest log and its file");

// ---- the input

static uint8_t file[FULL + 1], image[IMAGE + 1], ours_out[FULL + 1], c_out[FULL + 1];

// The file's figures, and room for those of the two outputs and a row more.
static uint32_t figures[METLAZUEL_DAY_FIGURES], ours_figures[METLAZUEL_DAY_FIGURES + METLAZUEL_ROW], c_figures[METLAZUEL_DAY_FIGURES + METLAZUEL_ROW];

static uint32_t rolled = 1;

static uint32_t roll(void)
{
    rolled ^= rolled << 13;
    rolled ^= rolled >> 17;
    rolled ^= rolled << 5;
    return rolled;
}

static void seal(void)
{
    unsigned crc = c_crc_words(file, SEALED);
    file[SEALED] = (uint8_t)crc;
    file[SEALED + 1] = (uint8_t)(crc >> 8);
}

// Cell by cell, as document 02 has the image: for input alone.
static void put_kind(uint8_t *to, size_t i, unsigned kind)
{
    to[HEADER + i / 4] = (uint8_t)((to[HEADER + i / 4] & ~(3u << 2 * (i % 4))) | kind << 2 * (i % 4));
}

static void columns_of(const uint8_t *from, uint8_t *to, size_t cells)
{
    memcpy(to, from, HEADER);
    for (size_t i = 0; i < cells; i++) {
        const uint8_t *row = from + HEADER + ROW_BYTES * i;
        put_kind(to, i, row[0]);
        for (size_t k = 0; k < 4; k++)
            memcpy(to + HEADER + cells / 4 + 2 * (k * cells + i), row + 1 + 2 * k, 2);
        to[HEADER + cells / 4 + 8 * cells + i] = row[ROW_LAPSES];
    }
}

static void make_image(void)
{
    columns_of(file, image, CELLS);
}

// A cell's count in one of the image's columns.
static uint8_t *count_of(size_t i, size_t column)
{
    return image + COUNTS + 2 * (column * CELLS + i);
}

// 62 days of 15 minutes from 2024-05-17, Ke 100, with the seasons followed: an eighth gaps, an eighth empty, the rest measured, as the last
// one is; a quarter have lapses.
static void make_file(void)
{
    static const uint8_t head[14] = {'G', 'E', 'L', 3, 0, 24, 5, 17, DAYS, 15, 100, 0, 1, 0};
    memset(file, 0, sizeof file);
    memcpy(file, head, sizeof head);
    for (size_t i = 0; i < CELLS; i++) {
        uint8_t *p = file + HEADER + ROW_BYTES * i;
        unsigned kind = i + 1 < CELLS ? roll() % 8 : 2;
        p[0] = kind < 2 ? (uint8_t)kind : 2;
        if (p[0] == 2) {
            for (int k = 1; k < 9; k++)
                p[k] = (uint8_t)roll();
            p[1] |= 1;
        }
        p[ROW_LAPSES] = roll() % 4 == 0 ? (uint8_t)roll() : 0;
    }
    seal();
    make_image();
}

// A meter at address 1 with slices of 15 minutes, and a full store: 31 days of May in turn, so the last place holds 31 May, slot 95.
static uint8_t kept[METLAZUEL_RECORD_BYTES], store[METLAZUEL_STORE_BYTES];
static struct meter meter;
static struct place places[PLACES];

static void make_meter(void)
{
    if (metlazuel_meter_make(kept, sizeof kept, 1, 15, 2000, 100, 0, 24, 5, 17, 12, 30, 0, 1) != 0)
        exit(1);
    for (unsigned i = 0; i < PLACES; i++) {
        struct place p = {5, (uint8_t)(1 + i / 96), (uint8_t)(i % 96), {0}};
        for (int k = 0; k < 4; k++)
            p.count[k] = (uint16_t)roll();
        places[i] = p;
        if (metlazuel_meter_slice(kept, sizeof kept, store, sizeof store, p.month, p.day, p.number, p.count[0], p.count[1], p.count[2],
                                  p.count[3]) != 0)
            exit(1);
    }
    c_load(&meter, kept);
}

// A frame of n bytes, sealed: address, function, parameter, offset, tariff, detail, and then what was there.
static void seal_frame(uint8_t *f, size_t n)
{
    unsigned crc = c_crc_words(f, n - 2);
    f[n - 2] = (uint8_t)crc;
    f[n - 1] = (uint8_t)(crc >> 8);
}

// ---- both answer the same

static unsigned long compared, refused;

static void differ(const char *what)
{
    printf("%s: ours and C differ\n", what);
    exit(1);
}

static void same_read_in(const uint8_t *f, size_t n, size_t room, size_t numbers)
{
    metlazuel_size ours = 7;
    size_t c = 7;
    memset(ours_out, 0xEE, sizeof ours_out);
    memset(c_out, 0xEE, sizeof c_out);
    memset(ours_figures, 0xEE, sizeof ours_figures);
    memset(c_figures, 0xEE, sizeof c_figures);
    uint8_t a = metlazuel_read_file(f, n, ours_out, room, ours_figures, numbers, &ours);
    uint8_t b = c_read_file(c_crc_fold, f, n, c_out, room, c_figures, numbers, &c);
    if (a != b || ours != c || memcmp(ours_out, c_out, sizeof c_out) != 0 || memcmp(ours_figures, c_figures, sizeof c_figures) != 0)
        differ("read");
    compared++;
    refused += a != 0;
}

static void same_read_of(const uint8_t *f, size_t n, size_t room)
{
    same_read_in(f, n, room, METLAZUEL_DAY_FIGURES);
}

static void same_read(size_t n, size_t room)
{
    same_read_of(file, n, room);
}

// The file's cells as one of version 1 or 2, whose rows have no lapses: with its own length and others, and in less room.
static void same_older(uint8_t version)
{
    static uint8_t older[FULL];
    size_t n = HEADER;
    memcpy(older, file, HEADER);
    older[3] = version;
    for (size_t i = 0; i < CELLS; i++, n += OLD_ROW)
        memcpy(older + n, file + HEADER + ROW_BYTES * i, OLD_ROW);
    unsigned crc = c_crc_words(older, n);
    older[n] = (uint8_t)crc;
    older[n + 1] = (uint8_t)(crc >> 8);
    same_read_of(older, n + 2, FULL);
    same_read_of(older, n + 2, IMAGE - 1);
    same_read_of(older, n + 1, FULL);
    older[n] ^= 1;
    same_read_of(older, n + 2, FULL);
}

static void same_report_in(size_t n, size_t numbers, unsigned day, size_t room)
{
    uint32_t ours[METLAZUEL_ROW + 1], c[METLAZUEL_ROW + 1];
    memset(ours, 0xEE, sizeof ours);
    memset(c, 0xEE, sizeof c);
    uint8_t a = metlazuel_day_report(image, n, figures, numbers, (uint8_t)day, ours, room);
    uint8_t b = c_day_report(image, n, figures, numbers, (uint8_t)day, c, room);
    if (a != b || memcmp(ours, c, sizeof c) != 0)
        differ("report");
    compared++;
    refused += a != 0;
}

static void same_report(size_t n, unsigned day, size_t room)
{
    same_report_in(n, METLAZUEL_DAY_FIGURES, day, room);
}

// Figures that were kept are those of a walk over the cells.
static void same_walk(const uint8_t *log, size_t n, const uint32_t *kept_figures)
{
    uint32_t walked[METLAZUEL_ROW];
    for (unsigned day = 0; day < log[8]; day++) {
        if (c_day_walk(log, n, (uint8_t)day, walked, METLAZUEL_ROW) != 0 || memcmp(walked, kept_figures + METLAZUEL_ROW * day, sizeof walked) != 0)
            differ("figures");
        compared++;
    }
}

static void same_crc(size_t from, size_t n)
{
    uint16_t r = metlazuel_crc16(file + from, n);
    if (r != c_crc_appendix(file + from, n) || r != c_crc_words(file + from, n) || r != c_crc_fold(file + from, n))
        differ("CRC");
    compared++;
}

static void same_answer(const uint8_t *f, size_t n, size_t room)
{
    uint8_t a[65], b[65], record[sizeof kept];
    struct meter m;
    metlazuel_size ours = 7;
    size_t c = 7;
    memset(a, 0xEE, sizeof a);
    memset(b, 0xEE, sizeof b);
    memcpy(record, kept, sizeof kept);
    uint8_t x = metlazuel_meter_answer(record, sizeof record, store, sizeof store, f, n, a, room, &ours), y;
    if (c_load(&m, kept))
        y = c_answer(&m, places, f, n, b, room, &c);
    else
        y = room < 64 ? 1 : 28;
    if (x != y || ours != c || memcmp(a, b, sizeof b) != 0 || memcmp(record, kept, sizeof kept) != 0)
        differ("answer");
    compared++;
    refused += x != 0;
}

static void compare_meter(void)
{
    static const uint8_t parameters[] = {32, 36, 0, 1, 99, 255}, functions[] = {3, 4, 0, 127, 131, 255};
    static const uint8_t details[] = {0, 1, 47, 48, 94, 95, 96, 255};
    uint8_t f[80] = {0};
    // Reads of every month and day, and of other parameters, at the meter's own address, at 0 and at another.
    for (unsigned p = 0; p < sizeof parameters; p++)
        for (unsigned month = 0; month < 14; month++)
            for (unsigned day = 0; day < 33; day++)
                for (unsigned d = 0; d < sizeof details; d++) {
                    uint8_t g[8] = {(uint8_t)((day + d) % 3), (uint8_t)(3 + month % 2), parameters[p], (uint8_t)month, (uint8_t)day, details[d]};
                    seal_frame(g, 8);
                    same_answer(g, 8, 63 + (day + month) % 3);
                }
    // Frames of every length, sealed and not, and other functions.
    for (unsigned k = 0; k < sizeof functions; k++)
        for (unsigned p = 0; p < sizeof parameters; p++)
            for (size_t n = 0; n < 70; n++) {
                uint8_t head[6] = {1, functions[k], parameters[p], 0, 0, 0};
                memcpy(f, head, sizeof head);
                same_answer(f, n, 64);
                if (n >= 4) {
                    seal_frame(f, n);
                    same_answer(f, n, 65);
                }
            }
    // Each value of each byte of the record, under a read of the clock.
    uint8_t clock[8] = {1, 3, 32, 0, 0, 0};
    seal_frame(clock, 8);
    for (size_t i = 0; i < sizeof kept; i++) {
        uint8_t was = kept[i];
        for (unsigned v = 0; v < 256; v++) {
            kept[i] = (uint8_t)v;
            same_answer(clock, 8, 64);
        }
        kept[i] = was;
    }
}

// The bench's own calls, by what they leave in the record.
static void expect(int right)
{
    if (!right)
        differ("bench");
    compared++;
}

static void compare_bench(void)
{
    static const uint32_t bits[3] = {0x3FC00000, 0xC0000000, 0x49742400}, no_number = 0x7FC00000, infinity = 0x7F800000;
    static const float figures[3] = {1.5f, -2.0f, 1000000.0f};
    uint8_t r[METLAZUEL_RECORD_BYTES] = {0}, before[sizeof r];
    struct meter m;
    struct date_time clock = {58, 59, 23, 31, 12, 24}, later = {0, 0, 0, 1, 1, 25};
    expect(metlazuel_meter_make(r, sizeof r - 1, 0, 15, 2000, 100, 7, 24, 12, 31, 23, 59, 58, 2) == 1);
    expect(metlazuel_meter_make(r, sizeof r, 9, 15, 2000, 100, 7, 24, 12, 31, 23, 59, 58, 2) == 27);
    expect(metlazuel_meter_make(r, sizeof r, 0, 15, 2000, 100, 7, 24, 12, 31, 23, 59, 58, 1) == 27);
    expect(metlazuel_meter_make(r, sizeof r, 9, 30, 2000, 100, 7, 24, 12, 31, 23, 59, 58, 1) == 0 && c_load(&m, r) && meter_right(&m));
    expect(m.address == 9 && m.minutes == 30 && m.k == 2000 && m.ke == 100 && m.reserve == 7 && m.season == 1 && m.next == 0);
    expect(memcmp(&m.clock, &clock, sizeof clock) == 0 && m.main[0] == 0x30 && m.auxiliary[7] == 0x30 && m.parameters == 0xFFFFFFFF);
    expect(metlazuel_meter_powers(r, sizeof r, 8, bits[0], bits[1], bits[2]) == 0 && c_load(&m, r));
    expect(memcmp(m.active, figures, sizeof figures) == 0 && m.reactive[0] == 0);
    expect(metlazuel_meter_powers(r, sizeof r, 9, bits[2], bits[0], bits[1]) == 0 && c_load(&m, r) && m.reactive[1] == figures[0]);
    expect(metlazuel_meter_second(r, sizeof r) == 0 && metlazuel_meter_second(r, sizeof r) == 0 && c_load(&m, r));
    expect(memcmp(&m.clock, &later, sizeof later) == 0);
    expect(metlazuel_meter_ratios(r, sizeof r, 80, 60) == 0 && c_load(&m, r) && m.ki == 80 && m.ku == 60 && meter_right(&m));
    memcpy(before, r, sizeof r);
    expect(metlazuel_meter_powers(r, sizeof r, 8, no_number, 0, 0) == 27 && metlazuel_meter_powers(r, sizeof r, 9, 0, infinity, 0) == 27);
    expect(metlazuel_meter_powers(r, sizeof r, 7, 0, 0, 0) == 27 && metlazuel_meter_powers(r, sizeof r, 8, 0, 0, bits[2] + 1) == 27);
    expect(metlazuel_meter_ratios(r, sizeof r, 0, 1) == 27 && metlazuel_meter_ratios(r, sizeof r, 1001, 1000) == 27);
    expect(metlazuel_meter_ratios(r, sizeof r - 1, 1, 1) == 28 && memcmp(r, before, sizeof r) == 0);
    expect(metlazuel_meter_slice(r, sizeof r, store, sizeof store, 5, 1, 48, 1, 2, 3, 4) == 27);
    expect(metlazuel_meter_slice(r, sizeof r, store, sizeof store - 1, 5, 1, 47, 1, 2, 3, 4) == 28);
    expect(metlazuel_meter_second(r, sizeof r - 1) == 28 && memcmp(r, before, sizeof r) == 0);
}

static void same_write(size_t n, size_t room)
{
    metlazuel_size ours = 7;
    size_t c = 7;
    memset(ours_out, 0xEE, sizeof ours_out);
    memset(c_out, 0xEE, sizeof c_out);
    uint8_t a = metlazuel_write_file(image, n, ours_out, room, &ours), b = c_write_file(c_crc_fold, image, n, c_out, room, &c);
    if (a != b || ours != c || memcmp(ours_out, c_out, sizeof c_out) != 0)
        differ("write");
    compared++;
    refused += a != 0;
}

// A reply to an open ask, into two copies of the image and of its figures.
static void same_take_in(size_t n, size_t numbers, const uint8_t *open, size_t size, const uint8_t *reply, size_t bytes)
{
    uint8_t a[5], b[5], ours = 7, c = 7;
    metlazuel_size ours_length = 99;
    size_t c_length = 99;
    memcpy(a, open, sizeof a);
    memcpy(b, open, sizeof b);
    memcpy(ours_out, image, sizeof image);
    memcpy(c_out, image, sizeof image);
    memcpy(ours_figures, figures, sizeof figures);
    memcpy(c_figures, figures, sizeof figures);
    uint8_t x = metlazuel_take(ours_out, n, ours_figures, numbers, a, size, reply, bytes, &ours, &ours_length);
    uint8_t y = c_take(c_crc_appendix, c_out, n, c_figures, numbers, b, size, reply, bytes, &c, &c_length);
    if (x != y || ours != c || ours_length != c_length || memcmp(a, b, sizeof a) != 0 || memcmp(ours_out, c_out, sizeof image) != 0)
        differ("take");
    if (memcmp(ours_figures, c_figures, sizeof figures) != 0)
        differ("take's figures");
    compared++;
    refused += x != 0;
}

static void same_take(const uint8_t *open, size_t size, const uint8_t *reply, size_t bytes)
{
    same_take_in(IMAGE, METLAZUEL_DAY_FIGURES, open, size, reply, bytes);
}

// Figures at their ends, for a gap, an empty and a measured cell and a reply with counts and without; and too few of them.
static void compare_figures(void)
{
    static const uint32_t ends[] = {0, 1, UINT32_MAX - 1, UINT32_MAX};
    static const size_t cell = 30 * SLOTS + 7;
    uint8_t ask[5] = {1, 1, 30, 7, 0x55}, r[14] = {1, 3, 36, 0};
    for (unsigned kind = 0; kind < 3; kind++)
        for (unsigned counts = 0; counts < 3; counts++) {
            put_kind(image, cell, kind);
            for (size_t k = 0; k < 4; k++)
                memset(count_of(cell, k), k == 0 && kind == 2, 2);
            memset(r + 4, 0, 8);
            r[4] = (uint8_t)counts;
            r[11] = counts == 2 ? 255 : 0;
            seal_frame(r, 14);
            for (unsigned k = 0; k < METLAZUEL_ROW; k++)
                for (size_t e = 0; e < sizeof ends / sizeof ends[0]; e++) {
                    uint32_t *figure = figures + 30 * METLAZUEL_ROW + k, before = *figure;
                    *figure = ends[e];
                    same_take(ask, 4, r, 14);
                    *figure = before;
                }
            for (size_t few = 0; few < 10; few++)
                same_take_in(IMAGE, METLAZUEL_DAY_FIGURES - few, ask, 4, r, 14);
            for (size_t n = 0; n < 20; n++)
                same_take_in(IMAGE - n, METLAZUEL_DAY_FIGURES, ask, 4, r, 14);
        }
    make_image();
    for (size_t few = 0; few < 10; few++) {
        same_report_in(IMAGE, METLAZUEL_DAY_FIGURES - few, 61, METLAZUEL_ROW);
        same_report_in(IMAGE, METLAZUEL_DAY_FIGURES - few, 62, METLAZUEL_ROW);
        same_read_in(file, FULL, IMAGE, METLAZUEL_DAY_FIGURES - few);
        same_read_in(file, FULL, IMAGE - 1, METLAZUEL_DAY_FIGURES - few);
    }
}

// A fresh log, of this header and in this room.
static void same_fresh(const uint8_t *head, size_t room, size_t numbers)
{
    metlazuel_size ours = 7;
    size_t c = 7;
    uint16_t ke = (uint16_t)(head[10] | head[11] << 8);
    memset(ours_out, 0xEE, sizeof ours_out);
    memset(c_out, 0xEE, sizeof c_out);
    memset(ours_figures, 0xEE, sizeof ours_figures);
    memset(c_figures, 0xEE, sizeof c_figures);
    uint8_t a = metlazuel_log_fresh(ours_out, room, ours_figures, numbers, head[5], head[6], head[7], head[8], head[9], ke, head[12], &ours);
    uint8_t b = c_log_fresh(c_out, room, c_figures, numbers, head[5], head[6], head[7], head[8], head[9], ke, head[12], &c);
    if (a != b || ours != c || memcmp(ours_out, c_out, sizeof c_out) != 0 || memcmp(ours_figures, c_figures, sizeof c_figures) != 0)
        differ("fresh");
    compared++;
    refused += a != 0;
}

// Each value of each header byte, every number of days of both intervals at the two season nights, and less room than there is need of.
static void compare_fresh(void)
{
    uint8_t head[HEADER];
    memcpy(head, image, HEADER);
    for (size_t less = 0; less < 10; less++) {
        same_fresh(head, IMAGE - less, METLAZUEL_DAY_FIGURES);
        same_fresh(head, IMAGE, METLAZUEL_DAY_FIGURES - less);
    }
    for (size_t i = 5; i < 13; i++) {
        for (unsigned v = 0; v < 256; v++) {
            head[i] = (uint8_t)v;
            same_fresh(head, IMAGE, METLAZUEL_DAY_FIGURES);
        }
        head[i] = image[i];
    }
    for (head[8] = 1; head[8] <= DAYS; head[8]++)
        for (head[6] = 3; head[6] <= 10; head[6] += 7)
            for (head[12] = 0; head[12] < 2; head[12]++)
                for (head[9] = 15; head[9] <= 30; head[9] += 15) {
                    size_t cells = head[8] * (head[9] == 15 ? 96u : 48u), length = HEADER + cells / 4 + 9 * cells;
                    same_fresh(head, length, METLAZUEL_ROW * head[8]);
                    same_fresh(head, length - 1, METLAZUEL_ROW * head[8]);
                    same_fresh(head, length, METLAZUEL_ROW * head[8] - 1);
                }
}

// A year's logs of whole and half hours, filled slot by slot in an order of their own, with replies some of which are zeros or come again: each
// answer is C's, and the figures are those of a walk.
static void compare_filled(unsigned year, unsigned month, unsigned minutes)
{
    unsigned slots = minutes == 15 ? 96 : 48, days = 31;
    metlazuel_size n = 0;
    size_t cells = days * slots;
    memset(ours_figures, 0, sizeof ours_figures);
    if (metlazuel_log_fresh(ours_out, FULL, ours_figures, METLAZUEL_DAY_FIGURES, (uint8_t)year, (uint8_t)month, 20, (uint8_t)days, (uint8_t)minutes, 100, 1, &n) != 0)
        differ("fresh");
    memcpy(c_out, ours_out, n);
    memcpy(c_figures, ours_figures, sizeof figures);
    same_walk(ours_out, n, ours_figures);
    for (size_t i = 0; i < 2 * cells; i++) {
        size_t at = i * 1001 % cells;
        uint8_t a[4] = {1, 1, (uint8_t)(at / slots), (uint8_t)(at % slots)}, b[4], r[14] = {1, 3, 36, 0}, ours = 7, c = 7;
        metlazuel_size ours_length = 99;
        size_t c_length = 99;
        memcpy(b, a, sizeof b);
        for (int k = 4; k < 12 && i % 5 != 0; k++)
            r[k] = (uint8_t)(i < cells ? roll() : 0);
        seal_frame(r, 14);
        uint8_t x = metlazuel_take(ours_out, n, ours_figures, METLAZUEL_DAY_FIGURES, a, 4, r, 14, &ours, &ours_length);
        uint8_t y = c_take(c_crc_words, c_out, n, c_figures, METLAZUEL_DAY_FIGURES, b, 4, r, 14, &c, &c_length);
        if (x != y || memcmp(a, b, sizeof a) != 0)
            differ("filling");
        compared++;
        refused += x != 0;
    }
    if (memcmp(ours_out, c_out, n) != 0 || memcmp(ours_figures, c_figures, sizeof figures) != 0)
        differ("a filled log");
    same_walk(ours_out, n, ours_figures);
}

// A lapse of an open ask, over two copies of the image.
static void same_lapse(size_t n, const uint8_t *open, size_t size)
{
    uint8_t a[5], b[5];
    memcpy(a, open, sizeof a);
    memcpy(b, open, sizeof b);
    memcpy(ours_out, image, sizeof image);
    memcpy(c_out, image, sizeof image);
    uint8_t x = metlazuel_lapse(ours_out, n, a, size), y = c_lapse(c_out, n, b, size);
    if (x != y || memcmp(a, b, sizeof a) != 0 || memcmp(ours_out, c_out, sizeof image) != 0)
        differ("lapse");
    compared++;
    refused += x != 0;
}

// A cell, read.
static void same_cell(size_t n, unsigned day, unsigned slot)
{
    uint8_t kind[2] = {7, 7}, lapses[2] = {9, 9};
    uint16_t counts[2][METLAZUEL_COUNTS] = {{1, 2, 3, 4}, {1, 2, 3, 4}};
    uint8_t x = metlazuel_cell(image, n, (uint8_t)day, (uint8_t)slot, &kind[0], counts[0], &lapses[0]);
    uint8_t y = c_cell(image, n, (uint8_t)day, (uint8_t)slot, &kind[1], counts[1], &lapses[1]);
    if (x != y || kind[0] != kind[1] || lapses[0] != lapses[1] || memcmp(counts[0], counts[1], sizeof counts[0]) != 0)
        differ("cell");
    compared++;
    refused += x != 0;
}

// An ask for a slot, with one open and with none.
static void same_ask(size_t n, const uint8_t *open, size_t size, unsigned day, unsigned slot, size_t room)
{
    uint8_t a[5], b[5], ours[9], c[9];
    memcpy(a, open, sizeof a);
    memcpy(b, open, sizeof b);
    memset(ours, 0xEE, sizeof ours);
    memset(c, 0xEE, sizeof c);
    uint8_t x = metlazuel_ask(image, n, a, size, 7, (uint8_t)day, (uint8_t)slot, ours, room);
    uint8_t y = c_ask(c_crc_fold, image, n, b, size, 7, (uint8_t)day, (uint8_t)slot, c, room);
    if (x != y || memcmp(a, b, sizeof a) != 0 || memcmp(ours, c, sizeof c) != 0)
        differ("ask");
    compared++;
    refused += x != 0;
}

// The first gap of a day from a slot on.
static void same_gap(size_t n, unsigned day, unsigned from)
{
    uint8_t ours = 7, c = 7;
    uint8_t x = metlazuel_next_gap(image, n, (uint8_t)day, (uint8_t)from, &ours), y = c_next_gap(image, n, (uint8_t)day, (uint8_t)from, &c);
    if (x != y || ours != c)
        differ("next gap");
    compared++;
    refused += x != 0;
}

// Each value of each byte of the ask, of a cell's lapses and of the byte with its kind, and other lengths.
static void compare_lapses(void)
{
    static const size_t cell = 30 * SLOTS + 7;
    uint8_t ask[5] = {1, 1, 30, 7, 0x55}, *kinds = image + HEADER + cell / 4, *lapses = image + LAPSES + cell, kinds_were = *kinds;
    for (size_t i = 0; i < 4; i++) {
        uint8_t was = ask[i];
        for (unsigned v = 0; v < 256; v++) {
            ask[i] = (uint8_t)v;
            same_lapse(IMAGE, ask, 4);
        }
        ask[i] = was;
    }
    for (unsigned v = 0; v < 256; v++) {
        *lapses = (uint8_t)v;
        same_lapse(IMAGE, ask, 4);
        same_cell(IMAGE, 30, 7);
        *kinds = (uint8_t)v;
        same_lapse(IMAGE, ask, 4);
        same_cell(IMAGE, 30, 7);
        *kinds = kinds_were;
    }
    make_image();
    for (size_t size = 3; size < 6; size++)
        same_lapse(IMAGE, ask, size);
    for (size_t n = 0; n < 20; n++) {
        same_lapse(n, ask, 4);
        same_lapse(IMAGE + 1 - n, ask, 4);
    }
}

// Every cell, and days, slots and lengths that the log does not have; asks for them, and the gaps from them on.
static void compare_cells(void)
{
    static const uint8_t none[5] = {0, 9, 9, 9, 0x55}, open[5] = {1, 1, 30, 7, 0x55}, other[5] = {2};
    for (unsigned day = 0; day < 256; day++)
        for (unsigned slot = 0; slot < 256; slot++) {
            same_cell(IMAGE, day, slot);
            same_ask(IMAGE, none, 4, day, slot, 8);
            same_gap(IMAGE, day, slot);
        }
    for (size_t n = 0; n < 20; n++) {
        same_cell(n, 30, 7);
        same_cell(IMAGE + 1 - n, 30, 7);
        same_ask(IMAGE + 1 - n, none, 4, 30, 7, 8);
        same_gap(IMAGE + 1 - n, 30, 7);
    }
    for (size_t size = 3; size < 6; size++)
        for (size_t room = 7; room < 10; room++) {
            same_ask(IMAGE, none, size, 30, 7, room);
            same_ask(IMAGE, open, size, 30, 7, room);
            same_ask(IMAGE, other, size, 30, 7, room);
        }
}

// All that goes by one cell of the image, with a reply with counts, one without, and the cell's own counts.
static void same_about(size_t i)
{
    uint8_t ask[5] = {1, 1, (uint8_t)(i / SLOTS), (uint8_t)(i % SLOTS), 0x55}, r[14] = {1, 3, 36, 0};
    same_cell(IMAGE, ask[2], ask[3]);
    same_lapse(IMAGE, ask, 4);
    same_report(IMAGE, ask[2], METLAZUEL_ROW);
    for (int counts = 0; counts < 3; counts++) {
        for (size_t k = 0; k < 4; k++)
            memcpy(r + 4 + 2 * k, count_of(i, k), 2);
        if (counts < 2)
            memset(r + 4, counts, 8);
        seal_frame(r, 14);
        same_take(ask, 4, r, 14);
    }
}

// Four cells that share a byte of kinds, each of them with each of the four kinds, and a byte of the counts of one column that is not zero, or none;
// then single bytes and bits of the image changed, wherever they stand.
static void compare_columns(void)
{
    for (size_t i = 30 * SLOTS + 8; i < 30 * SLOTS + 12; i++)
        for (unsigned kind = 0; kind < 4; kind++)
            for (size_t byte = 0; byte <= 8; byte++) {
                put_kind(image, i, kind);
                for (size_t k = 0; k < 4; k++)
                    memset(count_of(i, k), 0, 2);
                if (byte < 8)
                    count_of(i, byte / 2)[byte % 2] = (uint8_t)(1u << (byte + i) % 8);
                for (size_t near = i - 4; near <= i + 4; near++)
                    same_about(near);
                same_write(IMAGE, FULL);
                make_image();
            }
    for (int k = 0; k < 2000; k++) {
        size_t at = HEADER + roll() % (k % 4 == 0 ? CELLS / 4 : IMAGE - HEADER);
        size_t i = at < COUNTS ? 4 * (at - HEADER) + roll() % 4 : at < LAPSES ? (at - COUNTS) / 2 % CELLS : at - LAPSES;
        uint8_t was = image[at];
        image[at] ^= (uint8_t)(k % 2 == 0 ? 1u << roll() % 8 : roll());
        same_about(i);
        same_write(IMAGE, FULL);
        image[at] = was;
    }
}

static void compare_log(void)
{
    uint8_t ask[5] = {1, 1, 30, 7, 0x55}, r[64] = {1, 3, 36, 0};
    for (size_t room = FULL - 2; room <= FULL; room++)
        same_write(IMAGE, room);
    if (memcmp(c_out, file, FULL) != 0)
        differ("a written file");
    for (size_t n = 0; n < 20; n++)
        same_write(IMAGE + 1 - n, FULL);
    for (size_t i = 0; i < HEADER; i++) {
        for (unsigned v = 0; v < 256; v++) {
            image[i] = (uint8_t)v;
            same_write(IMAGE, FULL);
            same_cell(IMAGE, 30, 7);
        }
        image[i] = file[i];
    }
    // Each value of each byte of the ask and of the reply, for cells of each kind, with the counts that are there, others and none.
    for (unsigned slot = 0; slot < 24; slot++)
        for (int counts = 0; counts < 3; counts++) {
            ask[3] = (uint8_t)slot;
            memset(r + 4, counts == 1 ? 3 : 0, 8);
            if (counts == 2)
                memcpy(r + 4, file + HEADER + ROW_BYTES * (30 * SLOTS + slot) + 1, 8);
            seal_frame(r, 14);
            for (size_t size = 3; size < 6; size++)
                same_take(ask, size, r, 14);
            for (size_t i = 0; i < 4; i++) {
                uint8_t was = ask[i];
                for (unsigned v = 0; v < 256; v += 3) {
                    ask[i] = (uint8_t)v;
                    same_take(ask, 4, r, 14);
                }
                ask[i] = was;
            }
        }
    for (size_t i = 0; i < 14; i++)
        for (unsigned v = 0; v < 256; v++) {
            uint8_t d[64];
            memcpy(d, r, sizeof d);
            d[i] = (uint8_t)v;
            same_take(ask, 4, d, 14);
            seal_frame(d, 14);
            same_take(ask, 4, d, 14);
            seal_frame(d, 6);
            same_take(ask, 4, d, 6);
            d[1] = 131;
            seal_frame(d, 6);
            same_take(ask, 4, d, 6);
        }
    for (size_t n = 0; n < 64; n++)
        same_take(ask, 4, r, n);
}

// The rows of the hour from 02:00 on, on a day of the file.
static uint8_t *hour_of(unsigned day)
{
    return file + HEADER + ROW_BYTES * (day * SLOTS + 8);
}

// A log in which the last Sunday of March or October is this day: its neighbours and slots, and its file with and without cells that are no
// gaps in the hour, or have lapses, of every version, with and without seasons.
static void compare_night(unsigned day)
{
    uint8_t ask[5] = {1, 1, (uint8_t)day, 0, 0x55}, r[14] = {1, 3, 36, 0, 9}, hour[4 * ROW_BYTES];
    memcpy(hour, hour_of(day), sizeof hour);
    seal_frame(r, 14);
    make_image();
    for (unsigned d = day == 0 ? 0 : day - 1; d <= day + 1; d++)
        same_report(IMAGE, d, METLAZUEL_ROW);
    for (ask[3] = 6; ask[3] < 14; ask[3]++) {
        same_take(ask, 4, r, 14);
        same_lapse(IMAGE, ask, 4);
        same_cell(IMAGE, day, ask[3]);
    }
    // The cells as they are, gaps of which one has lapses, and gaps alone.
    for (int gaps = 0; gaps < 3; gaps++) {
        for (int seasons = 0; seasons < 2; seasons++) {
            file[12] = (uint8_t)seasons;
            seal();
            make_image();
            same_read(FULL, FULL);
            same_write(IMAGE, FULL);
            same_older(1);
            same_older(2);
        }
        memset(hour_of(day), 0, sizeof hour);
        hour_of(day)[2 * ROW_BYTES + ROW_LAPSES] = gaps == 0;
    }
    memcpy(hour_of(day), hour, sizeof hour);
    seal();
}

// The season days of every year, each as the first, a middle and the last day of a log.
static void compare_nights(void)
{
    static const uint8_t length[13] = {0, 31, 28, 31, 30, 31, 30, 31, 31, 30, 31, 30, 31};
    static const unsigned places[] = {0, 1, 30, DAYS - 1};
    uint8_t start[8];
    memcpy(start, file + 5, sizeof start);
    for (unsigned year = 0; year < 100; year++)
        for (unsigned month = 3; month <= 10; month += 7)
            for (size_t k = 0; k < sizeof places / sizeof places[0]; k++) {
                unsigned m = month, d = 31 - (year + year / 4 + (month == 3 ? 5 : 2)) % 7;
                for (unsigned back = places[k]; back > 0; back--)
                    if (--d == 0)
                        m--, d = length[m] + (unsigned)(m == 2 && year % 4 == 0);
                file[5] = (uint8_t)year, file[6] = (uint8_t)m, file[7] = (uint8_t)d;
                compare_night(places[k]);
            }
    memcpy(file + 5, start, sizeof start);
    seal();
    make_image();
}

static void compare(void)
{
    same_read(FULL, IMAGE);
    if (memcmp(c_out, image, IMAGE) != 0)
        differ("an image read");
    same_read(FULL, FULL);
    same_read(FULL, IMAGE - 1);
    same_read(FULL + 1, FULL);
    for (size_t n = 0; n < 40; n++) {
        same_read(n, FULL);
        same_read(FULL - n, FULL);
        same_report(IMAGE + 1 - n, 0, METLAZUEL_ROW + 1);
        same_report(n, 0, METLAZUEL_ROW + 1);
        same_crc(n, n);
        same_crc(n, 8 * n);
    }
    for (unsigned day = 0; day < 256; day++)
        for (size_t room = METLAZUEL_ROW - 1; room <= METLAZUEL_ROW + 1; room++)
            same_report(IMAGE, day, room);
    // Each value of each header byte, under the old CRC and under a right one.
    for (size_t i = 0; i < HEADER; i++) {
        uint8_t was = file[i];
        for (unsigned v = 0; v < 256; v++) {
            file[i] = image[i] = (uint8_t)v;
            same_read(FULL, FULL);
            same_report(IMAGE, 3, METLAZUEL_ROW);
            seal();
            same_read(FULL, FULL);
        }
        file[i] = image[i] = was;
        seal();
    }
    // Every date, and every number of days at the end of the century.
    for (unsigned year = 0; year < 102; year++)
        for (unsigned month = 0; month < 14; month++)
            for (unsigned day = 0; day < 33; day++) {
                image[5] = (uint8_t)year, image[6] = (uint8_t)month, image[7] = (uint8_t)day;
                same_report(IMAGE, 61, METLAZUEL_ROW);
            }
    memcpy(image, file, HEADER);
    // A byte of a row changed, under the old CRC and sealed again.
    for (int k = 0; k < 400; k++) {
        size_t i = HEADER + roll() % (SEALED - HEADER), kind = HEADER + ROW_BYTES * (roll() % CELLS);
        uint8_t was = file[i], kind_was = file[kind];
        file[i] ^= (uint8_t)roll();
        same_read(FULL, FULL);
        file[kind] = (uint8_t)(roll() % 4);
        seal();
        same_read(FULL, FULL);
        file[kind] = kind_was;
        file[i] = was;
        seal();
    }
    same_read(FULL, FULL);
    same_crc(0, SEALED);
}

// ---- times

static double now(void)
{
    struct timespec t;
    clock_gettime(CLOCK_MONOTONIC, &t);
    return (double)t.tv_sec * 1e6 + (double)t.tv_nsec / 1e3;
}

static volatile unsigned sink;
static metlazuel_size length;
static uint32_t row[METLAZUEL_ROW];

static void ours_crc(void) { sink += metlazuel_crc16(file, SEALED); }
static void appendix_crc(void) { sink += c_crc_appendix(file, SEALED); }
static void words_crc(void) { sink += c_crc_words(file, SEALED); }
static void fold_crc(void) { sink += c_crc_fold(file, SEALED); }
static void ours_short(void) { sink += metlazuel_crc16(file, 14); }
static void appendix_short(void) { sink += c_crc_appendix(file, 14); }
static void fold_short(void) { sink += c_crc_fold(file, 14); }

static void ours_read(void)
{
    sink += metlazuel_read_file(file, FULL, ours_out, FULL, ours_figures, METLAZUEL_DAY_FIGURES, &length);
}

static void read_by(c_crc *crc) { sink += c_read_file(crc, file, FULL, c_out, FULL, c_figures, METLAZUEL_DAY_FIGURES, &length); }
static void plain_read(void) { read_by(c_crc_appendix); }
static void fold_read(void) { read_by(c_crc_fold); }
static void ours_write(void) { sink += metlazuel_write_file(image, IMAGE, ours_out, FULL, &length); }
static void plain_write(void) { sink += c_write_file(c_crc_appendix, image, IMAGE, c_out, FULL, &length); }
static void fold_write(void) { sink += c_write_file(c_crc_fold, image, IMAGE, c_out, FULL, &length); }

// The same days with half the slots.
enum { HALF = HEADER + CELLS / 2 / 4 + 9 * CELLS / 2 };

static uint8_t half[HALF];
static uint32_t half_figures[METLAZUEL_DAY_FIGURES];

static void ours_report(void) { sink += metlazuel_day_report(image, IMAGE, figures, METLAZUEL_DAY_FIGURES, 30, row, METLAZUEL_ROW); }
static void ours_half(void) { sink += metlazuel_day_report(half, HALF, half_figures, METLAZUEL_DAY_FIGURES, 30, row, METLAZUEL_ROW); }
static void plain_walk(void) { sink += c_day_walk(image, IMAGE, 30, row, METLAZUEL_ROW); }
static void plain_half(void) { sink += c_day_walk(half, HALF, 30, row, METLAZUEL_ROW); }
static void plain_report(void) { sink += c_day_report(image, IMAGE, figures, METLAZUEL_DAY_FIGURES, 30, row, METLAZUEL_ROW); }

static uint8_t clock_frame[8] = {1, 3, 32, 0, 0, 0}, last_frame[8] = {1, 3, 36, 5, 31, 95}, absent_frame[8] = {1, 3, 36, 6, 31, 95};
static uint8_t displayed_frame[8] = {1, 4, 36, 0, 0, 0};
static uint8_t reply[64];

static void ours_answer(const uint8_t *f)
{
    sink += metlazuel_meter_answer(kept, sizeof kept, store, sizeof store, f, 8, reply, sizeof reply, &length);
}

static void plain_answer(const uint8_t *f) { sink += c_answer(&meter, places, f, 8, reply, sizeof reply, &length); }
static void ours_clock(void) { ours_answer(clock_frame); }
static void plain_clock(void) { plain_answer(clock_frame); }
static void ours_last(void) { ours_answer(last_frame); }
static void plain_last(void) { plain_answer(last_frame); }
static void ours_displayed(void) { ours_answer(displayed_frame); }
static void plain_displayed(void) { plain_answer(displayed_frame); }
static void ours_absent(void) { ours_answer(absent_frame); }
static void plain_absent(void) { plain_answer(absent_frame); }

// The reply to an ask for the last slot of the log, which is measured with the same counts; and a copy of the log, whose asks lapse.
static uint8_t taken[14] = {1, 3, 36, 0}, result, lapsing[IMAGE];
static metlazuel_size received;

static void make_reply(void)
{
    memcpy(taken + 4, file + SEALED - ROW_BYTES + 1, 8);
    seal_frame(taken, 14);
    memcpy(lapsing, image, IMAGE);
}

static void ours_again(void)
{
    uint8_t ask[4] = {1, 1, DAYS - 1, SLOTS - 1};
    sink += metlazuel_take(image, IMAGE, figures, METLAZUEL_DAY_FIGURES, ask, 4, taken, 14, &result, &received);
}

static void again_by(c_crc *crc)
{
    uint8_t ask[4] = {1, 1, DAYS - 1, SLOTS - 1};
    sink += c_take(crc, image, IMAGE, figures, METLAZUEL_DAY_FIGURES, ask, 4, taken, 14, &result, &received);
}

static void plain_again(void) { again_by(c_crc_appendix); }
static void fold_again(void) { again_by(c_crc_fold); }

// A log that is filled: each call takes the reply to an ask for its next gap, and after the last one it is fresh again.
struct filling {
    uint8_t log[IMAGE], day, slot;
    uint32_t figures[METLAZUEL_DAY_FIGURES];
};

static struct filling fresh, ours_filling, plain_filling, fold_filling;

static void make_fresh(void)
{
    if (metlazuel_log_fresh(fresh.log, IMAGE, fresh.figures, METLAZUEL_DAY_FIGURES, 24, 5, 17, DAYS, 15, 100, 1, &length) != 0)
        exit(1);
    ours_filling = plain_filling = fold_filling = fresh;
}

static void next_gap(struct filling *f)
{
    if (++f->slot == SLOTS) {
        f->slot = 0;
        if (++f->day == DAYS)
            *f = fresh;
    }
}

static void ours_take(void)
{
    struct filling *f = &ours_filling;
    uint8_t ask[4] = {1, 1, f->day, f->slot};
    sink += metlazuel_take(f->log, IMAGE, f->figures, METLAZUEL_DAY_FIGURES, ask, 4, taken, 14, &result, &received);
    next_gap(f);
}

static void take_by(c_crc *crc, struct filling *f)
{
    uint8_t ask[4] = {1, 1, f->day, f->slot};
    sink += c_take(crc, f->log, IMAGE, f->figures, METLAZUEL_DAY_FIGURES, ask, 4, taken, 14, &result, &received);
    next_gap(f);
}

static void plain_take(void) { take_by(c_crc_appendix, &plain_filling); }
static void fold_take(void) { take_by(c_crc_fold, &fold_filling); }

static void ours_lapse(void)
{
    uint8_t ask[4] = {1, 1, DAYS - 1, SLOTS - 1};
    sink += metlazuel_lapse(lapsing, IMAGE, ask, 4);
}

static void plain_lapse(void)
{
    uint8_t ask[4] = {1, 1, DAYS - 1, SLOTS - 1};
    sink += c_lapse(lapsing, IMAGE, ask, 4);
}

static uint8_t kind, lapses;
static uint16_t counts[METLAZUEL_COUNTS];

static void ours_cell(void) { sink += metlazuel_cell(image, IMAGE, DAYS - 1, SLOTS - 1, &kind, counts, &lapses); }
static void plain_cell(void) { sink += c_cell(image, IMAGE, DAYS - 1, SLOTS - 1, &kind, counts, &lapses); }

static void ours_fresh(void)
{
    sink += metlazuel_log_fresh(ours_out, FULL, ours_figures, METLAZUEL_DAY_FIGURES, 24, 5, 17, DAYS, 15, 100, 1, &length);
}

static void plain_fresh(void)
{
    sink += c_log_fresh(c_out, FULL, c_figures, METLAZUEL_DAY_FIGURES, 24, 5, 17, DAYS, 15, 100, 1, &length);
}

struct row {
    const char *what;
    void (*ours)(void), (*c)(void);
    const char *ours_name, *c_name;
    int calls;
};

#define ROW(what, ours, c, calls) {what, ours, c, #ours, #c, calls}

static const struct row rows[] = {
    ROW("CRC of 59,534 bytes, C by 002's two tables", ours_crc, appendix_crc, 20),
    ROW("CRC of 59,534 bytes, C by one 16-bit table", ours_crc, words_crc, 20),
    ROW("CRC of 59,534 bytes, C by the same fold", ours_crc, fold_crc, 20),
    ROW("CRC of 14 bytes, C by 002's two tables", ours_short, appendix_short, 5000),
    ROW("CRC of 14 bytes, C by the same fold", ours_short, fold_short, 5000),
    ROW("file of 5,952 cells read, C by 002's tables", ours_read, plain_read, 20),
    ROW("file of 5,952 cells read, C by the same fold", ours_read, fold_read, 20),
    ROW("file of 5,952 cells written, C by 002's tables", ours_write, plain_write, 20),
    ROW("file of 5,952 cells written, C by the same fold", ours_write, fold_write, 20),
    ROW("report of a day of 96 slots, C by a walk", ours_report, plain_walk, 5000),
    ROW("report of a day of 96 slots, C by a copy", ours_report, plain_report, 5000),
    ROW("report of a day of 48 slots, C by a walk", ours_half, plain_half, 5000),
    ROW("reply taken into a gap, C by 002's tables", ours_take, plain_take, 5952),
    ROW("reply taken into a gap, C by the same fold", ours_take, fold_take, 5952),
    ROW("reply taken again, C by 002's tables", ours_again, plain_again, 5000),
    ROW("reply taken again, C by the same fold", ours_again, fold_again, 5000),
    ROW("lapse of an ask", ours_lapse, plain_lapse, 5000),
    ROW("cell read", ours_cell, plain_cell, 5000),
    ROW("fresh log of 5,952 cells", ours_fresh, plain_fresh, 200),
    ROW("meter: the clock read", ours_clock, plain_clock, 5000),
    ROW("meter: a slice in the last of 2,976 places", ours_last, plain_last, 200),
    ROW("meter: a slice as displayed, in the first place", ours_displayed, plain_displayed, 5000),
    ROW("meter: a slice absent from a full store", ours_absent, plain_absent, 200),
};

enum { ROWS = sizeof rows / sizeof rows[0] };

static double once(void (*f)(void), int calls)
{
    double start = now();
    for (int i = 0; i < calls; i++)
        f();
    return (now() - start) / calls;
}

enum { REPETITIONS = 100 };

struct best {
    double ours, c;
};

// The best of many short repetitions, ours and C in turn, so that another process on the core spoils few of them.
static struct best best_of(void (*ours)(void), void (*c)(void), int calls)
{
    struct best best = {1e30, 1e30};
    for (int k = 0; k < REPETITIONS; k++) {
        double a = once(ours, calls), b = once(c, calls);
        best.ours = a < best.ours ? a : best.ours;
        best.c = b < best.c ? b : best.c;
    }
    return best;
}

static void print_times(void)
{
    printf("%-46s %10s %10s %8s %12s\n", "microseconds a call, best of 100", "ours", "C -O2", "ours/C", "ours a second");
    for (int k = 0; k < ROWS; k++) {
        struct best best = best_of(rows[k].ours, rows[k].c, rows[k].calls);
        printf("%-46s %10.3f %10.3f %8.2f %12.0f\n", rows[k].what, best.ours, best.c, best.ours / best.c, 1e6 / best.ours);
    }
}

// ---- the stack: a call is made on painted memory, and the deepest byte sought that it changed

enum { PAINT = 0xA5, PAINTED = 1 << 16 };

static uint8_t painted[PAINTED];
static ucontext_t here, there;
static void (*entered)(void);

static void nothing(void) {}
static void enter(void) { entered(); }

static size_t reached(void (*f)(void))
{
    size_t i = 0;
    memset(painted, PAINT, sizeof painted);
    getcontext(&there);
    there.uc_stack.ss_sp = painted;
    there.uc_stack.ss_size = sizeof painted;
    there.uc_link = &here;
    entered = f;
    makecontext(&there, enter, 0);
    swapcontext(&here, &there);
    while (painted[i] == PAINT)
        i++;
    return sizeof painted - i;
}

static void print_stack(void)
{
    size_t none = reached(nothing);
    printf("\n%-46s %10s %10s\n", "bytes of stack that a call reaches down to", "ours", "C -O2");
    for (int k = 0; k < ROWS; k++)
        printf("%-46s %10zu %10zu\n", rows[k].what, reached(rows[k].ours) - none, reached(rows[k].c) - none);
}

// Each call once; which rows they belong to goes to the output.
static void count(void)
{
    for (int k = 0; k < ROWS; k++) {
        if (k == 0 || rows[k].ours != rows[k - 1].ours)
            rows[k].ours();
        rows[k].c();
        printf("%s %s %s\n", rows[k].ours_name, rows[k].c_name, rows[k].what);
    }
}

// The log of half the slots, and what both reports copy.
static void make_figures(void)
{
    static uint8_t rows_of_half[HEADER + ROW_BYTES * CELLS / 2];
    memcpy(rows_of_half, file, HEADER);
    rows_of_half[9] = 30;
    for (size_t i = 0; i < CELLS / 2; i++)
        memcpy(rows_of_half + HEADER + ROW_BYTES * i, file + HEADER + 2 * ROW_BYTES * i, ROW_BYTES);
    columns_of(rows_of_half, half, CELLS / 2);
    for (unsigned day = 0; day < DAYS; day++)
        if (c_day_walk(image, IMAGE, (uint8_t)day, figures + METLAZUEL_ROW * day, METLAZUEL_ROW) != 0
            || c_day_walk(half, HALF, (uint8_t)day, half_figures + METLAZUEL_ROW * day, METLAZUEL_ROW) != 0)
            exit(1);
}

int main(int words, char **word)
{
    make_tables();
    make_file();
    make_figures();
    make_meter();
    make_reply();
    make_fresh();
    seal_frame(clock_frame, 8);
    seal_frame(last_frame, 8);
    seal_frame(absent_frame, 8);
    memcpy(displayed_frame + 3, store, 3);
    seal_frame(displayed_frame, 8);
    if (words == 2 && strcmp(word[1], "count") == 0) {
        count();
        return 0;
    }
    compare();
    compare_log();
    compare_lapses();
    compare_cells();
    compare_columns();
    compare_figures();
    compare_fresh();
    for (unsigned month = 3; month <= 10; month += 7) {
        compare_filled(24, month, 15);
        compare_filled(24, month, 30);
    }
    compare_nights();
    compare_bench();
    compare_meter();
    printf("compared: %lu calls answered alike, %lu of them refusals\n\n", compared, refused);
    print_times();
    print_stack();
    return 0;
}
