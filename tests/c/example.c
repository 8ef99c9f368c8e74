// A day in small: a bench meter with one slice, a log that asks it for the first three half hours, its cells and gaps, the day's report,
// the log's file, the meter's clock and powers read without a log, the two days on which the seasons change, and a Mercury 206. What it prints
// stands in example.out; `tests/c/run` builds, runs and compares it, as C and as C++.
#include <stdio.h>
#include <stdlib.h>
#include <string.h>
#include "metlazuel.h"

enum { METER = 1, MERCURY = 1234 };

static uint8_t record[METLAZUEL_RECORD_BYTES], store[METLAZUEL_STORE_BYTES];
static uint8_t image[METLAZUEL_LOG_BYTES], file[METLAZUEL_FILE_BYTES], back[METLAZUEL_LOG_BYTES];

// The log's figures, lent beside it as the calls before left them, and those of the log that is read back.
static uint32_t figures[METLAZUEL_DAY_FIGURES], again[METLAZUEL_DAY_FIGURES];

// Stops at an answer that is not the one to come.
static void expect(const char *call, uint8_t answer, uint8_t wanted)
{
    if (answer != wanted) {
        printf("%s answered %u\n", call, answer);
        exit(1);
    }
}

// The wire: a frame to the meter, and its reply.
static metlazuel_size exchange(const uint8_t *frame, uint8_t *reply)
{
    metlazuel_size length;
    expect("meter_answer",
           metlazuel_meter_answer(record, sizeof record, store, sizeof store, frame, METLAZUEL_REQUEST_BYTES, reply,
                                  METLAZUEL_FRAME_BYTES, &length),
           METLAZUEL_DONE);
    return length;
}

static uint32_t bits_of(float power)
{
    uint32_t bits;
    memcpy(&bits, &power, sizeof bits);
    return bits;
}

static float power_of(uint32_t bits)
{
    float power;
    memcpy(&power, &bits, sizeof power);
    return power;
}

// 17 May 2024, one in the morning. The meter counted from midnight to half past.
static void make_meter(void)
{
    expect("meter_make", metlazuel_meter_make(record, sizeof record, METER, 30, 2000, 100, 0, 24, 5, 17, 0, 59, 59, 1), METLAZUEL_DONE);
    expect("meter_second", metlazuel_meter_second(record, sizeof record), METLAZUEL_DONE);
    expect("meter_slice", metlazuel_meter_slice(record, sizeof record, store, sizeof store, 5, 17, 0, 12, 0, 3, 0), METLAZUEL_DONE);
    expect("meter_powers",
           metlazuel_meter_powers(record, sizeof record, METLAZUEL_PARAMETER_ACTIVE_POWER, bits_of(230.5f), bits_of(-1.25f),
                                  bits_of(0.0f)),
           METLAZUEL_DONE);
    expect("meter_ratios", metlazuel_meter_ratios(record, sizeof record, 80, 60), METLAZUEL_DONE);
}

// Asks for the first three slots of the day; the reply to the third is lost.
static void fill(metlazuel_size n)
{
    uint8_t ask[METLAZUEL_ASK_BYTES] = {0}, frame[METLAZUEL_REQUEST_BYTES], reply[METLAZUEL_FRAME_BYTES], result;
    metlazuel_size received;
    for (uint8_t slot = 0; slot < 3; slot++) {
        expect("ask", metlazuel_ask(image, n, ask, sizeof ask, METER, 0, slot, frame, sizeof frame), METLAZUEL_DONE);
        metlazuel_size length = exchange(frame, reply);
        if (slot == 2)
            expect("lapse", metlazuel_lapse(image, n, ask, sizeof ask), METLAZUEL_DONE);
        else
            expect("take",
                   metlazuel_take(image, n, figures, METLAZUEL_DAY_FIGURES, ask, sizeof ask, reply, length, &result, &received),
                   METLAZUEL_DONE);
    }
    expect("take", metlazuel_take(image, n, figures, METLAZUEL_DAY_FIGURES, ask, sizeof ask, reply, sizeof reply, &result, &received),
           METLAZUEL_NO_ASK_OPEN);
}

// The cells of the three slots, and the day's gaps.
static void show_cells(metlazuel_size n)
{
    static const char *const kinds[] = {"gap", "empty", "measured"};
    uint8_t kind, lapses, first;
    uint16_t counts[METLAZUEL_COUNTS];
    unsigned gaps = 0;
    for (uint8_t slot = 0; slot < 3; slot++) {
        expect("cell", metlazuel_cell(image, n, 0, slot, &kind, counts, &lapses), METLAZUEL_DONE);
        printf("slot %u %s, E+ %u, E- %u, R+ %u, R- %u, %u lapses\n", slot, kinds[kind], counts[0], counts[1], counts[2], counts[3], lapses);
    }
    expect("cell", metlazuel_cell(image, n, 0, 48, &kind, counts, &lapses), METLAZUEL_NOT_IN_LOG);
    expect("next_gap", metlazuel_next_gap(image, n, 0, 0, &first), METLAZUEL_DONE);
    for (uint8_t slot = 0; metlazuel_next_gap(image, n, 0, slot, &slot) == METLAZUEL_DONE && slot != METLAZUEL_NO_GAP; slot++)
        gaps++;
    printf("%u gaps, from slot %u on\n", gaps, first);
    expect("next_gap", metlazuel_next_gap(image, n, 1, 0, &first), METLAZUEL_NOT_IN_LOG);
}

static void report(metlazuel_size n, const char *date)
{
    uint32_t row[METLAZUEL_ROW];
    expect("day_report", metlazuel_day_report(image, n, figures, METLAZUEL_DAY_FIGURES, 0, row, METLAZUEL_ROW), METLAZUEL_DONE);
    printf("date gap empty measured E+ E- R+ R- doubled\n%s", date);
    for (int i = 0; i < METLAZUEL_ROW; i++)
        printf(" %u", (unsigned)row[i]);
    printf("\n");
}

// The file, and the log read back from it, with the figures that the file does not carry.
static void save(metlazuel_size n)
{
    metlazuel_size length, m;
    expect("write_file", metlazuel_write_file(image, n, file, sizeof file, &length), METLAZUEL_DONE);
    expect("read_file", metlazuel_read_file(file, length, back, sizeof back, again, METLAZUEL_ROW - 1, &m), METLAZUEL_TOO_SHORT);
    expect("read_file", metlazuel_read_file(file, length, back, sizeof back, again, METLAZUEL_ROW, &m), METLAZUEL_DONE);
    printf("file of %u bytes, CRC %04X, read back %s, its figures %s\n", (unsigned)length, metlazuel_crc16(file, length - 2),
           m == n && memcmp(back, image, n) == 0 ? "the same" : "another",
           memcmp(again, figures, METLAZUEL_ROW * sizeof *figures) == 0 ? "too" : "are others");
}

// A parameter without further fields, read and decoded; a reply with a damaged byte, or one that is cut, is not taken for one.
static metlazuel_size read_figures(uint8_t parameter, uint32_t *figures)
{
    uint8_t frame[METLAZUEL_REQUEST_BYTES], reply[METLAZUEL_FRAME_BYTES], result;
    metlazuel_size count, received = 0;
    expect("request", metlazuel_request(METER, parameter, 0, 0, 0, frame, sizeof frame), METLAZUEL_DONE);
    metlazuel_size length = exchange(frame, reply);
    expect("decode", metlazuel_decode(METER, parameter, 0, 0, 0, reply, length, figures, METLAZUEL_FIGURES, &count, &result, &received),
           METLAZUEL_DONE);
    reply[length - 3] ^= 1;
    expect("decode", metlazuel_decode(METER, parameter, 0, 0, 0, reply, length, figures, METLAZUEL_FIGURES, &count, &result, &received),
           METLAZUEL_REPLY_CRC);
    expect("decode", metlazuel_decode(METER, parameter, 0, 0, 0, reply, length - 1, figures, METLAZUEL_FIGURES, &count, &result, &received),
           METLAZUEL_REPLY_LENGTH);
    expect("length received", received == length - 1, 1);
    return count;
}

static void show_clock(void)
{
    uint32_t f[METLAZUEL_FIGURES];
    metlazuel_size count = read_figures(METLAZUEL_PARAMETER_CLOCK, f);
    printf("clock, %u figures: 20%02u-%02u-%02u %02u:%02u:%02u\n", (unsigned)count, (unsigned)f[0], (unsigned)f[1], (unsigned)f[2],
           (unsigned)f[3], (unsigned)f[4], (unsigned)f[5]);
}

static void show_powers(void)
{
    uint32_t f[METLAZUEL_FIGURES];
    metlazuel_size count = read_figures(METLAZUEL_PARAMETER_ACTIVE_POWER, f);
    printf("powers, %u figures: total %g, A %g, B %g, C %g\n", (unsigned)count, power_of(f[0]), power_of(f[1]), power_of(f[2]),
           power_of(f[3]));
}

// The first slice as the meter's display shows it, in kilowatt-hours and with the transformers' ratios.
static void show_displayed(void)
{
    uint8_t frame[METLAZUEL_REQUEST_BYTES], reply[METLAZUEL_FRAME_BYTES], result;
    uint32_t f[METLAZUEL_FIGURES];
    metlazuel_size count = 0, received;
    expect("request4", metlazuel_request4(METER, METLAZUEL_PARAMETER_SLICE, 5, 17, 0, frame, sizeof frame), METLAZUEL_DONE);
    metlazuel_size length = exchange(frame, reply);
    expect("decode4",
           metlazuel_decode4(METER, METLAZUEL_PARAMETER_SLICE, 5, 17, 0, reply, length, f, METLAZUEL_FIGURES, &count, &result, &received),
           METLAZUEL_DONE);
    printf("displayed, %u figures: E+ %g, E- %g, R+ %g, R- %g\n", (unsigned)count, power_of(f[0]), power_of(f[1]), power_of(f[2]),
           power_of(f[3]));
}

// A log of the last Sunday of March, which has no half past two, and one of October's, which has it twice under one key.
static void show_seasons(void)
{
    uint8_t ask[METLAZUEL_ASK_BYTES] = {0}, frame[METLAZUEL_REQUEST_BYTES], reply[METLAZUEL_FRAME_BYTES], result, slot;
    metlazuel_size n, received;
    expect("log_fresh", metlazuel_log_fresh(image, sizeof image, figures, METLAZUEL_DAY_FIGURES, 24, 3, 31, 1, 30, 100, 1, &n),
           METLAZUEL_DONE);
    expect("ask", metlazuel_ask(image, n, ask, sizeof ask, METER, 0, 5, frame, sizeof frame), METLAZUEL_NOT_IN_LOG);
    expect("next_gap", metlazuel_next_gap(image, n, 0, 4, &slot), METLAZUEL_DONE);
    printf("31 March, from slot 4 on: the next gap is slot %u\n", slot);
    report(n, "2024-03-31");
    expect("meter_slice", metlazuel_meter_slice(record, sizeof record, store, sizeof store, 10, 27, 5, 7, 0, 0, 0), METLAZUEL_DONE);
    expect("log_fresh", metlazuel_log_fresh(image, sizeof image, figures, METLAZUEL_DAY_FIGURES, 24, 10, 27, 1, 30, 100, 1, &n),
           METLAZUEL_DONE);
    expect("ask", metlazuel_ask(image, n, ask, sizeof ask, METER, 0, 5, frame, sizeof frame), METLAZUEL_DONE);
    metlazuel_size length = exchange(frame, reply);
    expect("take", metlazuel_take(image, n, figures, METLAZUEL_DAY_FIGURES, ask, sizeof ask, reply, length, &result, &received),
           METLAZUEL_DONE);
    report(n, "2024-10-27");
}

// A Mercury 206 beside it: a command sent to the bench and its reply decoded; another meter's request gets no answer.
static metlazuel_size read_mercury(uint8_t command, uint32_t *figures)
{
    static const uint8_t rest[METLAZUEL_MERCURY_REST] = {0x3A};
    uint8_t request[METLAZUEL_MERCURY_REQUEST_BYTES], reply[METLAZUEL_FRAME_BYTES];
    metlazuel_size length = 0, count = 0;
    expect("mercury_request", metlazuel_mercury_request(MERCURY, command, request, sizeof request), METLAZUEL_DONE);
    expect("mercury_answer",
           metlazuel_mercury_answer(MERCURY + 1, 22750, 0, 0, 0, 2300, 150, 100, 5050, rest, sizeof rest, request, sizeof request, reply,
                                    sizeof reply, &length),
           METLAZUEL_MERCURY_FORM);
    expect("mercury_answer",
           metlazuel_mercury_answer(MERCURY, 22750, 1, 99999999, 0, 2300, 150, 100, 5050, rest, sizeof rest, request, sizeof request, reply,
                                    sizeof reply, &length),
           METLAZUEL_DONE);
    expect("mercury_decode",
           metlazuel_mercury_decode(MERCURY, command, reply, length, figures, METLAZUEL_MERCURY_FIGURES, &count), METLAZUEL_DONE);
    reply[5] = 0xA0;
    reply[length - 2] ^= 1;
    expect("mercury_decode",
           metlazuel_mercury_decode(MERCURY, command, reply, length, figures, METLAZUEL_MERCURY_FIGURES, &count), METLAZUEL_MERCURY_FORM);
    return count;
}

static void show_mercury(void)
{
    static const uint8_t commands[] = {METLAZUEL_MERCURY_TARIFFS, METLAZUEL_MERCURY_LOAD, METLAZUEL_MERCURY_FREQUENCY};
    uint32_t f[METLAZUEL_MERCURY_FIGURES];
    for (metlazuel_size c = 0; c < sizeof commands; c++) {
        metlazuel_size count = read_mercury(commands[c], f);
        printf("Mercury 206, command %02X:", commands[c]);
        for (metlazuel_size i = 0; i < count; i++)
            printf(" %u", (unsigned)f[i]);
        printf("\n");
    }
}

int main(void)
{
    metlazuel_size n;
    make_meter();
    expect("log_fresh", metlazuel_log_fresh(image, sizeof image, figures, METLAZUEL_DAY_FIGURES, 24, 5, 17, 1, 30, 100, 0, &n),
           METLAZUEL_DONE);
    fill(n);
    show_cells(n);
    report(n, "2024-05-17");
    save(n);
    show_clock();
    show_powers();
    show_displayed();
    show_seasons();
    show_mercury();
    return 0;
}
