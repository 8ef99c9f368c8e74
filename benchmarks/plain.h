// The same work in plain C, for comparison.
#ifndef PLAIN_H
#define PLAIN_H

#include <stddef.h>
#include <stdint.h>

enum { PLACES = 2976 };

struct date_time {
    uint8_t second, minute, hour, day, month, year;
};

struct switch_date {
    uint8_t by_hand;
    struct date_time at;
};

struct meter {
    uint8_t address, level, left;
    uint8_t main[8], auxiliary[8];
    struct date_time clock;
    uint8_t season;
    struct switch_date summer, winter;
    uint32_t k;
    uint16_t ke, reserve;
    uint32_t parameters;
    uint8_t tariffs, directions;
    float active[3], reactive[3];
    uint8_t minutes;
    uint16_t next;
    uint32_t ki, ku;
};

struct place {
    uint8_t month, day, number;
    uint16_t count[4];
};

void make_tables(void);
uint16_t c_crc_appendix(const uint8_t *p, size_t n);
uint16_t c_crc_words(const uint8_t *p, size_t n);
uint16_t c_crc_fold(const uint8_t *p, size_t n);

typedef uint16_t c_crc(const uint8_t *p, size_t n);

uint8_t c_read_file(c_crc *crc, const uint8_t *f, size_t n, uint8_t *out, size_t room, uint32_t *figures, size_t numbers, size_t *length);
uint8_t c_write_file(c_crc *crc, const uint8_t *log, size_t n, uint8_t *out, size_t room, size_t *length);
uint8_t c_take(c_crc *crc, uint8_t *log, size_t n, uint32_t *figures, size_t numbers, uint8_t *ask, size_t size, const uint8_t *reply,
               size_t bytes, uint8_t *result, size_t *length);
uint8_t c_log_fresh(uint8_t *log, size_t room, uint32_t *figures, size_t numbers, uint8_t year, uint8_t month, uint8_t day, uint8_t days,
                    uint8_t minutes, uint16_t ke, uint8_t seasons, size_t *length);
uint8_t c_cell(const uint8_t *log, size_t n, uint8_t day, uint8_t slot, uint8_t *kind, uint16_t *counts, uint8_t *lapses);
uint8_t c_lapse(uint8_t *log, size_t n, uint8_t *ask, size_t size);
uint8_t c_ask(c_crc *crc, const uint8_t *log, size_t n, uint8_t *ask, size_t size, uint8_t address, uint8_t day, uint8_t slot, uint8_t *out,
              size_t room);
uint8_t c_next_gap(const uint8_t *log, size_t n, uint8_t day, uint8_t from, uint8_t *slot);

// A day's report by its row of the figures, and by a walk over its cells without them.
uint8_t c_day_report(const uint8_t *log, size_t n, const uint32_t *figures, size_t numbers, uint8_t day, uint32_t *row, size_t room);
uint8_t c_day_walk(const uint8_t *log, size_t n, uint8_t day, uint32_t *row, size_t room);

int meter_right(const struct meter *m);
int c_load(struct meter *m, const uint8_t *p);
uint8_t c_answer(const struct meter *m, const struct place *store, const uint8_t *f, size_t n, uint8_t *out, size_t room, size_t *length);

#endif
