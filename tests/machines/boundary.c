// Narrow numbers at the boundary: the same functions, declared as if their narrow parameters and results had 32 bits. Whatever stands above a parameter's own bits, as
// callers on 64-bit Arm and in JavaScript may leave it, is not looked at; and a result has zeros above its own, as C's callers on 32-bit machines
// take it to have. Prints what is not so, and nothing else.
#include <stdio.h>
#include <string.h>
#include "metlazuel.h"

// The bits above a byte and above two, all set.
#define BYTE(n) (0xFFFFFF00u | (n))
#define WORD(n) (0xFFFF0000u | (n))

// One function by another name here.
#ifdef __wasm__
#define NAMED(name) __attribute__((import_module("env"), import_name(name)))
#else
#define NAMED(name) __asm__(name)
#endif

uint32_t wide_crc(const uint8_t *bytes, metlazuel_size n) NAMED("metlazuel_crc16");
uint32_t wide_request(uint32_t address, uint32_t parameter, uint32_t offset, uint32_t tariff, uint32_t detail, uint8_t *out, metlazuel_size room) NAMED("metlazuel_request");
uint32_t wide_fresh(uint8_t *log, metlazuel_size room, uint32_t *figures, metlazuel_size numbers, uint32_t year, uint32_t month, uint32_t day, uint32_t days,
                    uint32_t minutes, uint32_t ke, uint32_t seasons, metlazuel_size *length) NAMED("metlazuel_log_fresh");
uint32_t wide_ask(const uint8_t *log, metlazuel_size n, uint8_t *ask, metlazuel_size size, uint32_t address, uint32_t day, uint32_t slot, uint8_t *out,
                  metlazuel_size room) NAMED("metlazuel_ask");
uint32_t wide_gap(const uint8_t *log, metlazuel_size n, uint32_t day, uint32_t from, uint8_t *slot) NAMED("metlazuel_next_gap");
uint32_t wide_make(uint8_t *meter, metlazuel_size n, uint32_t address, uint32_t minutes, uint32_t k, uint32_t ke, uint32_t reserve, uint32_t year, uint32_t month,
                   uint32_t day, uint32_t hour, uint32_t minute, uint32_t second, uint32_t season) NAMED("metlazuel_meter_make");
uint32_t wide_slice(uint8_t *meter, metlazuel_size n, uint8_t *store, metlazuel_size size, uint32_t month, uint32_t day, uint32_t number, uint32_t eplus,
                    uint32_t eminus, uint32_t rplus, uint32_t rminus) NAMED("metlazuel_meter_slice");
uint32_t wide_mercury(uint32_t address, uint32_t first, uint32_t second, uint32_t third, uint32_t fourth, uint32_t voltage, uint32_t current, uint32_t power,
                      uint32_t frequency, const uint8_t *rest, metlazuel_size size, const uint8_t *request, metlazuel_size bytes, uint8_t *out,
                      metlazuel_size room, metlazuel_size *length) NAMED("metlazuel_mercury_answer");

enum { DAYS = 2, IMAGE = METLAZUEL_IMAGE_BYTES(DAYS * 48), NUMBERS = DAYS * METLAZUEL_ROW };

struct left {
    uint8_t image[IMAGE], ask[METLAZUEL_ASK_BYTES], frame[METLAZUEL_FRAME_BYTES], record[METLAZUEL_RECORD_BYTES], slot;
    uint32_t figures[NUMBERS];
    metlazuel_size length;
};

static struct left wide, narrow;
static uint8_t store[METLAZUEL_STORE_BYTES], other[METLAZUEL_STORE_BYTES];
static int wrong;

static void check(const char *what, int agrees)
{
    if (!agrees || memcmp(&wide, &narrow, sizeof wide) != 0) {
        printf("not so: %s\n", what);
        wrong = 1;
    }
}

static void log_calls(void)
{
    struct left *w = &wide, *n = &narrow;
    uint32_t a = wide_fresh(w->image, IMAGE, w->figures, NUMBERS, BYTE(24), BYTE(3), BYTE(30), BYTE(DAYS), BYTE(30), WORD(100), BYTE(1), &w->length);
    uint8_t b = metlazuel_log_fresh(n->image, IMAGE, n->figures, NUMBERS, 24, 3, 30, DAYS, 30, 100, 1, &n->length);
    check("log_fresh", a == METLAZUEL_DONE && b == METLAZUEL_DONE);
    a = wide_ask(w->image, IMAGE, w->ask, 4, BYTE(7), BYTE(1), BYTE(4), w->frame, 8);
    b = metlazuel_ask(n->image, IMAGE, n->ask, 4, 7, 1, 4, n->frame, 8);
    check("ask for a slot that does not exist", a == METLAZUEL_NOT_IN_LOG && b == a);
    a = wide_ask(w->image, IMAGE, w->ask, 4, BYTE(7), BYTE(1), BYTE(6), w->frame, 8);
    b = metlazuel_ask(n->image, IMAGE, n->ask, 4, 7, 1, 6, n->frame, 8);
    check("ask", a == METLAZUEL_DONE && b == a);
    check("CRC", wide_crc(w->frame, 8) == 0 && wide_crc(w->frame, 6) == metlazuel_crc16(n->frame, 6) && wide_crc(w->frame, 6) < 65536);
    a = wide_gap(w->image, IMAGE, BYTE(1), BYTE(4), &w->slot);
    b = metlazuel_next_gap(n->image, IMAGE, 1, 4, &n->slot);
    check("next_gap", a == METLAZUEL_DONE && b == a && w->slot == 6);
}

static void meter_calls(void)
{
    static const uint8_t rest[METLAZUEL_MERCURY_REST] = {1, 2, 3, 4, 5, 6, 7};
    uint8_t request[METLAZUEL_MERCURY_REQUEST_BYTES];
    struct left *w = &wide, *n = &narrow;
    uint32_t a = wide_request(BYTE(7), BYTE(METLAZUEL_PARAMETER_SLICE), BYTE(5), BYTE(17), BYTE(3), w->frame, 8);
    uint8_t b = metlazuel_request(7, METLAZUEL_PARAMETER_SLICE, 5, 17, 3, n->frame, 8);
    check("request", a == METLAZUEL_DONE && b == a);
    a = wide_make(w->record, sizeof w->record, BYTE(7), BYTE(30), 2000, WORD(100), WORD(9), BYTE(24), BYTE(5), BYTE(17), BYTE(23), BYTE(59), BYTE(58), BYTE(1));
    b = metlazuel_meter_make(n->record, sizeof n->record, 7, 30, 2000, 100, 9, 24, 5, 17, 23, 59, 58, 1);
    check("meter_make", a == METLAZUEL_DONE && b == a);
    a = wide_slice(w->record, sizeof w->record, store, sizeof store, BYTE(5), BYTE(17), BYTE(3), WORD(12), WORD(0), WORD(3), WORD(65535));
    b = metlazuel_meter_slice(n->record, sizeof n->record, other, sizeof other, 5, 17, 3, 12, 0, 3, 65535);
    check("meter_slice", a == METLAZUEL_DONE && b == a && memcmp(store, other, sizeof store) == 0);
    metlazuel_mercury_request(1234, METLAZUEL_MERCURY_FREQUENCY, request, sizeof request);
    a = wide_mercury(1234, 1, 2, 3, 4, WORD(2300), WORD(150), 100, WORD(5000), rest, sizeof rest, request, sizeof request, w->frame, sizeof w->frame, &w->length);
    b = metlazuel_mercury_answer(1234, 1, 2, 3, 4, 2300, 150, 100, 5000, rest, sizeof rest, request, sizeof request, n->frame, sizeof n->frame, &n->length);
    check("mercury_answer", a == METLAZUEL_DONE && b == a);
}

int main(void)
{
    log_calls();
    meter_calls();
    return wrong;
}
