// The numbers of include/metlazuel.h, every one held to what the library does with it: bytes that it writes, lengths that it takes and
// refuses, frames that its meter answers. Prints what does not agree, and nothing else.
#include <stdio.h>
#include <string.h>
#include "metlazuel.h"

enum { METER = 7, DAYS = 62, MINUTES = 15, SLOTS = 96, KE = 0x1234, SEASONS = 1, PASSWORD_BYTES = 8 };

static uint8_t record[METLAZUEL_RECORD_BYTES], store[METLAZUEL_STORE_BYTES + 1];
static uint8_t image[METLAZUEL_LOG_BYTES], file[METLAZUEL_FILE_BYTES];
static uint32_t figures[METLAZUEL_DAY_FIGURES];
static int wrong;

static void check(const char *what, int agrees)
{
    if (!agrees) {
        printf("not so: %s\n", what);
        wrong = 1;
    }
}

static unsigned two_bytes(const uint8_t *at)
{
    return at[0] + 256u * at[1];
}

// Another kind of a cell: the three others of its byte stay.
static void put_kind(uint8_t *log, metlazuel_size i, uint8_t kind)
{
    uint8_t *at = log + METLAZUEL_AT_KINDS + i / 4;
    *at = (uint8_t)((*at & ~(3 << i % 4 * 2)) | (kind << i % 4 * 2));
}

// The longest log: 62 days of 96 slots, and its file.
static void longest_log(void)
{
    metlazuel_size n = 0, length = 0;
    check("a shorter log's room",
          metlazuel_log_fresh(image, sizeof image - 1, figures, METLAZUEL_DAY_FIGURES, 24, 5, 17, DAYS, MINUTES, KE, SEASONS, &n)
              == METLAZUEL_TOO_SHORT);
    check("fewer figures",
          metlazuel_log_fresh(image, sizeof image, figures, METLAZUEL_DAY_FIGURES - 1, 24, 5, 17, DAYS, MINUTES, KE, SEASONS, &n)
              == METLAZUEL_TOO_SHORT);
    check("a length of 64 bits", sizeof(metlazuel_size) == 8 && (metlazuel_size)-1 > 0);
    check("a log's room", metlazuel_log_fresh(image, sizeof image, figures, METLAZUEL_DAY_FIGURES, 24, 5, 17, DAYS, MINUTES, KE, SEASONS, &n)
                              == METLAZUEL_DONE);
    check("a log's length", n == METLAZUEL_LOG_BYTES && n == METLAZUEL_IMAGE_BYTES(METLAZUEL_CELLS) && METLAZUEL_CELLS == DAYS * SLOTS);
    check("a shorter file's room", metlazuel_write_file(image, n, file, sizeof file - 1, &length) == METLAZUEL_TOO_SHORT);
    check("a file's room", metlazuel_write_file(image, n, file, sizeof file, &length) == METLAZUEL_DONE);
    check("a file's length", length == METLAZUEL_FILE_BYTES);
    check("a longer log",
          metlazuel_log_fresh(image, sizeof image, figures, 0, 24, 5, 17, DAYS + 1, MINUTES, KE, SEASONS, &n) == METLAZUEL_OUT_OF_RANGE);
    check("seasons of 2", metlazuel_log_fresh(image, sizeof image, figures, METLAZUEL_DAY_FIGURES, 24, 5, 17, DAYS, MINUTES, KE, 2, &n)
                              == METLAZUEL_OUT_OF_RANGE);
    check("a day of gaps", figures[0] == 96 && figures[1] == 0 && figures[METLAZUEL_DAY_FIGURES - METLAZUEL_ROW] == 96
                               && figures[METLAZUEL_DAY_FIGURES - 1] == 0);
}

static void header_bytes(void)
{
    check("mark", memcmp(image + METLAZUEL_AT_MARK, "GEL", 3) == 0);
    check("version", two_bytes(image + METLAZUEL_AT_VERSION) == 3);
    check("year", image[METLAZUEL_AT_YEAR] == 24);
    check("month", image[METLAZUEL_AT_MONTH] == 5);
    check("day", image[METLAZUEL_AT_DAY] == 17);
    check("days", image[METLAZUEL_AT_DAYS] == DAYS);
    check("minutes", image[METLAZUEL_AT_MINUTES] == MINUTES);
    check("Ke", two_bytes(image + METLAZUEL_AT_KE) == KE);
    check("seasons", image[METLAZUEL_AT_SEASONS] == SEASONS);
    check("a zero byte", image[METLAZUEL_HEADER_BYTES - 1] == 0);
}

// Puts the CRC behind n bytes, and says how many they are then.
static metlazuel_size seal(uint8_t *bytes, metlazuel_size n)
{
    uint16_t crc = metlazuel_crc16(bytes, n);
    bytes[n] = (uint8_t)(crc & 255);
    bytes[n + 1] = (uint8_t)(crc >> 8);
    return n + 2;
}

// A frame to the meter, its bytes before the CRC: the answer, and the reply's bytes.
static uint8_t exchange(uint8_t *frame, metlazuel_size n, uint8_t *reply, metlazuel_size *length)
{
    metlazuel_size bytes = seal(frame, n);
    return metlazuel_meter_answer(record, sizeof record, store, METLAZUEL_STORE_BYTES, frame, bytes, reply, METLAZUEL_FRAME_BYTES, length);
}

static void meter(void)
{
    check("a shorter record", metlazuel_meter_make(record, sizeof record - 1, METER, MINUTES, 2000, 100, 0, 24, 5, 17, 0, 0, 0, 1)
                                  == METLAZUEL_TOO_SHORT);
    check("a record", metlazuel_meter_make(record, sizeof record, METER, MINUTES, 2000, 100, 0, 24, 5, 17, 0, 0, 0, 1) == METLAZUEL_DONE);
    check("a longer store", metlazuel_meter_slice(record, sizeof record, store, sizeof store, 5, 17, 3, 1, 2, 3, 0x0504)
                                == METLAZUEL_UNSOUND);
    check("a store", metlazuel_meter_slice(record, sizeof record, store, METLAZUEL_STORE_BYTES, 5, 17, 3, 1, 2, 3, 0x0504)
                         == METLAZUEL_DONE);
}

// A reply for the ask, with so many figures: the answer.
static uint8_t take_with(metlazuel_size numbers, uint8_t *ask, const uint8_t *reply, metlazuel_size n, uint8_t *result)
{
    metlazuel_size received;
    return metlazuel_take(image, sizeof image, figures, numbers, ask, METLAZUEL_ASK_BYTES, reply, n, result, &received);
}

static uint8_t take(uint8_t *ask, const uint8_t *reply, metlazuel_size n, uint8_t *result)
{
    return take_with(METLAZUEL_DAY_FIGURES, ask, reply, n, result);
}

// A slot asked for and taken: the ask, its frame, the reply and the cell.
static void cell_bytes(void)
{
    uint8_t ask[METLAZUEL_ASK_BYTES + 1] = {0}, frame[METLAZUEL_REQUEST_BYTES], reply[METLAZUEL_FRAME_BYTES], result, kind, lapses;
    const uint8_t *cell = file + METLAZUEL_HEADER_BYTES + 3 * METLAZUEL_FILE_CELL_BYTES;
    uint16_t counts[METLAZUEL_COUNTS];
    metlazuel_size length;
    check("a gap's bits", METLAZUEL_KIND_IN(image, 3) == METLAZUEL_KIND_GAP);
    check("a gap", metlazuel_cell(image, sizeof image, 0, 3, &kind, counts, &lapses) == METLAZUEL_DONE && kind == METLAZUEL_KIND_GAP
                       && lapses == 0);
    check("a longer ask", metlazuel_ask(image, sizeof image, ask, sizeof ask, METER, 0, 3, frame, sizeof frame) == METLAZUEL_UNSOUND);
    check("a shorter frame", metlazuel_ask(image, sizeof image, ask, METLAZUEL_ASK_BYTES, METER, 0, 3, frame, sizeof frame - 1)
                                 == METLAZUEL_TOO_SHORT);
    check("an ask", metlazuel_ask(image, sizeof image, ask, METLAZUEL_ASK_BYTES, METER, 0, 3, frame, sizeof frame) == METLAZUEL_DONE);
    check("its function", frame[1] == METLAZUEL_FUNCTION_READ && frame[2] == METLAZUEL_PARAMETER_SLICE);
    check("a shorter reply", metlazuel_meter_answer(record, sizeof record, store, METLAZUEL_STORE_BYTES, frame, sizeof frame, reply,
                                                    sizeof reply - 1, &length)
                                 == METLAZUEL_TOO_SHORT);
    check("a reply", metlazuel_meter_answer(record, sizeof record, store, METLAZUEL_STORE_BYTES, frame, sizeof frame, reply, sizeof reply,
                                            &length)
                         == METLAZUEL_DONE);
    check("a reply with fewer figures", take_with(METLAZUEL_DAY_FIGURES - 1, ask, reply, length, &result) == METLAZUEL_TOO_SHORT && ask[0] == 1);
    check("a reply taken", take(ask, reply, length, &result) == METLAZUEL_DONE);
    check("a measured cell's bits", METLAZUEL_KIND_IN(image, 3) == METLAZUEL_KIND_MEASURED && image[METLAZUEL_AT_KINDS] == 2 << 6);
    for (int i = 0; i < METLAZUEL_COUNTS; i++)
        check("its columns", two_bytes(image + METLAZUEL_AT_COUNTS(METLAZUEL_CELLS, i) + 2 * 3) == (i < 3 ? i + 1u : 0x0504));
    check("its file", metlazuel_write_file(image, sizeof image, file, sizeof file, &length) == METLAZUEL_DONE);
    check("its kind there", cell[METLAZUEL_FILE_AT_KIND] == METLAZUEL_KIND_MEASURED);
    check("E+", two_bytes(cell + METLAZUEL_FILE_AT_EPLUS) == 1);
    check("E-", two_bytes(cell + METLAZUEL_FILE_AT_EMINUS) == 2);
    check("R+", two_bytes(cell + METLAZUEL_FILE_AT_RPLUS) == 3);
    check("R-", two_bytes(cell + METLAZUEL_FILE_AT_RMINUS) == 0x0504);
    check("a measured cell", metlazuel_cell(image, sizeof image, 0, 3, &kind, counts, &lapses) == METLAZUEL_DONE
                                 && kind == METLAZUEL_KIND_MEASURED && counts[0] == 1 && counts[1] == 2 && counts[2] == 3
                                 && counts[METLAZUEL_COUNTS - 1] == 0x0504 && lapses == 0);
}

// Asks for the same slot that lapse: 255 stays, the counts stay, and with none open nothing is looked at.
static void lapses_byte(void)
{
    uint8_t ask[METLAZUEL_ASK_BYTES + 1] = {0}, frame[METLAZUEL_REQUEST_BYTES], kind, lapses = 0;
    uint16_t counts[METLAZUEL_COUNTS];
    for (unsigned i = 1; i <= 256; i++) {
        check("an ask", metlazuel_ask(image, sizeof image, ask, METLAZUEL_ASK_BYTES, METER, 0, 3, frame, sizeof frame) == METLAZUEL_DONE);
        check("a longer ask", metlazuel_lapse(image, sizeof image, ask, sizeof ask) == METLAZUEL_UNSOUND && ask[0] == 1);
        check("a shorter log", metlazuel_lapse(image, sizeof image - 1, ask, METLAZUEL_ASK_BYTES) == METLAZUEL_UNSOUND && ask[0] == 1);
        check("a lapse", metlazuel_lapse(image, sizeof image, ask, METLAZUEL_ASK_BYTES) == METLAZUEL_DONE && ask[0] == 0);
        check("its byte", image[METLAZUEL_AT_LAPSES(METLAZUEL_CELLS) + 3] == (i < 255 ? i : 255));
    }
    check("a cell's lapses", metlazuel_cell(image, sizeof image, 0, 3, &kind, counts, &lapses) == METLAZUEL_DONE
                                 && kind == METLAZUEL_KIND_MEASURED && counts[0] == 1 && lapses == 255);
    check("a lapse with none open", metlazuel_lapse(image, 0, ask, METLAZUEL_ASK_BYTES) == METLAZUEL_DONE);
    ask[0] = 1, ask[2] = DAYS;
    check("a lapse of a day too late", metlazuel_lapse(image, sizeof image, ask, METLAZUEL_ASK_BYTES) == METLAZUEL_NOT_IN_LOG && ask[0] == 1);
}

// The next slot's reply is all zeros.
static void empty_cell(void)
{
    uint8_t ask[METLAZUEL_ASK_BYTES] = {0}, frame[METLAZUEL_REQUEST_BYTES], reply[METLAZUEL_FRAME_BYTES], result, kind, lapses;
    uint16_t counts[METLAZUEL_COUNTS];
    metlazuel_size length;
    check("an ask", metlazuel_ask(image, sizeof image, ask, sizeof ask, METER, 0, 4, frame, sizeof frame) == METLAZUEL_DONE);
    check("a reply", exchange(frame, sizeof frame - 2, reply, &length) == METLAZUEL_DONE);
    check("a reply taken", take(ask, reply, length, &result) == METLAZUEL_DONE);
    check("an empty cell's bits", METLAZUEL_KIND_IN(image, 4) == METLAZUEL_KIND_EMPTY && image[METLAZUEL_AT_KINDS + 1] == 1);
    check("an empty cell", metlazuel_cell(image, sizeof image, 0, 4, &kind, counts, &lapses) == METLAZUEL_DONE && kind == METLAZUEL_KIND_EMPTY);
}

// The figures have gone along. Others than the log's are copied by the report, and a reply that one of them cannot follow changes nothing.
static void day_figures(void)
{
    uint8_t ask[METLAZUEL_ASK_BYTES] = {0}, frame[METLAZUEL_REQUEST_BYTES], reply[METLAZUEL_FRAME_BYTES], result;
    uint32_t row[METLAZUEL_ROW];
    metlazuel_size length;
    check("the first day's figures", figures[0] == 94 && figures[1] == 1 && figures[2] == 1 && figures[3] == 1 && figures[6] == 0x0504);
    check("the next day's", figures[METLAZUEL_ROW] == 96 && figures[METLAZUEL_ROW + 1] == 0);
    check("an ask", metlazuel_ask(image, sizeof image, ask, sizeof ask, METER, 0, 5, frame, sizeof frame) == METLAZUEL_DONE);
    check("a reply", exchange(frame, sizeof frame - 2, reply, &length) == METLAZUEL_DONE);
    figures[0] = 0;
    check("a reply with no gap left", take(ask, reply, length, &result) == METLAZUEL_UNSOUND && ask[0] == 1 && figures[1] == 1);
    check("its cell's bits", METLAZUEL_KIND_IN(image, 5) == METLAZUEL_KIND_GAP);
    check("a report of other figures", metlazuel_day_report(image, sizeof image, figures, METLAZUEL_DAY_FIGURES, 0, row, METLAZUEL_ROW) == METLAZUEL_DONE
                                           && row[0] == 0 && row[1] == 1);
    figures[0] = 94;
    check("a reply taken", take(ask, reply, length, &result) == METLAZUEL_DONE && figures[0] == 93 && figures[1] == 2);
}

// The figures of a log whose cells were written by hand: it is written as a file and read back.
static void walk(uint8_t *log, metlazuel_size n)
{
    static uint8_t out[METLAZUEL_FILE_BYTES];
    metlazuel_size length = 0;
    check("a file", metlazuel_write_file(log, n, out, sizeof out, &length) == METLAZUEL_DONE);
    check("fewer figures of it", metlazuel_read_file(out, length, log, n, figures, METLAZUEL_ROW - 1, &length) == METLAZUEL_TOO_SHORT);
    check("its log", metlazuel_read_file(out, length, log, n, figures, METLAZUEL_DAY_FIGURES, &length) == METLAZUEL_DONE && length == n);
}

// A day whose slot 3 is measured, made to have no gap.
static void gaps(void)
{
    uint8_t slot = 1;
    for (metlazuel_size i = 0; i < SLOTS; i++)
        if (i != 3)
            put_kind(image, i, METLAZUEL_KIND_EMPTY);
    check("no gap", metlazuel_next_gap(image, sizeof image, 0, 0, &slot) == METLAZUEL_DONE && slot == METLAZUEL_NO_GAP);
    check("a gap of the next day", metlazuel_next_gap(image, sizeof image, 1, 5, &slot) == METLAZUEL_DONE && slot == 5);
    check("a slot past the day", metlazuel_next_gap(image, sizeof image, 1, 96, &slot) == METLAZUEL_DONE && slot == METLAZUEL_NO_GAP);
}

static void report_row(void)
{
    uint32_t row[METLAZUEL_ROW];
    walk(image, sizeof image);
    check("a shorter row", metlazuel_day_report(image, sizeof image, figures, METLAZUEL_DAY_FIGURES, 0, row, METLAZUEL_ROW - 1)
                               == METLAZUEL_TOO_SHORT);
    check("a row of fewer figures", metlazuel_day_report(image, sizeof image, figures, METLAZUEL_DAY_FIGURES - 1, 0, row, METLAZUEL_ROW)
                                        == METLAZUEL_TOO_SHORT);
    check("a row", metlazuel_day_report(image, sizeof image, figures, METLAZUEL_DAY_FIGURES, 0, row, METLAZUEL_ROW) == METLAZUEL_DONE
                       && row[0] == 0 && row[1] == 95 && row[2] == 1 && row[6] == 0x0504 && row[METLAZUEL_ROW - 1] == 0);
}

// A day of 96 slots that all have empty cells, but one measured at 02:45, where the seasons change.
static metlazuel_size season_day(uint8_t *day, uint8_t month, uint8_t date)
{
    metlazuel_size n = 0;
    check("a season day", metlazuel_log_fresh(day, METLAZUEL_IMAGE_BYTES(SLOTS), figures, METLAZUEL_ROW, 24, month, date, 1, MINUTES, KE, SEASONS, &n)
                              == METLAZUEL_DONE);
    for (metlazuel_size i = 0; i < SLOTS; i++)
        put_kind(day, i, i == 11 ? METLAZUEL_KIND_MEASURED : METLAZUEL_KIND_EMPTY);
    day[METLAZUEL_AT_COUNTS(SLOTS, 0) + 2 * 11] = 9;
    return n;
}

// On the last Sunday of March slots 8 to 11 of 15 minutes do not exist, and a cell that is no gap there, or has lapses, cannot be written out.
static void march(void)
{
    uint8_t day[METLAZUEL_IMAGE_BYTES(SLOTS)], out[METLAZUEL_HEADER_BYTES + SLOTS * METLAZUEL_FILE_CELL_BYTES + 2], kind, lapses, slot;
    uint8_t *gone = out + METLAZUEL_HEADER_BYTES + 8 * METLAZUEL_FILE_CELL_BYTES;
    uint16_t counts[METLAZUEL_COUNTS];
    uint32_t row[METLAZUEL_ROW];
    metlazuel_size n = season_day(day, 3, 31), length;
    check("a cell of no slot", metlazuel_cell(day, n, 0, 8, &kind, counts, &lapses) == METLAZUEL_NOT_IN_LOG
                                   && metlazuel_cell(day, n, 0, 11, &kind, counts, &lapses) == METLAZUEL_NOT_IN_LOG);
    check("the cells beside them", metlazuel_cell(day, n, 0, 7, &kind, counts, &lapses) == METLAZUEL_DONE
                                       && metlazuel_cell(day, n, 0, 12, &kind, counts, &lapses) == METLAZUEL_DONE);
    check("a fresh March", figures[0] == 92 && figures[METLAZUEL_ROW - 1] == 0);
    check("no file of it", metlazuel_write_file(day, n, out, sizeof out, &length) == METLAZUEL_UNSOUND);
    for (metlazuel_size i = 8; i < 12; i++)
        put_kind(day, i, METLAZUEL_KIND_GAP);
    day[METLAZUEL_AT_COUNTS(SLOTS, 0) + 2 * 11] = 0;
    day[METLAZUEL_AT_LAPSES(SLOTS) + 8] = 1;
    check("no file of its lapses", metlazuel_write_file(day, n, out, sizeof out, &length) == METLAZUEL_UNSOUND);
    day[METLAZUEL_AT_LAPSES(SLOTS) + 8] = 0;
    check("no gap in no slot", metlazuel_next_gap(day, n, 0, 0, &slot) == METLAZUEL_DONE && slot == METLAZUEL_NO_GAP);
    walk(day, n);
    check("a report of March", metlazuel_day_report(day, n, figures, METLAZUEL_ROW, 0, row, METLAZUEL_ROW) == METLAZUEL_DONE && row[0] == 0
                                   && row[1] == 92 && row[2] == 0 && row[3] == 0 && row[METLAZUEL_ROW - 1] == 0);
    check("a file of it", metlazuel_write_file(day, n, out, sizeof out, &length) == METLAZUEL_DONE && length == sizeof out);
    gone[METLAZUEL_FILE_AT_KIND] = METLAZUEL_KIND_EMPTY;
    seal(out, sizeof out - 2);
    check("a file's cell of no slot", metlazuel_read_file(out, sizeof out, day, sizeof day, figures, METLAZUEL_ROW, &length) == METLAZUEL_FILE_CELL);
    gone[METLAZUEL_FILE_AT_KIND] = METLAZUEL_KIND_GAP;
    gone[METLAZUEL_FILE_AT_LAPSES] = 1;
    seal(out, sizeof out - 2);
    check("a file's lapses of no slot", metlazuel_read_file(out, sizeof out, day, sizeof day, figures, METLAZUEL_ROW, &length) == METLAZUEL_FILE_CELL);
}

// On the last Sunday of October they come twice, and the measured one is told so.
static void october(void)
{
    uint8_t day[METLAZUEL_IMAGE_BYTES(SLOTS)];
    uint32_t row[METLAZUEL_ROW];
    metlazuel_size n = season_day(day, 10, 27);
    check("a fresh October", figures[0] == 96 && figures[METLAZUEL_ROW - 1] == 0);
    walk(day, n);
    check("a report of October", metlazuel_day_report(day, n, figures, METLAZUEL_ROW, 0, row, METLAZUEL_ROW) == METLAZUEL_DONE && row[0] == 0
                                     && row[1] == 95 && row[2] == 1 && row[3] == 9 && row[METLAZUEL_ROW - 1] == 1);
}

// The parameters that can be read: the request, how many figures the reply has, and one of them, as the meter was made.
static const struct {
    const char *what;
    uint8_t parameter, offset, tariff, detail;
    metlazuel_size figures, place;
    uint32_t figure;
} reads[] = {
    {"active power", METLAZUEL_PARAMETER_ACTIVE_POWER, 0, 0, 0, 4, 1, 0x3F800000},
    {"reactive power", METLAZUEL_PARAMETER_REACTIVE_POWER, 0, 0, 1, 1, 0, 0x40000000},
    {"address", METLAZUEL_PARAMETER_ADDRESS, 0, 0, 0, 1, 0, METER},
    {"telemetry", METLAZUEL_PARAMETER_TELEMETRY, 0, 0, 0, 3, 0, 2000},
    {"summer date", METLAZUEL_PARAMETER_SUMMER_DATE, 0, 0, 0, 6, 1, 3},
    {"winter date", METLAZUEL_PARAMETER_WINTER_DATE, 0, 0, 0, 6, 1, 10},
    {"clock", METLAZUEL_PARAMETER_CLOCK, 0, 0, 0, 6, 0, 24},
    {"display mask", METLAZUEL_PARAMETER_DISPLAY_MASK, 0, 0, 0, 3, 0, 0xFFFFFFFF},
    {"slice", METLAZUEL_PARAMETER_SLICE, 5, 17, 3, 4, 3, 0x0504},
    {"six slices", METLAZUEL_PARAMETER_SIX_SLICES, 5, 17, 3, METLAZUEL_FIGURES, 3, 0x0504},
};

static void read_one(metlazuel_size i)
{
    uint8_t frame[METLAZUEL_REQUEST_BYTES], reply[METLAZUEL_FRAME_BYTES], result;
    uint8_t parameter = reads[i].parameter, offset = reads[i].offset, tariff = reads[i].tariff, detail = reads[i].detail;
    uint32_t row[METLAZUEL_FIGURES] = {0};
    metlazuel_size length, count = 0, received;
    check(reads[i].what, metlazuel_request(METER, parameter, offset, tariff, detail, frame, sizeof frame) == METLAZUEL_DONE
                             && frame[1] == METLAZUEL_FUNCTION_READ && frame[2] == parameter);
    check(reads[i].what, exchange(frame, sizeof frame - 2, reply, &length) == METLAZUEL_DONE);
    check(reads[i].what, metlazuel_decode(METER, parameter, offset, tariff, detail, reply, length, row, reads[i].figures - 1, &count, &result,
                                          &received)
                             == METLAZUEL_TOO_SHORT);
    check(reads[i].what, metlazuel_decode(METER, parameter, offset, tariff, detail, reply, length, row, reads[i].figures, &count, &result,
                                          &received)
                                 == METLAZUEL_DONE
                             && count == reads[i].figures && row[reads[i].place] == reads[i].figure);
}

// The same slice as it is displayed, with ratios of 1,000 and 1,000: counts times Ke 100 and the ratios are 100 kWh a count.
static void displayed(void)
{
    uint8_t frame[METLAZUEL_REQUEST_BYTES], reply[METLAZUEL_FRAME_BYTES], result;
    uint32_t row[4] = {0};
    metlazuel_size length, count = 0, received = 0;
    check("ratios too large", metlazuel_meter_ratios(record, sizeof record, 1001, 1000) == METLAZUEL_OUT_OF_RANGE);
    check("ratios", metlazuel_meter_ratios(record, sizeof record, 1000, 1000) == METLAZUEL_DONE);
    check("another parameter displayed",
          metlazuel_request4(METER, METLAZUEL_PARAMETER_CLOCK, 0, 0, 0, frame, sizeof frame) == METLAZUEL_OUT_OF_RANGE);
    check("a slice displayed", metlazuel_request4(METER, METLAZUEL_PARAMETER_SLICE, 5, 17, 3, frame, sizeof frame) == METLAZUEL_DONE
                                   && frame[1] == METLAZUEL_FUNCTION_READ4);
    check("a slice displayed", exchange(frame, sizeof frame - 2, reply, &length) == METLAZUEL_DONE);
    check("a row for fewer", metlazuel_decode4(METER, METLAZUEL_PARAMETER_SLICE, 5, 17, 3, reply, length, row, 3, &count, &result, &received)
                                 == METLAZUEL_TOO_SHORT);
    // 0x0504 counts: 128,400 kWh
    check("a slice displayed", metlazuel_decode4(METER, METLAZUEL_PARAMETER_SLICE, 5, 17, 3, reply, length, row, 4, &count, &result, &received)
                                       == METLAZUEL_DONE
                                   && count == 4 && row[3] == 0x47FAC800);
    check("a reply to the other function",
          metlazuel_decode(METER, METLAZUEL_PARAMETER_SLICE, 5, 17, 3, reply, length, row, 4, &count, &result, &received)
                  == METLAZUEL_REPLY_LENGTH
              && received == length);
}

static void parameters(void)
{
    check("active powers set",
          metlazuel_meter_powers(record, sizeof record, METLAZUEL_PARAMETER_ACTIVE_POWER, 0x3F800000, 0, 0) == METLAZUEL_DONE);
    check("reactive powers set",
          metlazuel_meter_powers(record, sizeof record, METLAZUEL_PARAMETER_REACTIVE_POWER, 0x40000000, 0, 0) == METLAZUEL_DONE);
    for (metlazuel_size i = 0; i < sizeof reads / sizeof reads[0]; i++)
        read_one(i);
    displayed();
}

// A command other than a read: what is answered, and the function of the reply.
static void command(const char *what, uint8_t function, uint8_t parameter, const uint8_t *data, metlazuel_size n, uint8_t answer)
{
    uint8_t frame[METLAZUEL_FRAME_BYTES] = {METER, function, parameter, 0}, reply[METLAZUEL_FRAME_BYTES];
    metlazuel_size length = 0;
    memcpy(frame + 4, data, n);
    check(what, exchange(frame, 4 + n, reply, &length) == answer);
    check(what, reply[1] == (answer == METLAZUEL_DONE ? function : (function | METLAZUEL_FUNCTION_REFUSED)));
}

// The factory's password opens every change, until the level is shut again.
static void functions(void)
{
    static const uint8_t password[PASSWORD_BYTES] = {'0', '0', '0', '0', '0', '0', '0', '0'};
    command("zeroing while shut", METLAZUEL_FUNCTION_ZERO, METLAZUEL_PARAMETER_SLICE, password, 0, METLAZUEL_NO_ACCESS);
    command("unlock", METLAZUEL_FUNCTION_UNLOCK, 0, password, sizeof password, METLAZUEL_DONE);
    command("password", METLAZUEL_FUNCTION_CHANGE, METLAZUEL_PARAMETER_PASSWORD, password, sizeof password, METLAZUEL_DONE);
    command("zeroing", METLAZUEL_FUNCTION_ZERO, METLAZUEL_PARAMETER_SLICE, password, 0, METLAZUEL_DONE);
    command("lock", METLAZUEL_FUNCTION_LOCK, 0, password, 0, METLAZUEL_DONE);
    command("zeroing while shut again", METLAZUEL_FUNCTION_ZERO, METLAZUEL_PARAMETER_SLICE, password, 0, METLAZUEL_NO_ACCESS);
}

// Each of the meter's refusals.
static void meter_answers(void)
{
    static const uint8_t zeros[2] = {0}, ones[2] = {1, 1};
    uint8_t frame[METLAZUEL_FRAME_BYTES] = {METER + 1, METLAZUEL_FUNCTION_READ, METLAZUEL_PARAMETER_CLOCK}, reply[METLAZUEL_FRAME_BYTES];
    metlazuel_size length;
    check("another meter's frame", exchange(frame, METLAZUEL_REQUEST_BYTES - 2, reply, &length) == METLAZUEL_SILENT);
    command("function 5", 5, METLAZUEL_PARAMETER_CLOCK, zeros, 2, METLAZUEL_UNKNOWN_FUNCTION);
    command("the clock by function 4", METLAZUEL_FUNCTION_READ4, METLAZUEL_PARAMETER_CLOCK, zeros, 2, METLAZUEL_NOT_OPEN);
    command("parameter 1", METLAZUEL_FUNCTION_READ, 1, zeros, 2, METLAZUEL_UNKNOWN_PARAMETER);
    command("a password read", METLAZUEL_FUNCTION_READ, METLAZUEL_PARAMETER_PASSWORD, zeros, 2, METLAZUEL_NOT_OPEN);
    command("a byte too few", METLAZUEL_FUNCTION_READ, METLAZUEL_PARAMETER_CLOCK, zeros, 1, METLAZUEL_WRONG_LENGTH);
    command("a field not used", METLAZUEL_FUNCTION_READ, METLAZUEL_PARAMETER_CLOCK, ones, 2, METLAZUEL_WRONG_ARGUMENT);
    uint8_t zeroing[METLAZUEL_FRAME_BYTES] = {0, METLAZUEL_FUNCTION_ZERO, METLAZUEL_PARAMETER_SLICE, 0};
    check("zeroing by address 0", exchange(zeroing, 4, reply, &length) == METLAZUEL_BY_ADDRESS_ZERO);
    check("its refusal frame", length == 6 && reply[0] == 0 && reply[1] == (METLAZUEL_FUNCTION_ZERO | METLAZUEL_FUNCTION_REFUSED));
}

// A reply for the open ask with one byte changed, and its CRC made right again where `sealed`: the answer, which leaves ask and length.
static void damaged_reply(const char *what, uint8_t *ask, uint8_t *reply, metlazuel_size at, int sealed, uint8_t answer)
{
    uint8_t was = reply[at], result = 7;
    metlazuel_size n = seal(reply, 12), received = 99;
    reply[at] ^= 1;
    if (sealed)
        seal(reply, 12);
    check(what, metlazuel_take(image, sizeof image, figures, METLAZUEL_DAY_FIGURES, ask, METLAZUEL_ASK_BYTES, reply, n, &result, &received)
                    == answer);
    check(what, result == 7 && received == 99 && ask[0] == 1);
    reply[at] = was;
}

// What is wrong with a reply, the first thing first.
static void reply_faults(uint8_t *ask, uint8_t *reply)
{
    uint8_t result = 7;
    metlazuel_size received = 99;
    check("no reply at all", metlazuel_take(image, sizeof image, figures, METLAZUEL_DAY_FIGURES, ask, METLAZUEL_ASK_BYTES, reply, 0, &result, &received)
                                     == METLAZUEL_REPLY_LENGTH
                                 && received == 0);
    check("a long reply", metlazuel_take(image, sizeof image, figures, METLAZUEL_DAY_FIGURES, ask, METLAZUEL_ASK_BYTES, file, 300, &result, &received)
                                  == METLAZUEL_REPLY_LENGTH
                              && received == 300);
    damaged_reply("another byte", ask, reply, 5, 0, METLAZUEL_REPLY_CRC);
    damaged_reply("another address", ask, reply, 0, 1, METLAZUEL_REPLY_ADDRESS);
    damaged_reply("another function", ask, reply, 1, 1, METLAZUEL_REPLY_FUNCTION);
    damaged_reply("a top bit that is missing", ask, reply, 3, 1, METLAZUEL_REPLY_FUNCTION);
    damaged_reply("another parameter", ask, reply, 2, 1, METLAZUEL_REPLY_PARAMETER);
}

// Each refusal of an ask and of its reply; slot 3 is measured.
static void reader_answers(void)
{
    uint8_t ask[METLAZUEL_ASK_BYTES] = {0}, out[METLAZUEL_REQUEST_BYTES], result = 0;
    uint8_t reply[METLAZUEL_FRAME_BYTES] = {METER, METLAZUEL_FUNCTION_READ, METLAZUEL_PARAMETER_SLICE, 0, 9};
    uint8_t refusal[6] = {METER, METLAZUEL_FUNCTION_READ | METLAZUEL_FUNCTION_REFUSED, METLAZUEL_PARAMETER_SLICE, 3};
    check("no ask open", take(ask, reply, seal(reply, 12), &result) == METLAZUEL_NO_ASK_OPEN);
    check("a day too late", metlazuel_ask(image, sizeof image, ask, sizeof ask, METER, DAYS, 3, out, sizeof out) == METLAZUEL_NOT_IN_LOG);
    check("an ask", metlazuel_ask(image, sizeof image, ask, sizeof ask, METER, 0, 3, out, sizeof out) == METLAZUEL_DONE);
    check("a second ask", metlazuel_ask(image, sizeof image, ask, sizeof ask, METER, 0, 3, out, sizeof out) == METLAZUEL_ASK_ALREADY_OPEN);
    reply_faults(ask, reply);
    check("other counts", take(ask, reply, seal(reply, 12), &result) == METLAZUEL_OTHER_COUNTS);
    check("an ask again", metlazuel_ask(image, sizeof image, ask, sizeof ask, METER, 0, 3, out, sizeof out) == METLAZUEL_DONE);
    check("a refusal", take(ask, refusal, seal(refusal, 4), &result) == METLAZUEL_METER_REFUSED && result == 3);
}

static void infinite_power(void)
{
    uint8_t reply[METLAZUEL_FRAME_BYTES] = {METER, METLAZUEL_FUNCTION_READ, METLAZUEL_PARAMETER_ACTIVE_POWER, 0, 0, 0, 0x80, 0x7F}, result;
    uint32_t row[METLAZUEL_FIGURES];
    metlazuel_size count, received;
    check("an infinity", metlazuel_decode(METER, METLAZUEL_PARAMETER_ACTIVE_POWER, 0, 0, 0, reply, seal(reply, 20), row, METLAZUEL_FIGURES,
                                          &count, &result, &received)
                             == METLAZUEL_NOT_FINITE);
}

// A file with another byte, and with its CRC made right again where `sealed`: the answer.
static void damaged_file(const char *what, metlazuel_size at, uint8_t byte, int sealed, uint8_t answer)
{
    uint8_t was = file[at];
    metlazuel_size length;
    file[at] = byte;
    if (sealed)
        seal(file, sizeof file - 2);
    check(what, metlazuel_read_file(file, sizeof file, image, sizeof image, figures, METLAZUEL_DAY_FIGURES, &length) == answer);
    file[at] = was;
    seal(file, sizeof file - 2);
}

// The same cells as a file of version 1 or 2, whose rows end before the lapses: the answer is done, and the log has none.
static void older_file(uint8_t version, uint8_t seasons)
{
    static uint8_t older[METLAZUEL_FILE_BYTES];
    metlazuel_size n = METLAZUEL_HEADER_BYTES, length = 0;
    memcpy(older, file, METLAZUEL_HEADER_BYTES);
    older[METLAZUEL_AT_VERSION] = version;
    older[METLAZUEL_AT_SEASONS] = seasons;
    for (metlazuel_size i = 0; i < METLAZUEL_CELLS; i++, n += METLAZUEL_FILE_AT_LAPSES)
        memcpy(older + n, file + METLAZUEL_HEADER_BYTES + i * METLAZUEL_FILE_CELL_BYTES, METLAZUEL_FILE_AT_LAPSES);
    n = seal(older, n);
    check("an older file in less room",
          metlazuel_read_file(older, n, image, sizeof image - 1, figures, METLAZUEL_DAY_FIGURES, &length) == METLAZUEL_TOO_SHORT);
    check("an older file", metlazuel_read_file(older, n, image, sizeof image, figures, METLAZUEL_DAY_FIGURES, &length) == METLAZUEL_DONE
                               && length == sizeof image);
    check("its log", image[METLAZUEL_AT_VERSION] == 3 && image[METLAZUEL_AT_SEASONS] == seasons
                         && image[METLAZUEL_AT_LAPSES(METLAZUEL_CELLS)] == 0);
}

static void file_answers(void)
{
    metlazuel_size length;
    damaged_file("a file's mark", METLAZUEL_AT_MARK, 'g', 1, METLAZUEL_FILE_MARK);
    damaged_file("a file's version", METLAZUEL_AT_VERSION, 9, 1, METLAZUEL_FILE_VERSION);
    damaged_file("version 1 with seasons", METLAZUEL_AT_VERSION, 1, 1, METLAZUEL_FILE_HEADER);
    damaged_file("a file's header", METLAZUEL_AT_MONTH, 13, 1, METLAZUEL_FILE_HEADER);
    damaged_file("a file's seasons", METLAZUEL_AT_SEASONS, 2, 1, METLAZUEL_FILE_HEADER);
    damaged_file("a file's length", METLAZUEL_AT_DAYS, 1, 1, METLAZUEL_FILE_LENGTH);
    damaged_file("version 2 with lapses", METLAZUEL_AT_VERSION, 2, 1, METLAZUEL_FILE_LENGTH);
    damaged_file("a file's CRC", METLAZUEL_HEADER_BYTES, METLAZUEL_KIND_EMPTY, 0, METLAZUEL_FILE_CRC);
    damaged_file("a file's cell", METLAZUEL_HEADER_BYTES, METLAZUEL_KIND_MEASURED, 1, METLAZUEL_FILE_CELL);
    damaged_file("a file with lapses", METLAZUEL_HEADER_BYTES + METLAZUEL_FILE_AT_LAPSES, 7, 1, METLAZUEL_DONE);
    check("its lapses", image[METLAZUEL_AT_LAPSES(METLAZUEL_CELLS)] == 7);
    check("the file itself", metlazuel_read_file(file, sizeof file, image, sizeof image, figures, METLAZUEL_DAY_FIGURES, &length) == METLAZUEL_DONE);
    older_file(2, SEASONS);
    older_file(1, 0);
}

// The Mercury 206's commands, lengths and numbers, and the longest row.
static void mercury(void)
{
    static const uint8_t rest[METLAZUEL_MERCURY_REST + 1] = {1, 2, 3, 4, 5, 6, 7, 8};
    static const uint8_t commands[] = {METLAZUEL_MERCURY_TARIFFS, METLAZUEL_MERCURY_LOAD, METLAZUEL_MERCURY_FREQUENCY};
    static const metlazuel_size counts[] = {4, 3, METLAZUEL_MERCURY_FIGURES};
    uint8_t request[METLAZUEL_MERCURY_REQUEST_BYTES], reply[METLAZUEL_FRAME_BYTES];
    uint32_t row[METLAZUEL_MERCURY_FIGURES] = {0};
    metlazuel_size length = 0, count = 0;
    check("a shorter request", metlazuel_mercury_request(1234, commands[0], request, sizeof request - 1) == METLAZUEL_TOO_SHORT);
    check("a fourth command", metlazuel_mercury_request(1234, 0x28, request, sizeof request) == METLAZUEL_MERCURY_FORM);
    for (metlazuel_size c = 0; c < sizeof commands; c++) {
        check("a request", metlazuel_mercury_request(1234, commands[c], request, sizeof request) == METLAZUEL_DONE);
        check("a shorter reply's room",
              metlazuel_mercury_answer(1234, 1, 2, 3, 4, 5, 6, 7, 8, rest, METLAZUEL_MERCURY_REST, request, sizeof request, reply,
                                       sizeof reply - 1, &length)
                  == METLAZUEL_TOO_SHORT);
        check("a figure above its digits",
              metlazuel_mercury_answer(1234, 1, 2, 3, 100000000, 5, 6, 7, 8, rest, METLAZUEL_MERCURY_REST, request, sizeof request, reply,
                                       sizeof reply, &length)
                  == METLAZUEL_OUT_OF_RANGE);
        check("an answer",
              metlazuel_mercury_answer(1234, 1, 2, 3, 4, 5, 6, 7, 8, rest, METLAZUEL_MERCURY_REST, request, sizeof request, reply,
                                       sizeof reply, &length)
                  == METLAZUEL_DONE);
        check("a shorter row", metlazuel_mercury_decode(1234, commands[c], reply, length, row, counts[c] - 1, &count) == METLAZUEL_TOO_SHORT);
        check("figures", metlazuel_mercury_decode(1234, commands[c], reply, length, row, counts[c], &count) == METLAZUEL_DONE
                             && count == counts[c]);
    }
    check("the last byte behind a frequency", row[METLAZUEL_MERCURY_REST] == 7);
    reply[5] = 0x0A;
    length = seal(reply, length - 2);
    check("a half-byte of ten", metlazuel_mercury_decode(1234, METLAZUEL_MERCURY_FREQUENCY, reply, length, row, METLAZUEL_MERCURY_FIGURES, &count)
                                    == METLAZUEL_MERCURY_DIGIT);
}

int main(void)
{
    longest_log();
    header_bytes();
    meter();
    cell_bytes();
    lapses_byte();
    empty_cell();
    day_figures();
    gaps();
    report_row();
    march();
    october();
    parameters();
    functions();
    meter_answers();
    reader_answers();
    infinite_power();
    file_answers();
    mercury();
    return wrong;
}
