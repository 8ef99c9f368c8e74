// The functions of libmetlazuel.a (crates/metlazuel), as C and C++ see them; tests/c/example.c uses them all. target/staticlib has the archive for Linux on
// x86-64, as the Rattle kit's compiler is, and target/MACHINE, by tools/build-for, those for other machines. It calls memcpy and memset, and where the
// processor lacks some arithmetic the compiler's own functions for it, and nothing else.
//
// A slice is a pointer and its length. What a caller owes is what C always asks: memory as long as it says, aligned for its type, and no
// lent memory that overlaps another argument. No pointer is null, not even where its length is 0. Everything else is refused by a number:
// each call but the CRC answers with one of enum metlazuel_answer. A call that is refused changes nothing but what its comment names, and
// output past what was written stays as it was. Nothing is kept between calls and no memory is shared, so calls on other memory may run at
// the same time.
#ifndef METLAZUEL_H
#define METLAZUEL_H

#include <stddef.h>
#include <stdint.h>

// What is declared here, as major * 10000 + minor * 100 + patch: 7.1.0. What is there today stays as it is while the major number does.
#define METLAZUEL_VERSION 70100

#ifdef __cplusplus
extern "C" {
#endif

// A length, or a number of numbers. It has 64 bits on every machine, since the library's own lengths have, whatever size_t is there: a program whose
// size_t has 32 bits passes 64 all the same, and lends 64 where a length is stored. On x86-64 it is what size_t is, and either may be used.
typedef uint64_t metlazuel_size;

// The answers: the numbers of document 01's refusal table, and 16, 40, 41 and 50 to 54 of document 02.
enum metlazuel_answer {
    METLAZUEL_DONE = 0,
    METLAZUEL_TOO_SHORT = 1,          // a lent output that is too short, or fewer figures than the log has
    METLAZUEL_SILENT = 2,             // meter: a frame with a wrong length, CRC or address, which it passes over
    METLAZUEL_UNKNOWN_FUNCTION = 10,  // meter; 10 to 16 come with a refusal frame
    METLAZUEL_UNKNOWN_PARAMETER = 11, // meter
    METLAZUEL_NOT_OPEN = 12,          // meter: a parameter that is not open to the function
    METLAZUEL_WRONG_LENGTH = 13,      // meter: a length that is wrong for the command
    METLAZUEL_NO_ACCESS = 14,         // meter: a level too low, or a wrong password
    METLAZUEL_WRONG_ARGUMENT = 15,    // meter
    METLAZUEL_BY_ADDRESS_ZERO = 16,   // meter: a change or a zeroing by address 0
    METLAZUEL_NO_ASK_OPEN = 20,
    METLAZUEL_ASK_ALREADY_OPEN = 21,
    METLAZUEL_NOT_IN_LOG = 22,        // an interval or a day that the log does not have, and a slot that does not exist
    METLAZUEL_METER_REFUSED = 24,     // a well-formed reply whose result is not 0
    METLAZUEL_OTHER_COUNTS = 25,      // a reply with other counts than those measured
    METLAZUEL_NOT_FINITE = 26,        // a reply of floats with an infinity or no number
    METLAZUEL_OUT_OF_RANGE = 27,      // a bench setting, a new log's header, or a request
    METLAZUEL_UNSOUND = 28,           // lent bytes that are no log, no cell of one, no ask or no meter's record, or a figure that is not the log's
    METLAZUEL_FILE_MARK = 30,         // a file that is no log's, or of fewer than 5 bytes
    METLAZUEL_FILE_VERSION = 31,
    METLAZUEL_FILE_HEADER = 32,
    METLAZUEL_FILE_LENGTH = 33,
    METLAZUEL_FILE_CRC = 34,
    METLAZUEL_FILE_CELL = 35,         // a cell that is none, or another than a gap without lapses in a slot that does not exist
    METLAZUEL_MERCURY_FORM = 40,      // Mercury 206: a frame with a wrong length, CRC, address or command
    METLAZUEL_MERCURY_DIGIT = 41,     // Mercury 206: a figure with a half-byte above 9
    METLAZUEL_REPLY_LENGTH = 50,      // a reply that is not well formed: of a wrong length,
    METLAZUEL_REPLY_CRC = 51,         //   with a wrong CRC (both speak of the cable),
    METLAZUEL_REPLY_ADDRESS = 52,     //   of another address,
    METLAZUEL_REPLY_FUNCTION = 53,    //   with another function, or a top bit that belies its result,
    METLAZUEL_REPLY_PARAMETER = 54    //   about another parameter (all three of a setting)
};

// Lengths. The first three are exact; an output may be longer than what goes into it.
enum {
    METLAZUEL_ASK_BYTES = 4,       // the open ask
    METLAZUEL_RECORD_BYTES = 89,   // a bench meter's record
    METLAZUEL_STORE_BYTES = 32736, // its store of slices
    METLAZUEL_REQUEST_BYTES = 8,   // a read request
    METLAZUEL_FRAME_BYTES = 64,    // the longest frame; a reply's output has at least so many
    METLAZUEL_CELLS = 62 * 96,     // the cells of the longest log, 62 days of 96 slots: 5,952
    METLAZUEL_HEADER_BYTES = 14,   // a log's header, in its image and in its file
    METLAZUEL_LOG_BYTES = METLAZUEL_HEADER_BYTES + METLAZUEL_CELLS / 4 + 9 * METLAZUEL_CELLS, // the longest log's image: 55,070
    METLAZUEL_FILE_CELL_BYTES = 10, // each cell of a file, which is longer than the image:
    METLAZUEL_FILE_BYTES = METLAZUEL_HEADER_BYTES + METLAZUEL_FILE_CELL_BYTES * METLAZUEL_CELLS + 2, // the longest, with its CRC: 59,536
    METLAZUEL_COUNTS = 4,          // the counts of a cell, in 16-bit numbers: E+, E-, R+, R-
    METLAZUEL_ROW = 8,             // a day's report, in 32-bit numbers
    METLAZUEL_DAY_FIGURES = 62 * METLAZUEL_ROW, // the figures of the longest log, a row for each day, in 32-bit numbers: 496
    METLAZUEL_FIGURES = 24,        // the most figures of a reply, in 32-bit numbers
    METLAZUEL_MERCURY_REQUEST_BYTES = 7, // a Mercury 206's request
    METLAZUEL_MERCURY_FIGURES = 8, // the most figures of its replies, in 32-bit numbers
    METLAZUEL_MERCURY_REST = 7     // the bytes behind its frequency
};

// The parameters of the meter, by the numbers that it gives them (SS-301 operator's instruction 3.16, Appendix A).
enum metlazuel_parameter {
    METLAZUEL_PARAMETER_ACTIVE_POWER = 8,
    METLAZUEL_PARAMETER_REACTIVE_POWER = 9,
    METLAZUEL_PARAMETER_ADDRESS = 21,
    METLAZUEL_PARAMETER_TELEMETRY = 24,
    METLAZUEL_PARAMETER_SUMMER_DATE = 27,
    METLAZUEL_PARAMETER_WINTER_DATE = 28,
    METLAZUEL_PARAMETER_CLOCK = 32,
    METLAZUEL_PARAMETER_DISPLAY_MASK = 35,
    METLAZUEL_PARAMETER_SLICE = 36,
    METLAZUEL_PARAMETER_PASSWORD = 37, // written and never read
    METLAZUEL_PARAMETER_SIX_SLICES = 40
};

// The functions of a frame, its second byte. Every request of this library reads; a bench meter answers the others too.
enum metlazuel_function {
    METLAZUEL_FUNCTION_READ = 3,      // figures as the meter keeps them
    METLAZUEL_FUNCTION_READ4 = 4,     // figures as its display shows them
    METLAZUEL_FUNCTION_CHANGE = 16,
    METLAZUEL_FUNCTION_ZERO = 30,
    METLAZUEL_FUNCTION_UNLOCK = 31,   // opens the level whose password it has
    METLAZUEL_FUNCTION_LOCK = 32,
    METLAZUEL_FUNCTION_REFUSED = 128  // the top bit, set in a reply whose result is not 0
};

// The Modbus CRC-16.
uint16_t metlazuel_crc16(const uint8_t *bytes, metlazuel_size n);

// ---- the log
//
// A log is its image: bytes that metlazuel_log_fresh or metlazuel_read_file put at the front of a lent buffer, with their number in
// *length; a refusal leaves both. The other calls are lent exactly these bytes. A slot's cell is a gap as long as no well-formed reply with
// result 0 came for it; empty where such replies came and all were zeros, which the meter answers for a slice that it does not have, too;
// and else measured, with the counts of the first such reply that was not all zeros. With its kind and counts a cell has its lapses: how many
// asks for it ended in one, 255 also for more. So a gap with lapses was asked for in vain at least that often. One with 0 was never asked for, or its asks
// were refused by the meter, are still open, or ended without metlazuel_lapse, as where power or the line's device failed; or the log was read from a file
// of version 1 or 2, which tells no lapses.
//
// A log follows the automatic seasons or does not. Where it does, the last Sunday of March has no time between 02:00 and 03:00: those slots
// (4 and 5 of 30 minutes, 8 to 11 of 15) do not exist on that day. Their cells stay gaps, but they are NOT_IN_LOG to metlazuel_ask,
// metlazuel_lapse, metlazuel_take and metlazuel_cell, and neither the report nor the next gap counts them. On the last Sunday of October that
// hour comes twice under one key: its slots are logged as any other, and the report tells how many of them are measured.
//
// Beside the log stand its figures: METLAZUEL_ROW numbers a day, day after day, each row as metlazuel_day_report gives it, so METLAZUEL_DAY_FIGURES
// at most. They spare the report the walk over the day's cells. The caller owns log, figures and open ask, and the three go together: each call that
// takes one of them is lent it as the calls before left it, and nothing else writes into them. metlazuel_log_fresh and metlazuel_read_file fill log and
// figures, and metlazuel_take keeps both right; metlazuel_ask, metlazuel_lapse, metlazuel_cell, metlazuel_next_gap and metlazuel_write_file neither read
// nor change a figure, and are lent none. More numbers may be lent than the log has: the rest stays as it is. A file does not carry figures: whoever reads
// it gets them with the log. So after any such calls every figure is what a walk over the cells gives. Figures that are another log's, or were written
// by hand, are not found out by a walk: metlazuel_day_report copies what it is lent, and metlazuel_take changes it by what the one cell changed, or
// answers UNSOUND where a figure would fall below 0 or pass 32 bits. A log whose figures were lost is written as a file and read back.

// What a cell is.
enum metlazuel_kind {
    METLAZUEL_KIND_GAP = 0,
    METLAZUEL_KIND_EMPTY = 1,
    METLAZUEL_KIND_MEASURED = 2
};

// Where the parts of an image stand; numbers of two bytes have the lower one first. A day has 1440 / minutes slots, a log days * slots cells, and slot SLOT of
// day DAY is cell I, of DAY * slots + SLOT. Behind the header come all kinds, at two bits each, one of enum metlazuel_kind: four cells to a byte, the earlier
// cell in the lower bits. Then come four columns of counts, two bytes each: E+ of all cells, E- of all, R+ and R-. Then come the lapses, one byte each. So the
// kinds of all cells, which a radio may send before the rest, are the METLAZUEL_AT_COUNTS(cells, 0) first bytes, header and all. Reading is what these places
// are for: an image that was written by hand may be one that every call refuses.
enum {
    METLAZUEL_AT_MARK = 0,     // of the header: the letters GEL
    METLAZUEL_AT_VERSION = 3,  //   3, two bytes
    METLAZUEL_AT_YEAR = 5,     //   from 2000 on
    METLAZUEL_AT_MONTH = 6,
    METLAZUEL_AT_DAY = 7,
    METLAZUEL_AT_DAYS = 8,
    METLAZUEL_AT_MINUTES = 9,
    METLAZUEL_AT_KE = 10,      //   two bytes
    METLAZUEL_AT_SEASONS = 12, //   1 where the automatic seasons are followed, else 0; a zero byte behind it
    METLAZUEL_AT_KINDS = METLAZUEL_HEADER_BYTES
};

// Of a log with so many cells: the kind of cell i, 3 for none; where a column of counts begins (0 E+, 1 E-, 2 R+, 3 R-; that of cell i is 2 * i further
// on); where the lapses begin (those of cell i are i further on); and the image's length.
#define METLAZUEL_KIND_IN(image, i) (((image)[METLAZUEL_AT_KINDS + (i) / 4] >> 2 * ((i) % 4)) & 3)
#define METLAZUEL_AT_COUNTS(cells, column) (METLAZUEL_AT_KINDS + (cells) / 4 + 2 * (cells) * (column))
#define METLAZUEL_AT_LAPSES(cells) METLAZUEL_AT_COUNTS(cells, 4)
#define METLAZUEL_IMAGE_BYTES(cells) (METLAZUEL_AT_LAPSES(cells) + (cells))

// A file of version 3 is none of that: the same header, then cell after cell in METLAZUEL_FILE_CELL_BYTES each, then the CRC of all before it, two bytes. It is as
// it was before images had columns. Cell I begins at METLAZUEL_HEADER_BYTES + I * METLAZUEL_FILE_CELL_BYTES.
enum {
    METLAZUEL_FILE_AT_KIND = 0,   // of a file's cell: one of enum metlazuel_kind
    METLAZUEL_FILE_AT_EPLUS = 1,  //   the counts, two bytes each
    METLAZUEL_FILE_AT_EMINUS = 3,
    METLAZUEL_FILE_AT_RPLUS = 5,
    METLAZUEL_FILE_AT_RMINUS = 7,
    METLAZUEL_FILE_AT_LAPSES = 9  //   how many asks for it lapsed, one byte
};

// In a slot's place: there is no gap.
enum { METLAZUEL_NO_GAP = 255 };

// A fresh log, all gaps, that starts on a date (the year counts from 2000) and has 1 to 62 days of slots of 15 or 30 minutes, and ke
// milliwatt-hours a count; seasons is 1 where it follows the automatic seasons, else 0. Its figures go to the front of figures. OUT_OF_RANGE, TOO_SHORT
// (log or figures), else DONE. A refusal leaves log, figures and *length.
uint8_t metlazuel_log_fresh(uint8_t *log, metlazuel_size room, uint32_t *figures, metlazuel_size numbers, uint8_t year, uint8_t month,
                            uint8_t day, uint8_t days, uint8_t minutes, uint16_t ke, uint8_t seasons, metlazuel_size *length);

// The cell of a slot of a day, both counted from 0: its kind to *kind, one of enum metlazuel_kind, its counts E+, E-, R+, R- to counts, zeros
// unless it is measured, and how many asks for it lapsed to *lapses, of every kind. UNSOUND (log), NOT_IN_LOG, UNSOUND (the cell), else DONE. A
// refusal leaves all three.
uint8_t metlazuel_cell(const uint8_t *log, metlazuel_size n, uint8_t day, uint8_t slot, uint8_t *kind, uint16_t counts[METLAZUEL_COUNTS],
                       uint8_t *lapses);

// The first slot of a day, from a slot on, whose cell is a gap, to *slot; METLAZUEL_NO_GAP where there is none, also from a slot on that
// the day does not have. A damaged cell is no gap: metlazuel_cell and metlazuel_write_file find it; nor is one of a slot that does not exist.
// UNSOUND (log), NOT_IN_LOG (the day), else DONE, found or not. A refusal leaves *slot. All gaps of a day:
//   for (uint8_t slot = 0; metlazuel_next_gap(log, n, day, slot, &slot) == METLAZUEL_DONE && slot != METLAZUEL_NO_GAP; slot++)
uint8_t metlazuel_next_gap(const uint8_t *log, metlazuel_size n, uint8_t day, uint8_t from, uint8_t *slot);

// The open ask is METLAZUEL_ASK_BYTES: 0 and three bytes that nobody looks at where none is open (so four zero bytes to begin with), or
// 1, address, day and slot. Bytes of another length, or with another first byte, are UNSOUND. A call that is refused leaves them as they
// are, but for the two refusals of metlazuel_take that close the ask; a call that closes the ask leaves four zeros.

// Opens an ask to a meter for a slot of a day, both counted from 0, and puts its request to the front of out: METLAZUEL_REQUEST_BYTES.
// TOO_SHORT, UNSOUND (log or ask), ASK_ALREADY_OPEN, NOT_IN_LOG, else DONE.
uint8_t metlazuel_ask(const uint8_t *log, metlazuel_size n, uint8_t *ask, metlazuel_size size, uint8_t address, uint8_t day, uint8_t slot,
                      uint8_t *out, metlazuel_size room);

// No well-formed reply came: closes the ask, and its cell in the log has one lapse more, at most 255. With none open log and ask stay as they are:
// DONE, whatever the log is. UNSOUND (ask), and with one open UNSOUND (log), NOT_IN_LOG, UNSOUND (the interval's cell), else DONE. A refusal leaves
// log and ask, so that the ask is still open.
uint8_t metlazuel_lapse(uint8_t *log, metlazuel_size n, uint8_t *ask, metlazuel_size size);

// Takes a reply for the open ask into the log, and its day's row of figures goes with it. UNSOUND (ask or log), TOO_SHORT (fewer figures than the log
// has), NO_ASK_OPEN, NOT_IN_LOG, REPLY_LENGTH (the length received is stored through length, which every other answer leaves) to REPLY_PARAMETER, the
// first that is wrong (the ask stays open), METER_REFUSED (the ask is closed, and the meter's result stored through result, which every other answer
// leaves), UNSOUND (the interval's cell), OTHER_COUNTS (the ask is closed, the cell stays), UNSOUND (the day's figures cannot be this log's: one would
// fall below 0 or pass 32 bits; nothing is changed at all, and the ask stays open), else DONE (the ask is closed).
uint8_t metlazuel_take(uint8_t *log, metlazuel_size n, uint32_t *figures, metlazuel_size numbers, uint8_t *ask, metlazuel_size size,
                       const uint8_t *reply, metlazuel_size bytes, uint8_t *result, metlazuel_size *length);

// A day's report, the days counted from 0: the number of gaps, empty and measured cells of the slots that exist, then the sums of E+, E-, R+
// and R-, and how many of the measured slots came twice (0 but on the last Sunday of October, where seasons are followed), to the front of
// a row of at least METLAZUEL_ROW numbers. It is the day's row of the figures that are lent: no cell is read, so a damaged one is no matter here. TOO_SHORT
// (the row), UNSOUND (log), TOO_SHORT (fewer figures than the log has), NOT_IN_LOG, else DONE.
uint8_t metlazuel_day_report(const uint8_t *log, metlazuel_size n, const uint32_t *figures, metlazuel_size numbers, uint8_t day,
                             uint32_t *row, metlazuel_size room);

// A log, written as a file of version 3 to the front of out, its length to *length. UNSOUND (header, length), TOO_SHORT, UNSOUND (a cell, also
// one that is no gap, or has lapses, in a slot that does not exist), else DONE.
uint8_t metlazuel_write_file(const uint8_t *log, metlazuel_size n, uint8_t *out, metlazuel_size room, metlazuel_size *length);

// A file of version 3, of version 2, which has no lapses, or of version 1, which follows no seasons either, read as a log to the front of out, the
// image's length to *length: METLAZUEL_IMAGE_BYTES of its cells, whichever version it was. Its figures, counted from the cells of the slots that exist, go to
// the front of figures. FILE_MARK to FILE_CELL, TOO_SHORT (out or figures), else DONE. A refusal leaves out, figures and *length.
uint8_t metlazuel_read_file(const uint8_t *file, metlazuel_size n, uint8_t *out, metlazuel_size room, uint32_t *figures,
                            metlazuel_size numbers, metlazuel_size *length);

// ---- read requests and their replies, without a log
//
// The parameter is one of enum metlazuel_parameter. A power has detail 0 for the total and A, B, C, 1 to 3 for one phase; slice and six
// slices have month, day and number in place of offset, tariff and detail. Fields that a parameter does not use are 0.

// Puts a read request to the front of out: METLAZUEL_REQUEST_BYTES. TOO_SHORT, OUT_OF_RANGE (a request that no meter would answer with
// result 0), else DONE.
uint8_t metlazuel_request(uint8_t address, uint8_t parameter, uint8_t offset, uint8_t tariff, uint8_t detail, uint8_t *out,
                          metlazuel_size room);

// The same with function 4, which newer meters answer with figures as their display shows them. It reads METLAZUEL_PARAMETER_SLICE alone:
// any other parameter is OUT_OF_RANGE.
uint8_t metlazuel_request4(uint8_t address, uint8_t parameter, uint8_t offset, uint8_t tariff, uint8_t detail, uint8_t *out,
                           metlazuel_size room);

// Decodes the reply to a read request. Its figures go to the front of a row of 32-bit numbers, and how many they are to *count:
//   address               1
//   telemetry             3   K, Ke, reserve
//   season dates, clock   6   year from 2000, month, day, hour, minute, second
//   display mask          3   parameters, tariffs, directions
//   powers                4   total, A, B, C, each as the bits of its 32-bit float
//   one phase's power     1   likewise
//   slice                 4   E+, E-, R+, R-
//   six slices           24   six such rows
// TOO_SHORT (a row for fewer figures than a reply to this request has), OUT_OF_RANGE (a request that no meter would answer with result
// 0), REPLY_LENGTH (the length received is stored through length, which every other answer leaves) to REPLY_PARAMETER, METER_REFUSED (the
// meter's result is stored through result, which every other answer leaves), NOT_FINITE, else DONE. A refusal leaves figures and *count.
uint8_t metlazuel_decode(uint8_t address, uint8_t parameter, uint8_t offset, uint8_t tariff, uint8_t detail, const uint8_t *reply,
                         metlazuel_size bytes, uint32_t *figures, metlazuel_size room, metlazuel_size *count, uint8_t *result,
                         metlazuel_size *length);

// The same of a reply to a request with function 4. Its figures:
//   slice                 4   E+, E-, R+, R- in kilowatt-hours, each as the bits of its 32-bit float
uint8_t metlazuel_decode4(uint8_t address, uint8_t parameter, uint8_t offset, uint8_t tariff, uint8_t detail, const uint8_t *reply,
                          metlazuel_size bytes, uint32_t *figures, metlazuel_size room, metlazuel_size *count, uint8_t *result,
                          metlazuel_size *length);

// ---- the bench meter
//
// Its record is METLAZUEL_RECORD_BYTES that _make fills and that every other call is lent, no more and no fewer; its store is
// METLAZUEL_STORE_BYTES, at first all zero. A refused call leaves record and store as they were. Bytes that are no record, or one outside
// its ranges, are UNSOUND.

// A meter from the factory. The year counts from 2000; season 0 is winter and 1 summer. TOO_SHORT, OUT_OF_RANGE, else DONE.
uint8_t metlazuel_meter_make(uint8_t *meter, metlazuel_size n, uint8_t address, uint8_t minutes, uint32_t k, uint16_t ke, uint16_t reserve,
                             uint8_t year, uint8_t month, uint8_t day, uint8_t hour, uint8_t minute, uint8_t second, uint8_t season);

// Answers a frame. The reply goes to the front of out, which has at least METLAZUEL_FRAME_BYTES, and its length to *length. TOO_SHORT,
// UNSOUND, SILENT (nothing is to be sent, and *length is left as it was), UNKNOWN_FUNCTION to BY_ADDRESS_ZERO (six bytes), else DONE.
uint8_t metlazuel_meter_answer(uint8_t *meter, metlazuel_size n, uint8_t *store, metlazuel_size size, const uint8_t *frame,
                               metlazuel_size bytes, uint8_t *out, metlazuel_size room, metlazuel_size *length);

// A second passes. UNSOUND, else DONE.
uint8_t metlazuel_meter_second(uint8_t *meter, metlazuel_size n);

// Puts a slice into the store: E+, E-, R+ and R- of an interval. UNSOUND, OUT_OF_RANGE, else DONE.
uint8_t metlazuel_meter_slice(uint8_t *meter, metlazuel_size n, uint8_t *store, metlazuel_size size, uint8_t month, uint8_t day,
                              uint8_t number, uint16_t eplus, uint16_t eminus, uint16_t rplus, uint16_t rminus);

// Sets the powers that METLAZUEL_PARAMETER_ACTIVE_POWER or METLAZUEL_PARAMETER_REACTIVE_POWER reads, those of A, B and C, each as the bits
// of a 32-bit float. UNSOUND, OUT_OF_RANGE, else DONE.
uint8_t metlazuel_meter_powers(uint8_t *meter, metlazuel_size n, uint8_t parameter, uint32_t a, uint32_t b, uint32_t c);

// Sets the ratios of the current and voltage transformers before the meter, at first 1 each: from 1 on, their product at most 1,000,000. What
// function 4 reads has both in it. UNSOUND, OUT_OF_RANGE, else DONE.
uint8_t metlazuel_meter_ratios(uint8_t *meter, metlazuel_size n, uint32_t ki, uint32_t ku);

// ---- the Mercury 206
//
// Another meter, whose readings enter no log. Its address is its number; each call is of one of three commands.
enum metlazuel_mercury_command {
    METLAZUEL_MERCURY_TARIFFS = 0x27,
    METLAZUEL_MERCURY_LOAD = 0x63,     // voltage, current and power
    METLAZUEL_MERCURY_FREQUENCY = 0x81
};

// Puts a request to the front of out: METLAZUEL_MERCURY_REQUEST_BYTES. TOO_SHORT, MERCURY_FORM (another command), else DONE.
uint8_t metlazuel_mercury_request(uint32_t address, uint8_t command, uint8_t *out, metlazuel_size room);

// Decodes the reply to a request. Its figures go to the front of a row of 32-bit numbers, and how many they are to *count:
//   tariffs     4   energy by tariff, in tens of watt-hours
//   load        3   tenths of a volt, hundredths of an ampere, watts
//   frequency   8   hundredths of a hertz, and the seven bytes behind it as they are, a number each
// TOO_SHORT (a row for fewer figures than a reply to this request has), MERCURY_FORM, MERCURY_DIGIT, else DONE. A refusal leaves figures and
// *count.
uint8_t metlazuel_mercury_decode(uint32_t address, uint8_t command, const uint8_t *reply, metlazuel_size bytes, uint32_t *figures,
                                 metlazuel_size room, metlazuel_size *count);

// The bench: answers a request as the meter with this address and these figures does, in the units of metlazuel_mercury_decode. rest is the
// METLAZUEL_MERCURY_REST bytes behind the frequency; of fewer, those that are missing are 0. The reply goes to the front of out, which has
// at least METLAZUEL_FRAME_BYTES, and its length to *length. TOO_SHORT, OUT_OF_RANGE (a figure above its digits: tariffs have eight, power six,
// the others four), MERCURY_FORM (nothing is to be sent), else DONE. A refusal leaves out and *length.
uint8_t metlazuel_mercury_answer(uint32_t address, uint32_t first, uint32_t second, uint32_t third, uint32_t fourth, uint16_t voltage,
                                 uint16_t current, uint32_t power, uint16_t frequency, const uint8_t *rest, metlazuel_size size,
                                 const uint8_t *request, metlazuel_size bytes, uint8_t *out, metlazuel_size room, metlazuel_size *length);

#ifdef __cplusplus
}
#endif

#endif
