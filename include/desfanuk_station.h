/*
 * Desfanuk for C with one struct: a description and the station over it, in calls of two or three
 * arguments. It is all in this header, over the calls of desfanuk.h, and adds no judgement: what is
 * lent to those lies in a `struct desfanuk`, which is the caller's. The first call is a load.
 *
 *     static struct desfanuk d;
 *     if (desfanuk_station_load(&d, text, length) != 0) {
 *         printf("line %d: %s\n", (int)desfanuk_station_line(&d),
 *                desfanuk_words(d.verdict[1]));
 *     }
 *     desfanuk_station_open(&d, power, desfanuk_station_registers(&d));
 *     desfanuk_station_begin_write(&d, desfanuk_station_variable(&d, "score"), 2741);
 *     while (desfanuk_station_is_offer(&d)) {
 *         desfanuk_station_confirm(&d, perform(desfanuk_station_access(&d)));
 *     }
 *
 * score.c beside this file is a whole program. The struct has some 45,000 bytes.
 */
#ifndef DESFANUK_STATION_H
#define DESFANUK_STATION_H

#include "desfanuk.h"

#ifdef __cplusplus
extern "C" {
#endif

struct desfanuk {
    /* The text that was loaded, for names; of one that is too long its first bytes. */
    uint8_t text[DESFANUK_TEXT_BYTES];
    size_t text_len;
    /* The tables. */
    uint32_t parameters[DESFANUK_PARAMETERS_WORDS];
    uint32_t registers[DESFANUK_REGISTERS_WORDS];
    uint32_t variables[DESFANUK_VARIABLES_WORDS];
    /* The station between calls: the record, the marks, and the operation in hand. */
    uint32_t held[DESFANUK_REGISTERS];
    uint8_t marks[DESFANUK_VARIABLES];
    uint64_t operation[DESFANUK_OPERATION_WORDS];
    int is_open;
    /* Gain and offset of the read in hand, if it is one in units. */
    uint64_t gain;
    uint64_t offset;
    int is_in_units;
    /* What the last load and the last call of the station told. */
    uint64_t verdict[DESFANUK_VERDICT_WORDS];
    int64_t answer[DESFANUK_ANSWER_WORDS];
};

/* An access on offer. `width` is 8, 16 or 32: how many bits it carries. */
struct desfanuk_access {
    int is_write;
    size_t parameter;
    uint32_t offset;
    /* The number to write; 0 for a read. */
    uint32_t number;
    uint32_t width;
};

/* An array, lent. */
#define DESFANUK_LENT(array) (array), sizeof(array) / sizeof(array)[0]
#define DESFANUK_TABLES(d) \
    DESFANUK_LENT((d)->parameters), DESFANUK_LENT((d)->registers), DESFANUK_LENT((d)->variables)

/* The record and the marks: before the first opening there are none, and calls get 21. */
#define DESFANUK_HELD(d) (d)->held, (d)->is_open ? (size_t)DESFANUK_REGISTERS : 0
#define DESFANUK_MARKS(d) (d)->marks, (d)->is_open ? (size_t)DESFANUK_VARIABLES : 0

/* When a refusal is given, as docs/REFUSALS.md says it; "" for a number that is none. */
static inline const char *desfanuk_words(uint64_t number)
{
    switch (number) {
    case DESFANUK_REFUSED_SHORT_TABLE:
        return "a lent table or store is shorter than its stated size";
    case DESFANUK_REFUSED_LONG_TEXT:
        return "the text has more than 8,192 bytes";
    case DESFANUK_REFUSED_BAD_TOKEN:
        return "no token begins here; a block comment or a bits literal is not closed; a "
               "bits literal is empty or holds another character than `0 1 * .`; a number is "
               "over 2,147,483,647";
    case DESFANUK_REFUSED_GRAMMAR:
        return "no text of the grammar begins with the tokens up to this one; the end of the "
               "text counts as a token";
    case DESFANUK_REFUSED_SIZE:
        return "a size is passed: a name of more than 64 bytes; the 17th parameter, the 17th "
               "range of a parameter, the 65th register, the 129th variable, the 9th piece "
               "of a bit list; the 17th parenthesis or minus around a number";
    case DESFANUK_REFUSED_DECLARED:
        return "the name is already declared: one name space for the device, parameters, "
               "registers and variables";
    case DESFANUK_REFUSED_UNDECLARED:
        return "a port names no parameter, or a piece no register, declared earlier";
    case DESFANUK_REFUSED_OFFSET:
        return "an offset divides by zero, leaves the range of 32 bits, or is not in the "
               "parameter's set; in a parameter, an offset over 255 or a range going down";
    case DESFANUK_REFUSED_PORTS:
        return "a bad pairing of ports; a mask that has not as many elements as the "
               "register's stated width; two masks for one part; a mask for a missing part";
    case DESFANUK_REFUSED_PLACE:
        return "the part's parameter and offset already serve that part of an earlier "
               "register; of two write parts, unless some bit is fixed 0 in one mask and 1 "
               "in the other";
    case DESFANUK_REFUSED_BITS:
        return "a bit from the register's width up; a rising range; a bit twice in one part; "
               "a bit that is not a dot in that part's mask; a register without that part; a "
               "bad pairing of bit lists; a bare list with neither part; over 32 bits";
    case DESFANUK_REFUSED_WIDTH:
        return "the width of a parameter or register is not 8, 16 or 32; a register's is not "
               "that of the parameter of each of its ports; a type's width is unlike the "
               "bits; the parts' widths differ; a `bool` has not one bit";
    case DESFANUK_REFUSED_BEHAVIOUR:
        return "`volatile` or `trigger` is repeated for a part, or given for a missing part";
    case DESFANUK_REFUSED_MAPPED:
        return "a bit is already mapped in that part by an earlier variable";
    case DESFANUK_REFUSED_TRIGGER:
        return "a register part holds bits of two variables, at least one of them trigger "
               "for that part";
    case DESFANUK_REFUSED_UNMAPPED:
        return "a dot of some register part is mapped in that part by no variable";
    case DESFANUK_REFUSED_UNSOUND:
        return "the tables are short; a stored count, reference or flag is out of its range; "
               "an unused word is not zero; or what they describe breaks one of rules 8 to "
               "16 or a size (recorded names aside)";
    case DESFANUK_REFUSED_SHORT_RECORD:
        return "the power-on list, the record or the marks are shorter than the tables need";
    case DESFANUK_REFUSED_BAD_OPERATION:
        return "the operation in hand is not one that these tables allow (variable, part, "
               "step or value)";
    case DESFANUK_REFUSED_BUSY:
        return "begin while an operation is in hand";
    case DESFANUK_REFUSED_IDLE:
        return "confirm or abandon with none in hand";
    case DESFANUK_REFUSED_NO_VARIABLE:
        return "no such variable";
    case DESFANUK_REFUSED_NO_PART:
        return "the variable has not that part";
    case DESFANUK_REFUSED_TOO_LOW:
        return "the value is below the least of the variable's type";
    case DESFANUK_REFUSED_HALF_WRITTEN:
        return "the variable is half-written";
    case DESFANUK_REFUSED_CONTRADICTED:
        return "the number read differs from a fixed bit of its register's read mask";
    case DESFANUK_REFUSED_NO_UNITS:
        return "gain or offset is not finite, or the variable is a `bool`";
    case DESFANUK_REFUSED_NOT_FINITE:
        return "the product or the sum is not finite; given in place of done";
    case DESFANUK_REFUSED_TOO_HIGH:
        return "the value is above the greatest of the variable's type";
    default:
        return "";
    }
}

/* ---- the description */

/*
 * Loads a text, of which a copy is kept; what was there before is forgotten. Returns 0, or the
 * number of the refusal: d->verdict has its place, and desfanuk_station_line and _column tell it.
 */
static inline uint32_t desfanuk_station_load(struct desfanuk *d, const void *text, size_t length)
{
    memset(d, 0, sizeof *d);
    d->text_len = length < sizeof d->text ? length : sizeof d->text;
    memcpy(d->text, text, d->text_len);
    return desfanuk_load((const uint8_t *)text, length, DESFANUK_TABLES(d),
                         DESFANUK_LENT(d->verdict));
}

/* How many bytes stand before the refusal's place in its line. */
static inline size_t desfanuk_station_before(const struct desfanuk *d)
{
    size_t place = (size_t)d->verdict[2];
    size_t before = 0;
    while (before < place && place - before <= d->text_len && d->text[place - before - 1] != '\n') {
        before += 1;
    }
    return before;
}

/* The column of the refusal's place, in bytes from 1. */
static inline size_t desfanuk_station_column(const struct desfanuk *d)
{
    return desfanuk_station_before(d) + 1;
}

/* The line of the refusal's place, from 1. */
static inline size_t desfanuk_station_line(const struct desfanuk *d)
{
    size_t line = 1;
    size_t at;
    for (at = 0; at < d->text_len && at < d->verdict[2]; at++) {
        line += d->text[at] == '\n';
    }
    return line;
}

/* How many registers and variables the description has. */
static inline size_t desfanuk_station_registers(const struct desfanuk *d)
{
    return d->registers[0];
}

static inline size_t desfanuk_station_variables(const struct desfanuk *d)
{
    return d->variables[0];
}

/*
 * The index of the variable of this name. SIZE_MAX where there is none: every call refuses that
 * index by 25.
 */
static inline size_t desfanuk_station_variable(const struct desfanuk *d, const char *name)
{
    int64_t index = desfanuk_lookup(d->text, d->text_len, DESFANUK_LENT(d->variables),
                                    (const uint8_t *)name, strlen(name));
    return index < 0 ? (size_t)-1 : (size_t)index;
}

/* The least and the greatest value of a variable, by its index; 0 where there is none. */
static inline int64_t desfanuk_station_least(const struct desfanuk *d, size_t variable)
{
    if (variable >= desfanuk_station_variables(d)) {
        return 0;
    }
    return DESFANUK_LEAST(d->variables[DESFANUK_KIND_WORD(variable)],
                          d->variables[DESFANUK_WIDTH_WORD(variable)]);
}

static inline int64_t desfanuk_station_greatest(const struct desfanuk *d, size_t variable)
{
    if (variable >= desfanuk_station_variables(d)) {
        return 0;
    }
    return DESFANUK_GREATEST(d->variables[DESFANUK_KIND_WORD(variable)],
                             d->variables[DESFANUK_WIDTH_WORD(variable)]);
}

/* A register's name, by its index, which no zero ends; how long it is; how many bits it has. */
static inline const char *desfanuk_station_name(const struct desfanuk *d, size_t r)
{
    if (r >= desfanuk_station_registers(d)) {
        return "";
    }
    return (const char *)d->text + d->registers[DESFANUK_REGISTER_NAME_WORD(r)];
}

static inline size_t desfanuk_station_name_length(const struct desfanuk *d, size_t r)
{
    if (r >= desfanuk_station_registers(d)) {
        return 0;
    }
    return d->registers[DESFANUK_REGISTER_NAME_LENGTH_WORD(r)];
}

static inline uint32_t desfanuk_station_width(const struct desfanuk *d, size_t r)
{
    return r < desfanuk_station_registers(d) ? d->registers[DESFANUK_REGISTER_WIDTH_WORD(r)] : 0;
}

/* ---- the station: each call returns 0, or the number of the refusal */

/* Opens it, with the number that each register holds at power-on. */
static inline uint64_t desfanuk_station_open(struct desfanuk *d, const uint32_t *power,
                                             size_t count)
{
    uint64_t refused = desfanuk_open(DESFANUK_TABLES(d), power, count, DESFANUK_LENT(d->held),
                                     DESFANUK_LENT(d->marks), DESFANUK_LENT(d->operation),
                                     DESFANUK_LENT(d->answer));
    if (refused == 0) {
        d->is_open = 1;
        d->is_in_units = 0;
    }
    return refused;
}

/* Begins to read a variable. */
static inline uint64_t desfanuk_station_begin_read(struct desfanuk *d, size_t variable)
{
    uint64_t refused =
        desfanuk_begin_read(DESFANUK_TABLES(d), DESFANUK_HELD(d), DESFANUK_MARKS(d),
                            DESFANUK_LENT(d->operation), variable, DESFANUK_LENT(d->answer));
    d->is_in_units = refused == 0 ? 0 : d->is_in_units;
    return refused;
}

/* Begins to read a variable in units: the reading times the gain, plus the offset. */
static inline uint64_t desfanuk_station_begin_read_in_units(struct desfanuk *d, size_t variable,
                                                            double gain, double offset)
{
    uint64_t refused = desfanuk_begin_read_in_units(
        DESFANUK_TABLES(d), DESFANUK_HELD(d), DESFANUK_MARKS(d),
        DESFANUK_LENT(d->operation), variable, desfanuk_bits_of(gain), desfanuk_bits_of(offset),
        DESFANUK_LENT(d->answer));
    if (refused == 0) {
        d->gain = desfanuk_bits_of(gain);
        d->offset = desfanuk_bits_of(offset);
        d->is_in_units = 1;
    }
    return refused;
}

/* Begins to write a value to a variable. */
static inline uint64_t desfanuk_station_begin_write(struct desfanuk *d, size_t variable,
                                                    int64_t value)
{
    uint64_t refused = desfanuk_begin_write(DESFANUK_TABLES(d), DESFANUK_HELD(d),
                                            DESFANUK_MARKS(d), DESFANUK_LENT(d->operation),
                                            variable, value, DESFANUK_LENT(d->answer));
    d->is_in_units = refused == 0 ? 0 : d->is_in_units;
    return refused;
}

/* Confirms that the access on offer was performed; the number is what was read. */
static inline uint64_t desfanuk_station_confirm(struct desfanuk *d, uint32_t number)
{
    if (d->is_in_units) {
        return desfanuk_confirm_in_units(DESFANUK_TABLES(d), DESFANUK_HELD(d),
                                         DESFANUK_MARKS(d), DESFANUK_LENT(d->operation),
                                         number, d->gain, d->offset, DESFANUK_LENT(d->answer));
    }
    return desfanuk_confirm(DESFANUK_TABLES(d), DESFANUK_HELD(d), DESFANUK_MARKS(d),
                            DESFANUK_LENT(d->operation), number, DESFANUK_LENT(d->answer));
}

/* Abandons the operation in hand: a variable whose write is abandoned is half-written. */
static inline uint64_t desfanuk_station_abandon(struct desfanuk *d)
{
    return desfanuk_abandon(DESFANUK_TABLES(d), DESFANUK_HELD(d), DESFANUK_MARKS(d),
                            DESFANUK_LENT(d->operation), DESFANUK_LENT(d->answer));
}

/* ---- what the last call of the station told */

/* An access is on offer: it is to be performed, and then confirmed. */
static inline int desfanuk_station_is_offer(const struct desfanuk *d)
{
    return d->answer[0] == DESFANUK_OFFER;
}

/* The access on offer. */
static inline struct desfanuk_access desfanuk_station_access(const struct desfanuk *d)
{
    struct desfanuk_access access;
    access.is_write = d->answer[1] == DESFANUK_WRITE;
    access.parameter = (size_t)d->answer[2];
    access.offset = (uint32_t)d->answer[3];
    access.number = (uint32_t)d->answer[4];
    access.width = 0;
    if (access.parameter < d->parameters[0]) {
        access.width = d->parameters[DESFANUK_PORT_WIDTH_WORD(access.parameter)];
    }
    return access;
}

/* The operation is done, and has a value; a read in units has a reading instead. */
static inline int desfanuk_station_is_done(const struct desfanuk *d)
{
    return d->answer[0] == DESFANUK_DONE;
}

static inline int64_t desfanuk_station_value(const struct desfanuk *d)
{
    return d->answer[1];
}

static inline int desfanuk_station_is_done_in_units(const struct desfanuk *d)
{
    return d->answer[0] == DESFANUK_DONE_IN_UNITS;
}

static inline double desfanuk_station_reading(const struct desfanuk *d)
{
    return desfanuk_reading_of(d->answer);
}

/* How many accesses an operation took that is done. */
static inline size_t desfanuk_station_accesses(const struct desfanuk *d)
{
    return (size_t)(desfanuk_station_is_done_in_units(d) ? d->answer[3] : d->answer[2]);
}

/* A number that was read contradicts its register (52), and the read is over. */
static inline int desfanuk_station_is_contradicted(const struct desfanuk *d)
{
    return d->answer[0] == DESFANUK_STOPPED && d->answer[1] == DESFANUK_REFUSED_CONTRADICTED;
}

/* The register that is to blame. */
static inline size_t desfanuk_station_blamed(const struct desfanuk *d)
{
    return (size_t)d->answer[2];
}

/* The bits of a number that are not what a register's read mask has fixed. */
static inline uint32_t desfanuk_station_contradicting(const struct desfanuk *d, size_t r,
                                                      uint32_t number)
{
    if (r >= desfanuk_station_registers(d)) {
        return 0;
    }
    return DESFANUK_CONTRADICTING(d->registers[DESFANUK_READ_FIXED_WORD(r)],
                                  d->registers[DESFANUK_READ_ONES_WORD(r)], number);
}

#ifdef __cplusplus
}
#endif

#endif
