/*
 * The light of a lamp in lux: each reading of the sensor, in steps, times a gain, plus an offset.
 * The sensor is a simulated one, which gives the steps that are named on the command line.
 * rust/desfanuk/examples/lux.rs is the same program in Rust.
 *
 *     cc -std=c99 -Iinclude include/lux.c crates/abi/out/libabi.a -o lux
 *     ./lux boards/lamp.devil 0.5 1024 298 -2048 2047
 */
#include "desfanuk.h"

#include <stdio.h>
#include <stdlib.h>

/* The description: its text, and the tables that loading fills. */
static uint8_t text[DESFANUK_TEXT_BYTES + 1];
static uint32_t parameters[DESFANUK_PARAMETERS_WORDS];
static uint32_t registers[DESFANUK_REGISTERS_WORDS];
static uint32_t variables[DESFANUK_VARIABLES_WORDS];

/* The station's state between calls, and the answer of the last one. */
static uint32_t held[DESFANUK_REGISTERS];
static uint8_t marks[DESFANUK_VARIABLES];
static uint64_t operation[DESFANUK_OPERATION_WORDS];
static int64_t answer[DESFANUK_ANSWER_WORDS];

#define COUNT(array) (sizeof(array) / sizeof(array)[0])
#define LENT(array) array, COUNT(array)
#define TABLES LENT(parameters), LENT(registers), LENT(variables)

/* Loads the description in a file, opens a station, and gives the index of its light, or -1. */
static int64_t open_lamp(const char *path)
{
    static const uint32_t power[DESFANUK_REGISTERS];
    static const uint8_t name[] = {'l', 'i', 'g', 'h', 't'};
    uint64_t verdict[DESFANUK_VERDICT_WORDS];
    size_t length;
    FILE *file = fopen(path, "rb");
    if (file == NULL) {
        perror(path);
        return -1;
    }
    length = fread(text, 1, sizeof text, file);
    fclose(file);
    desfanuk_load(text, length, TABLES, LENT(verdict));
    if (verdict[0] == DESFANUK_REFUSED) {
        fprintf(stderr, "refused %d, at byte %d\n", (int)verdict[1], (int)verdict[2]);
        return -1;
    }
    desfanuk_open(TABLES, LENT(power), LENT(held), LENT(marks), LENT(operation), LENT(answer));
    return desfanuk_lookup(text, length, LENT(variables), LENT(name));
}

/* The byte of a sensor with so many steps: twelve bits, the high eight of them at offset 1. */
static uint32_t sensor(long steps, int64_t offset)
{
    return (uint32_t)(offset == 1 ? steps >> 4 & 0xFF : (steps & 0xF) << 4);
}

/* Reads the light with this calibration, and tells it. */
static void tell_light(size_t light, double gain, double offset, long steps)
{
    uint64_t gain_bits = desfanuk_bits_of(gain);
    uint64_t offset_bits = desfanuk_bits_of(offset);
    desfanuk_begin_read_in_units(TABLES, LENT(held), LENT(marks), LENT(operation), light, gain_bits,
                                 offset_bits, LENT(answer));
    while (answer[0] == DESFANUK_OFFER) {
        desfanuk_confirm_in_units(TABLES, LENT(held), LENT(marks), LENT(operation),
                                  sensor(steps, answer[3]), gain_bits, offset_bits, LENT(answer));
    }
    if (answer[0] == DESFANUK_DONE_IN_UNITS) {
        printf("%ld steps: %.1f lux\n", steps, desfanuk_reading_of(answer));
    } else {
        printf("%ld steps: refused %d\n", steps, (int)answer[1]);
    }
}

int main(int argc, char **argv)
{
    int64_t light;
    int i;
    if (argc < 4) {
        fprintf(stderr, "usage: lux DESCRIPTION GAIN OFFSET STEPS..\n");
        return 2;
    }
    light = open_lamp(argv[1]);
    if (light < 0) {
        fprintf(stderr, "no light to read\n");
        return 1;
    }
    for (i = 4; i < argc; i += 1) {
        tell_light((size_t)light, strtod(argv[2], NULL), strtod(argv[3], NULL),
                   strtol(argv[i], NULL, 10));
    }
    return 0;
}
