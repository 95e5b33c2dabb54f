/*
 * A score in two registers of a scoring board: written, read back, abandoned midway, and written
 * again; at the end the cable is pulled. The board is a simulated one, four bytes of storage.
 * rust/desfanuk/examples/score.rs is the same program in Rust.
 *
 *     cc -std=c99 -Iinclude include/score.c crates/abi/out/libabi.a -o score
 *     ./score boards/scoring.devil
 */
#include "desfanuk_station.h"

#include <stdio.h>

/* The description, and the station over it. */
static struct desfanuk station;

/* The board: a byte for each offset, how many accesses it still answers, and is its cable in? */
static uint8_t bytes[4];
static int patience;
static int is_plugged = 1;

/* Loads the description in a file. Says so and gives 0 if that is not possible. */
static int load(const char *path)
{
    static uint8_t text[DESFANUK_TEXT_BYTES + 1];
    size_t length;
    uint32_t refused;
    FILE *file = fopen(path, "rb");
    if (file == NULL) {
        perror(path);
        return 0;
    }
    length = fread(text, 1, sizeof text, file);
    if (ferror(file)) {
        perror(path);
        fclose(file);
        return 0;
    }
    fclose(file);
    refused = desfanuk_station_load(&station, text, length);
    if (refused != 0) {
        fprintf(stderr, "%s:%d:%d: refused %d: %s\n", path, (int)desfanuk_station_line(&station),
                (int)desfanuk_station_column(&station), (int)refused, desfanuk_words(refused));
        return 0;
    }
    printf("The board has %d registers and %d variables.\n",
           (int)desfanuk_station_registers(&station), (int)desfanuk_station_variables(&station));
    return 1;
}

/* Opens the station over a board whose registers are all 0 at power-on. */
static int open_station(void)
{
    static const uint32_t power[DESFANUK_REGISTERS];
    return desfanuk_station_open(&station, power, desfanuk_station_registers(&station)) == 0;
}

/* Performs an access, and gives the byte that the board then holds there. */
static uint8_t perform(struct desfanuk_access access)
{
    uint8_t *cell = &bytes[access.offset];
    if (!is_plugged) {
        *cell = 0xFF;
    }
    if (access.is_write) {
        *cell = (uint8_t)access.number;
        printf("  write 0x%02X at base + %d\n", (unsigned)*cell, (int)access.offset);
    } else {
        printf("  read at base + %d: 0x%02X\n", (int)access.offset, (unsigned)*cell);
    }
    return *cell;
}

/* Tells which register gave a number that contradicts it, and at which bits. */
static void show_contradiction(uint32_t number)
{
    size_t r = desfanuk_station_blamed(&station);
    int width = (int)desfanuk_station_width(&station, r);
    uint32_t bits = desfanuk_station_contradicting(&station, r, number);
    const char *link = ":";
    int bit;
    printf("  refused (52): %.*s gave 0x%0*lX", (int)desfanuk_station_name_length(&station, r),
           desfanuk_station_name(&station, r), width / 4, (unsigned long)number);
    for (bit = width - 1; bit >= 0; bit -= 1) {
        if (bits >> bit & 1) {
            printf("%s bit %d is fixed at %d", link, bit, (int)(1 - (number >> bit & 1)));
            link = ",";
        }
    }
    printf("\n");
}

/* Carries out the operation that was begun, access by access, as far as the board answers. */
static void carry_out(void)
{
    uint32_t number = 0;
    uint64_t refused = 0;
    while (desfanuk_station_is_offer(&station)) {
        if (patience == 0) {
            desfanuk_station_abandon(&station);
            printf("  the board does not answer: abandoned\n");
            return;
        }
        patience -= 1;
        number = perform(desfanuk_station_access(&station));
        refused = desfanuk_station_confirm(&station, number);
    }
    if (desfanuk_station_is_done(&station)) {
        printf("  done: %d, in %d accesses\n", (int)desfanuk_station_value(&station),
               (int)desfanuk_station_accesses(&station));
    } else if (desfanuk_station_is_contradicted(&station)) {
        show_contradiction(number);
    } else {
        printf("  refused (%d): %s\n", (int)refused, desfanuk_words(refused));
    }
}

/* Tells which way a value lies outside the score's type, and what the type has. */
static void show_outside(size_t score, uint64_t refused, int64_t value)
{
    printf("  refused (%d): %ld is %s: the least is %ld, the greatest %ld\n", (int)refused,
           (long)value, refused == DESFANUK_REFUSED_TOO_LOW ? "too low" : "too high",
           (long)desfanuk_station_least(&station, score),
           (long)desfanuk_station_greatest(&station, score));
}

static void write_score(size_t score, const char *title, int64_t value, int accesses)
{
    uint64_t refused;
    printf("%s\n", title);
    patience = accesses;
    refused = desfanuk_station_begin_write(&station, score, value);
    if (refused == DESFANUK_REFUSED_TOO_LOW || refused == DESFANUK_REFUSED_TOO_HIGH) {
        show_outside(score, refused, value);
    } else if (refused != 0) {
        printf("  refused (%d): %s\n", (int)refused, desfanuk_words(refused));
    } else {
        carry_out();
    }
}

static void read_score(size_t score, const char *title)
{
    uint64_t refused;
    printf("%s\n", title);
    patience = 2;
    refused = desfanuk_station_begin_read(&station, score);
    if (refused != 0) {
        printf("  refused (%d): %s\n", (int)refused, desfanuk_words(refused));
    } else {
        carry_out();
    }
}

int main(int argc, char **argv)
{
    size_t score;
    if (argc != 2) {
        fprintf(stderr, "usage: score DESCRIPTION\n");
        return 2;
    }
    if (!load(argv[1]) || !open_station()) {
        return 1;
    }
    score = desfanuk_station_variable(&station, "score");
    if (score >= desfanuk_station_variables(&station)) {
        fprintf(stderr, "it has no score\n");
        return 1;
    }
    write_score(score, "Write the score 2741.", 2741, 2);
    read_score(score, "Read it.");
    write_score(score, "Write 3000, and let the board stop midway.", 3000, 1);
    read_score(score, "Read the score: its registers hold 2997 now, which nobody gave.");
    write_score(score, "Write 3000 again.", 3000, 2);
    read_score(score, "Read it.");
    write_score(score, "Write 5000.", 5000, 2);
    write_score(score, "Write -1.", -1, 2);
    is_plugged = 0;
    read_score(score, "Pull the cable, so that all reads give ones, and read the score.");
    return 0;
}
