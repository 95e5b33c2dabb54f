/*
 * A description that arrives in pieces, as from a slow line: each is taken as it comes, and the
 * text is judged when it has ended. rust/desfanuk/examples/pieces.rs is the same program in Rust.
 *
 *     cc -std=c99 -Iinclude include/pieces.c crates/abi/out/libabi.a -o pieces
 *     ./pieces 300 < boards/scoring.devil
 */
#include "desfanuk.h"

#include <stdio.h>
#include <stdlib.h>

/* What is kept between calls: the text's store, and how many bytes of it are taken. */
static uint8_t store[DESFANUK_STORE_BYTES];
static uint64_t taken[1];

/* The tables that the end call fills, and the answer of the last call. */
static uint32_t parameters[DESFANUK_PARAMETERS_WORDS];
static uint32_t registers[DESFANUK_REGISTERS_WORDS];
static uint32_t variables[DESFANUK_VARIABLES_WORDS];
static uint64_t answer[DESFANUK_VERDICT_WORDS];

#define COUNT(array) (sizeof(array) / sizeof(array)[0])
#define LENT(array) array, COUNT(array)
#define TABLES LENT(parameters), LENT(registers), LENT(variables)

static void tell(void)
{
    if (answer[0] == DESFANUK_MORE) {
        printf("more\n");
    } else if (answer[0] == DESFANUK_ACCEPTED) {
        printf("accepted %d %d %d\n", (int)answer[1], (int)answer[2], (int)answer[3]);
    } else {
        printf("refused %d %d\n", (int)answer[1], (int)answer[2]);
    }
}

int main(int argc, char **argv)
{
    static uint8_t piece[65536];
    long bytes = argc == 2 ? strtol(argv[1], NULL, 10) : 0;
    size_t length;
    if (bytes < 1 || (size_t)bytes > sizeof piece) {
        fprintf(stderr, "usage: pieces BYTES, up to %d\n", (int)sizeof piece);
        return 2;
    }
    while ((length = fread(piece, 1, (size_t)bytes, stdin)) > 0) {
        desfanuk_take_piece(TABLES, LENT(store), LENT(taken), piece, length, LENT(answer));
        printf("%d bytes: ", (int)length);
        tell();
    }
    desfanuk_end_pieces(LENT(store), LENT(taken), TABLES, LENT(answer));
    printf("end: ");
    tell();
    return 0;
}
