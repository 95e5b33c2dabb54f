/*
 * Desfanuk for C: register descriptions in Devil, and the reads and writes of their variables.
 *
 * A board maker's description is loaded into three tables. An opening takes the tables and the
 * number that each register holds at power-on. From then on each read or write of a variable is a
 * run of port accesses, offered one at a time: the station performs the access on offer and
 * confirms it, or abandons the operation. An operation is done at its last confirmation and never sooner, and a
 * variable whose write was abandoned cannot be read until a write of it finishes.
 *
 * The functions are in the archive that `rt lib` in crates/abi writes, crates/abi/out/libabi.a; what
 * each does is proved. score.c beside this file is a whole program:
 *
 *     cc -std=c99 -Iinclude include/score.c crates/abi/out/libabi.a -o score
 *     ./score boards/scoring.devil
 *
 * Lent memory. `xs, xs_len` is memory that the caller lends for the call: xs_len elements from xs
 * on, which is not NULL even where there are none. What is lent to be written overlaps nothing else
 * that is lent. Nothing more is asked of a caller: any numbers, any contents and any lengths get an
 * answer, in any order of calls. Nothing is written past what is lent, nor to a table past its
 * stated size, and nothing lent is kept after the call.
 */
#ifndef DESFANUK_H
#define DESFANUK_H

#include <stddef.h>
#include <stdint.h>
#include <string.h>

#ifdef __cplusplus
extern "C" {
#endif

/* ---- sizes */

/* Bytes that a text has at most. */
#define DESFANUK_TEXT_BYTES 8192

/* Bytes of the store that is lent for a text in pieces: the longest text. */
#define DESFANUK_STORE_BYTES 8192

/* Registers that a description has at most: room enough for a record, and for a power-on list. */
#define DESFANUK_REGISTERS 64

/* Variables that a description has at most: room enough for marks. */
#define DESFANUK_VARIABLES 128

/* Words of the three tables. Word 0 of each is its count; docs/TABLES.md tells the other words. */
#define DESFANUK_PARAMETERS_WORDS 577
#define DESFANUK_REGISTERS_WORDS 961
#define DESFANUK_VARIABLES_WORDS 7553

/*
 * The words of the table of variables that tell the kind of variable v (0 `int`, 1 `signed int`,
 * 2 `bool`) and its width in bits.
 */
#define DESFANUK_KIND_WORD(v) (59 * (v) + 3)
#define DESFANUK_WIDTH_WORD(v) (59 * (v) + 4)

/* The least and the greatest value of a type, as an int64_t. */
#define DESFANUK_LEAST(kind, width) ((kind) == 1 ? -((int64_t)1 << ((width)-1)) : (int64_t)0)
#define DESFANUK_GREATEST(kind, width) (((int64_t)1 << ((width) - ((kind) == 1 ? 1 : 0))) - 1)

/*
 * The word of the table of parameters that tells how many bits the port of parameter p has: 8, 16
 * or 32, as all its registers have. An access of it carries so many.
 */
#define DESFANUK_PORT_WIDTH_WORD(p) (36 * (p) + 3)

/*
 * The words of the table of registers that tell where the name of register r starts in the text and
 * how long it is, how many bits the register has, and which bits of its read mask are fixed and
 * which of them are 1.
 */
#define DESFANUK_REGISTER_NAME_WORD(r) (15 * (r) + 1)
#define DESFANUK_REGISTER_NAME_LENGTH_WORD(r) (15 * (r) + 2)
#define DESFANUK_REGISTER_WIDTH_WORD(r) (15 * (r) + 3)
#define DESFANUK_READ_FIXED_WORD(r) (15 * (r) + 8)
#define DESFANUK_READ_ONES_WORD(r) (15 * (r) + 9)

/* The bits of a number read that contradict a register's fixed bits: 0 where it obeys. */
#define DESFANUK_CONTRADICTING(fixed, ones, number) (((number) & (fixed)) ^ (ones))

/* Words of the answer of desfanuk_load. */
#define DESFANUK_VERDICT_WORDS 4

/* Words of an operation in hand. */
#define DESFANUK_OPERATION_WORDS 4

/* Words of the answer of a call of the station. */
#define DESFANUK_ANSWER_WORDS 5

/* ---- the words of a verdict: what desfanuk_load tells */

/* Word 0 of a refusal; then its number, its place in the text (bytes before it), and 0. */
#define DESFANUK_REFUSED 0

/* Word 0 of an accepted text; then the counts of its parameters, registers and variables. */
#define DESFANUK_ACCEPTED 1

/* Word 0 of the reply to a piece that was taken; then 0, 0, 0. A refusal is told as in a verdict. */
#define DESFANUK_MORE 2

/* ---- the words of an operation in hand */

/* Word 0 of none; then 0, 0, 0. Four zeros are what there is before the first opening. */
#define DESFANUK_IDLE 0

/*
 * Word 0 of a read; then its variable, its step (the accesses confirmed so far), and the bits
 * gathered so far.
 */
#define DESFANUK_READING 1

/* Word 0 of a write; then its variable, its step, and the bits to be written. */
#define DESFANUK_WRITING 2

/*
 * ---- the words of an answer: what a call of the station tells. DESFANUK_REFUSED (0) is word 0 of
 * a refusal; then its number, 0, 0, 0. A refusal that ends a read has DESFANUK_STOPPED
 */

/* Word 0 after an opening; then 0, 0, 0, 0. */
#define DESFANUK_OPENED 1

/*
 * Word 0 of an offer; then the access: its direction, its parameter's index, its offset, and the
 * number to write, of the register's width (0 when reading).
 */
#define DESFANUK_OFFER 2

/* Word 0 of an operation that is done; then its value, the number of its accesses, 0, 0. */
#define DESFANUK_DONE 3

/* Word 0 after abandoning; then 0, 0, 0, 0. */
#define DESFANUK_ABANDONED 4

/*
 * Word 0 of a refusal that ended the read in hand; then its number, the index of the register that
 * is to blame (0 where none is: 54), 0, 0.
 */
#define DESFANUK_STOPPED 5

/*
 * Word 0 of a read in units that is done; then the high and the low half (32 bits each) of the
 * 64 bits of a double (desfanuk_reading_of), the number of its accesses, and 0.
 */
#define DESFANUK_DONE_IN_UNITS 6

/* The directions of an access. */
#define DESFANUK_READ 0
#define DESFANUK_WRITE 1

/* ---- the refusals: docs/REFUSALS.md tells each in full, with its place and what it leaves */

/* A lent table or store is shorter than its stated size. */
#define DESFANUK_REFUSED_SHORT_TABLE 1
/* The text has more than 8,192 bytes. */
#define DESFANUK_REFUSED_LONG_TEXT 2
/*
 * No token begins here, a comment or bits literal is not closed or is not one, or a number is too
 * large.
 */
#define DESFANUK_REFUSED_BAD_TOKEN 3
/* No text of the grammar begins with the tokens up to this one. */
#define DESFANUK_REFUSED_GRAMMAR 4
/* A size is passed: a name's length, a count, or the depth of an offset. */
#define DESFANUK_REFUSED_SIZE 5
/* The name is already declared. */
#define DESFANUK_REFUSED_DECLARED 6
/* The name is not declared earlier, or is of the wrong kind. */
#define DESFANUK_REFUSED_UNDECLARED 7
/* A bad offset, or one that is not in the parameter's set. */
#define DESFANUK_REFUSED_OFFSET 8
/* A bad pairing of ports, or a bad mask. */
#define DESFANUK_REFUSED_PORTS 9
/* A part's parameter and offset already serve that part of an earlier register; of two write parts, unless some bit is
   fixed 0 in one mask and 1 in the other. */
#define DESFANUK_REFUSED_PLACE 10
/* A bit that the part cannot map, a bad pairing of bit lists, or over 32 bits. */
#define DESFANUK_REFUSED_BITS 11
/* A width is not 8, 16 or 32, or is unlike the port's, or unlike the bits. */
#define DESFANUK_REFUSED_WIDTH 12
/* `volatile` or `trigger` is repeated for a part, or given for a missing one. */
#define DESFANUK_REFUSED_BEHAVIOUR 13
/* A bit is already mapped in that part by an earlier variable. */
#define DESFANUK_REFUSED_MAPPED 14
/* A register part holds bits of two variables, one of them trigger for that part. */
#define DESFANUK_REFUSED_TRIGGER 15
/* A dot of some register part is mapped in that part by no variable. */
#define DESFANUK_REFUSED_UNMAPPED 16
/*
 * The tables are short; a stored count, reference or flag is out of its range; an unused word is not
 * zero; or what they describe breaks one of rules 8 to 16 or a size (recorded names aside).
 */
#define DESFANUK_REFUSED_UNSOUND 20
/* The power-on list, the record or the marks are shorter than the tables need. */
#define DESFANUK_REFUSED_SHORT_RECORD 21
/* The operation in hand is not one that these tables allow. */
#define DESFANUK_REFUSED_BAD_OPERATION 22
/* Begin while an operation is in hand. */
#define DESFANUK_REFUSED_BUSY 23
/* Confirm or abandon with none in hand. */
#define DESFANUK_REFUSED_IDLE 24
/* No such variable. */
#define DESFANUK_REFUSED_NO_VARIABLE 25
/* The variable has not that part. */
#define DESFANUK_REFUSED_NO_PART 26
/* The value is below the least of the variable's type: DESFANUK_LEAST. */
#define DESFANUK_REFUSED_TOO_LOW 27
/* The variable is half-written. */
#define DESFANUK_REFUSED_HALF_WRITTEN 28
/* The number read differs from a fixed bit of its register's read mask. The read is over. */
#define DESFANUK_REFUSED_CONTRADICTED 52
/* Gain or offset is not finite, or the variable is a `bool`. */
#define DESFANUK_REFUSED_NO_UNITS 53
/* The product or the sum is not finite; given in place of done. The read is over. */
#define DESFANUK_REFUSED_NOT_FINITE 54
/* The value is above the greatest of the variable's type: DESFANUK_GREATEST. */
#define DESFANUK_REFUSED_TOO_HIGH 55

/* ---- loading */

/*
 * Loads a description into the three tables, and tells the verdict in `answer`
 * (DESFANUK_VERDICT_WORDS). Returns the refusal's number, or 0. A text that is refused leaves the
 * tables zero over their sizes, but 1 and 2 leave them as they were.
 */
uint32_t desfanuk_load(const uint8_t *text, size_t text_len,
                       uint32_t *parameters, size_t parameters_len,
                       uint32_t *registers, size_t registers_len,
                       uint32_t *variables, size_t variables_len,
                       uint64_t *answer, size_t answer_len);

/*
 * A description that arrives in pieces. Between the calls the caller keeps the text's store
 * (DESFANUK_STORE_BYTES) and one word, how many bytes of it are taken: 0 before the first piece,
 * then as the call before left it. However a text is cut, the end call answers as desfanuk_load
 * does on the whole. include/pieces.c is a whole program.
 *
 * Takes a piece, of any length, and tells in `answer` (DESFANUK_VERDICT_WORDS) that more may come,
 * or refusal 2 once the limit is passed, or 1, which changes nothing. Returns the refusal's number,
 * or 0. The tables are lent for their lengths alone.
 */
uint32_t desfanuk_take_piece(const uint32_t *parameters, size_t parameters_len,
                             const uint32_t *registers, size_t registers_len,
                             const uint32_t *variables, size_t variables_len,
                             uint8_t *store, size_t store_len,
                             uint64_t *taken, size_t taken_len,
                             const uint8_t *piece, size_t piece_len,
                             uint64_t *answer, size_t answer_len);

/*
 * Ends the text and loads it, as desfanuk_load does. The next piece begins another text, unless
 * the call was refused by 1. The text stays in the store for desfanuk_lookup until then.
 */
uint32_t desfanuk_end_pieces(const uint8_t *store, size_t store_len,
                             uint64_t *taken, size_t taken_len,
                             uint32_t *parameters, size_t parameters_len,
                             uint32_t *registers, size_t registers_len,
                             uint32_t *variables, size_t variables_len,
                             uint64_t *answer, size_t answer_len);

/* The index of the variable of this name in the text that was loaded, or -1 if there is none. */
int64_t desfanuk_lookup(const uint8_t *text, size_t text_len,
                        const uint32_t *variables, size_t variables_len,
                        const uint8_t *name, size_t name_len);

/* 1 if no call of the station refuses these tables by 20, and 0 if every call does. */
uint32_t desfanuk_sound(const uint32_t *parameters, size_t parameters_len,
                        const uint32_t *registers, size_t registers_len,
                        const uint32_t *variables, size_t variables_len);

/*
 * ---- the station. Its state between calls is the caller's, and is lent as the call before left
 * it:
 *
 *     held       the record, a number of up to 32 bits for each register: the one last confirmed
 *                as written, at first the power-on number
 *     marks      a byte for each variable: 0, or else it is half-written
 *     operation  the operation in hand, DESFANUK_OPERATION_WORDS
 *
 * Every call tells its answer in `answer` (DESFANUK_ANSWER_WORDS) and returns the refusal's number,
 * or 0. A refusal changes nothing but the words of `answer`; one by 52 or 54 also ends the read:
 * `operation` is idle then.
 */

/*
 * Opens the tables with the number that each register holds at power-on; bits above the register's
 * width count as 0. Fills `held`, clears `marks`, and ends an operation in hand.
 */
uint64_t desfanuk_open(const uint32_t *parameters, size_t parameters_len,
                       const uint32_t *registers, size_t registers_len,
                       const uint32_t *variables, size_t variables_len,
                       const uint32_t *power, size_t power_len,
                       uint32_t *held, size_t held_len,
                       uint8_t *marks, size_t marks_len,
                       uint64_t *operation, size_t operation_len,
                       int64_t *answer, size_t answer_len);

/* Begins the read of a variable, by its index: offers the first access. */
uint64_t desfanuk_begin_read(const uint32_t *parameters, size_t parameters_len,
                             const uint32_t *registers, size_t registers_len,
                             const uint32_t *variables, size_t variables_len,
                             const uint32_t *held, size_t held_len,
                             const uint8_t *marks, size_t marks_len,
                             uint64_t *operation, size_t operation_len,
                             size_t variable,
                             int64_t *answer, size_t answer_len);

/*
 * Begins the write of a value to a variable, by its index: offers the first access. A value that
 * the variable's type does not have is refused: below the least by 27, above the greatest by 55.
 */
uint64_t desfanuk_begin_write(const uint32_t *parameters, size_t parameters_len,
                              const uint32_t *registers, size_t registers_len,
                              const uint32_t *variables, size_t variables_len,
                              const uint32_t *held, size_t held_len,
                              const uint8_t *marks, size_t marks_len,
                              uint64_t *operation, size_t operation_len,
                              size_t variable, int64_t value,
                              int64_t *answer, size_t answer_len);

/*
 * Confirms that the access on offer was performed, once: offers the next one, or says that the
 * operation is done. The number is what was read, and bits above its register's width count as 0;
 * for a write it is ignored. A number that differs from a fixed bit of its register's read mask (a
 * dead cable reads as all ones) is refused by 52.
 */
uint64_t desfanuk_confirm(const uint32_t *parameters, size_t parameters_len,
                          const uint32_t *registers, size_t registers_len,
                          const uint32_t *variables, size_t variables_len,
                          uint32_t *held, size_t held_len,
                          uint8_t *marks, size_t marks_len,
                          uint64_t *operation, size_t operation_len,
                          uint32_t number,
                          int64_t *answer, size_t answer_len);

/*
 * Abandons the operation in hand, whether or not the access on offer was performed. A variable
 * whose write is abandoned is half-written: reading it is refused (28) until a write of it
 * finishes.
 */
uint64_t desfanuk_abandon(const uint32_t *parameters, size_t parameters_len,
                          const uint32_t *registers, size_t registers_len,
                          const uint32_t *variables, size_t variables_len,
                          const uint32_t *held, size_t held_len,
                          uint8_t *marks, size_t marks_len,
                          uint64_t *operation, size_t operation_len,
                          int64_t *answer, size_t answer_len);

/*
 * Readings in units: the reading, taken exactly, times the gain, rounded once, plus the offset,
 * rounded once. Gain and offset cross as the 64 bits of doubles, at the begin and again at each
 * confirmation: desfanuk_bits_of(0.5). The operation in hand is an ordinary read; to abandon it is
 * desfanuk_abandon.
 */

/* The 64 bits of a double. */
static inline uint64_t desfanuk_bits_of(double x)
{
    uint64_t bits;
    memcpy(&bits, &x, sizeof bits);
    return bits;
}

/* The double that an answer DESFANUK_DONE_IN_UNITS tells. */
static inline double desfanuk_reading_of(const int64_t *answer)
{
    uint64_t bits = (uint64_t)answer[1] << 32 | (uint64_t)answer[2];
    double x;
    memcpy(&x, &bits, sizeof x);
    return x;
}

/* Begins a read in units, as desfanuk_begin_read does, or refuses by 53 before any access. */
uint64_t desfanuk_begin_read_in_units(const uint32_t *parameters, size_t parameters_len,
                                      const uint32_t *registers, size_t registers_len,
                                      const uint32_t *variables, size_t variables_len,
                                      const uint32_t *held, size_t held_len,
                                      const uint8_t *marks, size_t marks_len,
                                      uint64_t *operation, size_t operation_len,
                                      size_t variable, uint64_t gain, uint64_t offset,
                                      int64_t *answer, size_t answer_len);

/*
 * Confirms an access, as desfanuk_confirm does, but a read that is done gives its reading in units
 * (DESFANUK_DONE_IN_UNITS), or is refused by 54, which ends it all the same (DESFANUK_STOPPED). A
 * calibration that a begin would refuse is refused by 53 here too, and changes nothing.
 */
uint64_t desfanuk_confirm_in_units(const uint32_t *parameters, size_t parameters_len,
                                   const uint32_t *registers, size_t registers_len,
                                   const uint32_t *variables, size_t variables_len,
                                   uint32_t *held, size_t held_len,
                                   uint8_t *marks, size_t marks_len,
                                   uint64_t *operation, size_t operation_len,
                                   uint32_t number, uint64_t gain, uint64_t offset,
                                   int64_t *answer, size_t answer_len);

#ifdef __cplusplus
}
#endif

#endif
