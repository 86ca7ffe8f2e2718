/* Galebonnet: JCAMP-CS 3.7 blocks read, checked, written and walked. Every function here is proved to answer as its words say, for every input.
 *
 * Link with target/staticlib/libhost.a (`.ci/library` writes it). The library allocates nothing, has no globals, calls nothing and is reentrant.
 *
 * A slice is a pointer and a count of elements. Where the count is 0 the pointer must still not be null (any aligned address will do). Slices that a
 * function writes to must not overlap the others.
 */
#ifndef GALEBONNET_H
#define GALEBONNET_H

#include <stddef.h>
#include <stdint.h>

#ifdef __cplusplus
extern "C" {
#endif

#define GALEBONNET_VERSION "0.1.0"

/* Limits. */
#define GALEBONNET_TABLE 3856      /* numbers of a structure table */
#define GALEBONNET_POSITIONS 1024  /* floats of a position table */
#define GALEBONNET_BLOCK 32768     /* bytes of a block at most */
#define GALEBONNET_FILE 16777216   /* bytes of a transfer file at most */
#define GALEBONNET_ATOMS 256
#define GALEBONNET_BONDS 512
#define GALEBONNET_CHARGES 64
#define GALEBONNET_RADICALS 64
#define GALEBONNET_CENTRES 128
#define GALEBONNET_PAIRS 128

/* Places in the table, counted from 0. Unused numbers are 0. */
#define GALEBONNET_ATOM_COUNT 0
#define GALEBONNET_BOND_COUNT 1
#define GALEBONNET_CHARGE_COUNT 2
#define GALEBONNET_RADICAL_COUNT 3
#define GALEBONNET_CENTRE_COUNT 4
#define GALEBONNET_PAIR_COUNT 5
#define GALEBONNET_BLOCK_ID 6             /* 0: none */
#define GALEBONNET_TEXT(i) (7 + 2 * (i))  /* start and length in the block of title 0, origin 1, owner 2; 0, 0 where empty */
#define GALEBONNET_HANDED 13              /* 1: the molecule is handed as a whole (STEREOMOLECULE has its YES), and there is no centre and no pair; else 0 */
#define GALEBONNET_ATOM(i) (16 + 5 * (i)) /* element, mass (0 none), implied hydrogens, charge row, radical row (from 1; 0 none); atom 1 is i = 0 */
#define GALEBONNET_BOND(i) (1296 + 3 * (i))   /* lower atom, higher atom, kind 1 to 5 for S, D, T, Q, A */
#define GALEBONNET_CHARGE(i) (2832 + (i))     /* the charge spread over the atoms of row i + 1 */
#define GALEBONNET_RADICAL(i) (2896 + (i))
#define GALEBONNET_CENTRE(i) (2960 + 3 * (i)) /* atom, 1 P or 2 M, group byte (0 none) */
#define GALEBONNET_PAIR(i) (3344 + 4 * (i))   /* lower atom, higher atom, 0, 1 P or 2 M, group byte */

/* Place in the position table, counted from 0: 1, X, Y, Z in Angstrom, or four 0 where the block gives no position; atom 1 is i = 0 */
#define GALEBONNET_POSITION(i) (4 * (i))

/* Refusal numbers. */
enum galebonnet_refusal {
    GALEBONNET_ACCEPTED = 0,
    GALEBONNET_SHORT_TABLE = 1,      /* table shorter than 3,856 numbers, or positions than 1,024 floats; both untouched */
    GALEBONNET_LONG_BLOCK = 2,       /* block over 32,768 bytes */
    GALEBONNET_BYTE = 3,             /* a byte not allowed */
    GALEBONNET_NO_TITLE = 4,         /* first line is no TITLE line, or the block is empty */
    GALEBONNET_NO_EQUALS = 5,        /* label line without `=` */
    GALEBONNET_LABEL_ORDER = 6,      /* known label repeated or out of order */
    GALEBONNET_VERSION_NUMBER = 7,   /* version not 3.7 */
    GALEBONNET_RECORD_MISSING = 8,   /* JCAMP-CS, ORIGIN, OWNER, MOLFORM or an ATOMLIST with a row missing at END */
    GALEBONNET_SHAPE = 9,            /* row of the wrong shape; at END a value, or none for STEREOMOLECULE */
    GALEBONNET_RANGE = 10,           /* number outside its range, a zero factor too */
    GALEBONNET_ATOM_NUMBER = 11,     /* atom number not the next one, or not listed */
    GALEBONNET_SYMBOL = 12,          /* unknown symbol */
    GALEBONNET_CLASH = 13,           /* clash, or a row of XYZ whose atom is not above the last row's; at END the YES beside a centre or a pair */
    GALEBONNET_LIST_FULL = 14,       /* one row more than its list holds */
    GALEBONNET_FORMULA = 15,         /* formula and atoms differ */
    GALEBONNET_NO_END = 16,          /* no END line */
    GALEBONNET_AFTER_END = 17,       /* a line with a non-blank byte after END */
    GALEBONNET_UNSOUND = 21,         /* table not sound */
    GALEBONNET_SHORT_BUFFER = 22,    /* buffer shorter than the written form */
    GALEBONNET_LONG_FORM = 23,       /* the written form would pass 32,768 bytes */
    GALEBONNET_LONG_FILE = 31,       /* file over 16,777,216 bytes */
    GALEBONNET_BEYOND = 32,          /* place beyond the file's end */
    GALEBONNET_LABELS_APART = 41,    /* one or two of MAX_XYZ, XYZ_FACTOR and XYZ without the rest, at END */
    GALEBONNET_ABOVE_MAX_XYZ = 42    /* a value of an XYZ row, before it is scaled, above MAX_XYZ in size, at END */
};

/* Judges a block. Answers the refusal number times 2^32, plus the place: the first byte, counted in the block, of the line that is at fault; for 2 and 4 of an
 * empty block 0, for 16 the block's length. Accepted is 0. Never answers 1. */
uint64_t galebonnet_check(const uint8_t *block, size_t length);

/* Reads a block into a structure table and a position table. The answer is galebonnet_check's, or 1 * 2^32 where the table has under 3,856 numbers or the positions
 * under 1,024 floats, and then both are untouched. On acceptance the first 3,856 numbers are the block's table, and the first 1,024 floats its positions: for each
 * atom that a row of XYZ names 1 and three coordinates in Angstrom, each the row's value times the factor's digits, a whole number, divided once by the power of ten of
 * the factor's decimals and rounded to the nearest float; for all other atoms, listed or not, four 0. No 0 has a sign. On any other refusal (2 to 17, 41, 42) the
 * 3,856 numbers and the 1,024 floats are 0. Numbers and floats beyond them stay as they were. */
uint64_t galebonnet_read(const uint8_t *block, size_t length, int32_t *table, size_t numbers, double *positions, size_t floats);

/* Writes a table in the one written form. The texts are the bytes in which the table's title, origin and owner stand: the block that was read, or any others.
 * Answers the refusal number times 2^32, plus the count of bytes written. On success that is the count alone: the form stands at the buffer's start, and the
 * bytes beyond it stay as they were. The refusals, tested in this order, come with count 0 and a buffer that is untouched: 1 the table has under 3,856 numbers;
 * 21 it is not sound (no atom, or a count, range, order, clash or zero rule broken, number 13 set beside a centre or a pair, or a text out of bounds, untrimmed,
 * with a byte not allowed, or with `##` right after a line feed); 23 the form would pass 32,768 bytes; 22 the buffer is shorter than the form. Numbers beyond
 * 3,856 are not looked at. A table that galebonnet_read filled is sound with the bytes of its block; a buffer of GALEBONNET_BLOCK bytes is never too short.
 * The form's formula comes of the atoms and bonds, not of the formula that was read: one fragment for each group of atoms that bonds of kinds 1 to 4 join, 5 (A)
 * not counting, in the order of their lowest atoms, parted by ` * `; an atom without such a bond is a fragment, and implied hydrogens stand with their atom.
 * Reading the form gives the same table but for the three places where its texts start, and the same texts. Positions are not written: the form has none. */
uint64_t galebonnet_write(const int32_t *table, size_t numbers, const uint8_t *texts, size_t texts_length, uint8_t *buffer, size_t room);

/* One piece of a transfer file, from a place on. Answers the kind times 2^32, plus the piece's end: 1 a block, 2 a stray run, both from the place to the end; 0
 * finished (the place is the file's end); 31 the file is too long; 32 the place lies beyond the end; these three with end 0. Go on at the end until finished. */
uint64_t galebonnet_walk(const uint8_t *file, size_t length, size_t place);

/* The name to show for a block: the start of its title times 2^32, plus its length. 0: show a stand-in (the title is empty, or the first line is no TITLE line).
 * Of a block of 2^32 bytes or more: 0. */
uint64_t galebonnet_name(const uint8_t *block, size_t length);

#ifdef __cplusplus
}
#endif

#endif
