/* A C host over the door: the pieces of a transfer file, each block with its judgement, its atoms, whether it is handed as a whole, its title, the length of its written
 * form and the positions of its atoms, in Angstrom.
 *
 *     gcc -O2 -Iinclude examples/host.c target/staticlib/libhost.a -o target/host && target/host samples/damaged.jcs
 */
#include <stdio.h>
#include <stdlib.h>
#include <string.h>

#include "galebonnet.h"

static uint8_t file[GALEBONNET_FILE + 1];

/* The count of bytes of the written form; reading it gives the same number of handedness and all that comes behind it. */
static unsigned written(const int32_t *table, const uint8_t *block, size_t length) {
    uint8_t form[GALEBONNET_BLOCK];
    int32_t again[GALEBONNET_TABLE];
    double positions[GALEBONNET_POSITIONS];
    uint64_t answer = galebonnet_write(table, GALEBONNET_TABLE, block, length, form, sizeof form);
    if (answer >> 32 == GALEBONNET_LONG_FORM) /* the one refusal that a table just read can meet */
        return 0;
    if (answer >> 32 != GALEBONNET_ACCEPTED ||
        galebonnet_read(form, (size_t)answer, again, GALEBONNET_TABLE, positions, GALEBONNET_POSITIONS) != GALEBONNET_ACCEPTED)
        abort();
    if (memcmp(table + GALEBONNET_HANDED, again + GALEBONNET_HANDED, sizeof again - GALEBONNET_HANDED * sizeof *again) != 0)
        abort();
    return (unsigned)answer;
}

/* A line for each atom that has a position. */
static void show_positions(const double *positions) {
    for (int atom = 1; atom <= GALEBONNET_ATOMS; atom++) {
        const double *position = positions + GALEBONNET_POSITION(atom - 1);
        if (position[0] == 1)
            printf("  atom %d at %.4f %.4f %.4f\n", atom, position[1], position[2], position[3]);
    }
}

static void show_block(const uint8_t *block, size_t length) {
    int32_t table[GALEBONNET_TABLE];
    double positions[GALEBONNET_POSITIONS];
    uint64_t answer = galebonnet_read(block, length, table, GALEBONNET_TABLE, positions, GALEBONNET_POSITIONS);
    uint64_t name = galebonnet_name(block, length);
    const char *title = name ? (const char *)block + (name >> 32) : "?";
    int size = name ? (int)(name & 0xffffffff) : 1;
    printf("%.*s: ", size, title);
    if (answer == GALEBONNET_ACCEPTED)
        printf("%d atoms, %d bonds%s, written in %u bytes\n", (int)table[GALEBONNET_ATOM_COUNT], (int)table[GALEBONNET_BOND_COUNT],
               table[GALEBONNET_HANDED] ? ", handed as a whole" : "", written(table, block, length));
    else
        printf("refusal %u at %u of the block\n", (unsigned)(answer >> 32), (unsigned)(answer & 0xffffffff));
    show_positions(positions);
    if (galebonnet_check(block, length) != answer) /* the two always judge alike */
        abort();
}

int main(int count, char **words) {
    FILE *input = count == 2 ? fopen(words[1], "rb") : NULL;
    if (!input) {
        fprintf(stderr, "usage: host FILE\n");
        return 2;
    }
    size_t length = fread(file, 1, sizeof file, input);
    fclose(input);
    for (size_t place = 0;;) {
        uint64_t piece = galebonnet_walk(file, length, place);
        size_t end = (size_t)(piece & 0xffffffff);
        switch (piece >> 32) {
        case 1:
            show_block(file + place, end - place);
            break;
        case 2:
            printf("stray run of %zu bytes\n", end - place);
            break;
        case 0:
            return 0;
        default:
            printf("refusal %u\n", (unsigned)(piece >> 32));
            return 1;
        }
        place = end;
    }
}
