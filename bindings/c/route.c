/* Routes a job sheet: `route FILE`, or the hex sheet of tools/README.md with no argument. Prints what program `route`
 * prints: a tree's lines, or its refusal. Program `route` refuses rooms of over 4,096 cells; this doesn't. */
#include <stdio.h>
#include <stdlib.h>

#include "dustroute.h"

/* A row of ten cells, from end to end. */
static const uint8_t SMALLEST[] = {
    1, 0, 0, 0, 40, 10, 1, 1, 0, 0, 0x75, 0x30, 0, 0, 0, 10, 0, 0, 0, 25, 0, 0, 0, 15,
    0, 0, 0, 0, 0, 0, 0, 0, 0, 0, 0, 0, 0, 0, 0, 1, 9, 0, 0, 0, 0};

static uint8_t sheet[DUSTROUTE_MAX_SHEET + 1];

/* Reads a sheet, and one byte more of one that is too long, which is then refused. */
static size_t read_sheet(const char *name) {
    FILE *file = fopen(name, "rb");
    if (file == NULL) {
        perror(name);
        exit(2);
    }
    size_t length = fread(sheet, 1, sizeof sheet, file);
    if (ferror(file)) {
        perror(name);
        exit(2);
    }
    fclose(file);
    return length;
}

static void print_tree(const struct dustroute_tree_answer *tree) {
    size_t place = 0;
    printf("net %zu %zu\n", tree->branch_count, tree->occupied_count);
    for (size_t sink = 0; sink < tree->branch_count; sink++) {
        printf("branch");
        for (size_t end = place + (size_t)tree->lengths[sink]; place < end; place++)
            printf(" %u", (unsigned)tree->branches[place]);
        printf("\n");
    }
    printf("repeaters");
    for (size_t cell = 0; cell < tree->cells; cell++)
        if (tree->repeaters[cell])
            printf(" %zu", cell);
    printf("\n");
}

/* Routes a sheet in an arena that suffices. */
static void route(const uint8_t *bytes, size_t length) {
    struct dustroute_tree_answer tree;
    size_t size = dustroute_arena_size(bytes, length);
    void *arena = malloc(size);
    if (arena == NULL) {
        perror("route");
        exit(1);
    }
    uint32_t number = dustroute_tree_in_arena(bytes, length, arena, size, &tree);
    if (number == DUSTROUTE_DONE)
        print_tree(&tree);
    else
        printf("refused %u %u\n", (unsigned)number, (unsigned)tree.detail);
    free(arena);
}

int main(int count, char **words) {
    if (count > 1)
        route(sheet, read_sheet(words[1]));
    else
        route(SMALLEST, sizeof SMALLEST);
    return 0;
}
