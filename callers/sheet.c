/* A list on standard input, its sheet or its refusal on standard output: what `place` does, over the static library. With the word above
   first, labels are above the spot only; with a word behind that or alone, which is a number of half units or `free`, the list is placed
   at that side. */
#include <ctype.h>
#include <stdio.h>
#include <stdlib.h>
#include <string.h>

#include "lemoncanyon.h"

/* The side that a word gives; 0, which is refused, where it gives none. */
static uint32_t side_from(const char *word) {
    if (strcmp(word, "free") == 0)
        return LEMONCANYON_FREE;
    char *end;
    unsigned long number = strtoul(word, &end, 10);
    return isdigit((unsigned char)*word) && *end == 0 && number < LEMONCANYON_FREE ? number : 0;
}

int main(int count, char **words) {
    uint8_t list[LEMONCANYON_LIST];
    uint8_t buffer[LEMONCANYON_LONGEST];
    size_t length = fread(list, 1, sizeof list, stdin);
    if (ferror(stdin)) {
        fputs("sheet: standard input cannot be read\n", stderr);
        return 1;
    }
    int above = count > 1 && strcmp(words[1], "above") == 0;
    uint32_t way = above ? LEMONCANYON_ABOVE : LEMONCANYON_USUAL;
    int given = count > 1 + above;
    size_t number = given ? lemoncanyon_sheet_at(list, length, way, side_from(words[1 + above]), buffer, sizeof buffer)
                          : lemoncanyon_sheet(list, length, way, buffer, sizeof buffer);
    if (number < (given ? LEMONCANYON_SHORTEST_AT : LEMONCANYON_SHORTEST))
        printf("refused\t%zu\n", number);
    else
        fwrite(buffer, 1, number, stdout);
    if (fflush(stdout) != 0 || ferror(stdout)) {
        fputs("sheet: standard output cannot be written\n", stderr);
        return 1;
    }
    return 0;
}
