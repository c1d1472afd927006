/* A list on standard input, and in the file that the first word names the output for it: tries a call with buffers of many sizes, and
   prints each size, and what came where it should not. The second word is the way, as a number; the call is that at a side where a third
   gives one, as a number. Every byte of a buffer comes as a pattern; list and buffer end each where memory that cannot be touched begins,
   and the list cannot be written. */
#include <stdio.h>
#include <stdlib.h>
#include <string.h>
#include <sys/mman.h>
#include <unistd.h>

#include "lemoncanyon.h"

#define PATTERN 0xA5
#define ROOM 65536

/* Pages full of the pattern, and behind them one that cannot be touched. The last `size` bytes of the pages are lent. */
struct pages {
    uint8_t *start;
    size_t length;
    uint8_t *lent;
};

static struct pages lend(size_t size) {
    size_t page = sysconf(_SC_PAGESIZE);
    size_t length = (size / page + 1) * page;
    uint8_t *start = mmap(0, length + page, PROT_READ | PROT_WRITE, MAP_PRIVATE | MAP_ANONYMOUS, -1, 0);
    if (start == MAP_FAILED || mprotect(start + length, page, PROT_NONE) != 0) {
        puts("no memory");
        exit(2);
    }
    memset(start, PATTERN, length);
    return (struct pages){start, length, start + length - size};
}

/* Whether the pages hold the first `written` bytes of `sheet` from the lent place on, and the pattern everywhere else. */
static int holds(struct pages pages, const uint8_t *sheet, size_t written) {
    size_t before = pages.lent - pages.start;
    for (size_t i = 0; i < pages.length; i++) {
        int inside = i >= before && i < before + written;
        if (pages.start[i] != (inside ? sheet[i - before] : PATTERN))
            return 0;
    }
    return 1;
}

static uint8_t text[ROOM], output[ROOM];
static size_t text_length, output_length;
static int given;
static uint32_t way, side;

/* The number of the refusal; 0 where the output is a sheet. */
static size_t refusal(void) {
    return memcmp(output, "refused\t", 8) == 0 ? strtoul((char *)output + 8, 0, 10) : 0;
}

/* Prints the size and makes the call with a buffer of so many bytes; not 0 where something came that should not. By `const` the compiler
   refuses a header that declares the buffer first. */
static int wrong_with(const uint8_t *list, size_t size) {
    size_t written = refusal() || size < output_length ? 0 : output_length;
    size_t should = written ? written : refusal() ? refusal() : 10;
    struct pages buffer = lend(size);
    int wrong = 0;
    printf("%zu ", size);
    size_t came = given ? lemoncanyon_sheet_at(list, text_length, way, side, buffer.lent, size)
                        : lemoncanyon_sheet(list, text_length, way, buffer.lent, size);
    if (came != should) {
        printf("(came %zu, should %zu) ", came, should);
        wrong = 1;
    }
    if (!holds(buffer, output, written)) {
        printf("(wrong bytes) ");
        wrong = 1;
    }
    return wrong;
}

int main(int count, char **words) {
    text_length = fread(text, 1, ROOM, stdin);
    FILE *file = count == 3 || count == 4 ? fopen(words[1], "rb") : 0;
    if (!file) {
        puts("usage: buffers OUTPUT WAY [SIDE] < LIST");
        return 2;
    }
    output_length = fread(output, 1, ROOM, file);
    way = strtoul(words[2], 0, 10);
    given = count == 4;
    side = given ? strtoul(words[3], 0, 10) : 0;
    size_t shortest = given ? LEMONCANYON_SHORTEST_AT : LEMONCANYON_SHORTEST;
    if (!refusal() && (output_length < shortest || output_length > LEMONCANYON_LONGEST)) {
        printf("a sheet of %zu bytes is outside the limits\n", output_length);
        return 1;
    }

    struct pages list = lend(text_length);
    memcpy(list.lent, text, text_length);
    mprotect(list.start, list.length, PROT_READ);

    size_t sizes[] = {LEMONCANYON_LONGEST + 100, LEMONCANYON_LONGEST, output_length + 2, output_length + 1, output_length,
                      output_length - 1, output_length - 2, shortest, shortest - 1, 1, 0};
    int wrong = 0;
    /* So that a crash does not lose the size that it came with. */
    setvbuf(stdout, 0, _IONBF, 0);
    for (size_t i = 0; i < sizeof sizes / sizeof *sizes; i++)
        wrong |= wrong_with(list.lent, sizes[i]);
    return wrong;
}
