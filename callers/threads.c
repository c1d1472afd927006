/* A list on standard input, and in the file that the first word names the output for it: makes a call in several threads at once, each
   with a buffer of its own, over the same list. The second word is the way, as a number; the call is that at a side where a third gives
   one, as a number. The exit status is 0 where every call gave that sheet or that refusal. */
#include <pthread.h>
#include <stdio.h>
#include <stdlib.h>
#include <string.h>

#include "lemoncanyon.h"

#define ROOM 65536
#define THREADS 4
#define CALLS 20

static uint8_t list[ROOM], output[ROOM];
static size_t list_length, output_length;
static int given;
static uint32_t way, side;
/* So that all threads are there when the first call is made. */
static pthread_barrier_t all;

/* What the call hands back, and what it should. */
static size_t came_with(uint8_t *buffer, size_t length) {
    return given ? lemoncanyon_sheet_at(list, list_length, way, side, buffer, length)
                 : lemoncanyon_sheet(list, list_length, way, buffer, length);
}

static size_t should(void) {
    return memcmp(output, "refused\t", 8) == 0 ? strtoul((char *)output + 8, 0, 10) : output_length;
}

/* Null where every call was right. */
static void *calls(void *wrong) {
    uint8_t buffer[LEMONCANYON_LONGEST];
    size_t shortest = given ? LEMONCANYON_SHORTEST_AT : LEMONCANYON_SHORTEST;
    pthread_barrier_wait(&all);
    for (int i = 0; i < CALLS; i++) {
        memset(buffer, i, sizeof buffer);
        size_t came = came_with(buffer, sizeof buffer);
        if (came != should() || (came >= shortest && memcmp(buffer, output, came) != 0))
            return wrong;
    }
    return 0;
}

int main(int count, char **words) {
    FILE *file = count == 3 || count == 4 ? fopen(words[1], "rb") : 0;
    if (!file) {
        puts("usage: threads OUTPUT WAY [SIDE] < LIST");
        return 2;
    }
    way = strtoul(words[2], 0, 10);
    given = count == 4;
    side = given ? strtoul(words[3], 0, 10) : 0;
    list_length = fread(list, 1, ROOM, stdin);
    output_length = fread(output, 1, ROOM, file);

    pthread_t threads[THREADS];
    int wrong = 0;
    pthread_barrier_init(&all, 0, THREADS);
    for (int i = 0; i < THREADS; i++)
        if (pthread_create(&threads[i], 0, calls, threads) != 0) {
            puts("no thread");
            return 2;
        }
    for (int i = 0; i < THREADS; i++) {
        void *told;
        pthread_join(threads[i], &told);
        wrong |= told != 0;
    }
    if (wrong)
        puts("a thread came to something else");
    return wrong;
}
