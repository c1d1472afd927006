/* How far two labels grow, over the static library. With six words (x, y and corner of one label, then of the other) it writes what the
   program `grow` writes. Otherwise it compares the answers with the picture: the labels are drawn, and a point is looked for that both
   cover. It writes how many pairs and refusals it compared, and the exit status is 0 where all are right. To see that wrong answers are
   told, a first word is added to the answers, a second one is taken for the number of a refusal, and a third one says from which pair on
   the first is added. */
#include <stdio.h>
#include <stdlib.h>

#include "lemoncanyon.h"

/* A half unit has four ticks, so that the middle between two edges is at a tick. */
#define HALF_UNIT 4
#define UNIT (2 * HALF_UNIT)

struct label {
    uint32_t x, y, corner;
};

static uint32_t added, refusal = 3;
static long compared, compared_refused, added_from;

/* Offsets from the site in the label's own directions, in ticks. */
static long right(struct label l, long x) { return l.corner == 1 || l.corner == 4 ? x - UNIT * (long)l.x : UNIT * (long)l.x - x; }
static long up(struct label l, long y) { return l.corner == 1 || l.corner == 2 ? y - UNIT * (long)l.y : UNIT * (long)l.y - y; }

/* The open square and the two open edges that end in the site. Not the site, not the far edges. */
static int covers(struct label l, long side, long x, long y) {
    long a = right(l, x), b = up(l, y), far = side * HALF_UNIT;
    int inside_a = 0 < a && a < far, inside_b = 0 < b && b < far;
    return (inside_a && inside_b) || (inside_a && b == 0) || (a == 0 && inside_b);
}

/* The middle of what two labels share along an axis, where one goes from s and the other from t, each up the axis or down it. */
static long middle(long s, int s_up, long t, int t_up, long side) {
    long far = side * HALF_UNIT;
    long low_s = s_up ? s : s - far, low_t = t_up ? t : t - far;
    long low = low_s > low_t ? low_s : low_t, high = (low_s < low_t ? low_s : low_t) + far;
    return (low + high) / 2;
}

/* If two labels share a point, they share one whose coordinates are those of a site or in the middle of what they share. */
static int meet(struct label s, struct label t, long side) {
    long sx = UNIT * (long)s.x, tx = UNIT * (long)t.x, sy = UNIT * (long)s.y, ty = UNIT * (long)t.y;
    long xs[] = {sx, tx, middle(sx, s.corner == 1 || s.corner == 4, tx, t.corner == 1 || t.corner == 4, side)};
    long ys[] = {sy, ty, middle(sy, s.corner <= 2, ty, t.corner <= 2, side)};
    for (int i = 0; i < 3; i++)
        for (int j = 0; j < 3; j++)
            if (covers(s, side, xs[i], ys[j]) && covers(t, side, xs[i], ys[j]))
                return 1;
    return 0;
}

static void wrong(struct label s, struct label t, const char *what) {
    printf("%u %u %u %u %u %u: %s\n", s.x, s.y, s.corner, t.x, t.y, t.corner, what);
    exit(1);
}

static uint32_t growth_of(struct label s, struct label t) {
    uint32_t growth = 77;
    if (lemoncanyon_growth(s.x, s.y, s.corner, t.x, t.y, t.corner, &growth) != 0)
        wrong(s, t, "it is refused");
    return growth;
}

/* One place twice gives 0; of different places it is the greatest side at which they do not meet. */
static void compare(struct label s, struct label t) {
    uint32_t growth = growth_of(s, t);
    compared++;
    if (growth != growth_of(t, s))
        wrong(s, t, "the other way round it is another");
    if (s.x == t.x && s.y == t.y) {
        if (growth != 0)
            wrong(s, t, "it is not 0");
        return;
    }
    if (compared > added_from)
        growth += added;
    if (growth == LEMONCANYON_NEVER) {
        if (meet(s, t, 20001) || meet(s, t, 1000000))
            wrong(s, t, "they meet");
    } else if (meet(s, t, growth) || !meet(s, t, (long)growth + 1))
        wrong(s, t, "it is not the greatest side at which they do not meet");
}

static void compare_corners(uint32_t sx, uint32_t sy, uint32_t tx, uint32_t ty) {
    for (uint32_t c = 1; c <= 4; c++)
        for (uint32_t e = 1; e <= 4; e++)
            compare((struct label){sx, sy, c}, (struct label){tx, ty, e});
}

/* Every pair of places with these coordinates. */
static void compare_all(const uint32_t *at, int count) {
    for (int i = 0; i < count; i++)
        for (int j = 0; j < count; j++)
            for (int k = 0; k < count; k++)
                for (int l = 0; l < count; l++)
                    compare_corners(at[i], at[j], at[k], at[l]);
}

/* Refused, and the lent number as it came. */
static void refused(struct label s, struct label t) {
    for (uint32_t lent = 0; lent < 4; lent++) {
        uint32_t growth = lent - 2;
        compared_refused++;
        if (lemoncanyon_growth(s.x, s.y, s.corner, t.x, t.y, t.corner, &growth) != refusal)
            wrong(s, t, "it is not refused with 3");
        if (growth != lent - 2)
            wrong(s, t, "the lent number is another");
    }
}

static void compare_refused(void) {
    uint32_t outside[] = {10001, 10002, 16384, 65536, 65537, 2147483648u, 4294967295u};
    uint32_t no_corner[] = {0, 5, 6, 7, 8, 255, 256, 257, 260, 65537, 4294967295u};
    struct label good = {3, 4, 2}, bad;
    for (size_t i = 0; i < sizeof outside / sizeof *outside; i++) {
        bad = good, bad.x = outside[i], refused(bad, good), refused(good, bad), refused(bad, bad);
        bad = good, bad.y = outside[i], refused(bad, good), refused(good, bad), refused(bad, bad);
    }
    for (size_t i = 0; i < sizeof no_corner / sizeof *no_corner; i++)
        bad = good, bad.corner = no_corner[i], refused(bad, good), refused(good, bad), refused(bad, bad);
}

/* Each coordinate in each of its four places. */
static void compare_each(void) {
    for (uint32_t v = 0; v <= 10000; v++) {
        uint32_t c = 1 + v % 4, e = 1 + v / 4 % 4;
        compare((struct label){v, 1234, c}, (struct label){5000, 6000, e});
        compare((struct label){4321, v, c}, (struct label){5000, 6000, e});
        compare((struct label){5000, 6000, e}, (struct label){v, 77, c});
        compare((struct label){5000, 6000, e}, (struct label){9999, v, c});
    }
}

static uint32_t number(const char *word) { return strtoul(word, 0, 10); }

int main(int count, char **words) {
    if (count == 7) {
        uint32_t growth;
        uint32_t told = lemoncanyon_growth(number(words[1]), number(words[2]), number(words[3]), number(words[4]), number(words[5]),
                                           number(words[6]), &growth);
        if (told != 0)
            printf("refused\t%u\n", told);
        else if (growth == LEMONCANYON_NEVER)
            puts("never");
        else
            printf("%u\n", growth);
        return 0;
    }
    if (count > 1)
        added = number(words[1]);
    if (count > 2)
        refusal = number(words[2]);
    if (count > 3)
        added_from = number(words[3]);
    uint32_t small[] = {0, 1, 2, 3, 4, 5}, edges[] = {0, 1, 2, 4999, 5000, 9998, 9999, 10000};
    compare_all(small, 6);
    compare_all(edges, 8);
    for (uint32_t i = 0, drawn = 1; i < 20000; i++) {
        uint32_t at[4];
        for (int k = 0; k < 4; k++)
            drawn = drawn * 1664525u + 1013904223u, at[k] = (drawn >> 8) % 10001;
        compare_corners(at[0], at[1], at[2], at[3]);
    }
    compare_each();
    compare_refused();
    printf("%ld pairs, %ld refusals\n", compared, compared_refused);
    return 0;
}
