/* Square labels for the spots of a car park level: from the bytes of a list to the bytes of its sheet in one call, with four corners or
   above the spot only, at the greatest side or at a side of the caller's; and how far two labels grow.
   Link target/staticlib/libsheet_call.a, which callers/archive makes. The contracts are proved in crates/sheet_call and sheet_call_c.

   Platform: Linux on x86-64 (x86_64-unknown-linux-gnu, the System V calling convention), for programs in C, C++ or Rust.
   Threads: any number of threads may call at the same time. The library holds no bytes that can be written, so that a call depends on
   its arguments alone; several calls may read one list, and each needs a buffer of its own. */
#ifndef LEMONCANYON_H
#define LEMONCANYON_H

#include <stddef.h>
#include <stdint.h>

#ifdef __cplusplus
extern "C" {
#endif

/* callers/run compares these eight numbers with the source, the proved programs and the shortest sheets. */

/* No sheet of lemoncanyon_sheet is shorter: a number below this is a refusal. */
#define LEMONCANYON_SHORTEST 18

/* No sheet of lemoncanyon_sheet_at is shorter: a number below this is a refusal. */
#define LEMONCANYON_SHORTEST_AT 15

/* No sheet of either is longer: a buffer of this size is never too short. */
#define LEMONCANYON_LONGEST 5531

/* These first bytes of a longer list decide that it is refused, and with which number. */
#define LEMONCANYON_LIST 5061

/* Given as a side: free, where no side is too large. */
#define LEMONCANYON_FREE 4294967295u

/* Given as a way, the usual one: all four corners. A choice of corners is good at a side where no two labels meet and no corner is
   crowded. */
#define LEMONCANYON_USUAL 1

/* Given as a way, above the spot only: corners 1 and 2. A choice of these is good at a side where no two labels meet, crowded or not. */
#define LEMONCANYON_ABOVE 2

/* Told as a growth: never, where two labels meet at no side. */
#define LEMONCANYON_NEVER 4294967295u

/* A call keeps nothing, calls only memcpy and memset, and needs at most 120 KB of stack (measured, not proved).
   Of the two calls that write a sheet the caller owes: `list` points to `list_length` bytes that can be read and `buffer` to
   `buffer_length` bytes that can be written; neither pointer is null, even with length 0; the two do not overlap, and nothing else changes
   them during the call. `way` and `side` may be any numbers. */

/* Places the sites of a list, in the given way, at the greatest side that has a good choice, and writes its sheet.

   LEMONCANYON_SHORTEST or more: the length of the sheet. The buffer holds the sheet from its first byte on, the same bytes that the
   program `place` writes for this list, or `place above` with LEMONCANYON_ABOVE, and every byte after it is as it came. Of this sheet
   holds, with LEMONCANYON_USUAL: no two labels meet, no corner is crowded, of all such choices at this side the corners are the first in
   list order; no greater side has one; and nobody does better than twice the printed number, fractions too, over all four corners.
   With LEMONCANYON_ABOVE: no two labels meet, corners are 1 and 2 alone, of all such choices at this side the first in list order; the
   side found is the greatest that anybody can have with corners 1 and 2, fractions too. That nobody does better than twice the number over
   all four corners is not promised of such a sheet. Its side may be smaller or greater than that of the usual way. In either way, where the
   sheet prints free its labels meet at no side, whole or fraction.

   Below LEMONCANYON_SHORTEST: the number of the refusal. Every byte of the buffer is as it came.
     1  a line of other than three fields, over 20 bytes, or without its line feed
     2  a name outside the rule
     3  a coordinate outside the rule; or the way is neither LEMONCANYON_USUAL nor LEMONCANYON_ABOVE: this is tested first, before the
        list is read
     4  a name already in the list
     5  a place already in the list
     7  more than 240 sites
     8  no sites
    10  the list has a sheet, and the buffer is shorter than it
   Lines are tested one after another, each for 1, 2, 3, 7, 4, 5 in this order; the first refusal counts. */
size_t lemoncanyon_sheet(const uint8_t *list, size_t list_length, uint32_t way, uint8_t *buffer, size_t buffer_length);

/* Places the sites of a list, in the given way, at a given side, in half units from 1 to 20,000, or LEMONCANYON_FREE, and writes its
   sheet.

   LEMONCANYON_SHORTEST_AT or more: the length of the sheet, which stands in the buffer as with lemoncanyon_sheet and prints the given side. Of this sheet
   holds: no two labels meet; no corner is crowded, or, with LEMONCANYON_ABOVE, corners are 1 and 2 alone; and of all such choices at this
   side the corners are the first in list order. The list that it carries gives the same sheet again in the same way at the same side; the
   sheet does not say which way that was. What is promised besides of the side found (that it is the greatest; in the usual way, that
   nobody does better than twice the printed number) holds only where the given side is the one that lemoncanyon_sheet prints for this
   list in the same way; the sheet is then the same. A side found in the other way is a given one.

   Below LEMONCANYON_SHORTEST_AT: the number of the refusal. Every byte of the buffer is as it came. The numbers are those of
   lemoncanyon_sheet, and
     3  also where the side is neither LEMONCANYON_FREE nor from 1 to 20,000: this is tested with the way, before the list is read
    12  no good choice exists at the given side: tested after 8 and before 10
   At every side up to the one that lemoncanyon_sheet prints in the same way a good choice exists, and at no greater one. */
size_t lemoncanyon_sheet_at(const uint8_t *list, size_t list_length, uint32_t way, uint32_t side, uint8_t *buffer, size_t buffer_length);

/* Tells how far two labels grow: the label at corner1 of the site (x1, y1) and the label at corner2 of the site (x2, y2), places in units
   and corners as on a sheet. Any numbers may be given. The caller owes that `growth` is not null and points to a number that can be
   written and that nothing else changes during the call.

   0: `*growth` is the greatest side, in half units, at which the two labels do not meet, from 0 to 20,000; they meet at every greater
   side, whole or fraction, and at no other. Or it is LEMONCANYON_NEVER: they meet at no side, since along x or along y they face away from
   each other. One place given twice gives 0, at whatever corners, though its labels at opposite corners cover no common point.
   Whichever label is named first, the answer is the same. The program `grow` writes the same answer.
   3: a place is outside the range, 0 to 10,000, or a corner is not 1 to 4. `*growth` is as it came. */
uint32_t lemoncanyon_growth(uint32_t x1, uint32_t y1, uint32_t corner1, uint32_t x2, uint32_t y2, uint32_t corner2, uint32_t *growth);

#ifdef __cplusplus
}
#endif

#endif
