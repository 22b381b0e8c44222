/* runcefo.h: the proved charge planner, for C and C++.

   Link with libruncefo.a (`rt lib` in crates/runcefo_c writes it as libruncefo_c.a, install.sh installs it; `pkg-config --cflags --libs runcefo` says how).
   The contracts stand in crates/runcefo and crates/runcefo_c; docs/charge.1 tells the layout of a sheet and of a reply, docs/convert.1 what becomes of blank items.

   Pointers    Behind each pointer there are as many bytes as the length beside it says. Where that length is 0 the pointer may be null.
               `line` and `written` are never null, and aligned as their types ask; bytes need no alignment.
   Overlap     What is written (`out`, `written`, `line`) overlaps nothing else that is handed over.
   Threads     There is no state between calls: any number of threads may call at the same time, on buffers of their own.
   Heap        None is used, and nothing is read or written but what is handed over. Of the C library only memcpy, memmove and memset are needed.
   Stack       652,040 bytes were measured (`bench/run stack`), of which 524,280 are the scales' cells; CHARGE_STACK is a safe figure.
   Time        Every call ends. How soon is a promise of charge_steps and charge_cells, which plan the sheet anew and count: a search takes at most 500 steps,
               then scales answer; charge_plan itself promises its reply alone. Needs come to cases, each with a search of its own: one without needs, at
               most 2^(t + 1) with t of them. */
#ifndef RUNCEFO_H
#define RUNCEFO_H

#include <stddef.h>
#include <stdint.h>

#define RUNCEFO_VERSION_MAJOR 0
#define RUNCEFO_VERSION_MINOR 12
#define RUNCEFO_VERSION "0.12"

/* The longest sheet that is not refused unread, the bytes that hold every reply (as charge_room says), and the stack of a call. */
#define CHARGE_SHEET 4096
#define CHARGE_ROOM 2880
#define CHARGE_STACK 720896

/* Why a sheet is refused, or not written. */
enum charge_refusal {
    CHARGE_ACCEPTED = 0,      /* it is not */
    CHARGE_TOO_LONG = 1,      /* longer than CHARGE_SHEET bytes; told with line 0 */
    CHARGE_BAD_FORM = 2,      /* a line missing or not in its form, but for 12 and 13; or something after the last section */
    CHARGE_BAD_COUNT = 3,     /* capacities not 1, items not 1 to 16, bounds of a side not as many as items, or needs not 0 to 16 */
    CHARGE_OUT_OF_RANGE = 4,  /* a figure */
    CHARGE_BAD_NUMBER = 5,    /* an item number out of turn; in a need one that does not exist, that needs itself, or that does not rise */
    CHARGE_SHORT_BUFFER = 11, /* out is shorter than what would be written; told with line 0 */
    CHARGE_BAD_WORD = 12,     /* a heading word other than the expected one */
    CHARGE_NO_NUMBER = 13,    /* a field in a number's place that is not a number, or in a bound's place neither that nor `none` */
    CHARGE_BAD_NEED = 14,     /* a need names an item that is continuous, lacks a bound, or has a lower bound below 0 */
    CHARGE_BLANK_ITEM = 15,   /* an item's weights, low and high, and price are 0; of charge_convert: such items cannot be left out */
    CHARGE_WEIGHT_RANGE = 19, /* an item's low weight is above its high one */
    CHARGE_RANGED_ITEM = 20   /* an item's weight is a range, and its lower bound is absent or below 0 */
};

#ifdef __cplusplus
extern "C" {
#endif

/* How many bytes hold every reply: CHARGE_ROOM of the library that is linked. charge_plan never tells
   CHARGE_SHORT_BUFFER of so many (`room-holds` in crates/runcefo, proofs/Replies). */
size_t charge_room(void);

/* A sheet's verdict, one of charge_refusal; *line gets the refusal's line, or 0. */
uint64_t charge_read(const uint8_t *sheet, size_t length, uint64_t *line);

/* Plans a sheet: what `charge` prints for it, the sure reply and then the possible one, at the start of out; *written gets its length, there is no
   closing zero byte, and CHARGE_ACCEPTED is told. Of an amount p q, q is the weight without sign of an item with mark L, high in the sure reply and low
   in the possible (1 where that is 0), and 1 with mark W; only the value is in lowest terms. Else no byte of out changes and *written gets 0: the
   sheet's own refusal is told, then CHARGE_SHORT_BUFFER; *line gets its line, or 0. */
uint64_t charge_plan(const uint8_t *sheet, size_t length, uint8_t *out, size_t room, size_t *written, uint64_t *line);

/* Reads a sheet and writes what was read at the start of out, to save it: an accepted sheet comes back byte by byte, in length bytes, and
   CHARGE_ACCEPTED is told. Else no byte changes: the sheet's own refusal is told, then CHARGE_SHORT_BUFFER; *line gets its line, or 0. */
uint64_t charge_write(const uint8_t *sheet, size_t length, uint8_t *out, size_t room, uint64_t *line);

/* Reads a stored sheet and writes it without its blank items, of weights and price 0, at the start of out: later items move down, and their numbers in
   all sections with them; *written gets the length, at most CHARGE_ROOM, and CHARGE_ACCEPTED is told. A sheet without blank items comes
   back as it is. Kind of reply and best value are those of the old sheet (`converted-gives` in crates/converter, proofs/Converted). Else no byte of out
   changes and *written gets 0: told is the sheet's own refusal, for which a blank item is no fault; then CHARGE_BLANK_ITEM, on the first item's line if no
   item would remain, else on that of the first blank item whose bounds cross or that a need names; then CHARGE_SHORT_BUFFER; *line gets its line, or 0. */
uint64_t charge_convert(const uint8_t *sheet, size_t length, uint8_t *out, size_t room, size_t *written, uint64_t *line);

/* How many steps the searches take for a sheet: for each reply at most 500 without needs, and 500 in each of at most 2^(t + 1) cases with t of them
   (proved); where every weight is one figure the sure reply is the possible one, and is searched for once. 0 if it is refused or
   needs no search. */
uint64_t charge_steps(const uint8_t *sheet, size_t length);

/* How many cells the scales write for a sheet, for each reply: at most 67,570,093,800 without needs, and so many in each case with them (proved); 0 if
   every search ends and no first point is owed. */
uint64_t charge_cells(const uint8_t *sheet, size_t length);

#ifdef __cplusplus
}
#endif

#endif
