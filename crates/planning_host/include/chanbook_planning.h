/* What a host in C, C++ or Rust calls of Chanbook's planning modules, beside the engine (chanbook_shard.h). Link libplanning_host.a, which
   tools/static_libraries.sh writes to target/staticlib. Whatever numbers a function is given or lent, it ends and answers. It holds nothing between two
   calls. */
#ifndef CHANBOOK_PLANNING_H
#define CHANBOOK_PLANNING_H

#include <stddef.h>
#include <stdint.h>

#include "chanbook_shard.h" /* struct chanbook_group_settings */

#ifdef __cplusplus
extern "C" {
#endif

/* Why a call is refused: numbers of document 02. */
enum {
    CHANBOOK_UNMADE = 1,           /* the settings of the group are outside their limits, more than 128 windows among them */
    CHANBOOK_TOO_LARGE = 2,        /* a slot is above 2^63-2; in a list also a value above 2^63-1 */
    CHANBOOK_NO_RASTER = 14,       /* no raster number or no raster frequency; in an entry also a width outside its limits, or an unknown kind */
    CHANBOOK_NO_ROOM = 15,         /* a new cell with 512 live */
    CHANBOOK_CELL_NOT_LIVE = 16,   /* release, or position (E11), of a cell that is not live */
    CHANBOOK_NOT_IN_CALENDAR = 17, /* no such date or time, a window whose end is not after its start, or a minute past the year 9999 */
    CHANBOOK_OUTSIDE_LIMITS = 18,  /* too many entries in a list, slots not consecutive, slices of unequal length, or too few places */
    CHANBOOK_GAP = 19,             /* a gap between two lists, or between a register and a list */
    CHANBOOK_TWO_VALUES = 20,      /* one slot with two values */
    CHANBOOK_OUTSIDE_GRID = 21,    /* a position or a distance outside its limits */
    CHANBOOK_NONE_FREE = 22,       /* no carrier in the range is free */
    CHANBOOK_ODD_WIDTH = 23        /* a width not in whole MHz at or after the slot that the settings name */
};

/* What document 02 gives no number: these are ours, and none of them is one of its numbers, 1 to 23. */
enum {
    CHANBOOK_DONE = 0,
    CHANBOOK_OLDER = 64,  /* the entry's slot is not after the last one seen */
    CHANBOOK_INSIDE = 65, /* the minute is inside a window */
    CHANBOOK_NEXT = 66,   /* it is not, and the nearest later window begins at the minute beside this number */
    CHANBOOK_NONE = 67    /* it is not, and no window begins later */
};

/* refusal: 0 and a value, or the number of document 02 that refuses, and 0 as the value. */
struct chanbook_value {
    uint64_t refusal;
    uint64_t value;
};

/* E5, carrier numbers (NR-ARFCN) of 3GPP TS 38.104: the frequency of a number in kHz, and the number of a frequency in kHz. 14 where there is none. */
struct chanbook_value chanbook_raster_khz(uint64_t number);
struct chanbook_value chanbook_raster_number(uint64_t khz);

/* E6 and E13, a register of cells from the commits. A host keeps the five arrays, begins them with chanbook_register_new, and lends them for each entry.
   Place i of cells, carriers and widths is live cell i, by cell number; what stands behind the live cells changes no answer. The arrays do not
   overlap, each is as the call before left it, and nothing else writes to it. One thread at a time may hold a register.
   Two offices with the same settings that give equal entries in slot order hold equal registers, every number of the five arrays, whatever repeats and
   older entries stand between. So the hosts of a group give one and the same entry for a committed value, and its slot is the commit's. */
enum {
    CHANBOOK_LIVE_CELLS = 512,  /* at most so many cells are live */
    CHANBOOK_REPORT_BYTES = 116 /* a report has at most so many bytes */
};

/* The places of figures. Assignments made are those superseded, those released and those live together. */
enum {
    CHANBOOK_NEXT_SLOT = 0, /* the slot after the last one seen, at first 0 */
    CHANBOOK_MADE = 1,
    CHANBOOK_SUPERSEDED = 2,
    CHANBOOK_RELEASED = 3,
    CHANBOOK_LIVE = 4,
    CHANBOOK_FIGURES = 5 /* how many there are */
};

/* The places of settings: what a register keeps of the settings of its group. A number other than 0 and 17 is read as 1. */
enum {
    CHANBOOK_SETTINGS_NUMBER = 0, /* 0, or the number that every call on the register gives before anything else, with nothing changed */
    CHANBOOK_WHOLE_MHZ_FROM = 1,  /* from this slot on the width of an assignment is in whole MHz */
    CHANBOOK_SETTINGS = 2         /* how many there are */
};

/* The arrays in one block, for a host that wants to copy, store or compare a register whole. The settings stand last: a block that was stored before E13, the
   four other arrays, is the beginning of this one. A host that has such a block begins a register with chanbook_register_new and puts the block in the
   place of the first four arrays; the settings stay those that chanbook_register_new wrote. Zeros in their place would be a slot of 0: widths in whole MHz
   from the first slot on. */
struct chanbook_register {
    uint64_t cells[512];
    uint64_t carriers[512];
    uint64_t widths[512];
    uint64_t figures[5];
    uint64_t settings[2];
};

/* A cell's number in an entry (E7). A host that has longer ones asks first whether they fit: C would take them modulo 2^32 before the call. */
typedef uint32_t chanbook_cell_number;

/* The kinds of entry. Any other is refused with 14. */
enum {
    CHANBOOK_ASSIGNMENT = 1, /* the cell gets this carrier number and this width, 1 to 400,000 kHz */
    CHANBOOK_RELEASE = 2     /* the cell is live no more; carrier and width say nothing */
};

/* A register of the settings of its group that has seen no entry. Of settings outside their limits it is not made, and gives their number: 1, or 17 of a
   window (E8). */
void chanbook_register_new(struct chanbook_group_settings group, uint64_t settings[2], uint64_t cells[512], uint64_t carriers[512],
                           uint64_t widths[512], uint64_t figures[5]);

/* An entry: the first of 1 or 17, 2, 64, 14, 23, 15 and 16 whose cause holds, or 0, and it is done. After 1, 17, 2 and 64 every number is as it was. After
   14, 23, 15 and 16 the slot is seen, and nothing else has changed. */
uint64_t chanbook_register_entry(const uint64_t settings[2], uint64_t cells[512], uint64_t carriers[512], uint64_t widths[512], uint64_t figures[5],
                                 uint64_t slot, uint64_t kind, chanbook_cell_number cell, uint64_t carrier, uint64_t width);

/* The report as CSV: the header made,superseded,released,live and one line, each ended with CR LF; of a register that is not made the one line
   refused,1 or refused,17. Hands back how many bytes it has; zeros stand behind them. */
uint64_t chanbook_register_report(const uint64_t settings[2], const uint64_t figures[5], uint8_t out[116]);

/* E7, a register that was stored while cell numbers had 16 bits: its numbers, as they stood in the arrays. A host that stored the arrays themselves, 64 bits a
   number, puts them in the place of those of a new register: their numbers stay, and the settings are those of chanbook_register_new. */
struct chanbook_stored_register {
    uint16_t cells[512];
    uint64_t carriers[512];
    uint64_t widths[512];
    uint64_t figures[5];
};

/* The stored register in the arrays of a register: each cell has its number, its carrier and its width, and the figures and the next slot are the stored
   ones. So the report is the same, and it is gone on with as if all its entries had been given to this library. Whatever numbers are stored. The settings
   are those that it is read with; odd widths that stand in it stay. */
void chanbook_register_widened(struct chanbook_group_settings group, const uint16_t stored_cells[512], const uint64_t stored_carriers[512],
                               const uint64_t stored_widths[512], const uint64_t stored_figures[5], uint64_t settings[2], uint64_t cells[512],
                               uint64_t carriers[512], uint64_t widths[512], uint64_t figures[5]);

/* E10: how many entries a list may have that is joined, and how many places must be lent for the result, which is how many may be fed. */
enum {
    CHANBOOK_LIST_ENTRIES = 4096,
    CHANBOOK_JOIN_PLACES = 8192
};

/* E10, two lists of commits joined into one. A list is its slots and its values, each an array and how many numbers it has; they may lie anywhere, but the
   places for the result overlap nothing else that is lent. Refused with 2, 18, 19 or 20, the first of them whose cause holds; then all places are
   unchanged. Otherwise the value is how many entries stand in the first places of both arrays, and the places behind them are unchanged. An empty
   list may have a null pointer. */
struct chanbook_value chanbook_join(
    const uint64_t *a_slots, size_t a_slot_count, const uint64_t *a_values, size_t a_value_count,
    const uint64_t *b_slots, size_t b_slot_count, const uint64_t *b_values, size_t b_value_count,
    uint64_t *slots, size_t slot_places, uint64_t *values, size_t value_places);

/* refusal: 0 and the list is fed, or 1, 17, 2, 18 or 19 and nothing of it is. slot and number: the first entry that was refused and document 02's number, both
   0 where none was. */
struct chanbook_fed {
    uint64_t refusal;
    uint64_t slot;
    uint64_t number;
};

/* E10, a list fed to a register (E6), with the host's entry beside each value: kind, cell, carrier and width as in chanbook_register_entry. Each entry from the
   slot after the last one seen is taken as there, also those behind a refused one; what lies before that slot is not fed. 1 or 17, 2, 18 (more than 8,192
   entries, slots not consecutive, or slices of unequal length) or 19 (it begins past that slot) and nothing fed. The list's arrays may lie anywhere, but
   they overlap none of the register's. An empty list may have null pointers. */
struct chanbook_fed chanbook_feed(
    const uint64_t settings[2], uint64_t cells[512], uint64_t carriers[512], uint64_t widths[512], uint64_t figures[5],
    const uint64_t *slots, size_t slot_count, const uint64_t *values, size_t value_count,
    const uint64_t *kinds, size_t kind_count, const chanbook_cell_number *entry_cells, size_t entry_cell_count,
    const uint64_t *entry_carriers, size_t entry_carrier_count, const uint64_t *entry_widths, size_t entry_width_count);

/* E11, positions. Place i is the position of the cell in place i of a register: given is 0 where there is none, and with any other number x and y, whole metres
   on the national grid, are the position. */
struct chanbook_position {
    uint64_t given;
    int64_t x;
    int64_t y;
};

/* A further kind of entry: the live cell gets the position x, y, each within 2,000,000 either way. */
enum {
    CHANBOOK_POSITION = 3
};

/* No cell has a position: called behind chanbook_register_new and behind chanbook_register_widened, whose cells have none. */
void chanbook_positions_new(struct chanbook_position positions[512]);

/* An entry of a register whose host lends positions too: kinds 1 and 2 as in chanbook_register_entry, and a position, of which x and y are read and carrier and
   width are not: the first of 1 or 17, 2, 64, 21 and 16 whose cause holds, or 0; it adds to no figure. After 21 and 16 the slot is
   seen. An assignment keeps its cell's position, and a release drops it. The positions overlap none of the register's arrays.
   Such a host gives every entry here, or a list by chanbook_placed_feed, and none by chanbook_register_entry or chanbook_feed, which would leave the
   positions where other cells stand.
   settings: 0 and the slot from which widths are in whole MHz (23); 17 in its first place gives 17, any other number 1, and nothing changes. */
uint64_t chanbook_placed_entry(const uint64_t settings[2], uint64_t cells[512], uint64_t carriers[512], uint64_t widths[512], uint64_t figures[5],
                               struct chanbook_position positions[512], uint64_t slot, uint64_t kind, chanbook_cell_number cell, uint64_t carrier,
                               uint64_t width, int64_t x, int64_t y);

/* E10 and E11, a list fed to a register whose host lends positions too: chanbook_feed with two slices more, the x and the y of each entry, which are read where
   it is a position. Each entry is taken as chanbook_placed_entry takes it; slices of unequal length give 18. */
struct chanbook_fed chanbook_placed_feed(
    const uint64_t settings[2], uint64_t cells[512], uint64_t carriers[512], uint64_t widths[512], uint64_t figures[5],
    struct chanbook_position positions[512],
    const uint64_t *slots, size_t slot_count, const uint64_t *values, size_t value_count,
    const uint64_t *kinds, size_t kind_count, const chanbook_cell_number *entry_cells, size_t entry_cell_count,
    const uint64_t *entry_carriers, size_t entry_carrier_count, const uint64_t *entry_widths, size_t entry_width_count,
    const int64_t *entry_xs, size_t entry_x_count, const int64_t *entry_ys, size_t entry_y_count);

/* The numbers of the live cells that overlap the carrier and lie within the distance, 0 to 6,000,000 metres, of x, y, by number, in the first of the lent
   places; the others stay as they are. The places overlap none of the other arrays. A cell without a position is near. The value is how many they are. 1 or 17, 21 or 14, the first of them whose cause
   holds, and then all places stay. */
struct chanbook_value chanbook_conflicts(const uint64_t settings[2], const uint64_t cells[512], const uint64_t carriers[512], const uint64_t widths[512],
                                         const uint64_t figures[5], const struct chanbook_position positions[512], uint64_t carrier, uint64_t width,
                                         int64_t x, int64_t y, uint64_t distance, uint64_t numbers[512]);

/* The lowest carrier number from first to last, both of the range, that conflicts with no cell. 1 or 17, 21, 14 or 22, the first of them whose cause
   holds. */
struct chanbook_value chanbook_first_free(const uint64_t settings[2], const uint64_t cells[512], const uint64_t carriers[512], const uint64_t widths[512],
                                          const uint64_t figures[5], const struct chanbook_position positions[512], uint64_t first, uint64_t last,
                                          uint64_t width, int64_t x, int64_t y, uint64_t distance);

/* E8, dates of the Gregorian calendar in UTC (struct chanbook_date of chanbook_shard.h). refusal: 0 and a date, or 17 and zeros as the date. */
struct chanbook_date_answer {
    uint64_t refusal;
    struct chanbook_date date;
};

/* The minutes from 1970-01-01 00:00 to a date, whatever numbers stand in it, and the date of a minute, however large. 17 where there is none. There and
   back, either way, is where one began. */
struct chanbook_value chanbook_minute_of(struct chanbook_date date);
struct chanbook_date_answer chanbook_date_of(uint64_t minute);

/* E8, change windows. What is kept of the windows of group settings, in three arrays that a host lends: the minutes in which each starts and ends, in the
   first places, and two figures. The arrays do not overlap, and each is as chanbook_windows_new left it. They may stand in one block. */
enum {
    CHANBOOK_WINDOWS = 128,       /* at most so many */
    CHANBOOK_WINDOWS_NUMBER = 0,  /* the places of figures: 0, or the number that every question gives before anything else. Other than 0 and 17 it is read as 1 */
    CHANBOOK_WINDOWS_COUNT = 1,   /* how many windows there are */
    CHANBOOK_WINDOWS_FIGURES = 2  /* how many figures there are */
};

struct chanbook_kept_windows {
    uint64_t starts[128];
    uint64_t ends[128];
    uint64_t figures[2];
};

/* Keeps the windows, and hands back the number of the settings, the same that a shard and a register of them give: 0; 1, of whatever is outside the limits;
   or 17, of a window. It fills the arrays in each case. */
uint64_t chanbook_windows_new(struct chanbook_group_settings group, uint64_t starts[128], uint64_t ends[128], uint64_t figures[2]);

/* answer: 65, 66 or 67, or the number that refuses. minute: with 66 the first minute of the nearest later window, else 0. */
struct chanbook_window_answer {
    uint64_t answer;
    uint64_t minute;
};

/* A minute asked of the windows: the number of their settings, 1 where figures count more than 128; then 17 for a minute past the year 9999, however large; then 65, 66 or 67. It looks at the
   minutes alone, at no date and at no place behind the windows, and copies nothing. */
struct chanbook_window_answer chanbook_windows_ask(const uint64_t starts[128], const uint64_t ends[128], const uint64_t figures[2], uint64_t minute);

#ifdef __cplusplus
}
#endif
#endif
