/* savoiky.h: the calls of Savoiky, for C11 and C++11 on x86-64 Linux. Link with libexports.a, which bindings/staticlib writes.
 * Written by bindings/generate: change crates/exports/src/lib.rt, not this file. */
#ifndef SAVOIKY_H
#define SAVOIKY_H

#include <stdbool.h>
#include <stddef.h>
#include <stdint.h>

#ifdef __cplusplus
#define SAVOIKY_SIZE(type, bytes) static_assert(sizeof(type) == bytes, "size of " #type)
extern "C" {
#else
#define SAVOIKY_SIZE(type, bytes) _Static_assert(sizeof(type) == bytes, "size of " #type)
#endif

/* RULES OF EVERY CALL. A slice is lent as a pointer to its first element and the number of its elements. The pointer is not
 * null and is aligned for its elements, also where the number is 0 (then nothing is read or written through it). The tally is
 * lent as a pointer to the box's record. What is written overlaps nothing else that is lent, and nothing else touches lent
 * memory during the call. A call keeps no pointer, allocates nothing and has no state, so calls on different memory (each with
 * a tally of its own) may run at the same time.
 * A word is a u32 (uint32_t), a distance an f64 (double). Times and durations are seconds, from 0 to 1,048,575. Signed numbers
 * (delays, time_shift_s) are the bits of an i32. Stops, trips, lines and rows are numbered from 0; an offset counts a trip's stop
 * times from 0. A run is two words: its first row and its length; runs may overlap, leave gaps and stand in any order. What is
 * lent only to be written may have any content before the call.
 */

/* CODES. A call answers 0, or the number of the first of its questions that is answered no:
 *   0  none: success
 *  15  Is the screen one of 0 to 63? Every call asks this before all else; where not, nothing is touched, the tally neither.
 *   1  Are all counts within the limits? (4,096 stops, trips, lines, line entries, patterns, delay rows and stop rows; 65,536
 *      stop times, walk edges, departures, windows and transfers; 512 cells; 64 origins; 64 egress stops)
 *  14  Is every setting in its range? Every call asks this, after 1 and before 2.
 *   2  Is every lent slice exactly as long as its counts say? (The transfer area and the queue may have any length; the two
 *      halves of the queue have the same.)
 *   3  Has every trip a stop time, and do all runs lie in their tables? (First + length at most the table's rows.)
 *   4  Is every stop, trip, line and delay-row number below its count, and each departure's offset below its trip's count, with
 *      that stop time at its stop?
 *   5  Is every time and code in its range?
 *   6  Are walk edges, delay rows, stop rows, egress stops and, for a query, departures in order?
 *   7  Building transfers: are there at most 65,536, and does the area hold all of them?
 *   8  Query: does a half of the segment queue hold every round's segments?
 * After a refusal everything lent is as it came, the tally aside, a set that was handed in is handed back, and the other fields of
 * the answer are 0; after 8 the labels, their distances, the workspace and both halves of the queue are zero. What is said below of a
 * call's questions leaves 15 out.
 */

/* TALLY: the box owns one record of the answered and refused calls of each screen, 0 to 63, zero at first, and lends it to every call
 * with the number of the screen that the call is made for. The call adds one to that screen: to answered where its code is 0 ("no way"
 * is answered), else to refused. A count at 4,294,967,295 stays there. A screen above 63 is refused by 15 and counts nowhere. What a
 * call answers does not depend on the tally, and what a screen's tally shows does not depend on the calls of other screens.
 */

/* The box's record: the answered and refused calls of screens 0 to 63. It is lent to every call, which sees its 128 numbers. */
typedef struct SavoikyTally {
    uint32_t answered[64];
    uint32_t refused[64];
} SavoikyTally;
SAVOIKY_SIZE(SavoikyTally, 512);

/* A screen's answered and refused calls (of a screen above 63 none are counted), and the sum over all screens. */
static inline uint32_t savoiky_tally_answered(const SavoikyTally *tally, uint32_t screen) {
    return screen < 64 ? tally->answered[screen] : 0;
}
static inline uint32_t savoiky_tally_refused(const SavoikyTally *tally, uint32_t screen) {
    return screen < 64 ? tally->refused[screen] : 0;
}
static inline uint64_t savoiky_tally_total(const SavoikyTally *tally) {
    uint64_t total = 0;
    for (uint32_t screen = 0; screen < 64; screen++) total += (uint64_t)tally->answered[screen] + tally->refused[screen];
    return total;
}

/* SETTINGS OF THE HOUSE: four numbers that every call receives. Most calls only ask whether they are in their ranges (14). Transfers are
 * built with transfer_time; the margin is cut at margin_cap; a query reads line_scan, candidate_slack and margin_cap. Journeys on a plain
 * day keep their guarantee under every setting where the transfers were built with the transfer_time that the query is asked with.
 */

/* The settings of the house, in seconds but for line_scan: the time of a built transfer (at most 3,600), how many trips of a line are
 * tried for a transfer (1 to 4,096), how much later than the best total a candidate may arrive (at most 21,600), the cap of the delay
 * margin (at most 1,048,575).
 */
typedef struct SavoikySettings {
    uint32_t transfer_time;
    uint32_t line_scan;
    uint32_t candidate_slack;
    uint32_t margin_cap;
} SavoikySettings;
SAVOIKY_SIZE(SavoikySettings, 16);

/* The Rust's own four numbers, for a house that wants no others. */
static const SavoikySettings SAVOIKY_DEFAULT_SETTINGS = {120, 64, 3600, 21600};

/* CELL SETS, the arc flags' patterns: a value of 64 bytes and the count of reserved ones, handed in and handed back. */

typedef struct SavoikyCellBitSet {
    /* cell c is bit c % 8 of byte c / 8 */
    uint8_t bytes[64];
    /* how many of the bytes are reserved, 8 for each group of 64 cells; they come first */
    uint32_t reserved;
} SavoikyCellBitSet;
SAVOIKY_SIZE(SavoikyCellBitSet, 68);

/* What a caller in C reads of a call that gives a set: 0 and the set made, or the number of the first no and the set as it came (of a call that is handed
 * none, an empty one).
 */
typedef struct SavoikyCellSetAnswer {
    uint32_t code;
    SavoikyCellBitSet set;
} SavoikyCellSetAnswer;
SAVOIKY_SIZE(SavoikyCellSetAnswer, 72);

/* An empty set for so many cells: whole groups of 64 are reserved. Question 1: at most 512 cells. */
SavoikyCellSetAnswer savoiky_cell_bitset_new(SavoikyTally *tally, uint32_t screen, SavoikySettings settings, uint32_t num_cells);

/* The set with at least the groups of so many cells reserved; it holds the same cells. Question 1: at most 512 cells; refused, the
 * set is as it came.
 */
SavoikyCellSetAnswer savoiky_cell_bitset_ensure_sized(SavoikyTally *tally, uint32_t screen, SavoikySettings settings,
    SavoikyCellBitSet set, uint32_t num_cells);

/* The set with this cell; a cell past the reserved groups is dropped. Question 14 alone; refused, the set is as it came. */
SavoikyCellSetAnswer savoiky_cell_bitset_set_bit(SavoikyTally *tally, uint32_t screen, SavoikySettings settings,
    SavoikyCellBitSet set, uint32_t cell);

/* An outcome: code 0 with a value, or the number of the first no with value 0. */
typedef struct SavoikyAnswer {
    uint32_t code;
    uint32_t value;
} SavoikyAnswer;
SAVOIKY_SIZE(SavoikyAnswer, 8);

/* Is this cell in the set? The value: 1 for yes, else 0. Question 14 alone. */
SavoikyAnswer savoiky_cell_bitset_get_bit(SavoikyTally *tally, uint32_t screen, SavoikySettings settings, SavoikyCellBitSet set,
    uint32_t cell);

/* Have the sets a cell in common? The value: 1 for yes, else 0. Question 14 alone. */
SavoikyAnswer savoiky_cell_bitset_intersects(SavoikyTally *tally, uint32_t screen, SavoikySettings settings,
    SavoikyCellBitSet set, SavoikyCellBitSet other);

/* The set with the cells of the other, and room for them. Question 14 alone; refused, the set is as it came. */
SavoikyCellSetAnswer savoiky_cell_bitset_union_with(SavoikyTally *tally, uint32_t screen, SavoikySettings settings,
    SavoikyCellBitSet set, SavoikyCellBitSet other);

/* Does the set hold no cell? The value: 1 for yes, else 0. Question 14 alone. */
SavoikyAnswer savoiky_cell_bitset_is_empty(SavoikyTally *tally, uint32_t screen, SavoikySettings settings,
    SavoikyCellBitSet set);

/* WALKS AND ROUNDS, FREQUENCY TRIPS, DELAYS, CLOCK READINGS: the leaves of a query, for a caller's own reckoning. */

/* How long a walk takes: for a wheelchair query (1) stairs and escalators (pathway modes 2 and 4) take 100 times as long.
 * Question 5: duration at most 1,048,575, pathway mode at most 7, wheelchair at most 1.
 */
SavoikyAnswer savoiky_walk_duration(SavoikyTally *tally, uint32_t screen, SavoikySettings settings, uint32_t duration,
    uint32_t pathway_mode, uint32_t wheelchair);

/* The rounds of a query: min(12, max(wanted, transfers + 2, 4)). Any numbers; question 14 alone. */
SavoikyAnswer savoiky_max_rounds(SavoikyTally *tally, uint32_t screen, SavoikySettings settings, uint32_t wanted,
    uint32_t transfers);

/* What the entry answers: the code; then found 1 with the boarding's numbers, or found 0 and zeros. The window is numbered from 0; the run's
 * number is n, the whole headways from the window's start to it; quotient and remainder are those of need by the headway.
 */
typedef struct SavoikyFreqAnswer {
    uint32_t code;
    uint32_t found;
    uint32_t departure;
    uint32_t time_shift_s;
    uint32_t window;
    uint32_t run;
    uint32_t quotient;
    uint32_t remainder;
    uint32_t wait;
} SavoikyFreqAnswer;
SAVOIKY_SIZE(SavoikyFreqAnswer, 36);

/* The earliest run of a frequency trip that leaves here no sooner than `after`: `count` windows of three words each (start,
 * end, headway), the departure of the trip's first stop time (base), its departure here (dep). Runs leave the first stop at
 * start, start + headway and so on, before end. Found 0: none, and zeros. Else its departure here, its time_shift_s, its window (from
 * 0), its run (n, the whole headways from the window's start to it) and the wait from `after` to its departure. Where need = after -
 * (dep - base) - start is above zero, quotient and remainder are need's by the headway, else 0. Of windows with the same departure the
 * first counts. Questions 1 (at most 65,536 windows), 2 (three words for each), 5 (every number at most 1,048,575).
 */
SavoikyFreqAnswer savoiky_freq_board(SavoikyTally *tally, uint32_t screen, SavoikySettings settings, uint32_t count,
    const uint32_t *windows, size_t windows_len, uint32_t base, uint32_t dep, uint32_t after);

/* The departure under delays: flags 1 departure given at the stop, 2 arrival given, 4 skipped, added. By its own delay where
 * one is given, else by the trip's; at least 0. Question 5: times and sizes of delays at most 1,048,575, flags at most 7.
 */
SavoikyAnswer savoiky_effective_departure(SavoikyTally *tally, uint32_t screen, SavoikySettings settings, uint32_t departure,
    uint32_t trip_delay, uint32_t flags, uint32_t departure_delay);

/* The arrival under delays: where the stop has either time given, by its own delay, else the trip's, and no shift; where not,
 * by the shift alone; at least 0. Question 5, as above.
 */
SavoikyAnswer savoiky_effective_arrival(SavoikyTally *tally, uint32_t screen, SavoikySettings settings, uint32_t arrival,
    uint32_t time_shift_s, uint32_t trip_delay, uint32_t flags, uint32_t arrival_delay);

/* 1 where the flags say skipped, else 0. Question 5: flags at most 7. */
SavoikyAnswer savoiky_skipped(SavoikyTally *tally, uint32_t screen, SavoikySettings settings, uint32_t flags);

/* The delay margin: the largest size among trip delays and given stop delays, at most margin_cap. Delay rows of two words (trip,
 * delay), the trips strictly rising; 4,294,967,295 is an unknown trip, which may repeat at the end. Stop rows of five (delay row,
 * sequence, flags as above, departure delay, arrival delay), strictly rising by delay row, then sequence. Questions 1, 2, 4, 5, 6.
 */
SavoikyAnswer savoiky_margin(SavoikyTally *tally, uint32_t screen, SavoikySettings settings, uint32_t trips,
    uint32_t delay_row_count, uint32_t stop_row_count, const uint32_t *delay_rows, size_t delay_rows_len,
    const uint32_t *stop_rows, size_t stop_rows_len);

/* What a caller in C reads of `delay_at`: code 0, and known 1 where the trip has a delay row; or the number of the first no, the rest 0. */
typedef struct SavoikyDelayAt {
    uint32_t code;
    uint32_t known;
    uint32_t trip_delay;
    uint32_t flags;
    uint32_t departure_delay;
    uint32_t arrival_delay;
} SavoikyDelayAt;
SAVOIKY_SIZE(SavoikyDelayAt, 24);

/* What the delay tables say of the stop time of a trip with this sequence number: known 1 where the trip has a delay row. The
 * same questions, and 4 for a trip not below the count.
 */
SavoikyDelayAt savoiky_delay_at(SavoikyTally *tally, uint32_t screen, SavoikySettings settings, uint32_t trips,
    uint32_t delay_row_count, uint32_t stop_row_count, const uint32_t *delay_rows, size_t delay_rows_len,
    const uint32_t *stop_rows, size_t stop_rows_len, uint32_t trip, uint32_t sequence);

/* The service second of a clock reading: 3600 hour + 60 minute + second. Question 5: hour at most 47, minute and second at
 * most 59.
 */
SavoikyAnswer savoiky_service_second(SavoikyTally *tally, uint32_t screen, SavoikySettings settings, uint32_t hour,
    uint32_t minute, uint32_t second);

/* LABELS: when and how a stop was reached in a round. A stop has 13 rows: row 0 is its access walk, round k writes row k + 1. The
 * label of stop s, row r is record 13 s + r: eight words from 8 (13 s + r) on in `labels` and one f64 at 13 s + r in
 * `label_distances`. So `labels` has 104 words a stop and `label_distances` 13. The words, unused ones 0, an unused distance 0.0:
 *   0 empty
 *   1 Access: stop_idx, arrival_s, walk_duration; the distance is the origin's
 *   2 Transit: arrival_s, trip_idx, board_stop, board_off, alight_off, prev_round, time_shift_s
 *   3 Walk: arrival_s, from_stop, to_stop, duration_s, prev_round; the distance is the walk edge's
 * A ride leads back to its board_stop, a walk to its from_stop: there to the highest row that is not empty and not above the
 * label's own (a round sees its own gains). Compare the times all the same: a walk begins its duration before it arrives, a
 * ride when it departs (its stop time's effective departure, a frequency trip's plus time_shift_s), in a row above 1 the change
 * time before. Where one begins before the label that it leads back to arrives, or a ride ends before it departs (times that
 * fall, times given for single stops, arc flags), show the total without legs.
 * These calls ask questions 1 (stops), 2, 4 (the stop; storing, the stop numbers in the label too: stop_idx, board_stop, from_stop,
 * to_stop) and 5 (the row at most 12; reading, a kind at most 3). A label's times, durations, shift and other numbers may be any:
 * they are results.
 */

/* Stores an Access label. Question 4: stop and stop_idx below the count of stops. */
uint32_t savoiky_label_store_access(SavoikyTally *tally, uint32_t screen, SavoikySettings settings, uint32_t stops, uint32_t stop,
    uint32_t row, uint32_t stop_idx, uint32_t arrival_s, uint32_t walk_duration, double walk_distance, uint32_t *labels,
    size_t labels_len, double *label_distances, size_t label_distances_len);

/* Stores a Transit label. Question 4: stop and board_stop below the count of stops. */
uint32_t savoiky_label_store_transit(SavoikyTally *tally, uint32_t screen, SavoikySettings settings, uint32_t stops,
    uint32_t stop, uint32_t row, uint32_t arrival_s, uint32_t trip_idx, uint32_t board_stop, uint32_t board_off,
    uint32_t alight_off, uint32_t prev_round, uint32_t time_shift_s, uint32_t *labels, size_t labels_len, double *label_distances,
    size_t label_distances_len);

/* Stores a Walk label. Question 4: stop, from_stop and to_stop below the count of stops. */
uint32_t savoiky_label_store_walk(SavoikyTally *tally, uint32_t screen, SavoikySettings settings, uint32_t stops, uint32_t stop,
    uint32_t row, uint32_t arrival_s, uint32_t from_stop, uint32_t to_stop, uint32_t duration_s, double distance_m,
    uint32_t prev_round, uint32_t *labels, size_t labels_len, double *label_distances, size_t label_distances_len);

/* A label as the tables hold it: the kind, its fields in their order, unused ones 0, and the distance. */
typedef struct SavoikyLabelRow {
    uint32_t kind;
    uint32_t word1;
    uint32_t word2;
    uint32_t word3;
    uint32_t word4;
    uint32_t word5;
    uint32_t word6;
    uint32_t word7;
    double distance;
} SavoikyLabelRow;
SAVOIKY_SIZE(SavoikyLabelRow, 40);

/* What a caller in C reads of `load`: code 0 with the row, or the number of the first no with an empty row. */
typedef struct SavoikyLabelAnswer {
    uint32_t code;
    SavoikyLabelRow row;
} SavoikyLabelAnswer;
SAVOIKY_SIZE(SavoikyLabelAnswer, 48);

/* Reads a label. Question 4: stop below the count of stops; the label's own numbers are given as they stand. */
SavoikyLabelAnswer savoiky_label_load(SavoikyTally *tally, uint32_t screen, SavoikySettings settings, uint32_t stops,
    uint32_t stop, uint32_t row, const uint32_t *labels, size_t labels_len, const double *label_distances,
    size_t label_distances_len);

/* THE TIMETABLE, `tables`, is one slice of 6 times + 8 trips + 3 windows + 5 edges + stops words, in this order:
 *   stop times, six words: stop, arrival, departure, sequence (any number), pickup, drop-off (0 to 3; only 1 bars)
 *   trips, eight words: first stop time, count (at least 1), mode (0 tram, 1 metro, 2 rail, 3 bus, 4 ferry, 5 coach, 6 other),
 *     wheelchair (0 to 2; 2 bars a wheelchair query), first window, window count, active (0 or 1), excluded (0 or 1)
 *   windows, three words: start, end, headway; runs of a trip with windows leave at start, start + headway, .. before end
 *   walk edges, five words, by rising from-stop: from, to, duration, pathway mode (0 none, 1 walkway, 2 stairs, 3 moving
 *     sidewalk, 4 escalator, 5 elevator, 6 fare gate, 7 exit gate), pattern (any number; 0 where there are none)
 *   stops, a word each: the cell (any number; 0 where there are none)
 * A trip is boarded only where the caller lists its departure: rows of two words (trip, offset), and for each stop the run of its
 * rows (so 2 departures and 2 stops words). Its last stop is not listed, as a rule.
 * The building calls: lines, then departure sorting, then transfers; a query finds positions and FIFO flags by itself. The bytes
 * active and excluded may change from query to query: nothing built depends on them.
 */

/* Sorts each stop's listed departures by scheduled departure, in place and stably, and sets the stops' marks (one word a stop: 1
 * where a trip with windows is listed). runs: of the stops; rows: the departures. work, other: `departures` u64 each, zero
 * afterwards. Questions 1 to 6; 6 is of the walk edges alone, the departures may come in any order.
 */
uint32_t savoiky_sort_stop_departures(SavoikyTally *tally, uint32_t screen, SavoikySettings settings, uint32_t stops,
    uint32_t trips, uint32_t times, uint32_t windows, uint32_t edges, uint32_t departures, const uint32_t *tables,
    size_t tables_len, const uint32_t *runs, size_t runs_len, uint32_t *rows, size_t rows_len, uint32_t *marks, size_t marks_len,
    uint64_t *work, size_t work_len, uint64_t *other, size_t other_len);

/* Groups the trips into lines: trips with the same stops in the same order, by first departure. The value says how many lines.
 * lines: each trip's line; runs: each line's run of entries, space for as many lines as trips (2 trips words; those past the lines
 * keep their content); entries: trip numbers, as many as trips. work, other: `trips` u64 each, zero afterwards. Questions 1 to 6.
 */
SavoikyAnswer savoiky_compute_line_groups(SavoikyTally *tally, uint32_t screen, SavoikySettings settings, uint32_t stops,
    uint32_t trips, uint32_t times, uint32_t windows, uint32_t edges, const uint32_t *tables, size_t tables_len, uint32_t *lines,
    size_t lines_len, uint32_t *runs, size_t runs_len, uint32_t *entries, size_t entries_len, uint64_t *work, size_t work_len,
    uint64_t *other, size_t other_len);

/* Each trip's position in its line (4,294,967,295: in none) and each line's FIFO flag (1: no trip overtakes another), of any
 * lines. runs: each line's run of entries (2 lines words); entries: `entry_count` trip numbers; positions: a word a trip; fifo: a
 * word a line. Questions 1 to 6. No query needs this call.
 */
uint32_t savoiky_line_layout(SavoikyTally *tally, uint32_t screen, SavoikySettings settings, uint32_t stops, uint32_t trips,
    uint32_t times, uint32_t windows, uint32_t edges, uint32_t lines, uint32_t entry_count, const uint32_t *tables,
    size_t tables_len, const uint32_t *runs, size_t runs_len, const uint32_t *entries, size_t entries_len, uint32_t *positions,
    size_t positions_len, uint32_t *fifo, size_t fifo_len);

/* Builds the transfers of every stop event (each stop time of each trip, trip by trip). The value says how many.
 * lines: each trip's line, of `line_count` lines; runs and rows: the listed departures, in any order. area: rows of four words
 * (target trip, offset, transfer_time, pattern 0), space for any number of them; it keeps its content past the last one written.
 * transfer_runs: a run for each event, so 2 words for each stop time of each trip. Questions 1 to 7. The call needs about 1 MiB
 * of stack.
 */
SavoikyAnswer savoiky_compute_trip_transfers(SavoikyTally *tally, uint32_t screen, SavoikySettings settings, uint32_t stops,
    uint32_t trips, uint32_t times, uint32_t windows, uint32_t edges, uint32_t line_count, uint32_t departures,
    const uint32_t *tables, size_t tables_len, const uint32_t *lines, size_t lines_len, const uint32_t *runs, size_t runs_len,
    const uint32_t *rows, size_t rows_len, uint32_t *area, size_t area_len, uint32_t *transfer_runs, size_t transfer_runs_len);

/* The counts of a query: entries are line entries, delays the delay rows, egress the egress stops. */
typedef struct SavoikyQuerySizes {
    uint32_t trips;
    uint32_t windows;
    uint32_t times;
    uint32_t edges;
    uint32_t stops;
    uint32_t cells;
    uint32_t patterns;
    uint32_t lines;
    uint32_t entries;
    uint32_t transfers;
    uint32_t departures;
    uint32_t delays;
    uint32_t stop_rows;
    uint32_t origins;
    uint32_t egress;
} SavoikyQuerySizes;
SAVOIKY_SIZE(SavoikyQuerySizes, 60);

/* How many words of workspace a query needs: 5 stops + 8 trips + 3 lines + 128. Question 1. */
SavoikyAnswer savoiky_work_size(SavoikyTally *tally, uint32_t screen, SavoikySettings settings, SavoikyQuerySizes sizes);

/* A QUERY. Lent to be read:
 *   tables: the timetable
 *   built: what the building calls wrote, one after the other: each trip's line (a word a trip), the lines' runs (2 a line), the
 *     entries (a word each), the stops' runs (2 a stop), the departures (2 each), the marks (a word a stop), the transfer runs (2
 *     for each stop time of each trip)
 *   transfers: the transfer area, any length; the first `transfers` rows of four words count
 *   patterns: 64 bytes each; cell c is bit c % 8 of byte c / 8. While arc flags are in use, a walk edge or transfer is skipped
 *     whose pattern holds no cell of an egress stop; a pattern number past the table counts as holding all
 *   distances: of the walk edges, then of the origins; any bits, carried into the labels
 *   query: seven words, start, change time, wanted rounds (any), transfers (any), modes (bit m: mode m is wanted; 0: all),
 *     wheelchair (0 or 1), switch (1 puts arc flags off); then origins (stop, duration); egress stops (stop, duration), strictly
 *     rising by stop; delay rows (2 words) and stop rows (5 words), as for the margin
 * Lent to be written, of any content before:
 *   labels: 104 words a stop; label_distances: 13 a stop; the labels of the answer, all 13 rows
 *   work: as many words as savoiky_work_size says; zero afterwards
 *   queue_a, queue_b: two halves of the segment queue, four words a segment, of one length; zero afterwards. As many rows as the
 *     trips have stop times together are always enough without frequency trips; with no arc flags in use none is needed
 *   candidates: 39 words, 13 rows (total, stop, row), of which the answer says how many; the rest are zero. Rows rise and totals
 *     fall: the last one's total is the best, an earlier one arrives later, by at most candidate_slack, in fewer rounds
 * The answer: the best total (when the guest arrives, egress walk included) and its stop. "No way" is success: code 0, total and
 * stop 4,294,967,295, no candidates. Questions 1 to 6, and 8.
 */

/* What a call gives back: the number of the first question answered no, or 0; the best total and its stop; how many candidates. */
typedef struct SavoikyReply {
    uint32_t code;
    uint32_t total;
    uint32_t stop;
    uint32_t candidates;
} SavoikyReply;
SAVOIKY_SIZE(SavoikyReply, 16);

/* As the Rust answers: run_tbr. */
SavoikyReply savoiky_run_tbr(SavoikyTally *tally, uint32_t screen, SavoikySettings settings, SavoikyQuerySizes sizes,
    const uint32_t *tables, size_t tables_len, const uint32_t *built, size_t built_len, const uint32_t *transfers,
    size_t transfers_len, const uint8_t *patterns, size_t patterns_len, const double *distances, size_t distances_len,
    const uint32_t *query, size_t query_len, uint32_t *labels, size_t labels_len, double *label_distances,
    size_t label_distances_len, uint32_t *work, size_t work_len, uint32_t *queue_a, size_t queue_a_len, uint32_t *queue_b,
    size_t queue_b_len, uint32_t *candidates, size_t candidates_len);

/* What a board asks: run_tbr with arc flags put off where they would skip nothing. On a plain day no journey beats its answer; on a steady day,
 * which has delays (docs/PROMISE.md), none does by effective times.
 */
SavoikyReply savoiky_query(SavoikyTally *tally, uint32_t screen, SavoikySettings settings, SavoikyQuerySizes sizes,
    const uint32_t *tables, size_t tables_len, const uint32_t *built, size_t built_len, const uint32_t *transfers,
    size_t transfers_len, const uint8_t *patterns, size_t patterns_len, const double *distances, size_t distances_len,
    const uint32_t *query, size_t query_len, uint32_t *labels, size_t labels_len, double *label_distances,
    size_t label_distances_len, uint32_t *work, size_t work_len, uint32_t *queue_a, size_t queue_a_len, uint32_t *queue_b,
    size_t queue_b_len, uint32_t *candidates, size_t candidates_len);

#ifdef __cplusplus
}
#endif

#undef SAVOIKY_SIZE
#endif
