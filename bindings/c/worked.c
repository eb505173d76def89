/* worked.c: Timetable K of document 01 and a second one, laid out, built, asked and answered in words; Timetable K under other
   settings; the waiting for a frequent bus; and what the box's tally shows then. An example to copy from; savoiky.h has the layouts. */
#include <stdbool.h>
#include <stdio.h>
#include <stdlib.h>
#include <string.h>

#include "savoiky.h"

#define LENGTH(array) (sizeof(array) / sizeof((array)[0]))

/* room for the larger of the timetables */
enum { STOPS = 4, TRIPS = 4, TIMES = 8, DEPARTURES = 5 };
enum { EVENTS = TIMES };  /* each stop time belongs to one trip */
enum { AREA_ROWS = 16 };  /* space for so many transfers */
enum { SEGMENTS = EVENTS }; /* in a half of the queue: enough without frequency trips */
enum { MOST_LEGS = 27 };  /* of a card: an access walk and 26 more */
static const uint32_t NEVER = UINT32_MAX;

/* the box's record of the calls of all its screens, zero at first; every call is lent it, and the number of its screen */
static SavoikyTally tally;
enum { SCREENS = LENGTH(tally.answered) };

typedef struct {
    /* the counts; those of lines, entries and transfers are known when it is built */
    SavoikyQuerySizes sizes;
    uint32_t tables[6 * TIMES + 8 * TRIPS + STOPS];
    /* where trips may be boarded: rows of trip and offset, and each stop's run of them; no row for a trip's last stop */
    uint32_t stop_runs[2 * STOPS];
    uint32_t departures[2 * DEPARTURES];
    /* what the building calls write, for the queries: one part after the other */
    uint32_t built[TRIPS + 2 * TRIPS + TRIPS + 2 * STOPS + 2 * DEPARTURES + STOPS + 2 * EVENTS];
    size_t built_len;
    uint32_t area[4 * AREA_ROWS];
} Timetable;

static Timetable timetable_k = {
    .sizes = {.stops = 3, .trips = 3, .times = 8, .departures = 5, .origins = 1, .egress = 1},
    .tables = {
        /* stop times: stop, arrival, departure, sequence, pickup, drop-off */
        0, 100, 100, 1, 0, 0,
        1, 200, 210, 2, 0, 0,
        2, 400, 400, 3, 0, 0,
        0, 160, 160, 1, 0, 0,
        1, 260, 270, 2, 0, 0,
        2, 460, 460, 3, 0, 0,
        1, 320, 320, 1, 0, 0,
        2, 380, 380, 2, 0, 0,
        /* trips: first stop time, count, mode, wheelchair, first window, window count, active, excluded */
        0, 3, 0, 0, 0, 0, 1, 0,
        3, 3, 0, 0, 0, 0, 1, 0,
        6, 2, 0, 0, 0, 0, 1, 0,
        /* no windows, no walk edges; the stops' cells */
        0, 0, 0,
    },
    .stop_runs = {0, 2, 2, 3, 5, 0},
    .departures = {0, 0, 1, 0, 0, 1, 1, 1, 2, 0},
};

/* In the second round trip 2 brings the guest to stop 2 sooner than trip 1 does in the first, and trip 3 is boarded there in the same round. */
static Timetable second = {
    .sizes = {.stops = 4, .trips = 4, .times = 8, .departures = 4, .origins = 1, .egress = 1},
    .tables = {
        0, 100, 100, 1, 0, 0,
        1, 200, 200, 2, 0, 0,
        0, 1000, 1000, 1, 0, 0,
        2, 2000, 2000, 2, 0, 0,
        1, 400, 400, 1, 0, 0,
        2, 500, 500, 2, 0, 0,
        2, 700, 700, 1, 0, 0,
        3, 800, 800, 2, 0, 0,
        0, 2, 0, 0, 0, 0, 1, 0,
        2, 2, 0, 0, 0, 0, 1, 0,
        4, 2, 0, 0, 0, 0, 1, 0,
        6, 2, 0, 0, 0, 0, 1, 0,
        0, 0, 0, 0,
    },
    .stop_runs = {0, 2, 2, 1, 3, 1, 4, 0},
    .departures = {0, 0, 1, 0, 2, 0, 3, 0},
};

static void check(const char *call, uint32_t code) {
    if (code == 0) return;
    fprintf(stderr, "%s: refused by question %u\n", call, (unsigned)code);
    exit(1);
}

static size_t tables_len(SavoikyQuerySizes n) {
    return 6 * n.times + 8 * n.trips + n.stops;
}

static void append(Timetable *t, const uint32_t *words, size_t count) {
    memcpy(t->built + t->built_len, words, count * sizeof *words);
    t->built_len += count;
}

static void print_lines(uint32_t lines, const uint32_t *runs, const uint32_t *entries, const uint32_t *fifo) {
    for (uint32_t l = 0; l < lines; l++) {
        printf("  line %u: trips", (unsigned)l);
        for (uint32_t k = 0; k < runs[2 * l + 1]; k++) printf(" %u", (unsigned)entries[runs[2 * l] + k]);
        printf(fifo[l] ? ", FIFO\n" : ", not FIFO\n");
    }
}

static void print_transfers(const Timetable *t, const uint32_t *runs) {
    if (t->sizes.transfers == 0) printf("  no transfer\n");
    for (uint32_t e = 0; e < t->sizes.times; e++)
        for (uint32_t k = 0; k < runs[2 * e + 1]; k++) {
            const uint32_t *row = t->area + 4 * (runs[2 * e] + k);
            printf("  transfer from stop time %u to trip %u at its offset %u\n", (unsigned)e, (unsigned)row[0], (unsigned)row[1]);
        }
}

/* the lines, each trip's position and each line's FIFO flag */
static void build_lines(uint32_t screen, SavoikySettings settings, Timetable *t, uint32_t *lines) {
    SavoikyQuerySizes n = t->sizes;
    uint32_t runs[2 * TRIPS], entries[TRIPS], positions[TRIPS], fifo[TRIPS];
    uint64_t work[TRIPS], other[TRIPS];
    SavoikyAnswer grouped = savoiky_compute_line_groups(&tally, screen, settings, n.stops, n.trips, n.times, 0, 0, t->tables,
        tables_len(n), lines, n.trips, runs, 2 * n.trips, entries, n.trips, work, n.trips, other, n.trips);
    check("compute_line_groups", grouped.code);
    uint32_t count = grouped.value;
    check("line_layout", savoiky_line_layout(&tally, screen, settings, n.stops, n.trips, n.times, 0, 0, count, n.trips, t->tables,
        tables_len(n), runs, 2 * count, entries, n.trips, positions, n.trips, fifo, count));
    print_lines(count, runs, entries, fifo);
    append(t, lines, n.trips);
    append(t, runs, 2 * count);
    append(t, entries, n.trips);
    t->sizes.lines = count;
    t->sizes.entries = n.trips;
}

static void sort_departures(uint32_t screen, SavoikySettings settings, Timetable *t) {
    SavoikyQuerySizes n = t->sizes;
    uint32_t marks[STOPS];
    uint64_t work[DEPARTURES], other[DEPARTURES];
    check("sort_stop_departures", savoiky_sort_stop_departures(&tally, screen, settings, n.stops, n.trips, n.times, 0, 0,
        n.departures, t->tables, tables_len(n), t->stop_runs, 2 * n.stops, t->departures, 2 * n.departures, marks, n.stops, work,
        n.departures, other, n.departures));
    append(t, t->stop_runs, 2 * n.stops);
    append(t, t->departures, 2 * n.departures);
    append(t, marks, n.stops);
}

static void build_transfers(uint32_t screen, SavoikySettings settings, Timetable *t, const uint32_t *lines) {
    SavoikyQuerySizes n = t->sizes;
    uint32_t runs[2 * EVENTS];
    SavoikyAnswer made = savoiky_compute_trip_transfers(&tally, screen, settings, n.stops, n.trips, n.times, 0, 0, n.lines,
        n.departures, t->tables, tables_len(n), lines, n.trips, t->stop_runs, 2 * n.stops, t->departures, 2 * n.departures,
        t->area, LENGTH(t->area), runs, 2 * n.times);
    check("compute_trip_transfers", made.code);
    t->sizes.transfers = made.value;
    print_transfers(t, runs);
    append(t, runs, 2 * n.times);
}

static void build(uint32_t screen, SavoikySettings settings, Timetable *t) {
    uint32_t lines[TRIPS];
    build_lines(screen, settings, t, lines);
    sort_departures(screen, settings, t);
    build_transfers(screen, settings, t, lines);
}

/* a query that was answered: its screen and settings, what it was lent to read, and its labels */
typedef struct {
    uint32_t screen;
    SavoikySettings settings;
    SavoikyQuerySizes sizes;
    const uint32_t *tables, *query, *labels;
    const double *distances;
} Asked;

/* a leg of a card: the label of a stop in a row */
typedef struct {
    uint32_t stop, row;
    SavoikyLabelRow label;
} Leg;

/* the label of a stop in the highest row not above this one that is not empty */
static Leg leg_at(const Asked *q, uint32_t stop, uint32_t row) {
    for (;; row--) {
        SavoikyLabelAnswer a = savoiky_label_load(&tally, q->screen, q->settings, q->sizes.stops, stop, row, q->labels,
            104 * q->sizes.stops, q->distances, 13 * q->sizes.stops);
        check("label_load", a.code);
        if (a.row.kind != 0 || row == 0) return (Leg){stop, row, a.row};
    }
}

static uint32_t arrival(SavoikyLabelRow l) {
    return l.kind == 1 ? l.word2 : l.word1;
}

/* when a ride leaves: the departure of its stop time under the delays that the query was lent; a frequency trip's moved by its shift */
static uint32_t departure(const Asked *q, SavoikyLabelRow ride) {
    SavoikyQuerySizes n = q->sizes;
    const uint32_t *trip = q->tables + 6 * n.times + 8 * ride.word2, *time = q->tables + 6 * (trip[0] + ride.word4);
    const uint32_t *delays = q->query + 7 + 2 * n.origins + 2 * n.egress, *stop_rows = delays + 2 * n.delays;
    SavoikyDelayAt d = savoiky_delay_at(&tally, q->screen, q->settings, n.trips, n.delays, n.stop_rows, delays, 2 * n.delays,
        stop_rows, 5 * n.stop_rows, ride.word2, time[3]);
    check("delay_at", d.code);
    SavoikyAnswer a = savoiky_effective_departure(&tally, q->screen, q->settings, time[2], d.trip_delay, d.flags,
        d.departure_delay);
    check("effective_departure", a.code);
    return trip[5] == 0 ? a.value : a.value + ride.word7;
}

/* Does a leg begin no sooner than the one before it ends? A walk begins its duration before it arrives; a ride when it leaves, in a row above 1 (a
   round above 0) the change time before. And does a ride not end before it leaves? */
static bool joins(const Asked *q, Leg before, Leg leg) {
    SavoikyLabelRow l = leg.label;
    uint32_t reached = arrival(before.label);
    if (l.kind == 3) return reached + l.word4 <= l.word1;
    uint32_t leaves = departure(q, l), change = leg.row > 1 ? q->query[1] : 0;
    return reached + change <= leaves && leaves <= l.word1;
}

/* The legs to a stop in a row, the last one first: each label leads back to the stop where its ride was boarded or its walk began, and there to the
   highest row not above its own. How many; 0 where two do not join, or none of them is an access walk: then there is no card. */
static int follow(const Asked *q, uint32_t stop, uint32_t row, Leg *legs) {
    legs[0] = leg_at(q, stop, row);
    for (int n = 1;; n++) {
        Leg leg = legs[n - 1];
        if (leg.label.kind == 1) return n;
        if (leg.label.kind == 0 || n == MOST_LEGS) return 0;
        legs[n] = leg_at(q, leg.label.kind == 2 ? leg.label.word3 : leg.label.word2, leg.row);
        if (!joins(q, legs[n], leg)) return 0;
    }
}

static void print_leg(Leg leg) {
    SavoikyLabelRow l = leg.label;
    if (l.kind == 1) printf("walk %u s to stop %u", (unsigned)l.word3, (unsigned)leg.stop);
    if (l.kind == 2)
        printf("; trip %u from stop %u to stop %u, arriving %u", (unsigned)l.word2, (unsigned)l.word3, (unsigned)leg.stop, (unsigned)l.word1);
    if (l.kind == 3) printf("; walk %u s to stop %u", (unsigned)l.word4, (unsigned)leg.stop);
}

/* a candidate's total, and its card where it has one */
static void print_candidate(const Asked *q, uint32_t total, uint32_t stop, uint32_t row) {
    Leg legs[MOST_LEGS];
    int count = follow(q, stop, row, legs);
    printf("  %u in row %u: ", (unsigned)total, (unsigned)row);
    if (count == 0) {
        printf("no card\n");
        return;
    }
    for (int n = count; n > 0; n--) print_leg(legs[n - 1]);
    printf("; walk %u s\n", (unsigned)(total - arrival(legs[0].label)));
}

static void print_answer(const Asked *q, SavoikyReply r, const uint32_t *candidates) {
    if (r.total == NEVER) {
        printf("  no way\n");
        return;
    }
    printf("  best %u at stop %u\n", (unsigned)r.total, (unsigned)r.stop);
    for (uint32_t k = 0; k < r.candidates; k++) print_candidate(q, candidates[3 * k], candidates[3 * k + 1], candidates[3 * k + 2]);
}

/* asks: from stop 0, 10 s away, to 5 s beyond another stop */
static void ask(uint32_t screen, SavoikySettings settings, const Timetable *t, uint32_t start, uint32_t change, uint32_t to) {
    SavoikyQuerySizes n = t->sizes;
    const uint32_t query[] = {start, change, 0, 0, 0, 0, 0, /* origin */ 0, 10, /* egress */ to, 5};
    const double distances[] = {12.5}; /* of the origin */
    const uint8_t none = 0; /* no patterns: a pointer all the same */
    uint32_t labels[104 * STOPS], queue_a[4 * SEGMENTS], queue_b[4 * SEGMENTS], candidates[39];
    double label_distances[13 * STOPS];
    SavoikyAnswer size = savoiky_work_size(&tally, screen, settings, n);
    check("work_size", size.code);
    uint32_t *work = malloc(size.value * sizeof *work);
    if (work == NULL) abort();
    printf("start %u, change time %u\n", (unsigned)start, (unsigned)change);
    SavoikyReply r = savoiky_query(&tally, screen, settings, n, t->tables, tables_len(n), t->built, t->built_len, t->area,
        LENGTH(t->area), &none, 0, distances, LENGTH(distances), query, LENGTH(query), labels, 104 * n.stops, label_distances,
        13 * n.stops, work, size.value, queue_a, LENGTH(queue_a), queue_b, LENGTH(queue_b), candidates, LENGTH(candidates));
    check("query", r.code);
    print_answer(&(Asked){screen, settings, n, t->tables, query, labels, label_distances}, r, candidates);
    free(work);
}

/* Begins a part of this program: says which screen its calls are for and what it is about, and gives the screen. */
static uint32_t part(uint32_t screen, const char *title) {
    printf("Screen %u: %s\n", (unsigned)screen, title);
    return screen;
}

static void print_code(uint32_t code) {
    if (code == 0) printf("admitted");
    else printf("refused by question %u", (unsigned)code);
}

/* Are these settings admitted? Every call asks it; this one asks nothing else, the screen aside. */
static void print_settings(uint32_t screen, SavoikySettings settings) {
    printf("  ");
    print_code(savoiky_max_rounds(&tally, screen, settings, 0, 0).code);
    printf("\n");
}

/* Timetable K under other settings: trip 2 leaves stop 1 just 120 s after trip 0 arrives there */
static void other_settings(Timetable slow, const Timetable *built) {
    SavoikySettings settings = SAVOIKY_DEFAULT_SETTINGS;
    uint32_t screen = part(3, "Timetable K, transfer time 121");
    settings.transfer_time = 121;
    build(screen, settings, &slow);
    screen = part(4, "Timetable K, candidate slack 0");
    settings = SAVOIKY_DEFAULT_SETTINGS;
    settings.candidate_slack = 0;
    ask(screen, settings, built, 90, 120, 2);
    screen = part(5, "Transfer times 3600 and 3601");
    settings.transfer_time = 3600;
    print_settings(screen, settings);
    settings.transfer_time = 3601;
    print_settings(screen, settings);
}

/* The waiting for the next run of a frequency trip, which leaves its first stop at 600 and this one at 660: the headway in minutes where it is whole
   minutes, the wait in minutes rounded up. */
static void print_waiting(uint32_t screen, uint32_t wanted) {
    const uint32_t windows[] = {/* start, end, headway */ 600, 7200, 600, 7200, 12600, 1800};
    SavoikyFreqAnswer b = savoiky_freq_board(&tally, screen, SAVOIKY_DEFAULT_SETTINGS, LENGTH(windows) / 3, windows, LENGTH(windows), 600,
        660, wanted);
    check("freq_board", b.code);
    printf("  at %u: ", (unsigned)wanted);
    if (b.found == 0) {
        printf("no run\n");
        return;
    }
    unsigned headway = windows[3 * b.window + 2], minutes = b.wait / 60 + (b.wait % 60 != 0);
    if (headway % 60 == 0)
        printf("every %u minutes, %u to wait\n", headway / 60, minutes);
    else
        printf("every %u seconds, %u minutes to wait\n", headway, minutes);
    printf("    window %u, run %u, departure %u, shift %d, quotient %u, remainder %u, wait %u s\n", (unsigned)b.window, (unsigned)b.run,
        (unsigned)b.departure, (int)(int32_t)b.time_shift_s, (unsigned)b.quotient, (unsigned)b.remainder, (unsigned)b.wait);
}

static void waiting(void) {
    uint32_t screen = part(6, "A trip every ten minutes, later every thirty");
    print_waiting(screen, 500);
    print_waiting(screen, 1020);
    print_waiting(screen, 1860);
    print_waiting(screen, 7261);
    print_waiting(screen, 11000);
}

/* a call for a screen that there may not be: is it admitted, and does the tally count it? */
static void print_screen(uint32_t screen) {
    const SavoikyTally before = tally;
    printf("  a call for screen %u: ", (unsigned)screen);
    print_code(savoiky_max_rounds(&tally, screen, SAVOIKY_DEFAULT_SETTINGS, 0, 0).code);
    printf(memcmp(&before, &tally, sizeof tally) == 0 ? ", counted nowhere\n" : ", counted\n");
}

/* what the tally shows: the screens that have calls, a screen too many, and the sum */
static void print_tally(void) {
    printf("The tally\n");
    for (uint32_t screen = 0; screen < SCREENS; screen++) {
        uint32_t answered = savoiky_tally_answered(&tally, screen), refused = savoiky_tally_refused(&tally, screen);
        if (answered == 0 && refused == 0) continue;
        printf("  screen %u: %u answered, %u refused\n", (unsigned)screen, (unsigned)answered, (unsigned)refused);
    }
    print_screen(SCREENS);
    printf("  calls of all screens: %llu\n", (unsigned long long)savoiky_tally_total(&tally));
}

int main(void) {
    const SavoikySettings settings = SAVOIKY_DEFAULT_SETTINGS;
    Timetable slow = timetable_k, falling = second;
    falling.tables[6 * 1 + 1] = 90; /* trip 0 arrives at stop 1 before it leaves stop 0 */
    uint32_t screen = part(0, "Timetable K");
    build(screen, settings, &timetable_k);
    ask(screen, settings, &timetable_k, 90, 120, 2);
    ask(screen, settings, &timetable_k, 90, 121, 2);
    ask(screen, settings, &timetable_k, 91, 120, 2);
    ask(screen, settings, &timetable_k, 150, 120, 2);
    ask(screen, settings, &timetable_k, 151, 120, 2);
    screen = part(1, "A round that boards where it arrived");
    build(screen, settings, &second);
    ask(screen, settings, &second, 90, 120, 3);
    screen = part(2, "The same, with times that fall");
    build(screen, settings, &falling);
    ask(screen, settings, &falling, 90, 120, 3);
    other_settings(slow, &timetable_k);
    waiting();
    print_tally();
    return 0;
}
