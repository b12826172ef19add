/* script CASE FULLNESS N: on standard output, a script (docs/REPLAY.md) that sets up what stands, so many per cent full,
 * and then makes the call of the case N times. CASE/base has the case's base in the call's place. In place of FULLNESS the
 * cases of running entries have how many run at once. */
#include <stdint.h>
#include <stdio.h>
#include <stdlib.h>
#include <string.h>

enum { LOG_SLOTS = 400, LINE_SLOTS = 64, MOST_MW = 1000, LAST_REGIME_END = 13632480, PERIOD_YEARS = 5, SPARE = 4 };

/* ---- Fields, put together in memory */

static struct {
    uint8_t bytes[1 << 17];
    size_t used;
} made;

static void put(size_t width, uint64_t number)
{
    while (width-- > 0)
        made.bytes[made.used++] = (uint8_t)(number >> 8 * width);
}

/* Begins a field and gives its place; its length comes at the end. */
static size_t begin(uint8_t tag)
{
    const size_t place = made.used;
    put(1, tag);
    put(2, 0);
    return place;
}

static void end(size_t place)
{
    const size_t length = made.used - place - 3;
    made.bytes[place + 1] = (uint8_t)(length >> 8);
    made.bytes[place + 2] = (uint8_t)length;
}

/* A field with one number. */
static void short_field(uint8_t tag, size_t width, uint64_t number)
{
    const size_t place = begin(tag);
    put(width, number);
    end(place);
}

static void put_outage(uint32_t start, uint32_t minutes, uint16_t mw)
{
    put(4, start);
    put(4, start + minutes);
    put(2, mw);
}

/* A cause of 1 is left out. */
static void put_cause(uint8_t cause)
{
    if (cause != 1)
        put(1, cause);
}

static void put_line(unsigned i)
{
    put(1, i % 11 + 1);
    put(1, i % 2);
    put(8, 1000000 + 1000 * i);
}

/* ---- The log that stands: outages over years 1 to 5, with room before, between and after them */

enum { START_STEP = 6000 };

static uint32_t start_of(unsigned i)
{
    return START_STEP * (i + 1);
}

static unsigned part(unsigned slots, unsigned fullness)
{
    return slots * fullness / 100;
}

static void stand_slot(unsigned i, uint32_t start, uint32_t minutes, uint16_t mw)
{
    const size_t place = begin(32);
    put(2, i);
    put_outage(start, minutes, mw);
    end(place);
}

static void stand_count(unsigned count)
{
    const size_t place = begin(33);
    put(8, count);
    put(4, LAST_REGIME_END);
    end(place);
}

static void stand_log(unsigned count)
{
    for (unsigned i = 0; i < count; i++)
        stand_slot(i, start_of(i), 3000, 500);
    stand_count(count);
}

/* Where one more outage is to find room. */
static unsigned with_room(unsigned fullness)
{
    const unsigned count = part(LOG_SLOTS, fullness);
    return count < LOG_SLOTS ? count : LOG_SLOTS - 1;
}

/* Where there has to be an outage. */
static unsigned with_one(unsigned fullness)
{
    const unsigned count = part(LOG_SLOTS, fullness);
    return count > 0 ? count : 1;
}

static void stand_to_enter(unsigned fullness)
{
    stand_log(with_room(fullness));
}

/* The same log in the spare year, to be taken from there again. */
static void stand_to_cancel(unsigned fullness)
{
    stand_log(with_one(fullness));
    short_field(38, 1, SPARE);
}

static void stand_one(unsigned fullness)
{
    stand_log(with_one(fullness));
}

static void stand_entries(unsigned fullness)
{
    stand_log(part(LOG_SLOTS, fullness));
}

static void stand_nothing(unsigned fullness)
{
    (void)fullness;
}

/* ---- The log of running entries: the same starts, and entries as long as so many steps from start to start, so that so many
   run at once; 400 of them lose 800 MW */

enum { RUNNING_MW = 2 };

static uint32_t running_minutes(unsigned running)
{
    return START_STEP * running;
}

static void stand_running(unsigned count, unsigned running)
{
    for (unsigned i = 0; i < count; i++)
        stand_slot(i, start_of(i), running_minutes(running), RUNNING_MW);
    stand_count(count);
}

static void stand_all_running(unsigned running)
{
    stand_running(LOG_SLOTS, running);
}

/* All but the last. */
static void stand_to_enter_running(unsigned running)
{
    stand_running(LOG_SLOTS - 1, running);
}

/* The same log in the spare year, to be taken from there again. */
static void stand_to_cancel_running(unsigned running)
{
    stand_all_running(running);
    short_field(38, 1, SPARE);
}

/* ---- The years that stand: 1 to 5 at places 0 to 4, each with lines and with the log that stands as its own */

static void stand_year(unsigned k, unsigned lines)
{
    const size_t place = begin(35);
    put(1, k);
    put(1, k + 1);
    put(4, 10000 + 200 * k);
    put(4, 86000);
    put(2, 10100);
    put(2, 10000);
    put(2, 10000);
    put(1, 0);
    put(8, 100000 * k);
    put(8, lines);
    end(place);
    for (unsigned i = 0; i < lines; i++) {
        const size_t line = begin(36);
        put(1, k);
        put(1, i);
        put_line(i);
        end(line);
    }
    short_field(38, 1, k);
}

static void stand_years(unsigned fullness)
{
    stand_entries(fullness);
    for (unsigned k = 0; k < PERIOD_YEARS; k++)
        stand_year(k, part(LINE_SLOTS, fullness));
}

/* ---- The return: of year 2; at 100 % the longest there is, at 0 % the shortest */

static void put_lines(unsigned count)
{
    for (unsigned i = 0; i < count; i++) {
        const size_t line = begin(6);
        put_line(i);
        end(line);
    }
}

/* Outages from a minute on, each of half a step. */
static void put_outages(unsigned count, uint32_t first, uint32_t step, uint8_t cause)
{
    for (unsigned i = 0; i < count; i++) {
        const size_t outage = begin(7);
        put_outage(first + step * i, step / 2, 300);
        put_cause(cause);
        end(outage);
    }
}

static void put_return(unsigned fullness)
{
    short_field(1, 1, 2);
    short_field(2, 4, 10200);
    short_field(3, 4, 86000);
    short_field(4, 2, 10100);
    if (fullness == 0)
        return;
    short_field(5, 4, 9000 << 16 | 9500);
    put_lines(part(LINE_SLOTS, fullness));
    put_outages(part(LOG_SLOTS, fullness), 482400, 1000, 2);
    short_field(8, 1, 1);
    short_field(9, 8, 250000);
}

static size_t return_length(unsigned fullness)
{
    const size_t before = made.used;
    put_return(fullness);
    const size_t length = made.used - before;
    made.used = before;
    return length;
}

/* A return whose first tag is unknown: refused at place 0. */
static void put_refused_return(unsigned fullness)
{
    const size_t first = made.used;
    put_return(fullness);
    made.bytes[first] = 0;
}

static void read_with(void (*bytes)(unsigned), unsigned fullness)
{
    const size_t place = begin(17);
    put(1, 1);
    bytes(fullness);
    end(place);
}

static void refile_with(void (*bytes)(unsigned), unsigned fullness)
{
    const size_t place = begin(19);
    put(2, return_length(fullness));
    bytes(fullness);
    end(place);
}

static void print_with(void (*bytes)(unsigned), unsigned fullness)
{
    const size_t place = begin(20);
    bytes(fullness);
    end(place);
}

/* ---- The day sheet: of touching outages from minute 0 on; at 100 % the longest there is, 9,866 pieces, at 0 % empty */

enum { FRESH = 20, CONTINUED = 21, DAY = 1440, PIECE_BYTES = 13, KEPT_AT_ONCE = 5000 };

/* Where outage i starts, and the one before it ends: never at a midnight but for the first and the last minute. */
static uint32_t bound(unsigned i)
{
    return i < LOG_SLOTS ? 34081 * i : LAST_REGIME_END;
}

/* How many pieces the first so many outages have: one for each day, and one more for each outage that starts inside a day. */
static size_t pieces_of(unsigned count)
{
    return count == 0 ? 0 : (bound(count) - 1) / DAY + count;
}

static void stand_touching(unsigned fullness)
{
    const unsigned count = part(LOG_SLOTS, fullness);
    for (unsigned i = 0; i < count; i++)
        stand_slot(i, bound(i), bound(i + 1) - bound(i), 500);
    stand_count(count);
}

static void put_piece(uint8_t tag, uint32_t start, uint32_t end_minute)
{
    const size_t place = begin(tag);
    put_outage(start, end_minute - start, 500);
    end(place);
}

/* The kept bytes: pieces one after the other, so many in a field. */
static void stand_kept_sheet(unsigned fullness)
{
    const unsigned count = part(LOG_SLOTS, fullness);
    size_t pieces = 0, field = 0;
    for (unsigned i = 0; i < count; i++) {
        uint32_t next;
        for (uint32_t start = bound(i); start < bound(i + 1); start = next) {
            next = (start / DAY + 1) * DAY;
            if (next > bound(i + 1))
                next = bound(i + 1);
            if (pieces % KEPT_AT_ONCE == 0)
                field = begin(40);
            put_piece(start == bound(i) ? FRESH : CONTINUED, start, next);
            pieces++;
            end(field);
        }
    }
}

/* ---- The plan: 23:30 to 01:30 every 14 days; at 100 % of 400 outages, at 0 % of one */

enum { PLAN = 30, PLAN_START = 1410, PLAN_MINUTES = 120, PLAN_DAYS = 14, PLAN_MW = 500, PLAN_BYTES = 17 };

static void put_plan(unsigned fullness)
{
    put(4, PLAN_START);
    put(4, PLAN_MINUTES);
    put(2, PLAN_DAYS);
    put(2, with_one(fullness));
    put(2, PLAN_MW);
}

/* The message of the plan under a tag, to be read. */
static void read_plan_with(uint8_t tag, unsigned fullness)
{
    const size_t place = begin(66);
    const size_t field = begin(tag);
    put_plan(fullness);
    end(field);
    end(place);
}

static void write_plan_with(unsigned room, unsigned fullness)
{
    const size_t place = begin(67);
    put_plan(fullness);
    put(4, room);
    end(place);
}

/* ---- The workbook: cells of a period, and the input that fills them, of years 1 to 5; at 100 % 64 lines and 80 outages of
   cause 1 in each return, at 0 % the shortest returns */

enum { AMOUNTS = 25, NUMBER_KIND = 1, DAY_KIND = 2, FIRST_DAY = 45292, LAST_DAY = 45657 };

/* Revenue, cap, floor and W of each year, the balances and the adjustment. No W is 0, so no cell is empty. */
static int64_t amount_of(unsigned i)
{
    static const int64_t YEARLY[4] = {95123457, 88608978, 51604250, -2500000};
    static const int64_t OTHERS[5] = {694544947, 631882086, 364744022, 3170661, -65833522};
    return i < 20 ? YEARLY[i % 4] : OTHERS[i - 20];
}

static void put_float(double value)
{
    uint64_t bits;
    memcpy(&bits, &value, sizeof bits);
    put(8, bits);
}

static double day_of(unsigned i)
{
    static const double DAYS[3] = {FIRST_DAY, LAST_DAY, (FIRST_DAY + LAST_DAY) / 2.0};
    return DAYS[i];
}

/* An export whose first amount is given. */
static void export_with(int64_t first)
{
    const size_t place = begin(70);
    put(8, (uint64_t)first);
    for (unsigned i = 1; i < AMOUNTS; i++)
        put(8, (uint64_t)amount_of(i));
    for (unsigned i = 0; i < 3; i++)
        put_float(day_of(i));
    end(place);
}

/* Cells to be read, the first of this kind. */
static void read_cells_with(unsigned kind)
{
    const size_t place = begin(71);
    for (unsigned i = 0; i < AMOUNTS; i++) {
        put(1, i == 0 ? kind : NUMBER_KIND);
        put_float((double)amount_of(i));
    }
    for (unsigned i = 0; i < 3; i++) {
        put(1, DAY_KIND);
        put_float(day_of(i));
    }
    end(place);
}

/* The return of year k + 1 under this first tag, behind its length: a field without a tag of its own. */
static void put_filed(unsigned k, uint8_t tag, unsigned fullness)
{
    static const uint32_t STARTS[PERIOD_YEARS] = {0, 482400, 1009440, 1535040, 2060640};
    const size_t place = made.used - 1;
    put(2, 0);
    short_field(tag, 1, k + 1);
    short_field(2, 4, 10000 + 200 * k);
    short_field(3, 4, 86000);
    short_field(4, 2, 10100);
    if (k == 0) /* year 1 leaves out others (rule 10.2) */
        short_field(5, 4, 10000 << 16 | 10000);
    put_lines(part(LINE_SLOTS, fullness));
    put_outages(part(LOG_SLOTS / PERIOD_YEARS, fullness), STARTS[k], 5000, 1);
    end(place);
}

/* The input whose first return has this first tag. */
static void fill_workbook_with(uint8_t tag, unsigned fullness)
{
    const size_t place = begin(73);
    put(4, FIRST_DAY);
    put(4, LAST_DAY);
    for (unsigned k = 0; k < PERIOD_YEARS; k++)
        put_filed(k, k == 0 ? tag : 1, fullness);
    end(place);
}

/* ---- Calls */

static void enter_outage(uint32_t start, uint32_t minutes, uint16_t mw)
{
    const size_t place = begin(2);
    put_outage(start, minutes, mw);
    end(place);
}

static void enter(uint32_t start)
{
    enter_outage(start, 1000, 200);
}

/* The last of the running entries. */
static void enter_last(unsigned running)
{
    enter_outage(start_of(LOG_SLOTS - 1), running_minutes(running), RUNNING_MW);
}

static void cancel(uint32_t start)
{
    short_field(3, 4, start);
}

static void enter_front(unsigned fullness)
{
    (void)fullness;
    enter(1000);
    cancel(1000);
}

static void enter_end(unsigned fullness)
{
    (void)fullness;
    enter(start_of(LOG_SLOTS));
    cancel(start_of(LOG_SLOTS));
}

/* One MW too many in the first minute of the first outage. */
static void enter_clash(unsigned fullness)
{
    (void)fullness;
    enter_outage(start_of(0) - 1, 1000, MOST_MW - 500 + 1);
}

static void cancel_none(unsigned fullness)
{
    (void)fullness;
    cancel(1000);
}

static void cancel_front(unsigned fullness)
{
    (void)fullness;
    cancel(start_of(0));
    short_field(39, 1, SPARE);
}

static void cancel_end(unsigned fullness)
{
    cancel(start_of(with_one(fullness) - 1));
    short_field(39, 1, SPARE);
}

static void enter_running(unsigned running)
{
    enter_last(running);
    cancel(start_of(LOG_SLOTS - 1));
}

/* One MW too many where the last entry starts. */
static void clash_running(unsigned running)
{
    enter_outage(start_of(LOG_SLOTS - 1) - 1, 2, (uint16_t)(MOST_MW - RUNNING_MW * running + 1));
}

static void cancel_running(unsigned running)
{
    (void)running;
    cancel(start_of(LOG_SLOTS - 1));
    short_field(39, 1, SPARE);
}

/* A plan into an empty log, which is then taken from the spare year: that one is fresh. */
static void enter_plan(unsigned fullness)
{
    const size_t place = begin(65);
    put_plan(fullness);
    end(place);
    short_field(39, 1, SPARE);
}

/* The outages of the plan entered one by one. */
static void enter_each(unsigned fullness)
{
    for (unsigned i = 0; i < with_one(fullness); i++)
        enter_outage(PLAN_START + i * PLAN_DAYS * DAY, PLAN_MINUTES, PLAN_MW);
    short_field(39, 1, SPARE);
}

/* The longest walk over the years: each call but the first names the minute that the log has. */
static void close_call(unsigned fullness)
{
    (void)fullness;
    short_field(28, 4, LAST_REGIME_END);
}

static void lost(unsigned fullness)
{
    (void)fullness;
    const size_t place = begin(4);
    put(4, 0);
    put(4, LAST_REGIME_END);
    end(place);
}

static void levels(unsigned fullness)
{
    (void)fullness;
    short_field(8, 1, 1);
}

static void revenue(unsigned fullness)
{
    (void)fullness;
    short_field(9, 1, 1);
}

static void period(unsigned fullness)
{
    (void)fullness;
    end(begin(11));
}

static void settle(unsigned fullness)
{
    (void)fullness;
    const size_t place = begin(15);
    put(8, (uint64_t)-10000001);
    put(4, 44927);
    put(4, 45291);
    put(4, 45383);
    put(4, 45747);
    end(place);
}

static void read_call(unsigned fullness)
{
    read_with(put_return, fullness);
}

static void write_call(unsigned fullness)
{
    const size_t place = begin(18);
    put(1, 1);
    put(2, return_length(fullness));
    end(place);
}

static void refile(unsigned fullness)
{
    refile_with(put_return, fullness);
}

static void print(unsigned fullness)
{
    print_with(put_return, fullness);
}

static void read_sheet(unsigned fullness)
{
    (void)fullness;
    short_field(24, 4, LAST_REGIME_END);
}

static void write_sheet(unsigned fullness)
{
    short_field(25, 4, PIECE_BYTES * pieces_of(part(LOG_SLOTS, fullness)));
}

static void list_plan(unsigned fullness)
{
    const size_t place = begin(64);
    put(4, LAST_REGIME_END);
    put_plan(fullness);
    end(place);
}

static void read_plan(unsigned fullness)
{
    read_plan_with(PLAN, fullness);
}

static void write_plan(unsigned fullness)
{
    write_plan_with(PLAN_BYTES, fullness);
}

static void export(unsigned fullness)
{
    (void)fullness;
    export_with(amount_of(0));
}

static void read_cells(unsigned fullness)
{
    (void)fullness;
    read_cells_with(NUMBER_KIND);
}

static void fill_workbook(unsigned fullness)
{
    fill_workbook_with(1, fullness);
}

/* ---- Bases: the cheapest call of the like kind */

/* An entry of the growth table: a short call and a short answer. */
static void growth(unsigned fullness)
{
    (void)fullness;
    short_field(13, 4, 100);
}

static void two_growths(unsigned fullness)
{
    growth(fullness);
    growth(fullness);
}

static void growth_and_take(unsigned fullness)
{
    growth(fullness);
    short_field(39, 1, SPARE);
}

/* A growth for each outage of the plan. */
static void growths_and_take(unsigned fullness)
{
    for (unsigned i = 0; i < with_one(fullness); i++)
        growth(fullness);
    short_field(39, 1, SPARE);
}

static void read_refused(unsigned fullness)
{
    read_with(put_refused_return, fullness);
}

static void refile_refused(unsigned fullness)
{
    refile_with(put_refused_return, fullness);
}

/* No bytes, refused at place 0, with the room that the return takes. */
static void refile_nothing(unsigned fullness)
{
    refile_with(stand_nothing, fullness);
}

static void refile_no_room(unsigned fullness)
{
    (void)fullness;
    short_field(19, 2, 0);
}

/* No bytes are kept: refused at place 0, with the room that the sheet takes. */
static void refile_kept_nothing(unsigned fullness)
{
    short_field(22, 4, PIECE_BYTES * pieces_of(part(LOG_SLOTS, fullness)));
}

static void print_refused(unsigned fullness)
{
    print_with(put_refused_return, fullness);
}

/* A plan whose tag is unknown: refused at place 0. */
static void read_plan_refused(unsigned fullness)
{
    read_plan_with(0, fullness);
}

static void write_plan_refused(unsigned fullness)
{
    write_plan_with(PLAN_BYTES - 1, fullness);
}

/* Revenue of the first year out of range: refused by 9. */
static void export_refused(unsigned fullness)
{
    (void)fullness;
    export_with(1000000001);
}

/* A day where a number is to stand: refused at index 0. */
static void read_cells_refused(unsigned fullness)
{
    (void)fullness;
    read_cells_with(DAY_KIND);
}

/* A first return whose first tag is unknown. */
static void fill_workbook_refused(unsigned fullness)
{
    fill_workbook_with(0, fullness);
}

/* ---- Cases */

/* The most that the number behind a case's name may be: per cent, or how many run at once. */
enum most { FULL = 100, ALL_RUN = LOG_SLOTS };

struct bench_case {
    const char *name;
    void (*stand)(unsigned number);
    void (*call)(unsigned number);
    void (*base)(unsigned number);
    enum most most;
};

static const struct bench_case CASES[] = {
    {"log-sum", stand_nothing, cancel_none, lost, FULL},
    {"fresh", stand_nothing, refile_no_room, growth, FULL},
    {"enter-front", stand_to_enter, enter_front, two_growths, FULL},
    {"enter-end", stand_to_enter, enter_end, two_growths, FULL},
    {"enter-clash", stand_one, enter_clash, growth, FULL},
    {"cancel-front", stand_to_cancel, cancel_front, growth_and_take, FULL},
    {"cancel-end", stand_to_cancel, cancel_end, growth_and_take, FULL},
    {"cancel-none", stand_entries, cancel_none, growth, FULL},
    {"enter-plan", stand_nothing, enter_plan, growth_and_take, FULL},
    {"enter-each", stand_nothing, enter_each, growths_and_take, FULL},
    {"close", stand_entries, close_call, growth, FULL},
    {"lost", stand_entries, lost, growth, FULL},
    {"enter-running", stand_to_enter_running, enter_running, two_growths, ALL_RUN},
    {"clash-running", stand_all_running, clash_running, growth, ALL_RUN},
    {"cancel-running", stand_to_cancel_running, cancel_running, growth_and_take, ALL_RUN},
    {"lost-running", stand_all_running, lost, growth, ALL_RUN},
    {"levels", stand_years, levels, growth, FULL},
    {"revenue", stand_years, revenue, growth, FULL},
    {"period", stand_years, period, growth, FULL},
    {"settle", stand_nothing, settle, growth, FULL},
    {"read", stand_nothing, read_call, read_refused, FULL},
    {"write", read_call, write_call, refile_nothing, FULL},
    {"refile", stand_nothing, refile, refile_refused, FULL},
    {"print", stand_nothing, print, print_refused, FULL},
    {"read-sheet", stand_kept_sheet, read_sheet, growth, FULL},
    {"write-sheet", stand_touching, write_sheet, refile_kept_nothing, FULL},
    {"list-plan", stand_nothing, list_plan, growth, FULL},
    {"read-plan", stand_nothing, read_plan, read_plan_refused, FULL},
    {"write-plan", stand_nothing, write_plan, write_plan_refused, FULL},
    {"export", stand_nothing, export, export_refused, FULL},
    {"read-cells", stand_nothing, read_cells, read_cells_refused, FULL},
    {"fill-workbook", stand_nothing, fill_workbook, fill_workbook_refused, FULL},
};

static const struct bench_case *case_of(const char *name, size_t length)
{
    for (size_t i = 0; i < sizeof CASES / sizeof *CASES; i++)
        if (strlen(CASES[i].name) == length && memcmp(CASES[i].name, name, length) == 0)
            return &CASES[i];
    return NULL;
}

static int write_script(const struct bench_case *of, int base, unsigned number, unsigned long times)
{
    of->stand(number);
    fwrite(made.bytes, 1, made.used, stdout);
    made.used = 0;
    (base ? of->base : of->call)(number);
    for (unsigned long i = 0; i < times; i++)
        fwrite(made.bytes, 1, made.used, stdout);
    return fflush(stdout) == 0 ? 0 : 1;
}

int main(int words, char **word)
{
    const struct bench_case *of = NULL;
    int base = 0;
    if (words == 4) {
        const size_t length = strcspn(word[1], "/");
        of = case_of(word[1], length);
        base = strcmp(word[1] + length, "/base") == 0;
        if (!base && word[1][length] != '\0')
            of = NULL;
    }
    if (!of || atoi(word[2]) < 0 || atoi(word[2]) > (int)of->most) {
        fprintf(stderr, "use: script CASE[/base] FULLNESS N, FULLNESS of 0 to 100, or of 1 to 400 that run at once; cases:");
        for (size_t i = 0; i < sizeof CASES / sizeof *CASES; i++)
            fprintf(stderr, " %s", CASES[i].name);
        fprintf(stderr, "\n");
        return 2;
    }
    return write_script(of, base, (unsigned)atoi(word[2]), strtoul(word[3], NULL, 10));
}
