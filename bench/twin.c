/* The C twin of `replay`: carries out a script of calls on standard input and prints each answer (docs/REPLAY.md). */
#include "books.h"

long read(int file, void *to, size_t size);
long write(int file, const void *from, size_t size);

/* ---- What stands */

static struct log the_log;
static struct book the_book;
static struct year years[PERIOD_YEARS];

/* The most bytes that are kept, and that are lent. */
enum { KEPT_BYTES = 262144 };

static struct {
    uint8_t bytes[KEPT_BYTES];
    size_t length;
} kept;

/* ---- Answers */

static struct {
    uint8_t bytes[1 << 16];
    size_t used;
} out;

static void flush(void)
{
    size_t done = 0;
    while (done < out.used) {
        const long wrote = write(1, out.bytes + done, out.used - done);
        if (wrote <= 0)
            break;
        done += (size_t)wrote;
    }
    out.used = 0;
}

/* Room for a blank and a number, or for a newline. */
static uint8_t *room(void)
{
    if (out.used + 32 > sizeof out.bytes)
        flush();
    return out.bytes + out.used;
}

/* The first number of a line. */
static void begin(uint64_t number)
{
    out.used += put_decimal(room(), number);
}

static void figure(uint64_t number)
{
    uint8_t *to = room();
    *to = ' ';
    out.used += 1 + put_decimal(to + 1, number);
}

static void signed_figure(int64_t number)
{
    uint8_t *to = room();
    *to = ' ';
    out.used += 1 + put_signed(to + 1, number);
}

static void end_line(void)
{
    *room() = '\n';
    out.used++;
}

/* ---- Checksums */

static inline uint64_t add(uint64_t sum, uint32_t number)
{
    return (sum * 65599 + number) % 4294967291;
}

static inline uint64_t add_wide(uint64_t sum, uint64_t number)
{
    return add(add(sum, (uint32_t)(number >> 32)), (uint32_t)number);
}

static uint64_t add_entries(uint64_t sum, const struct entry entries[LOG_SLOTS])
{
    for (size_t i = 0; i < LOG_SLOTS; i++) {
        sum = add(sum, entries[i].start);
        sum = add(sum, entries[i].end);
        sum = add(sum, entries[i].mw);
        sum = add(sum, entries[i].cause);
    }
    return sum;
}

static uint64_t add_log(uint64_t sum, const struct log *log)
{
    sum = add_wide(add_entries(sum, log->entries), log->count);
    return add(add(sum, log->regime_end), log->closed);
}

static uint64_t year_sum(const struct year *y)
{
    uint64_t sum = add(add(add(0, y->number), y->pppi), y->rate);
    sum = add(add(add(sum, y->aic), y->pyc), y->pyf);
    for (size_t i = 0; i < LINE_SLOTS; i++) {
        sum = add(add(sum, y->lines[i].kind), y->lines[i].currency);
        sum = add_wide(sum, (uint64_t)y->lines[i].amount);
    }
    sum = add(add_wide(sum, y->line_count), y->exceptional);
    return add_log(add_wide(sum, (uint64_t)y->within), &y->log);
}

static uint64_t byte_sum(const uint8_t *bytes, size_t length)
{
    uint64_t sum = 0;
    for (size_t i = 0; i < length; i++)
        sum = add(sum, bytes[i]);
    return sum;
}

/* ---- Calls: each takes its value and prints its answer, or gives false where the value is malformed */

struct value {
    const uint8_t *bytes;
    size_t length;
};

static void answer_log(int number)
{
    begin((uint64_t)number);
    figure(the_log.count);
    figure(add_log(0, &the_log));
    end_line();
}

/* The place of what fails before count and sum. */
static bool answer_placed(int number, uint64_t place, uint64_t count, uint64_t sum)
{
    begin((uint64_t)number);
    figure(place);
    figure(count);
    figure(sum);
    end_line();
    return true;
}

static void answer_unsigned(int number, uint64_t one)
{
    begin((uint64_t)number);
    figure(one);
    end_line();
}

static void answer_signed(int number, int64_t one)
{
    begin((uint64_t)number);
    signed_figure(one);
    end_line();
}

static void answer_two(int number, uint64_t one, uint64_t other)
{
    begin((uint64_t)number);
    figure(one);
    figure(other);
    end_line();
}

static void answer_assessment(int number, const struct assessment *found)
{
    begin((uint64_t)number);
    signed_figure(found->revenue);
    signed_figure(found->cap);
    signed_figure(found->floor);
    signed_figure(found->within);
    signed_figure(found->held);
    signed_figure(found->adjustment);
    end_line();
}

static bool answer_set(void)
{
    begin(0);
    end_line();
    return true;
}

/* The year at the place that a value begins with, if there is such a place. */
static struct year *year_at(struct value v)
{
    return v.bytes[0] < PERIOD_YEARS ? &years[v.bytes[0]] : NULL;
}

static struct period period_of(const uint8_t *bytes)
{
    return (struct period){get32(bytes), get32(bytes + 4)};
}

static int64_t amount_of(const uint8_t *bytes)
{
    return (int64_t)get64(bytes);
}

static bool call_empty(struct value v)
{
    answer_log(empty_log(&the_log, get32(v.bytes)));
    return true;
}

static bool call_enter(struct value v)
{
    answer_log(enter(&the_log, get_entry(v.bytes, v.length)));
    return true;
}

static bool call_cancel(struct value v)
{
    answer_log(cancel(&the_log, get32(v.bytes), get_cause(v.bytes, 4, v.length)));
    return true;
}

static bool call_close(struct value v)
{
    answer_log(close_log(&the_log, get32(v.bytes)));
    return true;
}

static bool call_lost(struct value v)
{
    uint64_t lost;
    const int number = lost_energy(&the_log, get32(v.bytes), get32(v.bytes + 4), &lost);
    answer_unsigned(number, lost);
    return true;
}

static bool call_minutes(struct value v)
{
    struct span span;
    const int number = year_minutes(v.bytes[0], get32(v.bytes + 1), &span);
    answer_two(number, span.first, span.end);
    return true;
}

static bool call_availability(struct value v)
{
    uint64_t energy;
    const int number = availability_of(&the_book, &the_log, v.bytes[0], &energy);
    answer_unsigned(number, energy);
    return true;
}

static bool call_target(struct value v)
{
    bool met;
    const int number = target_met(&the_book, &the_log, v.bytes[0], &met);
    answer_unsigned(number, met);
    return true;
}

static bool call_levels(struct value v)
{
    struct year *year = year_at(v);
    struct levels levels;
    if (!year)
        return false;
    const int number = levels_of(&the_book, year, &the_log, &levels);
    answer_two(number, (uint64_t)levels.cap, (uint64_t)levels.floor);
    return true;
}

static bool call_revenue(struct value v)
{
    struct year *year = year_at(v);
    int64_t pounds;
    if (!year)
        return false;
    const int number = revenue_of(year, &pounds);
    answer_signed(number, pounds);
    return true;
}

static bool call_assess(struct value v)
{
    struct row rows[PERIOD_YEARS];
    struct assessment found;
    for (size_t k = 0; k < PERIOD_YEARS; k++) {
        const uint8_t *at = v.bytes + 36 * k;
        rows[k] = (struct row){get32(at), amount_of(at + 4), amount_of(at + 12), amount_of(at + 20), amount_of(at + 28)};
    }
    const int number = assess(rows, &found);
    answer_assessment(number, &found);
    return true;
}

static bool call_period(struct value v)
{
    struct assessment found;
    (void)v;
    const int number = assess_period(&the_book, years, &the_log, &found);
    answer_assessment(number, &found);
    return true;
}

static bool call_gap(struct value v)
{
    uint32_t n;
    const int number = gap_between(period_of(v.bytes), period_of(v.bytes + 8), &n);
    answer_unsigned(number, n);
    return true;
}

static bool call_growth(struct value v)
{
    uint64_t entry;
    const int number = growth_at(get32(v.bytes), &entry);
    answer_unsigned(number, entry);
    return true;
}

static bool call_pay(struct value v)
{
    int64_t pounds;
    const int number = pay(amount_of(v.bytes), get32(v.bytes + 8), &pounds);
    answer_signed(number, pounds);
    return true;
}

static bool call_settle(struct value v)
{
    int64_t pounds;
    const int number = settle(amount_of(v.bytes), period_of(v.bytes + 8), period_of(v.bytes + 16), &pounds);
    answer_signed(number, pounds);
    return true;
}

static bool call_reconcile(struct value v)
{
    int64_t pounds;
    const int number = reconcile(amount_of(v.bytes), amount_of(v.bytes + 8), period_of(v.bytes + 16),
                                 period_of(v.bytes + 24), &pounds);
    answer_signed(number, pounds);
    return true;
}

/* ---- Calls on a return */

static uint8_t lent[KEPT_BYTES];

/* The buffer that is lent: byte i is 255 less i mod 251. Gives its size, at most that of all that is kept. */
static size_t lend(size_t wanted)
{
    const size_t size = wanted < KEPT_BYTES ? wanted : KEPT_BYTES;
    for (size_t i = 0; i < size; i++)
        lent[i] = (uint8_t)(255 - i % 251);
    return size;
}

static bool call_read(struct value v)
{
    struct year *year = year_at(v);
    size_t place;
    if (!year)
        return false;
    const int number = read_return(v.bytes + 1, v.length - 1, year, &place);
    answer_two(number, place, year_sum(year));
    return true;
}

static bool call_write(struct value v)
{
    struct year *year = year_at(v);
    size_t length;
    if (!year)
        return false;
    const size_t size = lend(get16(v.bytes + 1));
    const int number = write_return(year, lent, size, &length);
    answer_two(number, length, byte_sum(lent, size));
    return true;
}

static bool call_refile(struct value v)
{
    const size_t size = lend(get16(v.bytes));
    size_t length;
    const int number = refile(v.bytes + 2, v.length - 2, lent, size, &length);
    answer_two(number, length, byte_sum(lent, size));
    return true;
}

static bool call_read_kept(struct value v)
{
    struct year *year = year_at(v);
    size_t place;
    if (!year)
        return false;
    const int number = read_return(kept.bytes, kept.length, year, &place);
    answer_two(number, place, year_sum(year));
    return true;
}

static bool call_refile_kept(struct value v)
{
    const size_t size = lend(get32(v.bytes));
    size_t length;
    const int number = refile(kept.bytes, kept.length, lent, size, &length);
    answer_two(number, length, byte_sum(lent, size));
    return true;
}

static bool answer_text(int number, const uint8_t *text, size_t length)
{
    answer_two(number, length, byte_sum(text, length));
    return true;
}

static bool call_print(struct value v)
{
    uint8_t text[TEXT_BYTES];
    const size_t length = print_return(v.bytes, v.length, text);
    return answer_text(0, text, length);
}

/* ---- Calls on a day sheet, and on dates */

/* Reads a sheet into the log that stands. */
static bool answer_sheet(uint32_t regime_end, const uint8_t *bytes, size_t length)
{
    size_t place;
    const int number = read_sheet(bytes, length, regime_end, &the_log, &place);
    return answer_placed(number, place, the_log.count, add_log(0, &the_log));
}

static bool call_read_sheet(struct value v)
{
    return answer_sheet(get32(v.bytes), v.bytes + 4, v.length - 4);
}

static bool call_read_sheet_kept(struct value v)
{
    return answer_sheet(get32(v.bytes), kept.bytes, kept.length);
}

static bool call_write_sheet(struct value v)
{
    const size_t size = lend(get32(v.bytes));
    size_t length;
    const int number = write_sheet(&the_log, lent, size, &length);
    answer_two(number, length, byte_sum(lent, size));
    return true;
}

static bool call_print_minute(struct value v)
{
    uint8_t text[TEXT_BYTES];
    size_t length;
    const int number = print_minute(get32(v.bytes), text, &length);
    return answer_text(number, text, length);
}

static bool call_print_outage(struct value v)
{
    uint8_t text[TEXT_BYTES];
    size_t length;
    const int number = print_outage(get_entry(v.bytes, v.length), text, &length);
    return answer_text(number, text, length);
}

/* ---- Calls on a plan */

static bool call_list_plan(struct value v)
{
    struct list list;
    uint32_t failed;
    const int number = list_plan(get32(v.bytes), get_plan(v.bytes + 4, v.length - 4), &list, &failed);
    return answer_placed(number, failed, list.count, add_entries(0, list.entries));
}

static bool call_enter_plan(struct value v)
{
    uint32_t failed;
    const int number = enter_plan(&the_log, get_plan(v.bytes, v.length), &failed);
    return answer_placed(number, failed, the_log.count, add_log(0, &the_log));
}

static bool call_read_plan(struct value v)
{
    struct plan plan;
    size_t place;
    const int number = read_plan(v.bytes, v.length, &plan, &place);
    begin((uint64_t)number);
    figure(place);
    figure(plan.start);
    figure(plan.length);
    figure(plan.step);
    figure(plan.count);
    figure(plan.mw);
    figure(plan.cause);
    end_line();
    return true;
}

static bool call_write_plan(struct value v)
{
    const size_t width = v.length - 4; /* the room follows the plan */
    const size_t size = lend(get32(v.bytes + width));
    size_t length;
    const int number = write_plan(get_plan(v.bytes, width), lent, size, &length);
    answer_two(number, length, byte_sum(lent, size));
    return true;
}

/* ---- Calls on a workbook */

/* A float is its 64 bits. */
static double float_of(const uint8_t *bytes)
{
    const uint64_t bits = get64(bytes);
    double value;
    memcpy(&value, &bits, sizeof value);
    return value;
}

static void float_figure(double value)
{
    uint64_t bits;
    memcpy(&bits, &value, sizeof bits);
    figure(bits);
}

static struct dated dated_of(const uint8_t *bytes)
{
    return (struct dated){float_of(bytes), float_of(bytes + 8), float_of(bytes + 16)};
}

static void dated_figures(const struct dated *period)
{
    float_figure(period->first);
    float_figure(period->last);
    float_figure(period->median);
}

enum { CELL_BYTES = 9 };

/* Takes a cell; false where its kind is none. */
static bool take_cell(const uint8_t *bytes, struct cell *cell)
{
    *cell = (struct cell){bytes[0], float_of(bytes + 1)};
    return bytes[0] <= DAY_CELL;
}

static bool answer_cells(int number, const struct cell cells[CELLS])
{
    begin((uint64_t)number);
    for (size_t i = 0; i < CELLS; i++) {
        figure(cells[i].kind);
        float_figure(cells[i].value);
    }
    end_line();
    return true;
}

static bool call_make_period(struct value v)
{
    struct dated period;
    begin((uint64_t)make_period(period_of(v.bytes), &period));
    dated_figures(&period);
    end_line();
    return true;
}

static bool call_gap_of_medians(struct value v)
{
    const struct dated earlier = dated_of(v.bytes), later = dated_of(v.bytes + 24);
    uint32_t n;
    const int number = gap_of_medians(&earlier, &later, &n);
    answer_unsigned(number, n);
    return true;
}

static bool call_export(struct value v)
{
    int64_t amounts[AMOUNTS];
    struct cell cells[CELLS];
    for (size_t i = 0; i < AMOUNTS; i++)
        amounts[i] = amount_of(v.bytes + 8 * i);
    const struct dated period = dated_of(v.bytes + 8 * AMOUNTS);
    const int number = export_cells(amounts, &period, cells);
    return answer_cells(number, cells);
}

static bool call_read_cells(struct value v)
{
    struct cell cells[CELLS];
    int64_t amounts[AMOUNTS];
    struct dated period;
    uint32_t index;
    for (size_t i = 0; i < CELLS; i++)
        if (!take_cell(v.bytes + CELL_BYTES * i, &cells[i]))
            return false;
    begin((uint64_t)read_cells(cells, amounts, &period, &index));
    figure(index);
    for (size_t i = 0; i < AMOUNTS; i++)
        signed_figure(amounts[i]);
    dated_figures(&period);
    end_line();
    return true;
}

static bool call_print_cell(struct value v)
{
    struct cell cell;
    uint8_t text[TEXT_BYTES];
    size_t length;
    if (!take_cell(v.bytes + 4, &cell))
        return false;
    const int number = print_cell(get32(v.bytes), cell, text, &length);
    return answer_text(number, text, length);
}

static bool call_fill_workbook(struct value v)
{
    struct cell cells[CELLS];
    const int number = fill_workbook(v.bytes, v.length, cells);
    return answer_cells(number, cells);
}

/* ---- Setting what stands */

/* A cause that is left out is 0 in a slot of zeros. */
static bool set_slot(struct value v)
{
    const size_t slot = get16(v.bytes), width = v.length - 2;
    if (slot >= LOG_SLOTS)
        return false;
    struct entry e = get_entry(v.bytes + 2, width);
    if (width == ENTRY_BYTES && (e.start | e.end | e.mw) == 0)
        e.cause = 0;
    the_log.entries[slot] = e;
    return answer_set();
}

static bool set_count(struct value v)
{
    the_log.count = get64(v.bytes);
    the_log.regime_end = get32(v.bytes + 8);
    return answer_set();
}

static bool set_closed(struct value v)
{
    the_log.closed = get32(v.bytes);
    return answer_set();
}

static bool set_book(struct value v)
{
    const uint8_t *at = v.bytes;
    the_book = (struct book){
        .regime_end = get32(at),
        .first_target = get32(at + 4),
        .last_target = get32(at + 8),
        .pcl = amount_of(at + 12),
        .pfl = amount_of(at + 20),
        .pcac = amount_of(at + 28),
        .pcaf = amount_of(at + 36),
        .orac = amount_of(at + 44),
        .oraf = amount_of(at + 52),
        .miss_factor = get16(at + 60),
    };
    return answer_set();
}

static bool set_year(struct value v)
{
    struct year *year = year_at(v);
    const uint8_t *at = v.bytes + 1;
    if (!year || at[15] > 1)
        return false;
    year->number = at[0];
    year->pppi = get32(at + 1);
    year->rate = get32(at + 5);
    year->aic = get16(at + 9);
    year->pyc = get16(at + 11);
    year->pyf = get16(at + 13);
    year->exceptional = at[15] == 1;
    year->within = amount_of(at + 16);
    year->line_count = get64(at + 24);
    return answer_set();
}

static bool set_line(struct value v)
{
    struct year *year = year_at(v);
    if (!year || v.bytes[1] >= LINE_SLOTS)
        return false;
    year->lines[v.bytes[1]] = (struct line){v.bytes[2], v.bytes[3], amount_of(v.bytes + 4)};
    return answer_set();
}

static bool set_fresh(struct value v)
{
    struct year *year = year_at(v);
    if (!year)
        return false;
    fresh_year(year);
    return answer_set();
}

static bool set_year_log(struct value v)
{
    struct year *year = year_at(v);
    if (!year)
        return false;
    year->log = the_log;
    return answer_set();
}

static bool set_log(struct value v)
{
    struct year *year = year_at(v);
    if (!year)
        return false;
    the_log = year->log;
    return answer_set();
}

static bool keep(struct value v)
{
    const size_t left = KEPT_BYTES - kept.length;
    const size_t length = v.length < left ? v.length : left;
    memcpy(kept.bytes + kept.length, v.bytes, length);
    kept.length += length;
    return answer_set();
}

static bool forget(struct value v)
{
    (void)v;
    kept.length = 0;
    return answer_set();
}

/* ---- Showing what stands */

static void show_entries(const struct log *log)
{
    for (size_t i = 0; i < LOG_SLOTS; i++) {
        figure(log->entries[i].start);
        figure(log->entries[i].end);
        figure(log->entries[i].mw);
        figure(log->entries[i].cause);
    }
    end_line();
}

static bool show_log(struct value v)
{
    (void)v;
    begin(the_log.count);
    figure(the_log.regime_end);
    figure(the_log.closed);
    show_entries(&the_log);
    return true;
}

static bool show_year(struct value v)
{
    struct year *year = year_at(v);
    if (!year)
        return false;
    begin(year->number);
    figure(year->pppi);
    figure(year->rate);
    figure(year->aic);
    figure(year->pyc);
    figure(year->pyf);
    figure(year->line_count);
    figure(year->exceptional);
    signed_figure(year->within);
    for (size_t i = 0; i < LINE_SLOTS; i++) {
        figure(year->lines[i].kind);
        figure(year->lines[i].currency);
        signed_figure(year->lines[i].amount);
    }
    figure(year->log.count);
    figure(year->log.regime_end);
    figure(year->log.closed);
    show_entries(&year->log);
    return true;
}

static bool show_book(struct value v)
{
    (void)v;
    begin(the_book.regime_end);
    figure(the_book.first_target);
    figure(the_book.last_target);
    signed_figure(the_book.pcl);
    signed_figure(the_book.pfl);
    signed_figure(the_book.pcac);
    signed_figure(the_book.pcaf);
    signed_figure(the_book.orac);
    signed_figure(the_book.oraf);
    figure(the_book.miss_factor);
    end_line();
    return true;
}

static void show_lent(int number, size_t length, size_t size)
{
    begin((uint64_t)number);
    figure(length);
    for (size_t i = 0; i < size; i++)
        figure(lent[i]);
    end_line();
}

static bool show_written(struct value v)
{
    struct year *year = year_at(v);
    size_t length;
    if (!year)
        return false;
    const size_t size = lend(get16(v.bytes + 1));
    const int number = write_return(year, lent, size, &length);
    show_lent(number, length, size);
    return true;
}

static bool show_sheet(struct value v)
{
    const size_t size = lend(get16(v.bytes));
    size_t length;
    const int number = write_sheet(&the_log, lent, size, &length);
    show_lent(number, length, size);
    return true;
}

/* ---- The script */

/* What may follow the bytes that a value always has: nothing, the byte of a cause, or bytes of any number. */
enum more { NOTHING = 0, A_CAUSE = 1, ANYTHING = 65535 };

/* A tag's call, and the length of its value. */
struct call {
    bool (*carry_out)(struct value v);
    size_t length;
    enum more more;
};

static const struct call CALLS[] = {
    [1] = {call_empty, 4, NOTHING},
    [2] = {call_enter, 10, A_CAUSE},
    [3] = {call_cancel, 4, A_CAUSE},
    [4] = {call_lost, 8, NOTHING},
    [5] = {call_minutes, 5, NOTHING},
    [6] = {call_availability, 1, NOTHING},
    [7] = {call_target, 1, NOTHING},
    [8] = {call_levels, 1, NOTHING},
    [9] = {call_revenue, 1, NOTHING},
    [10] = {call_assess, 180, NOTHING},
    [11] = {call_period, 0, NOTHING},
    [12] = {call_gap, 16, NOTHING},
    [13] = {call_growth, 4, NOTHING},
    [14] = {call_pay, 12, NOTHING},
    [15] = {call_settle, 24, NOTHING},
    [16] = {call_reconcile, 32, NOTHING},
    [17] = {call_read, 1, ANYTHING},
    [18] = {call_write, 3, NOTHING},
    [19] = {call_refile, 2, ANYTHING},
    [20] = {call_print, 0, ANYTHING},
    [21] = {call_read_kept, 1, NOTHING},
    [22] = {call_refile_kept, 4, NOTHING},
    [23] = {call_read_sheet, 4, ANYTHING},
    [24] = {call_read_sheet_kept, 4, NOTHING},
    [25] = {call_write_sheet, 4, NOTHING},
    [26] = {call_print_minute, 4, NOTHING},
    [27] = {call_print_outage, 10, A_CAUSE},
    [28] = {call_close, 4, NOTHING},
    [32] = {set_slot, 12, A_CAUSE},
    [33] = {set_count, 12, NOTHING},
    [34] = {set_book, 62, NOTHING},
    [35] = {set_year, 33, NOTHING},
    [36] = {set_line, 12, NOTHING},
    [37] = {set_fresh, 1, NOTHING},
    [38] = {set_year_log, 1, NOTHING},
    [39] = {set_log, 1, NOTHING},
    [40] = {keep, 0, ANYTHING},
    [41] = {forget, 0, NOTHING},
    [42] = {set_closed, 4, NOTHING},
    [48] = {show_log, 0, NOTHING},
    [49] = {show_year, 1, NOTHING},
    [50] = {show_book, 0, NOTHING},
    [51] = {show_written, 3, NOTHING},
    [52] = {show_sheet, 2, NOTHING},
    [64] = {call_list_plan, 18, A_CAUSE},
    [65] = {call_enter_plan, 14, A_CAUSE},
    [66] = {call_read_plan, 0, ANYTHING},
    [67] = {call_write_plan, 18, A_CAUSE},
    [68] = {call_make_period, 8, NOTHING},
    [69] = {call_gap_of_medians, 48, NOTHING},
    [70] = {call_export, 8 * AMOUNTS + 24, NOTHING},
    [71] = {call_read_cells, CELL_BYTES * CELLS, NOTHING},
    [72] = {call_print_cell, 4 + CELL_BYTES, NOTHING},
    [73] = {call_fill_workbook, 0, ANYTHING},
};

/* What was read of the script and is not carried out yet: from `at` to `end`. */
static struct {
    uint8_t bytes[1 << 17];
    size_t at;
    size_t end;
} in;

/* Reads on until so many bytes are there; false where the script ends before. */
static bool fill(size_t wanted)
{
    if (in.end - in.at >= wanted)
        return true;
    memmove(in.bytes, in.bytes + in.at, in.end - in.at);
    in.end -= in.at;
    in.at = 0;
    while (in.end < wanted) {
        const long got = read(0, in.bytes + in.end, sizeof in.bytes - in.end);
        if (got <= 0)
            return false;
        in.end += (size_t)got;
    }
    return true;
}

/* Carries out the next field, which is there at least in part, and gives its length, or 0 where it is malformed. */
static size_t next_field(void)
{
    if (!fill(3))
        return 0;
    const uint8_t tag = in.bytes[in.at];
    const size_t length = get16(in.bytes + in.at + 1);
    if (tag >= sizeof CALLS / sizeof *CALLS || !CALLS[tag].carry_out || !fill(3 + length))
        return 0;
    const struct call *call = &CALLS[tag];
    if (length < call->length || length - call->length > call->more)
        return 0;
    const struct value v = {in.bytes + in.at + 3, length};
    if (!call->carry_out(v))
        return 0;
    in.at += 3 + length;
    return 3 + length;
}

static void put_malformed(uint64_t place)
{
    static const char word[] = "malformed ";
    memcpy(room(), word, sizeof word - 1);
    out.used += sizeof word - 1;
    begin(place);
    end_line();
}

int main(void)
{
    uint64_t place = 0;
    empty_log(&the_log, LAST_REGIME_END);
    fresh_book(&the_book);
    for (size_t k = 0; k < PERIOD_YEARS; k++)
        fresh_year(&years[k]);
    while (fill(1)) {
        const size_t length = next_field();
        if (length == 0) {
            put_malformed(place);
            break;
        }
        place += length;
    }
    flush();
    return 0;
}
