/* The regulator's workbook, exported, read, printed and filled: rules, sections 19 and 20. */
#include "books.h"

/* Where the cells stand, by their index (rule 19.4): four to a year, four balances, the adjustment, three days. */
enum { YEAR_CELLS = 4, BALANCE_CELLS = 20, ADJUSTMENT_CELL = 24, FIRST_DAY_CELL = 25, LAST_DAY_CELL = 26, MEDIAN_CELL = 27 };

/* Whether a float is a whole number in a range. NaN is in none, and only what is in range is cast. */
static bool is_whole(double value, int64_t least, int64_t most)
{
    return (double)least <= value && value <= (double)most && (double)(int64_t)value == value;
}

/* ---- A period in three floats (rule 19.2) */

static bool is_day(double value)
{
    return is_whole(value, FIRST_DAY, LAST_DAY);
}

/* Of two days in range: sum and half are exact. */
static double median_of(double first, double last)
{
    return (first + last) / 2;
}

static bool good_dated(const struct dated *p)
{
    return is_day(p->first) && is_day(p->last) && p->first <= p->last && p->median == median_of(p->first, p->last);
}

int make_period(struct period days, struct dated *period)
{
    *period = (struct dated){0, 0, 0};
    if (!good_period(days))
        return BAD_PERIOD;
    *period = (struct dated){days.first, days.last, median_of(days.first, days.last)};
    return DONE;
}

/* The gap of their days (rule 19.3). */
int gap_of_medians(const struct dated *earlier, const struct dated *later, uint32_t *hundredths)
{
    *hundredths = 0;
    if (!good_dated(earlier) || !good_dated(later))
        return BAD_PERIOD;
    return gap_between((struct period){(uint32_t)earlier->first, (uint32_t)earlier->last},
                       (struct period){(uint32_t)later->first, (uint32_t)later->last}, hundredths);
}

/* ---- Amounts and cells */

/* The range of an amount, by its index (rule 19.4). */
static int64_t most_of(size_t index)
{
    return (int64_t)MOST_AMOUNT * (index < BALANCE_CELLS ? 1 : index < ADJUSTMENT_CELL ? 10 : 30);
}

/* Caps and floors of a year are not negative. */
static int64_t least_of(size_t index)
{
    return index < BALANCE_CELLS && (index % YEAR_CELLS == 1 || index % YEAR_CELLS == 2) ? 0 : -most_of(index);
}

/* W of a year. */
static bool may_be_empty(size_t index)
{
    return index < BALANCE_CELLS && index % YEAR_CELLS == 3;
}

static bool good_amounts(const int64_t amounts[AMOUNTS], size_t from, size_t to)
{
    for (size_t i = from; i < to; i++)
        if (amounts[i] < least_of(i) || amounts[i] > most_of(i))
            return false;
    return true;
}

/* Whether a cell can stand at an index, by itself. A median is whole in half days. */
static bool good_cell(size_t index, const struct cell *cell)
{
    if (cell->kind == EMPTY_CELL)
        return may_be_empty(index);
    if (cell->kind != (index < AMOUNTS ? NUMBER_CELL : DAY_CELL))
        return false;
    if (index < AMOUNTS)
        return is_whole(cell->value, least_of(index), most_of(index));
    return index == MEDIAN_CELL ? is_whole(2 * cell->value, 2 * FIRST_DAY, 2 * LAST_DAY) : is_day(cell->value);
}

/* Whether a cell can stand behind those before it, which can. */
static bool fits(const struct cell cells[CELLS], size_t index)
{
    const double first = cells[FIRST_DAY_CELL].value, last = cells[LAST_DAY_CELL].value;
    if (!good_cell(index, &cells[index]))
        return false;
    if (index == LAST_DAY_CELL)
        return first <= last;
    return index != MEDIAN_CELL || cells[index].value == median_of(first, last);
}

/* A yearly W of 0 stays empty, and nothing else does (rule 19.5). */
int export_cells(const int64_t amounts[AMOUNTS], const struct dated *period, struct cell cells[CELLS])
{
    memset(cells, 0, CELLS * sizeof *cells);
    if (!good_amounts(amounts, 0, BALANCE_CELLS))
        return BAD_YEAR;
    if (!good_dated(period))
        return BAD_PERIOD;
    if (!good_amounts(amounts, BALANCE_CELLS, AMOUNTS))
        return TOO_LARGE;
    for (size_t i = 0; i < AMOUNTS; i++)
        if (amounts[i] != 0 || !may_be_empty(i))
            cells[i] = (struct cell){NUMBER_CELL, (double)amounts[i]};
    cells[FIRST_DAY_CELL] = (struct cell){DAY_CELL, period->first};
    cells[LAST_DAY_CELL] = (struct cell){DAY_CELL, period->last};
    cells[MEDIAN_CELL] = (struct cell){DAY_CELL, period->median};
    return DONE;
}

/* An empty cell and both zeros read as 0 (rule 19.6). */
int read_cells(const struct cell cells[CELLS], int64_t amounts[AMOUNTS], struct dated *period, uint32_t *index)
{
    memset(amounts, 0, AMOUNTS * sizeof *amounts);
    *period = (struct dated){0, 0, 0};
    for (*index = 0; *index < CELLS; ++*index)
        if (!fits(cells, *index))
            return BAD_CELL;
    *index = 0;
    for (size_t i = 0; i < AMOUNTS; i++)
        if (cells[i].kind == NUMBER_CELL)
            amounts[i] = (int64_t)cells[i].value;
    *period = (struct dated){cells[FIRST_DAY_CELL].value, cells[LAST_DAY_CELL].value, cells[MEDIAN_CELL].value};
    return DONE;
}

/* ---- A cell as a line (rule 19.9) */

static uint8_t *put_word(uint8_t *out, const char *word)
{
    while (*word)
        *out++ = (uint8_t)*word++;
    return out;
}

static uint8_t *put_name(uint8_t *out, size_t index)
{
    static const char *const YEARLY[YEAR_CELLS] = {"revenue ", "cap ", "floor ", "within-period adjustment "};
    static const char *const OTHERS[CELLS - BALANCE_CELLS] = {"A",          "C",         "F",        "W",
                                                              "adjustment", "first day", "last day", "median"};
    if (index >= BALANCE_CELLS)
        return put_word(out, OTHERS[index - BALANCE_CELLS]);
    out = put_word(out, YEARLY[index % YEAR_CELLS]);
    *out++ = (uint8_t)('1' + index / YEAR_CELLS);
    return out;
}

int print_cell(uint32_t index, struct cell cell, uint8_t text[TEXT_BYTES], size_t *length)
{
    *length = 0;
    if (index >= CELLS || !good_cell(index, &cell))
        return BAD_CELL;
    uint8_t *end = put_name(text, index);
    *end++ = ',';
    if (cell.kind != EMPTY_CELL) {
        const int64_t halves = (int64_t)(2 * cell.value);
        end += put_signed(end, halves / 2);
        end = put_word(end, halves % 2 == 0 ? "" : ".5");
    }
    *end++ = '\n';
    *length = (size_t)(end - text);
    return DONE;
}

/* ---- Filling (rules 20.1 to 20.3) */

/* What the input has. */
struct filed {
    struct period days;
    struct year years[PERIOD_YEARS];
};

/* Takes a return behind its length. */
static bool take_return(const uint8_t *bytes, size_t length, size_t *at, struct year *year)
{
    size_t place;
    if (length - *at < 2)
        return false;
    const size_t size = get16(bytes + *at);
    *at += 2;
    if (length - *at < size || read_return(bytes + *at, size, year, &place))
        return false;
    *at += size;
    return true;
}

static bool read_filed(const uint8_t *bytes, size_t length, struct filed *filed)
{
    size_t at = 8;
    if (length < at)
        return false;
    filed->days = (struct period){get32(bytes), get32(bytes + 4)};
    for (size_t k = 0; k < PERIOD_YEARS; k++)
        if (!take_return(bytes, length, &at, &filed->years[k]))
            return false;
    return at == length && good_years(filed->years);
}

/* Enters the outages of all years, in order, up to the first that is refused. */
static int enter_outages(const struct year years[PERIOD_YEARS], struct log *log)
{
    empty_log(log, LAST_REGIME_END);
    for (size_t k = 0; k < PERIOD_YEARS; k++)
        for (size_t i = 0; i < years[k].log.count; i++) {
            const int refused = enter(log, years[k].log.entries[i]);
            if (refused)
                return refused;
        }
    return DONE;
}

/* The amounts of cells 0 to 24. */
static void list_amounts(const struct row rows[PERIOD_YEARS], const struct assessment *found, int64_t amounts[AMOUNTS])
{
    for (size_t k = 0; k < PERIOD_YEARS; k++) {
        *amounts++ = rows[k].revenue;
        *amounts++ = rows[k].cap;
        *amounts++ = rows[k].floor;
        *amounts++ = rows[k].within;
    }
    *amounts++ = found->revenue;
    *amounts++ = found->cap;
    *amounts++ = found->floor;
    *amounts++ = found->within;
    *amounts = found->adjustment;
}

int fill_workbook(const uint8_t *bytes, size_t length, struct cell cells[CELLS])
{
    struct filed filed;
    struct book book;
    struct log log;
    struct row rows[PERIOD_YEARS];
    struct assessment found;
    struct dated period;
    int64_t amounts[AMOUNTS];
    memset(cells, 0, CELLS * sizeof *cells);
    if (!read_filed(bytes, length, &filed))
        return MALFORMED;
    fresh_book(&book);
    int refused = enter_outages(filed.years, &log);
    if (!refused)
        refused = rows_of(&book, filed.years, &log, rows);
    if (!refused)
        refused = assess(rows, &found);
    if (!refused)
        refused = make_period(filed.days, &period);
    if (refused)
        return refused;
    list_amounts(rows, &found, amounts);
    return export_cells(amounts, &period, cells);
}
