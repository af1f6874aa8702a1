/* A tool of an operator's own that calls Gulmorzon. It splits two sheets, looks addresses up, counts the churn between the
 * two tables, plans a third sheet in numbers, reads gauges, puts new weights on a service's rules, cuts a change into stages
 * and shows refusals and short buffers. Each answer is printed and checked: the exit status is 1 if one is wrong. */
#include "gulmorzon.h"

#include <math.h>
#include <stdio.h>
#include <string.h>

#define SHEET "SHEET 5 2 5\nSERVICE 55 1:16.6667 2:33.3333 3:50\nSERVICE 45 1:25 2:25 3:50\n"
#define OTHER "SHEET 5 2 5\nSERVICE 55 1:50 2:33.3333 3:16.6667\nSERVICE 45 1:25 2:25 3:50\n"
#define EQUAL "SHEET 5 2 5\nSERVICE 55 1:50 2:50\nSERVICE 45 7:50 7:50\n"
#define BAD "SHEET 5 2 5\nSERVICE 55 1:50 2:50\nSERVICE 45 1:18.4.2 2:81.6\n"
#define TABLE "TABLE 5 5 29333392000\n1 *0 2\n1 * 3\n2 *00 2\n2 *0 1\n2 * 3\n"
#define NEWER "TABLE 5 5 29333392000\n1 *0 2\n1 * 1\n2 *00 2\n2 *0 1\n2 * 3\n"
#define SHALLOW "TABLE 1 1 0\n1 * 1\n"

/* Six decimals. Backend 2 of FINE wants a hundred-millionth, which no suffix of twelve bits is: 4,096 parts of GULMORZON_UNIT x 2^12
 * are left, times the volume. FINER has a seventh decimal. FULL has the largest total, OVER one more. */
#define TEXT(number) #number
#define HEAD(total) "TABLE 1 1 " TEXT(total)
#define FINE "SHEET 12 0 2\nSERVICE 10000 1:99.999999 2:0.000001\n"
#define FINE_TABLE "TABLE 12 1 40960000\n1 * 1\n"
#define FINER "SHEET 12 0 2\nSERVICE 10000 1:99.9999990 2:0.000001\n"
#define FULL HEAD(GULMORZON_TOTAL) "\n1 * 1\n"
#define OVER "TABLE 1 1 262144000000000001\n1 * 1\n"

/* Planned in numbers: k, services, rules, each service's grant, list and end, and all ids are unlike, so that none is taken for
 * another. The lists end within tolerance (0), at no gain (1) and at the budget (2). */
#define MIXED \
    "SHEET 12 0 8\nSERVICE 2 11:25 105:50 1200:25\nSERVICE 20 9:33.3334 60:33.3333 9999:33.3333\n" \
    "SERVICE 6 201:7 202:7 203:7 204:7 205:7 206:7 207:7 208:7 209:7 210:7 211:7 212:7 213:7 9998:9\n"
#define FIGURES {2, 3, 0, 5, 13, 1, 1, 32, 2}
#define NUMBERS \
    {1, 1, 0, 11, 1, 0, 0, 105, 2, 4, 2, 9999, 2, 3, 1, 60, 2, 2, 0, 9999, 2, 1, 0, 60, 2, 0, 0, 9, 3, 0, 0, 9998}

/* Gauges. In LOADED backend 1 holds 13 of 32 suffixes of service 1 and all of service 2; in DEEP 1,365 of 4,096. NAMED is LOADED
 * with other ids. */
#define LOADED "TABLE 5 5 0\n1 *00000 1\n1 *000 2\n1 *0 1\n1 * 2\n2 * 1\n"
#define NAMED "TABLE 5 5 0\n1 *00000 70\n1 *000 9999\n1 *0 70\n1 * 9999\n2 * 70\n"
#define DEEP \
    "TABLE 12 7 331968000000\n1 *001010101010 1\n1 *0010101010 1\n1 *00101010 1\n1 *001010 1\n1 *0010 1\n1 *00 1\n1 * 2\n"

/* New weights. Service 2 of AGED has the rules of 16.6667 33.3333 50 (document 01, case P1) with ids of its own. With the weights
 * of CHANGED its new list is *01010 700, *0010 40, *00 700, * 9999, which keeps one rule. EXACT allows no error, and no list gets
 * there. In RETIRED backend 9999 is gone and 3 has come in: two rules are kept, and *1 3 takes all that * gave to 9999. On CALM a
 * list from two kept rules would be within tolerance too and would move 16 suffixes; that from * alone moves 11. */
#define AGED "TABLE 5 5 0\n1 * 8\n2 *00100 40\n2 *000 40\n2 *0 700\n2 * 9999\n"
#define CHANGED "SHEET 5 2 5\nSERVICE 1 8:100\nSERVICE 1 40:5 700:30 9999:65\n"
#define EXACT "SHEET 5 0 5\nSERVICE 1 8:100\nSERVICE 1 40:5 700:30 9999:65\n"
#define RETIRED "SHEET 5 5 5\nSERVICE 1 8:100\nSERVICE 1 3:50 40:16.6667 700:33.3333\n"
#define CALM "SHEET 5 2 5\nSERVICE 1 8:100\nSERVICE 1 40:25 700:0 9999:75\n"
#define DEEPER "SHEET 6 2 5\nSERVICE 1 8:100\nSERVICE 1 40:5 700:30 9999:65\n"
#define ALONE "SHEET 5 2 5\nSERVICE 1 8:100\n"
#define NEW_RULES {5, 10, 700, 4, 2, 40, 2, 0, 700, 0, 0, 9999}
#define RETIRED_RULES {3, 0, 40, 1, 1, 3, 1, 0, 700, 0, 0, 9999}
#define CALM_RULES {2, 0, 40, 0, 0, 9999}

/* A change in stages. From AGED to NEXT 13 suffixes of service 2 move, at the places 0 to 4 and 8 to 15. With a limit of 6 the
 * stages end at the places 9, 15 and 32 and have 6, 6 and 3 lines. */
#define NEXT "TABLE 5 3 0\n1 * 8\n2 *00 700\n2 * 9999\n"
#define LONE "TABLE 5 1 0\n1 * 8\n"
#define PLACES {9, 15, 32}
#define FIRST_STAGE "2 *00 700\n2 *00010 9999\n2 *10010 700\n2 *1010 700\n2 *110 700\n2 *1 9999\n"
#define LAST_STAGE "2 *00 700\n2 *10 9999\n2 *1 9999\n"

#define LEN(text) (sizeof(text) - 1)

static int wrong = 0;

static void check(const char *what, int right)
{
    if (!right) {
        printf("WRONG: %s\n", what);
        wrong = 1;
    }
}

static void expect(const char *what, struct gulmorzon_answer a, size_t number, size_t line, size_t sheet, size_t value)
{
    printf("%s: number %zu, line %zu, sheet %zu, value %zu\n", what, a.number, a.line, a.sheet, a.value);
    check(what, a.number == number && a.line == line && a.sheet == sheet && a.value == value);
}

/* Whether every byte from one on is as fresh() left it. */
static int untouched(const void *buffer, size_t from, size_t to)
{
    const unsigned char *bytes = buffer;
    while (from < to)
        if (bytes[from++] != 0xEE)
            return 0;
    return 1;
}

static void fresh(void *buffer, size_t size)
{
    memset(buffer, 0xEE, size);
}

static void split(const char *what, const char *sheet, size_t len, const char *table, size_t table_len)
{
    static char out[GULMORZON_TEXT];
    fresh(out, sizeof out);
    struct gulmorzon_answer a = gulmorzon_split(sheet, len, out, sizeof out);
    expect(what, a, GULMORZON_ANSWERED, 0, 0, table_len);
    fwrite(out, 1, table_len, stdout);
    check("the rule sheet", memcmp(out, table, table_len) == 0 && untouched(out, table_len, sizeof out));
}

static void refused(const char *what, const char *sheet, size_t len, size_t room, size_t number, size_t line)
{
    static char out[GULMORZON_TEXT];
    fresh(out, sizeof out);
    expect(what, gulmorzon_split(sheet, len, out, room), number, line, 0, 0);
    check("nothing is written", untouched(out, 0, sizeof out));
}

static void splits(void)
{
    static char long_text[GULMORZON_TEXT + 1];
    memset(long_text, ' ', sizeof long_text);
    split("split", SHEET, LEN(SHEET), TABLE, LEN(TABLE));
    split("split the other", OTHER, LEN(OTHER), NEWER, LEN(NEWER));
    split("split, six decimals", FINE, LEN(FINE), FINE_TABLE, LEN(FINE_TABLE));
    refused("split, seven decimals", FINER, LEN(FINER), GULMORZON_TEXT, GULMORZON_BAD_FIELD, 2);
    refused("split, a bad percentage", BAD, LEN(BAD), GULMORZON_TEXT, GULMORZON_BAD_FIELD, 3);
    refused("split, two backends of one id", EQUAL, LEN(EQUAL), GULMORZON_TEXT, GULMORZON_BAD_FIELD, 3);
    refused("split, no text", SHEET, 0, GULMORZON_TEXT, GULMORZON_MALFORMED, 1);
    refused("split, a long text", long_text, sizeof long_text, GULMORZON_TEXT, GULMORZON_TOO_LONG, 0);
    refused("split, a byte too few", SHEET, LEN(SHEET), LEN(TABLE) - 1, GULMORZON_SHORT_LOAN, 0);
}

static void lookups(void)
{
    expect("lookup of 0", gulmorzon_lookup(TABLE, LEN(TABLE), 1, 0), 0, 0, 0, 2);
    expect("lookup of 10.0.0.1", gulmorzon_lookup(TABLE, LEN(TABLE), 1, 0x0A000001), 0, 0, 0, 3);
    expect("lookup of 255.255.255.254", gulmorzon_lookup(TABLE, LEN(TABLE), 2, 0xFFFFFFFE), 0, 0, 0, 1);
    expect("lookup, no such service", gulmorzon_lookup(TABLE, LEN(TABLE), 3, 0), GULMORZON_UNKNOWN_SERVICE, 0, 0, 0);
    expect("lookup, the largest total", gulmorzon_lookup(FULL, LEN(FULL), 1, 0), 0, 0, 0, 1);
    expect("lookup, a larger total", gulmorzon_lookup(OVER, LEN(OVER), 1, 0), GULMORZON_BAD_FIELD, 1, 0, 0);
    expect("lookup in a percentage sheet", gulmorzon_lookup(SHEET, LEN(SHEET), 1, 0), GULMORZON_MALFORMED, 1, 0, 0);
}

static void churns(void)
{
    expect("churn of service 1", gulmorzon_churn(TABLE, LEN(TABLE), NEWER, LEN(NEWER), 1), 0, 0, 0, 16);
    expect("churn of service 2", gulmorzon_churn(TABLE, LEN(TABLE), NEWER, LEN(NEWER), 2), 0, 0, 0, 0);
    expect("churn, the second sheet cut", gulmorzon_churn(TABLE, LEN(TABLE), NEWER, LEN(NEWER) - 1, 1),
           GULMORZON_MALFORMED, 6, 2, 0);
    expect("churn, no such service in the second", gulmorzon_churn(TABLE, LEN(TABLE), SHALLOW, LEN(SHALLOW), 2),
           GULMORZON_UNKNOWN_SERVICE, 0, 2, 0);
    expect("churn, unlike k", gulmorzon_churn(TABLE, LEN(TABLE), SHALLOW, LEN(SHALLOW), 1), GULMORZON_DEPTH, 0, 0, 0);
}

/* The one call with so much room in its two buffers: all its numbers, or nothing written. */
static void plan(const char *what, const char *sheet, size_t len, size_t figures_len, size_t table_len,
                 struct gulmorzon_plan_answer want)
{
    static const size_t want_figures[] = FIGURES;
    static const size_t want_table[] = NUMBERS;
    static size_t figures[GULMORZON_FIGURES], table[GULMORZON_TABLE];
    fresh(figures, sizeof figures);
    fresh(table, sizeof table);
    struct gulmorzon_plan_answer a = gulmorzon_plan(sheet, len, figures, figures_len, table, table_len);
    int made = want.number == GULMORZON_ANSWERED;
    size_t figures_end = made ? sizeof want_figures : 0, table_end = made ? sizeof want_table : 0;
    printf("%s: number %zu, line %zu, buffer %zu, k %zu, services %zu, rules %zu, total %llu\n", what, a.number, a.line,
           a.buffer, a.k, a.services, a.rules, (unsigned long long)a.total);
    check(what, a.number == want.number && a.line == want.line && a.buffer == want.buffer && a.k == want.k
                    && a.services == want.services && a.rules == want.rules && a.total == want.total);
    check("figures", memcmp(figures, want_figures, figures_end) == 0 && untouched(figures, figures_end, sizeof figures));
    check("table", memcmp(table, want_table, table_end) == 0 && untouched(table, table_end, sizeof table));
}

static void plans(void)
{
    static const struct gulmorzon_plan_answer made = {.k = 12, .services = 3, .rules = 8, .total = 2782543872000};
    static const struct gulmorzon_plan_answer bad = {.number = GULMORZON_BAD_FIELD, .line = 3};
    static const struct gulmorzon_plan_answer short_figures = {.number = GULMORZON_SHORT_LOAN, .buffer = 1};
    static const struct gulmorzon_plan_answer short_table = {.number = GULMORZON_SHORT_LOAN, .buffer = 2};
    plan("plan", MIXED, LEN(MIXED), GULMORZON_FIGURES, GULMORZON_TABLE, made);
    plan("plan, just enough room", MIXED, LEN(MIXED), 9, 32, made);
    plan("plan, a bad percentage", BAD, LEN(BAD), GULMORZON_FIGURES, GULMORZON_TABLE, bad);
    plan("plan, figures too short", MIXED, LEN(MIXED), 8, 32, short_figures);
    plan("plan, table too short", MIXED, LEN(MIXED), 9, 31, short_table);
    plan("plan, both too short", MIXED, LEN(MIXED), 8, 31, short_figures);
}

/* The same double; 0 is plus zero. */
static int same(double x, double y)
{
    return x == y && !signbit(x);
}

static void record(const char *what, const char *table, size_t len, size_t service, uint64_t volume, size_t backend,
                   struct gulmorzon_gauges_answer want)
{
    struct gulmorzon_gauges_answer a = gulmorzon_gauges(table, len, service, volume, backend);
    printf("%s: number %zu, line %zu, share %.17g, load %.17g\n", what, a.number, a.line, a.gauges.share, a.gauges.load);
    check(what, a.number == want.number && a.line == want.line);
    check("share and load", same(a.gauges.share, want.gauges.share) && same(a.gauges.load, want.gauges.load));
}

static void records(void)
{
    static const struct gulmorzon_gauges_answer part = {.gauges = {13.0 / 32.0, 55.0 * 13.0 / 32.0}};
    static const struct gulmorzon_gauges_answer rest = {.gauges = {0.59375, 32.65625}};
    static const struct gulmorzon_gauges_answer whole = {.gauges = {1.0, 10000.0}}, idle = {.gauges = {1.0, 0.0}};
    static const struct gulmorzon_gauges_answer deep = {.gauges = {1365.0 / 4096.0, 9999.0 * 1365.0 / 4096.0}};
    static const struct gulmorzon_gauges_answer nothing = {.number = GULMORZON_ANSWERED};
    static const struct gulmorzon_gauges_answer cut = {.number = GULMORZON_MALFORMED, .line = 6};
    static const struct gulmorzon_gauges_answer unknown = {.number = GULMORZON_UNKNOWN_SERVICE};
    static const struct gulmorzon_gauges_answer bad = {.number = GULMORZON_BAD_FIELD};
    record("gauges of 13 in 32", LOADED, LEN(LOADED), 1, 55, 1, part);
    record("gauges of 19 in 32", LOADED, LEN(LOADED), 1, 55, 2, rest);
    record("gauges of a whole tree", LOADED, LEN(LOADED), 2, 10000, 1, whole);
    record("gauges, no volume", LOADED, LEN(LOADED), 2, 0, 1, idle);
    record("gauges of 1,365 in 4,096", DEEP, LEN(DEEP), 1, 9999, 1, deep);
    record("gauges of id 9,999", NAMED, LEN(NAMED), 1, 55, 9999, rest);
    record("gauges, nothing held", LOADED, LEN(LOADED), 1, 55, 9999, nothing);
    record("gauges, the sheet cut, no such service", LOADED, LEN(LOADED) - 1, 3, 10001, 0, cut);
    record("gauges, no such service, a bad volume", LOADED, LEN(LOADED), 3, 10001, 0, unknown);
    record("gauges, a bad volume", LOADED, LEN(LOADED), 1, 10001, 1, bad);
    record("gauges, backend 0", LOADED, LEN(LOADED), 1, 55, 0, bad);
    record("gauges, backend 10,000", LOADED, LEN(LOADED), 1, 55, GULMORZON_ID + 1, bad);
}

static void reading(const char *what, size_t len, size_t service, uint64_t volume, size_t backend, size_t gauge,
                    struct gulmorzon_reading_answer want)
{
    struct gulmorzon_reading_answer a = gulmorzon_reading(LOADED, len, service, volume, backend, gauge);
    printf("%s: number %zu, line %zu, mark %zu, value %.17g\n", what, a.number, a.line, a.mark, a.value);
    check(what, a.number == want.number && a.line == want.line && a.mark == want.mark && same(a.value, want.value));
}

static void readings(void)
{
    static const struct gulmorzon_reading_answer share = {.mark = GULMORZON_SHARE, .value = 13.0 / 32.0};
    static const struct gulmorzon_reading_answer load = {.mark = GULMORZON_LOAD, .value = 55.0 * 13.0 / 32.0};
    static const struct gulmorzon_reading_answer no_share = {.mark = GULMORZON_SHARE}, no_load = {.mark = GULMORZON_LOAD};
    static const struct gulmorzon_reading_answer whole = {.mark = GULMORZON_LOAD, .value = 10000.0};
    static const struct gulmorzon_reading_answer absent = {.mark = GULMORZON_ABSENT};
    static const struct gulmorzon_reading_answer cut = {.number = GULMORZON_MALFORMED, .line = 6};
    static const struct gulmorzon_reading_answer bad = {.number = GULMORZON_BAD_FIELD};
    reading("share of 13 in 32", LEN(LOADED), 1, 55, 1, GULMORZON_SHARE, share);
    reading("load of 13 in 32", LEN(LOADED), 1, 55, 1, GULMORZON_LOAD, load);
    reading("load of a whole tree", LEN(LOADED), 2, 10000, 1, GULMORZON_LOAD, whole);
    reading("share, nothing held", LEN(LOADED), 1, 55, 9999, GULMORZON_SHARE, no_share);
    reading("load, nothing held", LEN(LOADED), 1, 55, 9999, GULMORZON_LOAD, no_load);
    reading("reading, the sheet cut, no such service", LEN(LOADED) - 1, 3, 10001, 0, 0, cut);
    reading("reading, no such service", LEN(LOADED), 3, 55, 1, GULMORZON_SHARE, absent);
    reading("reading, no such service, a bad volume", LEN(LOADED), 0, 10001, 10000, GULMORZON_LOAD, absent);
    reading("reading, no such service, no such gauge", LEN(LOADED), 3, 10001, 0, 3, absent);
    reading("reading, a bad volume", LEN(LOADED), 1, 10001, 1, GULMORZON_SHARE, bad);
    reading("reading, backend 0", LEN(LOADED), 1, 55, 0, GULMORZON_LOAD, bad);
    reading("reading, backend 10,000", LEN(LOADED), 1, 55, GULMORZON_ID + 1, GULMORZON_SHARE, bad);
    reading("reading, gauge 0", LEN(LOADED), 1, 55, 1, 0, bad);
    reading("reading, gauge 3", LEN(LOADED), 1, 55, 1, 3, bad);
    reading("reading, gauge 8", LEN(LOADED), 1, 55, 1, GULMORZON_ABSENT, bad);
}

/* New weights on a service's rules in AGED, of which len bytes are lent, with room for so many numbers: the new list, of three
 * numbers for each rule, or nothing written. */
static void update_to(const char *what, size_t len, const char *sheet, size_t sheet_len, size_t service, size_t room,
                      struct gulmorzon_update_answer want, const size_t *want_rules)
{
    static size_t rules[GULMORZON_RULES];
    fresh(rules, sizeof rules);
    struct gulmorzon_update_answer a = gulmorzon_update(AGED, len, sheet, sheet_len, service, rules, room);
    size_t end = 3 * want.rules * sizeof rules[0];
    printf("%s: number %zu, line %zu, sheet %zu, k %zu, kept %zu, rules %zu, churn %zu\n", what, a.number, a.line, a.sheet,
           a.k, a.kept, a.rules, a.churn);
    check(what, a.number == want.number && a.line == want.line && a.sheet == want.sheet && a.k == want.k
                    && a.kept == want.kept && a.rules == want.rules && a.churn == want.churn);
    check("rules", memcmp(rules, want_rules, end) == 0 && untouched(rules, end, sizeof rules));
}

static void update(const char *what, size_t len, const char *sheet, size_t sheet_len, size_t service, size_t room,
                   struct gulmorzon_update_answer want)
{
    static const size_t want_rules[] = NEW_RULES;
    update_to(what, len, sheet, sheet_len, service, room, want, want_rules);
}

static void updates(void)
{
    static const size_t retired_rules[] = RETIRED_RULES, calm_rules[] = CALM_RULES;
    static const struct gulmorzon_update_answer calm = {.k = 5, .kept = 1, .rules = 2, .churn = 11};
    static const struct gulmorzon_update_answer retired = {.k = 5, .kept = 2, .rules = 4, .churn = 17};
    static const struct gulmorzon_update_answer made = {.k = 5, .kept = 1, .rules = 4, .churn = 12};
    static const struct gulmorzon_update_answer stuck = {.number = GULMORZON_STUCK};
    static const struct gulmorzon_update_answer short_rules = {.number = GULMORZON_SHORT_LOAN};
    static const struct gulmorzon_update_answer cut = {.number = GULMORZON_MALFORMED, .line = 6, .sheet = 1};
    static const struct gulmorzon_update_answer bad = {.number = GULMORZON_BAD_FIELD, .line = 3, .sheet = 2};
    static const struct gulmorzon_update_answer in_neither = {.number = GULMORZON_UNKNOWN_SERVICE, .sheet = 1};
    static const struct gulmorzon_update_answer unweighted = {.number = GULMORZON_UNKNOWN_SERVICE, .sheet = 2};
    static const struct gulmorzon_update_answer unlike = {.number = GULMORZON_DEPTH};
    size_t len = LEN(AGED), all = GULMORZON_RULES;
    update("update", len, CHANGED, LEN(CHANGED), 2, all, made);
    update("update, just enough room", len, CHANGED, LEN(CHANGED), 2, 12, made);
    update("update, rules too short", len, CHANGED, LEN(CHANGED), 2, 11, short_rules);
    update("update, stuck", len, EXACT, LEN(EXACT), 2, all, stuck);
    update("update, stuck, no room", len, EXACT, LEN(EXACT), 2, 0, stuck);
    update("update, the rule sheet cut, a bad percentage", len - 1, BAD, LEN(BAD), 3, 0, cut);
    update("update, a bad percentage, no such service", len, BAD, LEN(BAD), 3, 0, bad);
    update("update, no such service in either", len, CHANGED, LEN(CHANGED), 3, all, in_neither);
    update("update, no such service in the second", len, ALONE, LEN(ALONE), 2, all, unweighted);
    update("update, unlike k", len, DEEPER, LEN(DEEPER), 2, all, unlike);
    update_to("update, one backend retired and another come in", len, RETIRED, LEN(RETIRED), 2, all, retired, retired_rules);
    update_to("update, the lowest churn with one rule kept", len, CALM, LEN(CALM), 2, 6, calm, calm_rules);
}

/* The row of places of service 2 from AGED to another table, with room for so many: the first ones of PLACES, or nothing
 * written. */
static void row(const char *what, size_t len, const char *next, size_t next_len, size_t limit, size_t capacity, size_t room,
                size_t number, size_t line, size_t sheet, size_t value)
{
    static const size_t want[] = PLACES;
    static size_t places[GULMORZON_PLACES];
    fresh(places, sizeof places);
    struct gulmorzon_answer a = gulmorzon_stages(AGED, len, next, next_len, 2, limit, capacity, places, room);
    size_t end = value * sizeof places[0];
    expect(what, a, number, line, sheet, value);
    check("places", memcmp(places, want, end) == 0 && untouched(places, end, sizeof places));
}

static void rows(void)
{
    size_t len = LEN(AGED), next = LEN(NEXT), all = GULMORZON_PLACES;
    row("stages", len, NEXT, next, 6, 2048, all, 0, 0, 0, 3);
    row("stages, just enough lines and room", len, NEXT, next, 6, 6, 3, 0, 0, 0, 3);
    row("stages, places too short", len, NEXT, next, 6, 6, 2, GULMORZON_SHORT_LOAN, 0, 0, 0);
    row("stages, crowded, no room", len, NEXT, next, 6, 5, 0, GULMORZON_CROWDED, 0, 0, 0);
    row("stages, both sheets cut", len - 1, NEXT, next - 1, 0, 0, 0, GULMORZON_MALFORMED, 6, 1, 0);
    row("stages, the second sheet cut", len, NEXT, next - 1, 0, 0, 0, GULMORZON_MALFORMED, 4, 2, 0);
    row("stages, no such service in the second", len, LONE, LEN(LONE), 0, 0, 0, GULMORZON_UNKNOWN_SERVICE, 0, 2, 0);
    row("stages, unlike k", len, "TABLE 6 1 0\n2 * 1\n", 18, 0, 0, 0, GULMORZON_DEPTH, 0, 0, 0);
    row("stages, limit 0", len, NEXT, next, 0, 5, 0, GULMORZON_BAD_FIELD, 0, 0, 0);
    row("stages, limit 4,097", len, NEXT, next, 4097, 5, 0, GULMORZON_BAD_FIELD, 0, 0, 0);
    row("stages, capacity 0", len, NEXT, next, 6, 0, 0, GULMORZON_BAD_FIELD, 0, 0, 0);
    row("stages, capacity 2,049", len, NEXT, next, 6, 2049, 0, GULMORZON_BAD_FIELD, 0, 0, 0);
}

/* One stage of this change, with room for so many bytes: its text, or nothing written. */
static void stage(const char *what, size_t capacity, size_t stage_number, size_t room, const char *want, size_t want_len,
                  size_t number)
{
    static char out[GULMORZON_STAGE];
    fresh(out, sizeof out);
    struct gulmorzon_answer a =
        gulmorzon_stage(AGED, LEN(AGED), NEXT, LEN(NEXT), 2, 6, capacity, stage_number, out, room);
    expect(what, a, number, 0, 0, want_len);
    fwrite(out, 1, want_len, stdout);
    check("the lines", memcmp(out, want, want_len) == 0 && untouched(out, want_len, sizeof out));
}

/* The most stages: k 12, every suffix moved, one by one. */
static void deepest(void)
{
    static const char before[] = "TABLE 12 1 0\n64 * 1\n", after[] = "TABLE 12 1 0\n64 * 9999\n";
    static size_t places[GULMORZON_PLACES];
    static char out[GULMORZON_STAGE];
    expect("stages, every suffix of 12 bits",
           gulmorzon_stages(before, LEN(before), after, LEN(after), 64, 1, 13, places, GULMORZON_PLACES), 0, 0, 0, 4096);
    check("its places", places[0] == 1 && places[4094] == 4095 && places[4095] == 4096);
    expect("the last stage but one",
           gulmorzon_stage(before, LEN(before), after, LEN(after), 64, 1, 13, 4095, out, sizeof out), 0, 0, 0, 217);
    fwrite(out, 1, LEN("64 *0 9999\n"), stdout);
}

static void stages(void)
{
    size_t all = GULMORZON_STAGE, first = LEN(FIRST_STAGE);
    stage("the first stage", 2048, 1, all, FIRST_STAGE, first, 0);
    stage("the last stage, just enough lines", 6, 3, all, LAST_STAGE, LEN(LAST_STAGE), 0);
    stage("the first stage, just enough room", 6, 1, first, FIRST_STAGE, first, 0);
    stage("the first stage, a byte too few", 6, 1, first - 1, "", 0, GULMORZON_SHORT_LOAN);
    stage("the last stage, another is crowded", 5, 3, 0, "", 0, GULMORZON_CROWDED);
    stage("stage 0", 5, 0, 0, "", 0, GULMORZON_BAD_FIELD);
    stage("stage 4", 5, 4, 0, "", 0, GULMORZON_BAD_FIELD);
}

int main(void)
{
    splits();
    lookups();
    churns();
    plans();
    records();
    readings();
    updates();
    rows();
    stages();
    deepest();
    return wrong;
}
