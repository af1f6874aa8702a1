/* Gulmorzon for C: split a percentage sheet, look an address up, count the churn between two rule sheets, read the gauges
 * of a backend, put new weights on a service's rules, cut a change into stages.
 *
 * Link target/staticlib/libgulmorzon.a, which `tools/build gulmorzon` proves and builds for x86-64 Linux. It needs memcpy
 * and memset and nothing else. What each call answers and writes is proved for every input; the contracts stand in
 * crates/gulmorzon/src/lib.rt. Nothing compares this header with them but examples/caller.
 *
 * What a caller owes, since a call cannot test it:
 *   - a pointer is not null, even where the length is 0, and is aligned for its type;
 *   - it points to as many elements as the length says, each of them set;
 *   - a buffer that is written overlaps no other argument;
 *   - the thread has GULMORZON_STACK bytes of stack left;
 *   - its rounding mode is C's default, to nearest (in another one a gauge of 0 may be -0).
 * The calls keep nothing between them and allocate nothing: threads may call at the same time.
 *
 * Texts are bytes with a length; a zero byte does not end them. Lengths of figures, table, rules and places are counted in
 * numbers. In every call a service has the number that is printed for it, from 1 to GULMORZON_SERVICES, and a backend its id,
 * as the sheets have it, from 1 to GULMORZON_ID.
 */
#ifndef GULMORZON_H
#define GULMORZON_H

#include <stddef.h>
#include <stdint.h>

#if SIZE_MAX != UINT64_MAX
#error "libgulmorzon.a is for 64-bit programs"
#endif

#ifdef __cplusplus
extern "C" {
#endif

/* Buffers of these lengths are long enough for every answer. */
#define GULMORZON_TEXT 65536   /* bytes of a rule sheet */
#define GULMORZON_FIGURES 192  /* 64 services, three numbers each */
#define GULMORZON_TABLE 8192   /* 2,048 rules, four numbers each */
#define GULMORZON_RULES 96     /* 32 rules, three numbers each */
#define GULMORZON_PLACES 4096  /* 4,096 stages, one number each */
#define GULMORZON_STAGE 45056  /* bytes of a stage's list: 2,048 lines of at most 22 */

#define GULMORZON_STACK 262144

/* The largest number of a service, the largest id of a backend, and how many backends a service of a percentage sheet may have. */
#define GULMORZON_SERVICES 64
#define GULMORZON_ID 9999
#define GULMORZON_BACKENDS 32

/* 100 percent in the parts that a percentage counts, and the largest total. */
#define GULMORZON_UNIT 100000000
#define GULMORZON_TOTAL 262144000000000000

/* An answer's number: 0, or why the call was refused (document 01, "Turned-back work"; 13 and 14 are document 02's, Req
 * 03 and 06). */
enum gulmorzon_number {
    GULMORZON_ANSWERED = 0,
    GULMORZON_MALFORMED = 1,       /* LF missing, keyword wrong, or too few or too many fields */
    GULMORZON_BAD_FIELD = 2,       /* a field not of its form or limits, an id not above the one before it, or a number of
                                      the call out of its limits */
    GULMORZON_UNBALANCED = 3,      /* weights don't sum to 100 percent */
    GULMORZON_TOO_MANY = 4,        /* a 65th service, a 33rd backend or a 33rd rule of a service */
    GULMORZON_NO_SERVICE = 5,      /* only line 1 */
    GULMORZON_TABLE_SHORT = 6,     /* a capacity below the number of services */
    GULMORZON_SHORT_LOAN = 7,      /* a lent buffer is too short */
    GULMORZON_UNKNOWN_SERVICE = 8, /* a service that isn't there */
    GULMORZON_ORDER = 9,           /* a rule line out of order */
    GULMORZON_MISCOUNT = 10,       /* n isn't the number of rule lines */
    GULMORZON_TOO_LONG = 11,       /* a text over 65,536 bytes */
    GULMORZON_DEPTH = 12,          /* two sheets of unlike k, for churn, an update or stages */
    GULMORZON_STUCK = 13,          /* no kept rules lead to a list within tolerance */
    GULMORZON_CROWDED = 14         /* a stage's list has more lines than the capacity */
};

/* Answered: number 0 and the value; line and sheet are 0. Refused: the number, the line from 1 or 0 where no line is the
 * reason, and for churn and stages the sheet, 1 or 2, or 0 for neither; the value is 0. A refused call has written nothing. */
struct gulmorzon_answer {
    size_t number;
    size_t line;
    size_t sheet;
    size_t value;
};

/* The same for the one call. Answered: k, the numbers of services and rules, and the total, from 0 to GULMORZON_TOTAL in parts
 * of GULMORZON_UNIT x 2^k to one unit of volume. Refused as 7: buffer 1 where figures is too short, 2 where table is; else 0. */
struct gulmorzon_plan_answer {
    size_t number;
    size_t line;
    size_t buffer;
    size_t k;
    size_t services;
    size_t rules;
    uint64_t total;
};

/* The gauges of a backend of a service: share is the part of its 2^k suffixes that the backend holds, load is the service's
 * volume times the share. Both doubles are exact, so that == against the fraction holds; a backend that holds nothing reads
 * 0, never -0. */
struct gulmorzon_gauge_record {
    double share;
    double load;
};

/* Answered: number 0 and the record. Refused: the number, the line as above, and a record of zeros. */
struct gulmorzon_gauges_answer {
    size_t number;
    size_t line;
    struct gulmorzon_gauge_record gauges;
};

/* Which gauge is read, and the mark of what was read. GULMORZON_ABSENT is only a mark. */
enum gulmorzon_gauge {
    GULMORZON_SHARE = 1,
    GULMORZON_LOAD = 2,
    GULMORZON_ABSENT = 8 /* the service isn't there, in place of GULMORZON_UNKNOWN_SERVICE */
};

/* Answered: number 0, the mark, and the value of that gauge, 0 where the service is absent: look at the mark before the
 * value. Refused: the number and the line as above; mark and value are 0. */
struct gulmorzon_reading_answer {
    size_t number;
    size_t line;
    size_t mark;
    double value;
};

/* Answered: number 0, k, how many of the oldest rules were kept, how many rules the new list has, and the churn, how many
 * of the 2^k suffixes have another backend than in the old list. Refused: the number, the line as above, and the sheet, 1
 * for the rule sheet and 2 for the percentage sheet, or 0 for neither; the rest is 0. A refused call has written nothing. */
struct gulmorzon_update_answer {
    size_t number;
    size_t line;
    size_t sheet;
    size_t k;
    size_t kept;
    size_t rules;
    size_t churn;
};

/* Splits a percentage sheet: writes its rule sheet from the start of out. The value is its number of bytes; no zero byte
 * is added, and the rest of out stays as it was. */
struct gulmorzon_answer gulmorzon_split(const char *text, size_t text_len, char *out, size_t out_len);

/* The backend, by its id, of the first line of a service in a rule sheet that matches an address. */
struct gulmorzon_answer gulmorzon_lookup(const char *text, size_t text_len, size_t service, uint32_t address);

/* The number of k-bit suffixes of a service whose backend doesn't have the same id in two rule sheets. */
struct gulmorzon_answer gulmorzon_churn(const char *old_text, size_t old_len, const char *new_text, size_t new_len,
                                        size_t service);

/* Share and load of a backend of a service in a rule sheet, for a volume of 0 to 10,000. A backend is named by its id, 1 to
 * 9,999, and need not be in the sheet: one that holds nothing reads 0. After the sheet's own refusals come 8, then 2 with line
 * 0 for a volume or an id out of its limits. */
struct gulmorzon_gauges_answer gulmorzon_gauges(const char *text, size_t text_len, size_t service, uint64_t volume,
                                                size_t backend);

/* One of the two: gauge is GULMORZON_SHARE or GULMORZON_LOAD. The limits are the same, and any other gauge is 2 with line 0
 * too. A service that isn't there is no refusal here, whatever the other numbers are: the mark is GULMORZON_ABSENT. */
struct gulmorzon_reading_answer gulmorzon_reading(const char *text, size_t text_len, size_t service, uint64_t volume,
                                                  size_t backend, size_t gauge);

/* The one call: the table of a percentage sheet in numbers, without its text. figures takes three for each service: its
 * grant, the length of its list and how the list ended (within 0, no gain 1, budget 2). table takes four for each line of
 * the rule sheet, in its order: service, length and value of the suffix, id of the backend, as the sheet would have them. The
 * rest of both stays as it was. */
struct gulmorzon_plan_answer gulmorzon_plan(const char *text, size_t text_len, size_t *figures, size_t figures_len,
                                            size_t *table, size_t table_len);

/* New weights on a loaded table. old_text is a rule sheet: its lines of the service are the old list. sheet_text is a
 * percentage sheet: it has the tolerance and, in its line of the service, the new weights; k has to be the same in both,
 * and its capacity, volumes and other services are read and not used. Backends are matched by id: one of the old list that is
 * missing from the new weights counts as weight 0 there. Of the old list some of the oldest rules, which stand last, are kept,
 * at least one, and the steps of a split go on from them to a list that is within tolerance and has no more rules than the old
 * one: of all numbers of kept rules that lead to such a list, the one with the lowest churn, the largest if equal. A kept rule
 * may still name a backend that is missing from the new weights.
 *
 * The rule sheet is read wholly, then the percentage sheet: their own refusals have their line and sheet. After these
 * come, with line 0: 8 with the first sheet that lacks the service; and with sheet 0 too, in this order, 12; 13 where no number
 * of kept rules leads to such a list; 7 where rules is too short for the new list.
 *
 * rules takes three numbers for each rule of the new list, the newest first: length and value of the suffix, id of the backend,
 * as a rule sheet would have them. The rest of it stays as it was. */
struct gulmorzon_update_answer gulmorzon_update(const char *old_text, size_t old_len, const char *sheet_text,
                                                size_t sheet_len, size_t service, size_t *rules, size_t rules_len);

/* A change in stages: from a service's rules in one rule sheet to those in another of equal k, with at most limit suffixes
 * moved by a stage. The 2^k suffixes have places, by their bits from the last to the first. A stage has the new backends below
 * a place and the old ones from it on, so it is named by that place. Each ends at the largest place whose churn from the stage
 * before (the first: from the old table) is within the limit; the last place is 2^k, where the stage is the new table. No other
 * row of places within the limit that ends at 2^k has fewer stages. Writes the places from the start of places; the value is
 * how many stages there are, from 1 on. The rest of places stays as it was.
 *
 * Both rule sheets are read wholly, the old one first: their own refusals have their line and sheet. After these come, with line
 * 0: 8 with the first sheet that lacks the service; and with sheet 0 too, in this order, 12; 2 for a limit outside 1 to 4,096 or
 * a capacity outside 1 to 2,048; 14 where the list of some stage has more lines than the capacity (the old table is no stage);
 * 7 where places is too short. */
struct gulmorzon_answer gulmorzon_stages(const char *old_text, size_t old_len, const char *new_text, size_t new_len,
                                         size_t service, size_t limit, size_t capacity, size_t *places, size_t places_len);

/* One of these stages, by its number from 1, as a list for the switch: `service suffix backend` lines of the largest suffixes
 * that one backend holds, by the lowest place that each covers. No two of them match one address, so their order makes no
 * difference; it is no rule sheet, and no call reads it. Writes it from the start of out; the value is its number of bytes, no
 * zero byte is added, and the rest of out stays as it was.
 *
 * Refused as gulmorzon_stages is: a number that no stage has is 2 too, and 14 is for any stage of the row, not only this one. */
struct gulmorzon_answer gulmorzon_stage(const char *old_text, size_t old_len, const char *new_text, size_t new_len,
                                        size_t service, size_t limit, size_t capacity, size_t number, char *out,
                                        size_t out_len);

#ifdef __cplusplus
}
#endif

#endif
