/* xbrlmerge.h - merges xBRL-JSON reports into one canonical report, judges their duplicates, and lists
   the sources of each fact. Refused reports are returned as records of numbers. The calls that merge, judge or list write
   the bytes that the program's commands print. docs/LIBRARY.md describes the calls, and lists what is not proved.

   Memory. The caller provides all buffers. A call keeps no pointer after it returns, and returns none. If the buffer for
   the text or for the refused reports is too short, the call returns the required lengths and leaves both buffers unchanged:
   make them long enough, and call again. If both buffers are long enough in the first call, the text is made only once. A
   call allocates its own memory with malloc, and frees this memory before it returns.

   Pointers. No pointer may be null, even if the length is 0: pass the address of any variable of its type instead. (The
   data() of an empty std::vector may be null.) The output (`out`, `needed`, `refusals`, `refused`, `checked`, `results`,
   `refusal`) must not overlap any other argument. During the call, nothing else may access the output, or write to the
   input. Output need not be initialised. Each pointer must be aligned for its type, as C requires.

   Lengths. A length is the number of items at the pointer before it, and a call uses that many, so it must be right.
   `sheet_length`, `reports_length`, `report_length` and `out_length` count bytes. `ends_length` counts ends, one for each
   report, and `refusals_length` and `results_length` count records: for an array `ends`, pass
   `sizeof ends / sizeof ends[0]`, as `sizeof ends` counts bytes. `most` is no length of an array, but the most bytes that a
   text may have.

   Reports. All reports are concatenated in `reports`, and `ends` contains the position where each report ends, counted from
   the start: reports of 3 and 4 bytes have the ends 3 and 7. Bytes after the last end are ignored. If an end is less than
   the end before it, or beyond `reports_length`, the call returns XBRLMERGE_BAD_ENDS and reads neither sheet nor reports. If
   `allow` is not a level, the call returns XBRLMERGE_BAD_LEVEL, even if an end is wrong.

   Threads. Calls share no state: several threads may call at the same time. Do not call from a signal handler, or in the
   forked child of a process with several threads.

   Stack. A call needs at most 128 kB of stack for JSON that is nested 126 deep. This limit is measured, not proved. JSON
   may be nested 127 deep, so allow a little more. */
#ifndef XBRLMERGE_H
#define XBRLMERGE_H

#define XBRLMERGE_VERSION "0.3.0-dev"  /* as `xbrlmerge --version` prints it */

#include <stddef.h>
#include <stdint.h>

#ifdef __cplusplus
extern "C" {
#endif

/* The status that a call returns. */
enum {
    XBRLMERGE_DONE = 0,          /* done, and every report was accepted */
    XBRLMERGE_REFUSED = 1,       /* done, but some reports were refused; the output is made from the others
                                    (xbrlmerge_check: the report was refused; the calls that explain: there is a line) */
    XBRLMERGE_TOO_LOOSE = 2,     /* the duplicates of a row exceed `allow`: `needed` is the number of the first such row,
                                    from 1 */
    XBRLMERGE_TOO_SHORT = 3,     /* `out` has fewer than `needed` bytes, `refusals` fewer than `refused` records, or
                                    `results` fewer records than there are reports. If the duplicates exceed `allow`,
                                    `needed` is 0, and only `refusals` is too short */
    XBRLMERGE_SHEET_REFUSED = 4, /* the sheet is refused: `needed` is the number of its refusal (the calls that check set
                                    `refusal` instead) */
    XBRLMERGE_NO_MEMORY = 5,     /* out of memory: nothing has changed */
    XBRLMERGE_BAD_ENDS = 6,      /* an end is less than the end before it, or beyond the reports: nothing has changed */
    XBRLMERGE_BAD_LEVEL = 7,     /* `allow` is not a level: nothing has changed */
    XBRLMERGE_TOO_MUCH = 8       /* the text is longer than the bound: nothing has changed */
};

/* The levels of duplicates that a row may have, the strictest first. A row is all facts with the same dimensions. */
enum {
    XBRLMERGE_ALLOW_NONE = 0,
    XBRLMERGE_ALLOW_COMPLETE = 1,
    XBRLMERGE_ALLOW_CONSISTENT = 2,
    XBRLMERGE_ALLOW_ALL = 3
};

/* A refused report, or the refused sheet. Facts are counted from 1 in byte order of their identifiers. */
typedef struct {
    uint64_t report; /* the number of the report, from 1; 0 for the sheet (only from the calls that check) */
    uint64_t fact;   /* the number of the fact, from 1; 0 for the document */
    uint32_t number; /* the number of the refusal in docs/REFUSALS.md */
} xbrlmerge_refusal;

/* The result for an accepted report. */
typedef struct {
    uint64_t facts;     /* the number of the report's facts, repeats included */
    uint32_t level;     /* the strictest level that the facts satisfy: XBRLMERGE_ALLOW_NONE to _ALL */
    uint32_t canonical; /* 1 if the report's bytes are the canonical text of its facts and taxonomy references, else 0 */
} xbrlmerge_checked;

/* The result for one of several reports. */
typedef struct {
    xbrlmerge_checked checked; /* set for an accepted report, all zeros for a refused one */
    xbrlmerge_refusal refusal; /* set for a refused report, all zeros for an accepted one */
    uint32_t status;           /* XBRLMERGE_DONE for an accepted report, XBRLMERGE_REFUSED for a refused one */
} xbrlmerge_result;

/* Merges reports, as `merge --allow` does. The canonical text is written to the start of `out`, without a NUL or a line
   end, and the refused reports to the start of `refusals`, in the order of reports. `needed` is set to the number of these
   bytes, and `refused` to the number of these records; the rest of both buffers is unchanged.
   XBRLMERGE_TOO_LOOSE returns the refused reports too, and leaves `out` unchanged. XBRLMERGE_SHEET_REFUSED sets `needed`
   to the number of the sheet's refusal, and `refused` to 0. */
uint32_t xbrlmerge_merge(const uint8_t *sheet, size_t sheet_length, const uint8_t *reports, size_t reports_length,
                         const size_t *ends, size_t ends_length, uint32_t allow, uint8_t *out, size_t out_length,
                         size_t *needed, xbrlmerge_refusal *refusals, size_t refusals_length, size_t *refused);

/* Judges the duplicates of reports, as `verdicts` does: `out` gets a line for each row. Otherwise the call is like
   xbrlmerge_merge, but has no `allow`, and never returns XBRLMERGE_TOO_LOOSE or XBRLMERGE_BAD_LEVEL. */
uint32_t xbrlmerge_verdicts(const uint8_t *sheet, size_t sheet_length, const uint8_t *reports, size_t reports_length,
                            const size_t *ends, size_t ends_length, uint8_t *out, size_t out_length, size_t *needed,
                            xbrlmerge_refusal *refusals, size_t refusals_length, size_t *refused);

/* Lists the sources of each fact, as `sources` does: `out` gets a line for each fact object of the accepted reports.
   Otherwise the call is like xbrlmerge_verdicts. */
uint32_t xbrlmerge_sources(const uint8_t *sheet, size_t sheet_length, const uint8_t *reports, size_t reports_length,
                           const size_t *ends, size_t ends_length, uint8_t *out, size_t out_length, size_t *needed,
                           xbrlmerge_refusal *refusals, size_t refusals_length, size_t *refused);

/* Two calls that do the same as xbrlmerge_verdicts and xbrlmerge_sources, but `out` gets the output of `--format json`: one
   JSON object per line. The reports have no names here, so `file` is null in each source. The text repeats URIs, so it has a
   bound, as with `--most-output`: if it has more than `most` bytes, the call stops early and returns XBRLMERGE_TOO_MUCH. If
   `most` is 0, the bound is 1 MiB and 16 bytes for each byte of `sheet` and `reports`. */
uint32_t xbrlmerge_verdicts_json(const uint8_t *sheet, size_t sheet_length, const uint8_t *reports, size_t reports_length,
                                 const size_t *ends, size_t ends_length, size_t most, uint8_t *out, size_t out_length,
                                 size_t *needed, xbrlmerge_refusal *refusals, size_t refusals_length, size_t *refused);
uint32_t xbrlmerge_sources_json(const uint8_t *sheet, size_t sheet_length, const uint8_t *reports, size_t reports_length,
                                const size_t *ends, size_t ends_length, size_t most, uint8_t *out, size_t out_length,
                                size_t *needed, xbrlmerge_refusal *refusals, size_t refusals_length, size_t *refused);

/* Checks one report, as `check` does. If the report is accepted (XBRLMERGE_DONE), only `checked` is set. If the report is
   refused (XBRLMERGE_REFUSED), only `refusal` is set, with the report number 1. If the sheet is refused
   (XBRLMERGE_SHEET_REFUSED), only `refusal` is set, with the report number 0. If memory runs out (XBRLMERGE_NO_MEMORY),
   neither `checked` nor `refusal` is set. */
uint32_t xbrlmerge_check(const uint8_t *sheet, size_t sheet_length, const uint8_t *report, size_t report_length,
                         xbrlmerge_checked *checked, xbrlmerge_refusal *refusal);

/* Checks each report as xbrlmerge_check does, but reads the sheet only once. The results are written to the start of
   `results`, in the order of the reports; the rest of `results` is unchanged. `refusal` is set only if the sheet is refused.
   `results` is unchanged if the status is neither XBRLMERGE_DONE nor XBRLMERGE_REFUSED. */
uint32_t xbrlmerge_check_all(const uint8_t *sheet, size_t sheet_length, const uint8_t *reports, size_t reports_length,
                             const size_t *ends, size_t ends_length, xbrlmerge_result *results, size_t results_length,
                             xbrlmerge_refusal *refusal);

/* Two calls that explain what is wrong with a report, as `explain` and `explain --format json` do: `out` gets a line for
   each fault, with the identifier of its fact, and for each repeated member. The report has no name here, so the lines show
   `report` as its file. `out` and `needed` are set as by xbrlmerge_merge. */
uint32_t xbrlmerge_explain(const uint8_t *sheet, size_t sheet_length, const uint8_t *report, size_t report_length,
                           uint8_t *out, size_t out_length, size_t *needed);
uint32_t xbrlmerge_explain_json(const uint8_t *sheet, size_t sheet_length, const uint8_t *report, size_t report_length,
                                uint8_t *out, size_t out_length, size_t *needed);

/* Writes the name of a refusal, such as "UnboundPrefix", to the start of `out`, without a NUL. Returns the length of the
   name: at most 20 bytes, and 0 if no refusal has this number. If `out` is shorter than the name, `out` is unchanged. */
size_t xbrlmerge_refusal_name(uint32_t number, uint8_t *out, size_t out_length);

/* Writes the library's version to the start of `out`, without a NUL, and returns its length. If `out` is shorter, `out` is
   unchanged. It differs from XBRLMERGE_VERSION if the program was compiled with the header of another version. */
size_t xbrlmerge_version(uint8_t *out, size_t out_length);

#ifdef __cplusplus
}
#endif

#endif
