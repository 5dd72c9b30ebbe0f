/* Calls the library for C. tests/program/c_abi runs this program as

       c_abi merge LEVEL SHEET REPORT ..
       c_abi verdicts|verdicts-json|sources|sources-json SHEET REPORT ..
       c_abi explain|explain-json|check SHEET REPORT
       c_abi check-all SHEET REPORT ..
       c_abi edges SHEET

   The program prints the result, and the lines about refusals and a too loose row, as xbrlmerge does, and returns the status
   of the call. The line about a refused sheet has the number of the refusal, but not its name. All calls except `check` are
   also made with buffers that are too short, and those with a bound also with others. With the static library, each request
   for memory is also refused in turn. The last line on standard error begins with `requests`, and contains the number of
   refused requests that made the call fail. `edges` instead makes calls with unusual arguments, prints nothing and returns 0. Status 90 means that a condition in this
   file does not hold; a line on standard error shows the condition. */
#include <stdio.h>
#include <stdlib.h>
#include <string.h>

#include "xbrlmerge.h"

#define MOST 64
#define MARK 0xA5
#define EXPECT(holds) ((holds) ? (void)0 : fail(__LINE__, #holds))

static long chosen, made;
static int inside;

void *__real_malloc(size_t size);
void *__real_realloc(void *block, size_t size);
void *__real_calloc(size_t count, size_t size);

static int is_refused(void) { return inside && ++made == chosen; }

void *__wrap_malloc(size_t size) { return is_refused() ? NULL : __real_malloc(size); }
void *__wrap_realloc(void *block, size_t size) { return size && is_refused() ? NULL : __real_realloc(block, size); }
void *__wrap_calloc(size_t count, size_t size) { return is_refused() ? NULL : __real_calloc(count, size); }

static void fail(int line, const char *expected) {
    fprintf(stderr, "c_abi.c:%d: expected %s\n", line, expected);
    exit(90);
}

/* The arguments of a call. */
struct asked {
    const char *command;
    uint32_t allow;
    uint8_t *sheet, *reports;
    size_t sheet_length, reports_length, ends[MOST], count, most;
};

/* The output of a call. Its buffers are filled with marks before the call; a byte that keeps its mark counts as unwritten. */
struct buffers {
    uint8_t *out;
    xbrlmerge_refusal *refusals;
    size_t out_length, refusals_length, needed, refused;
};

static uint8_t *read_file(const char *name, size_t *length, uint8_t *before, size_t at) {
    FILE *file = fopen(name, "rb");
    EXPECT(file != NULL && fseek(file, 0, SEEK_END) == 0);
    *length = (size_t)ftell(file);
    rewind(file);
    /* one byte more, so that no size is 0; the address sanitizer reports reads beyond that byte */
    uint8_t *bytes = realloc(before, at + *length + 1);
    EXPECT(bytes != NULL && fread(bytes + at, 1, *length, file) == *length);
    fclose(file);
    return bytes;
}

static struct buffers make_buffers(size_t out_length, size_t refusals_length) {
    struct buffers to = {malloc(out_length + 1), malloc((refusals_length + 1) * sizeof(xbrlmerge_refusal)), out_length, refusals_length, 77, 78};
    memset(to.out, MARK, out_length + 1);
    memset(to.refusals, MARK, (refusals_length + 1) * sizeof(xbrlmerge_refusal));
    return to;
}

static void free_buffers(struct buffers *to) {
    free(to->out);
    free(to->refusals);
}

static int is_marked(const void *bytes, size_t from, size_t to) {
    for (size_t index = from; index < to; index++)
        if (((const uint8_t *)bytes)[index] != MARK) return 0;
    return 1;
}

/* whether the bytes and the refusals from these positions on are unchanged */
static int is_kept(const struct buffers *to, size_t bytes, size_t refusals) {
    size_t size = sizeof(xbrlmerge_refusal);
    return is_marked(to->out, bytes, to->out_length + 1) && is_marked(to->refusals, refusals * size, (to->refusals_length + 1) * size);
}

static uint32_t call(const struct asked *asked, struct buffers *to) {
    uint32_t status = 99;
    inside = 1;
    if (strcmp(asked->command, "merge") == 0)
        status = xbrlmerge_merge(asked->sheet, asked->sheet_length, asked->reports, asked->reports_length, asked->ends, asked->count,
                                 asked->allow, to->out, to->out_length, &to->needed, to->refusals, to->refusals_length, &to->refused);
    else if (strcmp(asked->command, "verdicts") == 0)
        status = xbrlmerge_verdicts(asked->sheet, asked->sheet_length, asked->reports, asked->reports_length, asked->ends, asked->count,
                                    to->out, to->out_length, &to->needed, to->refusals, to->refusals_length, &to->refused);
    else if (strcmp(asked->command, "verdicts-json") == 0)
        status = xbrlmerge_verdicts_json(asked->sheet, asked->sheet_length, asked->reports, asked->reports_length, asked->ends,
                                         asked->count, asked->most, to->out, to->out_length, &to->needed, to->refusals, to->refusals_length, &to->refused);
    else if (strcmp(asked->command, "sources") == 0)
        status = xbrlmerge_sources(asked->sheet, asked->sheet_length, asked->reports, asked->reports_length, asked->ends, asked->count,
                                   to->out, to->out_length, &to->needed, to->refusals, to->refusals_length, &to->refused);
    else if (strcmp(asked->command, "sources-json") == 0)
        status = xbrlmerge_sources_json(asked->sheet, asked->sheet_length, asked->reports, asked->reports_length, asked->ends,
                                        asked->count, asked->most, to->out, to->out_length, &to->needed, to->refusals, to->refusals_length,
                                        &to->refused);
    else if (strcmp(asked->command, "explain") == 0)
        status = xbrlmerge_explain(asked->sheet, asked->sheet_length, asked->reports, asked->reports_length, to->out, to->out_length, &to->needed);
    else if (strcmp(asked->command, "explain-json") == 0)
        status = xbrlmerge_explain_json(asked->sheet, asked->sheet_length, asked->reports, asked->reports_length, to->out, to->out_length, &to->needed);
    inside = 0;
    /* the calls that explain return no records of refusals */
    if (strstr(asked->command, "explain") != NULL && status < XBRLMERGE_NO_MEMORY) to->refused = 0;
    return status;
}

static void tell_refusal(const xbrlmerge_refusal *row) {
    uint8_t name[20];
    size_t length = xbrlmerge_refusal_name(row->number, name, sizeof name);
    EXPECT(length > 0 && length <= sizeof name);
    fprintf(stderr, "report %llu: %u %.*s at ", (unsigned long long)row->report, row->number, (int)length, (const char *)name);
    if (row->fact == 0)
        fprintf(stderr, "document\n");
    else
        fprintf(stderr, "fact %llu\n", (unsigned long long)row->fact);
}

/* Makes the call with empty to. If these are too short, makes the call again with one byte too few, with one row too few,
   with more bytes and refusals than needed, and with just enough. Returns buffers that are long enough. */
static struct buffers short_buffers(const struct asked *asked) {
    struct buffers none = make_buffers(0, 0);
    uint32_t status = call(asked, &none);
    size_t needed = none.needed, refused = none.refused;
    EXPECT(is_kept(&none, 0, 0));
    free_buffers(&none);
    if (status != XBRLMERGE_TOO_SHORT) return make_buffers(0, 0);
    if (needed > 0) {
        struct buffers to = make_buffers(needed - 1, refused);
        EXPECT(call(asked, &to) == XBRLMERGE_TOO_SHORT && to.needed == needed && to.refused == refused && is_kept(&to, 0, 0));
        free_buffers(&to);
    }
    if (refused > 0) {
        struct buffers to = make_buffers(needed, refused - 1);
        EXPECT(call(asked, &to) == XBRLMERGE_TOO_SHORT && to.needed == needed && to.refused == refused && is_kept(&to, 0, 0));
        free_buffers(&to);
    }
    struct buffers ample = make_buffers(needed + 9, refused + 2), just = make_buffers(needed, refused);
    EXPECT(call(asked, &ample) == call(asked, &just) && ample.needed == just.needed && ample.refused == just.refused);
    size_t bytes = needed == ample.needed ? needed : 0; /* if the duplicates of a row exceed `allow`, there is no text */
    EXPECT(is_kept(&ample, bytes, refused) && memcmp(ample.out, just.out, bytes) == 0);
    EXPECT(memcmp(ample.refusals, just.refusals, refused * sizeof(xbrlmerge_refusal)) == 0);
    free_buffers(&just);
    return ample;
}

/* With a bound of the text's length the call must have the same result, and with a lower bound it must change nothing. */
static void bounds(struct asked asked, const struct buffers *whole, uint32_t wanted) {
    if (strstr(asked.command, "s-json") == NULL || wanted > XBRLMERGE_REFUSED || whole->needed < 2) return;
    for (asked.most = whole->needed; asked.most > whole->needed - 2; asked.most--) {
        struct buffers to = make_buffers(whole->out_length, whole->refusals_length);
        uint32_t status = call(&asked, &to);
        if (asked.most == whole->needed)
            EXPECT(status == wanted && to.needed == whole->needed && memcmp(to.out, whole->out, whole->needed) == 0);
        else
            EXPECT(status == XBRLMERGE_TOO_MUCH && to.needed == 77 && to.refused == 78 && is_kept(&to, 0, 0));
        free_buffers(&to);
    }
}

/* Refuses each request for memory in turn. The call must then change nothing or, if the kit does without the memory, have its
   usual result. Returns how many calls failed. */
static long refuse_each(const struct asked *asked, const struct buffers *whole, uint32_t wanted) {
    long number = 0, refused = 0;
    do {
        struct buffers to = make_buffers(whole->out_length, whole->refusals_length);
        chosen = ++number, made = 0;
        uint32_t status = call(asked, &to);
        if (status == XBRLMERGE_NO_MEMORY) {
            refused++;
            EXPECT(made >= chosen && to.needed == 77 && to.refused == 78 && is_kept(&to, 0, 0));
        } else {
            EXPECT(status == wanted && to.needed == whole->needed && to.refused == whole->refused);
            EXPECT(memcmp(to.out, whole->out, whole->out_length) == 0);
            EXPECT(memcmp(to.refusals, whole->refusals, whole->refusals_length * sizeof(xbrlmerge_refusal)) == 0);
        }
        free_buffers(&to);
    } while (made >= chosen);
    chosen = 0;
    return refused;
}

static int texts(struct asked *asked) {
    struct buffers whole = short_buffers(asked);
    uint32_t status = call(asked, &whole);
    if (status == XBRLMERGE_SHEET_REFUSED) {
        EXPECT(whole.refused == 0 && is_kept(&whole, 0, 0));
        fprintf(stderr, "sheet: %zu\n", whole.needed);
    }
    for (size_t row = 0; row < whole.refused; row++) tell_refusal(&whole.refusals[row]);
    if (status == XBRLMERGE_TOO_LOOSE) fprintf(stderr, "too loose: row %zu\n", whole.needed);
    if (status <= XBRLMERGE_REFUSED) fwrite(whole.out, 1, whole.needed, stdout);
    EXPECT(status != XBRLMERGE_DONE || whole.refused == 0);
    bounds(*asked, &whole, status);
    fprintf(stderr, "requests: %ld refused in turn\n", refuse_each(asked, &whole, status));
    free_buffers(&whole);
    return (int)status;
}

static void tell_checked(const xbrlmerge_checked *checked) {
    static const char *const levels[] = {"none", "complete", "consistent", "all"};
    EXPECT(checked->level <= XBRLMERGE_ALLOW_ALL && checked->canonical <= 1);
    printf("accepted %llu %s %s\n", (unsigned long long)checked->facts, levels[checked->level], checked->canonical ? "canonical" : "other");
}

static int check(const struct asked *asked) {
    xbrlmerge_checked checked, usual = {1, 2, 3};
    xbrlmerge_refusal row, usual_row = {4, 5, 6};
    uint32_t status, wanted;
    long number = 0, refused = 0;
    wanted = xbrlmerge_check(asked->sheet, asked->sheet_length, asked->reports, asked->reports_length, &usual, &usual_row);
    do {
        checked = (xbrlmerge_checked){1, 2, 3}, row = (xbrlmerge_refusal){4, 5, 6};
        chosen = ++number, made = 0, inside = 1;
        status = xbrlmerge_check(asked->sheet, asked->sheet_length, asked->reports, asked->reports_length, &checked, &row);
        inside = 0;
        if (status == XBRLMERGE_NO_MEMORY) {
            refused++;
            EXPECT(made >= chosen && checked.facts == 1 && row.report == 4);
        } else {
            EXPECT(status == wanted && checked.facts == usual.facts && checked.level == usual.level);
            EXPECT(checked.canonical == usual.canonical && row.report == usual_row.report && row.number == usual_row.number);
        }
    } while (made >= chosen);
    chosen = 0;
    EXPECT((checked.facts == 1 && checked.level == 2 && checked.canonical == 3) || status == XBRLMERGE_DONE);
    EXPECT((row.report == 4 && row.fact == 5 && row.number == 6) == (status == XBRLMERGE_DONE));
    if (status == XBRLMERGE_DONE) {
        tell_checked(&checked);
    } else if (status == XBRLMERGE_REFUSED) {
        EXPECT(row.report == 1);
        tell_refusal(&row);
    } else {
        EXPECT(status == XBRLMERGE_SHEET_REFUSED && row.report == 0 && row.fact == 0);
        fprintf(stderr, "sheet: %u\n", row.number);
    }
    fprintf(stderr, "requests: %ld refused in turn\n", refused);
    return (int)status;
}

/* whether two results are the same; the bytes between fields may differ */
static int same_result(const xbrlmerge_result *one, const xbrlmerge_result *other) {
    return memcmp(&one->checked, &other->checked, sizeof one->checked) == 0 && one->refusal.report == other->refusal.report &&
           one->refusal.fact == other->refusal.fact && one->refusal.number == other->refusal.number && one->status == other->status;
}

static int is_first_kept(const xbrlmerge_result *results, size_t count) { return is_marked(results, 0, count * sizeof *results); }

static int check_all(const struct asked *asked) {
    xbrlmerge_result usual[MOST + 1], results[MOST + 1];
    xbrlmerge_refusal row = {4, 5, 6};
    size_t count = asked->count;
    uint32_t status, wanted;
    long number = 0, refused = 0;
    memset(usual, MARK, sizeof usual), memset(results, MARK, sizeof results);
    status = xbrlmerge_check_all(asked->sheet, asked->sheet_length, asked->reports, asked->reports_length, asked->ends, count, results, count - 1, &row);
    EXPECT(status == XBRLMERGE_TOO_SHORT && is_first_kept(results, count));
    wanted = xbrlmerge_check_all(asked->sheet, asked->sheet_length, asked->reports, asked->reports_length, asked->ends, count, usual, count + 1, &row);
    EXPECT(is_first_kept(usual + count, 1));
    do {
        memset(results, MARK, sizeof results);
        chosen = ++number, made = 0, inside = 1;
        status = xbrlmerge_check_all(asked->sheet, asked->sheet_length, asked->reports, asked->reports_length, asked->ends, count, results, count, &row);
        inside = 0;
        if (status == XBRLMERGE_NO_MEMORY) refused++;
        EXPECT(status == wanted || (status == XBRLMERGE_NO_MEMORY && made >= chosen && is_first_kept(results, count)));
        for (size_t index = 0; status == wanted && index < count; index++) EXPECT(same_result(&results[index], &usual[index]));
    } while (made >= chosen);
    chosen = 0;
    EXPECT(row.report == 4 && row.fact == 5 && row.number == 6);
    for (size_t index = 0; index < count; index++)
        if (usual[index].status == XBRLMERGE_DONE) {
            EXPECT(usual[index].refusal.report == 0 && usual[index].refusal.fact == 0 && usual[index].refusal.number == 0);
            tell_checked(&usual[index].checked);
        } else {
            EXPECT(usual[index].status == XBRLMERGE_REFUSED && memcmp(&usual[index].checked, &(xbrlmerge_checked){0}, sizeof(xbrlmerge_checked)) == 0);
            tell_refusal(&usual[index].refusal);
        }
    fprintf(stderr, "requests: %ld refused in turn\n", refused);
    return (int)wanted;
}

/* with these ends of reports, each call except `check` must return this status, change nothing and request no memory */
static void ends_in(struct asked asked, uint32_t wanted, size_t count, size_t first, size_t second) {
    static const char *const commands[] = {"merge", "verdicts", "verdicts-json", "sources", "sources-json"};
    asked.count = count, asked.ends[0] = first, asked.ends[1] = second;
    for (int index = 0; index < 5; index++) {
        struct buffers to = make_buffers(40, 2);
        asked.command = commands[index];
        made = 0;
        EXPECT(call(&asked, &to) == wanted && to.needed == 77 && to.refused == 78 && is_kept(&to, 0, 0));
        EXPECT(made == 0);
        free_buffers(&to);
    }
    xbrlmerge_result results[2];
    xbrlmerge_refusal row = {4, 5, 6};
    memset(results, MARK, sizeof results);
    EXPECT(xbrlmerge_check_all(asked.sheet, asked.sheet_length, asked.reports, asked.reports_length, asked.ends, count, results, 2, &row) == wanted);
    EXPECT(made == 0 && is_first_kept(results, 2) && row.report == 4);
}

static int edges(struct asked *asked) {
    asked->reports = realloc(asked->reports, 8);
    memcpy(asked->reports, "{}[]null", 8);
    asked->reports_length = 8;
    ends_in(*asked, XBRLMERGE_BAD_ENDS, 1, 9, 0);
    ends_in(*asked, XBRLMERGE_BAD_ENDS, 2, 4, 2);
    ends_in(*asked, XBRLMERGE_BAD_ENDS, 2, 0, SIZE_MAX);
    ends_in(*asked, XBRLMERGE_BAD_ENDS, 1, SIZE_MAX, 0);
    struct buffers to = make_buffers(40, 4);
    asked->command = "merge", asked->count = 0;
    for (asked->allow = 4; asked->allow != 0; asked->allow = asked->allow == 4 ? UINT32_MAX : 0)
        EXPECT(call(asked, &to) == XBRLMERGE_BAD_LEVEL && to.needed == 77 && to.refused == 78 && is_kept(&to, 0, 0));
    /* three reports, the second one empty, and bytes after the last report */
    asked->command = "verdicts", asked->count = 3, asked->ends[0] = 2, asked->ends[1] = 2, asked->ends[2] = 4;
    EXPECT(call(asked, &to) == XBRLMERGE_REFUSED && to.needed == 0 && to.refused == 3 && is_kept(&to, 0, 3));
    EXPECT(to.refusals[1].report == 2 && to.refusals[1].number == 1 && to.refusals[1].fact == 0 && to.refusals[2].report == 3);
    /* lengths of 0 with valid pointers, since no pointer may be null */
    uint8_t byte = MARK;
    size_t end = 0, needed = 77, refused = 78;
    xbrlmerge_refusal row = {4, 5, 6};
    EXPECT(xbrlmerge_verdicts(asked->sheet, asked->sheet_length, &byte, 0, &end, 0, &byte, 0, &needed, &row, 0, &refused) == XBRLMERGE_DONE);
    EXPECT(needed == 0 && refused == 0 && byte == MARK && row.report == 4);
    EXPECT(xbrlmerge_sources(asked->sheet, asked->sheet_length, &byte, 0, &end, 0, &byte, 0, &needed, &row, 0, &refused) == XBRLMERGE_DONE);
    EXPECT(xbrlmerge_merge(asked->sheet, asked->sheet_length, &byte, 0, &end, 0, 0, &byte, 0, &needed, &row, 0, &refused) == XBRLMERGE_TOO_SHORT);
    EXPECT(needed > 0 && refused == 0 && byte == MARK);
    EXPECT(xbrlmerge_merge(&byte, 0, &byte, 0, &end, 0, 0, &byte, 0, &needed, &row, 0, &refused) == XBRLMERGE_SHEET_REFUSED && needed == 1);
    xbrlmerge_checked checked = {1, 2, 3};
    EXPECT(xbrlmerge_check(asked->sheet, asked->sheet_length, &byte, 0, &checked, &row) == XBRLMERGE_REFUSED && row.number == 1);
    EXPECT(xbrlmerge_check(&byte, 0, &byte, 0, &checked, &row) == XBRLMERGE_SHEET_REFUSED && row.number == 1 && checked.facts == 1);
    xbrlmerge_result result;
    memset(&result, MARK, sizeof result);
    EXPECT(xbrlmerge_check_all(asked->sheet, asked->sheet_length, &byte, 0, &end, 0, &result, 0, &row) == XBRLMERGE_DONE && is_first_kept(&result, 1));
    EXPECT(xbrlmerge_check_all(&byte, 0, &byte, 0, &end, 1, &result, 1, &row) == XBRLMERGE_SHEET_REFUSED && is_first_kept(&result, 1));
    EXPECT(row.report == 0 && row.fact == 0 && row.number == 1);
    EXPECT(xbrlmerge_explain(&byte, 0, &byte, 0, &byte, 0, &needed) == XBRLMERGE_SHEET_REFUSED && needed == 1 && byte == MARK);
    /* names of refusals, and the version */
    uint8_t name[24];
    memset(name, MARK, sizeof name);
    EXPECT(xbrlmerge_refusal_name(33, name, sizeof name) == 0 && xbrlmerge_refusal_name(UINT32_MAX, name, sizeof name) == 0);
    EXPECT(xbrlmerge_refusal_name(13, name, 12) == 13 && is_marked(name, 0, sizeof name));
    EXPECT(xbrlmerge_refusal_name(13, &byte, 0) == 13 && byte == MARK);
    EXPECT(xbrlmerge_refusal_name(13, name, 13) == 13 && memcmp(name, "UnboundPrefix", 13) == 0 && is_marked(name, 13, sizeof name));
    size_t length = strlen(XBRLMERGE_VERSION);
    memset(name, MARK, sizeof name);
    EXPECT(xbrlmerge_version(name, length - 1) == length && is_marked(name, 0, sizeof name));
    EXPECT(xbrlmerge_version(name, length) == length && memcmp(name, XBRLMERGE_VERSION, length) == 0 && is_marked(name, length, sizeof name));
    free_buffers(&to);
    return 0;
}

int main(int count, char **words) {
    struct asked asked = {0};
    int at = 2;
    EXPECT(count >= 3 && count < MOST);
    asked.command = words[1];
    if (strcmp(asked.command, "merge") == 0) asked.allow = (uint32_t)strtoul(words[at++], NULL, 10);
    asked.sheet = read_file(words[at++], &asked.sheet_length, NULL, 0);
    asked.reports = malloc(1);
    for (; at < count; at++) {
        size_t length;
        asked.reports = read_file(words[at], &length, asked.reports, asked.reports_length);
        asked.reports_length += length;
        asked.ends[asked.count++] = asked.reports_length;
    }
    int status = strcmp(asked.command, "check") == 0       ? check(&asked)
                 : strcmp(asked.command, "check-all") == 0 ? check_all(&asked)
                 : strcmp(asked.command, "edges") == 0     ? edges(&asked)
                                                           : texts(&asked);
    free(asked.sheet);
    free(asked.reports);
    return status;
}
