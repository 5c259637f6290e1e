/*
 * peat-compare AIR GROUND: two recordings of envelopes compared, of any length.
 *
 * peat_compare takes 32 KiB of each. Longer ones are cut:
 *   - for the first envelope that differs and the rest, into pieces in step: as many whole envelopes of each as a call takes; where none of the
 *     pieces differs, the shorter is the beginning of the other, and both recordings go on behind it, at the same place;
 *   - for the jobs, by job: the envelopes of both are sorted by their job, and those of a range of jobs are compared, range by range, rising. Of a job
 *     that stands in a recording more than twice the first two go to the call: more of them change no list.
 * What is proved is what each call of peat_compare says of the bytes that it is lent. That the pieces are cut so that the answers, put together,
 * are those of the whole recordings is this file's, and is tested.
 *
 * SPDX-License-Identifier: Apache-2.0
 */
#define _DEFAULT_SOURCE
#include <fcntl.h>
#include <inttypes.h>
#include <stdio.h>
#include <stdlib.h>
#include <string.h>
#include <sys/mman.h>
#include <sys/stat.h>
#include <unistd.h>

#include "peatribbon_names.h"

enum { SAME = 0, OTHER = 1, TROUBLE = 2 };
static const char *const called[] = {"", "first", "second"};
static const char *const listed[] = {"only_first", "only_second", "repeated"};

/* ---- a recording: its bytes, and its envelopes by their jobs */

struct envelope {
    uint64_t job;
    size_t at, bytes;
};

struct recording {
    const uint8_t *bytes;
    size_t size, count, room;
    struct envelope *envelope;
};

static void trouble(const char *what, const char *word)
{
    fprintf(stderr, "peat-compare: %s%s%s\n", what, word[0] ? ": " : "", word);
    exit(TROUBLE);
}

/* The file is mapped, not read: pages come as they are looked at. */
static void map(struct recording *r, const char *name)
{
    struct stat is;
    int file = open(name, O_RDONLY);
    memset(r, 0, sizeof *r);
    if (file < 0 || fstat(file, &is) != 0 || !S_ISREG(is.st_mode))
        trouble("cannot be read", name);
    r->size = (size_t)is.st_size;
    if (r->size > 0) {
        void *at = mmap(NULL, r->size, PROT_READ, MAP_PRIVATE, file, 0);
        if (at == MAP_FAILED)
            trouble("cannot be read", name);
        r->bytes = at;
    }
    close(file);
}

static void add(struct recording *r, uint64_t job, size_t at, size_t bytes)
{
    if (r->count == r->room) {
        r->room = 2 * r->room + 1024;
        r->envelope = realloc(r->envelope, r->room * sizeof *r->envelope);
        if (r->envelope == NULL)
            trouble("there is no memory for so many envelopes", "");
    }
    r->envelope[r->count].job = job;
    r->envelope[r->count].at = at;
    r->envelope[r->count++].bytes = bytes;
}

/* Every envelope, in order: 0, or the refusal and where its envelope begins. */
static unsigned walk(struct recording *r, size_t *at)
{
    uint8_t job[PEAT_JOB_BYTES];
    struct peat_envelope_answer answer;
    for (*at = 0; *at < r->size; *at += peat_envelope_next(answer)) {
        answer = peat_read_envelope(r->bytes + *at, r->size - *at, job, sizeof job);
        if (peat_refusal(answer) != PEAT_TAKEN)
            return peat_refusal(answer);
        add(r, peat_job_number(job), *at, peat_envelope_next(answer));
    }
    return 0;
}

/* ---- what is found */

struct finding {
    unsigned refusal, recording, field;
    uint64_t byte, envelopes, rest;
    struct list {
        uint64_t *job;
        size_t count, room;
    } list[3];
};

static uint8_t lists[3][PEAT_LIST_MOST], counts[PEAT_COUNTS_BYTES];

static struct peat_comparison compare(const uint8_t *first, size_t m, const uint8_t *second, size_t n)
{
    struct peat_compare_answer answer = peat_compare(first, m, second, n, PEAT_ARRAY(lists[0]), PEAT_ARRAY(lists[1]), PEAT_ARRAY(lists[2]), PEAT_ARRAY(counts));
    struct peat_comparison c = peat_comparison_of(answer, counts);
    if (c.refusal != PEAT_TAKEN)
        trouble("a piece is refused that was read before", peat_refusal_name(c.refusal));
    return c;
}

/* ---- the first envelope that differs, and the rest: pieces in step */

/* whole envelopes from one on, as many as a call takes: the bytes, and the envelope behind them */
static size_t piece(const struct recording *r, size_t from, size_t *to)
{
    size_t bytes = 0;
    for (*to = from; *to < r->count && bytes + r->envelope[*to].bytes <= PEAT_RECORDING_MOST; ++*to)
        bytes += r->envelope[*to].bytes;
    return bytes;
}

static void find_difference(const struct recording *a, const struct recording *b, struct finding *f)
{
    size_t at = 0, i = 0;
    while (i < a->count && i < b->count) {
        size_t to_a, to_b, m = piece(a, i, &to_a), n = piece(b, i, &to_b);
        struct peat_comparison c = compare(a->bytes + at, m, b->bytes + at, n);
        if (c.field != PEAT_FIELD_NONE) {
            f->field = c.field;
            f->byte = at + c.byte;
            f->envelopes = i + c.envelopes;
            return;
        }
        at += m < n ? m : n; /* the shorter piece is the beginning of the other: go on behind it in both */
        i = m < n ? to_a : to_b;
    }
    if (a->size != b->size) {
        f->recording = a->size > b->size ? 1 : 2;
        f->byte = a->size > b->size ? b->size : a->size;
        f->rest = a->size > b->size ? a->size - b->size : b->size - a->size;
    }
}

/* ---- the jobs: range by range */

static int by_job(const void *x, const void *y)
{
    const struct envelope *a = x, *b = y;
    return a->job != b->job ? (a->job < b->job ? -1 : 1) : a->at < b->at ? -1 : a->at > b->at;
}

/* the envelopes of a job from one on, two of them at most, behind those in a buffer; the envelope behind all of the job's */
static size_t gather(const struct recording *r, size_t from, uint64_t job, uint8_t *out, size_t *bytes)
{
    size_t i;
    for (i = from; i < r->count && r->envelope[i].job == job; i++)
        if (i < from + 2) {
            memcpy(out + *bytes, r->bytes + r->envelope[i].at, r->envelope[i].bytes);
            *bytes += r->envelope[i].bytes;
        }
    return i;
}

static void append(struct list *l, const uint8_t *places, unsigned n)
{
    unsigned i;
    if (l->count + n > l->room) {
        l->room = 2 * (l->count + n);
        l->job = realloc(l->job, l->room * sizeof *l->job);
        if (l->job == NULL)
            trouble("there is no memory for so many jobs", "");
    }
    for (i = 0; i < n; i++)
        l->job[l->count++] = peat_job_number(places + PEAT_JOB_BYTES * i);
}

static void find_jobs(struct recording *a, struct recording *b, struct finding *f)
{
    static uint8_t x[PEAT_RECORDING_MOST], y[PEAT_RECORDING_MOST];
    size_t i = 0, k = 0;
    if (a->count > 0)
        qsort(a->envelope, a->count, sizeof *a->envelope, by_job);
    if (b->count > 0)
        qsort(b->envelope, b->count, sizeof *b->envelope, by_job);
    while (i < a->count || k < b->count) {
        size_t m = 0, n = 0;
        struct peat_comparison c;
        while (i < a->count || k < b->count) {
            uint64_t job = k == b->count || (i < a->count && a->envelope[i].job < b->envelope[k].job) ? a->envelope[i].job : b->envelope[k].job;
            if (m + 2 * PEAT_ENVELOPE_MOST > sizeof x || n + 2 * PEAT_ENVELOPE_MOST > sizeof y)
                break;
            i = gather(a, i, job, x, &m);
            k = gather(b, k, job, y, &n);
        }
        c = compare(x, m, y, n);
        append(&f->list[0], lists[0], c.only_first);
        append(&f->list[1], lists[1], c.only_second);
        append(&f->list[2], lists[2], c.repeated);
    }
}

/* ---- what is printed */

static const char *verdict(const struct finding *f) { return f->refusal ? "refused" : f->field ? "differs" : f->recording ? "rest" : "equal"; }

static void print_text(const struct finding *f)
{
    static const char *const words[] = {"only first", "only second", "repeated"};
    unsigned k;
    size_t i;
    if (f->refusal)
        printf("refused %u (%s) in %s at %" PRIu64 "\n", f->refusal, peat_refusal_name(f->refusal), called[f->recording], f->byte);
    else if (f->field)
        printf("differs at %" PRIu64 " byte %" PRIu64 ": %s\n", f->envelopes, f->byte, peat_field_name(f->field));
    else if (f->recording)
        printf("rest of %s from byte %" PRIu64 ": %" PRIu64 " bytes\n", called[f->recording], f->byte, f->rest);
    else
        puts("equal");
    for (k = 0; k < 3; k++) {
        if (f->list[k].count > 0)
            fputs(words[k], stdout);
        for (i = 0; i < f->list[k].count; i++)
            printf(" %" PRIu64, f->list[k].job[i]);
        if (f->list[k].count > 0)
            putchar('\n');
    }
}

static void print_json(const struct finding *f)
{
    unsigned k;
    size_t i;
    printf("{\"verdict\": \"%s\"", verdict(f));
    if (f->refusal)
        printf(", \"refusal\": %u", f->refusal);
    if (f->recording)
        printf(", \"recording\": \"%s\"", called[f->recording]);
    if (f->refusal || f->field || f->recording)
        printf(", \"byte\": %" PRIu64, f->byte);
    if (f->field)
        printf(", \"envelopes\": %" PRIu64 ", \"field\": \"%s\"", f->envelopes, peat_field_name(f->field));
    if (!f->refusal && !f->field && f->recording)
        printf(", \"bytes\": %" PRIu64, f->rest);
    for (k = 0; k < 3 && !f->refusal; k++) {
        printf(", \"%s\": [", listed[k]);
        for (i = 0; i < f->list[k].count; i++)
            printf("%s%" PRIu64, i > 0 ? ", " : "", f->list[k].job[i]);
        putchar(']');
    }
    puts("}");
}

/* ---- the command line */

static void usage(FILE *to)
{
    fputs("usage: peat-compare [--json] FIRST SECOND\n"
          "\n"
          "Compares two recordings, files of envelopes one behind the other, of any length. The first word says what was found:\n"
          "  equal                            the files are the same\n"
          "  differs at N byte B: FIELD       N envelopes are the same; the next one, at byte B of both, differs in kind, job, bit count or body\n"
          "  rest of FILE from byte B: N bytes   one file is the beginning of the other, which goes on from byte B\n"
          "  refused N (NAME) in FILE at B    the envelope at byte B cannot be read; nothing else is said\n"
          "Then, a line each where there are any, rising, each job once: only first, only second, repeated (within the first or within the second).\n"
          "  --json   the same as one JSON object\n"
          "  --help, --version\n"
          "Status: 0 equal, 1 not equal, 2 refused, or a file cannot be read.\n"
          "\n"
          "Proved: what each call of peat_compare says of the bytes that it is lent, up to 32 KiB of each file. Files of up to 32 KiB each are compared\n"
          "for their first difference in one call. Not proved, but tested: how longer files are cut, and how the answers are put together.\n",
        to);
}

int main(int argc, char **argv)
{
    static struct recording a, b;
    static struct finding f;
    int json = argc > 1 && strcmp(argv[1], "--json") == 0;
    size_t at;
    if (argc == 2 && strcmp(argv[1], "--help") == 0) {
        usage(stdout);
        return 0;
    }
    if (argc == 2 && strcmp(argv[1], "--version") == 0)
        return printf("peat-compare %s\n", PEAT_VERSION) < 0 || fflush(stdout) != 0 ? TROUBLE : SAME;
    if (argc != 3 + json) {
        usage(stderr);
        return TROUBLE;
    }
    map(&a, argv[1 + json]);
    map(&b, argv[2 + json]);
    f.refusal = walk(&a, &at);
    f.recording = f.refusal ? 1 : 0;
    if (!f.refusal) {
        f.refusal = walk(&b, &at);
        f.recording = f.refusal ? 2 : 0;
    }
    if (f.refusal) {
        f.byte = at;
    } else {
        find_difference(&a, &b, &f);
        find_jobs(&a, &b, &f);
    }
    (json ? print_json : print_text)(&f);
    if (fflush(stdout) != 0 || ferror(stdout))
        trouble("what was found cannot be written", "");
    return f.refusal ? TROUBLE : f.field || f.recording ? OTHER : SAME;
}
