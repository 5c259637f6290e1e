#include <string.h>

#include "model.h"

struct jobs {
    uint64_t of[MODEL_NUMBERS]; /* 0: not open */
};

static void put_number(uint8_t *at, uint64_t v)
{
    int i;
    for (i = 7; i >= 0; i--, v /= 256)
        at[i] = (uint8_t)(v % 256);
}

static uint64_t get_number(const uint8_t *at)
{
    uint64_t v = 0;
    int i;
    for (i = 0; i < 8; i++)
        v = v * 256 + at[i];
    return v;
}

static void write_book(uint8_t *bytes, const struct jobs *j)
{
    uint64_t open = 0;
    int n;
    for (n = 0; n < MODEL_NUMBERS; n++) {
        put_number(bytes + 8 + 8 * n, j->of[n]);
        if (j->of[n] != 0)
            open += UINT64_C(1) << n;
    }
    put_number(bytes, open);
}

/* the bytes are those of the jobs that they say */
static int read_book(const uint8_t *bytes, size_t len, struct jobs *j)
{
    uint8_t again[MODEL_BYTES];
    int n;
    if (len != MODEL_BYTES)
        return 0;
    for (n = 0; n < MODEL_NUMBERS; n++)
        j->of[n] = get_number(bytes + 8 + 8 * n);
    write_book(again, j);
    return memcmp(again, bytes, MODEL_BYTES) == 0;
}

static unsigned open_in(const struct jobs *j)
{
    unsigned count = 0;
    int n;
    for (n = 0; n < MODEL_NUMBERS; n++)
        count += j->of[n] != 0;
    return count;
}

int model_is_book(const uint8_t *bytes, size_t len, unsigned *open)
{
    struct jobs j;
    if (!read_book(bytes, len, &j))
        return 0;
    *open = open_in(&j);
    return 1;
}

uint64_t model_call(enum call c, uint8_t *bytes, size_t len, uint64_t n)
{
    struct jobs j;
    uint64_t i = 0;
    if (c == EMPTY) {
        if (len != MODEL_BYTES)
            return 2;
        memset(bytes, 0, len);
        return 0;
    }
    if (!read_book(bytes, len, &j))
        return c == JOB ? 0 : 2;
    switch (c) {
    case OPEN:
        if (n == 0)
            return 2;
        while (i < MODEL_NUMBERS && j.of[i] != 0)
            i++;
        if (i == MODEL_NUMBERS)
            return 7;
        j.of[i] = n;
        write_book(bytes, &j);
        return i << 8;
    case CLOSE:
        if (n >= MODEL_NUMBERS || j.of[n] == 0)
            return 8;
        j.of[n] = 0;
        write_book(bytes, &j);
        return 0;
    case COUNT: return (uint64_t)open_in(&j) << 8;
    default: return n < MODEL_NUMBERS ? j.of[n] : 0;
    }
}
