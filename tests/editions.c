/*
 * The editions through the linked function, asked from C: the numbers of the
 * twelve cases in both, the editions that are refused before all else, and that
 * nothing else is written. tests/linked builds and runs it.
 */
#include <stdio.h>
#include <string.h>
#include <stonefruitle.h>

enum { PAINT = 0xa5, N = STONEFRUITLE_ANSWER_NUMBERS };
static const uint64_t PAINTED = 0xa5a5a5a5a5a5a5a5;

#define S(x, y) {x, y, x + 2, y, x + 2, y + 2, x, y + 2}

/* A and how many numbers it has, B, its velocity, the limit; the refusal with its edge, and the numbers in both editions. */
static const struct {
    int64_t a[10];
    size_t a_length;
    int64_t b[8], vx, vy, limit;
    uint8_t refusal, edge;
    uint64_t first[N], second[N];
} cases[] = {
    {S(0, 0), 8, S(5, 0), -1, 0, 10, 0, PAINT, {2, 0, 0, 3, 1, 7, 1, 1, 0, 1, 0, 8}, {3, 0, 0, 3, 1, 7, 1, 0, 0, 0, 0, 8}},
    {S(0, 0), 8, S(5, 0), -1, 0, 3, 0, PAINT, {2, 0, 0, 3, 1, 3, 1, 1, 0, 1, 0, 8}, {0, 1, 0, 0, 0, 0, 0, 0, 0, 0, 0, 2}},
    {S(0, 0), 8, S(5, 0), -1, 0, 2, 0, PAINT, {0, 1, 0, 0, 0, 0, 0, 0, 0, 0, 0, 2}, {0, 1, 0, 0, 0, 0, 0, 0, 0, 0, 0, 2}},
    {S(0, 0), 8, S(5, 0), 1, 0, 10, 0, PAINT, {0, 1, 0, 0, 0, 0, 0, 0, 0, 0, 0, 2}, {0, 1, 0, 0, 0, 0, 0, 0, 0, 0, 0, 2}},
    {S(0, 0), 8, S(5, 0), -2, 0, 10, 0, PAINT, {2, 0, 0, 3, 2, 7, 2, 1, 0, 1, 0, 8}, {3, 0, 0, 3, 2, 7, 2, 0, 0, 0, 0, 8}},
    {S(0, 0), 8, S(5, 4), -1, -3, 10, 0, PAINT, {1, 1, 0, 0, 0, 0, 0, 0, 0, 0, 0, 8}, {1, 1, 0, 0, 0, 0, 0, 0, 0, 0, 0, 8}},
    {S(0, 0), 8, S(5, 4), -1, -1, 10, 0, PAINT, {2, 0, 0, 3, 1, 6, 1, 1, 0, 2, 0, 8}, {3, 0, 0, 3, 1, 6, 1, 0, 0, 0, 0, 8}},
    {S(0, 0), 8, S(5, 5), -1, -1, 10, 0, PAINT, {2, 0, 0, 3, 1, 7, 1, 0, 0, 2, 0, 8}, {3, 0, 0, 3, 1, 7, 1, 0, 0, 0, 0, 8}},
    {S(0, 0), 8, S(2, 0), 0, 0, 10, 0, PAINT, {2, 0, 0, 0, 1, 10, 1, 1, 0, 1, 0, 8}, {0, 1, 0, 0, 0, 0, 0, 0, 0, 0, 0, 2}},
    {{0, 0, 10, 0, 10, 10, 0, 10}, 8, S(4, 4), 0, 0, 10, 0, PAINT,
     {2, 0, 0, 0, 1, 10, 1, 255, 1, 0, 0, 8}, {3, 0, 0, 0, 1, 10, 1, 0, 0, 0, 0, 8}},
    {{-5, -1, 5, -1, 5, 1, -5, 1}, 8, {-1, -5, 1, -5, 1, 5, -1, 5}, 0, 0, 0, 0, PAINT,
     {2, 0, 0, 0, 1, 0, 1, 255, 2, 0, 1, 8}, {3, 0, 0, 0, 1, 0, 1, 0, 0, 0, 0, 8}},
    {{10, 0, -8, 6, 3, -9, 3, 9, -8, -6}, 10, S(0, 0), 0, 0, 10, STONEFRUITLE_FIRST, 0, {0}, {0}},
    /* a count, the limit and a speed that are wrong */
    {S(0, 0), 7, S(5, 0), -1, 0, 10001, STONEFRUITLE_COUNT, PAINT, {0}, {0}},
    {S(0, 0), 8, S(5, 0), -1, -10001, -1, STONEFRUITLE_LIMIT, PAINT, {0}, {0}},
    {S(0, 0), 8, S(5, 0), -1, -10001, 0, STONEFRUITLE_SPEED, PAINT, {0}, {0}},
};
enum { CASES = sizeof cases / sizeof cases[0] };

/* None of these is an edition, though 1 or 2 is left of most where bits are cut off. */
static const uint64_t others[] = {0, 3, 256, 257, 258, 65537, 4294967296, 4294967297, 4294967298, UINT64_MAX - 1, UINT64_MAX};

static int failed;

/* Asks about a case in an edition and compares; one number past the twelve has to stay. */
static void expect(int k, uint64_t edition, uint8_t refusal, uint8_t edge_after, const uint64_t *numbers)
{
    uint64_t given[N + 1];
    uint8_t edge = PAINT;
    memset(given, PAINT, sizeof given);
    uint8_t returned = stonefruitle_answer_edition(edition, cases[k].a, cases[k].a_length, cases[k].b, 8, 0, 0, cases[k].vx,
                                                   cases[k].vy, cases[k].limit, given, &edge);
    if (returned != refusal || edge != edge_after || memcmp(given, numbers, N * sizeof *numbers) != 0 || given[N] != PAINTED) {
        printf("case %d in edition %llu: not as expected\n", k + 1, (unsigned long long)edition);
        failed = 1;
    }
}

int main(void)
{
    static const uint64_t zeros[N];
    for (int k = 0; k < CASES; k++) {
        expect(k, 1, cases[k].refusal, cases[k].edge, cases[k].first);
        expect(k, 2, cases[k].refusal, cases[k].edge, cases[k].second);
        for (size_t i = 0; i < sizeof others / sizeof others[0]; i++)
            expect(k, others[i], STONEFRUITLE_EDITION, PAINT, zeros);
    }
    return failed;
}
