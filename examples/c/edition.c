/*
 * Asks the checker about P2, in which two squares only touch, at the limit, in the edition that is the argument. Prints what is
 * answered, how many sides were worked, and whether the move may be let go: in edition 1 it may not, in edition 2 it may.
 */
#include <inttypes.h>
#include <stdio.h>
#include <stdlib.h>
#include <stonefruitle.h>

int main(int count, char **arguments)
{
    if (count != 2) {
        fprintf(stderr, "usage: edition NUMBER\n");
        return 2;
    }
    const int64_t a[] = {0, 0, 2, 0, 2, 2, 0, 2}, b[] = {5, 0, 7, 0, 7, 2, 5, 2};
    uint64_t n[STONEFRUITLE_ANSWER_NUMBERS];
    uint8_t edge;
    uint8_t refusal = stonefruitle_answer_edition(strtoull(arguments[1], NULL, 10), a, 8, b, 8, 0, 0, -1, 0, 3, n, &edge);

    const uint64_t *sides = n + STONEFRUITLE_AT_SIDES, *first = n + STONEFRUITLE_AT_FIRST, *last = n + STONEFRUITLE_AT_LAST;
    if (refusal != STONEFRUITLE_NONE)
        printf("refused: %d\n", refusal);
    else if (n[STONEFRUITLE_AT_CASE] == STONEFRUITLE_CLEAR_BY_ONE)
        printf("clear by side %" PRIu64 "\n", sides[0]);
    else if (n[STONEFRUITLE_AT_CASE] == STONEFRUITLE_CLEAR_BY_TWO)
        printf("clear by sides %" PRIu64 " and %" PRIu64 "\n", sides[0], sides[1]);
    else
        printf("contact from %" PRIu64 "/%" PRIu64 " to %" PRIu64 "/%" PRIu64 "\n", first[0], first[1], last[0], last[1]);

    /* Only the numbers say it, and of a refusal there is none. */
    if (refusal == STONEFRUITLE_NONE)
        printf("%" PRIu64 " sides worked\n", n[STONEFRUITLE_AT_WORKED]);

    /* A contact is not refused, and the numbers of a refusal are all zero: both have to be asked. */
    bool clear = refusal == STONEFRUITLE_NONE && n[STONEFRUITLE_AT_CASE] <= STONEFRUITLE_CLEAR_BY_TWO;
    printf("the move is %s\n", clear ? "let go" : "held");
    return clear ? 0 : 1;
}
