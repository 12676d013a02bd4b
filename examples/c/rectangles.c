/*
 * Asks the checker about two upright rectangles. The arguments are the limit, the velocity x y of A, that of B, then low x, low
 * y, high x, high y of A and of B. Prints the line of the move, the answer line, and whether the move may be let go.
 */
#include <stdio.h>
#include <stdlib.h>
#include <stonefruitle.h>

int main(int count, char **arguments)
{
    int64_t n[STONEFRUITLE_RECTANGLES_NUMBERS];
    if (count != 1 + STONEFRUITLE_RECTANGLES_NUMBERS) {
        fprintf(stderr, "usage: rectangles T VX VY VX VY LOWX LOWY HIGHX HIGHY LOWX LOWY HIGHX HIGHY\n");
        return 2;
    }
    for (int i = 0; i < STONEFRUITLE_RECTANGLES_NUMBERS; i++)
        n[i] = strtoll(arguments[i + 1], NULL, 10);
    const int64_t *a = n + STONEFRUITLE_AT_RECTANGLE_A, *b = n + STONEFRUITLE_AT_RECTANGLE_B;
    const int64_t *va = n + STONEFRUITLE_AT_VELOCITY_A, *vb = n + STONEFRUITLE_AT_VELOCITY_B;

    uint8_t line[STONEFRUITLE_RECTANGLES_ROOM], answer[STONEFRUITLE_ANSWER_ROOM], edge; /* the edge of a rectangle is always 0 */
    size_t length;
    /* Nothing is written where the move is refused. */
    stonefruitle_write_rectangles(a, 4, b, 4, va[0], va[1], vb[0], vb[1], n[STONEFRUITLE_AT_LIMIT],
                                  line, sizeof line, &length, &edge);
    fwrite(line, 1, length, stdout);
    uint8_t refusal = stonefruitle_answer_rectangles(a, 4, b, 4, va[0], va[1], vb[0], vb[1], n[STONEFRUITLE_AT_LIMIT],
                                                     answer, sizeof answer, &length, &edge);
    fwrite(answer, 1, length, stdout);

    /* A contact is not refused, so that a return of 0 alone is no leave to go: the answer's second byte has to be 00 or 01. */
    bool clear = refusal == STONEFRUITLE_NONE && answer[2] == '0' && answer[3] <= '1';
    printf("the move is %s\n", clear ? "let go" : "held");
    return clear ? 0 : 1;
}
