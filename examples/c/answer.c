/* Asks the checker about one move, the paper's P1, says what the answer means, and holds the move unless it is clear. */
#include <stdbool.h>
#include <stdio.h>
#include <stonefruitle.h>

/* The number whose count hexadecimal digits stand at text. */
static unsigned long number(const uint8_t *text, int count)
{
    unsigned long n = 0;
    for (int i = 0; i < count; i++)
        n = 16 * n + (text[i] <= '9' ? text[i] - '0' : text[i] - 'a' + 10);
    return n;
}

/* Whether the move may be let go. A contact is not refused, so that a return of 0 alone is no leave to go. */
static bool is_clear(uint8_t refusal, const uint8_t *line)
{
    return refusal == STONEFRUITLE_NONE && number(line + 2, 2) <= 1;
}

int main(void)
{
    /* A stands still; B is the same square 5 to the right and comes left by 1 per unit of time. */
    const int64_t a[] = {0, 0, 2, 0, 2, 2, 0, 2};
    const int64_t b[] = {5, 0, 7, 0, 7, 2, 5, 2};
    uint8_t line[STONEFRUITLE_ANSWER_ROOM], edge;
    size_t length;

    uint8_t refusal = stonefruitle_answer_lists(a, 8, b, 8, 0, 0, -1, 0, 10,
                                                line, sizeof line, &length, &edge);
    if (refusal == STONEFRUITLE_ROOM) {
        printf("no room for the answer line\n");
        return 1;
    }
    fwrite(line, 1, length, stdout);

    if (refusal != STONEFRUITLE_NONE) {
        printf("refused: %d\n", refusal);
        /* The edge is written with these two alone. */
        if (refusal == STONEFRUITLE_FIRST || refusal == STONEFRUITLE_SECOND)
            printf("edge %d is wrong\n", edge);
        printf("the move is held\n");
        return 1;
    }
    switch (number(line + 2, 2)) {
    case 0:
        printf("clear: side %lu keeps the outlines apart\n", number(line + 4, 2));
        break;
    case 1:
        printf("clear: sides %lu and %lu keep the outlines apart\n",
               number(line + 4, 2), number(line + 6, 2));
        break;
    default:
        printf("contact from %lu/%lu to %lu/%lu\n",
               number(line + 4, 8), number(line + 12, 8),
               number(line + 20, 8), number(line + 28, 8));
        if (number(line + 36, 2) != 0xff)
            printf("bearing on side %lu\n", number(line + 36, 2));
        else
            printf("no side bears: the outlines overlap at time 0\n");
        unsigned long p = number(line + 40, 2), q = number(line + 42, 2);
        switch (number(line + 38, 2)) {
        case 0:
            printf("shown by corner %lu of A\n", p);
            break;
        case 1:
            printf("shown by corner %lu of B\n", p);
            break;
        default:
            printf("shown by edge %lu of A and edge %lu of B\n", p, q);
        }
    }
    printf("the move is %s\n", is_clear(refusal, line) ? "let go" : "held");
    return 0;
}
