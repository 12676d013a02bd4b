/* Tests the outline whose coordinates x y x y .. are the arguments, and says which of its edges is wrong. */
#include <stdio.h>
#include <stdlib.h>
#include <stonefruitle.h>

/* One number more than sixteen corners have, so that a longer list is refused, too. */
enum { MOST = 2 * 16 + 1 };

int main(int count, char **arguments)
{
    int64_t numbers[MOST];
    size_t length = 0;
    for (int i = 1; i < count && length < MOST; i++)
        numbers[length++] = strtoll(arguments[i], NULL, 10);

    uint8_t edge;
    uint8_t refusal = stonefruitle_test_outline(numbers, length, &edge);
    if (refusal == STONEFRUITLE_NONE) {
        printf("sound\n");
        return 0;
    }
    if (refusal == STONEFRUITLE_FIRST) {
        /* The last edge runs to the first corner. */
        size_t start = 2 * (size_t)edge, stop = (start + 2) % length;
        printf("edge %d, from (%lld,%lld) to (%lld,%lld), is wrong: a corner is to its right or equals its start, or all are on one line\n",
               edge, (long long)numbers[start], (long long)numbers[start + 1],
               (long long)numbers[stop], (long long)numbers[stop + 1]);
    } else {
        printf("refused: %d\n", refusal);
    }
    return 1;
}
