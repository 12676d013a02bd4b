/* Answers a log on standard input line by line, and says at the end how many lines were accepted and how many are lost. */
#include <stdio.h>
#include <string.h>
#include <stonefruitle.h>

int main(void)
{
    char line[1 << 12]; /* a longer line than 288 digits is refused, so that no more is needed of it than that it is longer */
    uint8_t out[STONEFRUITLE_ANSWER_ROOM], edge; /* the edge stands in the answer line, too */
    size_t written;
    unsigned long lines = 0, accepted = 0, all_lost = 0;

    /* What the lines so far leave for the next one: none was accepted yet. */
    bool kept_some = false;
    uint16_t kept_number = 0, lost;

    while (fgets(line, sizeof line, stdin)) {
        uint8_t refusal = stonefruitle_log_step(kept_some, kept_number, (const uint8_t *)line, strcspn(line, "\n"),
                                                out, sizeof out, &kept_some, &kept_number, &lost, &written, &edge);
        fwrite(out, 1, written, stdout);
        lines++;
        accepted += refusal == STONEFRUITLE_NONE;
        all_lost += lost;
    }
    printf("%lu of %lu lines accepted, %lu lost before them\n", accepted, lines, all_lost);
    return 0;
}
