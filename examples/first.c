#include <stdio.h>
#include "postgarlic.h"

static pg_tables tables; /* 1.1 MB, nothing is allocated */

int main(void)
{
    const char film[] = "<tt><body><p begin='00:05' dur='2s'>Pawn to e4</p></body></tt>";
    const pg_answer answer = pg_read(&tables, film, sizeof film - 1);
    if (answer.number != PG_TAKEN) {
        printf("at byte %u: %s\n", answer.place, pg_cause(answer.number));
        return 1;
    }
    for (size_t cue = 0; cue < pg_cue_count(&tables); cue++) {
        char text[80] = "";
        const pg_answer said = pg_cue_text(&tables, cue, text, sizeof text - 1);
        printf("%.3f s: %s\n", pg_cue_begin(&tables, cue) / 1e6, said.number == PG_TAKEN ? text : pg_cause(said.number));
    }
    return 0;
}
