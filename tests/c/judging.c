/* Opens a session from the text of a state, whose file the argument names. Writes the state to standard output, or says
 * as the program does why the text is refused, but not what an audit finds in it; then the status is 2. */
#include <kcore.h>
#include <stdio.h>
#include <stdlib.h>

static const char *const words[] = {"no state header", "bad state line %u", "dump frame %u missing or doubled",
                                    "state of no configuration", "state with finding", "bad slot %u", "bad frame %u"};
enum { MOST = 1 << 20 };
static uint8_t text[MOST], out[MOST];

int main(int count, char **paths) {
    kcore core = {0};
    uint32_t place = 7;
    FILE *in = count == 2 ? fopen(paths[1], "rb") : NULL;
    if (!in) return 3;
    size_t used, length = fread(text, 1, MOST, in);
    if (fclose(in) != 0 || length == MOST) return 4;
    uint32_t status = kcore_resume(&core, text, length, &place);
    if (status == KCORE_DONE) {
        if (place != 7 || kcore_state(&core, out, MOST, &used) != KCORE_DONE) return 5;
        return fwrite(out, 1, used, stdout) == used && kcore_end(&core) == KCORE_DONE ? 0 : 6;
    }
    if (status < KCORE_NO_STATE_HEADER || status > KCORE_BAD_FRAME || kcore_end(&core) != KCORE_CLOSED) return 7;
    int has_place = status == KCORE_BAD_STATE_LINE || status == KCORE_MISSING_FRAME || status >= KCORE_BAD_SLOT;
    if (!has_place && place != 0) return 8;
    fprintf(stderr, "kcore: ");
    fprintf(stderr, words[status - KCORE_NO_STATE_HEADER], (unsigned)place);
    fprintf(stderr, "\n");
    return 2;
}
