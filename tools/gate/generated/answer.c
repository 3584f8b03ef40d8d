/* answer QUESTIONS ANSWERS: answers each question, with a byte 0 after it. */
#include "answers.h"

typedef void answer(const struct question *question, FILE *to);

#define TABLES(name) answer name;
#include "tables.h"
#undef TABLES
#define TABLES(name) name,

static answer *const answers[] = {
#include "tables.h"
};

int main(int argc, char **argv)
{
    static struct question it;
    static char line[20 * LONGEST];
    FILE *from = argc == 3 ? fopen(argv[1], "r") : NULL, *to = argc == 3 ? fopen(argv[2], "w") : NULL;
    expect(from != NULL && to != NULL);
    while (fgets(line, sizeof line, from)) {
        char *rest = line;
        it.tables = strtoul(rest, &rest, 10);
        it.limit = strtoull(rest, &rest, 10);
        it.has_end = strtoul(rest, &rest, 10);
        for (it.length = 0; *rest == ' '; it.length++) {
            expect(it.length < LONGEST);
            it.terminals[it.length] = (unsigned)strtoul(rest, &rest, 10);
        }
        expect(it.tables < sizeof answers / sizeof *answers);
        answers[it.tables](&it, to);
        fputc(0, to);
    }
    expect(!ferror(from) && fclose(from) == 0 && fclose(to) == 0);
    return 0;
}
