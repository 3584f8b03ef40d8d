/*
 * Builds the text of a grammar of sums, production by production. Shows the conflicts of it, and
 * then parses by another one, which has none.
 */
#include <lr1.h>
#include <stdio.h>
#include <stdlib.h>
#include <string.h>

/* Adds a line to a text: a name, `=`, and the words of a right side. */
static void add_production(char *text, const char *name, const char *right_side)
{
    strcat(strcat(strcat(strcat(text, name), " = "), right_side), "\n");
}

/* Puts a byte 0 between words, and returns how many bytes there are. */
static size_t join(char *to, const char *const *words, size_t count)
{
    size_t length = 0;
    for (size_t it = 0; it < count; it++) {
        strcpy(to + length, words[it]);
        length += strlen(words[it]) + 1;
    }
    return length - 1;
}

/* Prints the answer to words, and returns its status. It asks again if there is too little room. */
static uint8_t ask(const char *text, const char *const *words, size_t count)
{
    char joined[1000];
    size_t words_length = join(joined, words, count), room = 64;
    for (;;) {
        size_t length;
        uint8_t *answer = malloc(room);
        if (answer == NULL)
            return LR1_NO_MEMORY;
        uint8_t status = lr1_ask((const uint8_t *)text, strlen(text), (const uint8_t *)joined,
                                 words_length, false, answer, room, &length);
        if (length <= room)
            fwrite(answer, 1, length, stdout);
        free(answer);
        if (length <= room)
            return status;
        room = length;
    }
}

int main(void)
{
    char ambiguous[1000] = "", right[1000] = "";
    add_production(ambiguous, "S", "E");
    add_production(ambiguous, "E", "E \"+\" E");
    add_production(ambiguous, "E", "\"n\"");
    const char *conflicts[] = {"S", "conflicts"};
    printf("status %d\n", ask(ambiguous, conflicts, 2));

    add_production(right, "S", "E");
    add_production(right, "E", "E \"+\" \"n\"");
    add_production(right, "E", "\"n\"");
    const char *parse[] = {"S", "parse", "100", "n", "+", "n"};
    printf("status %d\n", ask(right, parse, 6));
    return 0;
}
