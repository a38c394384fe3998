/* Says whether a file is a legal rule image: check FILE
 *
 * Prints `legal`, or `refused NUMBER POSITION: what is wrong`, the position in words counted from 0.
 * Exit status 0 if legal, 1 if refused, 2 if there is no answer: no file named, or it could not be read.
 */
#include <stdio.h>
#include <stdlib.h>

#include "cumbwael.h"

static const char *const sentences[] = {
    [CUMBWAEL_EMPTY_IMAGE] = "image slice empty",
    [CUMBWAEL_WRONG_EDITION] = "edition is not 1",
    [CUMBWAEL_NO_PREDICATES] = "the predicate count is 0",
    [CUMBWAEL_ZERO_FIELD] = "a zero field is not zero",
    [CUMBWAEL_LENGTH_FIELD] = "length field differs from slice length",
    [CUMBWAEL_ENDS_EARLY] = "words end early",
    [CUMBWAEL_FIRST_CLAUSE] = "position of first clause wrong",
    [CUMBWAEL_CLAUSE_EXPECTED] = "op 8 expected",
    [CUMBWAEL_VARIABLE_COUNT] = "variables over 32",
    [CUMBWAEL_GOAL_COUNT] = "goals over 16",
    [CUMBWAEL_ARGUMENT_EXPECTED] = "op 1 or 2 expected",
    [CUMBWAEL_VARIABLE_NUMBER] = "variable number not below the declared count, or above the number seen so far in the clause",
    [CUMBWAEL_GOAL_EXPECTED] = "op 9 expected",
    [CUMBWAEL_NO_SUCH_PREDICATE] = "predicate not below the predicate count",
    [CUMBWAEL_UNUSED_VARIABLE] = "a declared variable never appears",
    [CUMBWAEL_CLAUSE_LENGTH] = "clause length wrong",
    [CUMBWAEL_LEFT_OVER] = "words left over",
};

/* The whole file in memory of its own, and its length; NULL if it could not be read. */
static uint8_t *read_file(const char *name, size_t *length)
{
    FILE *file = fopen(name, "rb");
    if (file == NULL) return NULL;
    uint8_t *bytes = NULL;
    size_t room = 0, got = 0;
    do {
        uint8_t *more = realloc(bytes, room += 1 << 20);
        if (more == NULL) break;
        bytes = more;
        got += fread(bytes + got, 1, room - got, file);
    } while (got == room);
    if (ferror(file) || !feof(file)) {
        free(bytes);
        bytes = NULL;
    }
    fclose(file);
    *length = got;
    return bytes;
}

int main(int count, char **arguments)
{
    if (count != 2) {
        fputs("usage: check FILE\n", stderr);
        return 2;
    }
    size_t length;
    uint8_t *bytes = read_file(arguments[1], &length);
    if (bytes == NULL) {
        perror(arguments[1]);
        return 2;
    }
    uint64_t answer = cumbwael_check(bytes, length);
    free(bytes);
    if (answer == 0) {
        puts("legal");
        return 0;
    }
    unsigned number = cumbwael_number(answer), position = cumbwael_position(answer);
    printf("refused %u %u: %s\n", number, position, sentences[number]);
    return 1;
}
