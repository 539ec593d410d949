/* A loop in C over terravisco_match, and terravisco_match_lines on the same buffer: both have to leave the same parts, also where a line is not matched.
 *
 * Reads cases as `print_calls --batches` prints them: call, flags, budget, the lengths of rule area, work area, result area, name index and marks, rule
 * and buffer in hex, and more that is not looked at, with tabs between them. Prints what differs, and on its last line how many cases passed and failed.
 *
 *     target/release/print_calls --batches | target/c-lines
 */
#define _POSIX_C_SOURCE 200809L
#include <stdint.h>
#include <stdio.h>
#include <stdlib.h>
#include <string.h>

#include "terravisco.h"

enum { FLAGS = 1, BUDGET, RULE_AREA, WORK_AREA, RESULT, NAMES, RULE = 8, BUFFER, FIELDS };
enum { REFUSED = 3, NOT_ASKED = 4, LINE_TOO_LONG = 2, TOO_MANY_LINES = 7 };

struct bytes {
    uint8_t *at;
    size_t length;
};

/* A case, and the areas that are lent for it. */
struct asked {
    uint32_t flags, budget;
    size_t lengths[NAMES + 1];
    struct bytes rule, buffer;
    uint32_t *rule_area, *work_area;
    uint8_t *names;
};

/* Room for so many bytes, never none: no pointer may be null. */
static void *room(size_t bytes)
{
    void *at = malloc(bytes + 1);
    if (!at)
        exit(2);
    return at;
}

static struct bytes from_hex(const char *text)
{
    struct bytes bytes = {room(strlen(text) / 2), strlen(text) / 2};
    for (size_t index = 0; index < bytes.length; index++) {
        const char digits[] = {text[2 * index], text[2 * index + 1], 0};
        bytes.at[index] = (uint8_t)strtoul(digits, NULL, 16);
    }
    return bytes;
}

static struct asked read_case(char *line)
{
    struct asked asked;
    char *fields[FIELDS];

    for (int field = 0; field < FIELDS; field++) {
        fields[field] = line;
        line += strcspn(line, "\t\n");
        if (*line)
            *line++ = 0;
    }
    asked.flags = (uint32_t)strtoul(fields[FLAGS], NULL, 10);
    asked.budget = (uint32_t)strtoul(fields[BUDGET], NULL, 10);
    for (int area = RULE_AREA; area <= NAMES; area++)
        asked.lengths[area] = strtoul(fields[area], NULL, 10);
    asked.rule = from_hex(fields[RULE]);
    asked.buffer = from_hex(fields[BUFFER]);
    asked.rule_area = room(sizeof(uint32_t) * asked.lengths[RULE_AREA]);
    asked.work_area = room(sizeof(uint32_t) * asked.lengths[WORK_AREA]);
    asked.names = room(asked.lengths[NAMES]);
    return asked;
}

static void free_case(struct asked *asked)
{
    free(asked->rule.at);
    free(asked->buffer.at);
    free(asked->rule_area);
    free(asked->work_area);
    free(asked->names);
}

/* One line's part by a match of its own, with a row's room in the part. */
static void match_line(struct asked *asked, struct bytes line, uint32_t *part, uint32_t answer[TERRAVISCO_ANSWER])
{
    uint32_t *outcome = part + TERRAVISCO_ROW;

    terravisco_match(asked->rule.at, asked->rule.length, asked->flags, line.at, line.length, asked->budget,
                     asked->rule_area, asked->lengths[RULE_AREA], asked->work_area, asked->lengths[WORK_AREA],
                     part, TERRAVISCO_ROW, asked->names, asked->lengths[NAMES], answer);
    outcome[0] = answer[0];
    outcome[1] = answer[1];
    outcome[2] = answer[3];
    outcome[3] = answer[4];
}

/* The parts of all lines, one call after another; how many lines there are. `last` is the last answer on a line that is not too long, if there is
   one. The loop stops where that is refused. */
static size_t match_each(struct asked *asked, uint32_t *parts, uint32_t last[TERRAVISCO_ANSWER])
{
    uint8_t *at = asked->buffer.at, *end = at + asked->buffer.length;
    size_t lines = 0;

    last[0] = NOT_ASKED;
    while (at < end && last[0] != REFUSED) {
        uint8_t *newline = memchr(at, '\n', (size_t)(end - at));
        struct bytes line = {at, (size_t)((newline ? newline : end) - at)};
        uint32_t answer[TERRAVISCO_ANSWER];

        match_line(asked, line, parts + TERRAVISCO_PART * lines++, answer);
        if (answer[0] != REFUSED || answer[1] != LINE_TOO_LONG)
            memcpy(last, answer, sizeof answer);
        at += line.length + 1;
    }
    return lines;
}

/* Numbers that tell whether they were written. */
static void fill(uint32_t *numbers, size_t length)
{
    for (size_t index = 0; index < length; index++)
        numbers[index] = (uint32_t)(index * 2654435761u) | 1;
}

/* What is wrong with a refusal, or null. Where no line was asked about, or all are too long, the lines cannot tell. */
static const char *refusal_fault(const uint32_t *answer, const uint32_t *last, int is_short)
{
    if (answer[1] == LINE_TOO_LONG)
        return "the call is refused for a line";
    if (last[0] == NOT_ASKED)
        return NULL;
    if (last[0] != REFUSED)
        return answer[1] == TOO_MANY_LINES && is_short ? NULL : "the call is refused, and no line";
    if (answer[1] == TOO_MANY_LINES)
        return last[1] > TOO_MANY_LINES ? NULL : "the lines are counted before a limit is tested";
    return last[1] == answer[1] && last[2] == answer[2] ? NULL : "the refusal is another one than that of a line";
}

/* What is wrong with the whole call, or null. `each` and `all` have the loop's and the call's parts. */
static const char *fault(struct asked *asked, uint32_t *each, uint32_t *all, size_t numbers)
{
    uint32_t last[TERRAVISCO_ANSWER], answer[TERRAVISCO_ANSWER];
    size_t lines = match_each(asked, each, last);

    terravisco_match_lines(asked->rule.at, asked->rule.length, asked->flags, asked->buffer.at, asked->buffer.length, asked->budget,
                           asked->rule_area, asked->lengths[RULE_AREA], asked->work_area, asked->lengths[WORK_AREA],
                           all, asked->lengths[RESULT], asked->names, asked->lengths[NAMES], answer);
    if (answer[0] == REFUSED) {
        fill(each, numbers);
        return memcmp(each, all, sizeof *all * numbers) == 0
                   ? refusal_fault(answer, last, lines > asked->lengths[RESULT] / TERRAVISCO_PART)
                   : "the call is refused and has written";
    }
    if (last[0] == REFUSED)
        return "a line is refused alone, and not the whole call";
    if (lines > asked->lengths[RESULT] / TERRAVISCO_PART)
        return "there are more lines than parts, and the call is not refused";
    if (answer[1] || answer[2] || answer[3] || answer[4] || answer[5] != (uint32_t)lines)
        return "the answer is not the number of lines alone";
    return memcmp(each, all, sizeof *all * numbers) == 0 ? NULL : "the parts differ";
}

int main(void)
{
    char *line = NULL;
    size_t size = 0;
    unsigned long passed = 0, failed = 0;

    while (getline(&line, &size, stdin) > 0) {
        struct asked asked = read_case(line);
        /* A line takes at least one byte of the buffer. */
        size_t numbers = TERRAVISCO_PART * (asked.buffer.length + 1) + asked.lengths[RESULT];
        uint32_t *each = room(sizeof *each * numbers), *all = room(sizeof *all * numbers);
        const char *wrong;

        fill(each, numbers);
        fill(all, numbers);
        wrong = fault(&asked, each, all, numbers);
        if (wrong)
            printf("FAILED case %lu: %s\n", passed + failed, wrong);
        *(wrong ? &failed : &passed) += 1;
        free(each);
        free(all);
        free_case(&asked);
    }
    free(line);
    printf("%lu passed, %lu failed\n", passed, failed);
    return failed > 0;
}
