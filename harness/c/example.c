/* A worked example of the C interface: every reading of one line, fields by their names, why a line does not match, all the quantities in one message,
 * a day's lines at once, a reading that someone else proposes, and a rule card.
 *
 * `1,500 L` is one thousand five hundred litres where the comma stands between thousands, and one and a half litres where it is a decimal
 * comma. The rule allows both, so the listing has two rows, and whoever gets two rows knows that the line has to be asked about.
 *
 *     gcc -I include harness/c/example.c target/staticlib/libterravisco.a -o example
 */
#include <stdint.h>
#include <stdio.h>
#include <string.h>

#include "terravisco.h"

enum { BUDGET = 1000, ROWS = 8, LINES = 8 };
enum { FLAG_S = 1, FLAG_M = 2, FLAG_I = 4, FLAG_X = 8 };

/* The library has no heap: it works in these, and needs nothing of what they held before. */
static uint32_t rule_area[TERRAVISCO_RULE_AREA];
static uint32_t work_area[TERRAVISCO_WORK_PER_STEP * BUDGET];
static uint32_t rows[TERRAVISCO_ROW * ROWS];
static uint32_t parts[TERRAVISCO_PART * LINES];
static uint8_t names[TERRAVISCO_NAME_INDEX];
static uint8_t marks[TERRAVISCO_LONGEST_RULE];
static uint8_t card[TERRAVISCO_CARD];
static uint8_t rule_bytes[TERRAVISCO_RULE_BYTES];

static void print_row(const uint32_t *row, const char *line)
{
    printf("%u-%u", (unsigned)row[0], (unsigned)row[1]);
    for (int group = 1; group <= 2; group++) {
        uint32_t from = row[2 * group], to = row[2 * group + 1];
        if (from == TERRAVISCO_UNSET)
            printf(", group %d not set", group);
        else
            printf(", group %d `%.*s`", group, (int)(to - from), line + from);
    }
    printf("\n");
}

static void list(const char *rule, uint32_t flags, const char *line)
{
    static const char *const endings[] = {"complete", "full", "exhausted", "refused"};
    uint32_t answer[TERRAVISCO_ANSWER];

    terravisco_list((const uint8_t *)rule, strlen(rule), flags, (const uint8_t *)line, strlen(line), BUDGET,
                    rule_area, sizeof rule_area / sizeof *rule_area, work_area, sizeof work_area / sizeof *work_area,
                    rows, sizeof rows / sizeof *rows, names, sizeof names, answer);

    uint64_t steps = (uint64_t)answer[4] << 32 | answer[3];
    printf("%s on `%s`: ", rule, line);
    if (answer[0] == 3) {
        printf("refused, number %u at %u\n", (unsigned)answer[1], (unsigned)answer[2]);
        return;
    }
    printf("%s, %u readings, %llu steps\n", endings[answer[0]], (unsigned)answer[5], (unsigned long long)steps);
    for (uint32_t row = 0; row < answer[5]; row++)
        print_row(rows + TERRAVISCO_ROW * row, line);
}

/* The litres that a line tells; what stands for the farm where it tells none; nothing where it is no such line. */
static void print_litres(const char *rule, const char *line, const char *standing)
{
    uint32_t answer[TERRAVISCO_ANSWER];
    uint64_t field[3];

    terravisco_match((const uint8_t *)rule, strlen(rule), 0, (const uint8_t *)line, strlen(line), BUDGET,
                     rule_area, sizeof rule_area / sizeof *rule_area, work_area, sizeof work_area / sizeof *work_area,
                     rows, sizeof rows / sizeof *rows, names, sizeof names, answer);
    terravisco_field((const uint8_t *)"litres", 6, names, sizeof names, (const uint8_t *)line, strlen(line), answer[0],
                     rows, TERRAVISCO_ROW, (const uint8_t *)standing, strlen(standing), field);
    printf("litres in `%s`: `%.*s`\n", line, (int)(field[2] - field[1]), (field[0] == 0 ? line : standing) + field[1]);
}

/* Under a line that does not match, how far the closest attempt got; under the rule, what was wanted there. */
static void explain(const char *rule, const char *line)
{
    uint32_t answer[TERRAVISCO_EXPLAIN_ANSWER];

    terravisco_explain((const uint8_t *)rule, strlen(rule), 0, (const uint8_t *)line, strlen(line), BUDGET,
                       rule_area, sizeof rule_area / sizeof *rule_area, work_area, sizeof work_area / sizeof *work_area,
                       names, sizeof names, marks, sizeof marks, answer);
    if (answer[0] != 1) {
        printf("`%s` is %s\n", line, answer[0] == 0 ? "matched" : answer[0] == 2 ? "exhausted" : "refused");
        return;
    }
    printf("%s\n%*s the attempt from %u fails here\n%s\n", line, (int)answer[9] + 1, "^", (unsigned)answer[8], rule);
    for (size_t at = 0; at < strlen(rule); at++)
        putchar(marks[at] ? '^' : ' ');
    printf(" wanted\n");
}

/* Successive matches: every quantity that a message tells. */
static void print_quantities(const char *message)
{
    static const char rule[] = "(\\d+) (L|kg)";
    uint32_t answer[TERRAVISCO_ANSWER];

    terravisco_match_all((const uint8_t *)rule, strlen(rule), 0, (const uint8_t *)message, strlen(message), BUDGET,
                         rule_area, sizeof rule_area / sizeof *rule_area, work_area, sizeof work_area / sizeof *work_area,
                         rows, sizeof rows / sizeof *rows, names, sizeof names, answer);
    printf("`%s` tells %u quantities%s\n", message, (unsigned)answer[5], answer[0] == 0 ? "" : " or more");
    for (uint32_t row = 0; row < answer[5]; row++)
        print_row(rows + TERRAVISCO_ROW * row, message);
}

/* A day's lines: the litres of each. */
static void print_day(const char *rule, const char *day)
{
    uint32_t answer[TERRAVISCO_ANSWER];
    const char *line = day;

    terravisco_match_lines((const uint8_t *)rule, strlen(rule), 0, (const uint8_t *)day, strlen(day), BUDGET,
                           rule_area, sizeof rule_area / sizeof *rule_area, work_area, sizeof work_area / sizeof *work_area,
                           parts, sizeof parts / sizeof *parts, names, sizeof names, answer);
    if (answer[0] != 0) {
        printf("the day is refused, number %u at %u\n", (unsigned)answer[1], (unsigned)answer[2]);
        return;
    }
    for (uint32_t number = 0; number < answer[5]; number++) {
        const uint32_t *row = parts + TERRAVISCO_PART * number, *outcome = row + TERRAVISCO_ROW;
        size_t length = strcspn(line, "\n");
        uint64_t field[3];

        terravisco_field((const uint8_t *)"litres", 6, names, sizeof names, (const uint8_t *)line, length, outcome[0],
                         row, TERRAVISCO_ROW, (const uint8_t *)"600", 3, field);
        printf("line %u, `%.*s`: %s, litres `%.*s`\n", (unsigned)number, (int)length, line, outcome[0] == 0 ? "matched" : "not matched",
               (int)(field[2] - field[1]), (field[0] == 0 ? line : "600") + field[1]);
        line += length + (line[length] == '\n');
    }
}

/* What is said of the choices that someone found, from this start on. */
static void check(const char *rule, const char *line, uint16_t start, const char *choices)
{
    static const char *const findings[] = {"a reading", "no reading", "exhausted", "refused"};
    uint8_t proposal[64] = {(uint8_t)(start % 256), (uint8_t)(start / 256)};
    uint32_t answer[TERRAVISCO_ANSWER];
    size_t length = strlen(choices);

    for (size_t choice = 0; choice < length && choice < sizeof proposal - 2; choice++)
        proposal[2 + choice] = (uint8_t)(choices[choice] - '0');
    terravisco_check((const uint8_t *)rule, strlen(rule), 0, (const uint8_t *)line, strlen(line), BUDGET, proposal, 2 + length,
                     rule_area, sizeof rule_area / sizeof *rule_area, work_area, sizeof work_area / sizeof *work_area,
                     rows, TERRAVISCO_ROW, names, sizeof names, answer);
    printf("%s from %u by %s on `%s`: %s", rule, (unsigned)start, choices, line, findings[answer[0]]);
    if (answer[0] == 3) {
        printf(", number %u at %u\n", (unsigned)answer[1], (unsigned)answer[2]);
        return;
    }
    printf(", %u steps\n", (unsigned)answer[3]);
    if (answer[5] == 1)
        print_row(rows, line);
}

/* Reads a card and prints what it says. */
static void print_card(size_t length)
{
    uint32_t answer[TERRAVISCO_CARD_ANSWER];

    terravisco_card_read(card, length, rule_area, sizeof rule_area / sizeof *rule_area, rule_bytes, sizeof rule_bytes, answer);
    if (answer[0] == 0)
        printf("the card says `%.*s`, flags %u, budget %u, groups %u\n", (int)answer[5], (const char *)rule_bytes, (unsigned)answer[6],
               (unsigned)answer[7], (unsigned)answer[8]);
    else
        printf("the card is refused, number %u at %u\n", (unsigned)answer[1], (unsigned)answer[2]);
}

/* A rule card: written where a rule is made, and read where it is used. One that was cut off or changed on its way is refused. */
static void send_card(const char *rule, uint32_t flags)
{
    uint32_t answer[TERRAVISCO_ANSWER];

    terravisco_card_write((const uint8_t *)rule, strlen(rule), flags, BUDGET, rule_area, sizeof rule_area / sizeof *rule_area,
                          card, sizeof card, answer);
    if (answer[0] != 0) {
        printf("no card for %s, number %u at %u\n", rule, (unsigned)answer[1], (unsigned)answer[2]);
        return;
    }
    printf("a card of %u bytes\n", (unsigned)answer[5]);
    print_card(answer[5]);
    print_card(answer[5] - 1);
    card[4]++;
    print_card(answer[5]);
}

int main(void)
{
    list("^(?:(\\d{1,3},\\d{3})|(\\d+,\\d+)) L$", 0, "1,500 L");
    list("(a?)*", 0, "b");
    list("a**", 0, "1,500 L");
    /* the first rule once more, with spaces between its parts and for either case of the L */
    list("^ (?: (\\d{1,3},\\d{3}) | (\\d+,\\d+) ) \\  L $", FLAG_I | FLAG_X, "1,500 l");
    print_litres("^tank \\d+:(?: (?<litres>\\d+) L)?$", "tank 7: 820 L", "600");
    print_litres("^tank \\d+:(?: (?<litres>\\d+) L)?$", "tank 7:", "600");
    print_litres("^tank \\d+:(?: (?<litres>\\d+) L)?$", "hall 3", "600");
    explain("^tank (\\w+): (\\d+) L$", "tank A1 820 L");
    explain("^tank (\\w+): (\\d+) L$", "tank A1: 820 L");
    print_quantities("tank 7: 820 L, tank 8: 64 L, feed: 25 kg");
    print_quantities("no delivery");
    print_day("^tank \\d+:(?: (?<litres>\\d+) L)?$", "tank 7: 820 L\ntank 8:\n\nhall 3\ntank 9: 5 L");
    print_day("^tank (", "tank 7: 820 L\n");
    check("(\\d+)(L?)", "15L", 0, "101");
    check("(\\d+)(L?)", "15L", 1, "00");
    check("(\\d+)(L?)", "15L", 0, "10");
    check("(\\d+)(?=L)", "15L", 0, "10");
    send_card("^tank (\\d+): (\\d+) L$", FLAG_I);
    send_card("^tank (", 0);
    return 0;
}
