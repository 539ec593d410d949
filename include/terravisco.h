/* Terravisco: matching a Perl regular expression against a line or a day's lines, within a budget of steps, telling why a line does not match, checking a
 * proposed reading, and rule cards.
 *
 * Link with libterravisco.a, which `./build library` writes to target/staticlib/.
 *
 * Nothing is required of what is handed in: any bytes, any flags, any budget and areas of any length give an answer or a refusal.
 * What a caller owes is only what C cannot tell: each pointer leads to as many bytes or numbers as the length beside it says, and the three
 * areas, the names, the marks, a card, a card's rule bytes and the answer overlap neither each other nor the rule, the subject or buffer and a proposal. A
 * pointer is never null, even beside a length of 0.
 *
 * flags         bit 0 is `s`, bit 1 is `m`, bit 2 is `i`, bit 3 is `x`; bit 4, TERRAVISCO_DEPOT, asks for the depot profile: a rule is refused for 27 if it
 *               has a reference, for 28 if it has a repeat without upper bound over a body that may take no bytes, for 29 if it has a range whose ends
 *               are not two digits, two upper or two lower letters. A rule that passes gives the same answers as without the bit.
 * budget        steps for each start in the subject, at most 100,000
 * rule_area     at least TERRAVISCO_RULE_AREA numbers
 * work_area     at least TERRAVISCO_WORK_PER_STEP numbers for each step of the budget
 * result        rows of TERRAVISCO_ROW numbers: start, end, then a pair for each group, TERRAVISCO_UNSET twice for a group that is not set.
 *               A match writes one row if it matched. A listing writes as many as there are readings, or as fit, and a call for successive matches
 *               as many as there are, or as fit. A day's lines have parts of their own, see terravisco_match_lines.
 *
 * names         the name index, at least TERRAVISCO_NAME_INDEX bytes: TERRAVISCO_NAME_ENTRY for each group, the length of its name (0 if it has none) and the
 *               name, padded with 00. A call that is not refused fills it; the bytes behind are as they were.
 *
 * Rule area and work area may hold anything before a call. Afterwards the parts that are named above are zero, and the rest is as it was; a
 * call that is refused for reasons 1 to 8 changes nothing. The result area has the rows; all its other numbers are as they were. A call that is
 * refused leaves the result area and the name index as they were.
 */
#ifndef TERRAVISCO_H
#define TERRAVISCO_H

#include <stddef.h>
#include <stdint.h>

#ifdef __cplusplus
extern "C" {
#endif

enum {
    TERRAVISCO_RULE_AREA = 16384,
    TERRAVISCO_WORK_PER_STEP = 16,
    TERRAVISCO_GROUPS = 64, /* the most that a rule can have */
    TERRAVISCO_ROW = 2 + 2 * TERRAVISCO_GROUPS,
    TERRAVISCO_PART = TERRAVISCO_ROW + 4,
    TERRAVISCO_NAME_ENTRY = 17,
    TERRAVISCO_NAME_INDEX = TERRAVISCO_GROUPS * TERRAVISCO_NAME_ENTRY,
    TERRAVISCO_LONGEST_RULE = 1000,
    TERRAVISCO_DEPOT = 16,
    TERRAVISCO_CARD = 1064,
    TERRAVISCO_RULE_BYTES = 1000,
    TERRAVISCO_ANSWER = 6,
    TERRAVISCO_EXPLAIN_ANSWER = 11,
    TERRAVISCO_CARD_ANSWER = 9
};

#define TERRAVISCO_UNSET UINT32_C(4294967295)

/* answer: [0] kind, [1] exhausted start or refusal number, else 0, [2] refusal's place, else 0,
   [3] steps' low 32 bits, [4] their high 32 bits, [5] rows written (their low 32 bits: 2^32 rows would take more than a terabyte).
   Kind of a match: 0 matched, 1 not matched, 2 exhausted, 3 refused.
   Kind of a listing and of successive matches: 0 complete, 1 full, 2 exhausted, 3 refused. Steps are 0 if refused. */
void terravisco_match(const uint8_t *rule, size_t rule_len, uint32_t flags,
                      const uint8_t *subject, size_t subject_len, uint32_t budget,
                      uint32_t *rule_area, size_t rule_area_len, uint32_t *work_area, size_t work_area_len,
                      uint32_t *result, size_t result_len, uint8_t *names, size_t names_len, uint32_t answer[TERRAVISCO_ANSWER]);

void terravisco_list(const uint8_t *rule, size_t rule_len, uint32_t flags,
                     const uint8_t *subject, size_t subject_len, uint32_t budget,
                     uint32_t *rule_area, size_t rule_area_len, uint32_t *work_area, size_t work_area_len,
                     uint32_t *result, size_t result_len, uint8_t *names, size_t names_len, uint32_t answer[TERRAVISCO_ANSWER]);

/* Successive matches, as Perl's `/g` finds them: each search begins where the match before it ended, and after an empty match the next one may not be
   empty at that same place. A row for each, in their order; they do not overlap. The first row is that of terravisco_match, and where that does not
   match there is none.
   answer    that of a listing: 0 complete, behind the last match; 1 full, where a further match was found and no row was left for it; 2 exhausted,
             [1] the start. After an empty match its place is tried a second time, with a budget of its own, so that the steps are at most
             2 x budget x (subject_len + 1).
   What is handed in, refusals, and what is left behind are those of a listing. */
void terravisco_match_all(const uint8_t *rule, size_t rule_len, uint32_t flags,
                          const uint8_t *subject, size_t subject_len, uint32_t budget,
                          uint32_t *rule_area, size_t rule_area_len, uint32_t *work_area, size_t work_area_len,
                          uint32_t *result, size_t result_len, uint8_t *names, size_t names_len, uint32_t answer[TERRAVISCO_ANSWER]);

/* A match on each line of a buffer. Lines end at a byte 0A, which is no part of them; what stands behind the last 0A is a line if it is not empty.
   buffer    of any length; only each line is limited, to 65,535 bytes
   result    a part of TERRAVISCO_PART numbers for each line: its row, as terravisco_match writes it if the line matched, else left as it was; then
             four numbers, 0 matched, 1 not matched, 2 exhausted or 3 refused; the exhausted start or the refusal's number, else 0; the steps' low
             32 bits and their high 32 bits, 0 if refused. The row of line n, counted from 0, begins at TERRAVISCO_PART x n.
             Parts behind the last line, and numbers behind the last part, are as they were.
   answer    [0] 0 done or 3 refused, [1] refusal number and [2] its place, else 0, [3] and [4] 0, [5] the number of lines (its low 32 bits), 0 if
             refused
   A line over 65,535 bytes is refused by itself, with number 2, and the others go on; the call is never refused for that. It is refused for 7 if there are
   more lines than whole parts, and otherwise for what a match is refused for, before any line is matched, also where there is no line at all. Areas
   and name index are left as by a match, where no line is matched too. */
void terravisco_match_lines(const uint8_t *rule, size_t rule_len, uint32_t flags,
                            const uint8_t *buffer, size_t buffer_len, uint32_t budget,
                            uint32_t *rule_area, size_t rule_area_len, uint32_t *work_area, size_t work_area_len,
                            uint32_t *result, size_t result_len, uint8_t *names, size_t names_len, uint32_t answer[TERRAVISCO_ANSWER]);

/* Tells why a line does not match: which items of the rule failed, and where. An item is what takes one byte (a byte, `.`, a class, an escape for a
   byte or a set), a place (`^`, `$`, `\b` and the like), a reference or a `(?!`, which fails where what it forbids is there. It is tried at a place in the
   line, a reference where it begins and a `(?!` where it is entered, and has its own place in the rule, that of its first byte, also under a repeat.
   Items inside `(?>`, `(?=` and `(?!` count too; those of `\R` have its place.
   marks     of any length, 0 too; TERRAVISCO_LONGEST_RULE bytes are enough for every rule
   answer    [0] to [4] those of a match, [5] 0, and if the line is not matched:
             [6] the greatest place in the line at which an item failed, [7] the place in the rule of the first that failed there, in the order in
             which they are tried, over all starts. The line's end is a start too, so that [6] is always subject_len.
             The closest attempt, of all items that failed the first of those that were tried furthest from their start: [8] that start, [9] the
             place in the line, [10] the place in the rule.
             [6] to [10] are 0 if the line is matched, exhausted or refused.
   If the line is not matched, marks get for each byte of the rule, as far as they go, 1 where an item begins that failed at the place [9] in the
   attempt from [8], else 0: what was wanted there. Those behind the rule's length are as they were, and all of them after any other answer.
   There is no result area, so that refusal 7 is not given. The areas and the name index are left as by a match, after refusals too. */
void terravisco_explain(const uint8_t *rule, size_t rule_len, uint32_t flags,
                        const uint8_t *subject, size_t subject_len, uint32_t budget,
                        uint32_t *rule_area, size_t rule_area_len, uint32_t *work_area, size_t work_area_len,
                        uint8_t *names, size_t names_len, uint8_t *marks, size_t marks_len, uint32_t answer[TERRAVISCO_EXPLAIN_ANSWER]);

/* Checks a reading that someone else proposes: follows the one path that its choices tell, and accepts it exactly when these choices, all used, make a
   reading of that rule on that line. It says "a reading", never "the match": whether another one comes before it is not looked for.
   proposal  of any bytes and any length: the start as two bytes, the low one first, then one byte for each choice in their order. A choice is written only
             where two or more ways are allowed: the number of the branch, from 0, in an alternation; 0 for going on and 1 for another round where a
             repeat may do either, whether greedy or lazy. Where a round is owed, where the repeat is full, and after a round that took no bytes, none is.
   answer    [0] 0 a reading, 1 no reading, 2 exhausted, 3 refused; [1] the exhausted start or the refusal's number, else 0; [2] the refusal's place, else 0;
             [3] and [4] the steps along the path, of "no reading" those up to where it was seen, 0 if refused; [5] 1 with a reading, else 0.
             A start that the line does not have, a proposal too short for one, a choice that is missing or not allowed, choices left over at the
             rule's end: all of these are "no reading".
   A reading has its row written, nothing else writes one. What is handed in, refusals, and what is left behind are those of a match; and a rule that is sound
   is refused for 35 if it has `(?>`, `(?=`, `(?!`, `\R` or a possessive repeat, at the first (a possessive repeat's place is its `+`), and then for 36 if
   it has an alternation of more than 256 branches, at the lowest bar before a 257th; with both areas zero, and the name index as it was. */
void terravisco_check(const uint8_t *rule, size_t rule_len, uint32_t flags,
                      const uint8_t *subject, size_t subject_len, uint32_t budget, const uint8_t *proposal, size_t proposal_len,
                      uint32_t *rule_area, size_t rule_area_len, uint32_t *work_area, size_t work_area_len,
                      uint32_t *result, size_t result_len, uint8_t *names, size_t names_len, uint32_t answer[TERRAVISCO_ANSWER]);

/* Looks a field up: what the group of that name took of a line.
   names     a name index: for each group TERRAVISCO_NAME_ENTRY bytes, the length of its name (0 if none) and the name, whatever follows it. Of the
             first entries, as many as a rule can have groups, the first of that name counts that lies whole in the index.
   kind      of the answer: 0 matched; every other number is not. For a row of a listing, of successive matches or of a check hand in 0, for a line
             of a buffer the first of its four numbers.
   row       the answer's row, TERRAVISCO_ROW numbers; what follows them is not looked at. Fewer, or numbers that are no row for that line (start <= end
             <= line_len; each pair TERRAVISCO_UNSET twice or a span within the line), count as not matched.
   standing  the text that stands for a group that is not set
   field     [0] 0 a part of the line or 1 of the standing text, [1] from, [2] to: the field is the bytes from [1] up to, not including, [2].
             The part of the line that the group took, which may be empty; the whole standing text where the group is not set; 1, 0, 0
             where no entry has the name or the line did not match.
   Nothing is required of what is handed in, and nothing but field is written. Only field must not overlap the others. */
void terravisco_field(const uint8_t *name, size_t name_len, const uint8_t *names, size_t names_len,
                      const uint8_t *line, size_t line_len, uint32_t kind, const uint32_t *row, size_t row_len,
                      const uint8_t *standing, size_t standing_len, uint64_t field[3]);

/* Writes the card of a rule: its bytes, its flags and budget and the number of its groups, which can be kept, sent and read back. One rule with its flags
   and budget has one card.
   budget    at most 65,535
   card      at least TERRAVISCO_CARD bytes. The card is written at its front; the bytes behind are as they were.
   answer    [0] kind: 0 written, 3 refused; [1] refusal number, else 0, [2] refusal's place, else 0, [3] [4] 0, [5] bytes written, 0 if refused
   Refusals, tested in this order: 9 card area short, 1, 3, 4 (a budget over 65,535), 5, then those of the rule itself, from 10 on. A refusal leaves the card
   area as it was. The rule area is as it was after 9, 1, 3, 4 and 5; after any other return its needed part is zero. */
void terravisco_card_write(const uint8_t *rule, size_t rule_len, uint32_t flags, uint32_t budget,
                           uint32_t *rule_area, size_t rule_area_len, uint8_t *card, size_t card_len, uint32_t answer[TERRAVISCO_ANSWER]);

/* Reads a card. Any bytes may be handed in: what is taken is exactly what terravisco_card_write writes.
   rule_bytes  at least TERRAVISCO_RULE_BYTES bytes. The rule is written at its front; the bytes behind are as they were.
   answer      [0] kind: 0 read, 3 refused; [1] refusal number, else 0, [2] refusal's place, else 0, [3] [4] 0, and if it is read: [5] the rule's length,
               [6] its flags, [7] its budget, [8] the number of its groups, 0 if refused
   Refusals, tested in this order: 9 rule bytes' area short; 30 a byte that is no kind of record, 31 cut short, 32 records in the wrong order or number, 33
   padding that is not 00 or bytes behind the last record; 1, 3, 5, those of the rule itself, from 10 on; 34 the number of groups is not the rule's. The place
   is 0 but for those of the rule itself. A refusal leaves rule_bytes as they were. The rule area is as it was after 9, 30 to 33, 1, 3 and 5; after any other
   return its needed part is zero. */
void terravisco_card_read(const uint8_t *card, size_t card_len, uint32_t *rule_area, size_t rule_area_len,
                          uint8_t *rule_bytes, size_t rule_bytes_len, uint32_t answer[TERRAVISCO_CARD_ANSWER]);

#ifdef __cplusplus
}
#endif

#endif
