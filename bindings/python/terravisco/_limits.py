"""The numbers of include/terravisco.h, each named once. tests/test_header.py holds them to the header."""

GROUPS = 64
ROW = 2 + 2 * GROUPS
PART = ROW + 4
NAME_ENTRY = 17
NAME_INDEX = GROUPS * NAME_ENTRY
RULE_AREA = 16_384
WORK_PER_STEP = 16
LONGEST_RULE = 1_000
DEPOT = 16
CARD = 1_064
RULE_BYTES = 1_000
ANSWER = 6
EXPLAIN_ANSWER = 11
CARD_ANSWER = 9
UNSET = 4_294_967_295

# These the header has in words alone.
MOST_BUDGET = 100_000
MOST_CARD_BUDGET = 65_535
LONGEST_LINE = 65_535
