/* What a refusal says, by its number. lundaspro.h includes it; tests/sentences holds it to the header's comments. */
#ifndef LUNDASPRO_SENTENCE_H
#define LUNDASPRO_SENTENCE_H

/* The sentence lives as long as the program. Of 0 and of numbers that no call gives it is "no number that a call gives". */
static inline const char *lundaspro_sentence(uint8_t refusal) {
    switch (refusal) {
    case LUNDASPRO_SNAKES: return "snakes not 2..8";
    case LUNDASPRO_LENGTH_ZERO: return "initial length 0";
    case LUNDASPRO_LEAD_ZERO: return "food lead 0";
    case LUNDASPRO_LEAD_NOT_TWO: return "food lead set, snakes not 2";
    case LUNDASPRO_GRID: return "grid above 32 (space query: or below 1)";
    case LUNDASPRO_FOOD_AREA: return "food above g*g (0 when g < 0)";
    case LUNDASPRO_PRODUCT: return "g*g(g*g-1).. of min(snakes, food) factors above 2^53";
    case LUNDASPRO_UNTRACEABLE: return "some body cannot be traced to its length";
    case LUNDASPRO_CELL_OUTSIDE: return "first bad cell: outside";
    case LUNDASPRO_CELL_TAKEN: return "first bad cell: already taken";
    case LUNDASPRO_FOOD_FREE: return "food above the free cells";
    case LUNDASPRO_OTHER_SETTING: return "snakes or grid differ from the setting";
    case LUNDASPRO_FOOD_DUE: return "food is due at a step";
    case LUNDASPRO_NONE_DUE: return "none is due at a draw";
    case LUNDASPRO_ACTION_COUNT: return "action count is not the number of snakes";
    case LUNDASPRO_ACTION: return "a living snake's action above 2";
    case LUNDASPRO_AGENT: return "agent not below the number of snakes";
    case LUNDASPRO_OUTCOME: return "outcome not below the count";
    case LUNDASPRO_COUNT: return "count above 2^64 - 1";
    case LUNDASPRO_BUFFER: return "an output buffer shorter than its answer";
    case LUNDASPRO_LIST: return "list to rank: wrong length, a cell not free, or repeated";
    case LUNDASPRO_WEIGHT: return "a reward weight not finite";
    case LUNDASPRO_OVER: return "match over";
    case LUNDASPRO_CONTENTS: return "a book's contents: cut short, off their layout, a refused setting, starts out of line, words left in a book of no pages";
    case LUNDASPRO_PAGE: return "no such page";
    case LUNDASPRO_PAGES: return "above 65,535 pages";
    case LUNDASPRO_CUT_SHORT: return "fewer words than the contents need";
    case LUNDASPRO_OUT_OF_RANGE: return "a content word out of range, or a living snake's length 0";
    case LUNDASPRO_START: return "a start out of line";
    case LUNDASPRO_TOTAL: return "total length wrong";
    case LUNDASPRO_CELL_BEYOND: return "a cell beyond the grid";
    case LUNDASPRO_CELL_TWICE: return "a cell twice in a body";
    case LUNDASPRO_FOOD_ORDER: return "food not ascending";
    case LUNDASPRO_UNIT_COUNT: return "unit number: count not 1 to 2^53";
    case LUNDASPRO_UNIT_NUMBER: return "unit number: not at least 0 and below 1";
    default: return "no number that a call gives";
    }
}

#endif
