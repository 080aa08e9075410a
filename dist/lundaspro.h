/* The calls of the snake arena from C: a shared library of dist/, for x86-64 or aarch64 Linux; or crate bindings as target/staticlib/libbindings.a
 * (`clients/archive`) on x86-64.
 *
 * Every exported call is proved to answer as the call of crate arena, book or standing that it wraps, for every input; none has a precondition of its own. An
 * exported call (`lundaspro_flat_..`, below) takes numbers, arrays of fixed size and slices, and returns its refusal. The calls to use, with records, are
 * thin functions over them.
 *
 * What a caller owes is what C cannot check: each pointer is not null (not even where its length is 0), aligned, and followed by as many
 * elements as its length says; memory that is written overlaps no other argument.
 * Nothing is kept after a call returns, nothing is allocated, and calls share no state: any thread may call at any time.
 *
 * An answer begins with `refusal`: 0 for an answer, else the number of a refusal, and then every other field but `word` is 0 and all
 * lent memory is untouched. `word` is the first word of the image, counted from its own start, that shows a fault, 50 to 56; 0 else.
 * Words after those that an answer wrote keep their values. Lists of numbers below are the refusals in the order in which they are tested.
 */
#ifndef LUNDASPRO_H
#define LUNDASPRO_H

#include <stdbool.h>
#include <stddef.h>
#include <stdint.h>

#ifdef __cplusplus
extern "C" {
#endif

/* Buffers of these sizes are never too short (refusal 29). */
#define LUNDASPRO_IMAGE_WORDS 9253 /* an image: out */
#define LUNDASPRO_LIST_WORDS 20    /* the cells of one draw: list */
#define LUNDASPRO_EVENTS 8         /* the events of a step: events, exactly what a step needs */
#define LUNDASPRO_HITS 8           /* who was hit where: hits, exactly what the call needs */
#define LUNDASPRO_PLANE_NUMBERS 5120 /* an observation: obs */
#define LUNDASPRO_BOOK_WORDS(pages, row_len) (17 + 2 * (pages) + (row_len)) /* a book: out, exactly what writing it needs */

/* Refusals; lundaspro_sentence says these sentences by the number. No call gives 7. */
#define LUNDASPRO_SNAKES 1          /* snakes not 2..8 */
#define LUNDASPRO_LENGTH_ZERO 2     /* initial length 0 */
#define LUNDASPRO_LEAD_ZERO 3       /* food lead 0 */
#define LUNDASPRO_LEAD_NOT_TWO 4    /* food lead set, snakes not 2 */
#define LUNDASPRO_GRID 5            /* grid above 32 (space query: or below 1) */
#define LUNDASPRO_FOOD_AREA 6       /* food above g*g (0 when g < 0) */
#define LUNDASPRO_PRODUCT 8         /* g*g(g*g-1).. of min(snakes, food) factors above 2^53 */
#define LUNDASPRO_UNTRACEABLE 9     /* some body cannot be traced to its length */
#define LUNDASPRO_CELL_OUTSIDE 10   /* first bad cell: outside */
#define LUNDASPRO_CELL_TAKEN 11     /* first bad cell: already taken */
#define LUNDASPRO_FOOD_FREE 12      /* food above the free cells */
#define LUNDASPRO_OTHER_SETTING 21  /* snakes or grid differ from the setting */
#define LUNDASPRO_FOOD_DUE 22       /* food is due at a step */
#define LUNDASPRO_NONE_DUE 23       /* none is due at a draw */
#define LUNDASPRO_ACTION_COUNT 24   /* action count is not the number of snakes */
#define LUNDASPRO_ACTION 25         /* a living snake's action above 2 */
#define LUNDASPRO_AGENT 26          /* agent not below the number of snakes */
#define LUNDASPRO_OUTCOME 27        /* outcome not below the count */
#define LUNDASPRO_COUNT 28          /* count above 2^64 - 1 */
#define LUNDASPRO_BUFFER 29         /* an output buffer shorter than its answer */
#define LUNDASPRO_LIST 30           /* list to rank: wrong length, a cell not free, or repeated */
#define LUNDASPRO_WEIGHT 31         /* a reward weight not finite */
#define LUNDASPRO_OVER 33           /* match over */
#define LUNDASPRO_CONTENTS 40       /* a book's contents: cut short, off their layout, a refused setting, starts out of line, words left in a book of no pages */
#define LUNDASPRO_PAGE 41           /* no such page */
#define LUNDASPRO_PAGES 42          /* above 65,535 pages */
#define LUNDASPRO_CUT_SHORT 50      /* fewer words than the contents need */
#define LUNDASPRO_OUT_OF_RANGE 51   /* a content word out of range, or a living snake's length 0 */
#define LUNDASPRO_START 52          /* a start out of line */
#define LUNDASPRO_TOTAL 53          /* total length wrong */
#define LUNDASPRO_CELL_BEYOND 54    /* a cell beyond the grid */
#define LUNDASPRO_CELL_TWICE 55     /* a cell twice in a body */
#define LUNDASPRO_FOOD_ORDER 56     /* food not ascending */
#define LUNDASPRO_UNIT_COUNT 80     /* unit number: count not 1 to 2^53 */
#define LUNDASPRO_UNIT_NUMBER 81    /* unit number: not at least 0 and below 1 */

/* Causes of death. */
#define LUNDASPRO_NO_CAUSE 0
#define LUNDASPRO_WALL 1
#define LUNDASPRO_SELF_BODY 2
#define LUNDASPRO_OPP_BODY 3
#define LUNDASPRO_HEAD_ON 4

/* Headings. */
#define LUNDASPRO_UP 0
#define LUNDASPRO_RIGHT 1
#define LUNDASPRO_DOWN 2
#define LUNDASPRO_LEFT 3

/* Actions, relative to the heading. */
#define LUNDASPRO_FORWARD 0
#define LUNDASPRO_TURN_LEFT 1
#define LUNDASPRO_TURN_RIGHT 2

/* ---- the exported calls
 *
 * A call returns its refusal, 0 for none; its remainder by 256 is the table's number, and it divided by 256 is `word`. All else of an answer
 * goes to the arrays and buffers that are lent; a refusal leaves each of them untouched. A number is read as it is: a flag is set
 * where it is not 0.
 *
 * setting: num_snakes, grid_size, initial_length, play_to_last, win_food_lead_set, win_food_lead, initial_food_count, max_ticks_set,
 * max_ticks; the grid is a 32-bit signed number as 64 bits of two's complement, and any other number is refused by 5.
 * event: ate_food, died, death_cause (0 to 4, any other is none), killed_opponent, won, lost, drew, survived_to_max_ticks.
 * match: moves, over, timeout, eight deaths, eight behind; all 0 before the first move.
 * weights: step, food, loss, draw, kill, win, survival. sizes: discrete, count, planes, rows, cols. bounds: low, high. */

uint64_t lundaspro_flat_check_image(const uint16_t *image, uint64_t image_len);
uint64_t lundaspro_flat_body(const uint16_t *image, uint64_t image_len, uint64_t snake, uint64_t part[2]); /* start, length */
uint64_t lundaspro_flat_validate(const uint64_t setting[9]);
uint64_t lundaspro_flat_initial_state(const uint64_t setting[9], uint16_t *out, uint64_t out_len, uint64_t written[1]);
uint64_t lundaspro_flat_step(const uint64_t setting[9], const uint16_t *image, uint64_t image_len, const uint64_t *actions, uint64_t actions_len,
    uint16_t *out, uint64_t out_len, uint8_t events[64], uint64_t end[2]); /* end: words, terminal */
uint64_t lundaspro_flat_take_move(const uint64_t setting[9], uint64_t terminal, const uint16_t *image, uint64_t image_len, uint8_t events[64],
    uint64_t match[19]); /* events, match: read and written */
uint64_t lundaspro_flat_places(const uint64_t setting[9], const uint64_t match[19], uint64_t places[8]);
uint64_t lundaspro_flat_struck(const uint64_t setting[9], const uint16_t *image, uint64_t image_len, const uint64_t *actions, uint64_t actions_len,
    uint16_t hits[16]); /* eight times: snake, position */
uint64_t lundaspro_flat_count(const uint16_t *image, uint64_t image_len, uint64_t value[1]);
uint64_t lundaspro_flat_draw(const uint16_t *image, uint64_t image_len, uint64_t index, uint16_t *out, uint64_t out_len, uint16_t *list, uint64_t list_len,
    uint64_t drawn[2]); /* words, cells */
uint64_t lundaspro_flat_rank(const uint16_t *image, uint64_t image_len, const uint16_t *list, uint64_t list_len, uint64_t index[1]);
uint64_t lundaspro_flat_outcome_of(uint64_t count, double u, uint64_t index[1]);
uint64_t lundaspro_flat_observe(const uint16_t *image, uint64_t image_len, uint64_t agent, float *obs, uint64_t obs_len, uint64_t written[1]);
uint64_t lundaspro_flat_observation_space(uint64_t grid, uint64_t sizes[5], float bounds[2]);
uint64_t lundaspro_flat_action_space(uint64_t sizes[5], float bounds[2]);
uint64_t lundaspro_flat_length_cell(const uint16_t *image, uint64_t image_len, uint64_t key[2]); /* whether there is one, the key */
uint64_t lundaspro_flat_actor(const uint16_t *image, uint64_t image_len, uint64_t chance[1]);
uint64_t lundaspro_flat_legal_actions(const uint16_t *image, uint64_t image_len, uint64_t agent, uint64_t actions[1]);
uint64_t lundaspro_flat_truncation(const uint16_t *image, uint64_t image_len, uint64_t agent, const uint8_t event[8], uint8_t marked[8]);
uint64_t lundaspro_flat_reward(const double weights[7], const uint8_t event[8], double sum[1]);
uint64_t lundaspro_flat_relative_to_absolute(uint64_t heading, uint64_t action, uint64_t after[1]);
uint64_t lundaspro_flat_write_book(const uint64_t setting[9], uint64_t pages, const uint16_t *row, uint64_t row_len, uint16_t *out, uint64_t out_len,
    uint64_t written[1]);
uint64_t lundaspro_flat_page(const uint16_t *book, uint64_t book_len, uint64_t page, uint64_t part[2]); /* start, length */

/* ---- the calls with records */

/* The table's number of what a call returned: 0 for 0 alone; 255, which no call gives, where there is no number and yet no answer. */
static inline uint8_t lundaspro_refusal(uint64_t returned) {
    return returned != 0 && returned % 256 == 0 ? 255 : (uint8_t)(returned % 256);
}

/* The first word that shows a fault, of what a call returned. */
static inline uint16_t lundaspro_word(uint64_t returned) {
    return (uint16_t)(returned / 256);
}

/* A match's setting; win_food_lead and max_ticks count only where the flag before them is set. Only take_move and
 * write_book read max_ticks. */
typedef struct {
    uint64_t num_snakes;
    int32_t grid_size;
    uint64_t initial_length;
    bool play_to_last;
    bool win_food_lead_set;
    uint64_t win_food_lead;
    uint64_t initial_food_count;
    bool max_ticks_set;
    uint64_t max_ticks;
} lundaspro_setting;

typedef struct {
    double step, food, loss, draw, kill, win, survival;
} lundaspro_weights;

/* What a step brought one snake: flags, 0 or 1, and a cause. Read by truncation and reward, a flag is set where it is not 0 and a cause
 * above 4 is none. */
typedef struct {
    uint8_t ate_food, died, death_cause, killed_opponent, won, lost, drew, survived_to_max_ticks;
} lundaspro_event;

/* Whom a snake hit, and at which position of its moved body, the head being 0; 8 and 0 for nobody. */
typedef struct {
    uint16_t snake, position;
} lundaspro_hit;

/* 0 or a refusal, and of 50 to 56 the word. */
typedef struct {
    uint8_t refusal;
    uint16_t word;
} lundaspro_checked;

/* How many words or numbers were written. */
typedef struct {
    uint8_t refusal;
    uint16_t word;
    size_t words;
} lundaspro_written;

typedef struct {
    uint8_t refusal;
    uint16_t word;
    bool terminal;
    size_t words;
} lundaspro_stepped;

typedef struct {
    uint8_t refusal;
    uint16_t word;
    size_t words; /* of the next image */
    size_t cells; /* of the list */
} lundaspro_drawn;

typedef struct {
    uint8_t refusal;
    uint16_t word;
    uint64_t value;
} lundaspro_number;

/* A key, or none where `some` is false: a snake is dead. */
typedef struct {
    uint8_t refusal;
    uint16_t word;
    bool some;
    uint64_t key;
} lundaspro_key;

typedef struct {
    uint8_t refusal;
    uint16_t word;
    bool chance; /* chance acts; else all snakes at once */
} lundaspro_actor_answer;

typedef struct {
    uint8_t refusal;
    uint16_t word;
    uint8_t actions; /* 3: actions 0, 1 and 2 are legal; 0: none is */
} lundaspro_legal;

typedef struct {
    uint8_t refusal;
    uint16_t word;
    lundaspro_event event;
} lundaspro_marked;

typedef struct {
    uint8_t refusal;
    double sum;
} lundaspro_sum;

/* A box of three sizes with two bounds, or, where `discrete` is set, `count` numbers from 0. */
typedef struct {
    uint8_t refusal;
    bool discrete;
    size_t count;
    size_t planes;
    size_t rows;
    size_t cols;
    float low;
    float high;
} lundaspro_space;

/* A part of the caller's image: `len` words from word `start` on. */
typedef struct {
    size_t start;
    size_t len;
} lundaspro_part;

/* A page of the caller's book: `len` words from word `start` on. */
typedef struct {
    uint8_t refusal;
    uint16_t word;
    size_t start;
    size_t len;
} lundaspro_page_answer;

/* A match, kept beside its image: `lundaspro_match match = {0};` before the first move. It is the caller's, and any numbers may stand in it:
 * moves stay at 2^64 - 1, places go by the deaths as they are, a flag is set where it is not 0. */
typedef struct {
    uint64_t moves;
    bool over;
    bool timeout;       /* it is over by max_ticks; else by the rules */
    uint64_t deaths[8]; /* the move on which each snake died, counted from 1; 0 while it lives */
    bool behind[8];     /* a living snake that lost: it is over by the food lead */
} lundaspro_match;

typedef struct {
    uint64_t numbers[19];
} lundaspro_match_numbers;

static inline lundaspro_match_numbers lundaspro_numbers_of_match(const lundaspro_match *m) {
    lundaspro_match_numbers n = {{m->moves, m->over, m->timeout}};
    for (int i = 0; i < 8; i++) {
        n.numbers[3 + i] = m->deaths[i];
        n.numbers[11 + i] = m->behind[i];
    }
    return n;
}

/* The setting as the exported calls take it. */
typedef struct {
    uint64_t numbers[9];
} lundaspro_numbers;

static inline lundaspro_numbers lundaspro_setting_numbers(lundaspro_setting s) {
    lundaspro_numbers n = {{s.num_snakes, (uint64_t)(int64_t)s.grid_size, s.initial_length, s.play_to_last, s.win_food_lead_set, s.win_food_lead,
        s.initial_food_count, s.max_ticks_set, s.max_ticks}};
    return n;
}

/* The check of an image. Refusals 50 to 56. */
static inline lundaspro_checked lundaspro_check_image(const uint16_t *image, size_t image_len) {
    uint64_t r = lundaspro_flat_check_image(image, image_len);
    lundaspro_checked a = {lundaspro_refusal(r), lundaspro_word(r)};
    return a;
}

/* Whether the words are a well-formed image. */
static inline bool lundaspro_well_formed(const uint16_t *image, size_t image_len) {
    return lundaspro_flat_check_image(image, image_len) == 0;
}

/* The part of the image that is a snake's body, head first; 0 and 0 for a malformed image or no such snake. */
static inline lundaspro_part lundaspro_body(const uint16_t *image, size_t image_len, uint64_t snake) {
    uint64_t part[2] = {0, 0};
    lundaspro_flat_body(image, image_len, snake, part);
    lundaspro_part a = {(size_t)part[0], (size_t)part[1]};
    return a;
}

/* The check of a setting: 0, or 1 to 12. */
static inline uint8_t lundaspro_validate(lundaspro_setting setting) {
    lundaspro_numbers s = lundaspro_setting_numbers(setting);
    return lundaspro_refusal(lundaspro_flat_validate(s.numbers));
}

/* The image of a match's start. Refusals 1 to 12, 29. */
static inline lundaspro_written lundaspro_initial_state(lundaspro_setting setting, uint16_t *out, size_t out_len) {
    lundaspro_numbers s = lundaspro_setting_numbers(setting);
    uint64_t written[1] = {0};
    uint64_t r = lundaspro_flat_initial_state(s.numbers, out, out_len, written);
    lundaspro_written a = {lundaspro_refusal(r), lundaspro_word(r), (size_t)written[0]};
    return a;
}

/* One move of all snakes: the next image, whether the match is over, one event for each snake and blank ones from n on, eight in
 * all. Refusals 1 to 12, 50 to 56, 21, 22, 24, 25, 29. */
static inline lundaspro_stepped lundaspro_step(lundaspro_setting setting, const uint16_t *image, size_t image_len, const uint64_t *actions, size_t actions_len,
    uint16_t *out, size_t out_len, lundaspro_event events[LUNDASPRO_EVENTS]) {
    lundaspro_numbers s = lundaspro_setting_numbers(setting);
    uint64_t end[2] = {0, 0};
    uint64_t r = lundaspro_flat_step(s.numbers, image, image_len, actions, actions_len, out, out_len, (uint8_t *)events, end);
    lundaspro_stepped a = {lundaspro_refusal(r), lundaspro_word(r), end[1] != 0, (size_t)end[0]};
    return a;
}

/* Who is hit where by that move: for each snake that dies by its own or another's body the one that is hit and the position, nobody
 * for any other and from n on, eight in all. Refusals 1 to 12, 50 to 56, 21, 22, 24, 25. */
static inline lundaspro_checked lundaspro_struck(lundaspro_setting setting, const uint16_t *image, size_t image_len, const uint64_t *actions, size_t actions_len,
    lundaspro_hit hits[LUNDASPRO_HITS]) {
    lundaspro_numbers s = lundaspro_setting_numbers(setting);
    uint64_t r = lundaspro_flat_struck(s.numbers, image, image_len, actions, actions_len, (uint16_t *)hits);
    lundaspro_checked a = {lundaspro_refusal(r), lundaspro_word(r)};
    return a;
}

/* How many outcomes the draw has. Refusals 50 to 56, 23, 28. */
static inline lundaspro_number lundaspro_count(const uint16_t *image, size_t image_len) {
    uint64_t value[1] = {0};
    uint64_t r = lundaspro_flat_count(image, image_len, value);
    lundaspro_number a = {lundaspro_refusal(r), lundaspro_word(r), value[0]};
    return a;
}

/* The outcome of that index: the next image, and the cells in the order drawn. Refusals 50 to 56, 23, 28, 27, 29 (either buffer too short). */
static inline lundaspro_drawn lundaspro_draw(const uint16_t *image, size_t image_len, uint64_t index, uint16_t *out, size_t out_len, uint16_t *list, size_t list_len) {
    uint64_t drawn[2] = {0, 0};
    uint64_t r = lundaspro_flat_draw(image, image_len, index, out, out_len, list, list_len, drawn);
    lundaspro_drawn a = {lundaspro_refusal(r), lundaspro_word(r), (size_t)drawn[0], (size_t)drawn[1]};
    return a;
}

/* The index whose draw gives that list. Refusals 50 to 56, 23, 28, 30. */
static inline lundaspro_number lundaspro_rank(const uint16_t *image, size_t image_len, const uint16_t *list, size_t list_len) {
    uint64_t index[1] = {0};
    uint64_t r = lundaspro_flat_rank(image, image_len, list, list_len, index);
    lundaspro_number a = {lundaspro_refusal(r), lundaspro_word(r), index[0]};
    return a;
}

/* The index below that count which a unit number gives, one that is at least 0 and below 1: the rounded product, cut. Refusals 80, 81. */
static inline lundaspro_number lundaspro_outcome_of(uint64_t count, double u) {
    uint64_t index[1] = {0};
    uint64_t r = lundaspro_flat_outcome_of(count, u, index);
    lundaspro_number a = {lundaspro_refusal(r), lundaspro_word(r), index[0]};
    return a;
}

/* What an agent sees: five planes of g*g numbers, 0.0 or 1.0. Refusals 50 to 56, 26, 29. */
static inline lundaspro_written lundaspro_observe(const uint16_t *image, size_t image_len, uint64_t agent, float *obs, size_t obs_len) {
    uint64_t written[1] = {0};
    uint64_t r = lundaspro_flat_observe(image, image_len, agent, obs, obs_len, written);
    lundaspro_written a = {lundaspro_refusal(r), lundaspro_word(r), (size_t)written[0]};
    return a;
}

static inline lundaspro_space lundaspro_space_of(uint64_t r, const uint64_t sizes[5], const float bounds[2]) {
    lundaspro_space a = {lundaspro_refusal(r), sizes[0] != 0, (size_t)sizes[1], (size_t)sizes[2], (size_t)sizes[3], (size_t)sizes[4], bounds[0], bounds[1]};
    return a;
}

/* The sizes and bounds of an observation. Refusal 5. */
static inline lundaspro_space lundaspro_observation_space(int32_t grid_size) {
    uint64_t sizes[5] = {0, 0, 0, 0, 0};
    float bounds[2] = {0.0f, 0.0f};
    uint64_t r = lundaspro_flat_observation_space((uint64_t)(int64_t)grid_size, sizes, bounds);
    return lundaspro_space_of(r, sizes, bounds);
}

/* Three actions, always. */
static inline lundaspro_space lundaspro_action_space(void) {
    uint64_t sizes[5] = {0, 0, 0, 0, 0};
    float bounds[2] = {0.0f, 0.0f};
    uint64_t r = lundaspro_flat_action_space(sizes, bounds);
    return lundaspro_space_of(r, sizes, bounds);
}

/* The sorted lengths' buckets as one key. Refusals 50 to 56. */
static inline lundaspro_key lundaspro_length_cell(const uint16_t *image, size_t image_len) {
    uint64_t key[2] = {0, 0};
    uint64_t r = lundaspro_flat_length_cell(image, image_len, key);
    lundaspro_key a = {lundaspro_refusal(r), lundaspro_word(r), key[0] != 0, key[1]};
    return a;
}

/* Who acts next. Refusals 50 to 56. */
static inline lundaspro_actor_answer lundaspro_actor(const uint16_t *image, size_t image_len) {
    uint64_t chance[1] = {0};
    uint64_t r = lundaspro_flat_actor(image, image_len, chance);
    lundaspro_actor_answer a = {lundaspro_refusal(r), lundaspro_word(r), chance[0] != 0};
    return a;
}

/* Which actions an agent has. Refusals 50 to 56, 26. */
static inline lundaspro_legal lundaspro_legal_actions(const uint16_t *image, size_t image_len, uint64_t agent) {
    uint64_t actions[1] = {0};
    uint64_t r = lundaspro_flat_legal_actions(image, image_len, agent, actions);
    lundaspro_legal a = {lundaspro_refusal(r), lundaspro_word(r), (uint8_t)actions[0]};
    return a;
}

/* The event with survived_to_max_ticks set to whether the agent lives. Refusals 50 to 56, 26. */
static inline lundaspro_marked lundaspro_truncation(const uint16_t *image, size_t image_len, uint64_t agent, lundaspro_event event) {
    lundaspro_marked a = {0, 0, {0, 0, 0, 0, 0, 0, 0, 0}};
    uint64_t r = lundaspro_flat_truncation(image, image_len, agent, (const uint8_t *)&event, (uint8_t *)&a.event);
    a.refusal = lundaspro_refusal(r);
    a.word = lundaspro_word(r);
    return a;
}

/* The reward of an event. Refusal 31, for infinities and NaN, flagged or not. */
static inline lundaspro_sum lundaspro_reward(lundaspro_weights w, lundaspro_event event) {
    double weights[7] = {w.step, w.food, w.loss, w.draw, w.kill, w.win, w.survival};
    double sum[1] = {0.0};
    uint64_t r = lundaspro_flat_reward(weights, (const uint8_t *)&event, sum);
    lundaspro_sum a = {lundaspro_refusal(r), sum[0]};
    return a;
}

/* The heading after an action. A heading above 3 is read as 3, an action above 2 as 2. */
static inline uint8_t lundaspro_relative_to_absolute(uint8_t heading, uint8_t action) {
    uint64_t after[1] = {0};
    lundaspro_flat_relative_to_absolute(heading, action, after);
    return (uint8_t)after[0];
}

/* The move that a step made, taken by the match: `terminal` and `events` are the step's answer, `image` is what it wrote. At max_ticks the living
 * are marked survived_to_max_ticks in `events`, and the match is over. 0, or refusal 33 where it was over before. */
static inline uint8_t lundaspro_take_move(lundaspro_setting setting, bool terminal, const uint16_t *image, size_t image_len, lundaspro_event *events, lundaspro_match *match) {
    lundaspro_numbers s = lundaspro_setting_numbers(setting);
    lundaspro_match_numbers m = lundaspro_numbers_of_match(match);
    uint8_t refusal = lundaspro_refusal(lundaspro_flat_take_move(s.numbers, terminal, image, image_len, (uint8_t *)events, m.numbers));
    match->moves = m.numbers[0];
    match->over = m.numbers[1] != 0;
    match->timeout = m.numbers[2] != 0;
    for (int i = 0; i < 8; i++) {
        match->deaths[i] = m.numbers[3 + i];
        match->behind[i] = m.numbers[11 + i] != 0;
    }
    return refusal;
}

/* The place of each snake, eight of them, 0 from the setting's number of snakes on. Before the end they count as if it ended here. */
static inline void lundaspro_places(lundaspro_setting setting, const lundaspro_match *match, uint64_t *places) {
    lundaspro_numbers s = lundaspro_setting_numbers(setting);
    lundaspro_match_numbers m = lundaspro_numbers_of_match(match);
    lundaspro_flat_places(s.numbers, m.numbers, places);
}

/* The match book of that many images, which stand in the row one after the other: its contents, then the images. Refusals 1 to 12, 42,
 * then 50 to 56 and 21 page by page (53 too for words after the last), 29. */
static inline lundaspro_written lundaspro_write_book(lundaspro_setting setting, uint64_t pages, const uint16_t *row, size_t row_len, uint16_t *out, size_t out_len) {
    lundaspro_numbers s = lundaspro_setting_numbers(setting);
    uint64_t written[1] = {0};
    uint64_t r = lundaspro_flat_write_book(s.numbers, pages, row, row_len, out, out_len, written);
    lundaspro_written a = {lundaspro_refusal(r), lundaspro_word(r), (size_t)written[0]};
    return a;
}

/* Where a page lies in a book, from page 0 on. Other pages are not looked at. Refusals 40, 41, 50 to 56, 21. */
static inline lundaspro_page_answer lundaspro_page(const uint16_t *book, size_t book_len, uint64_t page) {
    uint64_t part[2] = {0, 0};
    uint64_t r = lundaspro_flat_page(book, book_len, page, part);
    lundaspro_page_answer a = {lundaspro_refusal(r), lundaspro_word(r), (size_t)part[0], (size_t)part[1]};
    return a;
}

#ifdef __cplusplus
}
#endif

#include "lundaspro_sentence.h"

#endif
