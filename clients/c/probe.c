/* The lines of docs/PROBE.md on the C client, read from standard input: so a library for any machine is held against the Rust as the program `probe` is. Lent
 * buffers are filled with a pattern before a call and looked through after it; `!` ends a line where one has changed beyond the answer. */
#include <inttypes.h>
#include <stdio.h>
#include <stdlib.h>
#include <string.h>

#include "lundaspro.h"

#define MOST_WORDS 16384
#define MOST_NUMBERS 8192
#define MOST_ACTIONS 64
#define MOST_RANKED 2048
#define MOST_BOOK_WORDS 262144
#define PATTERN 42406

static uint16_t words[MOST_BOOK_WORDS], out[MOST_BOOK_WORDS], list[MOST_WORDS];
static uint64_t actions[MOST_ACTIONS];
static float planes[MOST_NUMBERS];
static lundaspro_event events[LUNDASPRO_EVENTS];
static lundaspro_hit hits[LUNDASPRO_HITS];

/* ---- the fields of a line: `fine` stays true while it is a call */

static char *rest; /* what is left of the line, NULL at its end */
static bool fine;

static char *next(void) {
    char *field = rest;
    if (field == NULL) {
        fine = false;
        return "";
    }
    rest = strchr(field, ' ');
    if (rest != NULL) *rest++ = 0;
    return field;
}

static uint64_t decimal(const char *text) {
    uint64_t value = 0;
    if (*text == 0 || (*text == '0' && text[1] != 0)) fine = false;
    for (; *text != 0; text++) {
        uint64_t digit = (uint64_t)(unsigned char)*text - '0';
        if (digit > 9 || value > (UINT64_MAX - digit) / 10) {
            fine = false;
            return 0;
        }
        value = 10 * value + digit;
    }
    return value;
}

static uint64_t number(void) { return decimal(next()); }

static uint64_t up_to(uint64_t most) {
    uint64_t n = number();
    if (n > most) fine = false;
    return fine ? n : 0;
}

static void end(void) {
    if (rest != NULL) fine = false;
}

static bool optional(uint64_t *value) {
    char *text = next();
    bool set = strcmp(text, "-") != 0;
    *value = set ? decimal(text) : 0;
    return set;
}

static int32_t grid(void) {
    char *text = next();
    bool minus = *text == '-';
    uint64_t size = decimal(text + minus), most = (uint64_t)INT32_MAX + minus;
    if (size > most || (minus && size == 0)) fine = false;
    return fine ? (int32_t)(minus ? -(int64_t)size : (int64_t)size) : 0;
}

/* A count, then so many words. */
static size_t cells(uint16_t *into, uint64_t most) {
    size_t count = up_to(most);
    for (size_t i = 0; i < count && fine; i++) into[i] = (uint16_t)up_to(UINT16_MAX);
    return count;
}

/* The same at the line's end. */
static size_t image_of(uint64_t most) {
    size_t count = cells(words, most);
    end();
    return count;
}

static lundaspro_setting setting_of(void) {
    lundaspro_setting s;
    s.num_snakes = number();
    s.grid_size = grid();
    s.initial_length = number();
    s.play_to_last = up_to(1) == 1;
    s.win_food_lead_set = optional(&s.win_food_lead);
    s.initial_food_count = number();
    s.max_ticks_set = optional(&s.max_ticks);
    return s;
}

static lundaspro_event event_of(void) {
    uint8_t n[8];
    for (int i = 0; i < 8; i++) n[i] = (uint8_t)up_to(i == 2 ? 4 : 1);
    lundaspro_event e = {n[0], n[1], n[2], n[3], n[4], n[5], n[6], n[7]};
    return e;
}

static double weight(void) {
    uint64_t bits = number();
    double value;
    memcpy(&value, &bits, 8);
    return value;
}

/* ---- answers */

static size_t lend(uint16_t *buffer, uint64_t most) {
    size_t room = up_to(most);
    for (size_t i = 0; i < room; i++) buffer[i] = PATTERN;
    return room;
}

static bool kept(const uint16_t *buffer, size_t from, size_t room) {
    for (size_t i = from; i < room; i++)
        if (buffer[i] != PATTERN) return false;
    return true;
}

/* The line's letter, or its refusal; true where the answer's numbers follow. */
static bool begun(uint8_t refusal, uint16_t word) {
    if (refusal == 0) printf("a");
    else if (refusal >= 50 && refusal <= 56) printf("r %u %u", refusal, word);
    else printf("r %u", refusal);
    return refusal == 0;
}

static void put(uint64_t n) { printf(" %" PRIu64, n); }

static void put_list(const uint16_t *part, size_t count) {
    put(count);
    for (size_t i = 0; i < count; i++) put(part[i]);
}

static void put_event(lundaspro_event e) {
    const uint8_t n[8] = {e.ate_food, e.died, e.death_cause, e.killed_opponent, e.won, e.lost, e.drew, e.survived_to_max_ticks};
    for (int i = 0; i < 8; i++) put(n[i]);
}

static void ended(bool holds) { puts(holds ? "" : " !"); }

/* ---- the calls */

static void validate(void) {
    lundaspro_setting s = setting_of();
    end();
    if (fine) begun(lundaspro_validate(s), 0), ended(true);
}

static void initial_state(void) {
    lundaspro_setting s = setting_of();
    size_t room = lend(out, MOST_WORDS);
    end();
    if (!fine) return;
    lundaspro_written a = lundaspro_initial_state(s, out, room);
    if (begun(a.refusal, a.word)) put_list(out, a.words);
    ended(kept(out, a.words, room));
}

static size_t actions_of(void) {
    size_t count = up_to(MOST_ACTIONS);
    for (size_t i = 0; i < count; i++) actions[i] = number();
    return count;
}

static void step(void) {
    lundaspro_setting s = setting_of();
    size_t room = lend(out, MOST_WORDS), count = actions_of(), length = image_of(MOST_WORDS);
    if (!fine) return;
    memset(events, 9, sizeof events);
    lundaspro_stepped a = lundaspro_step(s, words, length, actions, count, out, room, events);
    bool holds = kept(out, a.words, room);
    if (begun(a.refusal, a.word)) {
        put(a.terminal);
        for (int i = 0; i < LUNDASPRO_EVENTS; i++) put_event(events[i]);
        put_list(out, a.words);
    } else {
        for (size_t i = 0; i < sizeof events; i++) holds = holds && ((unsigned char *)events)[i] == 9;
    }
    ended(holds);
}

static void struck(void) {
    lundaspro_setting s = setting_of();
    size_t count = actions_of(), length = image_of(MOST_WORDS);
    if (!fine) return;
    memset(hits, 9, sizeof hits);
    bool holds = true;
    lundaspro_checked a = lundaspro_struck(s, words, length, actions, count, hits);
    if (begun(a.refusal, a.word))
        for (int i = 0; i < LUNDASPRO_HITS; i++) put(hits[i].snake), put(hits[i].position);
    else
        for (size_t i = 0; i < sizeof hits; i++) holds = holds && ((unsigned char *)hits)[i] == 9;
    ended(holds);
}

static void count(void) {
    size_t length = image_of(MOST_WORDS);
    if (!fine) return;
    lundaspro_number a = lundaspro_count(words, length);
    if (begun(a.refusal, a.word)) put(a.value);
    ended(true);
}

static void draw(void) {
    size_t room = lend(out, MOST_WORDS), list_room = lend(list, MOST_WORDS);
    uint64_t index = number();
    size_t length = image_of(MOST_WORDS);
    if (!fine) return;
    lundaspro_drawn a = lundaspro_draw(words, length, index, out, room, list, list_room);
    if (begun(a.refusal, a.word)) put_list(out, a.words), put_list(list, a.cells);
    ended(kept(out, a.words, room) && kept(list, a.cells, list_room));
}

static void rank(void) {
    size_t ranked = cells(list, MOST_RANKED), length = image_of(MOST_WORDS);
    if (!fine) return;
    lundaspro_number a = lundaspro_rank(words, length, list, ranked);
    if (begun(a.refusal, a.word)) put(a.value);
    ended(true);
}

static void observe(void) {
    uint64_t agent = number();
    size_t room = up_to(MOST_NUMBERS), length = image_of(MOST_WORDS);
    if (!fine) return;
    for (size_t i = 0; i < room; i++) planes[i] = 0.5f;
    lundaspro_written a = lundaspro_observe(words, length, agent, planes, room);
    bool holds = true;
    if (begun(a.refusal, a.word)) {
        put(a.words);
        for (size_t i = 0; i < a.words; i++) put((uint64_t)planes[i]);
    }
    for (size_t i = a.words; i < room; i++) holds = holds && planes[i] == 0.5f;
    ended(holds);
}

static void body(void) {
    uint64_t snake = number();
    size_t length = image_of(MOST_WORDS);
    if (!fine) return;
    lundaspro_part a = lundaspro_body(words, length, snake);
    begun(0, 0), put(a.start), put_list(words + a.start, a.len), ended(true);
}

static void actor(void) {
    size_t length = image_of(MOST_WORDS);
    if (!fine) return;
    lundaspro_actor_answer a = lundaspro_actor(words, length);
    if (begun(a.refusal, a.word)) put(a.chance);
    ended(true);
}

static void legal_actions(void) {
    uint64_t agent = number();
    size_t length = image_of(MOST_WORDS);
    if (!fine) return;
    lundaspro_legal a = lundaspro_legal_actions(words, length, agent);
    if (begun(a.refusal, a.word)) {
        put(a.actions);
        for (uint64_t i = 0; i < a.actions; i++) put(i);
    }
    ended(true);
}

static void length_cell(void) {
    size_t length = image_of(MOST_WORDS);
    if (!fine) return;
    lundaspro_key a = lundaspro_length_cell(words, length);
    if (begun(a.refusal, a.word)) {
        put(a.some);
        if (a.some) put(a.key);
    }
    ended(true);
}

static void truncation(void) {
    uint64_t agent = number();
    lundaspro_event event = event_of();
    size_t length = image_of(MOST_WORDS);
    if (!fine) return;
    lundaspro_marked a = lundaspro_truncation(words, length, agent, event);
    if (begun(a.refusal, a.word)) put_event(a.event);
    ended(true);
}

static void reward(void) {
    lundaspro_weights w;
    double *each[7] = {&w.step, &w.food, &w.loss, &w.draw, &w.kill, &w.win, &w.survival};
    for (int i = 0; i < 7; i++) *each[i] = weight();
    lundaspro_event event = event_of();
    end();
    if (!fine) return;
    lundaspro_sum a = lundaspro_reward(w, event);
    uint64_t bits;
    memcpy(&bits, &a.sum, 8);
    if (begun(a.refusal, 0)) put(bits);
    ended(true);
}

static void outcome_of(void) {
    uint64_t count_of = number();
    double u = weight();
    end();
    if (!fine) return;
    lundaspro_number a = lundaspro_outcome_of(count_of, u);
    if (begun(a.refusal, a.word)) put(a.value);
    ended(true);
}

static void observation_space(void) {
    int32_t side = grid();
    end();
    if (!fine) return;
    lundaspro_space a = lundaspro_observation_space(side);
    if (begun(a.refusal, 0)) put(a.planes), put(a.rows), put(a.cols);
    ended(true);
}

static void action_space(void) {
    end();
    if (fine) begun(0, 0), put(lundaspro_action_space().count), ended(true);
}

static void turn(void) {
    uint8_t heading = (uint8_t)up_to(3), action = (uint8_t)up_to(2);
    end();
    if (fine) begun(0, 0), put(lundaspro_relative_to_absolute(heading, action)), ended(true);
}

static void check_image(void) {
    size_t length = image_of(MOST_WORDS);
    if (!fine) return;
    lundaspro_checked a = lundaspro_check_image(words, length);
    begun(a.refusal, a.word), ended(true);
}

static void write_book(void) {
    lundaspro_setting s = setting_of();
    size_t room = lend(out, MOST_BOOK_WORDS);
    uint64_t pages = number();
    size_t length = image_of(MOST_BOOK_WORDS);
    if (!fine) return;
    lundaspro_written a = lundaspro_write_book(s, pages, words, length, out, room);
    if (begun(a.refusal, a.word)) put_list(out, a.words);
    ended(kept(out, a.words, room));
}

static void page(void) {
    uint64_t number_of_page = number();
    size_t length = image_of(MOST_BOOK_WORDS);
    if (!fine) return;
    lundaspro_page_answer a = lundaspro_page(words, length, number_of_page);
    if (begun(a.refusal, a.word)) put(a.start), put_list(words + a.start, a.len);
    ended(true);
}

static const struct {
    char letter;
    void (*call)(void);
} calls[] = {{'v', validate}, {'i', initial_state}, {'s', step}, {'H', struck}, {'c', count}, {'d', draw}, {'k', rank}, {'o', observe}, {'b', body}, {'t', actor}, {'l', legal_actions},
    {'z', length_cell}, {'u', truncation}, {'w', reward}, {'n', outcome_of}, {'p', observation_space}, {'q', action_space}, {'h', turn}, {'x', check_image}, {'B', write_book}, {'P', page}};

/* A line ends at its newline; it may hold any byte, of which 0 is no call's. */
static void answer(char *line, size_t length) {
    rest = line;
    fine = strlen(line) == length;
    const char *letter = next();
    void (*call)(void) = NULL;
    for (size_t i = 0; i < sizeof calls / sizeof *calls; i++)
        if (letter[0] == calls[i].letter && letter[1] == 0) call = calls[i].call;
    if (call == NULL) fine = false;
    if (fine) call();
    if (!fine) puts("e");
}

int main(void) {
    size_t room = 1 << 16, length = 0;
    char *line = malloc(room);
    for (int byte; line != NULL && (byte = getchar()) != EOF;) {
        if (byte == '\n') {
            line[length] = 0;
            answer(line, length);
            length = 0;
            continue;
        }
        line[length++] = (char)byte;
        if (length == room) line = realloc(line, room *= 2);
    }
    if (line == NULL) return 1;
    line[length] = 0;
    if (length > 0) answer(line, length);
    free(line);
    return fflush(stdout) == 0 ? 0 : 1;
}
