/* A small match: a setting, its start, draws and moves, each line as the replay program prints it, with the board below it; then what one
 * agent sees, and the match as a book that is paged through. Every answer is taken apart the same way: refusal first. */
#include <stdio.h>

#include "lundaspro.h"

static uint16_t image[LUNDASPRO_IMAGE_WORDS], next[LUNDASPRO_IMAGE_WORDS];
static uint16_t list[LUNDASPRO_LIST_WORDS];
static lundaspro_event events[LUNDASPRO_EVENTS];
static float planes[LUNDASPRO_PLANE_NUMBERS];
static size_t words;

/* Every state that is shown, one after the other, and the book of them. */
static uint16_t row[8 * 30], book[LUNDASPRO_BOOK_WORDS(8, 8 * 30)];
static size_t row_words, pages;

static int refused(uint8_t number) {
    printf("r %d: %s\n", number, lundaspro_sentence(number));
    return 1;
}

/* The next image becomes the image. */
static void keep(size_t count) {
    words = count;
    for (size_t i = 0; i < count; i++) image[i] = next[i];
}

static void put_event(lundaspro_event e) {
    const uint8_t flags[] = {e.ate_food, e.death_cause, e.killed_opponent, e.won, e.lost, e.drew, e.survived_to_max_ticks};
    const char letters[] = {'a', " WSOH"[e.death_cause], 'k', 'w', 'l', 'x', 'y'};
    bool blank = true;
    for (int i = 0; i < 7; i++) {
        if (flags[i]) putchar(letters[i]);
        blank = blank && !flags[i];
    }
    if (blank) putchar('-');
}

static char board[32 * 32];

static void put(size_t start, size_t count, int letter) {
    for (size_t i = 0; i < count; i++) board[image[start + i]] = (char)letter;
}

static bool alive(unsigned snake) { return image[8 + 4 * snake] == 1; }

/* The board, a line a row and a character a cell: A to H the heads of the living snakes 0 to 7, a to h the rest of their bodies, 0 to 7 a
 * corpse, * food. What stands over the rest is put last: heads, below them bodies, corpses, food, and a lower snake over a higher one. */
static void show_board(void) {
    unsigned snakes = image[0], side = image[1];
    for (unsigned i = 0; i < side * side; i++) board[i] = '.';
    put(words - image[4], image[4], '*');
    for (unsigned i = snakes; i-- > 0;) {
        lundaspro_part body = lundaspro_body(image, words, i);
        if (!alive(i)) put(body.start, body.len, '0' + (int)i);
    }
    for (unsigned i = snakes; i-- > 0;) {
        lundaspro_part body = lundaspro_body(image, words, i);
        if (alive(i)) put(body.start, body.len, 'a' + (int)i);
    }
    for (unsigned i = snakes; i-- > 0;) {
        lundaspro_part body = lundaspro_body(image, words, i);
        if (alive(i)) put(body.start, 1, 'A' + (int)i);
    }
    for (unsigned row = 0; row < side; row++) printf("%.*s\n", (int)side, board + row * side);
}

/* Words 0 to 4 are snakes, side, food due, birth, food count; then four words for each snake. */
static void show(char letter, bool terminal) {
    for (size_t i = 0; i < words; i++) row[row_words++] = image[i];
    pages++;
    printf("%c %d %d %d", letter, terminal, image[2], image[4]);
    for (unsigned i = 0; i < image[0]; i++) {
        lundaspro_part body = lundaspro_body(image, words, i);
        printf(" %d:%d:", image[8 + 4 * i], (int)body.len);
        if (body.len == 0) putchar('-');
        else printf("%d", image[body.start]);
        putchar(':');
        put_event(events[i]);
    }
    putchar('\n');
    show_board();
}

static int draw(uint64_t index) {
    lundaspro_drawn drawn = lundaspro_draw(image, words, index, next, LUNDASPRO_IMAGE_WORDS, list, LUNDASPRO_LIST_WORDS);
    if (drawn.refusal != 0) return refused(drawn.refusal);
    lundaspro_number rank = lundaspro_rank(image, words, list, drawn.cells);
    if (rank.refusal != 0 || rank.value != index) return 1;
    keep(drawn.words);
    for (int i = 0; i < LUNDASPRO_EVENTS; i++) events[i] = (lundaspro_event){0};
    show('d', false);
    return 0;
}

static int move(lundaspro_setting setting, uint64_t first, uint64_t second) {
    uint64_t actions[2] = {first, second};
    lundaspro_stepped moved = lundaspro_step(setting, image, words, actions, 2, next, LUNDASPRO_IMAGE_WORDS, events);
    if (moved.refusal != 0) return refused(moved.refusal);
    keep(moved.words);
    show('m', moved.terminal);
    return 0;
}

/* A page for each state that was shown, in turn: its words, and its number of food cells. */
static int page_through(lundaspro_setting setting) {
    lundaspro_written bound = lundaspro_write_book(setting, pages, row, row_words, book, sizeof book / sizeof *book);
    if (bound.refusal != 0) return refused(bound.refusal);
    printf("book of %d words:", (int)bound.words);
    for (uint64_t i = 0;; i++) {
        lundaspro_page_answer page = lundaspro_page(book, bound.words, i);
        if (page.refusal == LUNDASPRO_PAGE) break;
        if (page.refusal != 0) return refused(page.refusal);
        printf(" %d:%d", (int)page.len, book[page.start + 4]);
    }
    putchar('\n');
    return 0;
}

int main(void) {
    lundaspro_setting setting = {.num_snakes = 2, .grid_size = 3, .initial_length = 1, .initial_food_count = 1};
    lundaspro_written start = lundaspro_initial_state(setting, image, LUNDASPRO_IMAGE_WORDS);
    if (start.refusal != 0) return refused(start.refusal);
    words = start.words;
    show('i', false);
    if (draw(2) || move(setting, 0, 0) || move(setting, 1, 0) || draw(0)) return 1;
    lundaspro_written seen = lundaspro_observe(image, words, 0, planes, LUNDASPRO_PLANE_NUMBERS);
    if (seen.refusal != 0) return refused(seen.refusal);
    if (move(setting, 0, 0)) return 1;
    lundaspro_weights weights = {.step = -0.5, .food = 1.0, .loss = -1.0, .draw = 0.25, .kill = 2.0, .win = 4.0, .survival = 0.5};
    lundaspro_sum reward = lundaspro_reward(weights, events[0]);
    if (reward.refusal != 0) return refused(reward.refusal);
    printf("reward %g, agent 0 had seen %d numbers\n", reward.sum, (int)seen.words);
    return page_through(setting);
}
