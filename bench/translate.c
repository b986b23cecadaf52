/* Plain C for the same work as the translator program, as a yardstick for its time: reads the text a line at a time, holds each line against the format
 * and prints the task file. It is made for good texts: whatever is at fault, a limit too, is refused with 30 at the line where it was seen. */
#define _GNU_SOURCE
#include <stdio.h>
#include <stdlib.h>
#include <string.h>

enum { MAX_VARIABLES = 96, MAX_SIZE = 64, MAX_VALUES = 1024, MAX_ACTIONS = 512, MAX_PAIRS = 8, MAX_DIGITS = 6 };
enum { VERSION = 3, ROWS = 4, CONTENTS = 16, MAX_ACTION = 2 + 4 * MAX_PAIRS, ANY = -1 };

struct pair { unsigned char variable, value; };
struct list { int count; struct pair pairs[MAX_VARIABLES]; };

static char *line;
static size_t room;
static const char *at, *end;
static long lines;

static int variables;
static unsigned char sizes[MAX_VARIABLES], starts[MAX_VARIABLES], actions[MAX_ACTIONS * MAX_ACTION];
static struct list goal;
static int action_bytes;

static void refuse(void)
{
    printf("refused 30 %ld\n", lines);
    exit(0);
}

static void want(int holds)
{
    if (!holds) refuse();
}

/* ---- a line and its words */

static void next_line(void)
{
    lines++;
    ssize_t length = getline(&line, &room, stdin);
    want(length > 0);
    at = line;
    end = line + length - (line[length - 1] == '\n');
}

static void over(void) { want(at == end); }

static void space(void) { want(at < end && *at++ == ' '); }

static int number(void)
{
    const char *first = at;
    int m = 0;
    while (at < end && *at >= '0' && *at <= '9' && at - first < MAX_DIGITS) m = 10 * m + *at++ - '0';
    want(at > first && (*first != '0' || at == first + 1));
    return m;
}

static int minus_one(void)
{
    if (end - at < 2 || at[0] != '-' || at[1] != '1') return 0;
    at += 2;
    return 1;
}

static void keyword(const char *word)
{
    size_t length = strlen(word);
    next_line();
    want((size_t)(end - at) == length && memcmp(at, word, length) == 0);
}

static int number_line(void)
{
    next_line();
    int m = number();
    over();
    return m;
}

/* ---- the task */

static void put(struct list *list, int most, int variable, int value)
{
    want(list->count < most && variable < variables && value < sizes[variable]);
    int i = list->count++;
    for (; i > 0 && list->pairs[i - 1].variable > variable; i--) list->pairs[i] = list->pairs[i - 1];
    want(i == 0 || list->pairs[i - 1].variable < variable);
    list->pairs[i] = (struct pair){variable, value};
}

static void fact_line(struct list *list, int most)
{
    next_line();
    int variable = number();
    space();
    int value = number();
    over();
    if (list) put(list, most, variable, value);
}

static void effect_line(struct list *before, struct list *after)
{
    next_line();
    want(number() == 0);
    space();
    int variable = number();
    space();
    int old = minus_one() ? ANY : number();
    space();
    int value = number();
    over();
    if (old != ANY) put(before, MAX_PAIRS, variable, old);
    put(after, MAX_PAIRS, variable, value);
}

static void read_variable(int x)
{
    keyword("begin_variable");
    next_line();
    next_line();
    want(minus_one());
    over();
    int size = number_line();
    want(size >= 1 && size <= MAX_SIZE);
    sizes[x] = size;
    for (int v = 0; v < size; v++) next_line();
    keyword("end_variable");
}

static void read_variables(void)
{
    int values = 0;
    variables = number_line();
    want(variables >= 1 && variables <= MAX_VARIABLES);
    for (int x = 0; x < variables; x++) {
        read_variable(x);
        values += sizes[x];
    }
    want(values <= MAX_VALUES);
}

static void read_mutex_groups(void)
{
    int groups = number_line();
    for (int i = 0; i < groups; i++) {
        keyword("begin_mutex_group");
        int facts = number_line();
        for (int j = 0; j < facts; j++) fact_line(NULL, 0);
        keyword("end_mutex_group");
    }
}

static void read_start(void)
{
    keyword("begin_state");
    for (int x = 0; x < variables; x++) {
        int value = number_line();
        want(value < sizes[x]);
        starts[x] = value;
    }
    keyword("end_state");
}

static void read_goal(void)
{
    keyword("begin_goal");
    int facts = number_line();
    for (int i = 0; i < facts; i++) fact_line(&goal, MAX_VARIABLES);
    keyword("end_goal");
}

static void put_pairs(const struct list *list)
{
    memcpy(actions + action_bytes, list->pairs, 2 * list->count);
    action_bytes += 2 * list->count;
}

static void read_operator(void)
{
    struct list before = {0}, after = {0};
    keyword("begin_operator");
    next_line();
    int prevails = number_line();
    for (int i = 0; i < prevails; i++) fact_line(&before, MAX_PAIRS);
    int effects = number_line();
    for (int i = 0; i < effects; i++) effect_line(&before, &after);
    number_line();
    keyword("end_operator");
    actions[action_bytes++] = before.count;
    actions[action_bytes++] = after.count;
    put_pairs(&before);
    put_pairs(&after);
}

static void read_text(void)
{
    keyword("begin_version");
    want(number_line() == VERSION);
    keyword("end_version");
    keyword("begin_metric");
    want(number_line() <= 1);
    keyword("end_metric");
    read_variables();
    read_mutex_groups();
    read_start();
    read_goal();
    int operators = number_line();
    want(operators <= MAX_ACTIONS);
    for (int a = 0; a < operators; a++) read_operator();
    want(number_line() == 0);
    lines++;
    want(getline(&line, &room, stdin) < 0);
}

static void write_task(void)
{
    int lengths[ROWS] = {variables, variables, 2 * goal.count, action_bytes};
    int start = CONTENTS;
    for (int i = 0; i < ROWS; i++) {
        unsigned char row[] = {start % 256, start / 256, lengths[i] % 256, lengths[i] / 256};
        fwrite(row, 1, sizeof row, stdout);
        start += lengths[i];
    }
    fwrite(sizes, 1, variables, stdout);
    fwrite(starts, 1, variables, stdout);
    fwrite(goal.pairs, 2, goal.count, stdout);
    fwrite(actions, 1, action_bytes, stdout);
}

int main(void)
{
    read_text();
    write_task();
    return 0;
}
