/* The clause program in plain C: the same text by nested loops, a digit loop and an output buffer. It takes its input to be in order. */
#include <stdio.h>
#include <string.h>
#include <unistd.h>

enum { INPUT = 17809, BUFFER = 262144, VARIABLES = 96, ACTIONS = 512 };

static unsigned char input[INPUT];
static char buffer[BUFFER];
static size_t filled;

static const unsigned char *file, *sizes, *starts, *goals;
static const unsigned char *action[ACTIONS];
static int variables, goal_pairs, actions, horizon, values, offset[VARIABLES + 1];

static void flush(void)
{
    size_t done = 0;
    while (done < filled) {
        ssize_t n = write(1, buffer + done, filled - done);
        if (n <= 0)
            _exit(1);
        done += n;
    }
    filled = 0;
}

static void put(char c)
{
    if (filled == BUFFER)
        flush();
    buffer[filled++] = c;
}

static void put_text(const char *s)
{
    while (*s)
        put(*s++);
}

static void put_number(long m)
{
    char digits[20];
    int n = 0;
    do {
        digits[n++] = '0' + m % 10;
        m /= 10;
    } while (m);
    while (n)
        put(digits[--n]);
}

static void plus(long m) { put_number(m); put(' '); }
static void minus(long m) { put('-'); put_number(m); put(' '); }
static void end(void) { put('0'); put('\n'); }

static int word16(int at) { return file[at] + 256 * file[at + 1]; }
static long value(int s, int x, int v) { return (long)s * (values + actions) + offset[x] + v + 1; }
static long act(int s, int a) { return (long)s * (values + actions) + values + a + 1; }
static const unsigned char *effects(int a) { return action[a] + 2 + 2 * action[a][0]; }

static int gives(int a, int x, int v)
{
    const unsigned char *pair = effects(a);
    for (int i = 0; i < action[a][1]; i++, pair += 2)
        if (pair[0] == x && pair[1] == v)
            return 1;
    return 0;
}

static void read_task(int length)
{
    const unsigned char *at;
    file = input + 1;
    horizon = input[0];
    variables = word16(2);
    goal_pairs = word16(10) / 2;
    sizes = file + word16(0);
    starts = file + word16(4);
    goals = file + word16(8);
    for (int x = 0; x < variables; x++)
        offset[x + 1] = offset[x] + sizes[x];
    values = offset[variables];
    for (at = file + word16(12); at < file + length; at += 2 + 2 * (at[0] + at[1]))
        action[actions++] = at;
}

static long count(void)
{
    long pairs = 0, before = 0, after = 0, k = horizon;
    for (int x = 0; x < variables; x++)
        pairs += sizes[x] * (sizes[x] - 1) / 2;
    for (int a = 0; a < actions; a++)
        before += action[a][0], after += action[a][1];
    return variables + goal_pairs + (k + 1) * (variables + pairs) + k * (before + after + values + (long)actions * (actions - 1) / 2);
}

int main(void)
{
    size_t n = 0;
    ssize_t more;
    while ((more = read(0, input + n, INPUT - n)) > 0)
        n += more;
    read_task((int)n - 1);
    put_text("p cnf ");
    put_number((long)horizon * (values + actions) + values);
    put(' ');
    put_number(count());
    put('\n');
    for (int x = 0; x < variables; x++)
        plus(value(0, x, starts[x])), end();
    for (int i = 0; i < goal_pairs; i++)
        plus(value(horizon, goals[2 * i], goals[2 * i + 1])), end();
    for (int s = 0; s <= horizon; s++)
        for (int x = 0; x < variables; x++) {
            for (int v = 0; v < sizes[x]; v++)
                plus(value(s, x, v));
            end();
        }
    for (int s = 0; s <= horizon; s++)
        for (int x = 0; x < variables; x++)
            for (int v = 0; v < sizes[x]; v++)
                for (int w = v + 1; w < sizes[x]; w++)
                    minus(value(s, x, v)), minus(value(s, x, w)), end();
    for (int s = 0; s < horizon; s++)
        for (int a = 0; a < actions; a++)
            for (int i = 0; i < action[a][0]; i++)
                minus(act(s, a)), plus(value(s, action[a][2 + 2 * i], action[a][3 + 2 * i])), end();
    for (int s = 0; s < horizon; s++)
        for (int a = 0; a < actions; a++)
            for (int i = 0; i < action[a][1]; i++)
                minus(act(s, a)), plus(value(s + 1, effects(a)[2 * i], effects(a)[2 * i + 1])), end();
    for (int s = 0; s < horizon; s++)
        for (int x = 0; x < variables; x++)
            for (int v = 0; v < sizes[x]; v++) {
                minus(value(s + 1, x, v));
                plus(value(s, x, v));
                for (int a = 0; a < actions; a++)
                    if (gives(a, x, v))
                        plus(act(s, a));
                end();
            }
    for (int s = 0; s < horizon; s++)
        for (int a = 0; a < actions; a++)
            for (int b = a + 1; b < actions; b++)
                minus(act(s, a)), minus(act(s, b)), end();
    flush();
    return 0;
}
