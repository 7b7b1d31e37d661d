/* The same scheduler in plain C, as a careful programmer writes it: arrays and loops, nothing proved. It reads the
   same scripts (all but `had` and `any`) and makes the same choices; bench/compare sets its cost beside that of the
   scheduler. The rules are those of docs/RULES.md, the choices those of docs/DECISIONS.md. */
#include <stdbool.h>
#include <stdint.h>
#include <stdio.h>
#include <stdlib.h>
#include <string.h>

enum { PLACES = 64, LOCKS = 64, RANKS = 16, WHOLE = 10080, MOST_SHARES = 7560, NONE = -1 };

enum kind { FREE, RESERVED, FIXED, FAIR, KEPT };

struct task {
    enum kind kind;
    bool awake;
    /* reserved and kept: the window is open while `left` is above 0 */
    bool whole;
    uint16_t quota, period, left, got;
    /* fixed */
    uint8_t rank;
    uint64_t last;
    /* fair: parts / weight is how far it is */
    bool wanted;
    uint16_t weight;
    uint64_t parts;
    /* the lock that it waits for, and who waits behind it */
    int8_t waits, next;
};

struct lock {
    int8_t owner, first, last;
};

struct scheduler {
    struct task tasks[PLACES];
    struct lock locks[LOCKS];
    bool wants[PLACES];
    int top[KEPT]; /* of each kind, one more than the highest place that was ever used; at FREE, of all */
    uint32_t shares;
    uint64_t moment;
    uint64_t mark_parts, mark_weight;
};

static void start(struct scheduler *s)
{
    memset(s, 0, sizeof *s);
    for (int i = 0; i < PLACES; i++)
        s->tasks[i].waits = s->tasks[i].next = NONE;
    for (int m = 0; m < LOCKS; m++)
        s->locks[m] = (struct lock){NONE, NONE, NONE};
    s->mark_weight = 1;
}

static bool is_task(const struct scheduler *s, uint32_t i)
{
    return i < PLACES && s->tasks[i].kind != FREE && s->tasks[i].kind != KEPT;
}

static int runner(const struct scheduler *s, int i)
{
    while (s->tasks[i].waits != NONE)
        i = s->locks[s->tasks[i].waits].owner;
    return i;
}

/* CALLS. Each gives 0, or the number by which it is turned away; `make` gives the place by `place`. */
static uint32_t share(uint32_t quota, uint32_t period)
{
    return quota * (WHOLE / period);
}

static int make(struct scheduler *s, struct task new, int *place)
{
    uint32_t more = new.kind == RESERVED ? share(new.quota, new.period) : 0;
    int i = 0;
    while (i < PLACES && s->tasks[i].kind != FREE)
        i++;
    if (i == PLACES)
        return 2;
    if (s->shares + more > MOST_SHARES)
        return 3;
    if (new.kind == FIXED)
        new.last = s->moment++;
    if (new.kind == FAIR)
        new.parts = (s->mark_parts * new.weight + s->mark_weight - 1) / s->mark_weight + 1;
    new.waits = new.next = NONE;
    s->tasks[i] = new;
    s->shares += more;
    if (s->top[FREE] <= i)
        s->top[FREE] = i + 1;
    if (s->top[new.kind] <= i)
        s->top[new.kind] = i + 1;
    *place = i;
    return 0;
}

static int end(struct scheduler *s, uint32_t i)
{
    if (!is_task(s, i))
        return 4;
    struct task *t = &s->tasks[i];
    if (t->waits != NONE)
        return 9;
    for (int m = 0; m < LOCKS; m++)
        if (s->locks[m].owner == (int)i)
            return 6;
    t->awake = false;
    if (t->kind == RESERVED && t->left > 0) {
        t->kind = KEPT;
        return 0;
    }
    if (t->kind == RESERVED)
        s->shares -= share(t->quota, t->period);
    t->kind = FREE;
    return 0;
}

static int wake(struct scheduler *s, uint32_t i)
{
    if (!is_task(s, i))
        return 4;
    s->tasks[i].awake = true;
    return 0;
}

static int put_to_sleep(struct scheduler *s, uint32_t i)
{
    if (!is_task(s, i))
        return 4;
    if (s->tasks[i].waits != NONE)
        return 9;
    s->tasks[i].awake = false;
    return 0;
}

static int lock(struct scheduler *s, uint32_t i, uint32_t m)
{
    if (!is_task(s, i))
        return 4;
    if (m >= LOCKS)
        return 1;
    struct task *t = &s->tasks[i];
    struct lock *l = &s->locks[m];
    if (t->waits != NONE || !t->awake)
        return 9;
    if (l->owner == NONE) {
        l->owner = (int8_t)i;
        return 0;
    }
    if (runner(s, l->owner) == (int)i)
        return 5;
    t->waits = (int8_t)m;
    t->next = NONE;
    if (l->first == NONE)
        l->first = (int8_t)i;
    else
        s->tasks[l->last].next = (int8_t)i;
    l->last = (int8_t)i;
    return 0;
}

static int unlock(struct scheduler *s, uint32_t i, uint32_t m)
{
    if (!is_task(s, i))
        return 4;
    if (m >= LOCKS)
        return 1;
    struct lock *l = &s->locks[m];
    if (s->tasks[i].waits != NONE)
        return 9;
    if (l->owner != (int)i)
        return 8;
    l->owner = l->first;
    if (l->first != NONE) {
        struct task *t = &s->tasks[l->first];
        l->first = t->next;
        t->waits = t->next = NONE;
    }
    return 0;
}

/* TICKS */
static void settle_wants(struct scheduler *s)
{
    for (int i = 0; i < s->top[FREE]; i++)
        s->wants[i] = is_task(s, (uint32_t)i) && s->tasks[runner(s, i)].awake;
}

/* Windows open or stop being whole; of the due tasks the one that goes first. */
static int begin_reserved(struct scheduler *s)
{
    int best = NONE;
    for (int i = 0; i < s->top[RESERVED]; i++) {
        struct task *t = &s->tasks[i];
        if (t->kind == KEPT)
            t->whole = false;
        if (t->kind != RESERVED)
            continue;
        if (t->left > 0) {
            t->whole &= s->wants[i];
        } else if (s->wants[i]) {
            t->left = t->period;
            t->got = 0;
            t->whole = true;
        }
        if (!s->wants[i] || t->got >= t->quota)
            continue;
        const struct task *b = &s->tasks[best == NONE ? i : best];
        if (best == NONE || (t->whole && !b->whole) || (t->whole == b->whole && t->left < b->left))
            best = i;
    }
    return best;
}

/* Fair tasks come back, the mark moves; the least far of those that want. */
static int begin_fair(struct scheduler *s)
{
    int least = NONE;
    for (int i = 0; i < s->top[FAIR]; i++) {
        struct task *t = &s->tasks[i];
        if (t->kind != FAIR)
            continue;
        if (s->wants[i]) {
            if (!t->wanted && t->parts * s->mark_weight < s->mark_parts * t->weight)
                t->parts = (s->mark_parts * t->weight + s->mark_weight - 1) / s->mark_weight;
            if (least == NONE || t->parts * s->tasks[least].weight < s->tasks[least].parts * t->weight)
                least = i;
        }
        t->wanted = s->wants[i];
    }
    if (least != NONE && s->mark_parts * s->tasks[least].weight < s->tasks[least].parts * s->mark_weight) {
        s->mark_parts = s->tasks[least].parts;
        s->mark_weight = s->tasks[least].weight;
    }
    return least;
}

static int first_fixed(const struct scheduler *s)
{
    int first = NONE;
    for (int i = 0; i < s->top[FIXED]; i++) {
        const struct task *t = &s->tasks[i];
        if (t->kind != FIXED || !s->wants[i])
            continue;
        const struct task *f = &s->tasks[first == NONE ? i : first];
        if (first == NONE || t->rank < f->rank || (t->rank == f->rank && t->last < f->last))
            first = i;
    }
    return first;
}

static void pass(struct scheduler *s, int whose)
{
    if (whose != NONE) {
        struct task *t = &s->tasks[whose];
        if (t->kind == RESERVED)
            t->got++;
        if (t->kind == FIXED)
            t->last = s->moment++;
        if (t->kind == FAIR)
            t->parts++;
    }
    for (int i = 0; i < s->top[RESERVED]; i++) {
        struct task *t = &s->tasks[i];
        if ((t->kind != RESERVED && t->kind != KEPT) || t->left == 0)
            continue;
        if (--t->left == 0 && t->kind == KEPT) {
            s->shares -= share(t->quota, t->period);
            t->kind = FREE;
        }
    }
}

static int tick(struct scheduler *s)
{
    settle_wants(s);
    int whose = begin_reserved(s);
    int fair = begin_fair(s);
    if (whose == NONE)
        whose = first_fixed(s);
    if (whose == NONE)
        whose = fair;
    pass(s, whose);
    return whose;
}

/* SCRIPTS. Only well formed ones; what is printed is gathered in a page, so that reading and writing cost little. */
static char page[1 << 16];
static size_t used;

static void flush(void)
{
    fwrite(page, 1, used, stdout);
    used = 0;
}

static void say(const char *text)
{
    while (*text)
        page[used++] = *text++;
}

static void say_number(uint32_t n)
{
    char digits[10];
    int k = 0;
    do
        digits[k++] = (char)('0' + n % 10);
    while ((n /= 10) > 0);
    while (k > 0)
        page[used++] = digits[--k];
}

static void end_line(void)
{
    page[used++] = '\n';
    if (used > sizeof page - 128)
        flush();
}

static void say_tick(const struct scheduler *s, int whose)
{
    if (whose == NONE) {
        say("-");
    } else {
        int runs = runner(s, whose);
        say_number((uint32_t)whose);
        if (runs != whose) {
            say(" runs ");
            say_number((uint32_t)runs);
        }
    }
    end_line();
}

/* Whether the line begins with this word; then it stands behind it. */
static bool word(const char **line, const char *text)
{
    size_t n = strlen(text);
    if (strncmp(*line, text, n) != 0)
        return false;
    *line += n;
    return true;
}

static uint32_t number(const char **line)
{
    uint32_t n = 0;
    while (**line == ' ')
        ++*line;
    while (**line >= '0' && **line <= '9')
        n = n * 10 + (uint32_t)(*(*line)++ - '0');
    return n;
}

static int make_line(struct scheduler *s, const char *line, int *place)
{
    struct task new = {.kind = FREE};
    if (word(&line, "reserved ")) {
        uint32_t quota = number(&line), period = number(&line);
        if (period < 4 || period > WHOLE || WHOLE % period != 0 || quota < 1 || quota > period)
            return 1;
        new = (struct task){.kind = RESERVED, .quota = (uint16_t)quota, .period = (uint16_t)period};
    } else if (word(&line, "fixed ")) {
        uint32_t rank = number(&line);
        if (rank >= RANKS)
            return 1;
        new = (struct task){.kind = FIXED, .rank = (uint8_t)rank};
    } else if (word(&line, "fair ")) {
        uint32_t weight = number(&line);
        if (weight < 1 || weight > 1024)
            return 1;
        new = (struct task){.kind = FAIR, .weight = (uint16_t)weight};
    }
    return make(s, new, place);
}

static int call_line(struct scheduler *s, const char *line, int *place)
{
    if (word(&line, "make "))
        return make_line(s, line, place);
    if (word(&line, "end "))
        return end(s, number(&line));
    if (word(&line, "wake "))
        return wake(s, number(&line));
    if (word(&line, "sleep "))
        return put_to_sleep(s, number(&line));
    if (word(&line, "lock ")) {
        uint32_t i = number(&line);
        return lock(s, i, number(&line));
    }
    if (word(&line, "unlock ")) {
        uint32_t i = number(&line);
        return unlock(s, i, number(&line));
    }
    fprintf(stderr, "not understood: %s", line);
    exit(2);
}

static void answer(struct scheduler *s, const char *line)
{
    int place = NONE;
    int refused = call_line(s, line, &place);
    if (refused) {
        say("no ");
        say_number((uint32_t)refused);
    } else if (place != NONE) {
        say("id ");
        say_number((uint32_t)place);
    } else {
        say("done");
    }
    end_line();
}

int main(void)
{
    static struct scheduler s;
    char text[128];
    start(&s);
    while (fgets(text, sizeof text, stdin)) {
        const char *line = text;
        if (!word(&line, "tick ")) {
            answer(&s, line);
            continue;
        }
        for (uint32_t n = number(&line); n > 0; n--)
            say_tick(&s, tick(&s));
    }
    flush();
    return 0;
}
