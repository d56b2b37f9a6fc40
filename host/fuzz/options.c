/* Options of the program, in any place after the command's name. */
#include "../stm/command.h"
#include "lines.h"
#include "pieces.h"
#include "random.h"
#include "report.h"
#include "scratch.h"

/* Options with their values, a pair each; a value may be NULL. */
enum { MAX_OPTIONS = 10 };
struct given {
    const char *words[MAX_OPTIONS][2];
    size_t count;
};

static void give(struct given *g, const char *name, const char *value)
{
    g->words[g->count][0] = name;
    g->words[g->count++][1] = value;
}

static const struct command *find(const char *name)
{
    for (size_t i = 0; i < commands_len; i++)
        if (strcmp(commands[i].name, name) == 0)
            return &commands[i];
    return NULL;
}

/* The folder of the designs may be any where more than one exit status is right. */
static const char *right_value(const struct line *l, unsigned option)
{
    static const char *const folders[] = {scratch, scratch, scratch, "designs", "/nowhere", "", "/dev/null"};
    if (option == PIECE)
        return scratch_paths[PIECE_FILE];
    if (option == DESIGNS)
        return l->allowed & (l->allowed - 1) ? ONE_OF(folders) : scratch;
    return chance(80) ? "1000000" : "1000000000";
}

/* A set of those that the command takes. A piece under test is always given, since the sizes of formulas are reckoned with it. */
static void give_right(const struct line *l, struct given *g, const struct command *c)
{
    unsigned chosen = chance(60) ? 0 : (unsigned)draw();
    chosen = piece_len > 0 ? chosen | PIECE : chosen & ~(unsigned)PIECE;
    if (chance(50))
        chosen |= EXPLAIN;
    if (chosen & c->options & EXPLAIN)
        chosen &= ~(unsigned)JSON;
    if (chance(80))
        chosen |= DESIGNS;
    for (size_t i = 0; i < options_len; i++)
        if (chosen & c->options & options[i].bit)
            give(g, options[i].name, options[i].value ? right_value(l, options[i].bit) : NULL);
}

/* Words that are no option, and times that are none. */
static void give_unknown(struct given *g, const struct command *c)
{
    static const char *const unknown[] = {
        "--nothing", "---", "--pie", "--piecexx", "--piece=x", "--json=1", "--JSON", "--version", "--\n%s%n",
    };
    static const char *const times[] = {"0", "-1", "", "x", "1.5", "1000000001", "18446744073709551617", "--json"};
    if (c->options & TIME && chance(50))
        give(g, "--time", ONE_OF(times));
    else
        give(g, ONE_OF(unknown), NULL);
}

/* One that is misuse: an unknown one, one that this command does not take, one twice, or two that do not go together. */
static void give_wrong(const struct line *l, struct given *g, const struct command *c)
{
    const struct option *o = &options[below(options_len)];
    const char *value = o->value ? right_value(l, o->bit) : NULL;
    if (chance(25)) {
        give_unknown(g, c);
    } else if (!(c->options & o->bit)) {
        give(g, o->name, value);
    } else if (c->options & EXPLAIN && c->options & JSON && chance(30)) {
        give(g, "--json", NULL);
        give(g, "--explain", NULL);
    } else {
        give(g, o->name, value);
        give(g, o->name, value);
    }
}

/* The words of the line after the command's name with the options between them, each in its order. */
static void merge(struct line *l, const struct given *g)
{
    struct line all = *l;
    all.count = 0;
    int word = 2;
    for (int i = 0; i < 2; i++)
        add_word(&all, l->words[i]);
    for (size_t option = 0; word < l->count || option < g->count;) {
        if (option < g->count && (word == l->count || chance(40))) {
            add_word(&all, g->words[option][0]);
            if (g->words[option][1])
                add_word(&all, g->words[option][1]);
            option++;
        } else {
            add_word(&all, l->words[word++]);
        }
    }
    free_words(l);
    *l = all;
}

/* The line as it stands may end with -- where no option follows, or miss the value of its last option, or ask for help. */
static void put_last(struct line *l, const struct command *c)
{
    switch (below(12)) {
    case 0:
        add_word(l, "--");
        break;
    case 1:
        add_word(l, c->options & PIECE ? "--piece" : "--time");
        is_misuse(l);
        break;
    case 2:
        add_word(l, "--");
        add_word(l, "--json");
        /* one word more: the name of a file that is not there, or no number. These two may be refused before they look for it */
        if (strcmp(c->name, "decode") == 0 || strcmp(c->name, "owners") == 0)
            l->allowed = STATUS(MISUSED) | STATUS(REFUSED);
        else
            is_misuse(l);
        break;
    case 3:
        add_word(l, "--help");
        l->allowed = STATUS(CLEAN);
        l->helps = 1;
        break;
    default:
        break;
    }
}

void put_options(struct line *l)
{
    const struct command *c = l->count >= 2 ? find(l->words[1]) : NULL;
    struct given g = {.count = 0};
    if (!c)
        return;
    int wrong = chance(6);
    give_right(l, &g, c);
    if (wrong)
        give_wrong(l, &g, c);
    merge(l, &g);
    if (wrong)
        is_misuse(l);
    seen.wrong_options += wrong != 0;
    seen.right_options += !wrong && g.count > 0;
    if (chance(10))
        put_last(l, c);
}
