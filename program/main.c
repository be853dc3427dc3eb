/*
 * fearnavult: an allele register at the command line. Reads the arguments, and hands them to their command.
 * fearnavult --help tells what there is.
 */
#include "program.h"

#include <fcntl.h>
#include <signal.h>
#include <stdio.h>
#include <stdlib.h>
#include <string.h>
#include <unistd.h>

/* What a command takes, words and options. */
enum {
    REGISTER = 1,
    NUMBER = 2,
    ALLELE = 4,
    REFERENCE = 8,
    REFERENCE_NEEDED = 16,
    VCF = 32,
    EVERY = 64,
    BLANK = 128,
    MOST_WORDS = 4
};

typedef struct {
    const char *name;
    int (*answer)(session *s);
    unsigned takes;
} command;

static const command commands[] = {
    {"blank", blank_command, REGISTER | REFERENCE | REFERENCE_NEEDED | BLANK},
    {"enter", enter_command, REGISTER | ALLELE | REFERENCE | REFERENCE_NEEDED | VCF | EVERY},
    {"withdraw", withdraw_command, REGISTER | NUMBER},
    {"undo", undo_command, REGISTER},
    {"seal", seal_command, REGISTER},
    {"list", list_command, REGISTER | REFERENCE},
    {"show", show_command, REGISTER | NUMBER | REFERENCE},
    {"form", form_command, ALLELE | REFERENCE | REFERENCE_NEEDED | VCF},
    {"identify", identify_command, ALLELE | REFERENCE | REFERENCE_NEEDED},
    {"check", check_command, REGISTER},
};

/* An option, and where its value goes: one of the three. */
typedef struct {
    const char *name;
    unsigned part; /* of what a command takes; 0: every command */
    const char **words;
    uint64_t *number;
    bool *flag;
} option;

/* The words beside the options. */
typedef struct {
    const char *at[MOST_WORDS];
    size_t count;
} operands;

static bool takes(const command *c, unsigned part) {
    return (c->takes & part) != 0;
}

static bool gives_allele(const command *c, const options *o) {
    return takes(c, ALLELE) && o->vcf == NULL;
}

_Noreturn static void misused(const command *c, const char *what, const char *word) {
    say("fearnavult: %s%s", what, word);
    say("fearnavult %s%s--help tells how it is used", c == NULL ? "" : c->name, c == NULL ? "" : " ");
    exit(2);
}

_Noreturn static void print_and_end(const char *words) {
    print_bytes(words, strlen(words));
    print_all();
    exit(0);
}

static uint64_t number_of(const command *c, const char *word) {
    uint64_t number = 0;
    bool fits = *word != '\0';
    for (const char *at = word; *at != '\0' && fits; at++) {
        uint64_t digit = (uint64_t)*at - '0';
        fits = *at >= '0' && *at <= '9' && number <= (UINT64_MAX - digit) / 10;
        number = 10 * number + digit;
    }
    if (!fits)
        misused(c, "not a number: ", word);
    return number;
}

/* Takes an option, and answers how many words it is. */
static int take_option(const command *c, options *o, const char *name, const char *value) {
    const option known[] = {
        {"-r", REFERENCE, &o->reference, NULL, NULL},    {"--reference", REFERENCE, &o->reference, NULL, NULL},
        {"--name", REFERENCE, &o->sequence, NULL, NULL}, {"--vcf", VCF, &o->vcf, NULL, NULL},
        {"--every", EVERY, NULL, &o->every, NULL},       {"--records", BLANK, NULL, &o->records, NULL},
        {"--journal", BLANK, NULL, &o->journal, NULL},   {"--pool", BLANK, NULL, &o->pool, NULL},
        {"--force", BLANK, NULL, NULL, &o->force},       {"--tsv", 0, NULL, NULL, &o->tsv},
    };
    size_t i = 0, count = sizeof known / sizeof *known;
    while (i < count && strcmp(name, known[i].name) != 0) i++;
    if (i == count || (known[i].part != 0 && !takes(c, known[i].part)))
        misused(c, takes(c, ALLELE) ? "no such option here; a replacement that begins with - comes after --: "
                                    : "no such option here: ", name);
    if (known[i].flag == NULL && value == NULL)
        misused(c, "no value after ", name);
    if (known[i].words != NULL)
        *known[i].words = value;
    else if (known[i].number != NULL)
        *known[i].number = number_of(c, value);
    else
        *known[i].flag = true;
    if (known[i].number == &o->every && o->every == 0)
        misused(c, "not a number from 1 on: ", value);
    return known[i].flag == NULL ? 2 : 1;
}

static bool is_help(const char *word) {
    return strcmp(word, "--help") == 0 || strcmp(word, "-h") == 0;
}

/* Reads the words after the command; null ends them. */
static void read_words(const command *c, options *o, operands *beside, char **words) {
    bool ended = false;
    while (*words != NULL) {
        bool dashed = !ended && (*words)[0] == '-' && (*words)[1] != '\0';
        bool ends = dashed && strcmp(*words, "--") == 0;
        if (dashed && is_help(*words))
            print_and_end(help_page(c->name));
        if (!dashed && beside->count == MOST_WORDS)
            misused(c, "too many words: ", *words);
        if (!dashed)
            beside->at[beside->count++] = *words;
        words += dashed && !ends ? take_option(c, o, words[0], words[1]) : 1;
        ended |= ends;
    }
}

static void expect_whole(const command *c, const options *o, const operands *beside) {
    size_t wanted = (takes(c, REGISTER) ? 1u : 0u) + (takes(c, NUMBER) ? 1u : 0u) + (gives_allele(c, o) ? 3u : 0u);
    if (beside->count > wanted)
        misused(c, o->vcf != NULL ? "an allele beside --vcf: " : "too many words: ", beside->at[wanted]);
    if (beside->count < wanted)
        misused(c, "too few words", "");
    if (takes(c, REFERENCE_NEEDED) && o->reference == NULL)
        misused(c, "no reference, -r names its file", "");
    if (o->sequence != NULL && o->reference == NULL)
        misused(c, "--name without -r", "");
    if (o->every != 0 && o->vcf == NULL)
        misused(c, "--every without --vcf", "");
}

static void take_operands(const command *c, options *o, const operands *beside) {
    const char *const *word = beside->at;
    if (takes(c, REGISTER))
        o->register_name = *word++;
    if (takes(c, NUMBER))
        o->number = number_of(c, *word++);
    if (!gives_allele(c, o))
        return;
    o->given.start = number_of(c, word[0]);
    o->given.end = number_of(c, word[1]);
    o->given.replacement = text_of(strcmp(word[2], ".") == 0 ? "" : word[2]);
}

/* Where a standard file is closed, one that can't be used takes its number, so that no register gets it. */
static void fill_standard_files(void) {
    for (int file = STDIN_FILENO; file <= STDERR_FILENO; file++)
        if (fcntl(file, F_GETFD) == -1 && open("/dev/null", file == STDIN_FILENO ? O_WRONLY : O_RDONLY) != file)
            exit(2);
}

static const command *find_command(const char *name) {
    for (size_t i = 0; i < sizeof commands / sizeof *commands; i++)
        if (strcmp(name, commands[i].name) == 0)
            return &commands[i];
    misused(NULL, "no such command: ", name);
}

int main(int count, char **words) {
    session s = {.o = {.records = 10000, .journal = 10000, .pool = 1000000}};
    operands beside = {.count = 0};
    fill_standard_files();
    if (signal(SIGXFSZ, SIG_IGN) == SIG_ERR)
        exit(2);
    if (count < 2)
        misused(NULL, "no command", "");
    if (is_help(words[1]))
        print_and_end(help_page(NULL));
    if (strcmp(words[1], "--version") == 0)
        print_and_end("fearnavult " FV_VERSION "\n");
    const command *c = find_command(words[1]);
    read_words(c, &s.o, &beside, words + 2);
    expect_whole(c, &s.o, &beside);
    take_operands(c, &s.o, &beside);
    exit(c->answer(&s));
}
