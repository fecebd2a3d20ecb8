/* The command line of a tool: options, each once and before or after the other words. */
#ifndef OPTIONS_H
#define OPTIONS_H

#include <stdarg.h>
#include <stdio.h>
#include <stdlib.h>
#include <string.h>

struct option {
    const char *name;
    int alone;         /* it takes no value */
    const char *value; /* NULL where it is not given */
};

/* What a tool takes: the text that says so, its options up to one without a name, and its other words. */
struct command_line {
    const char *usage;
    struct option *options;
    const char **words;
    int room, count; /* how many words it takes at most, and how many are given */
};

/* Says what is wrong with the command line and how it should be, and ends with status 2. */
static inline void bad_usage(const struct command_line *line, const char *wrong, ...)
{
    va_list values;
    va_start(values, wrong);
    vfprintf(stderr, wrong, values);
    va_end(values);
    fprintf(stderr, "\n%s", line->usage);
    exit(2);
}

/* The option of that name. */
static inline struct option *option_named(const struct command_line *line, const char *name)
{
    struct option *option = line->options;
    while (option->name != NULL && strcmp(option->name, name) != 0)
        option++;
    if (option->name == NULL)
        bad_usage(line, "there is no option %s", name);
    return option;
}

/* Reads the command line. A word that begins with - and has more is an option. */
static inline void read_line(struct command_line *line, int argc, char **argv)
{
    for (int i = 1; i < argc; i++) {
        if (argv[i][0] != '-' || argv[i][1] == '\0') {
            if (line->count == line->room)
                bad_usage(line, "'%s' is one word too many", argv[i]);
            line->words[line->count++] = argv[i];
            continue;
        }
        struct option *option = option_named(line, argv[i]);
        if (option->value != NULL)
            bad_usage(line, "%s is given twice", option->name);
        if (!option->alone && i + 1 == argc)
            bad_usage(line, "%s needs a value", option->name);
        option->value = option->alone ? option->name : argv[++i];
    }
}

#endif
