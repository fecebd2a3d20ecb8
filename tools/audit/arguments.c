/* The command line of urddolwy-audit. */
#include "audit.h"
#include "options.h"

#include <ctype.h>

static const char usage[] =
    "usage: urddolwy-audit PAYLOAD SYMBOLS --text BASE:SIZE --slot BASE [--image FILE] [--objdump PREFIX]\n"
    "  PAYLOAD           the payload's file\n"
    "  SYMBOLS           the hypervisor's symbol list, as urddolwy-symbols writes it\n"
    "  --text BASE:SIZE  address and size of the hypervisor's text\n"
    "  --slot BASE       address of the slot\n"
    "  --image FILE      write the slot's 8,192 bytes there\n"
    "  --objdump PREFIX  write the bytes of edit N to PREFIX.N, and print a command that disassembles them\n"
    "Numbers are decimal, or hexadecimal after 0x. Files are written for an accepted payload only.\n"
    "Exit status: 0 accepted, 1 refused, 2 bad usage or a file that cannot be read or written.\n";

enum { TEXT, SLOT, IMAGE, OBJDUMP };
static struct option options[] = {{"--text", 0, NULL}, {"--slot", 0, NULL}, {"--image", 0, NULL}, {"--objdump", 0, NULL}, {0}};
static const char *words[2];
static struct command_line line = {usage, options, words, 2, 0};

/* A number of 64 bits, which another character ends; what follows that, or NULL where this is no such number. */
static const char *number(const char *from, char ends, uint64_t *x)
{
    char *end;
    int hexadecimal = from[0] == '0' && (from[1] == 'x' || from[1] == 'X');
    errno = 0;
    *x = strtoull(from, &end, hexadecimal ? 16 : 10);
    /* strtoull also takes spaces and signs before a number */
    return isdigit((unsigned char)from[0]) && *end == ends && errno == 0 ? end + 1 : NULL;
}

struct arguments read_arguments(int argc, char **argv)
{
    struct arguments given;
    read_line(&line, argc, argv);
    if (line.count < 2)
        bad_usage(&line, "PAYLOAD or SYMBOLS is missing");
    if (options[TEXT].value == NULL || options[SLOT].value == NULL)
        bad_usage(&line, "%s is missing", options[TEXT].value == NULL ? "--text BASE:SIZE" : "--slot BASE");
    const char *size = number(options[TEXT].value, ':', &given.text_base);
    if (size == NULL || number(size, '\0', &given.text_len) == NULL)
        bad_usage(&line, "--text is '%s', and not two numbers of 64 bits as BASE:SIZE", options[TEXT].value);
    if (number(options[SLOT].value, '\0', &given.slot) == NULL)
        bad_usage(&line, "--slot is '%s', and no number of 64 bits", options[SLOT].value);
    given.payload = words[0];
    given.symbols = words[1];
    given.image = options[IMAGE].value;
    given.objdump = options[OBJDUMP].value;
    return given;
}
