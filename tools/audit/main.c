/* urddolwy-audit: whether a payload is accepted, for a symbol list, a text and a slot. Where it is, what it places and changes;
 * else why not, and what stands at the place of the refusal. The library decides, and this tool adds the names. */
#include "audit.h"

int main(int argc, char **argv)
{
    static struct prepared p;
    struct arguments given = read_arguments(argc, argv);
    struct bytes file = read_file(given.payload), list = read_file(given.symbols);
    uint64_t answer = urddolwy_prepare(file.at, file.len, list.at, list.len, given.text_base, given.text_len, given.slot,
                                       p.image, sizeof p.image, p.edits, sizeof p.edits, p.summary, sizeof p.summary);
    if (answer == 0)
        write_results(&given, &p);
    printf("%s: ", given.payload);
    if (answer == 0) {
        print_accepted(&given, file, &p);
    } else {
        print_why(stdout, file, list, given.symbols, answer);
        print_details(stdout, file, answer);
    }
    free((void *)file.at);
    free((void *)list.at);
    return printed(answer != 0);
}
