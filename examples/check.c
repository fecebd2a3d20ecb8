/* check FILE..: says of each file whether it may be a payload, or why not and where. Exit status 1 where one is refused, 2 where
 * no file is given or one cannot be read.
 *
 *   ./build
 *   cc -Iinclude examples/check.c target/lib/liburddolwy.a -o target/check
 */
#include "common.h"

int main(int argc, char **argv)
{
    int refused = 0;
    if (argc < 2) {
        fprintf(stderr, "usage: check FILE..\n");
        return 2;
    }
    for (int i = 1; i < argc; i++) {
        struct bytes file = read_file(argv[i]);
        uint64_t answer = urddolwy_check_file(file.at, file.len);
        printf("%s: ", argv[i]);
        if (answer == 0)
            printf("accepted\n");
        else
            print_refusal(stdout, file, answer);
        refused |= answer != 0;
        free((void *)file.at);
    }
    return refused;
}
