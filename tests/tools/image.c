/* image PAYLOAD SYMBOLS TEXT_BASE TEXT_LEN SLOT_BASE: what the library writes into the slot, to stdout. Numbers are as in C. */
#include "../../examples/common.h"

int main(int argc, char **argv)
{
    static uint8_t image[URDDOLWY_IMAGE_SIZE], edits[URDDOLWY_EDITS * URDDOLWY_EDIT_SIZE], summary[URDDOLWY_SUMMARY_SIZE];
    uint64_t numbers[3];
    if (argc != 6)
        return 2;
    for (int i = 0; i < 3; i++)
        numbers[i] = strtoull(argv[3 + i], NULL, 0);
    struct bytes file = read_file(argv[1]), list = read_file(argv[2]);
    uint64_t answer = urddolwy_prepare(file.at, file.len, list.at, list.len, numbers[0], numbers[1], numbers[2], image,
                                       sizeof image, edits, sizeof edits, summary, sizeof summary);
    fwrite(image, 1, sizeof image, stdout);
    return printed(answer != 0);
}
