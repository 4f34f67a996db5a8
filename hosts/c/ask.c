#include <stdio.h>
#include "corrivume.h"

int main(void)
{
    static const uint8_t letters[] = "AAACCTGTAGGCTGAGAT";
    static const uint32_t ends[] = {5, 9, 14, 18}, weights[] = {2, 2, 5, 5, 3, 3, 7, 7, 7, 2};
    uint32_t firsts[10], positions[10], numbers[10], before[17], work[40], run_weights[10], run_firsts[10];
    uint64_t answer[CORRIVUME_ANSWER];

    uint32_t refused = corrivume_index(3, 2, letters, 18, ends, 4, weights, 10, firsts, 10, positions, 10, numbers, 10,
                                       before, 17, work, 40, answer, CORRIVUME_ANSWER);
    if (refused) return printf("refused\t%u\t%llu\n", refused, (unsigned long long)answer[0]), 1;
    size_t stretches = answer[0];

    refused = corrivume_runs(3, letters, 18, ends, 4, weights, 10, run_weights, 10, run_firsts, 10,
                             answer, CORRIVUME_ANSWER);
    if (refused) return printf("refused\t%u\t%llu\n", refused, (unsigned long long)answer[0]), 1;
    size_t runs = answer[0];

    const char *words[] = {"CAG", "CCC"};
    for (int i = 0; i < 2; i++) {
        refused = corrivume_weigh(3, 2, (const uint8_t *)words[i], 3, letters, 18, firsts, stretches,
                                  positions, stretches, numbers, stretches, before, 17, run_weights, runs,
                                  run_firsts, runs, 10, answer, CORRIVUME_ANSWER);
        if (refused) return printf("refused\t%u\t%llu\n", refused, (unsigned long long)answer[0]), 1;
        if (answer[0]) printf("%s weighs %llu\n", words[i], (unsigned long long)answer[1]);
        else printf("%s is absent\n", words[i]);
    }
    return 0;
}
