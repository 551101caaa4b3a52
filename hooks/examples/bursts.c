/* Bursts sampled by a call with arguments: a record of version 2. `cc -o bursts bursts.c && ./bursts calls.rec`. The
 * covergroup stands in crates/covd_rows/data/calls.sv. */
#define COVREC_IMPLEMENTATION
#include "../covrec.h"

#include <stdio.h>

int main(int argc, char **argv) {
    static const struct { unsigned char is_known, beats, failed; } calls[] = {{1, 1, 0}, {1, 4, 0}, {1, 8, 1}, {0, 0, 0}};
    covrec *rec = covrec_begin("four_bursts");
    int bursts;
    unsigned k;
    if (argc != 2 || rec == NULL) return 2;
    bursts = covrec_instance(rec, "bursts", "burst_cg");
    covrec_argument(rec, bursts, 4, 0);
    covrec_argument(rec, bursts, 1, 0);
    for (k = 0; k < sizeof calls / sizeof calls[0]; k++) {
        uint64_t values[2];
        unsigned char known[2] = {1, 1};
        values[0] = calls[k].beats;
        values[1] = calls[k].failed;
        known[0] = calls[k].is_known;
        covrec_sample_with(rec, bursts, values, known);
    }
    if (covrec_error(rec) != NULL) fprintf(stderr, "%s\n", covrec_error(rec));
    return covrec_end(rec, argv[1]) == 0 ? 0 : 1;
}
