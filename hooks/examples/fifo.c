/* A model of a queue of four entries writes the record of a short test: `cc -o fifo fifo.c && ./fifo fifo.rec`. The
 * covergroup stands in crates/covd_rows/data/fifo.sv. */
#define COVREC_IMPLEMENTATION
#include "../covrec.h"

#include <stdio.h>

int main(int argc, char **argv) {
    const char *steps = "wwwwbrrrr.";
    covrec *rec = covrec_begin("fill_and_drain");
    int push, pop, clk, level, fifo, have = 0;
    if (argc != 2 || rec == NULL) return 2;
    push = covrec_signal(rec, "push", 1, 0);
    pop = covrec_signal(rec, "pop", 1, 0);
    clk = covrec_signal(rec, "clk", 1, 0);
    level = covrec_signal(rec, "level", 3, 0);
    fifo = covrec_instance(rec, "fifo", "fifo_cg");
    covrec_seed(rec, 7);
    covrec_user(rec, "hooks");
    for (; *steps != 0; steps++) {
        int pushes = *steps == 'w' || *steps == 'b', pops = *steps == 'r' || *steps == 'b';
        covrec_set(rec, clk, 0);
        covrec_set(rec, push, (uint64_t)pushes);
        covrec_set(rec, pop, (uint64_t)pops);
        covrec_set(rec, level, (uint64_t)have);
        covrec_set(rec, clk, 1);
        covrec_sample(rec, fifo);
        have += pushes - pops;
    }
    if (covrec_error(rec) != NULL) fprintf(stderr, "%s\n", covrec_error(rec));
    return covrec_end(rec, argv[1]) == 0 ? 0 : 1;
}
