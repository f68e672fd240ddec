// Drives the counter of examples/cnt.v, as Verilator builds it, with each row of a stimulus text on standard input.
// It reads as strictly as `dessert` does, a block at a time, and says in which cycle an assertion fired first.
#include <cstdio>
#include <cstring>
#include "Vcnt.h"
#include "verilated.h"

static long cycle = 0;
static long failure = -1;

void vl_stop(const char*, int, const char*) VL_MT_UNSAFE {
    if (failure < 0) failure = cycle;
}

static char block[65536];
static size_t used = 0, held = 0;

static int next_byte() {
    if (used == held) {
        held = fread(block, 1, sizeof block, stdin);
        used = 0;
        if (held == 0) return -1;
    }
    return block[used++];
}

static int refused() {
    fprintf(stderr, "stimulus refused behind %ld rows\n", cycle);
    return 4;
}

int main(int argc, char** argv) {
    VerilatedContext context;
    context.commandArgs(argc, argv);
    Vcnt counter{&context};
    for (const char* want = "stimulus 1\ninputs rst en\n"; *want; ++want)
        if (next_byte() != *want) return refused();
    for (int byte; (byte = next_byte()) >= 0; ++cycle) {
        if (byte != '0' && byte != '1') return refused();
        counter.rst = byte - '0';
        if (next_byte() != ' ') return refused();
        byte = next_byte();
        if (byte != '0' && byte != '1') return refused();
        counter.en = byte - '0';
        if (next_byte() != '\n') return refused();
        counter.clk = 0;
        counter.eval();
        counter.clk = 1;
        counter.eval();
    }
    counter.final();
    if (failure < 0) {
        printf("no failure in %ld cycles\n", cycle);
        return 0;
    }
    printf("failure at cycle %ld\n", failure);
    return 1;
}
