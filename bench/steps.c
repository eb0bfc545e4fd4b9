/* A plain interpreter of RV64 assembly as atomx prints it: steps.py builds and times it.

   usage: steps ASSEMBLY PROCESSORS STEPS ENTRY
   Runs STEPS steps, one of each processor in turn, all from the place ENTRY, and prints the seconds
   of the steps alone, and the first global. */
#include <stdint.h>
#include <stdio.h>
#include <stdlib.h>
#include <string.h>
#include <time.h>

enum op {
    LI, MV, NEG, NOT, SEXTW, SEQZ, SNEZ,
    ADD, SUB, AND, OR, XOR, MUL, SLT, SLTU,
    SLLI, SRLI, SRAI, ANDI, ADDI,
    LBU, LHU, LW, LD, SB, SH, SW, SD,
    AMOADD_W, AMOADD_D, FENCE, J, BEQ, BNE, BLT, BGE, BLTU, BGEU, RET, ECALL, EBREAK, NOP
};

struct instr { enum op op; int rd, a, b; int64_t n; uint32_t target; };

static const char *names[32] = {
    "zero", "ra", "sp", "gp", "tp", "t0", "t1", "t2", "s0", "s1", "a0", "a1", "a2", "a3", "a4", "a5",
    "a6", "a7", "s2", "s3", "s4", "s5", "s6", "s7", "s8", "s9", "s10", "s11", "t3", "t4", "t5", "t6"};

static int reg(const char *s) {
    for (int r = 0; r < 32; r++)
        if (!strcmp(s, names[r])) return r;
    fprintf(stderr, "no register: %s\n", s);
    exit(2);
}

#define LIMIT 4000000
static struct instr code[LIMIT];
static uint32_t size;

static const struct { const char *word; enum op op; char shape; } words[] = {
    {"li", LI, 'n'}, {"mv", MV, 'u'}, {"neg", NEG, 'u'}, {"not", NOT, 'u'}, {"sext.w", SEXTW, 'u'},
    {"seqz", SEQZ, 'u'}, {"snez", SNEZ, 'u'}, {"add", ADD, 'r'}, {"sub", SUB, 'r'}, {"and", AND, 'r'},
    {"or", OR, 'r'}, {"xor", XOR, 'r'}, {"mul", MUL, 'r'}, {"slt", SLT, 'r'}, {"sltu", SLTU, 'r'},
    {"slli", SLLI, 'i'}, {"srli", SRLI, 'i'}, {"srai", SRAI, 'i'}, {"andi", ANDI, 'i'}, {"addi", ADDI, 'i'},
    {"lbu", LBU, 'm'}, {"lhu", LHU, 'm'}, {"lw", LW, 'm'}, {"ld", LD, 'm'},
    {"sb", SB, 'm'}, {"sh", SH, 'm'}, {"sw", SW, 'm'}, {"sd", SD, 'm'},
    {"amoadd.w", AMOADD_W, 'a'}, {"amoadd.d", AMOADD_D, 'a'}, {"fence", FENCE, '-'}, {"fence.tso", FENCE, '-'},
    {"j", J, 'j'}, {"beq", BEQ, 'b'}, {"bne", BNE, 'b'}, {"blt", BLT, 'b'}, {"bge", BGE, 'b'},
    {"bltu", BLTU, 'b'}, {"bgeu", BGEU, 'b'}, {"ret", RET, '-'}, {"ecall", ECALL, '-'},
    {"ebreak", EBREAK, '-'}, {"nop", NOP, '-'}};

static void parse(char *text) {
    char *part[5];
    int parts = 0;
    for (char *p = strtok(text, " ,()\n"); p && parts < 5 && p[0] != '#'; p = strtok(NULL, " ,()\n"))
        part[parts++] = p;
    struct instr i = {0};
    for (char *end = strstr(part[0], ".aq"); end; end = NULL) *end = 0;
    for (char *end = strstr(part[0], ".rl"); end; end = NULL) *end = 0;
    for (size_t w = 0; w < sizeof words / sizeof *words; w++) {
        if (strcmp(part[0], words[w].word)) continue;
        i.op = words[w].op;
        switch (words[w].shape) {
        case 'n': i.rd = reg(part[1]); i.n = (int64_t)strtoull(part[2], NULL, 10); break;
        case 'u': i.rd = reg(part[1]); i.a = reg(part[2]); break;
        case 'r': i.rd = reg(part[1]); i.a = reg(part[2]); i.b = reg(part[3]); break;
        case 'i': i.rd = reg(part[1]); i.a = reg(part[2]); i.n = strtoll(part[3], NULL, 10); break;
        case 'm': i.rd = reg(part[1]); i.n = strtoll(part[2], NULL, 10); i.a = reg(part[3]); break;
        case 'a': i.rd = reg(part[1]); i.b = reg(part[2]); i.a = reg(part[3]); break;
        case 'j': i.target = (uint32_t)atol(part[1] + 2); break;
        case 'b': i.a = reg(part[1]); i.b = reg(part[2]); i.target = (uint32_t)atol(part[3] + 2); break;
        }
        code[++size] = i;
        return;
    }
    fprintf(stderr, "no instruction: %s\n", part[0]);
    exit(2);
}

/* The globals, and the frames of 8 processors. */
static uint8_t globals[0x100000], frames[8 * 0x20000];

static uint8_t *at(uint64_t a, unsigned n) {
    if (a >= 0x10000 && a + n <= 0x110000) return globals + (a - 0x10000);
    if (a >= 0x1000000 && a + n <= 0x1100000) return frames + (a - 0x1000000);
    fprintf(stderr, "no address: %llx\n", (unsigned long long)a);
    exit(2);
}

struct cpu { uint64_t r[32]; uint32_t place; int running; };

static void step(struct cpu *c) {
    if (!c->running) return;
    const struct instr *i = &code[c->place];
    uint64_t a = c->r[i->a], b = c->r[i->b], x = 0;
    int sets = 1;
    c->place++;
    switch (i->op) {
    case LI: x = (uint64_t)i->n; break;
    case MV: x = a; break;
    case NEG: x = -a; break;
    case NOT: x = ~a; break;
    case SEXTW: x = (uint64_t)(int64_t)(int32_t)a; break;
    case SEQZ: x = a == 0; break;
    case SNEZ: x = a != 0; break;
    case ADD: x = a + b; break;
    case SUB: x = a - b; break;
    case AND: x = a & b; break;
    case OR: x = a | b; break;
    case XOR: x = a ^ b; break;
    case MUL: x = a * b; break;
    case SLT: x = (int64_t)a < (int64_t)b; break;
    case SLTU: x = a < b; break;
    case SLLI: x = a << i->n; break;
    case SRLI: x = a >> i->n; break;
    case SRAI: x = (uint64_t)((int64_t)a >> i->n); break;
    case ANDI: x = a & (uint64_t)i->n; break;
    case ADDI: x = a + (uint64_t)i->n; break;
    case LBU: x = *at(a + (uint64_t)i->n, 1); break;
    case LHU: { uint16_t v; memcpy(&v, at(a + (uint64_t)i->n, 2), 2); x = v; break; }
    case LW: { int32_t v; memcpy(&v, at(a + (uint64_t)i->n, 4), 4); x = (uint64_t)(int64_t)v; break; }
    case LD: memcpy(&x, at(a + (uint64_t)i->n, 8), 8); break;
    case SB: memcpy(at(a + (uint64_t)i->n, 1), &c->r[i->rd], 1); sets = 0; break;
    case SH: memcpy(at(a + (uint64_t)i->n, 2), &c->r[i->rd], 2); sets = 0; break;
    case SW: memcpy(at(a + (uint64_t)i->n, 4), &c->r[i->rd], 4); sets = 0; break;
    case SD: memcpy(at(a + (uint64_t)i->n, 8), &c->r[i->rd], 8); sets = 0; break;
    case AMOADD_W: {
        int32_t v; memcpy(&v, at(a, 4), 4);
        uint32_t w = (uint32_t)v + (uint32_t)b; memcpy(at(a, 4), &w, 4);
        x = (uint64_t)(int64_t)v; break;
    }
    case AMOADD_D: {
        memcpy(&x, at(a, 8), 8);
        uint64_t w = x + b; memcpy(at(a, 8), &w, 8); break;
    }
    case J: c->place = i->target; sets = 0; break;
    case BEQ: if (a == b) c->place = i->target; sets = 0; break;
    case BNE: if (a != b) c->place = i->target; sets = 0; break;
    case BLT: if ((int64_t)a < (int64_t)b) c->place = i->target; sets = 0; break;
    case BGE: if ((int64_t)a >= (int64_t)b) c->place = i->target; sets = 0; break;
    case BLTU: if (a < b) c->place = i->target; sets = 0; break;
    case BGEU: if (a >= b) c->place = i->target; sets = 0; break;
    case RET: case EBREAK: c->running = 0; sets = 0; break;
    default: sets = 0;
    }
    if (sets && i->rd) c->r[i->rd] = x;
}

int main(int argc, char **argv) {
    if (argc != 5) return 2;
    FILE *file = fopen(argv[1], "r");
    static char line[4096];
    while (file && fgets(line, sizeof line, file) && strcmp(line, "# end\n"))
        if (line[0] == '.' && line[1] == 'L') parse(strchr(line, ' ') + 1);
    int processors = atoi(argv[2]);
    long steps = atol(argv[3]);
    static struct cpu cpus[8];
    for (int p = 0; p < processors; p++) {
        cpus[p].r[2] = 0x1000000 + 0x20000 * (uint64_t)p + 0x1fff8;
        cpus[p].place = (uint32_t)atol(argv[4]);
        cpus[p].running = 1;
    }
    struct timespec begin, end;
    clock_gettime(CLOCK_MONOTONIC, &begin);
    for (long k = 0; k < steps; k++) step(&cpus[k % processors]);
    clock_gettime(CLOCK_MONOTONIC, &end);
    uint64_t x;
    memcpy(&x, globals, 8);
    printf("%.6f %llu\n", (double)(end.tv_sec - begin.tv_sec) + 1e-9 * (double)(end.tv_nsec - begin.tv_nsec), (unsigned long long)x);
    return 0;
}
