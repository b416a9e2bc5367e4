// The program that runs on the emulated board: reads calls, makes each of them, and writes them back with their answers. What the calls
// execute is counted from outside (bench/emulated.py).
typedef union {
    int whole;
    float real;
} number;

// Kind 1 is the whole step, 2 the f32 step, 0 comes after the last call.
typedef struct {
    unsigned kind;
    number given[11];
    unsigned refused;
    number foot[3];
} call;

unsigned hopper_leg_step(int, int, int, int, int, int, int, int, int *, int *, int *);
unsigned probe_leg_step(float, float, float, float, float, float, float, float, float, float, float, float *, float *, float *);

enum { EXIT = 1, READ = 3, WRITE = 4 };
static call calls[1 << 13];

__attribute__((noinline)) void make_calls(void) {
    for (call *c = calls; c->kind; c++) {
        number *n = c->given, *foot = c->foot;
        if (c->kind == 1)
            c->refused = hopper_leg_step(n[0].whole, n[1].whole, n[2].whole, n[3].whole, n[4].whole, n[5].whole, n[6].whole, n[7].whole,
                                         &foot[0].whole, &foot[1].whole, &foot[2].whole);
        else
            c->refused = probe_leg_step(n[0].real, n[1].real, n[2].real, n[3].real, n[4].real, n[5].real, n[6].real, n[7].real,
                                        n[8].real, n[9].real, n[10].real, &foot[0].real, &foot[1].real, &foot[2].real);
    }
}

static void request(int system, int a, void *b, int c) {
    register int r7 __asm__("r7") = system;
    register int r0 __asm__("r0") = a;
    register void *r1 __asm__("r1") = b;
    register int r2 __asm__("r2") = c;
    __asm__ volatile("svc #0" : "+r"(r0) : "r"(r7), "r"(r1), "r"(r2) : "memory");
}

void _start(void) {
    request(READ, 0, calls, sizeof calls);
    make_calls();
    request(WRITE, 1, calls, sizeof calls);
    request(EXIT, 0, 0, 0);
}
