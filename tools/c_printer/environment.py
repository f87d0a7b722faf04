"""The floating-point environment of the printed C: what sets it, and the exported call around each body that works with doubles."""
from . import fold

PRELUDE = """// ==== the floating-point environment
//
// A call that works with doubles does so in the environment that its answers are proved for: rounding to nearest,
// subnormals kept, no exception trapped. It gives the caller's environment back with the caller's flags. Such a call
// is two functions: NAME_body works, and NAME sets the environment around it. A call without such work is one.
// DIHKELU_TRUST_ENVIRONMENT leaves all of this out; the caller then owes the environment.
//
// Compilers take operations on doubles for independent of the environment, and may move them, or a call of a function
// that they have looked into, to where it is another. They know nothing of what a volatile pointer points to: such a
// call stays between the two changes.
#if defined(DIHKELU_TRUST_ENVIRONMENT) || defined(__wasm__)
#define LOOKED_UP
typedef int environment;

static inline environment environment_enter(void) {
    return 0;
}

static inline void environment_leave(environment caller) {
    (void)caller;
}
#elif defined(__GNUC__) && defined(__SSE2__)
#define LOOKED_UP volatile
typedef uint32_t environment; // MXCSR

static inline environment environment_enter(void) {
    static const environment proved = 0x1F80;
    environment caller;
    __asm__ volatile("stmxcsr %0" : "=m"(caller) : : "memory");
    __asm__ volatile("ldmxcsr %0" : : "m"(proved) : "memory");
    return caller;
}

static inline void environment_leave(environment caller) {
    __asm__ volatile("ldmxcsr %0" : : "m"(caller) : "memory");
}
#elif defined(__GNUC__) && defined(__aarch64__)
#define LOOKED_UP volatile
typedef struct {
    uint64_t control; // FPCR; 0 is what the answers are proved for
    uint64_t flags;   // FPSR
} environment;

static inline void environment_control(uint64_t control) {
    __asm__ volatile("msr fpcr, %0" : : "r"(control) : "memory");
}

static inline environment environment_enter(void) {
    environment caller;
    __asm__ volatile("mrs %0, fpcr" : "=r"(caller.control) : : "memory");
    __asm__ volatile("mrs %0, fpsr" : "=r"(caller.flags) : : "memory");
    if (caller.control != 0) { // the register is slow to write
        environment_control(0);
    }
    return caller;
}

static inline void environment_leave(environment caller) {
    if (caller.control != 0) {
        environment_control(caller.control);
    }
    __asm__ volatile("msr fpsr, %0" : : "r"(caller.flags) : "memory");
}
#else
#include <fenv.h>
#define LOOKED_UP volatile
typedef fenv_t environment;

static inline environment environment_enter(void) {
    environment caller;
    fegetenv(&caller);
    fesetenv(FE_DFL_ENV);
    return caller;
}

static inline void environment_leave(environment caller) {
    fesetenv(&caller);
}
#endif

"""

MOVES = {"floatToBits", "floatFromBits"}  # which change no bit in any environment


def works(e):
    """Whether an expression has an operation on doubles."""
    own = e[0] in ("un", "bin") and e[1] not in MOVES and (e[1].startswith("float") or e[1] == "intToFloat")
    return own or any(works(p) for p in fold.parts(e))


def list_works(statements):
    return any(any(works(h) for h in fold.heads(s)) or any(list_works(inner) for inner in fold.lists(s)) for s in statements)


def working(functions, called):
    """The functions that reach an operation on doubles, of functions that stand after those that they call."""
    found = set()
    for name, f in functions.items():
        if list_works(f.body) or found.intersection(called(f.body)):
            found.add(name)
    return found


def around(kind, name, parameters):
    """The lines of an exported call around its body; a parameter is its type and its name."""
    types = ", ".join(t for t, _ in parameters) or "void"
    return [
        f"    {kind} (*LOOKED_UP body)({types}) = {name}_body;",
        "    environment caller = environment_enter();",
        f"    {kind} returned = body({', '.join(n for _, n in parameters)});",
        "    environment_leave(caller);",
        "    return returned;",
    ]
