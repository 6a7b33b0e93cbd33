// Other unwinders, nanoseconds a frame: the walkers of libgcc, LLVM and nongnu, and throw and catch as g++ compiles them. Libraries
// are found when it runs; one that is not installed is left out. The stacks are real ones of this process: the function of each
// frame is one of 64 at random, and every fourth frame has a cleanup.
#include <dlfcn.h>
#include <unwind.h>

#include <algorithm>
#include <chrono>
#include <cstdint>
#include <cstdio>
#include <utility>
#include <vector>

// In other_code.s: leaves nothing of the other code in the processor's cache of instructions.
extern "C" void other_code();

namespace {

// Before a cold call so many bytes are touched, one in every line of the cache.
constexpr std::size_t TOUCHED = 96u << 20;
constexpr std::size_t LINE = 64;

// Cold: how many calls are timed; the median counts.
constexpr int CALLS = 41;

// Warm: how many rounds are timed, and the stacks of a round; the least round counts.
constexpr int ROUNDS = 400;
constexpr int STACKS = 8;

// Real stacks.

using Function = long (*)(int left, int place, long a, long b, long c, long d);

constexpr int FUNCTIONS = 64;
constexpr int PLACES = 1 << 16;

// The function of the frame at each place. A stack takes places in a row, its outermost frame the first of them.
Function functions[PLACES];

// What the innermost frame calls.
void (*innermost)();

volatile long sink;

struct Cleanup {
    long value;
    ~Cleanup() { sink = sink + value; }
};

// Calls the function of the next frame, where frames are left. Part of each function, so that it has no frame of its own.
[[gnu::always_inline]] inline long go_on(int left, int place, long a, long b, long c, long d) {
    if (left == 0) {
        innermost();
        return a;
    }
    return functions[place % PLACES](left - 1, place + 1, a, b, c, d);
}

// The arguments are used after the call too, so registers are saved for them.
template <int I>
[[gnu::noinline]] long plain(int left, int place, long a, long b, long c, long d) {
    long answer = go_on(left, place, a + I, b ^ I, c - I, d + I);
    return answer + a * b + c * d + left + I;
}

template <int I>
[[gnu::noinline]] long cleaned(int left, int place, long a, long b, long c, long d) {
    Cleanup cleanup{a + I};
    long answer = go_on(left, place, a + I, b ^ I, c - I, d + I);
    return answer + a * b + c * d + left + I;
}

template <int... I>
void pick_functions(std::integer_sequence<int, I...>) {
    const Function without[] = {plain<I>...}, with[] = {cleaned<I>...};
    std::uint64_t seed = 0x6d6f'7274'6877'7967;
    for (int place = 0; place < PLACES; place++) {
        seed = seed * 0x5851'f42d'4c95'7f2d + 1;
        functions[place] = (place % 4 == 1 ? with : without)[(seed >> 33) % FUNCTIONS];
    }
}

// The timing. The innermost frame begins it; a throw ends it in the frame that catches.

using Clock = std::chrono::steady_clock;

bool is_cold;
Clock::time_point started;
double nanoseconds;

// How many frames were walked, and all of them in short.
int frames_told;
std::uintptr_t told;

void touch() {
    static std::vector<unsigned char> memory(TOUCHED);
    for (std::size_t at = 0; at < TOUCHED; at += LINE) memory[at]++;
    other_code();
}

void begin() {
    if (is_cold) touch();
    frames_told = 0;
    started = Clock::now();
}

void end() {
    nanoseconds = std::chrono::duration<double, std::nano>(Clock::now() - started).count();
    sink = told;
}

void tell(std::uintptr_t pc, std::uintptr_t sp) {
    told = (told << 7 | told >> 57) ^ pc ^ sp;
    frames_told++;
}

// The nanoseconds a frame of one unwinding; the walkers count the few frames outside too.
[[gnu::noinline]] double once(int frames, int stack) {
    try {
        sink = go_on(frames, 4 * stack * frames, 1, 2, 3, 4);
    } catch (int) {
        end();
        frames_told = frames;
    }
    return nanoseconds / frames_told;
}

double warm(int frames) {
    is_cold = false;
    double least = 1e18;
    for (int round = 0; round < ROUNDS; round++) {
        double sum = 0;
        for (int k = 0; k < STACKS; k++) sum += once(frames, round * STACKS + k);
        least = std::min(least, sum / STACKS);
    }
    return least;
}

// The processor's caches are cold; what a library has stored for its next call is there.
double cold(int frames) {
    is_cold = true;
    std::vector<double> times;
    for (int k = 0; k < CALLS; k++) times.push_back(once(frames, k));
    std::sort(times.begin(), times.end());
    return times[CALLS / 2];
}

// The ways to unwind, each the call of an innermost frame.

decltype(&_Unwind_Backtrace) backtrace;
decltype(&_Unwind_GetIP) pc_of;
decltype(&_Unwind_GetCFA) sp_of;

_Unwind_Reason_Code tell_frame(_Unwind_Context *context, void *) {
    tell(pc_of(context), sp_of(context));
    return _URC_NO_REASON;
}

void by_backtrace() {
    begin();
    backtrace(tell_frame, nullptr);
    end();
}

// nongnu's functions, with room enough for its structs, and its numbers of two registers.
int (*get_context)(void *context);
int (*init_local)(void *cursor, void *context);
int (*step)(void *cursor);
int (*get_reg)(void *cursor, int reg, std::uintptr_t *value);
constexpr std::size_t ROOM = 8192;
constexpr int SP = 7;
constexpr int PC = 16;

void by_step() {
    alignas(64) unsigned char context[ROOM], cursor[ROOM];
    begin();
    get_context(context);
    init_local(cursor, context);
    do {
        std::uintptr_t pc = 0, sp = 0;
        get_reg(cursor, PC, &pc);
        get_reg(cursor, SP, &sp);
        tell(pc, sp);
    } while (step(cursor) > 0);
    end();
}

void by_throw() {
    begin();
    throw 1;
}

// Libraries, and the lines.

// A library's own functions come before those of the same name in others.
void *library(const char *file) {
    return dlopen(file, RTLD_NOW | RTLD_LOCAL | RTLD_DEEPBIND);
}

template <class T>
bool find(void *library, const char *name, T &function) {
    function = reinterpret_cast<T>(library ? dlsym(library, name) : nullptr);
    return function;
}

bool find_backtrace(const char *file) {
    void *from = library(file);
    return find(from, "_Unwind_Backtrace", backtrace) && find(from, "_Unwind_GetIP", pc_of) &&
           find(from, "_Unwind_GetCFA", sp_of);
}

bool find_step(const char *file) {
    void *from = library(file);
    return find(from, "_Ux86_64_getcontext", get_context) && find(from, "_ULx86_64_init_local", init_local) &&
           find(from, "_ULx86_64_step", step) && find(from, "_ULx86_64_get_reg", get_reg);
}

void head() {
    std::printf("Other unwinders. Not like for like: they unwind the real stack of the process by DWARF tables, ours a stack\n"
                "that is lent, by EKO tables.\n");
    std::printf("%-46s %20s %20s %20s\n", "nanoseconds a frame", "warm, 100 frames", "cold, 10 frames", "cold, 100 frames");
}

void line(const char *name, bool found, void (*way)()) {
    if (!found) {
        std::printf("%-46s left out: not installed\n", name);
        return;
    }
    innermost = way;
    once(100, 0);
    if (frames_told < 100) {
        std::printf("%-46s left out: it ends after %d frames of 100\n", name, frames_told);
        return;
    }
    double times[] = {warm(100), cold(10), cold(100)};
    std::printf("%-46s %17.1f ns %17.1f ns %17.1f ns\n", name, times[0], times[1], times[2]);
}

}  // namespace

int main() {
    pick_functions(std::make_integer_sequence<int, FUNCTIONS>());
    head();
    line("libgcc, _Unwind_Backtrace", find_backtrace("libgcc_s.so.1"), by_backtrace);
    line("LLVM, _Unwind_Backtrace", find_backtrace("libunwind.so.1"), by_backtrace);
    line("nongnu, unw_step", find_step("libunwind.so.8"), by_step);
    line("g++, throw and catch", true, by_throw);
}
