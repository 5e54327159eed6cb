// The functions that compiled code calls by name on wasm64, where no C library and no libgcc is
// linked (CLAUDE.md, "A WebAssembly module"). __multi3 and the shifts may not multiply or
// shift 128 bits themselves: LLVM would call the same function, which would never end.

typedef unsigned long long u64;
typedef long long i64;
typedef unsigned __int128 u128;
typedef __int128 i128;

typedef union {
    u128 whole;
    struct {
        u64 low, high;
    };
} Halves;

// Each export calls __rattle_enter before its function, __rattle_leave after it, and __rattle_trap
// if the first returns 1, since a host can catch a trap and call again over half-written memory.
// in_call is a WebAssembly global: no store reaches it, and C cannot define one.
__asm__(".globaltype in_call, i32\nin_call:");

_Bool __rattle_enter(void) {
    int was;
    __asm__ volatile("global.get in_call\nlocal.set %0" : "=r"(was));
    __asm__ volatile("i32.const 1\nglobal.set in_call");
    return was;
}

void __rattle_leave(void) {
    __asm__ volatile("i32.const 0\nglobal.set in_call");
}

void __rattle_trap(void) {
    __builtin_trap();
}

// The low 128 bits of the product, for either sign.
u128 __multi3(u128 x, u128 y) {
    Halves a = {x}, b = {y}, product;
    u64 a0 = a.low & 0xffffffff, a1 = a.low >> 32, b0 = b.low & 0xffffffff, b1 = b.low >> 32;
    // A product of two 32-bit numbers and two more such numbers fit 64 bits.
    u64 first = a0 * b0;
    u64 second = a1 * b0 + (first >> 32);
    u64 third = a0 * b1 + (second & 0xffffffff);
    product.low = third << 32 | (first & 0xffffffff);
    product.high = a1 * b1 + (second >> 32) + (third >> 32) + a.low * b.high + a.high * b.low;
    return product.whole;
}

// LLVM calls these two only for a signed division of 128 bits by a constant power of two. Under
// -expand-div-rem-bits=64 it writes out the one in each body, which would otherwise call itself.

i128 __divti3(i128 x, i128 y) {
    return x / y;
}

i128 __modti3(i128 x, i128 y) {
    return x % y;
}

// The product, and whether it overflows, for LLVM's own reading of a test such as x * y / y != x.
i128 __muloti4(i128 x, i128 y, int *overflows) {
    u128 a = x < 0 ? -(u128)x : x, b = y < 0 ? -(u128)y : y;
    u128 most = (~(u128)0 >> 1) + ((x < 0) != (y < 0));
    *overflows = b != 0 && a > most / b;
    return (u128)x * y;
}

// In each shift n is from 0 to 127. A shift by 1 and then by 63 - n is one by 64 - n that is
// defined at n = 0.

u128 __ashlti3(u128 x, int n) {
    Halves a = {x}, shifted;
    if (n & 64) {
        shifted.low = 0;
        shifted.high = a.low << (n & 63);
    } else {
        shifted.low = a.low << (n & 63);
        shifted.high = a.high << (n & 63) | a.low >> 1 >> (63 - (n & 63));
    }
    return shifted.whole;
}

u128 __lshrti3(u128 x, int n) {
    Halves a = {x}, shifted;
    if (n & 64) {
        shifted.low = a.high >> (n & 63);
        shifted.high = 0;
    } else {
        shifted.low = a.low >> (n & 63) | a.high << 1 << (63 - (n & 63));
        shifted.high = a.high >> (n & 63);
    }
    return shifted.whole;
}

i128 __ashrti3(i128 x, int n) {
    Halves a = {x}, shifted;
    i64 high = a.high;
    if (n & 64) {
        shifted.low = high >> (n & 63);
        shifted.high = high >> 63;
    } else {
        shifted.low = a.low >> (n & 63) | a.high << 1 << (63 - (n & 63));
        shifted.high = high >> (n & 63);
    }
    return shifted.whole;
}

typedef union {
    double number;
    u64 bits;
} Double;

#define SIGN (1ULL << 63)
#define INFINITE (0x7ffULL << 52)
#define HIDDEN (1ULL << 52)

// C's fmod: x less the multiple of y that rounds the quotient toward zero, exactly, with x's sign.
double fmod(double x, double y) {
    Double a = {x}, b = {y}, result;
    u64 sign = a.bits & SIGN, p = a.bits & ~SIGN, q = b.bits & ~SIGN;
    if (p >= INFINITE || q > INFINITE || q == 0) {
        return __builtin_nan("");
    }
    if (p < q) {
        return x;
    }
    // A finite number is m * 2^(e - 1075), where a subnormal one has e = 1 and no hidden bit.
    int pe = p >> 52, qe = q >> 52;
    u64 pm = pe ? (p & (HIDDEN - 1)) | HIDDEN : p, qm = qe ? (q & (HIDDEN - 1)) | HIDDEN : q;
    pe += !pe;
    qe += !qe;
    // pm stays below 2^53, so 11 more bits fit.
    pm %= qm;
    while (pe > qe) {
        int step = pe - qe < 11 ? pe - qe : 11;
        pm = (pm << step) % qm;
        pe -= step;
    }
    if (pm == 0) {
        result.bits = sign;
        return result.number;
    }
    // Move the top bit to the hidden bit's place, or as far as the exponent goes down.
    int shift = __builtin_clzll(pm) - 11;
    shift = shift < qe - 1 ? shift : qe - 1;
    // The hidden bit, where it is set, adds 1 to the exponent's field.
    result.bits = sign | (((u64)(qe - 1 - shift) << 52) + (pm << shift));
    return result.number;
}

// The remainder of two floats is itself a float, so computing it in double loses nothing.
float fmodf(float x, float y) {
    return fmod(x, y);
}
