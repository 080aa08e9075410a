/* The low 128 bits of a product: clang asks its runtime library for it where a machine has no instruction, as WebAssembly has none. By halves of 32 bits. */
typedef unsigned long long half;
typedef unsigned __int128 whole;

whole __multi3(whole a, whole b) {
    half a_low = (half)a, a_high = (half)(a >> 64), b_low = (half)b, b_high = (half)(b >> 64), mask = 0xffffffff;
    half low = (a_low & mask) * (b_low & mask), left = (a_low >> 32) * (b_low & mask), right = (a_low & mask) * (b_low >> 32), high = (a_low >> 32) * (b_low >> 32);
    half middle = (low >> 32) + (left & mask) + (right & mask);
    half top = high + (left >> 32) + (right >> 32) + (middle >> 32) + a_low * b_high + a_high * b_low;
    return ((whole)top << 64) | (middle << 32) | (low & mask);
}
