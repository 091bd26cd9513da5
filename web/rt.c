/*
 * What clang asks of its run-time library for WebAssembly, and the kit has none of: a product of 128 bits.
 *
 * A number is split into halves of 64 bits, and these into parts of 32 bits, so that no product of two parts is too long.
 */
typedef unsigned long long half;
typedef unsigned __int128 whole;

static half low_part(half it) {
  return it & 0xffffffff;
}

static half high_part(half it) {
  return it >> 32;
}

/* The upper half of the product of two halves. */
static __attribute__((optnone, noinline)) half upper_half(half a, half b) {
  half low = low_part(a) * low_part(b);
  half middle = high_part(a) * low_part(b) + high_part(low);
  half other = low_part(a) * high_part(b) + low_part(middle);
  return high_part(a) * high_part(b) + high_part(middle) + high_part(other);
}

whole __multi3(whole a, whole b) {
  half a_low = (half)a, a_high = (half)(a >> 64);
  half b_low = (half)b, b_high = (half)(b >> 64);
  half high = upper_half(a_low, b_low) + a_low * b_high + a_high * b_low;
  return (whole)high << 64 | a_low * b_low;
}
