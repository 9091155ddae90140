/* The product of two numbers of 64 bits for a Cortex-M0, which multiplies 32 bits. A compiler calls this function by this
   name. That of GCC's own library jumps where a carry comes about, so that its time depends on the numbers; here there is
   no jump: each number is cut into pieces of 16 bits, of which no sum of products is too large for 32 bits. */
#include <stdint.h>

uint64_t __aeabi_lmul(uint64_t left, uint64_t right);

uint64_t __aeabi_lmul(uint64_t left, uint64_t right)
{
    uint32_t a = (uint32_t)left, b = (uint32_t)right;
    uint32_t a0 = a & 0xffff, a1 = a >> 16, b0 = b & 0xffff, b1 = b >> 16;
    uint32_t low = a0 * b0, first = a0 * b1, second = a1 * b0;
    uint32_t middle = (low >> 16) + (first & 0xffff) + (second & 0xffff);
    uint32_t high = a1 * b1 + (first >> 16) + (second >> 16) + (middle >> 16)
        + a * (uint32_t)(right >> 32) + (uint32_t)(left >> 32) * b;
    return (uint64_t)high << 32 | (middle << 16 | (low & 0xffff));
}
