// The compression of SHA-256 and SHA-512 in plain C, as the standard writes it: the yardstick of
// bench/run, with the schedule worked out first (plain) and in the loop of the rounds (fused).
// `left` is the key with its zeros.
#include <stdint.h>
#include <string.h>

static const uint32_t K256[64] = {
    0x428a2f98, 0x71374491, 0xb5c0fbcf, 0xe9b5dba5, 0x3956c25b, 0x59f111f1, 0x923f82a4, 0xab1c5ed5,
    0xd807aa98, 0x12835b01, 0x243185be, 0x550c7dc3, 0x72be5d74, 0x80deb1fe, 0x9bdc06a7, 0xc19bf174,
    0xe49b69c1, 0xefbe4786, 0x0fc19dc6, 0x240ca1cc, 0x2de92c6f, 0x4a7484aa, 0x5cb0a9dc, 0x76f988da,
    0x983e5152, 0xa831c66d, 0xb00327c8, 0xbf597fc7, 0xc6e00bf3, 0xd5a79147, 0x06ca6351, 0x14292967,
    0x27b70a85, 0x2e1b2138, 0x4d2c6dfc, 0x53380d13, 0x650a7354, 0x766a0abb, 0x81c2c92e, 0x92722c85,
    0xa2bfe8a1, 0xa81a664b, 0xc24b8b70, 0xc76c51a3, 0xd192e819, 0xd6990624, 0xf40e3585, 0x106aa070,
    0x19a4c116, 0x1e376c08, 0x2748774c, 0x34b0bcb5, 0x391c0cb3, 0x4ed8aa4a, 0x5b9cca4f, 0x682e6ff3,
    0x748f82ee, 0x78a5636f, 0x84c87814, 0x8cc70208, 0x90befffa, 0xa4506ceb, 0xbef9a3f7, 0xc67178f2,
};

static const uint64_t K512[80] = {
    0x428a2f98d728ae22u, 0x7137449123ef65cdu, 0xb5c0fbcfec4d3b2fu, 0xe9b5dba58189dbbcu,
    0x3956c25bf348b538u, 0x59f111f1b605d019u, 0x923f82a4af194f9bu, 0xab1c5ed5da6d8118u,
    0xd807aa98a3030242u, 0x12835b0145706fbeu, 0x243185be4ee4b28cu, 0x550c7dc3d5ffb4e2u,
    0x72be5d74f27b896fu, 0x80deb1fe3b1696b1u, 0x9bdc06a725c71235u, 0xc19bf174cf692694u,
    0xe49b69c19ef14ad2u, 0xefbe4786384f25e3u, 0x0fc19dc68b8cd5b5u, 0x240ca1cc77ac9c65u,
    0x2de92c6f592b0275u, 0x4a7484aa6ea6e483u, 0x5cb0a9dcbd41fbd4u, 0x76f988da831153b5u,
    0x983e5152ee66dfabu, 0xa831c66d2db43210u, 0xb00327c898fb213fu, 0xbf597fc7beef0ee4u,
    0xc6e00bf33da88fc2u, 0xd5a79147930aa725u, 0x06ca6351e003826fu, 0x142929670a0e6e70u,
    0x27b70a8546d22ffcu, 0x2e1b21385c26c926u, 0x4d2c6dfc5ac42aedu, 0x53380d139d95b3dfu,
    0x650a73548baf63deu, 0x766a0abb3c77b2a8u, 0x81c2c92e47edaee6u, 0x92722c851482353bu,
    0xa2bfe8a14cf10364u, 0xa81a664bbc423001u, 0xc24b8b70d0f89791u, 0xc76c51a30654be30u,
    0xd192e819d6ef5218u, 0xd69906245565a910u, 0xf40e35855771202au, 0x106aa07032bbd1b8u,
    0x19a4c116b8d2d0c8u, 0x1e376c085141ab53u, 0x2748774cdf8eeb99u, 0x34b0bcb5e19b48a8u,
    0x391c0cb3c5c95a63u, 0x4ed8aa4ae3418acbu, 0x5b9cca4f7763e373u, 0x682e6ff3d6b2b8a3u,
    0x748f82ee5defb2fcu, 0x78a5636f43172f60u, 0x84c87814a1f0ab72u, 0x8cc702081a6439ecu,
    0x90befffa23631e28u, 0xa4506cebde82bde9u, 0xbef9a3f7b2c67915u, 0xc67178f2e372532bu,
    0xca273eceea26619cu, 0xd186b8c721c0c207u, 0xeada7dd6cde0eb1eu, 0xf57d4f7fee6ed178u,
    0x06f067aa72176fbau, 0x0a637dc5a2c898a6u, 0x113f9804bef90daeu, 0x1b710b35131c471bu,
    0x28db77f523047d84u, 0x32caab7b40c72493u, 0x3c9ebe0a15c9bebcu, 0x431d67c49c100d4cu,
    0x4cc5d4becb3e42b6u, 0x597f299cfc657e2au, 0x5fcb6fab3ad6faecu, 0x6c44198c4a475817u,
};

// TURN: one round. NEXT: the word of the schedule at t.
#define TURN(N, K, T)                                                                     \
    T t1 = h + (N##_r(e, B0_##N) ^ N##_r(e, B1_##N) ^ N##_r(e, B2_##N)) + ((e & f) ^ (~e & g)) + K[t] + w[t]; \
    T t2 = (N##_r(a, A0_##N) ^ N##_r(a, A1_##N) ^ N##_r(a, A2_##N)) + ((a & b) ^ (a & c) ^ (b & c)); \
    h = g; g = f; f = e; e = d + t1; d = c; c = b; b = a; a = t1 + t2;

#define NEXT(N, t)                                                                        \
    w[t] = (N##_r(w[(t) - 2], D0_##N) ^ N##_r(w[(t) - 2], D1_##N) ^ (w[(t) - 2] >> D2_##N)) + w[(t) - 7] \
         + (N##_r(w[(t) - 15], C0_##N) ^ N##_r(w[(t) - 15], C1_##N) ^ (w[(t) - 15] >> C2_##N)) + w[(t) - 16];

enum { A0_s256 = 2, A1_s256 = 13, A2_s256 = 22, B0_s256 = 6, B1_s256 = 11, B2_s256 = 25,
       C0_s256 = 7, C1_s256 = 18, C2_s256 = 3, D0_s256 = 17, D1_s256 = 19, D2_s256 = 10,
       A0_s512 = 28, A1_s512 = 34, A2_s512 = 39, B0_s512 = 14, B1_s512 = 18, B2_s512 = 41,
       C0_s512 = 1, C1_s512 = 8, C2_s512 = 7, D0_s512 = 19, D1_s512 = 61, D2_s512 = 6 };

#define SHA2(N, T, BYTES, ROUNDS, K)                                                      \
    static inline T N##_r(T x, int n) { return (x >> n) | (x << (8 * BYTES - n)); }        \
    static inline T N##_get(const uint8_t *p) {                                            \
        T x = 0;                                                                          \
        for (int i = 0; i < BYTES; i++) x = (x << 8) | p[i];                              \
        return x;                                                                         \
    }                                                                                     \
    static inline void N##_put(uint8_t *p, T x) {                                          \
        for (int i = 0; i < BYTES; i++) p[i] = (uint8_t)(x >> (8 * (BYTES - 1 - i)));      \
    }                                                                                     \
    static inline void N##_block(int fused, const uint8_t *start, const uint8_t *block, uint8_t *out) { \
        T w[ROUNDS], s[8];                                                                \
        for (int t = 0; t < 16; t++) w[t] = N##_get(block + BYTES * t);                    \
        for (int i = 0; i < 8; i++) s[i] = N##_get(start + BYTES * i);                     \
        T a = s[0], b = s[1], c = s[2], d = s[3], e = s[4], f = s[5], g = s[6], h = s[7];  \
        if (fused) {                                                                      \
            for (int t = 0; t < ROUNDS - 16; t++) { TURN(N, K, T) NEXT(N, t + 16) }        \
            for (int t = ROUNDS - 16; t < ROUNDS; t++) { TURN(N, K, T) }                   \
        } else {                                                                          \
            for (int t = 16; t < ROUNDS; t++) { NEXT(N, t) }                               \
            for (int t = 0; t < ROUNDS; t++) { TURN(N, K, T) }                             \
        }                                                                                 \
        T z[8] = {a + s[0], b + s[1], c + s[2], d + s[3], e + s[4], f + s[5], g + s[6], h + s[7]}; \
        for (int i = 0; i < 8; i++) N##_put(out + BYTES * i, z[i]);                        \
    }                                                                                     \
    static inline void N##_halves(int fused, const uint8_t *left, const uint8_t *h, const uint8_t *m, uint8_t *out) { \
        uint8_t block[BYTES * 16];                                                        \
        memcpy(block, left, BYTES * 8);                                                   \
        memcpy(block + BYTES * 8, m, BYTES * 8);                                          \
        N##_block(fused, h, block, out);                                                  \
    }                                                                                     \
    void plain_##N(const uint8_t *left, const uint8_t *h, const uint8_t *m, uint8_t *out) { \
        N##_halves(0, left, h, m, out);                                                   \
    }                                                                                     \
    void fused_##N(const uint8_t *left, const uint8_t *h, const uint8_t *m, uint8_t *out) { \
        N##_halves(1, left, h, m, out);                                                   \
    }

SHA2(s256, uint32_t, 4, 64, K256)
SHA2(s512, uint64_t, 8, 80, K512)
