/* The same multiples by OpenSSL's generic C code; reads and prints as curve_vectors does, for speed.sh.
 * The group is built from explicit parameters, which gives EC_GFp_mont_method on both curves (by its name P-256 would be nistz256, assembly for
 * that one prime); EC_POINT_mul with the base scalar alone is then the ladder of ec_mult.c, every bit at the same cost.
 * With -DPORTABLE and libcrypto.a the library's Montgomery product in assembly is replaced by one that declines, as the library allows for:
 * it then multiplies and reduces in C, by words of 64 bits; only single word operations in that C (x86_64-gcc.c) are still inline instructions. */
#define OPENSSL_SUPPRESS_DEPRECATED
#include <openssl/ec.h>
#include <openssl/obj_mac.h>
#include <stdio.h>
#include <stdlib.h>

#ifdef PORTABLE
int bn_mul_mont(BN_ULONG *r, const BN_ULONG *a, const BN_ULONG *b, const BN_ULONG *m, const BN_ULONG *inv, int size) {
    return (void)r, (void)a, (void)b, (void)m, (void)inv, (void)size, 0;
}
#endif

static void need(int ok, const char *what) {
    if (!ok) fprintf(stderr, "%s failed\n", what), exit(1);
}

static EC_GROUP *generic(int name) {
    EC_GROUP *named = EC_GROUP_new_by_curve_name(name);
    BIGNUM *p = BN_new(), *a = BN_new(), *b = BN_new(), *x = BN_new(), *y = BN_new();
    need(named && EC_GROUP_get_curve(named, p, a, b, NULL), "the curve's name");
    need(EC_POINT_get_affine_coordinates(named, EC_GROUP_get0_generator(named), x, y, NULL), "the base point");
    EC_GROUP *group = EC_GROUP_new_curve_GFp(p, a, b, NULL);
    need(group && EC_GROUP_method_of(group) == EC_GFp_mont_method(), "the generic method");
    EC_POINT *base = EC_POINT_new(group);
    need(EC_POINT_set_affine_coordinates(group, base, x, y, NULL), "the base point");
    need(EC_GROUP_set_generator(group, base, EC_GROUP_get0_order(named), EC_GROUP_get0_cofactor(named)), "the generator");
    return group;
}

static const char DIGITS[] = "0123456789abcdef";

static void print(const char *label, const BIGNUM *number, int size) {
    unsigned char bytes[32];
    BN_bn2binpad(number, bytes, size);
    fputs(label, stdout);
    for (int i = 0; i < size; i++) putchar(DIGITS[bytes[i] >> 4]), putchar(DIGITS[bytes[i] & 15]);
    putchar('\n');
}

int main(void) {
    EC_GROUP *groups[2] = {generic(NID_secp160r1), generic(NID_X9_62_prime256v1)};
    BN_CTX *context = BN_CTX_new();
    BIGNUM *number = BN_new(), *r = BN_new(), *x = BN_new();
    char digit, hex[65];
    while (scanf(" %c %64s", &digit, hex) == 2) {
        EC_GROUP *group = groups[digit == '1'];
        EC_POINT *point = EC_POINT_new(group);
        need(BN_hex2bn(&number, hex) && BN_nnmod(r, number, EC_GROUP_get0_order(group), context), "the number");
        need(EC_POINT_mul(group, point, r, NULL, NULL, context), "EC_POINT_mul");
        if (EC_POINT_is_at_infinity(group, point)) BN_zero(x);
        else need(EC_POINT_get_affine_coordinates(group, point, x, NULL, context), "the x coordinate");
        print("r=", r, 32);
        print("x=", x, digit == '1' ? 32 : 20);
        EC_POINT_free(point);
    }
    return 0;
}
