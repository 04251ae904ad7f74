/* SHA-256 and AES with its key, by mbedTLS and by OpenSSL as Debian packages them, without special instructions. OpenSSL's are turned off by
 * OPENSSL_ia32cap=0:0; what stays is its assembly for any x86-64. mbedTLS's SHA-256 is portable C; its AES asks mbedtls_aesni_has_support, which
 * answers no here: the package's own aesni.c is not linked. */
#define OPENSSL_SUPPRESS_DEPRECATED
#include <mbedtls/aes.h>
#include <mbedtls/sha256.h>
#include <openssl/aes.h>
#include <openssl/sha.h>
#include <stdlib.h>

int mbedtls_aesni_has_support(unsigned int what) { return (void)what, 0; }
int mbedtls_aesni_crypt_ecb(void) { abort(); }
int mbedtls_aesni_setkey_enc(void) { abort(); }
void mbedtls_aesni_inverse_key(void) { abort(); }
void mbedtls_aesni_gcm_mult(void) { abort(); }

void mbedtls_hash(const unsigned char *message, size_t n, unsigned char *answer) { mbedtls_sha256_ret(message, n, answer, 0); }
void openssl_hash(const unsigned char *message, size_t n, unsigned char *answer) { SHA256(message, n, answer); }

void mbedtls_block(int encrypt, const unsigned char *key, unsigned bits, const unsigned char *block, unsigned char *answer) {
    mbedtls_aes_context c;
    mbedtls_aes_init(&c);
    encrypt ? mbedtls_aes_setkey_enc(&c, key, bits) : mbedtls_aes_setkey_dec(&c, key, bits);
    mbedtls_aes_crypt_ecb(&c, encrypt ? MBEDTLS_AES_ENCRYPT : MBEDTLS_AES_DECRYPT, block, answer);
    mbedtls_aes_free(&c);
}

void openssl_block(int encrypt, const unsigned char *key, unsigned bits, const unsigned char *block, unsigned char *answer) {
    AES_KEY k;
    encrypt ? AES_set_encrypt_key(key, (int)bits, &k) : AES_set_decrypt_key(key, (int)bits, &k);
    encrypt ? AES_encrypt(block, answer, &k) : AES_decrypt(block, answer, &k);
}
