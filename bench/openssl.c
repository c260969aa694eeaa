/* The ciphers of a sealed payload by OpenSSL, which uses what the processor has for them: AES-128 in counter mode and SHA-1. It is here to be measured, and
   is compiled where OpenSSL is installed. */
#include <openssl/evp.h>
#include <stdbool.h>
#include <stddef.h>
#include <stdint.h>

/* Enciphers or deciphers so many bytes. */
bool openssl_counter_mode(const uint8_t key[16], const uint8_t first[16], const uint8_t *from, size_t length, uint8_t *to)
{
    EVP_CIPHER_CTX *context = EVP_CIPHER_CTX_new();
    int written = 0;
    bool done = context != NULL && EVP_EncryptInit_ex(context, EVP_aes_128_ctr(), NULL, key, first) == 1 &&
                EVP_EncryptUpdate(context, to, &written, from, (int)length) == 1;

    EVP_CIPHER_CTX_free(context);
    return done && (size_t)written == length;
}

/* The digest of so many bytes. */
bool openssl_sha1(const uint8_t *bytes, size_t length, uint8_t digest[20])
{
    unsigned written = 0;

    return EVP_Digest(bytes, length, digest, &written, EVP_sha1(), NULL) == 1 && written == 20;
}
