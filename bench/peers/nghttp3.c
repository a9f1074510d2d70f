/* Reads varints end to end with nghttp3's own functions, as its stream reader does: the size first, then the number. They
 * are no part of its public header, but of its archive. */
#include <stddef.h>
#include <stdint.h>

size_t nghttp3_get_varintlen(const uint8_t *p);
int64_t nghttp3_get_varint(size_t *plen, const uint8_t *p);

uint64_t nghttp3_peer_sum(const uint8_t *bytes, size_t length) {
    uint64_t sum = 0;
    while (length > 0) {
        size_t size = nghttp3_get_varintlen(bytes);
        if (length < size) {
            break;
        }
        sum += (uint64_t)nghttp3_get_varint(&size, bytes);
        bytes += size;
        length -= size;
    }
    return sum;
}
