/* A shared object that has the library inside it, and exports this one function. */
#include <blotterfinch.h>

__attribute__((visibility("default"))) int shim_moved(const uint8_t *bytes, size_t length);

int shim_moved(const uint8_t *bytes, size_t length)
{
    blotterfinch_report r = blotterfinch_read(bytes, length);

    if (r.refusal != BLOTTERFINCH_ACCEPTED)
        return -r.refusal;
    return blotterfinch_mouse(bytes + r.start, BLOTTERFINCH_MOUSE_PAYLOAD).x;
}
