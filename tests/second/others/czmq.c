/*
 * czmq's encode and decode of a message for the measurement. What they are given is made once and kept; what they
 * make is freed again, as whoever uses it has to.
 */
#include <czmq.h>

zframe_t *others_czmq_frame(const void *bytes, size_t len) {
    return zframe_new(bytes, len);
}

zmsg_t *others_czmq_message(zframe_t *frame) {
    return zmsg_decode(frame);
}

/* Tells the number of parts. */
size_t others_czmq_decode(zframe_t *frame) {
    zmsg_t *message = zmsg_decode(frame);
    size_t parts = message == NULL ? 0 : zmsg_size(message);
    zmsg_destroy(&message);
    return parts;
}

/* Tells the number of bytes. */
size_t others_czmq_encode(zmsg_t *message) {
    zframe_t *frame = zmsg_encode(message);
    size_t len = zframe_size(frame);
    zframe_destroy(&frame);
    return len;
}
