/* A text that is to be a payload that is JSON. */
#ifndef HOST_PAYLOAD_JSON_H
#define HOST_PAYLOAD_JSON_H

/*
 * Whether the text is one JSON object, so that with the zero byte behind it it is a payload that
 * the library calls JSON. Returns 0, or has said where and why not.
 */
int check_payload_json(const char *text);

#endif
