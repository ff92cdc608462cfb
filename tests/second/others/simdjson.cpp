// simdjson's parse for the measurement. Its parser is kept from call to call, as its authors advise.
#include <simdjson.h>

// A payload has no room behind it that may be read, so the copy to padded memory is a part of the call.
extern "C" int others_simdjson_parse(const char *bytes, size_t len) {
    static simdjson::dom::parser parser;
    simdjson::dom::element value;
    return parser.parse(bytes, len, true).get(value) == simdjson::SUCCESS;
}
