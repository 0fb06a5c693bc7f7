// simdjson on demand: goes through the record's brackets, and reads only what is asked for. A value
// that is not entered is skipped by its brackets and not checked.
#include "common.hpp"

#include <cstring>
#include <simdjson.h>

using namespace simdjson;

// Whether an escape stands in a name that begins here.
static bool has_escape(const char *written)
{
    return written[std::strcspn(written, "\"\\")] == '\\';
}

static size_t below(const Query &query, ondemand::array array, uint32_t marks);
static size_t below(const Query &query, ondemand::object object, uint32_t marks);

static size_t inside(const Query &query, ondemand::value value, uint32_t marks)
{
    switch (value.type()) {
    case ondemand::json_type::array:
        return below(query, value.get_array(), marks);
    case ondemand::json_type::object:
        return below(query, value.get_object(), marks);
    default:
        return 0;
    }
}

static size_t below(const Query &query, ondemand::array array, uint32_t marks)
{
    size_t nodes = 0, position = 0;
    for (ondemand::value child : array) {
        uint32_t taking = query.taking_element(marks, position), next = query.next(marks, taking);
        position += 1;
        nodes += query.picked(taking) + (next != 0 ? inside(query, child, next) : 0);
    }
    return nodes;
}

static size_t below(const Query &query, ondemand::object object, uint32_t marks)
{
    size_t nodes = 0;
    for (ondemand::field member : object) {
        ondemand::raw_json_string key = member.key();
        bool escaped = has_escape(key.raw());
        std::string_view decoded;
        if (escaped) {
            decoded = member.unescaped_key();
        }
        uint32_t taking = query.taking_member(marks, [&](std::string_view name) {
            return escaped ? decoded == name : key == name;
        });
        uint32_t next = query.next(marks, taking);
        nodes += query.picked(taking) + (next != 0 ? inside(query, member.value(), next) : 0);
    }
    return nodes;
}

int main(int argc, char **argv)
{
    padded_string record;
    ondemand::parser parser;
    return measure(
        argc, argv, [&](std::string text) { record = padded_string(text); },
        [&](const Query &query) -> size_t {
            try {
                ondemand::document root = parser.iterate(record);
                bool is_array = root.type() == ondemand::json_type::array;
                if (query.all == 0) {
                    return 1;
                }
                return is_array ? below(query, ondemand::array(root.get_array()), 1)
                                : below(query, ondemand::object(root.get_object()), 1);
            } catch (const simdjson_error &error) {
                fail(error.what());
            }
        });
}
