// simdjson's tree: the whole record is checked and built, then the nodes are counted in the tree.
#include "common.hpp"

#include <simdjson.h>

using namespace simdjson;

static size_t below(const Query &query, dom::element value, uint32_t marks)
{
    size_t nodes = 0;
    if (value.is_array()) {
        size_t position = 0;
        for (dom::element child : dom::array(value)) {
            uint32_t taking = query.taking_element(marks, position);
            uint32_t next = query.next(marks, taking);
            position += 1;
            nodes += query.picked(taking) + (next != 0 ? below(query, child, next) : 0);
        }
    } else if (value.is_object()) {
        for (dom::key_value_pair member : dom::object(value)) {
            uint32_t taking = query.taking_member(
                marks, [&](std::string_view name) { return member.key == name; });
            uint32_t next = query.next(marks, taking);
            nodes += query.picked(taking) + (next != 0 ? below(query, member.value, next) : 0);
        }
    }
    return nodes;
}

int main(int argc, char **argv)
{
    padded_string record;
    dom::parser parser;
    return measure(
        argc, argv, [&](std::string text) { record = padded_string(text); },
        [&](const Query &query) -> size_t {
            dom::element root;
            if (error_code error = parser.parse(record).get(root)) {
                fail(error_message(error));
            }
            return query.all == 0 ? 1 : below(query, root, 1);
        });
}
