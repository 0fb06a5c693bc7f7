// RapidJSON's SAX reader with encoding validation: every value is an event, nothing is built.
#include "common.hpp"

#include <rapidjson/error/en.h>
#include <rapidjson/reader.h>

#ifdef NUMBERS_AS_TEXT
constexpr unsigned flags =
    rapidjson::kParseValidateEncodingFlag | rapidjson::kParseNumbersAsStringsFlag;
#else
constexpr unsigned flags = rapidjson::kParseValidateEncodingFlag;
#endif

// Counts by the marks of the containers that are open.
struct Counter {
    const Query &query;
    size_t nodes = 0;
    uint32_t marks = 0;  // of the innermost container
    uint32_t taking = 0; // the steps that take the next value
    bool in_object = false;
    size_t elements = 0; // of the innermost array, so far
    struct Outer {
        uint32_t marks;
        bool in_object;
        size_t elements;
    };
    std::vector<Outer> outer;

    explicit Counter(const Query &steps) : query(steps) { outer.reserve(512); }

    void take()
    {
        if (!in_object) {
            taking = query.taking_element(marks, elements);
            elements += 1;
        }
        nodes += query.picked(taking);
    }

    bool scalar()
    {
        if (marks != 0) {
            take();
        }
        return true;
    }

    bool open(bool object)
    {
        uint32_t inner = outer.empty() ? query.all & 1 : 0;
        if (marks != 0) {
            take();
            inner = query.next(marks, taking);
        }
        outer.push_back({marks, in_object, elements});
        marks = inner;
        in_object = object;
        elements = 0;
        return true;
    }

    bool close()
    {
        marks = outer.back().marks;
        in_object = outer.back().in_object;
        elements = outer.back().elements;
        outer.pop_back();
        return true;
    }

    bool Null() { return scalar(); }
    bool Bool(bool) { return scalar(); }
    bool Int(int) { return scalar(); }
    bool Uint(unsigned) { return scalar(); }
    bool Int64(int64_t) { return scalar(); }
    bool Uint64(uint64_t) { return scalar(); }
    bool Double(double) { return scalar(); }
    bool RawNumber(const char *, rapidjson::SizeType, bool) { return scalar(); }
    bool String(const char *, rapidjson::SizeType, bool) { return scalar(); }
    bool StartObject() { return open(true); }
    bool StartArray() { return open(false); }
    bool EndObject(rapidjson::SizeType) { return close(); }
    bool EndArray(rapidjson::SizeType) { return close(); }

    bool Key(const char *name, rapidjson::SizeType length, bool)
    {
        if (marks != 0) {
            std::string_view key(name, length);
            taking = query.taking_member(marks, [&](std::string_view other) { return key == other; });
        }
        return true;
    }
};

int main(int argc, char **argv)
{
    std::string record;
    rapidjson::Reader reader;
    return measure(
        argc, argv, [&](std::string text) { record = std::move(text); },
        [&](const Query &query) {
            Counter counter(query);
            rapidjson::StringStream stream(record.c_str());
            if (!reader.Parse<flags>(stream, counter)) {
                fail(rapidjson::GetParseError_En(reader.GetParseErrorCode()));
            }
            return query.all == 0 ? 1 : counter.nodes;
        });
}
