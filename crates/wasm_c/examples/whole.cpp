// Lists the module on standard input, which is read whole first. A copy of the parser reads each part once more, and says the same.
#include "binary.h"
#include "show.h"
#include <cstring>
#include <iterator>
#include <iostream>
#include <vector>

static bool same(const pulleynavy_event &one, const pulleynavy_event &other) {
    return one.kind == other.kind && one.start == other.start && one.end == other.end && one.count == other.count &&
           one.fault.kind == other.fault.kind && one.consumed == other.consumed;
}

int main() {
    use_binary_streams();
    std::vector<char> chars{std::istreambuf_iterator<char>(std::cin), {}};
    std::vector<uint8_t> bytes(chars.begin(), chars.end());
    bytes.push_back(0); // so that there is a byte to point to
    const size_t size = bytes.size() - 1;
    pulleynavy_parser parser = pulleynavy_parser_init(0, PULLEYNAVY_ALL_FEATURES);
    for (size_t at = 0;;) {
        pulleynavy_parser copy = parser;
        pulleynavy_event event = pulleynavy_parse(&parser, bytes.data() + at, size - at, true);
        if (!same(event, pulleynavy_parse(&copy, bytes.data() + at, size - at, true))) return 4;
        show_event(&event);
        if (event.kind >= PULLEYNAVY_EVENT_END) return event.kind == PULLEYNAVY_EVENT_FAULT;
        at += event.consumed;
    }
}
