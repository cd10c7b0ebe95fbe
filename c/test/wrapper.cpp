// The class of C++: what is fed comes out, what was moved from is empty, and a fault is thrown.
#include "ndf.hpp"

#include <cstdio>
#include <cstdlib>
#include <limits>
#include <new>
#include <type_traits>

static_assert(!std::is_copy_constructible_v<ndf::debouncer> && !std::is_copy_assignable_v<ndf::debouncer>);
static_assert(std::is_nothrow_move_constructible_v<ndf::debouncer>);

static void check(bool holds, const char *what) {
    if (holds) return;
    std::printf("wrapper: %s\n", what);
    std::exit(1);
}

// How many further requests C++ makes for memory are granted.
static std::size_t grants = std::numeric_limits<std::size_t>::max();

void *operator new(std::size_t size) {
    if (grants == 0) throw std::bad_alloc();
    grants--;
    if (void *at = std::malloc(size ? size : 1)) return at;
    throw std::bad_alloc();
}
void operator delete(void *at) noexcept { std::free(at); }
void operator delete(void *at, std::size_t) noexcept { std::free(at); }

// Calls until it isn't refused memory, first with none, and then with one request granted more each time.
template <class Call> static auto when_granted(Call call) {
    for (std::size_t many = 0;; many++) {
        try {
            grants = many;
            auto result = call();
            grants = std::numeric_limits<std::size_t>::max();
            check(many > 0, "a call that asks for no memory");
            return result;
        } catch (const std::bad_alloc &) {
        }
    }
}

// What was refused memory loses nothing.
static void refuse() {
    ndf::debouncer one(std::chrono::nanoseconds(0));
    std::string longer = "/w/" + std::string(2000, 'x');
    ndf_change change{NDF_CREATE_FILE, 1, false, false, true, 0, 1};
    one.feed(change, ndf_attributes{true, true, false, 0}, longer, "", longer, longer);
    one.add_error(NDF_ERROR_GENERIC, longer, longer);
    one.add_error(NDF_ERROR_GENERIC, "second", "/w");
    check(one.tick(2) == 1, "one event");
    auto event = when_granted([&] { return one.next(); });
    check(event && event->paths[0] == longer && event->info == longer && event->source == longer, "it is read");
    check(!one.next(), "it is read twice");
    auto errors = when_granted([&] { return one.errors(); });
    check(errors.size() == 2 && errors[0].path == longer && errors[1].text == "second", "the errors are read");
    check(one.errors().empty(), "they are read twice");
}

// What was moved from holds nothing, and a move asks for no memory.
static void move() {
    ndf::debouncer a(std::chrono::nanoseconds(0)), b(std::chrono::nanoseconds(0));
    b.feed(ndf_change{NDF_CREATE_FILE, 1, false, false, true, 0, 1}, "/w/a");
    grants = 0;
    ndf::debouncer c(std::move(a));
    c = std::move(b);
    grants = std::numeric_limits<std::size_t>::max();
    check(c.counts().waiting == 1, "what was moved waits");
    try {
        b.counts();
        check(false, "what was assigned from has a debouncer");
    } catch (const ndf::refused &refused) {
        check(refused.code == NDF_EMPTY, "the code of one that was assigned from");
    }
    try {
        ndf::debouncer negative(std::chrono::nanoseconds(-1));
        check(false, "a negative timeout");
    } catch (const std::invalid_argument &) {
    }
}

int main() {
    check(ndf_version() == NDF_VERSION, "the version");
    refuse();
    move();
    ndf::debouncer first(std::chrono::nanoseconds(50));
    first.watch("/w", true);
    check(first.is_recursive("/w/x") && !first.is_recursive("/v"), "the modes");
    first.unwatch("/w");

    ndf::debouncer second = std::move(first);
    try {
        first.watch("/w", true);
        check(false, "what was moved from has a debouncer");
    } catch (const ndf::refused &refused) {
        check(refused.code == NDF_EMPTY, "the code of an empty handle");
    }

    ndf_change change{NDF_DATA_ANY, 2, false, true, false, 7, 10};
    ndf_attributes attributes{true, true, true, 11};
    std::string info(2000, 'i');
    second.feed(change, attributes, "/w//a/", "/w/b", info, "source");
    second.feed(ndf_change{NDF_OTHER, 0, true, false, false, 0, 10});
    check(second.tick(59) == 0 && second.tick(60) == 2, "the counts of two ticks");
    auto rescan = second.next();
    check(rescan && rescan->rescan && rescan->paths.empty() && !rescan->tracker, "the rescan event");
    auto event = second.next();
    check(event && event->kind == NDF_DATA_ANY && event->time == 10, "the event");
    check(event->paths == std::vector<std::string>{"/w/a", "/w/b"}, "its paths");
    check(event->tracker == 7 && event->process == 11 && event->info == info && event->source == "source",
          "its attributes");
    check(!second.next(), "a third event");

    second.add_error(NDF_ERROR_GENERIC, "text", "/w");
    second.add_error(NDF_ERROR_PATH_NOT_FOUND, "");
    auto errors = second.errors();
    check(errors.size() == 2 && errors[0].text == "text" && errors[0].path == "/w" && !errors[1].path, "the errors");

    second.feed(ndf_change{NDF_CREATE_FILE, 1, false, false, true, 0, 70}, "/w/c");
    check(second.outlook() == 1 && second.next() && second.counts().waiting == 1, "the outlook");
    try {
        second.feed(ndf_change{NDF_CREATE_FILE, 1, false, false, true, 0, 70}, "/\xff");
        check(false, "a path that isn't UTF-8");
    } catch (const ndf::refused &refused) {
        check(refused.code == NDF_NOT_TEXT, "the code of a path that isn't UTF-8");
    }
    second.set_number("/w/d", 1, 7);
    second.feed(ndf_change{NDF_NAME_FROM, 1, false, false, false, 0, 80}, "/w/d");
    check(!second.number_of("/w/d").known, "a number that went with its path");
    second.set_number("/w/e", 1, 7);
    second.feed(ndf_change{NDF_NAME_TO, 1, false, false, true, 0, 81}, "/w/e");
    check(second.number_of("/w/e").inode == 7 && second.counts().numbers == 1, "a number that came with its path");
    check(second.tick(200) == 2 && second.next() && second.next()->kind == NDF_NAME_BOTH, "a rename joined by numbers");
    second.forget("/w");
    check(second.counts().numbers == 0, "numbers that are forgotten");
    second.keep_journal(true);
    std::string longer = "/w/" + std::string(2000, 'x');
    second.watch(longer, true);
    second.feed(ndf_change{NDF_CREATE_FILE, 1, false, false, true, 0, 90}, longer);
    second.add_error(NDF_ERROR_GENERIC, "text", "/w");
    check(second.tick(300) == 1 && second.next() && second.errors().size() == 1, "a batch and an error");
    auto journal = second.journal();
    check(journal.size() == 5 && journal[0].told.step == NDF_STEP_WATCH && journal[0].told.recursive &&
              journal[0].path == longer,
          "the entry of a path");
    check(journal[1].told.exists && journal[1].events.at(0).time == 90 && journal[1].events[0].paths[0] == longer,
          "the entry of an event");
    check(journal[2].errors.at(0).path == "/w" && journal[4].errors.at(0).text == "text", "the entries of errors");
    check(journal[3].told.moment == 300 && journal[3].events.at(0).paths[0] == longer, "the entry of a tick");
    second.keep_journal(false);
    check(second.journal().empty(), "a journal that isn't kept");
    second = ndf::debouncer(std::chrono::nanoseconds(0));
    check(second.counts().waiting == 0, "a debouncer that was moved in");
    return 0;
}
