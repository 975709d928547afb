// A small store, a file that is saved whole, and its test.
#include <fcntl.h>

#include <sstream>

#include "crash_states.hpp"

namespace {

void expect(bool holds, const char *text) {
    if (!holds) throw std::runtime_error(text);
}

void sync_file(const crash_states::Path &path) {
    const int file = open(path.c_str(), O_RDONLY);
    expect(file >= 0 && fsync(file) == 0 && close(file) == 0, "cannot sync");
}

// Replaces the file's content. sync says whether it waits until both the content and the name are
// on the disk.
void save(const crash_states::Path &directory, const std::string &content, bool sync) {
    const auto saved = directory / "config.new";
    std::ofstream(saved) << content;
    if (sync) sync_file(saved);
    std::filesystem::rename(saved, directory / "config");
    if (sync) sync_file(directory);
}

void session(const crash_states::Path &directory, const crash_states::Acknowledge &acknowledge) {
    // With EXAMPLE_BUG the test fails.
    const bool sync = std::getenv("EXAMPLE_BUG") == nullptr;
    for (const char *version : {"version 1", "version 2"}) {
        save(directory, version, sync);
        acknowledge(version);
    }
}

void recovery(const crash_states::Path &directory, const std::vector<std::string> &acknowledged) {
    std::ifstream file(directory / "config");
    const std::string content{std::istreambuf_iterator<char>(file), {}};
    const std::string last = acknowledged.empty() ? "" : acknowledged.back();
    expect(!file.is_open() || content == "version 1" || content == "version 2",
           "corrupt: the configuration is no version");
    expect(content >= last, "lost: a version that was saved is not there");
}

}  // namespace

TEST(Report, EachFailingTestIsAnEntry) {
    std::istringstream report(
        "TAP version 13\n1..4\nnot ok 1 - lost: \\#1\n# lost: #1\n#   line 5\n"
        "ok 2 - old # SKIP why\nnot ok 3 - odd\n# odd\nok 4 - all other states (7)\n");
    const std::vector<std::string> entries = {"lost: #1\n  line 5\n", "odd\n"};
    EXPECT_EQ(crash_states::detail::entries_of(report), entries);
}

TEST(Report, AnotherVersionIsRefused) {
    for (const char *text : {"", "TAP version 14\n1..1\nok 1 - all other states (7)\n"}) {
        std::istringstream report(text);
        EXPECT_ANY_THROW(crash_states::detail::entries_of(report)) << text;
    }
}

TEST(Store, EveryCrashState) {
    std::vector<std::string> options;
    if (const char *known = std::getenv("EXAMPLE_ACCEPT")) options = {"--accept", known};
    crash_states::check(session, recovery, options);
}
