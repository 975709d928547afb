// Runs a store's recovery in the crash states of a session, as a test of GoogleTest.
//
//     TEST(Store, EveryCrashState) { crash_states::check(session, recovery); }
//
// The commands crashfs-record and crashfs-check must be on PATH, or in the directory that the
// variable CRASHFS_TOOLS names. They start the test's own executable again, as the session and as
// the recovery. C++17, Linux.
#pragma once

#include <gtest/gtest.h>
#include <spawn.h>
#include <sys/wait.h>
#include <unistd.h>

#include <algorithm>
#include <cstdlib>
#include <cstring>
#include <filesystem>
#include <fstream>
#include <functional>
#include <iostream>
#include <iterator>
#include <optional>
#include <set>
#include <stdexcept>
#include <string>
#include <vector>

namespace crash_states {

namespace fs = std::filesystem;
using Path = fs::path;
using Acknowledge = std::function<void(const std::string &)>;

// Changes the store in a directory. It calls its second argument when it would tell its user that
// something is stored. It throws if it fails.
using Session = std::function<void(const Path &, const Acknowledge &)>;

// Opens what a crash left in a directory, and compares it with the acknowledged lines. If something
// is missing or wrong, it throws a std::exception whose text says what, or fails an assertion of
// GoogleTest. Reports count failures by the part of the text before a colon.
using Recovery = std::function<void(const Path &, const std::vector<std::string> &)>;

namespace detail {

using Words = std::vector<std::string>;

// The process that the variable names is the session or the recovery.
inline const std::string kRole = "CRASH_STATES_ROLE";
// Acknowledged lines are written to this descriptor: GoogleTest writes to standard output.
inline constexpr int kSays = 3;
inline constexpr const char *kWithSays = "exec \"$@\" 3>/dev/null";
inline constexpr const char *kWithOutput = "exec \"$@\" >\"$0\" 2>&1";

inline void acknowledge(const std::string &line) {
    const std::string text = line + "\n";
    if (write(kSays, text.data(), text.size()) != static_cast<ssize_t>(text.size()))
        throw std::runtime_error("cannot acknowledge a line");
}

inline Words lines_of(std::istream &input) {
    Words lines;
    for (std::string line; std::getline(input, line);) lines.push_back(line);
    return lines;
}

// The text of the first assertion that failed in this process, if one did.
inline std::optional<std::string> failed_assertion() {
    const auto *result = testing::UnitTest::GetInstance()->current_test_info()->result();
    for (int part = 0; part < result->total_part_count(); ++part)
        if (result->GetTestPartResult(part).failed())
            return result->GetTestPartResult(part).message();
    return std::nullopt;
}

// Runs a part of the test and ends the process. The last line that it prints is the cause of a
// failure.
[[noreturn]] inline void run_and_exit(const std::function<void()> &part) {
    std::optional<std::string> cause;
    try {
        part();
        cause = failed_assertion();
    } catch (const std::exception &error) {
        cause = error.what();
    }
    if (!cause) std::_Exit(EXIT_SUCCESS);
    std::replace(cause->begin(), cause->end(), '\n', ' ');
    std::cout << "\n" << *cause << std::endl;
    std::_Exit(EXIT_FAILURE);
}

inline std::string tool(const std::string &name) {
    const char *tools = std::getenv("CRASHFS_TOOLS");
    return tools == nullptr ? name : (Path(tools) / name).string();
}

// Runs a command, and returns its status; -1 if it didn't exit.
inline int status_of(const Words &words) {
    std::vector<char *> arguments;
    for (const std::string &word : words) arguments.push_back(const_cast<char *>(word.c_str()));
    arguments.push_back(nullptr);
    pid_t child = 0;
    const int fault =
        posix_spawnp(&child, arguments[0], nullptr, nullptr, arguments.data(), environ);
    if (fault != 0) throw std::runtime_error(words[0] + ": " + std::strerror(fault));
    int status = 0;
    if (waitpid(child, &status, 0) != child) throw std::runtime_error("cannot wait");
    return WIFEXITED(status) ? WEXITSTATUS(status) : -1;
}

// Runs a command of crashfs whose COMMAND has a role. Throws what it prints if its status isn't one
// of those that are wanted.
inline void run(const std::string &role, const Words &words, const Path &output,
                const std::set<int> &wanted) {
    Words all = {"sh", "-c", kWithOutput, output, "env", kRole + "=" + role};
    // Of a suite that runs in shards, only one shard has the test.
    all.insert(all.end(), {"GTEST_TOTAL_SHARDS=1", "GTEST_SHARD_INDEX=0"});
    all.insert(all.end(), words.begin(), words.end());
    const int status = status_of(all);
    if (wanted.count(status) != 0) return;
    std::ifstream file(output);
    const std::string printed{std::istreambuf_iterator<char>(file), {}};
    throw std::runtime_error(words[0] + ": status " + std::to_string(status) + "\n" + printed +
                             (status == 127 ? "set CRASHFS_TOOLS to its directory" : ""));
}

// The entries that fail in a report of crashfs-check --tap. The lines of each come after a line
// `not ok`, and begin with `# `.
inline Words entries_of(std::istream &report) {
    const Words lines = lines_of(report);
    if (lines.empty() || lines[0] != "TAP version 13")
        throw std::runtime_error("a report of another version");
    Words entries;
    for (const std::string &line : lines) {
        if (line.rfind("not ok ", 0) == 0)
            entries.emplace_back();
        else if (line.rfind("# ", 0) == 0 && !entries.empty())
            entries.back() += line.substr(2) + "\n";
    }
    return entries;
}

// Records and checks in this new directory. Returns the text of each entry that fails.
inline Words failing_entries(const Path &room, const std::string &test, const Words &options) {
    const Path store = room / "store", report = room / "report.tap";
    const std::string trace = room / "session.trace";
    fs::create_directory(store);
    const Words this_test = {fs::read_symlink("/proc/self/exe"), "--gtest_filter=" + test,
                             "--gtest_also_run_disabled_tests", "--gtest_output="};
    Words record = {tool("crashfs-record"), "--say-fd", std::to_string(kSays), store, trace};
    record.insert(record.end(), {"--", "sh", "-c", kWithSays, "sh"});
    record.insert(record.end(), this_test.begin(), this_test.end());
    // With status 4 the trace lacks only what can't make a state good or bad.
    run("session", record, room / "record.output", {0, 4});
    Words check = {tool("crashfs-check"), "--tap", report};
    check.insert(check.end(), options.begin(), options.end());
    check.insert(check.end(), {trace, "--"});
    check.insert(check.end(), this_test.begin(), this_test.end());
    run("recovery", check, room / "check.output", {0, 1});
    std::ifstream file(report);
    return entries_of(file);
}

}  // namespace detail

// Records the session and runs the recovery in its crash states. Each entry of the report is a
// failure of the calling test. The options are those of crashfs-check, such as {"--accept", FILE}:
// known failures don't fail the test.
inline void check(const Session &session, const Recovery &recovery,
                  const std::vector<std::string> &options = {}) {
    const char *role = std::getenv(detail::kRole.c_str());
    const Path here = fs::current_path();
    if (role != nullptr && std::string(role) == "session")
        detail::run_and_exit([&] { session(here, detail::acknowledge); });
    if (role != nullptr && std::string(role) == "recovery")
        detail::run_and_exit([&] { recovery(here, detail::lines_of(std::cin)); });
    const auto *test = testing::UnitTest::GetInstance()->current_test_info();
    std::string room = fs::temp_directory_path() / "crash_states-XXXXXX";
    ASSERT_NE(mkdtemp(room.data()), nullptr);
    const std::string name = std::string(test->test_suite_name()) + "." + test->name();
    std::vector<std::string> entries;
    try {
        entries = detail::failing_entries(room, name, options);
    } catch (const std::exception &error) {
        FAIL() << error.what();
    }
    for (const std::string &entry : entries)
        ADD_FAILURE_AT(test->file(), test->line())
            << entry << "the trace is " << room << "/session.trace";
    if (entries.empty()) fs::remove_all(room);
}

}  // namespace crash_states
