// Runs a program on bytes as its input and gives what it wrote.
#pragma once

#include <cstdio>
#include <cstdlib>
#include <string>

#include <spawn.h>
#include <sys/resource.h>
#include <sys/wait.h>
#include <unistd.h>

extern char** environ;

// One run of a program, on files that are used again for the next.
struct Run {
    std::FILE* input = std::tmpfile();
    std::FILE* output = std::tmpfile();
    pid_t process = -1;
    double seconds = 0;   // processor time, once it has ended
};

[[noreturn]] inline void give_up(const char* what) {
    std::perror(what);
    std::exit(2);
}

inline void refill(std::FILE* file, const std::string& bytes) {
    int descriptor = fileno(file);
    bool done = ftruncate(descriptor, 0) == 0 && lseek(descriptor, 0, SEEK_SET) == 0 &&
                write(descriptor, bytes.data(), bytes.size()) == ssize_t(bytes.size()) &&
                lseek(descriptor, 0, SEEK_SET) == 0;
    if (!done) give_up("temporary file");
}

inline void start(Run& run, char* program, const std::string& input) {
    refill(run.input, input);
    refill(run.output, "");
    posix_spawn_file_actions_t actions;
    posix_spawn_file_actions_init(&actions);
    posix_spawn_file_actions_adddup2(&actions, fileno(run.input), 0);
    posix_spawn_file_actions_adddup2(&actions, fileno(run.output), 1);
    char* words[] = {program, nullptr};
    if (posix_spawn(&run.process, program, &actions, nullptr, words, environ) != 0)
        give_up(program);
    posix_spawn_file_actions_destroy(&actions);
}

// What the program wrote, or words in place of it where it did not end well.
inline std::string finish(Run& run) {
    auto seconds = [](const timeval& time) { return double(time.tv_sec) + 1e-6 * double(time.tv_usec); };
    int status = 0;
    rusage usage{};
    if (wait4(run.process, &status, 0, &usage) != run.process) give_up("wait");
    run.seconds = seconds(usage.ru_utime) + seconds(usage.ru_stime);
    if (status != 0) return "ended with status " + std::to_string(status) + "\n";
    int descriptor = fileno(run.output);
    std::string bytes(size_t(lseek(descriptor, 0, SEEK_END)), 0);
    if (pread(descriptor, bytes.data(), bytes.size(), 0) != ssize_t(bytes.size()))
        give_up("temporary file");
    return bytes;
}
