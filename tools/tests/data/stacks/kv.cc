#include <fcntl.h>
#include <string>
#include <unistd.h>
namespace kv {
struct Log {
  int file;
  void append(const std::string &row) {
    write(file, row.data(), row.size());
  }
};
void put(Log &log, const std::string &row) {
  log.append(row);
}
}
int main() {
  kv::Log log{open("f", O_RDWR | O_CREAT, 0644)};
  kv::put(log, "x");
  return fsync(log.file);
}
