use std::fs::File;
use std::io::Write;
struct Log {
    file: File,
}
impl Log {
    fn append(&mut self, row: &str) {
        self.file.write_all(row.as_bytes()).unwrap();
    }
}
fn main() {
    let mut log = Log { file: File::create("f").unwrap() };
    log.append("x");
    log.file.sync_all().unwrap();
}
