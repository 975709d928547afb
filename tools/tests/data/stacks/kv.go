package main

import "os"

type Log struct{ file *os.File }

func (log *Log) append(row string) {
	log.file.WriteString(row)
}

func main() {
	file, _ := os.Create("f")
	log := &Log{file}
	log.append("x")
	log.file.Sync()
}
