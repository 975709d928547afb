// A server of a binary protocol: each request and each answer is four bytes of a length and the
// bytes, without a line feed. It stores each request in a log. With the word `early` it answers
// before the log is synced. Its client is a part of it. With the word `check` it prints how many
// requests the log has.
package main

import (
	"encoding/binary"
	"fmt"
	"io"
	"net"
	"os"
)

const requests = 3

func send(to io.Writer, text string) {
	framed := binary.BigEndian.AppendUint32(nil, uint32(len(text)))
	if _, err := to.Write(append(framed, text...)); err != nil {
		panic(err)
	}
}

func receive(from io.Reader) (string, error) {
	size := make([]byte, 4)
	if _, err := io.ReadFull(from, size); err != nil {
		return "", err
	}
	text := make([]byte, binary.BigEndian.Uint32(size))
	_, err := io.ReadFull(from, text)
	return string(text), err
}

func client(address string, done chan bool) {
	server, err := net.Dial("tcp", address)
	if err != nil {
		panic(err)
	}
	for i := 0; i < requests; i++ {
		send(server, fmt.Sprintf("row %d", i))
		if _, err := receive(server); err != nil {
			panic(err)
		}
	}
	server.Close()
	done <- true
}

func serve(connection net.Conn, log *os.File, early bool) {
	for {
		text, err := receive(connection)
		if err != nil {
			return
		}
		send(log, text)
		if early {
			send(connection, "OK")
		}
		log.Sync()
		if !early {
			send(connection, "OK")
		}
	}
}

func count() int {
	log, err := os.Open("log")
	if err != nil {
		return 0
	}
	for rows := 0; ; rows++ {
		if text, err := receive(log); err != nil || text != fmt.Sprintf("row %d", rows) {
			return rows
		}
	}
}

func main() {
	if os.Args[1] == "check" {
		fmt.Println(count())
		return
	}
	log, err := os.OpenFile("log", os.O_CREATE|os.O_WRONLY, 0644)
	if err != nil {
		panic(err)
	}
	directory, _ := os.Open(".")
	directory.Sync()
	listener, err := net.Listen("tcp", "127.0.0.1:0")
	if err != nil {
		panic(err)
	}
	done := make(chan bool)
	go client(listener.Addr().String(), done)
	connection, err := listener.Accept()
	if err != nil {
		panic(err)
	}
	serve(connection, log, os.Args[1] == "early")
	<-done
}
