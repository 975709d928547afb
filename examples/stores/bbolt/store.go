// Stores pairs of words by bbolt, each in a transaction, and acknowledges each; or prints all.
// Build: GO111MODULE=off GOPATH=/usr/share/gocode go build -o store store.go
package main

import (
	"fmt"
	"os"
	"time"

	bolt "go.etcd.io/bbolt"
)

var rows = []byte("rows")

func fail(err error) {
	if err != nil {
		fmt.Println(err)
		os.Exit(1)
	}
}

func put(database *bolt.DB, key, value string) {
	fail(database.Update(func(transaction *bolt.Tx) error {
		bucket, err := transaction.CreateBucketIfNotExists(rows)
		if err != nil {
			return err
		}
		return bucket.Put([]byte(key), []byte(value))
	}))
	fmt.Println(key, value)
}

func printAll(database *bolt.DB) {
	fail(database.View(func(transaction *bolt.Tx) error {
		bucket := transaction.Bucket(rows)
		if bucket == nil {
			return nil
		}
		for err := range transaction.Check() {
			return err
		}
		return bucket.ForEach(func(key, value []byte) error {
			fmt.Println(string(key), string(value))
			return nil
		})
	}))
}

// failWhole reports a panic as a fault.
func failWhole() {
	if fault := recover(); fault != nil {
		fmt.Println("panic:", fault)
		os.Exit(1)
	}
}

func main() {
	defer failWhole()
	database, err := bolt.Open("rows.bolt", 0644, &bolt.Options{Timeout: time.Second})
	fail(err)
	words := os.Args[1:]
	if words[0] == "all" {
		printAll(database)
	}
	for place := 0; place+1 < len(words); place += 2 {
		put(database, words[place], words[place+1])
	}
	fail(database.Close())
}
