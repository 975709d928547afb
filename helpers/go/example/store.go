// Package example is a small store: a file that is saved whole.
package example

import "os"

// Save replaces the file's content. Sync says whether it waits until both the content and the name
// are on the disk.
func Save(path string, content []byte, sync bool) error {
	saved := path + ".new"
	file, err := os.Create(saved)
	if err != nil {
		return err
	}
	defer file.Close()
	if _, err := file.Write(content); err != nil {
		return err
	}
	if sync {
		if err := file.Sync(); err != nil {
			return err
		}
	}
	if err := os.Rename(saved, path); err != nil || !sync {
		return err
	}
	directory, err := os.Open(".")
	if err != nil {
		return err
	}
	defer directory.Close()
	return directory.Sync()
}
