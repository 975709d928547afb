package example

import (
	"fmt"
	"os"
	"path/filepath"
	"testing"

	"crashstates/crashstates"
)

// EXAMPLE_BUG=1 leaves out the syncs, so that the test fails.
var sync = os.Getenv("EXAMPLE_BUG") == ""

func session(directory string, acknowledge func(line string)) error {
	for version := 1; version <= 2; version++ {
		content := fmt.Sprintf("version %d", version)
		if err := Save("config", []byte(content), sync); err != nil {
			return err
		}
		acknowledge(content)
	}
	return nil
}

func recovery(directory string, acknowledged []string) error {
	content, err := os.ReadFile(filepath.Join(directory, "config"))
	if err != nil && len(acknowledged) > 0 {
		return fmt.Errorf("lost: there is no configuration")
	}
	known := map[string]bool{"": true, "version 1": true, "version 2": true}
	if !known[string(content)] || err == nil && len(content) == 0 {
		return fmt.Errorf("corrupt: the configuration is %q", content)
	}
	if len(acknowledged) > 0 && string(content) < acknowledged[len(acknowledged)-1] {
		return fmt.Errorf("lost: the configuration is %q", content)
	}
	return nil
}

func TestMain(m *testing.M) {
	crashstates.Serve(session, recovery)
	os.Exit(m.Run())
}

func TestCrashStates(t *testing.T) {
	var options []string
	if known := os.Getenv("EXAMPLE_ACCEPT"); known != "" {
		options = []string{"--accept", known}
	}
	crashstates.Check(t, options...)
}
