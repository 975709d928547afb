// Package crashstates runs a store's recovery in the crash states of a session, as tests.
//
//	func TestMain(m *testing.M) {
//		crashstates.Serve(session, recovery)
//		os.Exit(m.Run())
//	}
//
//	func TestCrashStates(t *testing.T) {
//		crashstates.Check(t)
//	}
//
// The commands crashfs-record and crashfs-check must be on PATH, or in the directory that the
// variable CRASHFS_TOOLS names. They start the test's own executable again, as the session and as
// the recovery.
package crashstates

import (
	"fmt"
	"io"
	"os"
	"os/exec"
	"path/filepath"
	"runtime/debug"
	"strings"
	"testing"
)

// A Session changes the store in the directory. It calls acknowledge when it would tell its user
// that something is stored.
type Session func(directory string, acknowledge func(line string)) error

// A Recovery opens what a crash left in the directory, and compares it with the acknowledged lines.
// It returns an error, or panics, if something is missing or wrong. Reports count failures by the
// part of the error's text before a colon.
type Recovery func(directory string, acknowledged []string) error

const (
	// The process that the variable names is the session or the recovery.
	roleVariable = "CRASHSTATES_ROLE"
	// Acknowledged lines are written to this descriptor, since a store may print something.
	says     = 3
	withSays = `exec "$@" 3>/dev/null`
)

// Serve runs the session or the recovery and ends the process, if crashfs-record or crashfs-check
// started it. Else it returns. Call it first of all in TestMain.
func Serve(session Session, recovery Recovery) {
	var err error
	switch os.Getenv(roleVariable) {
	case "session":
		err = run(func(directory string) error { return serveSession(directory, session) })
	case "recovery":
		err = run(func(directory string) error { return serveRecovery(directory, recovery) })
	default:
		return
	}
	if err != nil {
		fmt.Println(strings.ReplaceAll(err.Error(), "\n", " "))
		os.Exit(1)
	}
	os.Exit(0)
}

// run calls a part of the test with the working directory. A panic is an error.
func run(part func(directory string) error) (err error) {
	defer func() {
		if found := recover(); found != nil {
			debug.PrintStack()
			err = fmt.Errorf("panic: %v", found)
		}
	}()
	directory, err := os.Getwd()
	if err != nil {
		return err
	}
	return part(directory)
}

func serveSession(directory string, session Session) error {
	file := os.NewFile(says, "acknowledged lines")
	return session(directory, func(line string) {
		if _, err := fmt.Fprintln(file, line); err != nil {
			panic(err)
		}
	})
}

func serveRecovery(directory string, recovery Recovery) error {
	input, err := io.ReadAll(os.Stdin)
	if err != nil {
		return err
	}
	// Nothing comes after the last line feed.
	lines := strings.Split(string(input), "\n")
	return recovery(directory, lines[:len(lines)-1])
}

// Check records the session and runs the recovery in its crash states. Each entry of the report is
// a subtest that fails, or is skipped if it is a known failure. The options are those of
// crashfs-check, such as "--accept", "known.json".
func Check(t *testing.T, options ...string) {
	t.Helper()
	if os.Getenv(roleVariable) != "" {
		t.Fatal("TestMain must call crashstates.Serve before m.Run")
	}
	room, err := os.MkdirTemp("", "crashstates-")
	expect(t, err)
	trace := filepath.Join(room, "session.trace")
	report, output := check(t, room, trace, options)
	entries, err := entriesOf(report)
	expect(t, err)
	for _, found := range entries {
		found := found
		t.Run(found.cause, func(t *testing.T) {
			if found.reason != "" {
				t.Skip("accepted: " + found.reason)
			}
			t.Errorf("%sthe trace is %s", found.text, trace)
		})
	}
	if !t.Failed() {
		t.Log(output)
		expect(t, os.RemoveAll(room))
	}
}

// check records a trace and checks it, in the new directory room. It returns the report as
// crashfs-check --tap writes it, and as it prints it.
func check(t *testing.T, room, trace string, options []string) (report, printed string) {
	t.Helper()
	itself, err := os.Executable()
	expect(t, err)
	store, written := filepath.Join(room, "store"), filepath.Join(room, "report.tap")
	expect(t, os.Mkdir(store, 0o777))
	record := []string{"--say-fd", fmt.Sprint(says), store, trace, "--", "sh", "-c", withSays, "sh"}
	// With status 4 the trace lacks only what can't make a state good or bad.
	start(t, "session", "crashfs-record", append(record, itself), 0, 4)
	words := append([]string{"--tap", written}, options...)
	words = append(words, trace, "--", itself)
	printed = start(t, "recovery", "crashfs-check", words, 0, 1)
	content, err := os.ReadFile(written)
	expect(t, err)
	return string(content), printed
}

// An entry of a report. A known failure has the reason why it is accepted, and no text.
type entry struct{ cause, reason, text string }

// entriesOf reads a report of crashfs-check --tap. The lines of an entry that fails come after a
// line `not ok`, and begin with `# `.
func entriesOf(report string) ([]entry, error) {
	lines := strings.Split(report, "\n")
	if lines[0] != "TAP version 13" {
		return nil, fmt.Errorf("a report of another version: %s", lines[0])
	}
	var found []entry
	for _, line := range lines {
		result, name, _ := strings.Cut(line, " - ")
		cause, reason, isKnown := strings.Cut(name, " # SKIP ")
		switch {
		case strings.HasPrefix(line, "# "):
			found[len(found)-1].text += line[2:] + "\n"
		case strings.HasPrefix(result, "not ok ") || isKnown:
			found = append(found, entry{cause: cause, reason: reason})
		}
	}
	return found, nil
}

// start runs a command of crashfs whose COMMAND has the role, and returns its output. The test ends
// if its status isn't one of those that are wanted.
func start(t *testing.T, role, name string, words []string, wanted ...int) string {
	t.Helper()
	if tools := os.Getenv("CRASHFS_TOOLS"); tools != "" {
		name = filepath.Join(tools, name)
	}
	command := exec.Command(name, words...)
	command.Env = append(os.Environ(), roleVariable+"="+role)
	output, err := command.CombinedOutput()
	if command.ProcessState == nil {
		t.Fatalf("%v (set CRASHFS_TOOLS to the directory that has it)", err)
	}
	status := command.ProcessState.ExitCode()
	for _, one := range wanted {
		if status == one {
			return string(output)
		}
	}
	t.Fatalf("%s: status %d\n%s", name, status, output)
	return ""
}

func expect(t *testing.T, err error) {
	t.Helper()
	if err != nil {
		t.Fatal(err)
	}
}
