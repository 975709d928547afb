package crashstates

import (
	"reflect"
	"testing"
)

func TestEachFailureOfAReportIsAnEntry(t *testing.T) {
	report := "TAP version 13\n1..4\nnot ok 1 - lost: \\#1\n# lost: #1\n#   line 5 - it\n" +
		"ok 2 - old # SKIP why\nnot ok 3 - odd\n# odd\nok 4 - all other states (7)\n"
	wanted := []entry{
		{cause: `lost: \#1`, text: "lost: #1\n  line 5 - it\n"},
		{cause: "old", reason: "why"},
		{cause: "odd", text: "odd\n"},
	}
	found, err := entriesOf(report)
	if err != nil || !reflect.DeepEqual(found, wanted) {
		t.Error(found, err)
	}
	if _, err := entriesOf("TAP version 14\n1..0\n"); err == nil {
		t.Error("another version was read")
	}
}
