package metrics

import (
	"encoding/json"
	"fmt"
	"os"
	"os/exec"
	"path/filepath"
	"regexp"
	"strings"
	"testing"

	"github.com/prometheus/client_golang/prometheus"
)

// files are what operators get beside the programs: rules of alerts, and a dashboard.
const files = "../../deploy/prometheus"

var (
	described = regexp.MustCompile(`fqName: "([^"]*)"`)
	quoted    = regexp.MustCompile(`"(\\.|[^"\\])*"`)
	named     = regexp.MustCompile(`\b(?:tufayon|grpc|process)_[a-z_]*[a-z]\b`)
	suffix    = regexp.MustCompile(`_(bucket|sum|count)$`)
)

// exported are the names of all that the service and its plugins may tell.
func exported() map[string]bool {
	names := map[string]bool{}
	for _, registry := range []*prometheus.Registry{NewOrchestrator().registry, NewDriver("csi-driver", "controller").registry} {
		to := make(chan *prometheus.Desc)
		go func(registry *prometheus.Registry) { registry.Describe(to); close(to) }(registry)
		for it := range to {
			names[described.FindStringSubmatch(it.String())[1]] = true
		}
	}
	return names
}

// known wants each metric that an expression names to be one that is told, and gives how many it names.
func known(t *testing.T, names map[string]bool, what, expression string) int {
	t.Helper()
	labels := regexp.MustCompile(`\b(by|on) *\([^)]*\)`)
	found := named.FindAllString(labels.ReplaceAllString(quoted.ReplaceAllString(expression, `""`), ""), -1)
	for _, it := range found {
		if !names[it] && !names[suffix.ReplaceAllString(it, "")] {
			t.Errorf("%s: nothing tells %s", what, it)
		}
	}
	return len(found)
}

// The dashboard for Grafana shows what is told, by expressions that Prometheus's own tool takes; each of its panels has its own place and number.
func TestDashboard(t *testing.T) {
	text, err := os.ReadFile(filepath.Join(files, "dashboard.json"))
	if err != nil {
		t.Fatal(err)
	}
	var board struct {
		Panels []struct {
			ID          int
			Type, Title string
			GridPos     struct{ H, W, X, Y int }
			Targets     []struct{ Expr string }
		}
	}
	if err := json.Unmarshal(text, &board); err != nil {
		t.Fatal(err)
	}
	names, ids, taken := exported(), map[int]bool{}, map[[2]int]string{}
	shown := map[string]bool{}
	var rules strings.Builder
	rules.WriteString("groups:\n- name: dashboard\n  rules:\n")
	for _, panel := range board.Panels {
		if ids[panel.ID] || panel.Type != "row" && len(panel.Targets) == 0 {
			t.Errorf("%q has the number of another one, or shows nothing", panel.Title)
		}
		ids[panel.ID] = true
		for x := panel.GridPos.X; x < panel.GridPos.X+panel.GridPos.W; x++ {
			for y := panel.GridPos.Y; y < panel.GridPos.Y+panel.GridPos.H; y++ {
				if other := taken[[2]int{x, y}]; other != "" || x >= 24 {
					t.Fatalf("%q lies on %q, or outside", panel.Title, other)
				}
				taken[[2]int{x, y}] = panel.Title
			}
		}
		for _, target := range panel.Targets {
			if known(t, names, panel.Title, target.Expr) == 0 && !strings.HasPrefix(target.Expr, "ALERTS{") {
				t.Errorf("%q shows nothing of ours: %s", panel.Title, target.Expr)
			}
			for _, it := range named.FindAllString(target.Expr, -1) {
				shown[suffix.ReplaceAllString(it, "")] = true
			}
			expression := strings.NewReplacer("$__rate_interval", "5m", "$instance", ".*").Replace(target.Expr)
			fmt.Fprintf(&rules, "  - {record: 'a:%d', expr: '%s'}\n", len(rules.String()), expression)
		}
	}
	for name := range names {
		if strings.HasPrefix(name, namespace+"_") && !shown[name] {
			t.Errorf("no panel shows %s", name)
		}
	}
	program, err := exec.LookPath("promtool")
	if err != nil {
		t.Skip("left out, since there is no promtool: prometheus")
	}
	file := filepath.Join(t.TempDir(), "rules.yml")
	if err := os.WriteFile(file, []byte(rules.String()), 0o600); err != nil {
		t.Fatal(err)
	}
	if said, err := exec.Command(program, "check", "rules", file).CombinedOutput(); err != nil {
		t.Errorf("promtool check rules: %v\n%s", err, said)
	}
}

// Each alert goes by what is told. Of one the name is a regular expression.
func TestAlerts(t *testing.T) {
	text, err := os.ReadFile(filepath.Join(files, "alerts.yml"))
	if err != nil {
		t.Fatal(err)
	}
	names, count := exported(), 0
	for _, line := range strings.Split(string(text), "\n") {
		if _, expression, isOne := strings.Cut(line, " expr: "); isOne {
			count += known(t, names, "alerts.yml", expression)
		}
	}
	if count < 15 {
		t.Errorf("only %d names were found", count)
	}
}
