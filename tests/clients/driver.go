// Asks by the Go client what the lines of standard input say, as tests/clients/run has them: driver PROGRAM TABLES.
package main

import (
	"bufio"
	"context"
	"errors"
	"fmt"
	"io"
	"os"
	"strings"
	"time"

	"aliasplan"
)

func show(out io.Writer, answer aliasplan.Answer) {
	if answer.Refusal != "" {
		fmt.Fprintf(out, "refused %s\n", answer.Refusal)
		return
	}
	recipients := 0
	for _, it := range answer.Transactions {
		recipients += len(it.Recipients)
	}
	fmt.Fprintf(out, "plan %d transactions %d recipients %d findings\n", len(answer.Transactions), recipients, len(answer.Findings))
	for at, it := range answer.Transactions {
		fmt.Fprintf(out, "transaction %d\nfrom <%s>\nvia %s %s\n", at+1, it.Sender, it.Transport, it.Nexthop)
		for _, host := range it.Hosts {
			fmt.Fprintf(out, "host %s\n", host)
		}
		for _, recipient := range it.Recipients {
			fmt.Fprintf(out, "to <%s>\n", recipient)
		}
	}
	for _, finding := range answer.Findings {
		fmt.Fprintf(out, "finding %s\n", finding)
	}
	fmt.Fprintln(out, "end")
}

func showError(out io.Writer, err error) {
	switch {
	case errors.Is(err, aliasplan.ErrAddress):
		fmt.Fprintln(out, "error address")
	case errors.Is(err, aliasplan.ErrEnded):
		fmt.Fprintln(out, "error ended")
	case errors.Is(err, context.DeadlineExceeded):
		fmt.Fprintln(out, "error late")
	default:
		fmt.Fprintln(out, "error system")
	}
}

func ask(ctx context.Context, out io.Writer, planner *aliasplan.Planner, envelopes []aliasplan.Envelope) {
	answers, err := planner.AskMany(ctx, envelopes)
	if err != nil {
		showError(out, err)
	}
	for _, it := range answers {
		show(out, it)
	}
}

func changeTables(ctx context.Context, out io.Writer, planner *aliasplan.Planner) {
	tables, err := planner.ChangeTables(ctx)
	switch {
	case err != nil:
		showError(out, err)
	case tables.Refusal != "":
		fmt.Fprintf(out, "tables refused %s\n", tables.Refusal)
	default:
		fmt.Fprintf(out, "tables ok %s\n", tables.Sum)
	}
}

func main() {
	out := bufio.NewWriter(os.Stdout)
	defer out.Flush()
	ctx, cancel := context.WithCancel(context.Background())
	defer cancel()
	planner, err := aliasplan.Start(ctx, os.Args[1], os.Args[2])
	if err != nil {
		showError(out, err)
		return
	}
	var kept []aliasplan.Envelope
	lines := bufio.NewReader(os.Stdin)
	for {
		line, err := lines.ReadString('\n')
		if err != nil {
			break
		}
		words := strings.Split(strings.NewReplacer("\n", "", "\x01", "\r", "\x02", "\n").Replace(line), "\t")
		switch words[0] {
		case "ask":
			ask(ctx, out, planner, []aliasplan.Envelope{{Sender: words[1], Recipients: words[2:]}})
		case "soon":
			soon, cancel := context.WithTimeout(ctx, 100*time.Millisecond)
			ask(soon, out, planner, []aliasplan.Envelope{{Sender: words[1], Recipients: words[2:]}})
			cancel()
		case "keep":
			kept = append(kept, aliasplan.Envelope{Sender: words[1], Recipients: words[2:]})
		case "many":
			ask(ctx, out, planner, kept)
			kept = nil
		case "tables":
			changeTables(ctx, out, planner)
		}
		out.Flush()
	}
	planner.End()
	fmt.Fprintln(out, "ended")
}
