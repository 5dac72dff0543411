// Package aliasplan is a client of the planner as a co-process, `aliasplan plan --each --tables FILE`.
//
// Strings hold bytes as they are. Addresses stand without angle brackets, the null sender as "". Parameters of MAIL and RCPT
// (`SIZE=1000`) are no part of an address. One goroutine at a time may use a planner.
package aliasplan

import (
	"bufio"
	"context"
	"errors"
	"fmt"
	"io"
	"os"
	"os/exec"
	"strconv"
	"strings"
)

// ErrAddress says that an address has CR or LF, and that nothing was sent.
var ErrAddress = errors.New("aliasplan: an address has CR or LF")

// ErrEnded says that the planner ended, or wrote what is no answer, at its start or twice without an answer in between.
var ErrEnded = errors.New("aliasplan: the planner ended without an answer")

// Envelope is the sender and the recipients of a message.
type Envelope struct {
	Sender     string
	Recipients []string
}

// Transaction is one mail transaction to make; the hosts stand in the order in which they are tried.
type Transaction struct {
	Sender, Transport, Nexthop string
	Hosts, Recipients          []string
}

// Answer is a plan: transactions, and findings, the words behind `finding `. Where Refusal isn't empty it says why there is none.
type Answer struct {
	Transactions []Transaction
	Findings     []string
	Refusal      string
}

// Tables has the sum of the tables that hold from now on, the SHA-256 of their file, or in Refusal why they stay as they were.
type Tables struct {
	Sum, Refusal string
}

const bufferSize = 1 << 16

// pipeRoom is what an empty pipe takes at least.
const pipeRoom = 4096

// Planner is a planner that is kept.
type Planner struct {
	words   []string
	command *exec.Cmd // nil where none runs
	input   io.WriteCloser
	output  *bufio.Reader
	number  int
}

// request is a text to send, and how its answer is read.
type request struct {
	text string
	read func() error
}

// Start starts a planner. The options are further words of its command line, none that changes the form of the answers. What the planner
// says on standard error goes where that of this process goes.
func Start(ctx context.Context, program, tables string, options ...string) (*Planner, error) {
	p := &Planner{words: append([]string{program, "plan", "--each", "--tables", tables}, options...)}
	if err := p.start(ctx); err != nil {
		if ctx.Err() != nil {
			err = ctx.Err()
		}
		return nil, err
	}
	return p, nil
}

// Ask answers one envelope. A planner that dies is started again and asked anew.
func (p *Planner) Ask(ctx context.Context, envelope Envelope) (Answer, error) {
	answers, err := p.AskMany(ctx, []Envelope{envelope})
	if err != nil {
		return Answer{}, err
	}
	return answers[0], nil
}

// AskMany answers envelopes in their order; none waits for the answer to the one before.
func (p *Planner) AskMany(ctx context.Context, envelopes []Envelope) ([]Answer, error) {
	answers := make([]Answer, len(envelopes))
	requests := make([]request, len(envelopes))
	for at, envelope := range envelopes {
		p.number++
		name, answer := strconv.Itoa(p.number), &answers[at]
		text, err := textOf(name, envelope)
		if err != nil {
			return nil, err
		}
		requests[at] = request{text, func() error { return p.readBlock(name, answer) }}
	}
	if err := p.exchange(ctx, requests); err != nil {
		return nil, err
	}
	return answers, nil
}

// ChangeTables has the file of tables read anew.
func (p *Planner) ChangeTables(ctx context.Context) (Tables, error) {
	var tables Tables
	err := p.exchange(ctx, []request{{"%tables\n", func() error {
		words, err := p.behind("tables ")
		switch kind, rest, _ := strings.Cut(words, " "); kind {
		case "ok":
			tables.Sum = rest
		case "refused":
			tables.Refusal = rest
		default:
			return ErrEnded
		}
		return err
	}}})
	return tables, err
}

// End ends the planner. A later question starts one again.
func (p *Planner) End() {
	if p.command == nil {
		return
	}
	p.input.Close()
	io.Copy(io.Discard, p.output)
	p.command.Wait()
	p.command = nil
}

func textOf(name string, envelope Envelope) (string, error) {
	var text strings.Builder
	fmt.Fprintf(&text, "%%envelope %s\nMAIL FROM:<%s>\n", name, envelope.Sender)
	isBad := strings.ContainsAny(envelope.Sender, "\r\n")
	for _, recipient := range envelope.Recipients {
		text.WriteString("RCPT TO:<" + recipient + ">\n")
		isBad = isBad || strings.ContainsAny(recipient, "\r\n")
	}
	if isBad {
		return "", ErrAddress
	}
	text.WriteString("%end\n")
	return text.String(), nil
}

// exchange sends requests and reads their answers. Where the planner dies, a new one is asked what isn't answered.
func (p *Planner) exchange(ctx context.Context, requests []request) error {
	hasDied := false
	for len(requests) > 0 {
		if ctx.Err() != nil {
			return ctx.Err()
		}
		answered, err := p.attempt(ctx, requests)
		requests = requests[answered:]
		if err == nil {
			continue
		}
		p.stop()
		if ctx.Err() == nil && (!errors.Is(err, ErrEnded) || hasDied && answered == 0) {
			return err
		}
		hasDied = true
	}
	return nil
}

// attempt sends requests, reads answers until one fails, and says how many came.
func (p *Planner) attempt(ctx context.Context, requests []request) (int, error) {
	if p.command == nil {
		if err := p.start(ctx); err != nil {
			return 0, err
		}
	}
	defer p.killedBy(ctx)()
	sent := p.send(requests)
	for answered, it := range requests {
		if err := it.read(); err != nil {
			p.stop()
			<-sent
			return answered, err
		}
	}
	<-sent
	return len(requests), nil
}

// send sends requests, beside the caller where they are more than an empty pipe takes, so that neither side waits for the other. What it
// returns is closed when all is sent; that the planner has ended shows where it is read.
func (p *Planner) send(requests []request) <-chan struct{} {
	sent, input := make(chan struct{}), p.input
	if len(requests) == 1 && len(requests[0].text) <= pipeRoom {
		io.WriteString(input, requests[0].text)
		close(sent)
		return sent
	}
	go func() {
		defer close(sent)
		writer := bufio.NewWriterSize(input, bufferSize)
		for _, it := range requests {
			writer.WriteString(it.text)
		}
		writer.Flush()
	}()
	return sent
}

// start starts the planner, and reads what it says of the tables.
func (p *Planner) start(ctx context.Context) error {
	command := exec.Command(p.words[0], p.words[1:]...)
	command.Stderr = os.Stderr
	input, err := command.StdinPipe()
	if err != nil {
		return err
	}
	output, err := command.StdoutPipe()
	if err != nil {
		return err
	}
	if err := command.Start(); err != nil {
		return err
	}
	p.command, p.input, p.output = command, input, bufio.NewReaderSize(output, bufferSize)
	defer p.killedBy(ctx)()
	words, err := p.behind("tables ")
	count, notCount := strconv.Atoi(strings.TrimSuffix(words, " findings"))
	if err == nil && notCount != nil {
		err = ErrEnded
	}
	for ; count > 0 && err == nil; count-- {
		_, err = p.behind("finding ")
	}
	if err != nil {
		p.stop()
	}
	return err
}

// killedBy kills the planner where the context ends before the function that it returns is called.
func (p *Planner) killedBy(ctx context.Context) func() {
	if ctx.Done() == nil {
		return func() {}
	}
	process, done, ended := p.command.Process, make(chan struct{}), make(chan struct{})
	go func() {
		defer close(ended)
		select {
		case <-ctx.Done():
			process.Kill()
		case <-done:
		}
	}()
	return func() {
		close(done)
		<-ended
	}
}

// stop ends the planner at once, where there is one.
func (p *Planner) stop() {
	if p.command == nil {
		return
	}
	p.command.Process.Kill()
	p.input.Close()
	p.command.Wait()
	p.command = nil
}

// line returns the next line without its end.
func (p *Planner) line() (string, error) {
	line, err := p.output.ReadString('\n')
	if err != nil {
		return "", ErrEnded
	}
	return line[:len(line)-1], nil
}

// behind returns what stands behind this word on the next line.
func (p *Planner) behind(word string) (string, error) {
	line, err := p.line()
	if err != nil || !strings.HasPrefix(line, word) {
		return "", ErrEnded
	}
	return line[len(word):], nil
}

// readBlock reads the block of an envelope.
func (p *Planner) readBlock(name string, answer *Answer) error {
	*answer = Answer{}
	if words, err := p.behind("envelope "); err != nil || words != name {
		return ErrEnded
	}
	line, err := p.line()
	if strings.HasPrefix(line, "refused ") {
		answer.Refusal = line[len("refused "):]
		return nil
	}
	for err == nil {
		if line, err = p.line(); err != nil || line == "end" {
			return err
		}
		err = p.readLine(line, answer)
	}
	return err
}

// readLine reads a line of a plan; that of a transaction with the two behind it.
func (p *Planner) readLine(line string, answer *Answer) error {
	word, words, _ := strings.Cut(line, " ")
	switch last := len(answer.Transactions) - 1; {
	case word == "to" && last >= 0:
		answer.Transactions[last].Recipients = append(answer.Transactions[last].Recipients, withoutBrackets(words))
	case word == "host" && last >= 0:
		answer.Transactions[last].Hosts = append(answer.Transactions[last].Hosts, words)
	case word == "finding":
		answer.Findings = append(answer.Findings, words)
	case word == "transaction":
		from, _ := p.behind("from ")
		via, err := p.behind("via ")
		transport, nexthop, _ := strings.Cut(via, " ")
		answer.Transactions = append(answer.Transactions, Transaction{Sender: withoutBrackets(from), Transport: transport, Nexthop: nexthop})
		return err
	default:
		return ErrEnded
	}
	return nil
}

func withoutBrackets(path string) string {
	return strings.TrimSuffix(strings.TrimPrefix(path, "<"), ">")
}
