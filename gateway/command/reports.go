package command

import (
	"bufio"
	"encoding/xml"
	"fmt"
	"io"
	"strings"

	"gateway/tck"
)

// A caseReport takes the verdicts of tests one by one.
type caseReport interface {
	// add takes the verdict on one value of a cases file.
	add(file string, v tck.Verdict) error
	// fault takes an unreadable row, or a whole file, which has no place.
	fault(file, place, why string) error
	// end is called after the last.
	end() error
}

// verdictCounts counts verdicts.
type verdictCounts struct {
	passed, failed, unsupported, faults int
}

func (c *verdictCounts) add(o tck.Outcome) {
	switch o {
	case tck.Pass:
		c.passed++
	case tck.Fail:
		c.failed++
	default:
		c.unsupported++
	}
}

// lineReport writes a line for each verdict, and the counts; with isQuiet it skips passed ones.
type lineReport struct {
	verdictCounts
	out     *bufio.Writer
	to      io.Writer
	isQuiet bool
	// isCut means that a whole file can't be read.
	isCut bool
}

func newLineReport(to io.Writer, isQuiet bool) *lineReport {
	return &lineReport{out: bufio.NewWriter(to), to: to, isQuiet: isQuiet}
}

func (r *lineReport) add(_ string, v tck.Verdict) error {
	r.verdictCounts.add(v.Outcome)
	if r.isQuiet && v.Outcome == tck.Pass {
		return nil
	}
	_, err := fmt.Fprintln(r.out, shownVerdict(r.to, v))
	return err
}

func (r *lineReport) fault(_, place, _ string) error {
	r.faults++
	r.isCut = r.isCut || place == ""
	return nil
}

func (r *lineReport) end() error {
	if r.isCut && r.passed+r.failed+r.unsupported == 0 {
		return nil
	}
	fmt.Fprintf(r.out, "%d passed, %d failed, %d unsupported\n", r.passed, r.failed, r.unsupported)
	if err := r.out.Flush(); err != nil {
		return fmt.Errorf("writing the verdicts: %w", err)
	}
	return nil
}

// tapReport writes the Test Anything Protocol, version 14.
type tapReport struct {
	out   *bufio.Writer
	count int
}

func newTAP(to io.Writer) *tapReport {
	r := &tapReport{out: bufio.NewWriter(to)}
	fmt.Fprintln(r.out, "TAP version 14")
	return r
}

// forTAP escapes TAP's signs in a text.
var forTAP = strings.NewReplacer(`\`, `\\`, "#", `\#`, "\n", " ")

func (r *tapReport) add(_ string, v tck.Verdict) error {
	r.count++
	state, rest := "ok", ""
	switch v.Outcome {
	case tck.Pass:
	case tck.Fail:
		state = "not ok"
	default:
		rest = " # SKIP " + forTAP.Replace(v.Said)
	}
	fmt.Fprintf(r.out, "%s %d - %s%s\n", state, r.count, forTAP.Replace(v.Case+"/"+v.Node), rest)
	if v.Outcome == tck.Fail {
		r.message(v.Said)
	}
	return nil
}

// placed returns a place in a file, or the file.
func placed(file, place string) string {
	if place == "" {
		return file
	}
	return file + ":" + place
}

// message adds why a test failed, as YAML.
func (r *tapReport) message(text string) {
	fmt.Fprintf(r.out, "  ---\n  message: |\n    %s\n  ...\n", strings.ReplaceAll(text, "\n", "\n    "))
}

func (r *tapReport) fault(file, place, why string) error {
	r.count++
	fmt.Fprintf(r.out, "not ok %d - %s\n", r.count, forTAP.Replace(placed(file, place)))
	r.message(why)
	return nil
}

func (r *tapReport) end() error {
	fmt.Fprintf(r.out, "1..%d\n", r.count)
	if err := r.out.Flush(); err != nil {
		return fmt.Errorf("writing the verdicts: %w", err)
	}
	return nil
}

// A junitSuite is JUnit's report of a cases file.
type junitSuite struct {
	XMLName  xml.Name    `xml:"testsuite"`
	Name     string      `xml:"name,attr"`
	Tests    int         `xml:"tests,attr"`
	Failures int         `xml:"failures,attr"`
	Errors   int         `xml:"errors,attr"`
	Skipped  int         `xml:"skipped,attr"`
	Cases    []junitCase `xml:"testcase"`
}

// A junitCase is a test. It has one of its parts if it did not pass.
type junitCase struct {
	Class   string      `xml:"classname,attr"`
	Name    string      `xml:"name,attr"`
	Failure *junitCause `xml:"failure"`
	Error   *junitCause `xml:"error"`
	Skipped *junitCause `xml:"skipped"`
}

type junitCause struct {
	Message string `xml:"message,attr"`
}

// junitReport writes JUnit's XML at the end.
type junitReport struct {
	to     io.WriteCloser
	suites []*junitSuite
}

func (r *junitReport) suite(file string) *junitSuite {
	if n := len(r.suites); n > 0 && r.suites[n-1].Name == file {
		return r.suites[n-1]
	}
	r.suites = append(r.suites, &junitSuite{Name: file})
	return r.suites[len(r.suites)-1]
}

func (r *junitReport) add(file string, v tck.Verdict) error {
	s := r.suite(file)
	it := junitCase{Class: file, Name: v.Case + "/" + v.Node}
	switch v.Outcome {
	case tck.Pass:
	case tck.Fail:
		s.Failures++
		it.Failure = &junitCause{v.Said}
	default:
		s.Skipped++
		it.Skipped = &junitCause{v.Said}
	}
	s.Tests++
	s.Cases = append(s.Cases, it)
	return nil
}

func (r *junitReport) fault(file, place, why string) error {
	s := r.suite(file)
	s.Tests, s.Errors = s.Tests+1, s.Errors+1
	s.Cases = append(s.Cases, junitCase{Class: file, Name: placed(file, place), Error: &junitCause{why}})
	return nil
}

func (r *junitReport) end() error {
	defer r.to.Close()
	all := struct {
		XMLName xml.Name `xml:"testsuites"`
		Suites  []*junitSuite
	}{Suites: r.suites}
	if _, err := io.WriteString(r.to, xml.Header); err != nil {
		return fmt.Errorf("writing JUnit's file: %w", err)
	}
	encoder := xml.NewEncoder(r.to)
	encoder.Indent("", "  ")
	if err := encoder.Encode(all); err != nil {
		return fmt.Errorf("writing JUnit's file: %w", err)
	}
	if _, err := io.WriteString(r.to, "\n"); err != nil {
		return fmt.Errorf("writing JUnit's file: %w", err)
	}
	return r.to.Close()
}

// reports passes verdicts to several reports.
type reports []caseReport

func (all reports) add(file string, v tck.Verdict) error {
	for _, r := range all {
		if err := r.add(file, v); err != nil {
			return err
		}
	}
	return nil
}

func (all reports) fault(file, place, why string) error {
	for _, r := range all {
		if err := r.fault(file, place, why); err != nil {
			return err
		}
	}
	return nil
}

func (all reports) end() error {
	for _, r := range all {
		if err := r.end(); err != nil {
			return err
		}
	}
	return nil
}
