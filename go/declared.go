package wanzoche

import (
	"regexp"
	"strconv"
	"strings"
)

// declaredPath is one path of a declaration.
type declaredPath struct {
	resource, text string
	operations     []uint32
}

// declared is what a declaration declares: operations and paths by their numbers.
type declared struct {
	text       string
	operations []string
	numbers    map[string]uint32
	paths      []declaredPath
}

var tokens = regexp.MustCompile(`[A-Za-z][A-Za-z0-9_]*|[0-9]+|[^\sA-Za-z0-9]`)

// readDeclared reads a text that the library has printed, and so is right.
func readDeclared(text string) declared {
	d := declared{text: text, numbers: map[string]uint32{}}
	words := tokens.FindAllString(text, -1)
	resource := ""
	for at := 0; at < len(words); at++ {
		switch words[at] {
		case "resource":
			at++
			resource = words[at]
		case "operation":
			at = d.readNames(words, at+1)
		case "path":
			at = d.readPath(words, at+1, resource)
		}
	}
	return d
}

// readNames reads the names behind `operation`, with commas between them. It says where the last one stands.
func (d *declared) readNames(words []string, at int) int {
	for ; ; at += 2 {
		d.numbers[words[at]] = uint32(len(d.operations))
		d.operations = append(d.operations, words[at])
		if words[at+1] != "," {
			return at
		}
	}
}

// readPath reads what stands between `path` and `end`. It says where `end` stands.
func (d *declared) readPath(words []string, at int, resource string) int {
	path := declaredPath{resource: resource}
	for ; words[at] != "end"; at++ {
		if path.text != "" {
			path.text += " "
		}
		path.text += words[at]
		if number, ok := d.numbers[words[at]]; ok {
			path.operations = append(path.operations, number)
		}
	}
	d.paths = append(d.paths, path)
	return at
}

// number is that of an operation; the error lists those that are declared.
func (d *declared) number(name string) (uint32, error) {
	number, ok := d.numbers[name]
	if !ok {
		all := strings.Join(d.operations, ", ")
		return 0, &unknownOperation{"wanzoche: no operation " + strconv.Quote(name) + " is declared; there are " + all}
	}
	return number, nil
}
