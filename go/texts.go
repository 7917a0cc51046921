package wanzoche

// Verdict is what an audit says of a journal.
type Verdict struct {
	Sound     bool
	WrongLine uint64 // if it isn't sound, the first line whose reply wasn't right, from 0, without a first line that names the room
}

// Audit says whether each reply in a journal was right when it was given, whoever wrote it. The error is a *DeclarationError, a *TextError
// if the text isn't a journal, or ErrOutOfMemory.
func Audit(declaration, journal string) (Verdict, error) {
	given, message := auditText(declaration, journal, MostLines)
	switch given.code {
	case codeSound:
		return Verdict{Sound: true}, nil
	case codeWrongLine:
		return Verdict{WrongLine: given.number}, nil
	}
	return Verdict{}, refusalOf(declaration, given, message)
}

// Outcome is what all schedules of a script come to.
type Outcome uint32

// The outcomes: every schedule ends done; one comes to where somebody waits and nobody can go on; in one a step is refused; there are more
// states than were to be looked at.
const (
	AllDone   Outcome = codeAllDone
	Stalls    Outcome = codeStalls
	Refused   Outcome = codeRefused
	Undecided Outcome = codeUndecided
)

// String is the outcome in words.
func (o Outcome) String() string { return wordsOf(uint32(o)) }

// Exploration is what Explore found.
type Exploration struct {
	Outcome   Outcome
	States    uint64 // how many states were looked at, if all end done or it is undecided
	Journal   string // of a shortest schedule that stalls or has a step refused
	Processes string // and a line for each process there: done, under way, or for what it waits
}

// Explore looks at every schedule of a script under a declaration, up to so many states. Nothing else stops it. The error is a
// *DeclarationError, a *TextError if the text isn't a script, or ErrOutOfMemory.
func Explore(declaration, script string, most uint32) (Exploration, error) {
	given, journal, message := exploreText(declaration, script, most)
	found := Exploration{Outcome: Outcome(given.code)}
	switch found.Outcome {
	case AllDone, Undecided:
		found.States = given.number
	case Stalls, Refused:
		found.Journal, found.Processes = journal, message
	default:
		return Exploration{}, refusalOf(declaration, given, message)
	}
	return found, nil
}
