package hooks

import (
	"sort"
	"strings"
	"unicode"
	"unicode/utf8"
)

const (
	hidden    = "***"
	leastLine = 4 // bytes of a line that tells something of a secret of several
)

// Hide gives a text with *** in place of each secret of the deed, and of each of its lines, and of each parameter, mount flag and value of a context where it
// stands as a word of its own: a flag may be as short as ro.
func (deed Deed) Hide(text string) string {
	for _, secret := range longestFirst(deed.Private.secrets()) {
		text = strings.ReplaceAll(text, secret, hidden)
	}
	words := append(valuesOf(deed.Private.Parameters), deed.Private.MountFlags...)
	words = append(words, valuesOf(deed.Private.VolumeContext)...)
	words = append(words, valuesOf(deed.Private.PublishContext)...)
	for _, word := range longestFirst(words) {
		text = hideWord(text, word)
	}
	return text
}

// hideRest gives the end of a text with *** in place of what it may begin with of a secret of the deed that began before.
func (deed Deed) hideRest(text string) string {
	rest := 0
	for _, secret := range deed.Private.secrets() {
		for size := len(secret) - 1; size > rest; size-- {
			if strings.HasPrefix(text, secret[len(secret)-size:]) {
				rest = size
			}
		}
	}
	if rest == 0 {
		return text
	}
	return hidden + text[rest:]
}

// secrets are the secrets as a command may tell them, each without the space around it, as a shell takes it away: whole, or a line of several.
func (private Private) secrets() []string {
	var texts []string
	for _, secret := range valuesOf(private.Secrets) {
		texts = append(texts, strings.TrimSpace(secret))
		for _, line := range strings.Split(secret, "\n") {
			if line = strings.TrimSpace(line); len(line) >= leastLine {
				texts = append(texts, line)
			}
		}
	}
	return texts
}

func valuesOf(values map[string]string) []string {
	var texts []string
	for _, value := range values {
		texts = append(texts, value)
	}
	return texts
}

// longestFirst gives texts that aren't empty, so that none is hidden in part where it is a part of another one.
func longestFirst(texts []string) []string {
	var found []string
	for _, text := range texts {
		if text != "" {
			found = append(found, text)
		}
	}
	sort.Slice(found, func(i, j int) bool { return len(found[i]) > len(found[j]) })
	return found
}

func hideWord(text, word string) string {
	var read strings.Builder
	for {
		at := strings.Index(text, word)
		if at < 0 {
			read.WriteString(text)
			return read.String()
		}
		before, _ := utf8.DecodeLastRuneInString(text[:at])
		after, _ := utf8.DecodeRuneInString(text[at+len(word):])
		if at > 0 && isOfWord(before) || isOfWord(after) {
			_, size := utf8.DecodeRuneInString(text[at:])
			read.WriteString(text[:at+size])
			text = text[at+size:]
			continue
		}
		read.WriteString(text[:at])
		read.WriteString(hidden)
		text = text[at+len(word):]
	}
}

func isOfWord(char rune) bool { return unicode.IsLetter(char) || unicode.IsDigit(char) }
