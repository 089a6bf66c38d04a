package identities

import (
	"crypto/sha256"
	"encoding/hex"
	"strings"

	"tufayon/service/store"
)

// What texts begin with that stand for others in a plugin's record. A text that begins so by itself is taken for a long one, so that no two are alike.
const (
	digested = "sha256:"
	adopted  = "adopted:"
)

// digits are those of a digest.
const digits = 2 * sha256.Size

// A Short is a text as a plugin has it, and what is to be kept beside the record for that: nothing of a text that it has itself.
type Short struct {
	Text string
	Kept []store.Text
}

// Shorten gives a text of at most so many bytes: itself, or its digest where it has more, or a byte 0. A path's digest begins with a slash too.
func Shorten(text string, most int) Short {
	slash := ""
	if strings.HasPrefix(text, "/") {
		slash = "/"
	}
	plain := strings.TrimPrefix(text, slash)
	if len(text) <= most && !strings.ContainsRune(text, 0) && !strings.HasPrefix(plain, digested) && !strings.HasPrefix(plain, adopted) {
		return Short{Text: text}
	}
	digest := digestOf(text)
	return Short{Text: slash + digested + digest, Kept: []store.Text{{Key: longKey + digest, Value: text}}}
}

// Adopted is the name that a plugin has for a volume which the driver behind made before.
func Adopted(id string, most int) Short {
	if len(adopted+id) <= most && !strings.ContainsRune(id, 0) && !strings.HasPrefix(id, digested) {
		return Short{Text: adopted + id}
	}
	digest := digestOf(id)
	return Short{Text: adopted + digested + digest, Kept: []store.Text{{Key: longKey + digest, Value: id}}}
}

func digestOf(text string) string {
	digest := sha256.Sum256([]byte(text))
	return hex.EncodeToString(digest[:])
}

// digestIn is the digest that a plugin's text has, or nothing.
func digestIn(text string) string {
	text = strings.TrimPrefix(strings.TrimPrefix(text, "/"), adopted)
	if !strings.HasPrefix(text, digested) {
		return ""
	}
	return strings.TrimPrefix(text, digested)
}
