package main

// A store over SQLite for what the library makes: the file that `csi-replay` has too.

// #include "tufayon.h"
// #include <sqlite3.h>
import "C"
import (
	"fmt"
	"unsafe"
)

var db *C.sqlite3
var held C.tufayon_plugin // what it is the store of
var value = make([]byte, 512)
var isBegun bool // whether a transaction began since the last commit

func must(good bool, why string) {
	if !good {
		panic(why + ": " + C.GoString(C.sqlite3_errmsg(db)))
	}
}

// Bytes that C writes; bytes that it reads, which lie somewhere even if there are none, with a 0 behind them; and these of a text.
func out(bytes []byte) *C.uint8_t { return (*C.uint8_t)(&bytes[0]) }
func in(bytes []byte) *C.uint8_t  { return out(append(bytes, 0)) }
func text(words string) *C.char   { return (*C.char)(unsafe.Pointer(in([]byte(words)))) }
func run(sql string, values ...any) {
	must(C.sqlite3_exec(db, text(fmt.Sprintf(sql, values...)), nil, nil, nil) == C.SQLITE_OK, "the store")
}

// The bytes of the record whose parts the store has: none where it has no part.
func load() (record []byte) {
	parts, rows, table := []byte(nil), C.int(0), (**C.char)(nil)
	each := "SELECT hex(key) || printf('%08x', length(value)) || hex(value) FROM parts ORDER BY key"
	must(C.sqlite3_get_table(db, text(each), &table, &rows, nil, nil) == C.SQLITE_OK, "the store")
	for _, row := range unsafe.Slice(table, rows+1)[1:] {
		parts = append(parts, C.GoString(row)...)
	}
	if rows > 0 { // the version is the first byte of the first value
		fmt.Sscanf(fmt.Sprintf("%s%08x%s", parts[24:26], rows, parts), "%x", &record)
	}
	C.sqlite3_free_table(table)
	return record
}

func begin() {
	if !isBegun {
		run("BEGIN")
	}
	isBegun = true
}

// Ends the transaction, if there is one.
func commit() {
	if isBegun {
		run("COMMIT")
	}
	isBegun = false
}

// Puts what the last call changed into the transaction, behind what calls before it changed.
func putChanges() {
	for place, key, size := C.size_t(0), C.uint64_t(0), C.size_t(0); ; place++ {
		switch C.tufayon_changed(&held, place, &key, out(value), C.size_t(len(value)), &size) {
		case C.TUFAYON_DONE:
			begin()
			run("INSERT INTO parts VALUES (x'%016x', x'%x') ON CONFLICT (key) DO UPDATE SET value = excluded.value", key, value[:size])
		case C.TUFAYON_TAKE_OUT:
			begin()
			run("DELETE FROM parts WHERE key = x'%016x'", key)
		case C.TUFAYON_NO_ROOM:
			value, place = make([]byte, size), place-1 // once more
		case C.TUFAYON_NO_MORE:
			return
		default:
			must(false, "no memory")
		}
	}
}

func openStore(name string) {
	must(C.sqlite3_open(text(name), &db) == C.SQLITE_OK, "the store")
	run("PRAGMA journal_mode = WAL; PRAGMA synchronous = FULL; CREATE TABLE IF NOT EXISTS parts (key BLOB NOT NULL PRIMARY KEY, value BLOB NOT NULL)")
}

func closeStore() {
	C.tufayon_free(&held)
	must(C.sqlite3_close(db) == C.SQLITE_OK, "the store")
}
