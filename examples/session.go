// The session of examples/session.in, made from Go and printed as the listing prints it.
package main

/*
#cgo CFLAGS: -I${SRCDIR}/../target/gulambitok
#cgo LDFLAGS: -L${SRCDIR}/../target/gulambitok -lgulambitok
#include "gulambitok.h"
*/
import "C"

import "fmt"

type number = C.uint8_t

var relations = map[number]string{
	C.GULAMBITOK_BEFORE: "before", C.GULAMBITOK_AFTER: "after", C.GULAMBITOK_SAME: "same",
	C.GULAMBITOK_CONCURRENT: "concurrent", C.GULAMBITOK_CROSSED: "crossed",
}

var book [C.GULAMBITOK_BOOK_BYTES]number
var stamp [C.GULAMBITOK_STAMP_BYTES]number

// One for each desk.
var limits = [...]C.size_t{3, 3}

const bookLen, stampLen, desks = C.size_t(len(book)), C.size_t(len(stamp)), C.size_t(len(limits))

// On a refusal nothing else was written, so the number stands alone.
func printLine(answer number, fields string) {
	if answer != C.GULAMBITOK_DONE {
		fields = ""
	}
	fmt.Printf("%03d%s\n", answer, fields)
}

func stampFields() string {
	fields := fmt.Sprintf(" %03d", stamp[C.GULAMBITOK_STAMP_OWNER_AT])
	row := stamp[C.GULAMBITOK_STAMP_ROW_AT:]
	for desk := 0; desk < int(stamp[C.GULAMBITOK_STAMP_DESKS_AT]); desk++ {
		fields += fmt.Sprintf(" %03d.%03d", row[2*desk], row[2*desk+1])
	}
	return fields
}

func main() {
	var place, learnt, first, second, relation number
	answer := C.gulambitok_start(&book[0], bookLen, desks, 3, &limits[0], desks, 1, 1, 1, 1)
	printLine(answer, "")
	answer = C.gulambitok_local(&book[0], bookLen, 0, 1, &stamp[0], stampLen, &first, 1)
	printLine(answer, stampFields()+fmt.Sprintf(" %03d", first))
	answer = C.gulambitok_send(&book[0], bookLen, 0, 1, 0, &stamp[0], stampLen, &place, 1, nil, 0)
	printLine(answer, fmt.Sprintf(" %03d", place)+stampFields())
	answer = C.gulambitok_receive(&book[0], bookLen, 1, C.size_t(place), 1, &stamp[0], stampLen,
		&learnt, 1, &second, 1)
	printLine(answer, stampFields()+fmt.Sprintf(" %03d %03d", learnt, second))
	answer = C.gulambitok_compare(&book[0], bookLen, C.size_t(first), C.size_t(second), &relation, 1)
	printLine(answer, " "+relations[relation])
	for turn := 0; turn < 2; turn++ {
		answer = C.gulambitok_reset(&book[0], bookLen, 0, 0, &stamp[0], stampLen, nil, 0)
		printLine(answer, stampFields())
	}
}
