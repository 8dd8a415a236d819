// Three calls of the library:
//
//	calls transfer STORE PASSWORD-FILE NEW-PASSWORD-FILE     writes the certificates and the sealed keys of a store as PEM text
//	calls upgrade STORE PASSWORD-FILE NEW-PASSWORD-FILE      writes the store under the algorithms of today
//	calls create KEY CERTIFICATES PASSWORD-FILE [NAME [KEY-PASSWORD-FILE]]     writes a store of PEM texts
package main

// #cgo pkg-config: pkcs12
// #include <pkcs12.h>
import "C"

import (
	"bytes"
	"crypto/rand"
	"fmt"
	"io"
	"os"
	"unsafe"
)

// Refused says why a call is refused: one of the numbers of pkcs12.h.
type Refused uint32

func (number Refused) Error() string {
	return fmt.Sprintf("refused (%d): %s", uint32(number), C.GoString(C.pkcs12_strerror(C.uint32_t(number))))
}

// parts is the most private keys and encrypted contents that are sealed, since each takes some time.
const parts = 1000

var none [1]byte

// at is a pointer to the octets that is not nil, even where there are none.
func at(octets []byte) *C.uint8_t {
	if len(octets) == 0 {
		return (*C.uint8_t)(&none[0])
	}
	return (*C.uint8_t)(unsafe.Pointer(&octets[0]))
}

// TransferPEM returns the PEM text of a store, its keys sealed under the new password.
func TransferPEM(store, password, newPassword []byte, rounds uint32, limit uint64) ([]byte, error) {
	// As many as the store has are always enough.
	size := len(store)
	if size > 32*parts {
		size = 32 * parts
	}
	random := make([]byte, size)
	if _, err := rand.Read(random); err != nil {
		return nil, err
	}
	output := make([]byte, int(C.pkcs12_room(C.size_t(len(store))))) // always enough
	var needed C.size_t
	number := C.pkcs12_transfer_pem(at(store), C.size_t(len(store)), at(password), C.size_t(len(password)),
		at(newPassword), C.size_t(len(newPassword)), C.uint32_t(rounds), C.uint64_t(limit),
		at(random), C.size_t(len(random)), at(output), C.size_t(len(output)), &needed)
	if number != C.PKCS12_DONE {
		return nil, Refused(number)
	}
	return output[:int(needed)], nil
}

// written is what a call writes into as much room as it needs: with so many octets first, and again where that is too little.
func written(room int, call func(output []byte, needed *C.size_t) C.uint32_t) ([]byte, error) {
	for {
		output := make([]byte, room)
		var needed C.size_t
		number := call(output, &needed)
		if number == C.PKCS12_DONE {
			return output[:int(needed)], nil
		}
		if number != C.PKCS12_ROOM {
			return nil, Refused(number)
		}
		room = int(needed)
	}
}

// Upgrade returns the store under the algorithms of today, with parts and a MAC of so many rounds. The new password may be the old one.
func Upgrade(store, password, newPassword []byte, rounds uint32, limit uint64) ([]byte, error) {
	random := make([]byte, 32*parts+16)
	if _, err := rand.Read(random); err != nil {
		return nil, err
	}
	return written(2*len(store)+4096, func(output []byte, needed *C.size_t) C.uint32_t {
		return C.pkcs12_upgrade(at(store), C.size_t(len(store)), at(password), C.size_t(len(password)),
			at(newPassword), C.size_t(len(newPassword)), C.uint32_t(rounds), C.uint64_t(limit),
			at(random), C.size_t(len(random)), at(output), C.size_t(len(output)), needed)
	})
}

// PEM is a private key and its certificates in PEM texts, which may be one text.
type PEM struct {
	Key, Certificates []byte
	KeyPassword       []byte // of a private key that is encrypted; empty is none
	Name              string // of the private key and its certificate; empty is none
}

// CreatePEM returns a store of what the PEM texts have, of so many rounds. Opening the private key may take limit rounds at most.
func CreatePEM(pem PEM, password []byte, rounds, limit uint32) ([]byte, error) {
	random := make([]byte, C.PKCS12_CREATE_RANDOM)
	if _, err := rand.Read(random); err != nil {
		return nil, err
	}
	name := []byte(pem.Name)
	room := 4096 + len(pem.Key) + len(pem.Certificates) + 4*len(name)
	return written(room, func(output []byte, needed *C.size_t) C.uint32_t {
		return C.pkcs12_create_pem(at(pem.Key), C.size_t(len(pem.Key)), at(pem.Certificates), C.size_t(len(pem.Certificates)),
			at(pem.KeyPassword), C.size_t(len(pem.KeyPassword)), at(name), C.size_t(len(name)),
			at(password), C.size_t(len(password)), C.uint32_t(rounds), C.uint32_t(limit),
			at(random), C.size_t(len(random)), at(output), C.size_t(len(output)), needed)
	})
}

// contents is the octets of a file, and of one that is longer than a store may be its first ones.
func contents(path string) ([]byte, error) {
	file, err := os.Open(path)
	if err != nil {
		return nil, err
	}
	defer file.Close()
	return io.ReadAll(io.LimitReader(file, C.PKCS12_STORE_MAX+1))
}

func firstLine(path string) ([]byte, error) {
	octets, err := contents(path)
	line, _, _ := bytes.Cut(octets, []byte("\n"))
	return bytes.TrimSuffix(line, []byte("\r")), err
}

// files are the octets of the first file of the words, and the first lines of the two others.
func files(words []string) (store, password, newPassword []byte, err error) {
	if store, err = contents(words[0]); err != nil {
		return
	}
	if password, err = firstLine(words[1]); err != nil {
		return
	}
	newPassword, err = firstLine(words[2])
	return
}

func create(words []string) ([]byte, error) {
	key, err := contents(words[0])
	if err != nil {
		return nil, err
	}
	certificates, err := contents(words[1])
	if err != nil {
		return nil, err
	}
	password, err := firstLine(words[2])
	if err != nil {
		return nil, err
	}
	pem := PEM{Key: key, Certificates: certificates}
	if len(words) > 3 {
		pem.Name = words[3]
	}
	if len(words) > 4 {
		if pem.KeyPassword, err = firstLine(words[4]); err != nil {
			return nil, err
		}
	}
	return CreatePEM(pem, password, 600000, 100000000)
}

func run(call string, words []string) ([]byte, error) {
	if call == "create" {
		return create(words)
	}
	store, password, newPassword, err := files(words)
	if err != nil {
		return nil, err
	}
	if call == "transfer" {
		return TransferPEM(store, password, newPassword, 600000, 100000000)
	}
	return Upgrade(store, password, newPassword, 600000, 100000000)
}

func isUsed(words []string) bool {
	if len(words) == 0 {
		return false
	}
	switch words[0] {
	case "transfer", "upgrade":
		return len(words) == 4
	case "create":
		return len(words) >= 4 && len(words) <= 6
	}
	return false
}

func main() {
	words := os.Args[1:]
	if !isUsed(words) {
		fmt.Fprintln(os.Stderr, "usage: calls transfer|upgrade STORE PASSWORD-FILE NEW-PASSWORD-FILE")
		fmt.Fprintln(os.Stderr, "       calls create KEY CERTIFICATES PASSWORD-FILE [NAME [KEY-PASSWORD-FILE]]")
		os.Exit(2)
	}
	octets, err := run(words[0], words[1:])
	if err == nil {
		if _, err = os.Stdout.Write(octets); err != nil {
			fmt.Fprintln(os.Stderr, err)
			os.Exit(4)
		}
	}
	if err != nil {
		fmt.Fprintln(os.Stderr, err)
		if refused, is := err.(Refused); is {
			os.Exit(int(refused))
		}
		os.Exit(3)
	}
}
