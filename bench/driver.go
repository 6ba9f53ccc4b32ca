// dump, check, pack and relaxed, which is dump in relaxed form, over Go's driver, to stand beside bsonfind: driver COMMAND FILE.
// Built by bench.py, where Debian's golang-mongodb-mongo-driver-dev is installed. Its check looks at no UTF-8.
package main

import (
	"bufio"
	"encoding/binary"
	"fmt"
	"io"
	"os"

	"go.mongodb.org/mongo-driver/bson"
)

func dump(in *bufio.Reader, out *bufio.Writer) error {
	return texts(in, out, true)
}

func relaxed(in *bufio.Reader, out *bufio.Writer) error {
	return texts(in, out, false)
}

// texts appends the text of each document to one buffer, the faster way of the driver.
func texts(in *bufio.Reader, out *bufio.Writer, canonical bool) error {
	var text []byte
	return documents(in, func(document bson.Raw) (err error) {
		if text, err = bson.MarshalExtJSONAppend(text[:0], document, canonical, false); err != nil {
			return err
		}
		_, err = out.Write(append(text, '\n'))
		return err
	})
}

func check(in *bufio.Reader, out *bufio.Writer) error {
	return documents(in, bson.Raw.Validate)
}

// documents gives each document of a dump, in a buffer that the next one takes.
func documents(in *bufio.Reader, each func(bson.Raw) error) error {
	room := make([]byte, 1<<16)
	for {
		var head [4]byte
		if _, err := io.ReadFull(in, head[:]); err == io.EOF {
			return nil
		} else if err != nil {
			return err
		}
		size := int(binary.LittleEndian.Uint32(head[:]))
		if size < 5 || size > 16793600 {
			return fmt.Errorf("bad length %d", size)
		}
		if size > len(room) {
			room = make([]byte, size)
		}
		copy(room, head[:])
		if _, err := io.ReadFull(in, room[4:size]); err != nil {
			return err
		}
		if err := each(bson.Raw(room[:size])); err != nil {
			return err
		}
	}
}

func pack(in *bufio.Reader, out *bufio.Writer) error {
	for {
		line, err := in.ReadBytes('\n')
		if err == io.EOF && len(line) == 0 {
			return nil
		}
		var document bson.D
		if err := bson.UnmarshalExtJSON(line, true, &document); err != nil {
			return err
		}
		bytes, err := bson.Marshal(document)
		if err != nil {
			return err
		}
		if _, err := out.Write(bytes); err != nil {
			return err
		}
	}
}

func run(command, name string) error {
	commands := map[string]func(*bufio.Reader, *bufio.Writer) error{"dump": dump, "relaxed": relaxed, "check": check, "pack": pack}
	does, known := commands[command]
	if !known {
		return fmt.Errorf("usage: driver dump|relaxed|check|pack FILE")
	}
	file, err := os.Open(name)
	if err != nil {
		return err
	}
	out := bufio.NewWriterSize(os.Stdout, 1<<20)
	if err := does(bufio.NewReaderSize(file, 1<<20), out); err != nil {
		return err
	}
	return out.Flush()
}

func main() {
	if len(os.Args) != 3 {
		os.Args = append(os.Args, "", "")
	}
	if err := run(os.Args[1], os.Args[2]); err != nil {
		fmt.Fprintln(os.Stderr, err)
		os.Exit(1)
	}
}
