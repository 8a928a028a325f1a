// Copies a file by two goroutines: one reads blocks of 8,192 bytes and sends them on a channel that holds none, the
// other receives and writes them. The peer of a pipeline of the stages read and write.
package main

import (
	"fmt"
	"io"
	"os"
)

const block = 8192

func read(in *os.File, blocks chan<- []byte, fault *error) {
	defer close(blocks)
	for {
		buffer := make([]byte, block)
		n, err := io.ReadFull(in, buffer)
		if n > 0 {
			blocks <- buffer[:n]
		}
		if err != nil {
			if err != io.EOF && err != io.ErrUnexpectedEOF {
				*fault = err
			}
			return
		}
	}
}

func copyFile(from, to string) error {
	in, err := os.Open(from)
	if err != nil {
		return err
	}
	defer in.Close()
	out, err := os.Create(to)
	if err != nil {
		return err
	}
	blocks := make(chan []byte)
	var fault error
	go read(in, blocks, &fault)
	for b := range blocks {
		if _, err := out.Write(b); err != nil {
			return err
		}
	}
	if fault != nil {
		return fault
	}
	return out.Close()
}

func main() {
	if len(os.Args) != 3 {
		fmt.Fprintln(os.Stderr, "usage: copy FROM TO")
		os.Exit(2)
	}
	if err := copyFile(os.Args[1], os.Args[2]); err != nil {
		fmt.Fprintln(os.Stderr, err)
		os.Exit(1)
	}
}
