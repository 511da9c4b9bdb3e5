// go-git URL: the refs of a server by go-git, a line with id and name each.
package main

import (
	"bufio"
	"fmt"
	"os"

	"github.com/go-git/go-git/plumbing/transport"
	"github.com/go-git/go-git/plumbing/transport/git"
)

func list(url string) error {
	endpoint, err := transport.NewEndpoint(url)
	if err != nil {
		return err
	}
	session, err := git.DefaultClient.NewUploadPackSession(endpoint, nil)
	if err != nil {
		return err
	}
	defer session.Close()
	refs, err := session.AdvertisedReferences()
	if err != nil {
		return err
	}
	out := bufio.NewWriter(os.Stdout)
	if refs.Head != nil {
		fmt.Fprintf(out, "%s\tHEAD\n", refs.Head)
	}
	for name, id := range refs.References {
		fmt.Fprintf(out, "%s\t%s\n", id, name)
	}
	for name, id := range refs.Peeled {
		fmt.Fprintf(out, "%s\t%s^{}\n", id, name)
	}
	return out.Flush()
}

func main() {
	if err := list(os.Args[1]); err != nil {
		fmt.Fprintln(os.Stderr, "go-git:", err)
		os.Exit(1)
	}
}
