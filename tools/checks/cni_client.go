// A CNI client over libcni, which container runtimes call plugins by. tools/checks/cni_client builds and runs it.
//
//	cni_client versions                               the versions that this libcni knows
//	cni_client plugin TYPE                            the versions that the plugin says it knows
//	cni_client COMMAND CONFLIST CACHE CONTAINER NETNS IFNAME [KEY=VALUE..]
//	                                                  makes add, check or del; add prints the result
//
// Plugins are found in CNI_PATH. Each result is kept in the folder CACHE, as a runtime keeps it.
package main

import (
	"context"
	"errors"
	"fmt"
	"os"
	"path/filepath"
	"strings"

	"github.com/containernetworking/cni/libcni"
	"github.com/containernetworking/cni/pkg/version"
)

func main() {
	if err := run(os.Args[1:]); err != nil {
		fmt.Fprintln(os.Stderr, err)
		os.Exit(1)
	}
}

func run(words []string) error {
	path := filepath.SplitList(os.Getenv("CNI_PATH"))
	switch {
	case len(words) == 1 && words[0] == "versions":
		return tell(version.All.SupportedVersions())
	case len(words) == 2 && words[0] == "plugin":
		info, err := libcni.NewCNIConfig(path, nil).GetVersionInfo(context.Background(), words[1])
		if err != nil {
			return err
		}
		return tell(info.SupportedVersions())
	case len(words) >= 6:
		return call(libcni.NewCNIConfigWithCacheDir(path, words[2], nil), words)
	}
	return errors.New("cni_client: unknown words")
}

func tell(versions []string) error {
	_, err := fmt.Println(strings.Join(versions, " "))
	return err
}

func call(cni *libcni.CNIConfig, words []string) error {
	list, err := libcni.ConfListFromFile(words[1])
	if err != nil {
		return err
	}
	attachment := &libcni.RuntimeConf{ContainerID: words[3], NetNS: words[4], IfName: words[5]}
	for _, word := range words[6:] {
		key, value, _ := strings.Cut(word, "=")
		attachment.Args = append(attachment.Args, [2]string{key, value})
	}
	switch words[0] {
	case "add":
		result, err := cni.AddNetworkList(context.Background(), list, attachment)
		if err != nil {
			return err
		}
		return result.PrintTo(os.Stdout)
	case "check":
		return cni.CheckNetworkList(context.Background(), list, attachment)
	case "del":
		return cni.DelNetworkList(context.Background(), list, attachment)
	}
	return errors.New("cni_client: unknown command")
}
