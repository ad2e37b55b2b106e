"""quic-go, where it is installed: found, and built with quicgo.go and quicgo_secret.go in its tree."""

import json
import os
import pathlib
import shutil
import subprocess

import capture

IMPORT = "github.com/lucas-clemente/quic-go"
# where Debian keeps the sources of Go's libraries
DEBIAN = "/usr/share/gocode"
PACKAGE = "golang-github-lucas-clemente-quic-go-dev"


def workspace():
    """The folder of Go sources that holds quic-go, of those in GOPATH and Debian's."""
    for place in [*os.environ.get("GOPATH", "").split(os.pathsep), DEBIAN]:
        if place and (pathlib.Path(place) / "src" / IMPORT / "internal" / "handshake").is_dir():
            return place
    return None


def missing():
    if shutil.which("go") is None:
        yield "the program go (Debian's package golang-go)"
    if workspace() is None:
        yield f"the library {IMPORT} (Debian's package {PACKAGE})"


def version():
    """As Debian counts it, where Debian's package is there."""
    query = ["dpkg-query", "-W", "-f", "${Version}", PACKAGE]
    run = subprocess.run(query, capture_output=True, text=True, check=False) if shutil.which(query[0]) else None
    return run.stdout if run and run.returncode == 0 else "of unknown version"


def build(here, work):
    """Go lets only quic-go's own tree use its inner packages: an overlay puts our files there, and copies nothing."""
    place = workspace()
    overlay, program = work / "overlay.json", work / "quicgo"
    tree = pathlib.Path(place) / "src" / IMPORT
    files = {
        tree / "driftwicket" / "main.go": here / "quicgo.go",
        tree / "internal" / "handshake" / "driftwicket.go": here / "quicgo_secret.go",
    }
    overlay.write_text(json.dumps({"Replace": {str(at): str(source) for at, source in files.items()}}))
    settings = {"GO111MODULE": "off", "GOPATH": place, "GOFLAGS": "", "GOCACHE": str(work / "go")}
    command = ["go", "build", "-overlay", str(overlay), "-o", str(program), f"{IMPORT}/driftwicket"]
    if subprocess.run(command, env=dict(os.environ, **settings), check=False).returncode != 0:
        raise capture.Broken("interop/quicgo.go is not compiled")
    return program
