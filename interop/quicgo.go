// Opens and seals packets with long headers by quic-go's own code and gives its tag of a Retry: one request to a line of
// the input, and a line for each answer.
//
//	open VERSION LEVEL FROM SENDER DATAGRAM
//	seal VERSION LEVEL FROM SENDER NUMBER ACKNOWLEDGED LENGTH DESTINATION SOURCE TOKEN PAYLOAD
//	tag VERSION ORIGINAL RETRY
//
// The words are those of library.c; ACKNOWLEDGED isn't looked at, and RETRY ends before its tag. The answers are library.c's
// too, but "dropped" with quic-go's reason where a packet isn't opened, and a tag.
//
// quic-go keeps these parts to itself. So this file is built as if it stood in quic-go's own tree: quicgo.py.
package main

import (
	"bufio"
	"bytes"
	"encoding/hex"
	"errors"
	"fmt"
	"os"
	"strconv"
	"strings"

	"github.com/lucas-clemente/quic-go/internal/handshake"
	"github.com/lucas-clemente/quic-go/internal/protocol"
	"github.com/lucas-clemente/quic-go/internal/wire"
)

// RFC 9001 section 5.4.2: the sample starts four bytes behind the start of the number.
const (
	sampleOffset = 4
	sampleEnd    = sampleOffset + 16
)

// The words of a request that aren't read yet.
type request []string

func (r *request) word() string {
	if len(*r) == 0 {
		stop(errors.New("a word is missing"))
	}
	first := (*r)[0]
	*r = (*r)[1:]
	return first
}

func (r *request) number() uint64 {
	number, err := strconv.ParseUint(r.word(), 10, 62)
	stop(err)
	return number
}

func (r *request) bytes() []byte {
	word := r.word()
	if word == "-" {
		return nil
	}
	read, err := hex.DecodeString(word)
	stop(err)
	return read
}

func (r *request) version() protocol.VersionNumber {
	return protocol.VersionNumber(r.number())
}

// The levels by their names.
var levels = map[string]protocol.PacketType{
	"Initial":   protocol.PacketTypeInitial,
	"0-RTT":     protocol.PacketType0RTT,
	"Handshake": protocol.PacketTypeHandshake,
}

// One sender's protection at one level.
type protection struct {
	version protocol.VersionNumber
	name    string
	level   protocol.PacketType
	sealer  handshake.LongHeaderSealer
	opener  handshake.LongHeaderOpener
}

// An Initial's sealer is of the sender's side, and its opener of the receiver's.
func (r *request) protection() (p protection) {
	p.version = r.version()
	p.name = r.word()
	p.level = levels[p.name]
	from := r.bytes()
	sender, receiver := protocol.PerspectiveClient, protocol.PerspectiveServer
	if r.word() == "server" {
		sender, receiver = receiver, sender
	}
	if p.level != protocol.PacketTypeInitial {
		p.sealer, p.opener = handshake.NewSecretAEAD(from, p.version)
		return p
	}
	p.sealer, _ = handshake.NewInitialAEAD(from, sender, p.version)
	_, p.opener = handshake.NewInitialAEAD(from, receiver, p.version)
	return p
}

func stop(err error) {
	if err != nil {
		fmt.Fprintln(os.Stderr, "quicgo:", err)
		os.Exit(2)
	}
}

func word(part []byte) string {
	if len(part) == 0 {
		return "-"
	}
	return hex.EncodeToString(part)
}

// The header without its mask, and the payload.
func opened(opener handshake.LongHeaderOpener, header *wire.Header, packet []byte) (*wire.ExtendedHeader, []byte, error) {
	at := int(header.ParsedLen())
	if len(packet) < at+sampleEnd {
		return nil, nil, errors.New("no sample")
	}
	masked := append([]byte{}, packet[at:at+sampleOffset]...)
	opener.DecryptHeader(packet[at+sampleOffset:at+sampleEnd], &packet[0], packet[at:at+sampleOffset])
	extended, err := header.ParseExtended(bytes.NewReader(packet), header.Version)
	if err != nil {
		return nil, nil, err
	}
	// what stands behind a number of fewer than four bytes was no part of it
	end := int(extended.ParsedLen())
	copy(packet[end:at+sampleOffset], masked[end-at:])
	extended.PacketNumber = opener.DecodePacketNumber(extended.PacketNumber, extended.PacketNumberLen)
	payload, err := opener.Open(nil, packet[end:], extended.PacketNumber, packet[:end])
	return extended, payload, err
}

func open(r *request) string {
	keys := r.protection()
	header, packet, _, err := wire.ParsePacket(r.bytes(), 0)
	if err != nil {
		return "dropped " + err.Error()
	}
	if header.Type != keys.level || header.Version != keys.version {
		return "dropped as another packet"
	}
	extended, payload, err := opened(keys.opener, header, packet)
	if err != nil {
		return "dropped " + err.Error()
	}
	parts := []string{word(extended.DestConnectionID), word(extended.SrcConnectionID), word(extended.Token)}
	return fmt.Sprintf("opened %s %s %d %d %s", keys.name, strings.Join(parts, " "), extended.PacketNumber,
		extended.PacketNumberLen, word(payload))
}

func seal(r *request) string {
	keys := r.protection()
	var header wire.ExtendedHeader
	header.PacketNumber = protocol.PacketNumber(r.number())
	_ = r.word()
	header.PacketNumberLen = protocol.PacketNumberLen(r.number())
	header.IsLongHeader = true
	header.Type = keys.level
	header.Version = keys.version
	header.DestConnectionID, header.SrcConnectionID, header.Token = r.bytes(), r.bytes(), r.bytes()
	payload := r.bytes()
	header.Length = protocol.ByteCount(int(header.PacketNumberLen) + len(payload) + keys.sealer.Overhead())
	var plain bytes.Buffer
	stop(header.Write(&plain, keys.version))
	associated := plain.Bytes()
	packet := append(append([]byte{}, associated...), keys.sealer.Seal(nil, payload, header.PacketNumber, associated)...)
	at := len(associated) - int(header.PacketNumberLen)
	keys.sealer.EncryptHeader(packet[at+sampleOffset:at+sampleEnd], &packet[0], packet[at:len(associated)])
	return word(packet)
}

func tag(r *request) string {
	version, original := r.version(), r.bytes()
	return word(handshake.GetRetryIntegrityTag(r.bytes(), original, version)[:])
}

func main() {
	calls := map[string]func(*request) string{"open": open, "seal": seal, "tag": tag}
	lines := bufio.NewScanner(os.Stdin)
	for lines.Scan() {
		asked := request(strings.Fields(lines.Text()))
		call := calls[asked.word()]
		if call == nil {
			stop(errors.New("neither open nor seal nor tag"))
		}
		fmt.Println(call(&asked))
	}
	stop(lines.Err())
}
