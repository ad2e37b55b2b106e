// Protection by a secret of TLS, which quic-go keeps inside its package handshake: this file is built as a part of it.
package handshake

import "github.com/lucas-clemente/quic-go/internal/protocol"

// NewSecretAEAD seals and opens with the keys of one sender at one level, in the suite that Initials have.
func NewSecretAEAD(secret []byte, v protocol.VersionNumber) (LongHeaderSealer, LongHeaderOpener) {
	return newLongHeaderSealer(createAEAD(initialSuite, secret, v), newHeaderProtector(initialSuite, secret, true, v)),
		newLongHeaderOpener(createAEAD(initialSuite, secret, v), newHeaderProtector(initialSuite, secret, true, v))
}
