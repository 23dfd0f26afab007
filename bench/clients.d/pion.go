// A call with pion's client: Binding, Allocate, CreatePermission, a channel, data, Refresh to 0. Words: PORT PEER_PORT USER PASSWORD
// REALM [FILE]. With FILE it prints `talking` after the first data, sends on until FILE is there (the server is killed and started
// again in between), and goes on with the same allocation.
package main

import (
	"bytes"
	"fmt"
	"net"
	"os"
	"time"

	"github.com/pion/logging"
	"github.com/pion/turn/v2"
)

// Sends 100 datagrams, each of which has to come back before the next.
func talk(relay net.PacketConn, peer net.Addr) error {
	got := make([]byte, 65536)
	for number := 0; number < 100; number++ {
		sent := bytes.Repeat([]byte{byte(number)}, 1+number*12)
		if _, err := relay.WriteTo(sent, peer); err != nil {
			return fmt.Errorf("datagram %d: %w", number, err)
		}
		if err := relay.SetReadDeadline(time.Now().Add(3 * time.Second)); err != nil {
			return err
		}
		size, from, err := relay.ReadFrom(got)
		if err != nil {
			return fmt.Errorf("datagram %d: %w", number, err)
		}
		if from.String() != peer.String() || !bytes.Equal(got[:size], sent) {
			return fmt.Errorf("datagram %d: other data, from %s", number, from)
		}
		time.Sleep(5 * time.Millisecond)
	}
	return nil
}

// Sends on until the file is there, whatever comes back, and reads what is still under way.
func talkUntil(relay net.PacketConn, peer net.Addr, file string) error {
	got := make([]byte, 65536)
	wait := 50 * time.Millisecond
	for {
		_, err := os.Stat(file)
		again := err == nil
		if again {
			wait = 500 * time.Millisecond
		} else if _, err = relay.WriteTo([]byte("under way"), peer); err != nil {
			return err
		}
		if err = relay.SetReadDeadline(time.Now().Add(wait)); err != nil {
			return err
		}
		if _, _, err = relay.ReadFrom(got); err != nil && again {
			return nil
		}
	}
}

func call(port, peerPort, user, password, realm string, files []string) error {
	// An address of its own, so that no five-tuple has an allocation of a client that went without deleting it.
	conn, err := net.ListenPacket("udp4", "127.0.0.3:0")
	if err != nil {
		return err
	}
	defer conn.Close()
	server := "127.0.0.1:" + port
	client, err := turn.NewClient(&turn.ClientConfig{
		STUNServerAddr: server,
		TURNServerAddr: server,
		Conn:           conn,
		Username:       user,
		Password:       password,
		Realm:          realm,
		LoggerFactory:  logging.NewDefaultLoggerFactory(),
	})
	if err != nil {
		return err
	}
	defer client.Close()
	if err = client.Listen(); err != nil {
		return err
	}
	mapped, err := client.SendBindingRequest()
	if err != nil {
		return fmt.Errorf("Binding: %w", err)
	}
	if mapped.String() != conn.LocalAddr().String() {
		return fmt.Errorf("Binding: %s in place of %s", mapped, conn.LocalAddr())
	}
	relay, err := client.Allocate()
	if err != nil {
		return fmt.Errorf("Allocate: %w", err)
	}
	peer, err := net.ResolveUDPAddr("udp4", "127.0.0.1:"+peerPort)
	if err != nil {
		return err
	}
	// The first datagrams go as Send indications; the channel is bound beside them.
	if err = talk(relay, peer); err != nil {
		return err
	}
	for _, file := range files {
		fmt.Println("talking")
		if err = talkUntil(relay, peer, file); err != nil {
			return err
		}
		if err = talk(relay, peer); err != nil {
			return fmt.Errorf("after the start: %w", err)
		}
	}
	return relay.Close()
}

func main() {
	if err := call(os.Args[1], os.Args[2], os.Args[3], os.Args[4], os.Args[5], os.Args[6:]); err != nil {
		fmt.Fprintln(os.Stderr, err)
		os.Exit(1)
	}
}
