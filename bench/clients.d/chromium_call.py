"""Two RTCPeerConnections of one Chromium, over relay candidates alone: words go to and fro over a data channel.

words: PORT USER PASSWORD CHROMIUM FOLDER [FILE]

PORT is one of 127.0.0.1, or IP:PORT. FOLDER is an empty one for Chromium's files. With FILE, `talking` is printed after the first words,
and words go on until FILE is there and 50 more have come back; the server is killed and started again in between."""
import http.server
import os
import subprocess
import sys
import threading

PAGE = """<!doctype html><script>
const say = text => fetch("/" + text, {method: "POST"});
const wait = ms => new Promise(done => setTimeout(done, ms));
const config = {iceTransportPolicy: "relay", iceServers: [{urls: "turn:SERVER?transport=udp", username: "USER", credential: "PASSWORD"}]};
async function run() {
  const [a, b] = [new RTCPeerConnection(config), new RTCPeerConnection(config)];
  const types = new Set();
  for (const [one, other] of [[a, b], [b, a]])
    one.onicecandidate = event => {
      if (event.candidate && event.candidate.candidate) { types.add(event.candidate.type); other.addIceCandidate(event.candidate); }
    };
  b.ondatachannel = event => { event.channel.onmessage = word => event.channel.send(word.data); };
  const channel = a.createDataChannel("words");
  let back = 0, sent = 0;
  channel.onmessage = () => back++;
  const opened = new Promise(done => channel.onopen = done);
  await a.setLocalDescription(await a.createOffer());
  await b.setRemoteDescription(a.localDescription);
  await b.setLocalDescription(await b.createAnswer());
  await a.setRemoteDescription(b.localDescription);
  await opened;
  const words = async count => {
    const first = back;
    for (let tries = 0; back < first + count && tries < 3000; tries++) {
      if (sent - back < 20) channel.send("word " + sent++);
      await wait(20);
    }
    if (back < first + count) throw "only " + back + " of " + sent + " words came back";
  };
  await words(100);
  await say("talking");
  while (AGAIN && !await (await fetch("/again")).json()) await words(1);
  await words(50);
  if ([...types].join() != "relay") throw "candidates: " + [...types];
  await say("passed");
}
run().catch(error => say("failed " + encodeURIComponent(error)));
</script>"""


class Page(http.server.BaseHTTPRequestHandler):
    def answer(self, kind, body):
        self.send_response(200)
        self.send_header("Content-Type", kind)
        self.send_header("Content-Length", str(len(body)))
        self.end_headers()
        self.wfile.write(body)

    def do_GET(self):
        if self.path == "/again":
            self.answer("application/json", b"true" if os.path.exists(self.server.again) else b"false")
        else:
            self.answer("text/html", self.server.page.encode())

    def do_POST(self):
        self.answer("text/plain", b"")
        text = self.path[1:]
        print(text, flush=True)
        if text != "talking":
            self.server.result = text
            self.server.ended.set()

    def log_message(self, *_):
        pass


def main(port, user, password, chromium, folder, again=""):
    server = http.server.ThreadingHTTPServer(("127.0.0.1", 0), Page)
    address = port if ":" in port else f"127.0.0.1:{port}"
    page = PAGE.replace("SERVER", address).replace("USER", user).replace("PASSWORD", password)
    server.page = page.replace("AGAIN", "true" if again else "false")
    server.again, server.result, server.ended = again, "no result", threading.Event()
    threading.Thread(target=server.serve_forever, daemon=True).start()
    browser = subprocess.Popen(
        [
            chromium, "--headless=new", "--no-sandbox", "--disable-gpu", "--allow-loopback-in-peer-connection", "--no-first-run",
            f"--user-data-dir={folder}", f"http://127.0.0.1:{server.server_address[1]}/",
        ],
        stdin=subprocess.DEVNULL, stdout=subprocess.DEVNULL, stderr=subprocess.DEVNULL,
    )
    try:
        server.ended.wait(90)
    finally:
        browser.terminate()
        browser.wait()
    return server.result


if __name__ == "__main__":
    result = main(*sys.argv[1:])
    if result != "passed":
        sys.exit(result)
