"""nginx's time-outs, on a counter of sleeps: of a client that says nothing, of a connection that is kept,
and of a server behind it that doesn't answer; and the date of an answer."""
from runs import STILL, RunTest, needs

CONFIGURATION = """daemon off;
master_process off;
pid FOLDER/pid;
error_log FOLDER/error.log;
events {}
http {
    access_log off;
    client_body_temp_path FOLDER/body;
    proxy_temp_path FOLDER/proxy;
    fastcgi_temp_path FOLDER/fastcgi;
    uwsgi_temp_path FOLDER/uwsgi;
    scgi_temp_path FOLDER/scgi;
    client_header_timeout 60s;
    keepalive_timeout 75s;
    proxy_read_timeout 90s;
    server {
        listen unix:FOLDER/socket;
        location / { return 200 "here\\n"; }
        location /slow { proxy_pass http://unix:FOLDER/silent; }
    }
}
"""

# each prints how long the server waited, in s of MONOTONIC
CLIENT = """
import re, socket, sys, time

def ask(text):
    client = socket.socket(socket.AF_UNIX)
    client.connect("socket")
    client.sendall(text)
    start, answer = time.monotonic(), b""
    while part := client.recv(4096):
        answer += part
    return round(time.monotonic() - start), answer.decode()

silent = socket.socket(socket.AF_UNIX)
silent.bind("silent")
silent.listen()
while True:
    try:
        socket.socket(socket.AF_UNIX).connect("socket")
        break
    except OSError:
        time.sleep(0.1)
HEAD = b"GET / HTTP/1.1\\r\\nHost: a\\r\\n"
print("header", ask(HEAD)[0])
seconds, answer = ask(HEAD + b"\\r\\n")
print("keepalive", seconds, re.search("Date: (.*?)\\r", answer)[1])
seconds, answer = ask(b"GET /slow HTTP/1.0\\r\\n\\r\\n")
print("proxy", seconds, answer.split("\\r")[0])
"""


@needs("nginx")
class Nginx(RunTest):
    def test_timeouts(self):
        self.file("conf", CONFIGURATION.replace("FOLDER", str(self.folder)))
        self.file("client.py", CLIENT)
        code = (f"cd {self.folder}; nginx -c $PWD/conf -p $PWD 2>/dev/null & "
                "/usr/bin/python3 client.py; kill $!; wait")
        lines = self.run_on(*STILL, "--start", "2038-01-19T03:14:00Z", "--", "bash", "-c",
                            code).splitlines()
        self.assertEqual(lines[0], "header 60")
        # nginx renews its date at most twice a second
        self.assertRegex(lines[1], "^keepalive 75 Tue, 19 Jan 2038 03:15:0[01] GMT$")
        self.assertEqual(lines[2], "proxy 90 HTTP/1.1 504 Gateway Time-out")
