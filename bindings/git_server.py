"""git's own server, run by a web server in Python, for the tests of the bindings and of the page."""
import http.server
import os
import subprocess


def git(*words, folder=None, **more):
    who = ["-c", "user.name=a", "-c", "user.email=a@b", "-c", "init.defaultBranch=main"]
    return subprocess.run(["git", *who, *words], cwd=folder, check=True, stdout=subprocess.PIPE, **more).stdout


class Backend(http.server.BaseHTTPRequestHandler):
    """Passes each request to `git http-backend` over the repositories of the folder `server.root`."""

    def backend(self, path, query, body):
        env = dict(os.environ, GIT_PROJECT_ROOT=str(self.server.root), GIT_HTTP_EXPORT_ALL="1", PATH_INFO=path, QUERY_STRING=query,
                   REQUEST_METHOD=self.command, CONTENT_TYPE=self.headers.get("Content-Type", ""),
                   CONTENT_LENGTH=str(len(body)), GIT_PROTOCOL=self.headers.get("Git-Protocol", ""))
        out = subprocess.run(["git", "http-backend"], input=body, env=env, stdout=subprocess.PIPE, stderr=subprocess.DEVNULL).stdout
        head, _, body = out.partition(b"\r\n\r\n")
        fields = dict(line.decode().split(": ", 1) for line in head.split(b"\r\n"))
        self.send_response(int(fields.pop("Status", "200").split()[0]))
        for name, value in fields.items():
            self.send_header(name, value)
        self.end_headers()
        self.wfile.write(body)

    def serve(self, body=b""):
        path, _, query = self.path.partition("?")
        self.backend(path, query, body)

    def do_GET(self):
        self.serve()

    def do_POST(self):
        self.serve(self.rfile.read(int(self.headers["Content-Length"])))

    def log_message(self, *words):
        pass
