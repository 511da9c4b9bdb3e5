#!/usr/bin/env python3
"""The web servers of live_web.py and live_relay.py, on loopback: nginx with fcgiwrap, lighttpd, apache2, and a server of our own.

They run `git http-backend`, or with FILES they serve the files of a repository (gitprotocol-http, "dumb").

Run as `live_httpd.py serve PORT BACKEND`, this file is the server of our own. It runs the program BACKEND by CGI. Variables:

ACCOUNT    the account that it wants, as NAME:PASSWORD
PLAIN      it knows only version 0
CHANGES    how many requests it answers by one version, this version, and the version of later ones, as `1 2 0`
FILES      it serves plain files
TO         where it redirects each request
TO_AT      for which requests, if not for each: a word in their paths
SAYS       a status and a text: its answer to everything
CUT        how many bytes of each response's body it sends before it closes the connection
CUT_HEAD   the same, counted from the first byte of the head
CUT_AT     for which requests: a word in their paths
COOKIE     a cookie that it sets
ANSWER     a file with its answer to each request that has the word ANSWER_AT in its body
"""
import base64
import contextlib
import hashlib
import http.client
import http.server
import os
import shlex
import shutil
import subprocess
import sys
import time
import urllib.parse
from pathlib import Path

from live_servers import ended_after, free_port, wait_for_port

NGINX = """daemon off;
master_process off;
pid {room}/pid;
error_log {room}/log;
events {{}}
http {{
    access_log off;
    client_max_body_size 0;
    client_body_temp_path {room}/body;
    fastcgi_temp_path {room}/fastcgi;
    proxy_temp_path {room}/proxy;
    scgi_temp_path {room}/scgi;
    uwsgi_temp_path {room}/uwsgi;
    server {{
        listen 127.0.0.1:{port};
        {account}
        location / {{
            {to}
            {content}
        }}
    }}
}}
"""
NGINX_FILES = "root {folder};"
NGINX_CONTENT = """fastcgi_pass unix:{room}/cgi;
            fastcgi_buffering off;
            fastcgi_param SCRIPT_FILENAME {room}/backend;
            fastcgi_param PATH_INFO $uri;
            fastcgi_param QUERY_STRING $query_string;
            fastcgi_param REQUEST_METHOD $request_method;
            fastcgi_param CONTENT_TYPE $content_type;
            fastcgi_param CONTENT_LENGTH $content_length;
            fastcgi_param REMOTE_ADDR $remote_addr;"""
NGINX_ACCOUNT = 'auth_basic "x"; auth_basic_user_file {room}/users;'
NGINX_TO = "return 302 {to}$request_uri;"
LIGHTTPD = """server.document-root = "{folder}"
server.bind = "127.0.0.1"
server.port = {port}
server.errorlog = "{room}/log"
server.modules = ("mod_alias", "mod_auth", "mod_authn_file", "mod_redirect", "mod_cgi")
server.stream-response-body = 2
server.stat-cache-engine = "disable"
{content}
{account}
{to}
"""
LIGHTTPD_FILES = ""
LIGHTTPD_CONTENT = """alias.url = ("/" => "{room}/backend/")
cgi.assign = ("" => "")"""
LIGHTTPD_ACCOUNT = """auth.backend = "plain"
auth.backend.plain.userfile = "{room}/users"
auth.require = ("/" => ("method" => "basic", "realm" => "x", "require" => "valid-user"))"""
LIGHTTPD_TO = 'url.redirect = ("" => "{to}${{url.path}}${{qsa}}")'
APACHE_MODULES = "mpm_prefork", "authz_core", "authn_core", "authz_user", "authn_file", "auth_basic", "alias", "cgi"
APACHE = """ServerRoot {room}
ServerName 127.0.0.1
Listen 127.0.0.1:{port}
PidFile {room}/pid
ErrorLog {room}/log
LogLevel crit
Mutex file:{room} default
{modules}
DocumentRoot {folder}
<Directory />
    Options +ExecCGI +FollowSymLinks
    {account}
</Directory>
{to}
{content}
"""
APACHE_FILES = ""
APACHE_CONTENT = "ScriptAlias / {room}/backend/"
APACHE_ACCOUNT = """AuthType Basic
    AuthName x
    AuthBasicProvider file
    AuthUserFile {room}/users
    Require valid-user"""
APACHE_TO = "Redirect 302 / {to}/"


def program(name):
    """The path of a server, or None."""
    return shutil.which(name, path=f"{os.environ['PATH']}:/usr/sbin:/usr/local/sbin")


def web_servers():
    """The installed servers."""
    needed = {"nginx": ("nginx", "fcgiwrap"), "lighttpd": ("lighttpd",), "apache2": ("apache2",)}
    return [name for name, programs in needed.items() if all(map(program, programs))] or ["ours"]


def write_backend(room, folder, wish):
    """Writes the program that a server runs for each request."""
    lines = ["#!/bin/sh", f"export GIT_PROJECT_ROOT={shlex.quote(str(folder))} GIT_HTTP_EXPORT_ALL=1"]
    if "SAYS" in wish:
        status, _, text = wish["SAYS"].partition(" ")
        lines.append(f"printf 'Status: {status}\\r\\nContent-Type: text/html\\r\\n\\r\\n%s' {shlex.quote(text)}; exit")
    if "PLAIN" in wish:
        lines.append("unset HTTP_GIT_PROTOCOL GIT_PROTOCOL")
    if "CHANGES" in wish:
        count, *versions = wish["CHANGES"].split()
        asked = shlex.quote(str(room / "asked"))
        first, later = (f"export GIT_PROTOCOL=version={one} HTTP_GIT_PROTOCOL=version={one}" for one in versions)
        lines.append(f"echo >> {asked}; if [ $(wc -l < {asked}) -gt {count} ]; then {later}; else {first}; fi")
    backend = room / "backend"
    backend.write_text("\n".join([*lines, f"exec {shutil.which('git')} http-backend\n"]))
    backend.chmod(0o755)
    return backend


# the whole configuration of a server, the content of a folder and of git's program, an account, and a redirection
TEXTS = {
    "nginx": (NGINX, NGINX_FILES, NGINX_CONTENT, NGINX_ACCOUNT, NGINX_TO),
    "lighttpd": (LIGHTTPD, LIGHTTPD_FILES, LIGHTTPD_CONTENT, LIGHTTPD_ACCOUNT, LIGHTTPD_TO),
    "apache2": (APACHE, APACHE_FILES, APACHE_CONTENT, APACHE_ACCOUNT, APACHE_TO),
}


def named_account(name, account):
    """A line of a file of accounts."""
    user, password = account.split(":")
    sha = base64.b64encode(hashlib.sha1(password.encode()).digest()).decode()
    return {"nginx": f"{user}:{{PLAIN}}{password}", "lighttpd": account, "apache2": f"{user}:{{SHA}}{sha}"}[name] + "\n"


def configured(name, room, port, wish, **more):
    """Writes a server's configuration."""
    text, files, content, account, to = TEXTS[name]
    folder = wish.get("FILES", room)
    if "ACCOUNT" in wish:
        (room / "users").write_text(named_account(name, wish["ACCOUNT"]))
    parts = {
        "account": account.format(room=room) if "ACCOUNT" in wish else "Require all granted" if name == "apache2" else "",
        "to": to.format(to=wish["TO"]) if "TO" in wish else "",
        "content": (files if "FILES" in wish else content).format(room=room, folder=folder),
    }
    (room / "conf").write_text(text.format(room=room, port=port, folder=folder, **parts, **more))
    return room / "conf"


@contextlib.contextmanager
def nginx_of(t, room, port, wish):
    conf = configured("nginx", room, port, wish)
    with ended_after(t.begin(program("fcgiwrap"), "-c", 8, "-s", f"unix:{room}/cgi")):
        until = time.monotonic() + 10
        while not (room / "cgi").exists() and time.monotonic() < until:
            time.sleep(0.01)
        with ended_after(t.begin(program("nginx"), "-e", room / "log", "-p", room, "-c", conf)) as begun:
            wait_for_port(port, begun)
            yield


@contextlib.contextmanager
def lighttpd_of(t, room, port, wish):
    conf = configured("lighttpd", room, port, wish)
    with ended_after(t.begin(program("lighttpd"), "-D", "-f", conf)) as begun:
        wait_for_port(port, begun)
        yield


@contextlib.contextmanager
def apache2_of(t, room, port, wish):
    found = {"mpm_prefork": "mpm_prefork_module"}
    lines = (f"LoadModule {found.get(one, one + '_module')} /usr/lib/apache2/modules/mod_{one}.so" for one in APACHE_MODULES)
    conf = configured("apache2", room, port, wish, modules="\n".join(lines))
    # apache2 serves nothing as root. In a namespace without users it isn't root, and has the files of root all the same.
    alone = ("unshare", "-U") if os.getuid() == 0 else ()
    with ended_after(t.begin(*alone, program("apache2"), "-D", "FOREGROUND", "-f", conf)) as begun:
        wait_for_port(port, begun)
        yield


@contextlib.contextmanager
def ours_of(t, room, port, wish):
    more = {f"WEB_{name}": str(value) for name, value in wish.items()}
    with ended_after(t.begin(sys.executable, Path(__file__).resolve(), "serve", port, room / "backend", more=more)) as begun:
        wait_for_port(port, begun)
        yield


OF = {"nginx": nginx_of, "lighttpd": lighttpd_of, "apache2": apache2_of, "ours": ours_of}


@contextlib.contextmanager
def web_of(t, name, folder, **wish):
    """Runs a web server of this name over a folder. Yields the beginning of its URLs."""
    with contextlib.ExitStack() as begun:
        room, port = t.folder("web"), free_port()
        room.mkdir()
        write_backend(room, folder, wish)
        if wish.pop("FILES", False):
            wish["FILES"] = folder
        words = "CUT", "CUT_HEAD", "CUT_AT", "COOKIE", "ANSWER", "ANSWER_AT", *(("TO", "TO_AT") if "TO_AT" in wish else ())
        front = {word: wish.pop(word) for word in words if word in wish}
        begun.enter_context(OF[name](t, room, port, wish))
        if front:
            behind, port = port, free_port()
            begun.enter_context(ours_of(t, room, port, {**front, "THROUGH": behind}))
        yield f"http://127.0.0.1:{port}"


# The server of our own


class Answers(http.server.BaseHTTPRequestHandler):
    """Answers requests by CGI, by another server, or as the environment says."""
    protocol_version = "HTTP/1.1"

    def log_message(self, *words):
        pass

    def body(self):
        if "chunked" not in self.headers.get("Transfer-Encoding", ""):
            return self.rfile.read(int(self.headers.get("Content-Length") or 0))
        found = b""
        while size := int(self.rfile.readline().split(b";")[0], 16):
            found += self.rfile.read(size)
            self.rfile.readline()
        self.rfile.readline()
        return found

    def say(self, status, headers=(), body=b""):
        lines = [f"HTTP/1.1 {status} x", *(f"{name}: {value}" for name, value in headers), f"Content-Length: {len(body)}"]
        if os.environ.get("WEB_COOKIE"):
            lines.append(f"Set-Cookie: {os.environ['WEB_COOKIE']}")
        head = "\r\n".join([*lines, "", ""]).encode()
        said, end = head + body, len(head) + len(body)
        if os.environ.get("WEB_CUT_AT", "") in self.path:
            if "WEB_CUT_HEAD" in os.environ:
                end = int(os.environ["WEB_CUT_HEAD"])
            elif "WEB_CUT" in os.environ:
                end = len(head) + int(os.environ["WEB_CUT"])
        self.wfile.write(said[:end])
        self.close_connection = self.close_connection or end < len(said)

    def answer(self):
        body = self.body()
        account = os.environ.get("WEB_ACCOUNT")
        wanted = account and "Basic " + base64.b64encode(account.encode()).decode()
        if wanted and self.headers.get("Authorization") != wanted:
            return self.say(401, [("WWW-Authenticate", 'Basic realm="x"')])
        if os.environ.get("WEB_TO") and os.environ.get("WEB_TO_AT", "") in self.path:
            return self.say(302, [("Location", os.environ["WEB_TO"] + self.path)])
        if "WEB_ANSWER" in os.environ and os.environ["WEB_ANSWER_AT"].encode() in body:
            return self.say(200, [("Content-Type", "application/x-git-upload-pack-result")], Path(os.environ["WEB_ANSWER"]).read_bytes())
        if os.environ.get("WEB_THROUGH"):
            return self.pass_on(body)
        return self.send_file() if os.environ.get("WEB_FILES") else self.run(body)

    def send_file(self):
        """Sends a file of a folder."""
        name = urllib.parse.unquote(urllib.parse.urlsplit(self.path).path).lstrip("/")
        path = Path(os.environ["WEB_FILES"]) / name
        return self.say(200, [], path.read_bytes()) if path.is_file() else self.say(404)

    def pass_on(self, body):
        """Sends the response of another server."""
        other = http.client.HTTPConnection("127.0.0.1", int(os.environ["WEB_THROUGH"]))
        kept = {name: value for name, value in self.headers.items() if name.lower() not in ("transfer-encoding", "content-length", "expect")}
        other.request(self.command, self.path, body or None, kept)
        said = other.getresponse()
        left_out = ("transfer-encoding", "content-length", "connection", "date", "server")
        headers = [one for one in said.getheaders() if one[0].lower() not in left_out]
        self.say(said.status, headers, said.read())
        other.close()

    def run(self, body):
        """Sends the output of a program."""
        url = urllib.parse.urlsplit(self.path)
        variables = {
            **os.environ, "PATH_INFO": urllib.parse.unquote(url.path), "QUERY_STRING": url.query, "REQUEST_METHOD": self.command,
            "CONTENT_TYPE": self.headers.get("Content-Type", ""), "CONTENT_LENGTH": str(len(body)), "REMOTE_ADDR": "127.0.0.1",
        }
        for name in ("Git-Protocol", "Content-Encoding"):
            if self.headers.get(name):
                variables["HTTP_" + name.upper().replace("-", "_")] = self.headers[name]
        ran = subprocess.run([sys.argv[3]], input=body, stdout=subprocess.PIPE, env=variables, check=False)
        head, _, said = ran.stdout.partition(b"\r\n\r\n")
        headers = [line.split(": ", 1) for line in head.decode().split("\r\n") if line]
        status = next((int(value.split()[0]) for name, value in headers if name == "Status"), 200)
        self.say(status, [one for one in headers if one[0] != "Status"], said)

    do_GET = do_POST = answer


def serve():
    with http.server.ThreadingHTTPServer(("127.0.0.1", int(sys.argv[2])), Answers) as server:
        server.daemon_threads = True
        server.serve_forever()


if __name__ == "__main__" and sys.argv[1:2] == ["serve"]:
    serve()
