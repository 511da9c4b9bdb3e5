"""The servers of live.py: our own in place of ssh, pipes for the program alone, git daemon and sshd on loopback.

Run as `live_servers.py as-ssh WORD..`, this file is the server in place of ssh (`as_ssh`).
"""
import contextlib
import getpass
import os
import pathlib
import shlex
import shutil
import socket
import subprocess
import sys
import time

from live_harness import end_session

# In place of ssh


def as_ssh():
    """Runs the server command of the last word, changed by variables:

    LIVE_STARTS    a file that gets a line for each start
    LIVE_VERSION   the version that it speaks, whatever the client requests
    LIVE_MOST      how many bytes it sends before it dies
    LIVE_PAD       the length of a capability that it adds after `version 2`
    LIVE_BODIES    a new server process answers each request, as over HTTP, under version 2
    LIVE_BOUNDARY  the lines `shallow` and `unshallow` that it sends before the pack, in place of the server's own
    LIVE_SAYS      a band and a text that it sends before the pack's last packet line
    LIVE_ENDS      it ends right after the pack
    LIVE_PACK      a file with a pack that it sends in place of its own
    LIVE_URIS      lines of a section `packfile-uris` before the pack, with escapes. A `*` before them leaves out the delimiter packet
                   after them, and a `!` everything after them
    LIVE_WAITS     a file that it makes before it answers a fetch. It waits until the file is removed. Needs LIVE_BODIES
    """
    path = shlex.split(sys.argv[-1])[1]
    names = "STARTS", "VERSION", "MOST", "PAD", "BODIES", "BOUNDARY", "SAYS", "ENDS", "PACK", "URIS", "WAITS"
    wish = {name: os.environ.get(f"LIVE_{name}") for name in names}
    if wish["STARTS"]:
        with open(wish["STARTS"], "a") as starts:
            starts.write("start\n")
    edits = any(wish[name] for name in ("BOUNDARY", "SAYS", "ENDS", "PACK", "URIS"))
    if wish["VERSION"] or wish["BODIES"] or edits:
        os.environ["GIT_PROTOCOL"] = f"version={wish['VERSION'] or 2}"
    if wish["BODIES"] or edits:
        return answer_bodies(path, lambda answer: edited(answer, wish), wish["WAITS"])
    if not (wish["MOST"] or wish["PAD"]):
        os.execvp("git", ["git", "upload-pack", path])
    server = subprocess.Popen(["git", "upload-pack", path], stdout=subprocess.PIPE)
    if wish["PAD"]:
        tell(server.stdout.read(14) + frame(b"x=" + b"y" * int(wish["PAD"])))
    left = int(wish["MOST"] or 1 << 60)
    while left and (said := server.stdout.read1(min(left, 1 << 16))):
        tell(said)
        left -= len(said)
    server.kill()


def tell(said):
    sys.stdout.buffer.write(said)
    sys.stdout.buffer.flush()


def edited(answer, wish):
    """Changes a response with a pack as the variables say."""
    head = frame(b"packfile\n")
    if head not in answer:
        return answer
    front, pack = answer.split(head, 1)
    if wish["BOUNDARY"]:
        lines = b"".join(frame(line.encode() + b"\n") for line in wish["BOUNDARY"].split(","))
        front = front.split(frame(b"shallow-info\n"))[0] + frame(b"shallow-info\n") + lines + b"0001"
    if wish["URIS"]:
        mark, text = (wish["URIS"][0], wish["URIS"][1:]) if wish["URIS"][0] in "*!" else ("", wish["URIS"])
        lines = text.encode("latin1").decode("unicode_escape").encode("latin1").split(b"\n")
        front += frame(b"packfile-uris\n") + b"".join(frame(line + b"\n") for line in lines)
        if mark == "!":
            return front
        front += b"" if mark else b"0001"
    if wish["PACK"]:
        pack = frame(b"\1" + pathlib.Path(wish["PACK"]).read_bytes()) + b"0000"
    if wish["SAYS"]:
        band, _, text = wish["SAYS"].partition(" ")
        pack = pack[:-4] + frame(bytes([int(band)]) + text.encode("latin1").decode("unicode_escape").encode("latin1")) + b"0000"
    return front + head + (pack[:-4] if wish["ENDS"] else pack)


def answer_bodies(path, edit, waits=None):
    """Sends the capability advertisement, and then answers each request."""
    def answer(word, request):
        if waits and b"command=fetch" in request:
            pathlib.Path(waits).touch()
            while os.path.exists(waits):
                time.sleep(0.01)
        said = edit(subprocess.run(["git", "upload-pack", word, path], input=request, stdout=subprocess.PIPE).stdout)
        tell(said)
        if said and not said.endswith(b"0000"):
            sys.exit()

    answer("--http-backend-info-refs", b"")
    while (request := request_of(sys.stdin.buffer)) not in (b"", b"0000"):
        answer("--stateless-rpc", request)


def request_of(stream):
    """The packet lines up to the flush packet, or None at the end."""
    request = b""
    while len(size := stream.read(4)) == 4:
        request += size
        if size == b"0000":
            return request
        request += stream.read(max(int(size, 16), 4) - 4)
    return b""


def ssh(**wish):
    """The variables with which the helper starts this server."""
    command = f"{sys.executable} {shlex.quote(str(pathlib.Path(__file__).resolve()))} as-ssh"
    return {"GIT_SSH_COMMAND": command, "GIT_SSH_VARIANT": "ssh", **{f"LIVE_{name}": str(value) for name, value in wish.items()}}


def bodies(server):
    return (f"file://{server}", f"gixp::ssh://host{server}"), ssh(BODIES=1)


def shell_ssh(t, text):
    """The variables with which the helper starts a shell script with this text in place of ssh."""
    tools = t.folder("ssh")
    tools.mkdir()
    script = tools / "ssh"
    script.write_text(f"#!/bin/sh\n{text}\n")
    script.chmod(0o755)
    return {"GIT_SSH_COMMAND": str(script), "GIT_SSH_VARIANT": "ssh"}


def here_ssh(t):
    """The variables with which it runs the command on this machine."""
    return shell_ssh(t, 'for last; do :; done\nunset GIT_DIR\nexec sh -c "$last"')


def saying_ssh(t, said):
    """The variables with which it sends a file, and then reads its input to the end."""
    return {**shell_ssh(t, 'cat "$SAID"; exec > /dev/null; cat > /dev/null'), "SAID": str(said)}


def frame(text):
    return f"{len(text) + 4:04x}".encode() + text


GREETING = frame(b"version 2\n") + frame(b"ls-refs=unborn\n") + frame(b"fetch=shallow\n") + frame(b"object-format=sha1\n") + b"0000"

# Over pipes, for the program alone


@contextlib.contextmanager
def ended_after(begun):
    """Kills a program and its processes at the end of a block."""
    try:
        yield begun
    finally:
        end_session(begun)


def serve(t, room, command):
    """Starts a server over two pipes of a folder."""
    for end in ("from", "to"):
        os.mkfifo(room / end)
    return ended_after(t.begin("sh", "-c", f'exec < "$0/to" > "$0/from"; {command}', room, more={"GIT_PROTOCOL": "version=2"}))


# On loopback


def has_loopback():
    try:
        with socket.create_server(("127.0.0.1", 0)) as listener, socket.create_connection(listener.getsockname(), 5):
            return True
    except OSError:
        return False


def free_port():
    with socket.socket() as found:
        found.bind(("127.0.0.1", 0))
        return found.getsockname()[1]


def wait_for_port(port, begun):
    for _ in range(200):
        with socket.socket() as tried:
            if tried.connect_ex(("127.0.0.1", port)) == 0:
                return
        if begun.poll() is not None:
            break
        time.sleep(0.05)
    raise RuntimeError(f"nothing listens at port {port}")


@contextlib.contextmanager
def daemon_of(t, folder, log=os.devnull):
    """Runs git daemon over a folder. Yields its port."""
    port = free_port()
    words = [f"--port={port}", "--listen=127.0.0.1", "--export-all", f"--base-path={folder}", "--reuseaddr", "--verbose", folder]
    with open(log, "a") as told, ended_after(t.begin("git", "daemon", *words, stderr=told)) as begun:
        wait_for_port(port, begun)
        yield port


def sshd_program():
    """The path of sshd, or None."""
    return shutil.which("sshd", path=f"{os.environ['PATH']}:/usr/sbin:/usr/local/sbin") if shutil.which("ssh") else None


def sshd_files(t, port):
    """Makes a folder with a host key, a user key, and a configuration of sshd that accepts no other."""
    room = t.folder("sshd")
    room.mkdir()
    for key in ("host", "user"):
        t.run("ssh-keygen", "-q", "-t", "ed25519", "-N", "", "-f", room / key)
    (room / "known").write_text(f"[127.0.0.1]:{port} {(room / 'host.pub').read_text()}")
    (room / "config").write_text(
        f"Port {port}\nListenAddress 127.0.0.1\nHostKey {room}/host\nAuthorizedKeysFile {room}/user.pub\nPidFile none\n"
        "UsePAM no\nStrictModes no\nPasswordAuthentication no\nKbdInteractiveAuthentication no\nAcceptEnv GIT_PROTOCOL\n")
    return room


def why_no_sshd(t):
    """Why sshd can't run here, or None."""
    if not sshd_program():
        return "it is not installed"
    status, out, err = t.run(sshd_program(), "-t", "-f", sshd_files(t, 1) / "config")
    return err.strip().splitlines()[0] if status else ""


@contextlib.contextmanager
def sshd_of(t):
    """Runs sshd with its own keys and configuration. Yields the beginning of its URLs, and the variables for ssh."""
    port = free_port()
    room = sshd_files(t, port)
    with open(room / "log", "a") as told, ended_after(t.begin(sshd_program(), "-D", "-e", "-f", room / "config", stderr=told)) as begun:
        wait_for_port(port, begun)
        known = f"-o UserKnownHostsFile={room}/known -o GlobalKnownHostsFile=none"
        command = f"ssh -F none -i {room}/user -o IdentitiesOnly=yes -o BatchMode=yes {known}"
        yield f"ssh://{getpass.getuser()}@127.0.0.1:{port}", {"GIT_SSH_COMMAND": command, "GIT_SSH_VARIANT": "ssh"}


if __name__ == "__main__" and sys.argv[1:2] == ["as-ssh"]:
    as_ssh()
