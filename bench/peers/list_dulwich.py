"""dulwich_refs.py URL: the refs of a server by dulwich, a line with id and name each."""
import sys

from dulwich.client import get_transport_and_path

client, path = get_transport_and_path(sys.argv[1])
for name, value in client.get_refs(path.encode()).items():
    sys.stdout.buffer.write(value + b"\t" + name + b"\n")
