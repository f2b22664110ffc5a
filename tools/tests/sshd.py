"""A real sshd on 127.0.0.1 that a test starts, with keys of its own, and stops."""

import contextlib
import getpass
import os
import pathlib
import socket
import subprocess
import tempfile
import time

from tests.packages import sshd

CONFIG = """
ListenAddress 127.0.0.1
Port {port}
HostKey {folder}/host
AuthorizedKeysFile {folder}/user.pub
PidFile none
StrictModes no
UsePAM no
PasswordAuthentication no
AllowUsers {user}
PermitRootLogin prohibit-password
ForceCommand {forced}
"""


@contextlib.contextmanager
def running(forced):
    """Answers the line of an sshloginfile. Each command that is asked for is run by the script `forced`."""
    with tempfile.TemporaryDirectory() as path, contextlib.ExitStack() as stack:
        folder = pathlib.Path(path)
        for name in ("host", "user"):
            subprocess.run(["ssh-keygen", "-q", "-t", "ed25519", "-N", "", "-f", folder / name], check=True)
        port = _free_port()
        (folder / "config").write_text(CONFIG.format(port=port, folder=folder, user=getpass.getuser(), forced=forced))
        if os.getuid() == 0:
            # The folder of the privilege separation, which the service makes where it runs.
            pathlib.Path("/run/sshd").mkdir(mode=0o755, exist_ok=True)
        log = stack.enter_context(open(folder / "log", "w"))
        server = subprocess.Popen([sshd(), "-D", "-e", "-f", folder / "config"], stdin=subprocess.DEVNULL, stderr=log)
        stack.callback(server.wait)
        stack.callback(server.terminate)
        _wait_for(server, port, folder / "log")
        yield f"ssh -p {port} -i {folder}/user -o StrictHostKeyChecking=no -o UserKnownHostsFile=/dev/null -o LogLevel=ERROR {getpass.getuser()}@127.0.0.1"


def _free_port():
    with socket.socket() as probe:
        probe.bind(("127.0.0.1", 0))
        return probe.getsockname()[1]


def _wait_for(server, port, log):
    for _ in range(100):
        with contextlib.suppress(OSError), socket.create_connection(("127.0.0.1", port), 1):
            return
        if server.poll() is not None:
            break
        time.sleep(0.1)
    raise AssertionError(f"sshd doesn't answer: {log.read_text()}")
