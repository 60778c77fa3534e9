"""What carries the lines of one door to another one: TCP alone, `ssh` with a key and a forced command for each machine,
TLS (`socat`) with a certificate for each machine, or a broker (`mosquitto`) with such certificates. Nothing of it is
ours but the words of the commands (docs/LIVE.md)."""
from __future__ import annotations

import getpass
import os
import shlex
import shutil
import subprocess
import sys
from typing import NamedTuple

HERE = os.path.dirname(os.path.realpath(__file__))
CARRY, PEER = f"{HERE}/carry.py", os.path.realpath(f"{HERE}/../../door-peer")
SSHD = "/usr/sbin/sshd"
BROKER = shutil.which("mosquitto", path=f"{os.environ.get('PATH', '')}:/usr/sbin")
NEW = ["openssl", "req", "-newkey", "ec", "-pkeyopt", "ec_paramgen_curve:prime256v1", "-nodes", "-days", "365"]
EXAMPLES = os.path.realpath(f"{HERE}/../../../examples/live")


class Place(NamedTuple):
    """Where a machine listens to the door of another one."""

    host: str
    port: str


def made(*words: str) -> None:
    """Runs a command that has to go well."""
    subprocess.run(words, check=True, stdin=subprocess.DEVNULL, capture_output=True)


class Tcp:
    """Octets as they are: who reaches the port is the machine."""

    name = "tcp"

    def __init__(self, folder: str, machines: list[int]) -> None:
        self.folder, self.machines = folder, machines

    @staticmethod
    def is_there() -> bool:
        """Whether its programs are installed."""
        return True

    def prepare(self) -> None:
        """Makes what the machines have to have before they listen."""

    def servers(self, place: Place) -> list[list[str]]:
        """The commands that run at one machine for all of them, which may listen there."""
        return []

    def listener(self, machine: int, other: int, place: Place, socket: str) -> list[str]:
        """The command that listens at a machine for another one, and leads it to this socket."""
        return [sys.executable, CARRY, "--listen", *place, socket]

    def via(self, machine: int, other: int, place: Place) -> list[str]:
        """The command by which a machine reaches another one, which listens there."""
        return [sys.executable, CARRY, *place]


class Ssh(Tcp):
    """`ssh`: a key without a pass phrase for each machine, which leads to one command alone."""

    name = "ssh"

    @staticmethod
    def is_there() -> bool:
        return os.path.exists(SSHD) and shutil.which("ssh") is not None

    def key(self, name: str) -> str:
        return f"{self.folder}/keys/{name}"

    def public(self, name: str) -> str:
        with open(f"{self.key(name)}.pub", encoding="ascii") as file:
            return file.read().strip()

    def prepare(self) -> None:
        os.makedirs(f"{self.folder}/keys", exist_ok=True)
        # (the folder that sshd wants if it is root)
        if os.geteuid() == 0:
            os.makedirs("/run/sshd", mode=0o755, exist_ok=True)
        for name in (f"{kind}{machine}" for machine in self.machines for kind in ("host", "door")):
            if not os.path.exists(self.key(name)):
                made("ssh-keygen", "-q", "-t", "ed25519", "-N", "", "-C", name, "-f", self.key(name))

    def listener(self, machine: int, other: int, place: Place, socket: str) -> list[str]:
        own = self.key(f"to{machine}from{other}")
        with open(f"{own}.authorized", "w", encoding="ascii") as file:
            file.write(f'restrict,command="{sys.executable} {PEER} {socket}" {self.public(f"door{other}")}\n')
        settings = {
            "Port": place.port, "ListenAddress": place.host, "HostKey": self.key(f"host{machine}"), "PidFile": "none",
            "AuthorizedKeysFile": f"{own}.authorized", "PasswordAuthentication": "no",
            "KbdInteractiveAuthentication": "no", "PermitRootLogin": "forced-commands-only", "StrictModes": "no",
            "UsePAM": "no", "LogLevel": "ERROR",
        }  # fmt: skip
        with open(f"{own}.config", "w", encoding="ascii") as file:
            file.writelines(f"{word} {value}\n" for word, value in settings.items())
        return [SSHD, "-D", "-e", "-f", f"{own}.config"]

    def via(self, machine: int, other: int, place: Place) -> list[str]:
        """The command that reaches a machine with the key of this one."""
        known = self.key(f"known{machine}to{other}")
        with open(known, "w", encoding="ascii") as file:
            file.write(f"[{place.host}]:{place.port} {self.public(f'host{other}')}\n")
        options = [
            "BatchMode=yes",
            "ConnectTimeout=2",
            "ServerAliveInterval=1",
            "ServerAliveCountMax=2",
            "IdentitiesOnly=yes",
        ]
        options += [f"UserKnownHostsFile={known}", "StrictHostKeyChecking=yes", "LogLevel=ERROR"]
        words = ["ssh", "-F", "none", "-i", self.key(f"door{machine}"), "-p", place.port]
        return [*words, *(word for it in options for word in ("-o", it)), f"{getpass.getuser()}@{place.host}"]


class Tls(Tcp):
    """TLS by `socat`: a certificate for each machine, which one authority signed. Each listener takes the one of its
    machine alone."""

    name = "tls"

    @staticmethod
    def is_there() -> bool:
        return shutil.which("socat") is not None and shutil.which("openssl") is not None

    def file(self, name: str) -> str:
        return f"{self.folder}/certificates/{name}"

    def prepare(self) -> None:
        os.makedirs(f"{self.folder}/certificates", exist_ok=True)
        if os.path.exists(self.file("authority.pem")):
            return
        authority = ["-keyout", self.file("authority.key"), "-out", self.file("authority.pem")]
        made(*NEW, "-x509", "-subj", "/CN=authority", *authority)
        for name in (f"host{machine}" for machine in self.machines):
            self.certificate(name)

    def certificate(self, name: str, more: str = "") -> None:
        """Makes a key and a certificate of this name, which the authority signs, with an extension if there is more."""
        key, request, signed = (self.file(f"{name}.{it}") for it in ("key", "request", "crt"))
        made(*NEW, "-subj", f"/CN={name}", "-keyout", key, "-out", request, *(["-addext", more] if more else []))
        by = [
            "-CA",
            self.file("authority.pem"),
            "-CAkey",
            self.file("authority.key"),
            "-CAcreateserial",
            "-days",
            "365",
        ]
        made("openssl", "x509", "-req", "-in", request, *by, "-copy_extensions", "copy", "-out", signed)
        with open(self.file(f"{name}.pem"), "w", encoding="ascii") as both:
            for part in (key, signed):
                with open(part, encoding="ascii") as one:
                    both.write(one.read())

    def options(self, own: int, other: int) -> str:
        return f"cert={self.file(f'host{own}.pem')},cafile={self.file('authority.pem')},verify=1,commonname=host{other}"

    def listener(self, machine: int, other: int, place: Place, socket: str) -> list[str]:
        listens = f"OPENSSL-LISTEN:{place.port},bind={place.host},reuseaddr,fork,nodelay,{self.options(machine, other)}"
        return ["socat", "-T", "600", listens, f"UNIX-CONNECT:{socket}"]

    def via(self, machine: int, other: int, place: Place) -> list[str]:
        reaches = f"OPENSSL-CONNECT:{place.host}:{place.port},connect-timeout=2,nodelay,{self.options(machine, other)}"
        return ["socat", "-", reaches]


class Mqtt(Tls):
    """A broker, `mosquitto`, to which each machine comes with its certificate. Its list says which topics are whose."""

    name = "mqtt"

    @staticmethod
    def is_there() -> bool:
        return BROKER is not None and all(map(shutil.which, ("mosquitto_pub", "mosquitto_sub", "openssl")))

    def servers(self, place: Place) -> list[list[str]]:
        self.place = place
        self.certificate("broker", f"subjectAltName=IP:{place.host}")
        with open(f"{EXAMPLES}/mosquitto.conf", encoding="ascii") as file:
            text = file.read().replace("listener 8883", f"listener {place.port} {place.host}")
        for name in ("authority.pem", "broker.crt", "broker.key"):
            text = text.replace(f"/etc/cds/{name}", self.file(name))
        text = text.replace("/etc/cds/mosquitto.acl", f"{EXAMPLES}/mosquitto.acl")
        with open(self.file("mosquitto.conf"), "w", encoding="ascii") as file:
            # (else it becomes another user, who may not read these files)
            file.write(f"{text}user {getpass.getuser()}\n")
        return [[BROKER or "mosquitto", "-c", self.file("mosquitto.conf")]]

    def broker(self, own: int) -> list[str]:
        """The words by which a machine comes to the broker."""
        files = ["--cafile", self.file("authority.pem"), "--cert", self.file(f"host{own}.crt")]
        return ["-h", self.place.host, "-p", self.place.port, *files, "--key", self.file(f"host{own}.key")]

    def stream(self, own: int, *words: str) -> list[str]:
        """The stream of a machine to another one."""
        return ["env", f"CDS_BROKER={' '.join(self.broker(own))}", f"{EXAMPLES}/mqtt.sh", f"host{own}", *words]

    def listener(self, machine: int, other: int, place: Place, socket: str) -> list[str]:
        answers = shlex.join([sys.executable, PEER, socket, *self.stream(machine, f"host{other}")])
        return ["sh", "-c", f"while sleep 0.2; do {answers}; done"]

    def via(self, machine: int, other: int, place: Place) -> list[str]:
        return self.stream(machine, f"host{other}", str(other))


TRANSPORTS: dict[str, type[Tcp]] = {it.name: it for it in (Tcp, Ssh, Tls, Mqtt)}
