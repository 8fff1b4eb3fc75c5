"""The guest: Debian's kernel with the programs of its NFS client, in qemu."""

import gzip
import lzma
import os
import re
import shutil
import subprocess
import tempfile
import threading
import time
from pathlib import Path

HERE = Path(__file__).resolve().parent
NAME, ADDRESS, SERVER = "guest", "10.78.0.2", "10.78.0.1"
NEAR_PORT, FAR_PORT = 4100, 4101
# What `init` finds on the kernel's command line.
OPTIONS = {"name": NAME, "address": ADDRESS, "server": SERVER}
# crc32c_generic: ext4 asks for it by its name, so no module names it as needed.
MODULES = ("virtio_pci", "virtio_net", "virtio_blk", "crc32c_generic", "ext4", "nfsv3")
PROGRAMS = ("mount.nfs", "rpc.statd", "sm-notify", "rpcbind", "rpcinfo")
# rpcbind finds its own port by the first three, and its transports by the last.
TABLES = ("services", "protocols", "rpc", "netconfig")
TEXTS = {
    "passwd": "root:x:0:0::/:/bin/sh\nstatd:x:103:65534::/:/bin/false\n_rpc:x:102:65534::/:/bin/false\n",
    "group": "root:x:0:\nnogroup:x:65534:\n",
    "hosts": "127.0.0.1 localhost\n",
    "nsswitch.conf": "".join(f"{table}: files\n" for table in ("hosts", "passwd", "group", "rpc", "services", "protocols")),
}
FOLDERS = ("bin", "sbin", "proc", "sys", "dev", "run", "var/lib/nfs", "etc", "mnt", "tmp", "modules")


class Failed(Exception):
    pass


def path_of(program):
    return shutil.which(program, path=os.environ.get("PATH", "") + ":/usr/sbin:/sbin")


def done(*words, **settings):
    """What a command prints. It fails with the command's own last line."""
    found = subprocess.run([str(word) for word in words], capture_output=True, timeout=300, **settings)
    if found.returncode != 0:
        last = found.stderr.decode(errors="replace").strip().splitlines()[-1:]
        raise Failed(f"{words[0]} ended with status {found.returncode}: {' '.join(last)}")
    return found.stdout


# ---- the kernel, as Debian packs it


def fetch_kernel(folder):
    """The package of this Debian's kernel; apt fetches it, and installs nothing."""
    depends = re.search(r"Depends: (linux-image-\S+)", done("apt-cache", "depends", "linux-image-amd64").decode())
    if depends is None:
        raise Failed("apt knows no linux-image-amd64: run apt-get update")
    done("apt-get", "-o", "APT::Sandbox::User=root", "download", depends[1], cwd=folder)
    return next(folder.glob("linux-image-*.deb"))


def octets_of(module):
    octets = module.read_bytes()
    return lzma.decompress(octets) if module.suffix == ".xz" else octets


def module_name(path):
    return path.name.split(".")[0].replace("-", "_")


def needs_of(octets):
    """The modules that a module names in its section .modinfo."""
    found = re.search(rb"(?:^|\0)depends=([^\0]*)\0", octets)
    return [name.replace("-", "_") for name in found[1].decode().split(",") if name] if found else []


def modules_in_order(paths, wanted):
    """Names and octets of the wanted modules, each behind those that it needs; what isn't there is built in."""
    found = {}

    def visit(name):
        if name in found or name not in paths:
            return
        octets = octets_of(paths[name])
        for below in needs_of(octets):
            visit(below)
        found[name] = octets

    for name in wanted:
        visit(name)
    return found


# ---- the guest's first file system


def libraries_of(program):
    """The loader and the libraries of a program; of one that is linked as a whole, none."""
    told = subprocess.run(["ldd", program], capture_output=True, text=True, timeout=30).stdout
    return re.findall(r"(/\S+) \(0x", told)


def add_program(root, program, place):
    shutil.copy(program, root / place)
    for library in libraries_of(program):
        copy = root / library[1:]
        copy.parent.mkdir(parents=True, exist_ok=True)
        shutil.copy(library, copy)


def add_modules(root, kernel):
    paths = {module_name(path): path for path in kernel.glob("**/*.ko*")}
    found = modules_in_order(paths, MODULES)
    for name, octets in found.items():
        (root / "modules" / name).write_bytes(octets)
    (root / "modules/order").write_text("".join(f"{name}\n" for name in found))


def add_files(root):
    for folder in FOLDERS:
        (root / folder).mkdir(parents=True)
    (root / "var/run").symlink_to("/run")
    for table in TABLES:
        shutil.copy(f"/etc/{table}", root / "etc")
    for name, text in TEXTS.items():
        (root / "etc" / name).write_text(text)
    add_program(root, path_of("busybox"), "bin/busybox")
    for program in PROGRAMS:
        add_program(root, path_of(program), f"sbin/{program}")
    done("gcc", "-O2", "-static", "-o", root / "bin/locker", HERE / "locker.c")
    shutil.copy(HERE / "init", root / "init")
    (root / "init").chmod(0o755)


def build(package, folder):
    """Makes `vmlinuz`, `initrd` and `disk` in the folder; gives the kernel's version."""
    with tempfile.TemporaryDirectory(dir=folder) as name:
        kernel, root = Path(name) / "kernel", Path(name) / "root"
        done("dpkg-deb", "-x", package, kernel)
        image = next(kernel.glob("boot/vmlinuz-*"))
        shutil.copy(image, folder / "vmlinuz")
        add_files(root)
        add_modules(root, kernel)
        names = "".join(f"{path.relative_to(root)}\n" for path in sorted(root.rglob("*")))
        archive = done("cpio", "--quiet", "-o", "-H", "newc", cwd=root, input=names.encode())
        (folder / "initrd").write_bytes(gzip.compress(archive, 1))
    (folder / "disk").write_bytes(b"")
    os.truncate(folder / "disk", 16 << 20)
    done(path_of("mkfs.ext4"), "-q", folder / "disk")
    return image.name.removeprefix("vmlinuz-")


# ---- the guest as it runs


def answer_of(line):
    """Name and words of an answer of the guest, `@ NAME WORDS`; of another line None."""
    found = re.match(r"@ (\S+) (\S.*)", line.strip())
    return (found[1], found[2].strip()) if found else None


class Guest:
    """A machine that runs. What it says on its serial line goes to a file, too."""

    def __init__(self, folder, told):
        self.answers, self.told = [], told
        words = ["console=ttyS0 quiet loglevel=1 panic=-1", *(f"lockd.{key}={value}" for key, value in OPTIONS.items())]
        line = ["qemu-system-x86_64", "-accel", "tcg", "-m", "512", "-nodefaults", "-display", "none", "-no-reboot"]
        line += ["-serial", "stdio", "-kernel", folder / "vmlinuz", "-initrd", folder / "initrd", "-append", " ".join(words)]
        line += ["-drive", f"file={folder / 'disk'},if=virtio,format=raw", "-device", "virtio-net-pci,netdev=cable,romfile="]
        line += ["-netdev", f"socket,id=cable,udp=127.0.0.1:{NEAR_PORT},localaddr=127.0.0.1:{FAR_PORT}"]
        pipes = {"stdin": subprocess.PIPE, "stdout": subprocess.PIPE, "stderr": subprocess.STDOUT}
        self.process = subprocess.Popen([str(word) for word in line], **pipes)
        self.reader = threading.Thread(target=self.read, daemon=True)
        self.reader.start()

    def read(self):
        for octets in self.process.stdout:
            line = octets.decode(errors="replace")
            self.told.write(line)
            self.told.flush()
            answer = answer_of(line)
            if answer:
                self.answers.append((time.monotonic(), *answer))

    def ask(self, line):
        self.process.stdin.write(line.encode() + b"\n")
        self.process.stdin.flush()

    def take(self, name):
        """The first answer of this name, when it came and what it says; None where there is none."""
        for answer in list(self.answers):
            if answer[1] == "failed":
                raise Failed(f"the guest: failed {answer[2]}")
            if answer[1] == name:
                self.answers.remove(answer)
                return answer[0], answer[2]
        return None

    def hear(self, name, seconds):
        """Waits for an answer of this name: when it came, and what it says. Each is heard once."""
        ends = time.monotonic() + seconds
        while time.monotonic() < ends:
            is_over = not self.reader.is_alive()
            found = self.take(name)
            if found:
                return found
            if is_over:
                raise Failed("the guest ended")
            time.sleep(0.01)
        raise Failed(f"the guest told nothing of `{name}` within {seconds} s")

    def kill(self):
        self.process.kill()
        self.process.wait()
        self.reader.join(timeout=5)
        self.process.stdin.close()
        self.process.stdout.close()
