#!/usr/bin/env python3
"""nbdj on a machine that boots: a guest of Debian under QEMU, without KVM, where the package is installed, systemd runs the units and Linux's own
client attaches /dev/nbd0. NBDJ names the program.

usage: tests/guest.py [TRIAL ..]          (TRIAL: the name of one of the functions below that `TRIALS` lists; by default all, in its order)

It takes some minutes for each trial and 4 GiB of disk, so ./test doesn't run it. It needs root, and of Debian debootstrap, qemu-system-x86 and
e2fsprogs; it says what is missing, and then checks nothing. debootstrap makes the guest's disk once, in ~/.cache/nbdj-guest; KEEP_LOGS names a
folder for the guests' consoles. With CACHE=ordered the service has that cache mode, and the trial `power` has to fail, because confirmed records
are lost then. Prints a line for each trial, and one for each check that fails; last 'N passed, M failed'.

A power cut is a kill of the guest's QEMU: what the guest hadn't given to its disk is lost; the rest is there, synced or not.
"""
import contextlib
import hashlib
import io
import json
import os
import re
import shutil
import signal
import socket
import subprocess
import sys
import tarfile
import tempfile
import time

import checks
from checks import TOP, check

SUITE, MIRROR = "bookworm", "http://deb.debian.org/debian"
PACKAGES = ["systemd", "systemd-sysv", "udev", "linux-image-amd64", "kmod", "iproute2", "iputils-arping", "nbd-client", "python3", "python3-libnbd"]
# Written into the guest's disk: what answers on the port of commands, and the network that QEMU gives.
FILES = {
    "etc/hostname": "guest\n",
    "etc/fstab": "/dev/vda / ext4 defaults 0 1\n",
    "etc/initramfs-tools/conf.d/guest": "MODULES=list\n",
    "etc/initramfs-tools/modules": "virtio_pci\nvirtio_blk\next4\n",
    "etc/systemd/system/agent.service": """[Unit]
After=multi-user.target
[Service]
ExecStart=/usr/bin/python3 /usr/local/lib/agent.py
Restart=always
[Install]
WantedBy=dev-virtio\\x2dports-commands.device
""",
    "etc/systemd/network/guest.network": "[Match]\nName=en*\n[Network]\nDHCP=ipv4\n",
}
BESIDE = {"usr/local/lib/agent.py": "tests/guest/agent.py", "usr/local/lib/records.py": "tests/guest/records.py", "usr/local/lib/client.py": "tests/failover/client.py"}
SOCKET = "/run/nbdj-data/socket"
CLIENT = f"python3 /usr/local/lib/client.py 'nbd+unix:///?socket={SOCKET}'"
CACHE = os.environ.get("CACHE")
# The parts of ./test that a guest runs: what the program does in the kernel of a whole machine. All of it would take hours without KVM, and
# release.sh wants the demo to take at most five seconds.
PARTS = ["streams.sh", "devices.sh"]
# What a trial prints besides its time.
told = []


def read(path):
    with open(path, encoding="utf-8") as file:
        return file.read()


def made_disk():
    """The folder with the disk, the kernel and the initial file system of a guest, which are made if they don't exist."""
    files = FILES | {place: read(f"{TOP}/{source}") for place, source in BESIDE.items()}
    recipe = json.dumps([SUITE, MIRROR, PACKAGES, files], sort_keys=True)
    folder = os.path.expanduser(f"~/.cache/nbdj-guest/{hashlib.sha256(recipe.encode()).hexdigest()[:16]}")
    if os.path.exists(f"{folder}/disk"):
        return folder
    begin = time.monotonic()
    os.makedirs(os.path.dirname(folder), exist_ok=True)
    with tempfile.TemporaryDirectory(dir=os.path.dirname(folder)) as apart:
        root = f"{apart}/root"
        packed = ",".join(PACKAGES)
        with open(f"{apart}/log", "wb") as log:
            def run(*command):
                if subprocess.run(command, stdin=subprocess.DEVNULL, stdout=log, stderr=log, env=os.environ | {"LC_ALL": "C", "DEBIAN_FRONTEND": "noninteractive"}, check=False).returncode:
                    sys.exit(f"{' '.join(command)}: failed\n{read(log.name)[-2000:]}")

            run("debootstrap", "--variant=minbase", f"--include={packed}", SUITE, root, MIRROR)
            for place, text in files.items():
                os.makedirs(os.path.dirname(f"{root}/{place}"), exist_ok=True)
                with open(f"{root}/{place}", "w", encoding="utf-8") as file:
                    file.write(text)
            run("systemctl", f"--root={root}", "enable", "agent.service", "systemd-networkd.service")
            run("chroot", root, "update-initramfs", "-u")
            run("chroot", root, "apt-get", "clean")
            os.mkdir(f"{apart}/made")
            run("mkfs.ext4", "-q", "-d", root, f"{apart}/made/disk", "3G")
            for name in ("vmlinuz", "initrd.img"):
                shutil.copyfile(f"{root}/{name}", f"{apart}/made/{name}")
        os.rename(f"{apart}/made", folder)
    print(f"the guest's disk: made in {time.monotonic() - begin:.0f} s", flush=True)
    return folder


class Guest:
    """A guest that has booted, over a disk of its own that stays between its starts."""

    def __init__(self, work, name, brought=None):
        self.work, self.name, self.starts = f"{work}/{name}", name, 0
        os.mkdir(self.work)
        self.made = made_disk()
        subprocess.run(["cp", "--sparse=always", f"{self.made}/disk", f"{self.work}/disk"], check=True)
        # Its second disk is a tar archive of files for it.
        with tarfile.open(f"{self.work}/brought", "w") as archive:
            for path, data in (brought or {}).items():
                entry = tarfile.TarInfo(path)
                entry.size, entry.mode = len(data), 0o644
                archive.addfile(entry, io.BytesIO(data))
        with open(f"{self.work}/brought", "ab") as file:
            file.truncate(-(-file.tell() // 512) * 512)
        self.forward = 0

    def start(self):
        """Boots, and returns the seconds until all of its units were up."""
        begin = time.monotonic()
        self.starts += 1
        console = f"{os.environ.get('KEEP_LOGS', self.work)}/{self.name}.{self.starts}.console"
        if not self.forward:
            with socket.socket() as probe:
                probe.bind(("127.0.0.1", 0))
                self.forward = probe.getsockname()[1]
        # (with `-cpu max` under QEMU 7.2, which then has AVX, the guest's mounts failed and no network came up)
        self.process = subprocess.Popen([
            "qemu-system-x86_64", "-nodefaults", "-display", "none", "-no-reboot", "-machine", "q35", "-accel", "tcg,thread=multi", "-cpu", "Nehalem", "-smp", "2", "-m", "1024",
            "-kernel", f"{self.made}/vmlinuz", "-initrd", f"{self.made}/initrd.img", "-append", "root=/dev/vda rw console=ttyS0 mitigations=off systemd.getty_auto=no",
            "-serial", f"file:{console}",
            "-drive", f"file={self.work}/disk,format=raw,if=virtio", "-drive", f"file={self.work}/brought,format=raw,if=virtio,readonly=on",
            "-netdev", f"user,id=net,hostfwd=tcp:127.0.0.1:{self.forward}-:10809", "-device", "virtio-net-pci,netdev=net,romfile=",
            "-device", "virtio-serial",
            "-chardev", f"socket,id=commands,path={self.work}/commands,server=on,wait=off", "-device", "virtserialport,chardev=commands,name=commands",
            "-chardev", f"file,id=progress,path={self.work}/progress", "-device", "virtserialport,chardev=progress,name=progress",
        ], stdin=subprocess.DEVNULL, stdout=subprocess.DEVNULL)
        for _ in range(100):
            if os.path.exists(f"{self.work}/commands"):
                break
            time.sleep(0.1)
        self.port = socket.socket(socket.AF_UNIX)
        self.port.connect(f"{self.work}/commands")
        self.answers = self.port.makefile("rb")
        check(f"{self.name}: it has booted", (0, "running"), self.run("systemctl is-system-running --wait", 1800))
        return time.monotonic() - begin

    def run(self, command, seconds=300):
        """The status and the output of a command there."""
        self.port.settimeout(seconds + 60)
        self.port.sendall(json.dumps([command, seconds]).encode() + b"\n")
        status, output = json.loads(self.answers.readline())
        return status, output.strip()

    def asked(self, name, command, seconds=300):
        """The output of a command there, which has to succeed."""
        status, output = self.run(command, seconds)
        check(f"{name}: {command}", 0, status)
        if status != 0:
            print(f"  {output[-2000:]}", flush=True)
        return output

    def cut(self):
        """Power off."""
        self.process.kill()
        self.process.wait()
        self.port.close()
        os.unlink(f"{self.work}/commands")

    def progress(self):
        """The last number that its writer reported."""
        lines = read(f"{self.work}/progress").split("\n")
        return int(lines[-2]) if len(lines) > 1 else 0

    def progressed(self, number, seconds):
        """Waits until the writer has reported this number."""
        end = time.monotonic() + seconds
        while time.monotonic() < end:
            if self.progress() >= number:
                return True
            time.sleep(0.2)
        return False


def holes():
    """Prints the bytes of the export that are holes; for the guest."""
    return f"""python3 - <<'EOF'
import nbd
h = nbd.NBD()
h.add_meta_context("base:allocation")
h.connect_uri("nbd+unix:///?socket={SOCKET}")
at, holes = 0, 0
def met(context, offset, entries, error):
    global at, holes
    for length, state in zip(entries[::2], entries[1::2]):
        at, holes = at + length, holes + length * (state & 1)
while at < h.get_size():
    h.block_status(h.get_size() - at, at, met)
print(holes)
EOF"""


def package():
    """The bytes of Debian's package of the program."""
    with tempfile.TemporaryDirectory() as folder:
        path = subprocess.run([f"{TOP}/tools/package-deb", folder], capture_output=True, text=True, check=True).stdout.strip()
        with open(path, "rb") as file:
            return file.read()


def bundle():
    """The bytes of a bundle of git with the commit that is checked out."""
    return subprocess.run(["git", "-C", TOP, "bundle", "create", "-q", "-", "HEAD"], capture_output=True, check=True).stdout


class Machines:
    """The guests of the trials: one with the package and a served image, and one that is a client over the network."""

    def __init__(self, work):
        self.work = work
        self.server = Guest(work, "server", {"nbdj.deb": package(), "nbdj.bundle": bundle()})
        self.peer = None


def installed(machines):
    """The guest boots, apt installs the package, and an image is served as docs/GUIDE.md says."""
    guest = machines.server
    took = guest.start()
    told.append(f"booted in {took:.0f} s, {guest.run('uname -r')[1]}")
    check("booted within 6 minutes", True, took < 360)
    guest.asked("the package", "mkdir /root/brought && tar -C /root/brought -xf /dev/vdb")
    guest.asked("the package", "apt-get install -y /root/brought/nbdj.deb")
    version = re.search(r"^## ([0-9.]+)", read(f"{TOP}/CHANGELOG.md"), re.M)[1]
    check("the program", f"nbdj {version}", guest.asked("the program", "nbdj --version"))
    check("the user", "/var/lib/nbdj", guest.asked("the user", "getent passwd nbdj | cut -d : -f 6"))
    check("the units", "", guest.asked("the units", "systemd-analyze verify --man=no nbdj@data.service nbdj@data.socket"))
    guest.asked("set up", "install -d -o nbdj -g nbdj /var/lib/nbdj")
    guest.asked("set up", "runuser -u nbdj -- nbdj format /var/lib/nbdj/data.img --size 256M")
    if CACHE:
        drop = "/etc/systemd/system/nbdj@data.service.d"
        guest.asked("set up", f"mkdir -p {drop} && printf '[Service]\\nExecStart=\\nExecStart=nbdj-server /var/lib/nbdj/%%i.img --workers 16 --verbose --cache {CACHE}\\n' >{drop}/cache.conf")
    guest.asked("set up", "systemctl enable --now nbdj@data")
    check("both are active", "active\nactive", guest.asked("both", "systemctl is-active nbdj@data.service nbdj@data.socket"))
    check("both are enabled", "enabled\nenabled", guest.asked("both", "systemctl is-enabled nbdj@data.service nbdj@data.socket"))
    check("the socket", "srw-rw---- nbdj nbdj", guest.asked("the socket", f"stat -c '%A %U %G' {SOCKET}"))
    # (the unit is active before the program is)
    guest.asked("its log", "for n in $(seq 60); do journalctl -u nbdj@data -o cat | grep -q ' serves ' && break; sleep 1; done; journalctl -u nbdj@data -o cat | grep ' serves '")
    check("its user", "nbdj nbdj", guest.asked("its user", "stat -c '%U %G' /proc/$(pidof nbdj || echo none)"))
    rated = guest.asked("its rating", "systemd-analyze security --no-pager nbdj@data.service | tail -n 1")
    told.append(re.search(r"exposure level.*?: (\S+ \S+)", rated)[1])
    check("others are refused", True, "Permission denied" in guest.run(f"runuser -u nobody -- {CLIENT} 0 --patience 1")[1])


class Load:
    """A client in a guest that writes and flushes until it is stopped, however often it has to reconnect."""

    def __init__(self, guest, name, client):
        self.guest, self.name, self.lines = guest, name, f"/root/{name}.lines"
        guest.asked(name, f"rm -f /root/{name}.over; : >{self.lines}; systemd-run --unit={name} --property=RemainAfterExit=yes /bin/sh -c \"exec {client} 0 --until /root/{name}.over --timeout 60 >{self.lines} 2>&1\"")

    def reconnects(self):
        return int(self.guest.run(f"grep -c 'goes on' {self.lines}")[1])

    def goes_on(self, way, command):
        """Runs a command under the load; the client has to have reconnected after it."""
        before = self.reconnects()
        time.sleep(8)
        self.guest.asked(self.name, command)
        for _ in range(90):
            time.sleep(1)
            if self.reconnects() > before:
                break
        check(f"{self.name}: {way}: the client goes on", True, self.reconnects() > before)

    def ends(self):
        self.guest.asked(self.name, f"touch /root/{self.name}.over; while systemctl show -p SubState {self.name} | grep -q running; do sleep 1; done", 180)
        check(f"{self.name}: its end", "ExecMainStatus=0", self.guest.run(f"systemctl show -p ExecMainStatus {self.name}")[1])
        lines = self.guest.run(f"cat {self.lines}")[1]
        check(f"{self.name}: nothing is lost", [], [it for it in lines.split("\n") if "BAD" in it])
        told.append(lines.split("summary: ")[-1].split(" rounds")[0] + " rounds of 4 writes and a FLUSH")


def restarted(machines):
    """Under load the service is restarted, stopped and killed, and clients start it again by its socket."""
    guest = machines.server
    load = Load(guest, "load", CLIENT)
    ways = ["systemctl restart nbdj@data", "systemctl stop nbdj@data", "systemctl kill --signal=KILL nbdj@data", "systemctl stop nbdj@data.socket nbdj@data; systemctl start nbdj@data.socket", "kill -9 $(pidof nbdj)"]
    for way in ways:
        load.goes_on(way, way)
        check(f"load: {way}: it is active", "active", guest.run("systemctl is-active nbdj@data")[1])
    load.ends()
    # A stop stores what was answered, without a FLUSH.
    at = f"import nbd; h = nbd.NBD(); h.connect_uri('nbd+unix:///?socket={SOCKET}')"
    guest.asked("a stop", f"python3 -c \"{at}; h.pwrite(b'q' * 4096, 100 << 20); import subprocess; subprocess.run(['systemctl', 'stop', 'nbdj@data'], check=True)\"")
    check("a stop: what it stored", "b'qqqq'", guest.run(f"python3 -c \"{at}; print(bytes(h.pread(4, 100 << 20)))\"")[1])
    check("nothing has failed", "0 loaded units listed.", guest.run("systemctl list-units --failed --no-legend --no-pager | wc -l | sed 's/$/ loaded units listed./'")[1])


def kernel(machines):
    """Linux's client attaches the image: a file system, its trims, its check, by one connection and by four, and after a kill."""
    guest = machines.server
    guest.asked("attach", "modprobe nbd")
    name, wanted = "kernel, long requests", "/sys/block/nbd0/queue/max_sectors_kb"
    guest.asked(name, f"nbd-client -unix {SOCKET} /dev/nbd0")
    told.append(f"max_sectors_kb {guest.asked(name, f'cat {wanted}')} of itself")
    into = "dd if=/dev/zero of=/dev/nbd0 bs=4M count=2 oflag=direct conv=fsync"
    guest.asked(name, f"echo 1024 >{wanted} && {into}")
    # (a request over the limit is refused, so the guide has the line with max_sectors_kb)
    guest.asked(name, f"echo 4096 >{wanted}")
    check(f"{name}: one of 4 MiB", (1, True), (lambda status, said: (status, "Input/output error" in said))(*guest.run(into)))
    guest.asked(name, "nbd-client -d /dev/nbd0")
    for connections in (1, 4):
        name = f"kernel, {connections} connections"
        guest.asked(name, f"nbd-client -unix {SOCKET} /dev/nbd0 -C {connections}")
        guest.asked(name, "echo 1024 >/sys/block/nbd0/queue/max_sectors_kb")
        check(f"{name}: its size", str(256 << 20), guest.asked(name, "blockdev --getsize64 /dev/nbd0"))
        guest.asked(name, "blkdiscard /dev/nbd0")
        guest.asked(name, "mkfs.ext4 -q -F /dev/nbd0")
        guest.asked(name, "mkdir -p /mnt/n && mount /dev/nbd0 /mnt/n")
        guest.asked(name, "for n in 1 2 3 4; do dd if=/dev/urandom of=/mnt/n/$n bs=1M count=16 conv=fsync status=none & done; wait; sha256sum /mnt/n/? >/root/sums")
        guest.asked(name, "rm /mnt/n/1 && sync")
        before = int(guest.asked(name, holes()))
        guest.asked(name, "fstrim -v /mnt/n && umount /mnt/n")
        # (the file system has written something meanwhile)
        grown = int(guest.asked(name, holes())) - before
        told.append(f"a trim made {grown / (1 << 20):.1f} MiB of holes")
        check(f"{name}: a trim makes holes of a file of 16 MiB", True, grown > 8 << 20)
        guest.asked(name, "e2fsck -f -n /dev/nbd0")
        guest.asked(name, "nbd-client -d /dev/nbd0")
        guest.asked(name, "systemctl restart nbdj@data")
        guest.asked(name, f"nbd-client -unix {SOCKET} /dev/nbd0 -C {connections}")
        guest.asked(name, "mount /dev/nbd0 /mnt/n && grep -v /1$ /root/sums | sha256sum -c --quiet && umount /mnt/n")
        guest.asked(name, "nbd-client -d /dev/nbd0")
    name = "kernel, a kill"
    guest.asked(name, f"nbd-client -unix {SOCKET} /dev/nbd0 -C 4 && mount /dev/nbd0 /mnt/n")
    guest.asked(name, "setsid python3 /usr/local/lib/records.py write /mnt/n/records /root/progress >/dev/null 2>&1 & sleep 10; kill -9 $(pidof nbdj); sleep 2; tail -n 1 /root/progress >/root/confirmed; umount -l /mnt/n; nbd-client -d /dev/nbd0; sleep 2")
    guest.asked(name, f"nbd-client -unix {SOCKET} /dev/nbd1 -C 4 && mount /dev/nbd1 /mnt/n")
    confirmed, found = int(guest.run("cat /root/confirmed")[1] or 0), guest.asked(name, "python3 /usr/local/lib/records.py read /mnt/n/records")
    told.append(f"killed after {confirmed} confirmed records")
    check(f"{name}: something was confirmed", True, confirmed > 0)
    check(f"{name}: what was confirmed is there", True, int(found.split()[0]) >= confirmed)
    guest.asked(name, "umount /mnt/n && e2fsck -f -n /dev/nbd1; s=$?; nbd-client -d /dev/nbd1; exit $s")


def power(machines):
    """The server's guest loses power, twice, while a second guest writes to the image over the network and syncs."""
    guest = machines.server
    guest.asked("by the network", "mkdir -p /etc/systemd/system/nbdj@data.socket.d && printf '[Socket]\\nListenStream=10809\\n' >/etc/systemd/system/nbdj@data.socket.d/network.conf && systemctl daemon-reload && systemctl stop nbdj@data.socket nbdj@data && systemctl start nbdj@data")
    peer = machines.peer = Guest(machines.work, "peer")
    peer.start()
    attach = f"nbd-client 10.0.2.2 {guest.forward} /dev/nbd"
    peer.asked("power", "for n in $(seq 60); do ip -4 -o address show scope global | grep -q inet && break; sleep 1; done")
    peer.asked("power", f"modprobe nbd && {attach}0 && mkfs.ext4 -q -F /dev/nbd0 && mkdir -p /mnt/n && mount /dev/nbd0 /mnt/n")
    for number in (1, 2):
        name = f"power cut {number}"
        before = peer.progress()
        peer.asked(name, "systemd-run --collect --unit=writes python3 /usr/local/lib/records.py write /mnt/n/records /dev/virtio-ports/progress")
        check(f"{name}: records are confirmed", True, peer.progressed(before + 40 * number, 600))
        guest.cut()
        confirmed = peer.progress()
        # (a request of the kernel without an answer waits until the device is released)
        peer.asked(name, f"nbd-client -d /dev/nbd{number - 1}; systemctl stop writes; umount -l /mnt/n; sleep 2")
        took = guest.start()
        confirmed = max(confirmed, peer.progress())
        check(f"{name}: it is active again", "active", guest.run("systemctl is-active nbdj@data")[1])
        # (another device, because the one before may still be in use)
        peer.asked(name, f"{attach}{number} && mount /dev/nbd{number} /mnt/n")
        found = peer.asked(name, "python3 /usr/local/lib/records.py read /mnt/n/records")
        told.append(f"{confirmed} records confirmed, {found.split()[0]} found, booted again in {took:.0f} s")
        check(f"{name}: what was confirmed is there", True, int(found.split()[0]) >= confirmed)
    peer.asked("power", "umount /mnt/n && e2fsck -f -n /dev/nbd2; s=$?; nbd-client -d /dev/nbd2; exit $s")


def standby(machines):
    """nbdj-failover@data on one host with a local disk: its sandbox lets it take the address, restart, and give the address back."""
    guest = machines.server
    unit = "nbdj-failover@data"
    guest.asked("standby", "ip link add dummy0 type dummy && ip link set dummy0 up && mkdir -p /srv/nbdj /etc/nbdj && nbdj format /srv/nbdj/data.img --size 16M")
    guest.asked("standby", "printf '%s\\n' ADDRESS=192.0.2.10/24 INTERFACE=dummy0 >/etc/nbdj/failover-data")
    check("standby: its unit", "", guest.asked("standby", f"systemd-analyze verify --man=no {unit}.service"))
    guest.asked("standby", "systemctl stop nbdj@data.socket nbdj@data")
    guest.asked("standby", f"systemctl enable --now {unit}")
    held = "ip -o address show dev dummy0 | grep -c 192.0.2.10"
    await_held = f"for n in $(seq 100); do {held} >/dev/null && break; sleep 0.2; done; {held}"
    check("standby: it has the address", "1", guest.run(await_held)[1])
    client = CLIENT.replace(f"nbd+unix:///?socket={SOCKET}", "nbd://192.0.2.10")
    load = Load(guest, "callers", client)
    load.goes_on("a kill", "kill -9 $(pidof nbdj)")
    check("standby: it has the address after a kill", "1", guest.run(await_held)[1])
    load.goes_on("a kill of all", f"systemctl kill --signal=KILL {unit}")
    check("standby: it has the address after a kill of all", "1", guest.run(await_held)[1])
    load.ends()
    guest.asked("standby", f"systemctl stop {unit}")
    check("standby: the address is given back", "0", guest.run(held)[1])
    told.append(re.search(r"exposure level.*?: (\S+ \S+)", guest.asked("standby", f"systemd-analyze security --no-pager {unit}.service | tail -n 1"))[1])
    guest.asked("standby", f"systemctl disable {unit}; systemctl start nbdj@data.socket")


def fresh(machines):
    """A clone of the repository on a machine that has nothing but Debian: the demo, and parts of ./test."""
    guest = machines.server
    # (what the demo and `PARTS` need; all of tools/install-clients would take long)
    guest.asked("fresh", "echo force-unsafe-io >/etc/dpkg/dpkg.cfg.d/fresh; apt-get update -qq", 600)
    guest.asked("fresh", "DEBIAN_FRONTEND=noninteractive apt-get install -y -qq --no-install-recommends git xz-utils dmsetup fdisk libnbd-bin procps psmisc", 2400)
    guest.asked("fresh", "git clone -q /root/brought/nbdj.bundle /root/nbdj", 600)
    start = time.monotonic()
    check("fresh: the demo", "The demo passed.", guest.asked("fresh", "cd /root/nbdj && ./demo", 600).split("\n")[-1])
    told.append(f"the demo {time.monotonic() - start:.0f} s")
    guest.asked("fresh", "modprobe -a nbd loop dm_mod fuse")
    for part in PARTS:
        start = time.monotonic()
        said = guest.asked(f"fresh, {part}", f"cd /root/nbdj && NBDJ=$(tools/get-program) tests/{part} 2>&1", 7200)
        counted = re.fullmatch(r"(\d+) passed, 0 failed", said.split("\n")[-1])
        check(f"fresh, {part}: nothing fails", True, counted is not None and int(counted[1]) > 0)
        for line in said.split("\n"):
            if line.startswith("skipped: "):
                print(f"  {part}: {line}", flush=True)
        told.append(f"{part} {counted[1] if counted else 'no'} checks in {time.monotonic() - start:.0f} s")


TRIALS = [installed, restarted, kernel, standby, power, fresh]


def missing():
    if os.geteuid() != 0:
        return "not root"
    for program in ("debootstrap", "qemu-system-x86_64", "mkfs.ext4", "dpkg-deb"):
        if not shutil.which(program, path=f"{os.environ['PATH']}:/usr/sbin:/sbin"):
            return f"there is no {program}"
    return None


def main():
    lacks = missing()
    if lacks:
        print(f"skipped: {lacks}")
        return
    begin = time.monotonic()
    names = sys.argv[1:]
    unknown = [it for it in names if it not in [trial.__name__ for trial in TRIALS]]
    if unknown:
        sys.exit(f"guest.py: there is no trial {unknown[0]}")
    # (so that the guests end too)
    signal.signal(signal.SIGTERM, lambda *_: sys.exit(1))
    made_disk()
    with tempfile.TemporaryDirectory() as work:
        machines = Machines(work)
        try:
            # The others use what the first one sets up.
            for trial in TRIALS:
                if trial is not installed and names and trial.__name__ not in names:
                    continue
                told.clear()
                start = time.monotonic()
                try:
                    trial(machines)
                except (OSError, ValueError, IndexError, TypeError) as fault:
                    check(f"{trial.__name__}: its end", None, repr(fault))
                print(f"{trial.__name__}: {time.monotonic() - start:.0f} s{''.join(f', {it}' for it in told)}", flush=True)
        finally:
            for guest in (machines.server, machines.peer):
                if guest is not None and hasattr(guest, "process"):
                    with contextlib.suppress(OSError):
                        guest.cut()
    print(f"{time.monotonic() - begin:.0f} s")
    sys.exit(checks.finish())


main()
